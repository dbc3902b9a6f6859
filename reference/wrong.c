/* The switch of the wrong readings, and their texts. */
#include "wrong.h"

int ref_wrong = W_NONE;

#define WRONG_TEXT(name, text) text,
const char *const wrong_text[W_COUNT] = {"the right reading", WRONG_READINGS(WRONG_TEXT)};
