/* What the parents see: two karts, an exchange, a code that is scanned badly, a ciphertext that is damaged on its way;
 * then maps, which go into the kart that they were written for and into no other. */
#include <stdio.h>
#include <stdlib.h>
#include <string.h>
#include <sys/random.h>

#include "bike.h"
#include "bike_map.h"

enum {
    LEVEL = BIKE_LEVEL_1,
    PUBLIC = BIKE_LEVEL_1_PUBLIC_KEY_BYTES,
    PRIVATE = BIKE_LEVEL_1_PRIVATE_KEY_BYTES,
    CIPHERTEXT = BIKE_LEVEL_1_CIPHERTEXT_BYTES,
    SESSION = BIKE_SESSION_KEY_BYTES,
    MAP = BIKE_MAP_BYTES,
    RECORD = BIKE_MAP_RECORD_BYTES
};

struct controller {
    const char *name;
    uint32_t number;
    uint8_t public_key[PUBLIC]; /* shown as a code */
    uint8_t private_key[PRIVATE];
    uint8_t session_key[SESSION];
    uint8_t map[MAP];
    uint32_t last_counter;
};

struct app {
    uint8_t ciphertext[CIPHERTEXT];
    uint8_t session_key[SESSION];
};

static const char *in_words(uint32_t answer)
{
    static const char *const words[] = {
        [BIKE_DONE] = "done",
        [BIKE_NO_LEVEL] = "there is no such level",
        [BIKE_BAD_LENGTH] = "a buffer has a wrong length",
        [BIKE_BAD_PAD] = "a bit is set that must be 0",
        [BIKE_BAD_POSITION] = "the private key is no key",
        [BIKE_NO_INVERSE] = "this seed gives no key",
        [BIKE_NO_WORDS] = "this seed's words ran out, another is needed",
        [BIKE_MAP_CUT] = "the record ends early",
        [BIKE_MAP_OTHER_KIND] = "this is no map of this level",
        [BIKE_MAP_BAD_BODY] = "the record states a wrong length",
        [BIKE_MAP_OTHER_TAG] = "not written under this session's key",
        [BIKE_MAP_OTHER_KART] = "written for another kart",
        [BIKE_MAP_OLD_COUNTER] = "not newer than the last map",
    };
    return words[answer];
}

static void say_answer(const char *who, const char *what, uint32_t answer)
{
    printf("  %-18s %-34s answer %lu: %s\n", who, what, (unsigned long)answer, in_words(answer));
}

static void say_key(const char *who, const uint8_t *key)
{
    printf("  %-18s session key ", who);
    for (int i = 0; i < SESSION; i++)
        printf("%02x", key[i]);
    printf("\n");
}

/* The story goes on only if what was said before is true. */
static void must(int holds, const char *what)
{
    if (holds)
        return;
    fprintf(stderr, "demo: this must not happen: %s\n", what);
    exit(1);
}

static void random_bytes(uint8_t *bytes, size_t n)
{
    must(getrandom(bytes, n, 0) == (long)n, "no random bytes");
}

static void make(struct controller *kart)
{
    uint8_t seed[BIKE_SEED_BYTES], report[BIKE_REPORT_BYTES];
    random_bytes(seed, sizeof seed);
    uint32_t answer = bike_make_key(LEVEL, seed, sizeof seed, kart->public_key, PUBLIC, kart->private_key, PRIVATE,
                                    report, sizeof report);
    bike_wipe_stack();
    say_answer(kart->name, "makes its key pair", answer);
    must(answer == BIKE_DONE, "no key");
    for (size_t half = 0; half < 2; half++)
        printf("  %-18s words drawn for h%lu: %lu, passed over: %lu\n", kart->name, (unsigned long)half,
               (unsigned long)bike_reported(report, 2 * half), (unsigned long)bike_reported(report, 2 * half + 1));
}

static uint32_t wrap(struct app *app, const uint8_t *scanned, const char *what)
{
    uint8_t message[BIKE_MESSAGE_BYTES];
    random_bytes(message, sizeof message);
    uint32_t answer = bike_wrap(LEVEL, scanned, PUBLIC, message, sizeof message, app->ciphertext, CIPHERTEXT,
                                app->session_key, SESSION);
    bike_wipe_stack();
    say_answer("phone", what, answer);
    say_key("phone", app->session_key);
    return answer;
}

static void open(struct controller *kart, const struct app *app, const char *what)
{
    uint32_t answer = bike_open(LEVEL, kart->private_key, PRIVATE, app->ciphertext, CIPHERTEXT,
                                kart->session_key, SESSION);
    bike_wipe_stack();
    say_answer(kart->name, what, answer);
    say_key(kart->name, kart->session_key);
    must(answer == BIKE_DONE, "not opened");
}

static void exchange(struct app *app, struct controller *kart)
{
    printf("\nThe phone scans the code of %s.\n", kart->name);
    must(wrap(app, kart->public_key, "wraps a fresh message") == BIKE_DONE, "not wrapped");
    open(kart, app, "opens the ciphertext");
    must(memcmp(app->session_key, kart->session_key, SESSION) == 0, "two keys");
    kart->last_counter = BIKE_MAP_NEW_SESSION;
    printf("  Both have the same key.\n");
}

static void bad_scan(struct app *app, const struct controller *kart)
{
    static const uint8_t zeros[SESSION];
    uint8_t scanned[PUBLIC];
    printf("\nThe phone scans the code of %s, badly: its last byte is read as ff.\n", kart->name);
    memcpy(scanned, kart->public_key, PUBLIC);
    scanned[PUBLIC - 1] = 0xff;
    say_key("phone, before", app->session_key);
    must(wrap(app, scanned, "wraps a fresh message") == BIKE_BAD_PAD, "not refused");
    must(memcmp(app->session_key, zeros, SESSION) == 0, "an old key is left");
    printf("  Refused, and nothing of the other kart's key is left.\n");
}

static void damaged(struct app *app, struct controller *kart)
{
    printf("\nThe phone scans the code of %s, and one bit of the ciphertext is turned on the way.\n", kart->name);
    must(wrap(app, kart->public_key, "wraps a fresh message") == BIKE_DONE, "not wrapped");
    app->ciphertext[100] ^= 1;
    open(kart, app, "opens what it got");
    must(memcmp(app->session_key, kart->session_key, SESSION) != 0, "one key");
    printf("  No error, but another key: a map under the phone's key is worth nothing here.\n");
}

static void say_map(const struct controller *kart)
{
    printf("  %-18s stored map ", kart->name);
    for (int i = 0; i < 8; i++)
        printf("%02x", kart->map[i]);
    printf(".., last counter %lu\n", (unsigned long)kart->last_counter);
}

static void write_map(const struct app *app, uint32_t kart, uint32_t counter, uint8_t byte, uint8_t *record)
{
    uint8_t map[MAP];
    char what[40];
    memset(map, byte, MAP);
    snprintf(what, sizeof what, "writes map %02x.. for kart %lu", byte, (unsigned long)kart);
    uint32_t answer = bike_map_write(LEVEL, app->session_key, SESSION, kart, counter, map, MAP, record, RECORD);
    say_answer("phone", what, answer);
    must(answer == BIKE_DONE, "not written");
}

/* The kart gets a record: it must answer so, and keep what it has unless it goes in. */
static void get_map(struct controller *kart, const uint8_t *record, uint32_t wanted)
{
    struct controller before = *kart;
    uint32_t answer = bike_map_accept(LEVEL, kart->session_key, SESSION, kart->number, record, RECORD, kart->map, MAP,
                                      &kart->last_counter);
    say_answer(kart->name, "gets it", answer);
    say_map(kart);
    must(answer == wanted, "another answer");
    must(answer == BIKE_DONE || (memcmp(kart->map, before.map, MAP) == 0 && kart->last_counter == before.last_counter),
         "a refused map left something");
}

static void maps(struct controller *blue, const struct app *to_blue, struct controller *red, const struct app *to_red)
{
    uint8_t record[RECORD];
    memset(blue->map, 0xb0, MAP);
    memset(red->map, 0xd0, MAP);
    printf("\nBoth karts have a map. The phone writes a new one for the blue kart, number %lu.\n",
           (unsigned long)blue->number);
    say_map(blue);
    say_map(red);
    write_map(to_blue, blue->number, 1, 0xb1, record);
    get_map(blue, record, BIKE_DONE);
    printf("\nThe same record comes again, and then goes astray to the red kart.\n");
    get_map(blue, record, BIKE_MAP_OLD_COUNTER);
    get_map(red, record, BIKE_MAP_OTHER_TAG);
    printf("\nA map for the blue kart's number, but under the red kart's session, reaches the red kart.\n");
    write_map(to_red, blue->number, 1, 0xb2, record);
    get_map(red, record, BIKE_MAP_OTHER_KART);
    printf("\nNo map went into the wrong kart.\n");
    say_map(blue);
    say_map(red);
}

/* The same at the highest level: a karting series' controller, whose code is longer. */
static void highest_level(void)
{
    static uint8_t public_key[BIKE_LEVEL_5_PUBLIC_KEY_BYTES], private_key[BIKE_LEVEL_5_PRIVATE_KEY_BYTES];
    static uint8_t ciphertext[BIKE_LEVEL_5_CIPHERTEXT_BYTES];
    uint8_t seed[BIKE_SEED_BYTES], message[BIKE_MESSAGE_BYTES], report[BIKE_REPORT_BYTES];
    uint8_t sent[SESSION], opened[SESSION];
    printf("\nA karting series has Level 5.\n");
    random_bytes(seed, sizeof seed);
    random_bytes(message, sizeof message);
    uint32_t answer = bike_make_key(BIKE_LEVEL_5, seed, sizeof seed, public_key, sizeof public_key, private_key,
                                    sizeof private_key, report, sizeof report);
    bike_wipe_stack();
    say_answer("the series' kart", "makes its key pair", answer);
    answer |= bike_wrap(BIKE_LEVEL_5, public_key, sizeof public_key, message, sizeof message, ciphertext,
                        sizeof ciphertext, sent, SESSION);
    bike_wipe_stack();
    say_key("phone", sent);
    answer |= bike_open(BIKE_LEVEL_5, private_key, sizeof private_key, ciphertext, sizeof ciphertext, opened, SESSION);
    bike_wipe_stack();
    say_key("the series' kart", opened);
    must(answer == BIKE_DONE && memcmp(sent, opened, SESSION) == 0, "two keys");
    printf("  Both have the same key.\n");
}

int main(int argc, char **argv)
{
    static struct controller blue = {.name = "the blue kart", .number = 7};
    static struct controller red = {.name = "the red kart", .number = 12};
    static struct app app, to_blue;
    if (argc != 1) {
        fprintf(stderr, "demo: takes no arguments, and was given %s\n", argv[1]);
        return 2;
    }
    printf("\nTwo controllers make their keys.\n");
    make(&blue);
    make(&red);
    exchange(&to_blue, &blue);
    app = to_blue;
    bad_scan(&app, &red);
    damaged(&app, &red);
    exchange(&app, &red);
    maps(&blue, &to_blue, &red, &app);
    highest_level();
    return 0;
}
