/* Compile this beside the library; bike.h says what it is for. */
#include "bike.h"

/* A frame of its own, lying where those of the last call lay; volatile, so that no compiler leaves the stores out. */
__attribute__((noinline)) void bike_wipe_stack(void)
{
    volatile uint64_t used[BIKE_STACK_BYTES / sizeof(uint64_t)];
    for (size_t i = 0; i < BIKE_STACK_BYTES / sizeof(uint64_t); i++)
        used[i] = 0;
}
