/* See ../README.md: what the kit's C library has, declared as far as this repository uses it. */
#ifndef HOST_TIME_H
#define HOST_TIME_H

#define CLOCK_PROCESS_CPUTIME_ID 2

struct timespec {
    long tv_sec, tv_nsec;
};

int clock_gettime(int clock, struct timespec *now);

#endif
