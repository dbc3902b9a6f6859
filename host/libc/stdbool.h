/* See ../README.md: what the kit's C library has, declared as far as this repository uses it. */
#ifndef HOST_STDBOOL_H
#define HOST_STDBOOL_H

#define bool _Bool
#define true 1
#define false 0

#endif
