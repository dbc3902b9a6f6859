/* Prints the bench report of the records on standard input. */
#include <inttypes.h>
#include <stdio.h>
#include <stdlib.h>

#include "report.h"

static uint8_t *read_all(size_t *n)
{
    size_t room = 1 << 16;
    uint8_t *bytes = NULL;
    *n = 0;
    do {
        room *= 2;
        bytes = realloc(bytes, room);
        if (bytes == NULL)
            exit(1);
        *n += fread(bytes + *n, 1, room - *n, stdin);
    } while (*n == room);
    return bytes;
}

int main(void)
{
    size_t n;
    uint8_t *bytes = read_all(&n);
    struct report report = report_of(bytes, n);
    free(bytes);
    printf("triples %" PRIu64 "\n", report.triples);
    for (int k = 0; k <= ROUNDS_MOST; k++)
        printf("decoded %d %" PRIu64 "\n", k, report.decoded[k]);
    printf("undecoded %" PRIu64 "\nreplaced %" PRIu64 "\n", report.undecoded, report.replaced);
    if (report.stopped)
        printf("stop %" PRIu64 " %" PRIu32 "\n", report.triples + 1, report.number);
    return ferror(stdin) || fflush(stdout) != 0;
}
