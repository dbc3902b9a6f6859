/* See ../README.md: what the kit's C library has, declared as far as this repository uses it. */
#ifndef HOST_STDIO_H
#define HOST_STDIO_H

#include <stddef.h>

#define EOF (-1)

typedef struct FILE FILE;

extern FILE *stdin, *stdout, *stderr;

int fflush(FILE *file);
int getc(FILE *file);
int putc(int byte, FILE *file);
int fputs(const char *text, FILE *file);
int puts(const char *text);
int printf(const char *format, ...);
int fprintf(FILE *file, const char *format, ...);
int snprintf(char *text, size_t n, const char *format, ...);
size_t fread(void *bytes, size_t size, size_t n, FILE *file);
size_t fwrite(const void *bytes, size_t size, size_t n, FILE *file);

#endif
