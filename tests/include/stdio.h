/* The kit's compiler comes without C headers; this is what the tests use of this one. */
#ifndef TESTS_STDIO_H
#define TESTS_STDIO_H
#include <stddef.h>
int printf(const char *format, ...);
int getchar(void);
#endif
