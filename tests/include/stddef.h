/* The kit's compiler comes without C headers; this is what the tests use of this one. */
#ifndef TESTS_STDDEF_H
#define TESTS_STDDEF_H
typedef __SIZE_TYPE__ size_t;
#define NULL ((void *)0)
#endif
