/* The kit's compiler comes without C headers; this is what the tests use of this one. */
#ifndef TESTS_STDINT_H
#define TESTS_STDINT_H
typedef __UINT8_TYPE__ uint8_t;
typedef __UINT32_TYPE__ uint32_t;
typedef __UINT64_TYPE__ uint64_t;
#define UINT64_C(x) x##ull
#endif
