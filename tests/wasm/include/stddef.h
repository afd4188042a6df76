/* What the tests use of C's library, under node (tests/wasm/run.js has the functions). */
#ifndef STDDEF_H
#define STDDEF_H
typedef __SIZE_TYPE__ size_t;
#define NULL ((void *)0)
#endif
