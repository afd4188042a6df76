#ifndef INTTYPES_H
#define INTTYPES_H
#include <stdint.h>
#define PRIu64 "llu"
#define PRId64 "lld"
#endif
