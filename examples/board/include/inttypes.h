#ifndef INTTYPES_H
#define INTTYPES_H
#include <stdint.h>
#define PRIu32 "u"
#define PRIx32 "x"
#endif
