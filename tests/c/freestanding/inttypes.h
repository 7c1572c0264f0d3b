#ifndef INTTYPES_H
#define INTTYPES_H

#include <stdint.h>

#define PRIu32 __UINT32_FMTu__
#define PRId64 __INT64_FMTd__
#define PRIu64 __UINT64_FMTu__
#define PRIx64 __UINT64_FMTx__

#endif
