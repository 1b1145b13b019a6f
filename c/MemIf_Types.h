/* The types of the memory interface (SWS Memory Abstraction Interface, chapter 8.2). C90 and C++ read it. */
#ifndef MEMIF_TYPES_H
#define MEMIF_TYPES_H

#include "Std_Types.h"

typedef enum { MEMIF_UNINIT = 0, MEMIF_IDLE = 1, MEMIF_BUSY = 2, MEMIF_BUSY_INTERNAL = 3 } MemIf_StatusType;
typedef enum {
    MEMIF_JOB_OK = 0, MEMIF_JOB_FAILED = 1, MEMIF_JOB_PENDING = 2, MEMIF_JOB_CANCELED = 3, MEMIF_BLOCK_INCONSISTENT = 4,
    MEMIF_BLOCK_INVALID = 5
} MemIf_JobResultType;
typedef enum { MEMIF_MODE_SLOW = 0, MEMIF_MODE_FAST = 1 } MemIf_ModeType;

#endif
