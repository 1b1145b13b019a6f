/* Another vendor's basic types, which stand before ours in the include path. */
#ifndef STD_TYPES_H
#define STD_TYPES_H

#include "Platform_Types.h"

#define STD_TYPES_VENDOR_ID 1234u

typedef uint8 Std_ReturnType;

typedef struct {
    uint16 vendorID;
    uint16 moduleID;
    uint8 sw_major_version;
    uint8 sw_minor_version;
    uint8 sw_patch_version;
} Std_VersionInfoType;

#ifndef STATUSTYPEDEFINED
#define STATUSTYPEDEFINED
typedef unsigned char StatusType;
#define E_OK ((StatusType)0u)
#endif
#define E_NOT_OK ((Std_ReturnType)1u)

#define STD_HIGH 1u
#define STD_LOW 0u
#define STD_ON 1u
#define STD_OFF 0u
#define NULL_PTR ((void *)0)

#endif
