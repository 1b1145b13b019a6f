/* The flash driver (SWS Flash Driver, chapter 8.3). NvM_MainFunction makes its turns, so that its entries of a scheduler do nothing; the
   flash is the stack's own, so that each job is refused with FLS_E_PARAM_ADDRESS. C90 and C++ read it. */
#ifndef FLS_H
#define FLS_H

#include "MemIf_Types.h"

#define FLS_MODULE_ID 92u
#define FLS_E_PARAM_ADDRESS 0x02u
#define FLS_E_PARAM_POINTER 0x0Au

typedef uint32 Fls_AddressType;
typedef uint32 Fls_LengthType;
typedef struct { uint8 unused; } Fls_ConfigType;

#ifdef __cplusplus
extern "C" {
#endif

void Fls_Init(const Fls_ConfigType *ConfigPtr);
void Fls_MainFunction(void);
MemIf_StatusType Fls_GetStatus(void);
MemIf_JobResultType Fls_GetJobResult(void);
void Fls_SetMode(MemIf_ModeType Mode);
Std_ReturnType Fls_Read(Fls_AddressType SourceAddress, uint8 *TargetAddressPtr, Fls_LengthType Length);
Std_ReturnType Fls_Write(Fls_AddressType TargetAddress, const uint8 *SourceAddressPtr, Fls_LengthType Length);
Std_ReturnType Fls_Erase(Fls_AddressType TargetAddress, Fls_LengthType Length);
Std_ReturnType Fls_Compare(Fls_AddressType SourceAddress, const uint8 *TargetAddressPtr, Fls_LengthType Length);
Std_ReturnType Fls_BlankCheck(Fls_AddressType TargetAddress, Fls_LengthType Length);
void Fls_Cancel(void);
void Fls_GetVersionInfo(Std_VersionInfoType *VersionInfoPtr);

#ifdef __cplusplus
}
#endif

#endif
