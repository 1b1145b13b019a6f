/* The flash EEPROM emulation (SWS Flash EEPROM Emulation, chapter 8.3). NvM_MainFunction makes its turns, so that its entries of a scheduler
   do nothing; its blocks are the NVRAM Manager's own, so that each job is refused with FEE_E_INVALID_BLOCK_NO. C90 and C++ read it. */
#ifndef FEE_H
#define FEE_H

#include "MemIf_Types.h"

#define FEE_MODULE_ID 21u
#define FEE_E_INVALID_BLOCK_NO 0x02u
#define FEE_E_PARAM_POINTER 0x04u

typedef struct { uint8 unused; } Fee_ConfigType;

#ifdef __cplusplus
extern "C" {
#endif

void Fee_Init(const Fee_ConfigType *ConfigPtr);
void Fee_MainFunction(void);
MemIf_StatusType Fee_GetStatus(void);
MemIf_JobResultType Fee_GetJobResult(void);
void Fee_SetMode(MemIf_ModeType Mode);
Std_ReturnType Fee_Read(uint16 BlockNumber, uint16 BlockOffset, uint8 *DataBufferPtr, uint16 Length);
Std_ReturnType Fee_Write(uint16 BlockNumber, const uint8 *DataBufferPtr);
Std_ReturnType Fee_InvalidateBlock(uint16 BlockNumber);
Std_ReturnType Fee_EraseImmediateBlock(uint16 BlockNumber);
void Fee_Cancel(void);
void Fee_GetVersionInfo(Std_VersionInfoType *VersionInfoPtr);
void Fee_JobEndNotification(void);
void Fee_JobErrorNotification(void);

#ifdef __cplusplus
}
#endif

#endif
