/* The memory interface (SWS Memory Abstraction Interface, chapter 8.3). Its one device is the NVRAM Manager's own, so a status is all that
   another may ask: each job is refused with MEMIF_E_PARAM_DEVICE. C90 and C++ read it. */
#ifndef MEMIF_H
#define MEMIF_H

#include "MemIf_Types.h"

#define MEMIF_MODULE_ID 22u
#define MEMIF_BROADCAST_ID 0xFFu

#define MEMIF_E_PARAM_DEVICE 0x01u
#define MEMIF_E_PARAM_POINTER 0x02u

#ifdef __cplusplus
extern "C" {
#endif

MemIf_StatusType MemIf_GetStatus(uint8 DeviceIndex);
MemIf_JobResultType MemIf_GetJobResult(uint8 DeviceIndex);
void MemIf_SetMode(MemIf_ModeType Mode);
Std_ReturnType MemIf_Read(uint8 DeviceIndex, uint16 BlockNumber, uint16 BlockOffset, uint8 *DataBufferPtr, uint16 Length);
Std_ReturnType MemIf_Write(uint8 DeviceIndex, uint16 BlockNumber, const uint8 *DataBufferPtr);
Std_ReturnType MemIf_InvalidateBlock(uint8 DeviceIndex, uint16 BlockNumber);
Std_ReturnType MemIf_EraseImmediateBlock(uint8 DeviceIndex, uint16 BlockNumber);
void MemIf_Cancel(uint8 DeviceIndex);
void MemIf_GetVersionInfo(Std_VersionInfoType *VersionInfoPtr);

#ifdef __cplusplus
}
#endif

#endif
