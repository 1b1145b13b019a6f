/* The services of AUTOSAR's NVRAM Manager (SWS NVRAM Manager, Classic Platform 4.x, chapter 8.3) over a stack that is proved, for a
   virtual control unit in C. docs/C.md tells what of each of them is to know. C90 and C++ read it. */
#ifndef NVM_H
#define NVM_H

#include "NvM_Types.h"
#ifndef NVM_OF_EVERY_UNIT   /* (the services themselves are compiled once, whatever is configured) */
#include "NvM_Cfg.h"
#endif

#define NVM_VENDOR_ID 0u
#define NVM_MODULE_ID 20u
#define NVM_INSTANCE_ID 0u
#define NVM_AR_RELEASE_MAJOR_VERSION 4u
#define NVM_AR_RELEASE_MINOR_VERSION 2u
#define NVM_AR_RELEASE_REVISION_VERSION 2u
#define NVM_SW_MAJOR_VERSION 0u
#define NVM_SW_MINOR_VERSION 9u
#define NVM_SW_PATCH_VERSION 0u

#define NVM_INIT_API_ID 0x00u
#define NVM_SET_DATA_INDEX_API_ID 0x01u
#define NVM_GET_DATA_INDEX_API_ID 0x02u
#define NVM_SET_BLOCK_PROTECTION_API_ID 0x03u
#define NVM_GET_ERROR_STATUS_API_ID 0x04u
#define NVM_SET_RAM_BLOCK_STATUS_API_ID 0x05u
#define NVM_READ_BLOCK_API_ID 0x06u
#define NVM_WRITE_BLOCK_API_ID 0x07u
#define NVM_RESTORE_BLOCK_DEFAULTS_API_ID 0x08u
#define NVM_ERASE_BLOCK_API_ID 0x09u
#define NVM_CANCEL_WRITE_ALL_API_ID 0x0Au
#define NVM_INVALIDATE_NV_BLOCK_API_ID 0x0Bu
#define NVM_READ_ALL_API_ID 0x0Cu
#define NVM_WRITE_ALL_API_ID 0x0Du
#define NVM_MAIN_FUNCTION_API_ID 0x0Eu
#define NVM_GET_VERSION_INFO_API_ID 0x0Fu
#define NVM_CANCEL_JOBS_API_ID 0x10u
#define NVM_JOB_END_NOTIFICATION_API_ID 0x11u
#define NVM_JOB_ERROR_NOTIFICATION_API_ID 0x12u
#define NVM_SET_BLOCK_LOCK_STATUS_API_ID 0x13u
#define NVM_FIRST_INIT_ALL_API_ID 0x14u
#define NVM_READ_PRAM_BLOCK_API_ID 0x16u
#define NVM_WRITE_PRAM_BLOCK_API_ID 0x17u
#define NVM_RESTORE_PRAM_BLOCK_DEFAULTS_API_ID 0x18u
#define NVM_VALIDATE_ALL_API_ID 0x19u

/* What Det_ReportError is told. */
#define NVM_E_PARAM_BLOCK_ID 0x0Au
#define NVM_E_PARAM_BLOCK_DATA_IDX 0x0Bu
#define NVM_E_PARAM_ADDRESS 0x0Cu
#define NVM_E_PARAM_DATA 0x0Du
#define NVM_E_PARAM_POINTER 0x0Eu
#define NVM_E_BLOCK_WITHOUT_DEFAULTS 0x11u
#define NVM_E_UNINIT 0x14u
#define NVM_E_NOT_INITIALIZED NVM_E_UNINIT  /* (its name in releases before 4.3) */
#define NVM_E_BLOCK_PENDING 0x15u
#define NVM_E_BLOCK_CONFIG 0x18u
#define NVM_E_BLOCK_LOCKED 0x19u
/* What Det_ReportRuntimeError is told. */
#define NVM_E_QUEUE_OVERFLOW 0xA0u
#define NVM_E_WRITE_PROTECTED 0xA1u

#ifdef __cplusplus
extern "C" {
#endif

extern const NvM_ConfigType NvM_Config;     /* of the generated NvM_Cfg.c */

/* Makes the unit of a configuration, with its first start-up; a null pointer stands for NvM_Config of the generated NvM_Cfg.c. A further
   call is a reset: a start-up on what is stored. NvM_SimFault of NvM_Sim.h tells whether the unit is up. */
void NvM_Init(const NvM_ConfigType *ConfigPtr);
void NvM_MainFunction(void);
void NvM_GetVersionInfo(Std_VersionInfoType *versioninfo);

/* E_OK where the request was accepted: its job is done by NvM_MainFunction. What is written is taken with the request; what is read
   stands at the destination before the block's callback. A null pointer stands for the RAM block. */
Std_ReturnType NvM_ReadBlock(NvM_BlockIdType BlockId, void *NvM_DstPtr);
Std_ReturnType NvM_WriteBlock(NvM_BlockIdType BlockId, const void *NvM_SrcPtr);
Std_ReturnType NvM_RestoreBlockDefaults(NvM_BlockIdType BlockId, void *NvM_DestPtr);
Std_ReturnType NvM_ReadPRAMBlock(NvM_BlockIdType BlockId);
Std_ReturnType NvM_WritePRAMBlock(NvM_BlockIdType BlockId);
Std_ReturnType NvM_RestorePRAMBlockDefaults(NvM_BlockIdType BlockId);
Std_ReturnType NvM_EraseNvBlock(NvM_BlockIdType BlockId);
Std_ReturnType NvM_InvalidateNvBlock(NvM_BlockIdType BlockId);
Std_ReturnType NvM_CancelJobs(NvM_BlockIdType BlockId);

Std_ReturnType NvM_SetDataIndex(NvM_BlockIdType BlockId, uint8 DataIndex);
Std_ReturnType NvM_GetDataIndex(NvM_BlockIdType BlockId, uint8 *DataIndexPtr);
Std_ReturnType NvM_SetBlockProtection(NvM_BlockIdType BlockId, boolean ProtectionEnabled);
void NvM_SetBlockLockStatus(NvM_BlockIdType BlockId, boolean BlockLocked);
Std_ReturnType NvM_SetRamBlockStatus(NvM_BlockIdType BlockId, boolean BlockChanged);
/* Block 0 stands for the last request on all blocks. */
Std_ReturnType NvM_GetErrorStatus(NvM_BlockIdType BlockId, NvM_RequestResultType *RequestResultPtr);

void NvM_ReadAll(void);
void NvM_WriteAll(void);
void NvM_CancelWriteAll(void);
void NvM_FirstInitAll(void);
void NvM_ValidateAll(void);

#ifdef __cplusplus
}
#endif

#endif
