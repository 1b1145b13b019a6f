/* The types of the NVRAM Manager (SWS NVRAM Manager, chapter 8.2), and what a generated configuration is made of. C90 and C++ read it. */
#ifndef NVM_TYPES_H
#define NVM_TYPES_H

#include "Std_Types.h"

typedef uint16 NvM_BlockIdType;
typedef uint8 NvM_RequestResultType;

#define NVM_REQ_OK 0u
#define NVM_REQ_NOT_OK 1u
#define NVM_REQ_PENDING 2u
#define NVM_REQ_INTEGRITY_FAILED 3u
#define NVM_REQ_BLOCK_SKIPPED 4u
#define NVM_REQ_NV_INVALIDATED 5u
#define NVM_REQ_CANCELED 6u
#define NVM_REQ_REDUNDANCY_FAILED 7u
#define NVM_REQ_RESTORED_FROM_ROM 8u

/* What the manager calls of the application (SWS NVRAM Manager, chapter 8.6.3). ServiceId is one of the .._API_ID of NvM.h. */
typedef Std_ReturnType (*NvM_SingleBlockCallbackType)(uint8 ServiceId, NvM_RequestResultType JobResult);
typedef void (*NvM_MultiBlockCallbackType)(uint8 ServiceId, NvM_RequestResultType JobResult);
typedef void (*NvM_BlockModeCallbackType)(NvM_BlockIdType Block, NvM_RequestResultType CurrentBlockMode);
typedef Std_ReturnType (*NvM_InitBlockCallbackType)(void);
typedef Std_ReturnType (*NvM_WriteRamBlockToNvmType)(void *NvMBuffer);
typedef Std_ReturnType (*NvM_ReadRamBlockFromNvmType)(const void *NvMBuffer);
typedef Std_ReturnType (*NvM_ReportErrorType)(uint16 ModuleId, uint8 InstanceId, uint8 ApiId, uint8 ErrorId);

/* What a block is, as the text of its configuration has it, and by the parameters that are C's alone. */
#define NVM_IN_READALL 0x01u
#define NVM_IN_WRITEALL 0x02u
#define NVM_HAS_DEFAULTS 0x04u
#define NVM_IS_DATASET 0x08u
#define NVM_ALWAYS_CHANGED 0x10u    /* NvMBlockUseSetRamBlockStatus is false: WriteAll takes its RAM block as changed */
#define NVM_AUTO_VALIDATED 0x20u    /* NvMBlockUseAutoValidation */
#define NVM_IN_FIRST_INIT 0x40u     /* NvMSelectBlockForFirstInitAll */
#define NVM_TELLS_BSWM 0x80u        /* NvMBswMBlockStatusInformation */

/* A block. Each pointer to a function may be null; to_nvm and from_nvm are both there, or none of them. */
typedef struct {
    uint16 length;
    uint8 is;                           /* the flags above */
    uint8 repeats;                      /* NvMRepeatMirrorOperations */
    void *ram;                          /* the RAM block; of explicit synchronization the mirror; else a null pointer */
    NvM_SingleBlockCallbackType done;
    NvM_InitBlockCallbackType init;
    NvM_WriteRamBlockToNvmType to_nvm;
    NvM_ReadRamBlockFromNvmType from_nvm;
} NvM_BlockDescriptorType;

/* A unit, as tools/header writes it. */
typedef struct {
    const char *const *text;            /* the program's one line of its configuration, in pieces up to a null pointer */
    const NvM_BlockDescriptorType *blocks;  /* in the order of their ids, 2 and so on */
    uint16 count;
    uint8 *room;                        /* as long as the text and as each block: NvM_Init and NvM_FirstInitAll work in it */
    uint32 room_size;
    NvM_MultiBlockCallbackType all_done;    /* NvMMultiBlockCallback; each of these may be null */
    NvM_MultiBlockCallbackType job_mode;    /* BswM_NvM_CurrentJobMode */
    NvM_BlockModeCallbackType block_mode;   /* BswM_NvM_CurrentBlockMode */
    NvM_ReportErrorType report_error;       /* Det_ReportError */
    NvM_ReportErrorType report_runtime_error;   /* Det_ReportRuntimeError */
} NvM_ConfigType;

#endif
