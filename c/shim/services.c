/* The services of one block. */
#include "shim.h"

/* What is refused here, since the stack doesn't know what waits here. All else it refuses itself. */
static uint8 why_not(NvM_BlockIdType id) {
    if (id > NvMShim_LastId()) return REFUSED_BLOCK;
    if (NvMShim.is_off) return REFUSED_OFF;
    if (NvMShim.all.phase != PHASE_NONE) return REFUSED_ALL_PENDING;
    return NvMShim.blocks[id].phase != PHASE_NONE ? (uint8)REFUSED_PENDING : 0;
}

/* A RAM block that is to be written is taken as changed until it is. */
static int writes_ram(uint8 service, uint8 of_ram) {
    return of_ram && (service == NVM_WRITE_BLOCK_API_ID || service == NVM_WRITE_PRAM_BLOCK_API_ID);
}

/* BswM's call comes last, since it may ask for more. */
void NvMShim_Begin(NvM_BlockIdType id, uint8 service, NvMShim_Phase phase, void *destination, uint8 of_ram) {
    NvMShim_Block *block = &NvMShim.blocks[id];
    block->service = service;
    NvMShim_Put(id, phase);
    block->destination = destination;
    block->of_ram = of_ram;
    if (writes_ram(service, of_ram)) block->is_changed = 1;
    block->tries = 0;
    block->is_copied = 0;
    block->is_own = 0;
    block->told = NO_RESULT;
    if (NvMShim.config->block_mode && NvMShim_Is(id, NVM_TELLS_BSWM)) NvMShim.config->block_mode(id, NVM_REQ_PENDING);
}

/* A service that makes a job: what it gives goes to the destination, or to the block's RAM. asked is the stack's number of it. */
static Std_ReturnType ask_job(uint8 service, uint8 asked, NvM_BlockIdType id, const void *content, size_t length, void *destination) {
    uint8 why;
    if (!NvMShim_IsReady(service)) return E_NOT_OK;
    why = why_not(id);
    if (!why) why = NvMShim_Ask(asked, id, 0, content, length, NULL);
    if (why) return NvMShim_Refuse(service, why);
    NvMShim_Begin(id, service, PHASE_ASKED, destination, asked >= NVM_READ_PERMANENT_RAM && asked <= NVM_RESTORE_PERMANENT_RAM);
    return E_OK;
}

static Std_ReturnType write_ram(uint8 service, NvM_BlockIdType id) {
    const NvM_BlockDescriptorType *block = NvMShim_BlockOf(id);
    uint8 why;
    if (!block || !block->ram) return ask_job(service, NVM_WRITE_PERMANENT_RAM, id, NULL, 0, NULL);
    if (!NvMShim_IsReady(service)) return E_NOT_OK;
    why = why_not(id);
    if (!why && block->to_nvm && NvMShim.blocks[id].is_locked) why = REFUSED_LOCKED;
    if (!why && !block->to_nvm) why = NvMShim_PutRam(id, block->ram);
    if (why) return NvMShim_Refuse(service, why);
    if (!block->to_nvm) return ask_job(service, NVM_WRITE_PERMANENT_RAM, id, NULL, 0, NULL);
    NvMShim_Begin(id, service, PHASE_COPY_OUT, NULL, 1);
    return E_OK;
}

static Std_ReturnType restore_ram(uint8 service, NvM_BlockIdType id) {
    if (!NvMShim_IsMade(id) || !NvMShim_IsUp() || why_not(id)) return ask_job(service, NVM_RESTORE_PERMANENT_RAM, id, NULL, 0, NULL);
    NvMShim.refusal = 0;
    NvMShim_Begin(id, service, PHASE_INIT, NULL, 1);
    return E_OK;
}

Std_ReturnType NvM_ReadBlock(NvM_BlockIdType BlockId, void *NvM_DstPtr) {
    return ask_job(NVM_READ_BLOCK_API_ID, NvM_DstPtr ? NVM_READ_BLOCK : NVM_READ_PERMANENT_RAM, BlockId, NULL, 0, NvM_DstPtr);
}

Std_ReturnType NvM_WriteBlock(NvM_BlockIdType BlockId, const void *NvM_SrcPtr) {
    const NvM_BlockDescriptorType *block = NvMShim_BlockOf(BlockId);
    if (!NvM_SrcPtr) return write_ram(NVM_WRITE_BLOCK_API_ID, BlockId);
    return ask_job(NVM_WRITE_BLOCK_API_ID, NVM_WRITE_BLOCK, BlockId, NvM_SrcPtr, block ? block->length : 0u, NULL);
}

Std_ReturnType NvM_RestoreBlockDefaults(NvM_BlockIdType BlockId, void *NvM_DestPtr) {
    if (!NvM_DestPtr) return restore_ram(NVM_RESTORE_BLOCK_DEFAULTS_API_ID, BlockId);
    return ask_job(NVM_RESTORE_BLOCK_DEFAULTS_API_ID, NVM_RESTORE_BLOCK_DEFAULTS, BlockId, NULL, 0, NvM_DestPtr);
}

Std_ReturnType NvM_ReadPRAMBlock(NvM_BlockIdType BlockId) {
    return ask_job(NVM_READ_PRAM_BLOCK_API_ID, NVM_READ_PERMANENT_RAM, BlockId, NULL, 0, NULL);
}

Std_ReturnType NvM_WritePRAMBlock(NvM_BlockIdType BlockId) { return write_ram(NVM_WRITE_PRAM_BLOCK_API_ID, BlockId); }
Std_ReturnType NvM_RestorePRAMBlockDefaults(NvM_BlockIdType BlockId) { return restore_ram(NVM_RESTORE_PRAM_BLOCK_DEFAULTS_API_ID, BlockId); }

Std_ReturnType NvM_EraseNvBlock(NvM_BlockIdType BlockId) {
    return ask_job(NVM_ERASE_BLOCK_API_ID, NVM_ERASE_NV_BLOCK, BlockId, NULL, 0, NULL);
}

Std_ReturnType NvM_InvalidateNvBlock(NvM_BlockIdType BlockId) {
    return ask_job(NVM_INVALIDATE_NV_BLOCK_API_ID, NVM_INVALIDATE_NV_BLOCK, BlockId, NULL, 0, NULL);
}

/* What the stack has accepted runs to its end, so only what still waits here can be canceled. */
Std_ReturnType NvM_CancelJobs(NvM_BlockIdType BlockId) {
    if (!NvMShim_IsReady(NVM_CANCEL_JOBS_API_ID)) return E_NOT_OK;
    if (BlockId == 0 || BlockId > NvMShim_LastId()) return NvMShim_Refuse(NVM_CANCEL_JOBS_API_ID, REFUSED_BLOCK);
    switch (NvMShim.blocks[BlockId].phase) {
    case PHASE_COPY_OUT: case PHASE_INIT:
        NvMShim_End(BlockId, NVM_REQ_CANCELED);
        return E_OK;
    case PHASE_NONE: return E_NOT_OK;
    default: return NvMShim_Refuse(NVM_CANCEL_JOBS_API_ID, REFUSED_PENDING);
    }
}

/* A service that is done at once. */
static Std_ReturnType ask_now(uint8 service, uint8 asked, NvM_BlockIdType id, uint8 number, uint8 *value) {
    uint8 why;
    if (!NvMShim_IsReady(service)) return E_NOT_OK;
    why = service == NVM_GET_DATA_INDEX_API_ID ? 0 : why_not(id);
    if (!why) why = NvMShim_Ask(asked, id, number, NULL, 0, value);
    return (Std_ReturnType)(why ? NvMShim_Refuse(service, why) : E_OK);
}

Std_ReturnType NvM_SetDataIndex(NvM_BlockIdType BlockId, uint8 DataIndex) {
    return ask_now(NVM_SET_DATA_INDEX_API_ID, NVM_SET_DATA_INDEX, BlockId, DataIndex, NULL);
}

/* Where there is no dataset it gives 0 beside the error. */
Std_ReturnType NvM_GetDataIndex(NvM_BlockIdType BlockId, uint8 *DataIndexPtr) {
    if (!DataIndexPtr) return NvMShim_RefusePointer(NVM_GET_DATA_INDEX_API_ID);
    if (!NvMShim_Is(BlockId, NVM_IS_DATASET)) *DataIndexPtr = 0;
    return ask_now(NVM_GET_DATA_INDEX_API_ID, NVM_GET_DATA_INDEX, BlockId, 0, DataIndexPtr);
}

Std_ReturnType NvM_SetBlockProtection(NvM_BlockIdType BlockId, boolean ProtectionEnabled) {
    return ask_now(NVM_SET_BLOCK_PROTECTION_API_ID, NVM_SET_BLOCK_PROTECTION, BlockId, ProtectionEnabled, NULL);
}

void NvM_SetBlockLockStatus(NvM_BlockIdType BlockId, boolean BlockLocked) {
    if (ask_now(NVM_SET_BLOCK_LOCK_STATUS_API_ID, NVM_SET_BLOCK_LOCK_STATUS, BlockId, BlockLocked, NULL) == E_OK)
        NvMShim.blocks[BlockId].is_locked = BlockLocked;
}

/* The content is taken by the WriteAll itself. */
Std_ReturnType NvM_SetRamBlockStatus(NvM_BlockIdType BlockId, boolean BlockChanged) {
    Std_ReturnType answer = ask_now(NVM_SET_RAM_BLOCK_STATUS_API_ID, NVM_SET_RAM_BLOCK_STATUS, BlockId, BlockChanged, NULL);
    if (answer == E_OK) NvMShim.blocks[BlockId].is_changed = NvMShim.blocks[BlockId].is_marked = BlockChanged != 0;
    return answer;
}

Std_ReturnType NvM_GetErrorStatus(NvM_BlockIdType BlockId, NvM_RequestResultType *RequestResultPtr) {
    NvMShim_Phase phase;
    if (!RequestResultPtr) return NvMShim_RefusePointer(NVM_GET_ERROR_STATUS_API_ID);
    if (!NvMShim_IsReady(NVM_GET_ERROR_STATUS_API_ID)) return E_NOT_OK;
    if (BlockId > NvMShim_LastId()) return NvMShim_Refuse(NVM_GET_ERROR_STATUS_API_ID, REFUSED_BLOCK);
    phase = BlockId ? NvMShim.blocks[BlockId].phase : NvMShim.all.phase;
    *RequestResultPtr = phase != PHASE_NONE ? (NvM_RequestResultType)NVM_REQ_PENDING : NvMShim_ResultOf(BlockId);
    return E_OK;
}
