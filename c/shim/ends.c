/* The end of a request: what it gave is put where it was asked for, and then its callback is called. */
#include "shim.h"

int NvMShim_Gives(NvM_RequestResultType result) {
    return result == NVM_REQ_OK || result == NVM_REQ_REDUNDANCY_FAILED || result == NVM_REQ_RESTORED_FROM_ROM;
}

int NvMShim_IsFailed(NvM_RequestResultType result) {
    return result == NVM_REQ_NOT_OK || result == NVM_REQ_INTEGRITY_FAILED || result == NVM_REQ_NV_INVALIDATED
           || result == NVM_REQ_REDUNDANCY_FAILED;
}

static int is_restore(uint8 service) {
    return service == NVM_RESTORE_BLOCK_DEFAULTS_API_ID || service == NVM_RESTORE_PRAM_BLOCK_DEFAULTS_API_ID;
}

static int is_read(uint8 service) {
    return service == NVM_READ_BLOCK_API_ID || service == NVM_READ_PRAM_BLOCK_API_ID || service == NVM_READ_ALL_API_ID || is_restore(service);
}

/* The first half of a block's FirstInitAll. */
static int is_first_half(NvM_BlockIdType id) {
    return NvMShim.all.phase == PHASE_LIST && NvMShim.all.at == id && is_restore(NvMShim.blocks[id].service);
}

/* Whether the RAM block holds defaults now, which aren't stored. */
static int has_defaults(uint8 service, NvM_RequestResultType result) { return result == NVM_REQ_RESTORED_FROM_ROM || is_restore(service); }

/* Whether the RAM block of a request is still to be stored: one that nothing could be read into isn't valid, and one whose write failed is. */
static uint8 mark_behind(uint8 before, uint8 service, NvM_RequestResultType result) {
    if (NvMShim_Gives(result)) return has_defaults(service, result) != 0;
    return is_read(service) && !is_restore(service) && NvMShim_IsFailed(result) ? 0 : before;
}

/* Likewise as the stack has it, of a job that it has posted (docs/MODEL.md). */
void NvMShim_NoteMark(NvM_BlockIdType id, NvM_RequestResultType result) {
    NvMShim_Block *state = &NvMShim.blocks[id];
    if (state->of_ram) state->is_marked = mark_behind(state->is_marked, state->service, result);
}

/* The callbacks come last, since they may ask for more, or end the unit: BswM's before the application's, which often asks for the block's
   next job, so that BswM hears of both in their order. */
void NvMShim_End(NvM_BlockIdType id, NvM_RequestResultType result) {
    const NvM_BlockDescriptorType *block = NvMShim_BlockOf(id);
    NvMShim_Block *state = &NvMShim.blocks[id];
    uint32 opening = NvMShim.opening;
    int is_half = is_first_half(id);
    uint8 service = is_half ? (uint8)NVM_FIRST_INIT_ALL_API_ID : state->service;
    NvMShim_Put(id, is_half && NvMShim_Gives(result) ? PHASE_IN_ALL : PHASE_NONE);  /* (its defaults are still to be stored) */
    state->is_own = result != NvMShim_StatusOf(id);
    state->told = id == OWN_BLOCK ? (uint8)NO_RESULT : result;
    if (state->of_ram) state->is_changed = mark_behind(state->is_changed, service, result);
    if (!block || state->phase == PHASE_IN_ALL) return;
    if ((block->is & NVM_TELLS_BSWM) && NvMShim.config->block_mode) NvMShim.config->block_mode(id, result);
    if (NvMShim_IsSame(opening) && block->done) (void)block->done(service, result);
}

/* A read has given nothing. */
static void end_without(NvM_BlockIdType id, NvM_RequestResultType result) {
    uint32 opening = NvMShim.opening;
    if (NvMShim.blocks[id].of_ram) result = NvMShim_InitBlock(id, result);
    if (NvMShim_IsSame(opening)) NvMShim_End(id, result);
}

/* The RAM block, or through the mirror the application, gets what was read. */
static void give_ram(NvM_BlockIdType id, NvM_RequestResultType result) {
    const NvM_BlockDescriptorType *block = NvMShim_BlockOf(id);
    if (!NvMShim_TakeRam(id)) {
        NvMShim_End(id, NVM_REQ_NOT_OK);
    } else if (!block->from_nvm) {
        NvMShim_End(id, result);
    } else {
        NvMShim_Put(id, PHASE_COPY_IN);
        NvMShim.blocks[id].tries = 0;
        NvMShim_BeginWaiting(id);
    }
}

/* A read, a restore or a member of a ReadAll was posted. (Block 1's RAM is the manager's own.) */
void NvMShim_EndRead(NvM_BlockIdType id, NvM_RequestResultType result) {
    const NvM_BlockDescriptorType *block = NvMShim_BlockOf(id);
    NvMShim_Block *state = &NvMShim.blocks[id];
    enum { LENGTH_OF_ID = 2 };
    if (!NvMShim_Gives(result)) {
        end_without(id, result);
    } else if (state->destination) {
        NvMShim_End(id, NvMShim_TakeGiven(state->destination, block ? block->length : (size_t)LENGTH_OF_ID) ? result : (NvM_RequestResultType)NVM_REQ_NOT_OK);
    } else if (block) {
        give_ram(id, result);
    } else {
        NvMShim_End(id, result);
    }
}

/* The stack has posted a request on one block: it is the one that isn't pending any more. */
void NvMShim_EndPosted(void) {
    for (unsigned number = 1; number <= NvMShim_LastId(); number++) {
        NvM_BlockIdType id = (NvM_BlockIdType)number;
        NvM_RequestResultType result;
        if (NvMShim.blocks[id].phase != PHASE_ASKED) continue;
        result = NvMShim_StatusOf(id);
        if (result == NVM_REQ_PENDING) continue;
        NvMShim_NoteMark(id, result);
        if (is_read(NvMShim.blocks[id].service)) NvMShim_EndRead(id, result);
        else NvMShim_End(id, result);
        return;
    }
}
