/* Explicit synchronization, and RAM blocks that the application makes by itself. The manager keeps a mirror of a synchronized block; one
   copy of it is tried in a main function, and as many more as NvMRepeatMirrorOperations says. */
#include "shim.h"

/* A copy out of the application into the mirror. Tells whether it is decided: made, or refused as often as it may be. */
int NvMShim_CopyOut(NvM_BlockIdType id) {
    const NvM_BlockDescriptorType *block = NvMShim_BlockOf(id);
    NvMShim_Block *state = &NvMShim.blocks[id];
    NvMShim_Phase phase = state->phase;
    uint32 opening = NvMShim.opening;
    int is_taken;
    if (state->is_copied || state->tries > block->repeats) return 1;
    is_taken = block->to_nvm(block->ram) == E_OK;
    if (!NvMShim_IsSame(opening) || state->phase != phase) return 0;
    if (is_taken && NvMShim_PutRam(id, block->ram) == 0) state->is_copied = 1;
    else state->tries++;
    return state->is_copied || state->tries > block->repeats;
}

/* A write of one block that waits for its copy. */
static void copy_out(NvM_BlockIdType id) {
    NvMShim_Block *state = &NvMShim.blocks[id];
    uint32 opening = NvMShim.opening;
    uint8 why;
    if (!NvMShim_CopyOut(id) || !NvMShim_IsSame(opening) || state->phase != PHASE_COPY_OUT) return;
    why = state->is_copied ? NvMShim_Ask(NVM_WRITE_PERMANENT_RAM, id, 0, NULL, 0, NULL) : 0;
    if (state->is_copied && !why) {
        NvMShim_Put(id, PHASE_ASKED);
        return;
    }
    if (why) (void)NvMShim_Refuse(state->service, why);
    if (NvMShim_IsSame(opening) && state->phase == PHASE_COPY_OUT) NvMShim_End(id, NVM_REQ_NOT_OK);
}

/* A copy into the application, of what the stack read into the mirror. */
static void copy_in(NvM_BlockIdType id) {
    const NvM_BlockDescriptorType *block = NvMShim_BlockOf(id);
    NvMShim_Block *state = &NvMShim.blocks[id];
    uint32 opening = NvMShim.opening;
    int is_taken = block->from_nvm(block->ram) == E_OK;
    if (!NvMShim_IsSame(opening) || state->phase != PHASE_COPY_IN) return;
    if (is_taken) NvMShim_End(id, NvMShim_StatusOf(id));
    else if (++state->tries > block->repeats) NvMShim_End(id, NVM_REQ_NOT_OK);
}

/* Whether defaults are what the application makes of its RAM block by itself. (A dataset has none.) */
int NvMShim_IsMade(NvM_BlockIdType id) {
    const NvM_BlockDescriptorType *block = NvMShim_BlockOf(id);
    return block && block->ram && block->init && !(block->is & (NVM_HAS_DEFAULTS | NVM_IS_DATASET));
}

/* Where a read would give the defaults, and there are none, the application makes its RAM block by itself: what the result is then. */
NvM_RequestResultType NvMShim_InitBlock(NvM_BlockIdType id, NvM_RequestResultType result) {
    const NvM_BlockDescriptorType *block = NvMShim_BlockOf(id);
    if (result != NVM_REQ_NOT_OK && result != NVM_REQ_INTEGRITY_FAILED) return result;
    if (!block || !block->init || (block->is & NVM_HAS_DEFAULTS) || block->init() != E_OK) return result;
    return NVM_REQ_RESTORED_FROM_ROM;
}

static void init_block(NvM_BlockIdType id) {
    uint32 opening = NvMShim.opening;
    NvM_RequestResultType result = NvMShim_InitBlock(id, NVM_REQ_NOT_OK);
    if (!NvMShim_IsSame(opening) || NvMShim.blocks[id].phase != PHASE_INIT) return;
    NvMShim_End(id, result == NVM_REQ_NOT_OK ? NVM_REQ_NOT_OK : NVM_REQ_OK);
}

/* What waits of a block for the application. */
void NvMShim_BeginWaiting(NvM_BlockIdType id) {
    switch (NvMShim.blocks[id].phase) {
    case PHASE_COPY_OUT: copy_out(id); break;
    case PHASE_COPY_IN: copy_in(id); break;
    case PHASE_INIT: init_block(id); break;
    default: break;
    }
}
