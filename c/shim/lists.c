/* FirstInitAll and ValidateAll, which the manager goes through by itself. */
#include "shim.h"

void NvM_FirstInitAll(void) { NvMShim_BeginAll(NVM_FIRST_INIT_ALL_API_ID, PHASE_LIST); }
void NvM_ValidateAll(void) { NvMShim_BeginAll(NVM_VALIDATE_ALL_API_ID, PHASE_LIST); }

static void validate(void) {
    for (unsigned id = FIRST_BLOCK; id <= NvMShim_LastId(); id++)
        if (NvMShim_Is((NvM_BlockIdType)id, NVM_AUTO_VALIDATED) && NvMShim_BlockOf((NvM_BlockIdType)id)->ram) NvMShim.blocks[id].is_changed = 1;
    NvMShim.all.told = NVM_REQ_OK;
    NvMShim_EndAll();
}

/* The next block of a FirstInitAll, or one behind the last. The instances of a dataset stay as they are. */
static NvM_BlockIdType next_of(NvM_BlockIdType id) {
    NvM_BlockIdType next = id ? (NvM_BlockIdType)(id + 1u) : FIRST_BLOCK;
    while (next <= NvMShim_LastId() && (!NvMShim_Is(next, NVM_IN_FIRST_INIT) || NvMShim_Is(next, NVM_IS_DATASET))) next++;
    return next;
}

/* (what the application makes of its RAM block is made as for a restore) */
static uint8 begin_block(NvM_BlockIdType id) {
    uint8 *room = NvMShim.config->room;
    int has_defaults = NvMShim_Is(id, NVM_HAS_DEFAULTS);
    uint8 why;
    if (NvMShim_IsMade(id)) {
        NvMShim_Begin(id, NVM_RESTORE_PRAM_BLOCK_DEFAULTS_API_ID, PHASE_INIT, NULL, 1);
        return 0;
    }
    why = NvMShim_Ask(has_defaults ? NVM_RESTORE_BLOCK_DEFAULTS : NVM_INVALIDATE_NV_BLOCK, id, 0, NULL, 0, NULL);
    NvMShim_Begin(id, has_defaults ? NVM_RESTORE_BLOCK_DEFAULTS_API_ID : NVM_FIRST_INIT_ALL_API_ID, PHASE_ASKED, has_defaults ? room : NULL, 0);
    return why;
}

/* (it is pending already, so nobody is told of another beginning) */
static uint8 store_defaults(NvM_BlockIdType id) {
    const NvM_BlockDescriptorType *block = NvMShim_BlockOf(id);
    int is_synchronized = block->to_nvm && NvMShim_IsMade(id);
    uint8 why;
    NvMShim.blocks[id].service = NVM_FIRST_INIT_ALL_API_ID;
    NvMShim_Put(id, is_synchronized ? PHASE_COPY_OUT : PHASE_ASKED);
    if (is_synchronized) return 0;
    if (!NvMShim_IsMade(id)) return NvMShim_Ask(NVM_WRITE_BLOCK, id, 0, NvMShim.config->room, block->length, NULL);
    why = NvMShim_PutRam(id, block->ram);
    return why ? why : NvMShim_Ask(NVM_WRITE_PERMANENT_RAM, id, 0, NULL, 0, NULL);
}

/* One block after the other: its defaults are read, or the application makes its RAM block, and stored; or it is invalidated where it has
   none. */
static void first_init(void) {
    NvM_BlockIdType id = NvMShim.all.at;
    uint32 opening = NvMShim.opening;
    uint8 why;
    if (id && NvMShim.blocks[id].phase == PHASE_IN_ALL) {
        why = store_defaults(id);
    } else {
        if (id && NvMShim_ResultOf(id) != NVM_REQ_OK) NvMShim.all.has_failed = 1;
        NvMShim.all.at = id = next_of(id);
        if (id > NvMShim_LastId()) {
            NvMShim.all.told = NvMShim.all.has_failed ? NVM_REQ_NOT_OK : NVM_REQ_OK;
            NvMShim_EndAll();
            return;
        }
        why = begin_block(id);
    }
    if (!why || !NvMShim_IsSame(opening)) return;
    NvMShim.all.has_failed = 1;
    NvMShim_End(id, NVM_REQ_BLOCK_SKIPPED);
}

void NvMShim_GoThroughList(void) {
    if (!NvMShim_IsAlone()) return;
    if (NvMShim.all.service == NVM_VALIDATE_ALL_API_ID) validate();
    else first_init();
}
