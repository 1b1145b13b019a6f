/* The block table that C holds is compared with the configuration of the unit that was opened, before anything else is asked of it: so a wrong
   one is refused and not believed. */
#include "shim.h"

static uint8 bad(NvM_BlockIdType id, uint8 fault) {
    NvMShim.fault_block = id;
    return fault;
}

/* Whether a block is described so. Its mirror is a RAM block of the table. */
static int is_described(const NvM_BlockDescriptorType *block, const nvm_block_facts *facts) {
    return facts->length == block->length && facts->ram == (block->ram ? NVM_RAM_PERMANENT : NVM_RAM_NONE) &&
           facts->has_defaults == ((block->is & NVM_HAS_DEFAULTS) != 0) && facts->in_readall == ((block->is & NVM_IN_READALL) != 0) &&
           facts->in_writeall == ((block->is & NVM_IN_WRITEALL) != 0) &&
           (facts->kind == NVM_KIND_DATASET) == ((block->is & NVM_IS_DATASET) != 0);
}

/* What is wrong with a block of the table, or with there being none. */
static uint8 fault_of(NvM_BlockIdType id) {
    const NvM_ConfigType *config = NvMShim.config;
    const NvM_BlockDescriptorType *block = id - FIRST_BLOCK < config->count ? &config->blocks[id - FIRST_BLOCK] : NULL;
    nvm_block_facts facts = { 0 };
    int is_there = nvm_block(&NvMShim.handle, id, &facts) == 0;
    if (!block) return is_there ? bad(id, NVM_SIM_BAD_TABLE) : (uint8)NVM_SIM_UP;
    if (!is_there) return bad(id, NVM_SIM_BAD_TABLE);
    if (facts.ram == NVM_RAM_SYNC) return bad(id, NVM_SIM_SYNCHRONIZED);
    if (block->length > config->room_size) return bad(id, NVM_SIM_BAD_TABLE);
    if (!block->to_nvm != !block->from_nvm || (block->to_nvm && !block->ram)) return bad(id, NVM_SIM_BAD_TABLE);
    return is_described(block, &facts) ? (uint8)NVM_SIM_UP : bad(id, NVM_SIM_BAD_TABLE);
}

/* (and of the block behind the last one there is nothing) */
uint8 NvMShim_FaultOfTable(void) {
    for (unsigned id = FIRST_BLOCK; id <= NvMShim.config->count + 2u; id++) {
        uint8 fault = fault_of((NvM_BlockIdType)id);
        if (fault) return fault;
    }
    return NVM_SIM_UP;
}
