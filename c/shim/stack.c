/* The proved calls, with their codes as the services need them. */
#include "shim.h"

/* Asks the stack: 0 where it is accepted, with a value if there is one; else the refusal. */
uint8 NvMShim_Ask(uint8 service, NvM_BlockIdType id, uint8 number, const void *content, size_t length, uint8 *value) {
    static const uint8 nothing = 0;     /* (a pointer is never null) */
    uint8 told = 0, code = nvm_ask(&NvMShim.handle, service, id, number, length ? (const uint8 *)content : &nothing, length, &told);
    NvMShim.is_at_rest = 0;
    NvMShim_Tell();
    if (code == 0) return 0;
    if (code == 1) return told;
    switch (code) {
    case 2:
        if (value) *value = told;
        return 0;
    case 3: return REFUSED_HISTORY;
    case 5: return REFUSED_OFF;
    default: return NVM_SIM_NO_MEMORY;
    }
}

uint8 NvMShim_PutRam(NvM_BlockIdType id, const void *content) {
    return NvMShim_Ask(NVM_PUT_RAM, id, 0, content, NvMShim_BlockOf(id)->length, NULL);
}

/* Whether the next WriteAll stores the stack's copy of a RAM block. (One that isn't marked stays as it is: it may be valid.) */
uint8 NvMShim_SetChanged(NvM_BlockIdType id, uint8 is_changed) {
    uint8 why = is_changed || NvMShim.blocks[id].is_marked ? NvMShim_Ask(NVM_SET_RAM_BLOCK_STATUS, id, is_changed, NULL, 0, NULL) : 0;
    if (!why) NvMShim.blocks[id].is_marked = is_changed;
    return why;
}

/* The RAM block gets the stack's copy, if that is as long as it. */
int NvMShim_TakeRam(NvM_BlockIdType id) {
    const NvM_BlockDescriptorType *block = NvMShim_BlockOf(id);
    size_t size = 0;
    return nvm_ram(&NvMShim.handle, id, (uint8_t *)block->ram, block->length, &size) == 0 && size == block->length;
}

/* The destination gets what the last Post gave, if that is as long as it. */
int NvMShim_TakeGiven(void *into, size_t length) {
    size_t size = 0;
    return nvm_given(&NvMShim.handle, (uint8_t *)into, length, &size) == 0 && size == length;
}

NvM_RequestResultType NvMShim_StatusOf(NvM_BlockIdType id) { return nvm_status(&NvMShim.handle, id); }
