/* The unit: how it starts, and how it ends. */
#include "shim.h"
#include <string.h>

NvMShim_Unit NvMShim = { .fault = NVM_SIM_CLOSED, .in_phase = { PLACES } };

static int is_open(void) { return NvMShim.fault == NVM_SIM_UP || NvMShim.fault == NVM_SIM_DOWN; }

/* As a start-up leaves them: no request is under way, and each result is OK. (There may be a switch of banks to go on with.) */
static void forget_requests(void) {
    memset(NvMShim.blocks, 0, sizeof NvMShim.blocks);
    memset(NvMShim.in_phase, 0, sizeof NvMShim.in_phase);
    NvMShim.in_phase[PHASE_NONE] = PLACES;
    NvMShim.blocks[OWN_BLOCK].told = NO_RESULT;
    memset(&NvMShim.all, 0, sizeof NvMShim.all);
    NvMShim.is_off = NvMShim.is_at_rest = 0;
    NvMShim.is_idle = 1;
    NvMShim.opening++;
}

/* The configuration's text in one piece, at the front of its room. Its length, or 0 where the room is too small. */
static size_t join_text(const NvM_ConfigType *config) {
    size_t length = 0;
    for (const char *const *piece = config->text; *piece; piece++) {
        size_t more = strlen(*piece);
        if (more > config->room_size - length) return 0;
        memcpy(config->room + length, *piece, more);
        length += more;
    }
    return length;
}

/* Which rule a text breaks that is no configuration, and at which block, unless there is no memory to say. */
static uint8 fault_of_text(const uint8 *text, size_t length) {
    return nvm_check(text, length, &NvMShim.rule, &NvMShim.fault_block) == 1 ? NVM_SIM_BAD_CONFIG : NVM_SIM_MEMORY;
}

static uint8 open_unit(void) {
    const NvM_ConfigType *config = NvMShim.config;
    nvm_memory back = {0};
    size_t length;
    uint8 fault;
    if (!NvMShim.flash.at) return NVM_SIM_FLASH;
    if (!config->text || !config->room) return NVM_SIM_BAD_CONFIG;
    if (!config->blocks || config->count > MOST_BLOCKS) return NVM_SIM_BAD_TABLE;
    length = join_text(config);
    if (!length) return NVM_SIM_BAD_CONFIG;
    fault = nvm_open(&NvMShim.handle, config->room, length, NvMShim.flash, NvMShim.most_cuts, &back);
    if (fault) return fault == NVM_SIM_BAD_CONFIG ? fault_of_text(config->room, length) : fault;
    fault = NvMShim_FaultOfTable();
    if (fault) {
        nvm_close(&NvMShim.handle, &back);
        return fault;
    }
    NvMShim.last_id = (uint16)(config->count + 1u);
    NvMShim_BeginHistory();
    NvMShim_Tell();
    return NVM_SIM_UP;
}

/* What is wrong with a configuration as an error of the standard: nothing where it isn't the application's mistake. */
static void report_fault(void) {
    uint8 fault = NvMShim.fault;
    if (fault == NVM_SIM_BAD_TABLE || fault == NVM_SIM_SYNCHRONIZED || fault == NVM_SIM_BAD_CONFIG || fault == NVM_SIM_SECOND_DEVICE)
        NvMShim_Report(NVM_INIT_API_ID, NVM_E_BLOCK_CONFIG);
    if (fault == NVM_SIM_FLASH || fault == NVM_SIM_WRONG_SIZE) NvMShim_Report(NVM_INIT_API_ID, NVM_E_PARAM_POINTER);
}

void NvM_Init(const NvM_ConfigType *ConfigPtr) {
    const NvM_ConfigType *of = ConfigPtr ? ConfigPtr : &NvM_Config;
    if (is_open() && of == NvMShim.config) {
        (void)NvM_SimRestart();
        return;
    }
    NvM_SimClose();
    NvMShim.config = of;
    NvMShim.fault_block = NvMShim.rule = 0;
    forget_requests();
    NvMShim.fault = of ? open_unit() : NVM_SIM_BAD_CONFIG;
    report_fault();
}

void NvM_SimClose(void) {
    nvm_memory back = {0};
    if (!is_open()) return;
    nvm_close(&NvMShim.handle, &back);
    NvMShim.last_id = 0;
    NvMShim.fault = NVM_SIM_CLOSED;
    forget_requests();
}

Std_ReturnType NvM_SimRestart(void) {
    if (!is_open()) return E_NOT_OK;
    NvMShim.fault = nvm_restart(&NvMShim.handle) == 0 ? NVM_SIM_UP : NVM_SIM_DOWN;
    NvMShim_Tell();
    forget_requests();
    return (Std_ReturnType)(NvMShim_IsUp() ? E_OK : E_NOT_OK);
}

void NvM_SimFlash(uint8 *flash, size_t size, uint32 cuts) {
    NvM_SimClose();
    NvMShim.flash.at = flash;
    NvMShim.flash.length = size;
    NvMShim.most_cuts = cuts;
}

Std_ReturnType NvM_SimCut(uint32 nth, uint32 keep) {
    return (Std_ReturnType)(NvMShim_IsUp() && nvm_cut(&NvMShim.handle, nth, keep) == 0 ? E_OK : E_NOT_OK);
}

uint8 NvM_SimFault(void) { return NvMShim.fault; }
uint8 NvM_SimRule(void) { return NvMShim.rule; }
NvM_BlockIdType NvM_SimFaultBlock(void) { return NvMShim.fault_block; }
boolean NvM_SimIsOff(void) { return (boolean)(NvMShim.is_off != 0); }
boolean NvM_SimIsIdle(void) { return (boolean)(NvMShim.is_idle && NvMShim.all.phase == PHASE_NONE && NvMShim_IsAlone()); }
uint8 NvM_SimRefusal(void) { return NvMShim.refusal; }
boolean NvM_SimRamIsValid(NvM_BlockIdType BlockId) {
    if (!is_open() || BlockId > NvMShim_LastId()) return FALSE;
    return (boolean)(NvMShim.blocks[BlockId].is_changed || nvm_ram_is_valid(&NvMShim.handle, BlockId));
}

uint32 NvM_SimEntries(void) { return is_open() ? nvm_entries(&NvMShim.handle) : 0; }

void NvM_GetVersionInfo(Std_VersionInfoType *versioninfo) {
    if (!versioninfo) {
        (void)NvMShim_RefusePointer(NVM_GET_VERSION_INFO_API_ID);
        return;
    }
    versioninfo->vendorID = NVM_VENDOR_ID;
    versioninfo->moduleID = NVM_MODULE_ID;
    versioninfo->sw_major_version = NVM_SW_MAJOR_VERSION;
    versioninfo->sw_minor_version = NVM_SW_MINOR_VERSION;
    versioninfo->sw_patch_version = NVM_SW_PATCH_VERSION;
}
