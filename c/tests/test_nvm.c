/* Each service, each sort of block and each callback, over the proved library or over its stand-in. It ends with 0 where all is as
   wanted.

       test_nvm [WRITES]       so many writes in one life, 30,000 where it isn't told */
#define _DEFAULT_SOURCE
#include "application.h"
#include "BswM_NvM.h"
#include "Fee.h"
#include "Fls.h"
#include "MemIf.h"
#include "NvM_Cbk.h"
#include "NvM_Sim.h"
#include "check.h"
#include <fcntl.h>
#include <stdlib.h>
#include <string.h>
#include <sys/file.h>
#include <unistd.h>

static uint8 flash[NVM_SIM_FLASH_SIZE];
enum { CUTS = 6 };

static void blank_unit(void) {
    NvM_SimClose();
    memset(flash, 0xFF, sizeof flash);
    NvM_SimFlash(flash, sizeof flash, CUTS);
    NvM_Init(NULL);
    CHECK(NvM_SimFault() == NVM_SIM_UP);
}

static void before_init(void) {
    uint8 four[4] = { 0 };
    NvM_RequestResultType result;
    CHECK(NvM_SimFault() == NVM_SIM_CLOSED && MemIf_GetStatus(0) == MEMIF_UNINIT);
    CHECK(NvM_ReadBlock(ID(Plain), four) == E_NOT_OK && seen.error.error == NVM_E_UNINIT && seen.error.api == NVM_READ_BLOCK_API_ID);
    CHECK(seen.error.module == NVM_MODULE_ID);
    CHECK(NvM_GetErrorStatus(0, &result) == E_NOT_OK && seen.error.api == NVM_GET_ERROR_STATUS_API_ID);
    NvM_ReadAll();
    CHECK(seen.error.api == NVM_READ_ALL_API_ID && seen.all.count == 0);
    NvM_MainFunction();
    NvM_Init(NULL);
    CHECK(NvM_SimFault() == NVM_SIM_FLASH && seen.error.api == NVM_INIT_API_ID);
    CHECK(NvM_SimCut(1, 0) == E_NOT_OK && NvM_SimRestart() == E_NOT_OK && NvM_SimEntries() == 0);
}

/* A configuration with a second device is refused, and its flash stays as it was. */
static void second_device(void) {
    static const char *const text[] = { "{\"id\":1,\"page\":16,\"sector\":256,\"sectors\":8,\"standard\":8,\"immediate\":4,",
        "\"eeprom\":{\"page\":16,\"sector\":64,\"sectors\":4},\"blocks\":[{\"length\":4,\"device\":1}]}", NULL };
    static const NvM_BlockDescriptorType blocks[] = { { 4, 0, 0, NULL, NULL, NULL, NULL, NULL } };
    static uint8 room[256], small[2048];
    static NvM_ConfigType config = { text, blocks, 1, room, sizeof room, NULL, NULL, NULL, NULL, NULL };
    unsigned changed = 0;
    config.report_error = NvM_Config.report_error;
    NvM_SimClose();
    memset(small, 0xEE, sizeof small);
    memset(&seen, 0, sizeof seen);
    NvM_SimFlash(small, sizeof small, 0);
    NvM_Init(&config);
    for (unsigned i = 0; i < sizeof small; i++) changed += small[i] != 0xEE;
    CHECK(NvM_SimFault() == NVM_SIM_SECOND_DEVICE && seen.error.error == NVM_E_BLOCK_CONFIG && seen.error.api == NVM_INIT_API_ID);
    CHECK(changed == 0 && MemIf_GetStatus(0) == MEMIF_UNINIT && NvM_SimEntries() == 0);
}

/* ReadAll gives RAM to its members alone, each at its own Post. */
static void first_start(void) {
    blank_unit();
    memset(Single, 0xEE, 4);
    memset(NvM_Ram_OwnRam, 0xEE, 3);
    memset(&seen, 0, sizeof seen);
    CHECK(MemIf_GetStatus(0) == MEMIF_IDLE);
    late_refused = 6;                   /* all has ended when the last member has, also where its copy comes later */
    NvM_ReadAll();
    CHECK(MemIf_GetStatus(0) == MEMIF_BUSY);
    CHECK(status(0) == NVM_REQ_PENDING && status(ID(Member)) == NVM_REQ_PENDING && status(ID(Single)) == NVM_REQ_OK);
    CHECK(seen.job_mode.result == NVM_REQ_PENDING && seen.block_mode.result == NVM_REQ_PENDING && seen.block_mode.count == 1);
    CHECK(NvM_WriteBlock(ID(Plain), Single) == E_NOT_OK && seen.error.error == NVM_E_BLOCK_PENDING);
    CHECK(await(0) == NVM_REQ_OK);      /* the one member without defaults was made by its callback */
    CHECK(seen.all.count == 1 && seen.all.service == NVM_READ_ALL_API_ID && seen.all.result == NVM_REQ_OK);
    CHECK(seen.job_mode.count == 2 && seen.job_mode.service == NVM_READ_ALL_API_ID && seen.job_mode.result == NVM_REQ_OK);
    CHECK(seen.member.count == 1 && seen.member.service == NVM_READ_ALL_API_ID && seen.member.result == NVM_REQ_RESTORED_FROM_ROM);
    CHECK(seen.members_before_all == 1 && seen.block_mode.count == 2 && seen.block_mode.result == NVM_REQ_RESTORED_FROM_ROM);
    CHECK(seen.shared.count == 1 && seen.made.count == 1 && seen.always.count == 1 && seen.plain.count == 0 && seen.single.count == 0);
    CHECK(is_all(Member, 4, 0x33) && status(ID(Member)) == NVM_REQ_RESTORED_FROM_ROM);
    CHECK(is_all(Single, 4, 0xEE) && is_all(NvM_Ram_OwnRam, 3, 0xEE));
    CHECK(is_all(shared, 8, 0x55) && status(ID(Shared)) == NVM_REQ_RESTORED_FROM_ROM);
    CHECK(seen.late.count == 1 && seen.late_before_all == 1 && late_refused == 0 && status(ID(Late)) == NVM_REQ_RESTORED_FROM_ROM);
    CHECK(is_all(Made, 2, 0x66) && status(ID(Made)) == NVM_REQ_RESTORED_FROM_ROM && seen.made_by_callback == 1);
}

static void single_requests(void) {
    uint8 four[4] = { 1, 2, 3, 4 }, back[4] = { 0 };
    unsigned before;
    CHECK(NvM_WriteBlock(ID(Plain), four) == E_OK);
    four[0] = 99;                       /* the content is taken with the request */
    CHECK(NvM_ReadBlock(ID(Plain), back) == E_NOT_OK && seen.error.error == NVM_E_BLOCK_PENDING && NvM_SimRefusal() == 11);
    CHECK(await(ID(Plain)) == NVM_REQ_OK && seen.plain.count == 1 && seen.plain.service == NVM_WRITE_BLOCK_API_ID);
    CHECK(NvM_SimRefusal() == 0);
    CHECK(NvM_ReadBlock(ID(Plain), back) == E_OK && await(ID(Plain)) == NVM_REQ_OK && back[0] == 1 && back[3] == 4);
    CHECK(seen.plain.service == NVM_READ_BLOCK_API_ID && seen.plain.result == NVM_REQ_OK);
    CHECK(NvM_InvalidateNvBlock(ID(Plain)) == E_OK && await(ID(Plain)) == NVM_REQ_OK && seen.plain.service == NVM_INVALIDATE_NV_BLOCK_API_ID);
    CHECK(NvM_ReadBlock(ID(Plain), back) == E_OK && await(ID(Plain)) == NVM_REQ_NV_INVALIDATED && back[0] == 1);
    memset(Single, 0x44, 4);
    CHECK(NvM_WritePRAMBlock(ID(Single)) == E_OK);
    memset(Single, 0, 4);
    CHECK(await(ID(Single)) == NVM_REQ_OK && is_all(Single, 4, 0) && seen.single.service == NVM_WRITE_PRAM_BLOCK_API_ID);
    CHECK(NvM_ReadPRAMBlock(ID(Single)) == E_OK && await(ID(Single)) == NVM_REQ_OK && is_all(Single, 4, 0x44));
    CHECK(NvM_ReadBlock(ID(Single), NULL) == E_OK && await(ID(Single)) == NVM_REQ_OK && seen.single.service == NVM_READ_BLOCK_API_ID);
    memset(Member, 0, 4);
    CHECK(NvM_RestorePRAMBlockDefaults(ID(Member)) == E_OK && await(ID(Member)) == NVM_REQ_OK && is_all(Member, 4, 0x33));
    memset(Made, 0, 2);
    CHECK(NvM_RestoreBlockDefaults(ID(Made), NULL) == E_OK && await(ID(Made)) == NVM_REQ_OK && is_all(Made, 2, 0x66));
    CHECK(NvM_RestoreBlockDefaults(ID(Member), back) == E_OK && await(ID(Member)) == NVM_REQ_OK && is_all(back, 4, 0x33));
    before = seen.made_by_callback;
    CHECK(NvM_InvalidateNvBlock(ID(Made)) == E_OK && await(ID(Made)) == NVM_REQ_OK);
    CHECK(NvM_ReadPRAMBlock(ID(Made)) == E_OK && await(ID(Made)) == NVM_REQ_NV_INVALIDATED && seen.made_by_callback == before);
    CHECK(NvM_WriteBlock(ID(Urgent), four) == E_OK && await(ID(Urgent)) == NVM_REQ_OK);
    CHECK(NvM_EraseNvBlock(ID(Urgent)) == E_OK && await(ID(Urgent)) == NVM_REQ_OK && seen.urgent.service == NVM_ERASE_BLOCK_API_ID);
}

static void datasets(void) {
    uint8 two[2] = { 5, 6 }, back[2] = { 0 }, index = 9;
    CHECK(NvM_SetDataIndex(ID(Set), 1) == E_OK && NvM_GetDataIndex(ID(Set), &index) == E_OK && index == 1);
    CHECK(NvM_WriteBlock(ID(Set), two) == E_OK && await(ID(Set)) == NVM_REQ_OK);
    CHECK(NvM_SetDataIndex(ID(Set), 2) == E_OK && NvM_ReadBlock(ID(Set), back) == E_OK && await(ID(Set)) == NVM_REQ_OK && back[0] == 0xAA);
    CHECK(NvM_WriteBlock(ID(Set), two) == E_NOT_OK && NvM_SimRefusal() == 14);
    CHECK(NvM_SetDataIndex(ID(Set), 1) == E_OK && NvM_ReadBlock(ID(Set), back) == E_OK && await(ID(Set)) == NVM_REQ_OK && back[1] == 6);
    CHECK(NvM_SetDataIndex(ID(Set), 3) == E_NOT_OK && seen.error.error == NVM_E_PARAM_BLOCK_DATA_IDX);
    CHECK(NvM_GetDataIndex(ID(Plain), &index) == E_NOT_OK && seen.error.error == NVM_E_BLOCK_CONFIG && index == 0);
}

static void refusals(void) {
    uint8 four[4] = { 0 };
    Std_VersionInfoType version;
    CHECK(NvM_WriteBlock(99, four) == E_NOT_OK && seen.error.error == NVM_E_PARAM_BLOCK_ID && NvM_SimRefusal() == 1);
    CHECK(NvM_WriteBlock(0xFFFF, NULL) == E_NOT_OK && NvM_ReadPRAMBlock(0) == E_NOT_OK && NvM_SimRefusal() == 1);
    CHECK(NvM_WriteBlock(ID(Plain), NULL) == E_NOT_OK && seen.error.error == NVM_E_PARAM_ADDRESS && NvM_SimRefusal() == 6);
    CHECK(NvM_SetRamBlockStatus(ID(Urgent), TRUE) == E_NOT_OK && NvM_SimRefusal() == 6);
    CHECK(NvM_WriteBlock(1, four) == E_NOT_OK && NvM_WriteBlock(1, NULL) == E_NOT_OK && NvM_SimRefusal() == 3);
    CHECK(NvM_EraseNvBlock(ID(Plain)) == E_NOT_OK && seen.error.error == NVM_E_BLOCK_CONFIG && NvM_SimRefusal() == 8);
    CHECK(NvM_RestoreBlockDefaults(ID(Plain), four) == E_NOT_OK && seen.error.error == NVM_E_BLOCK_WITHOUT_DEFAULTS);
    CHECK(NvM_RestorePRAMBlockDefaults(ID(Single)) == E_NOT_OK && NvM_SimRefusal() == 7);
    CHECK(NvM_SetDataIndex(ID(Plain), 1) == E_NOT_OK && seen.error.error == NVM_E_BLOCK_CONFIG);
    CHECK(NvM_GetDataIndex(ID(Set), NULL) == E_NOT_OK && seen.error.error == NVM_E_PARAM_POINTER && NvM_SimRefusal() == 0);
    CHECK(NvM_GetErrorStatus(ID(Set), NULL) == E_NOT_OK && seen.error.error == NVM_E_PARAM_POINTER);
    CHECK(NvM_GetErrorStatus(77, four) == E_NOT_OK && seen.error.error == NVM_E_PARAM_BLOCK_ID);
    NvM_SetBlockLockStatus(ID(Plain), TRUE);
    CHECK(NvM_WriteBlock(ID(Plain), four) == E_NOT_OK && seen.error.error == NVM_E_BLOCK_LOCKED);
    NvM_SetBlockLockStatus(ID(Plain), FALSE);
    NvM_SetBlockLockStatus(ID(Shared), TRUE);
    CHECK(NvM_WritePRAMBlock(ID(Shared)) == E_NOT_OK && NvM_SimRefusal() == 12);
    NvM_SetBlockLockStatus(ID(Shared), FALSE);
    CHECK(NvM_SetBlockProtection(ID(Plain), TRUE) == E_OK);
    CHECK(NvM_WriteBlock(ID(Plain), four) == E_NOT_OK && seen.runtime_error.error == NVM_E_WRITE_PROTECTED);
    CHECK(NvM_SetBlockProtection(ID(Plain), FALSE) == E_OK);
    CHECK(NvM_CancelJobs(99) == E_NOT_OK && NvM_CancelJobs(ID(Plain)) == E_NOT_OK);
    NvM_GetVersionInfo(NULL);
    CHECK(seen.error.api == NVM_GET_VERSION_INFO_API_ID && seen.error.error == NVM_E_PARAM_POINTER);
    NvM_GetVersionInfo(&version);
    CHECK(version.moduleID == 20);
}

static void full_queue(void) {
    uint8 four[4] = { 0 };
    memset(Single, 0, 4);
    CHECK(NvM_WriteBlock(ID(Plain), four) == E_OK && NvM_WriteBlock(ID(Member), four) == E_OK && NvM_WritePRAMBlock(ID(Single)) == E_OK);
    CHECK(NvM_WriteBlock(ID(Set), four) == E_OK && NvM_WriteBlock(ID(Always), four) == E_NOT_OK);
    CHECK(NvM_SimRefusal() == 16 && seen.runtime_error.error == NVM_E_QUEUE_OVERFLOW && seen.runtime_error.api == NVM_WRITE_BLOCK_API_ID);
    CHECK(await(ID(Plain)) == NVM_REQ_OK && await(ID(Member)) == NVM_REQ_OK && await(ID(Single)) == NVM_REQ_OK && await(ID(Set)) == NVM_REQ_OK);
}

static void synchronized(void) {
    memset(shared, 0x77, 8);
    copies_refused = 2;                 /* of three tries */
    CHECK(NvM_WriteBlock(ID(Shared), NULL) == E_OK && await(ID(Shared)) == NVM_REQ_OK && copies_refused == 0);
    memset(shared, 0, 8);
    copies_refused = 2;
    CHECK(NvM_ReadPRAMBlock(ID(Shared)) == E_OK && await(ID(Shared)) == NVM_REQ_OK && is_all(shared, 8, 0x77));
    copies_refused = 3;
    CHECK(NvM_WritePRAMBlock(ID(Shared)) == E_OK && await(ID(Shared)) == NVM_REQ_NOT_OK && seen.shared.result == NVM_REQ_NOT_OK);
    CHECK(NvM_WritePRAMBlock(ID(Shared)) == E_OK && NvM_CancelJobs(ID(Shared)) == E_OK && status(ID(Shared)) == NVM_REQ_CANCELED);
    CHECK(seen.shared.result == NVM_REQ_CANCELED && NvM_CancelJobs(ID(Shared)) == E_NOT_OK);
    CHECK(NvM_SetBlockProtection(ID(Shared), TRUE) == E_OK && NvM_WritePRAMBlock(ID(Shared)) == E_OK);
    CHECK(await(ID(Shared)) == NVM_REQ_NOT_OK && seen.runtime_error.error == NVM_E_WRITE_PROTECTED);
    CHECK(NvM_SetBlockProtection(ID(Shared), FALSE) == E_OK);
}

static void shut_down_and_start(void) {
    uint8 back[3] = { 0, 0, 0x77 };     /* (block 1 is the configuration's id, two bytes) */
    unsigned before;
    memset(Member, 0x31, 4);
    memset(shared, 0x51, 8);
    memset(Always, 0x91, 4);            /* nobody says that it changed */
    CHECK(NvM_SetRamBlockStatus(ID(Member), TRUE) == E_OK && NvM_SetRamBlockStatus(ID(Shared), TRUE) == E_OK);
    CHECK(NvM_SetRamBlockStatus(ID(Made), TRUE) == E_OK);   /* (it isn't valid any more, since nothing was there to read) */
    memset(Member, 0x32, 4);            /* what it holds when WriteAll works is stored */
    copies_refused = 1;
    before = seen.members_before_all;
    NvM_WriteAll();
    CHECK(await(0) == NVM_REQ_OK && status(ID(Member)) == NVM_REQ_OK && status(ID(Shared)) == NVM_REQ_OK);
    CHECK(status(ID(Made)) == NVM_REQ_OK && seen.all.service == NVM_WRITE_ALL_API_ID && seen.members_before_all == before + 1);
    CHECK(NvM_ReadBlock(1, back) == E_OK && await(1) == NVM_REQ_OK && back[0] == 0 && back[1] == 7 && back[2] == 0x77);
    NvM_WriteAll();
    CHECK(await(0) == NVM_REQ_OK && status(ID(Member)) == NVM_REQ_BLOCK_SKIPPED && status(ID(Always)) == NVM_REQ_OK);
    memset(Member, 0, 4);
    memset(shared, 0, 8);
    memset(Always, 0, 4);
    memset(Made, 0, 2);
    NvM_Init(NULL);                     /* a reset */
    CHECK(NvM_SimFault() == NVM_SIM_UP && status(0) == NVM_REQ_OK);
    NvM_ReadAll();
    CHECK(await(0) == NVM_REQ_OK);
    CHECK(is_all(Member, 4, 0x32) && is_all(shared, 8, 0x51) && is_all(Always, 4, 0x91) && is_all(Made, 2, 0x66));
}

/* A copy that is refused to the last is no content: not the mirror's older one, and not its zeros behind a reset. */
static void refused_copies(void) {
    blank_unit();
    copies_refused = 99;                /* (defaults that the application didn't take are no change of its) */
    NvM_ReadAll();
    CHECK(await(0) == NVM_REQ_NOT_OK && status(ID(Shared)) == NVM_REQ_NOT_OK);
    copies_refused = 0;
    NvM_WriteAll();
    CHECK(await(0) == NVM_REQ_OK && status(ID(Shared)) == NVM_REQ_BLOCK_SKIPPED);
    memset(Member, 0x37, 4);
    memset(shared, 0x51, 8);
    CHECK(NvM_SetRamBlockStatus(ID(Member), TRUE) == E_OK && NvM_SetRamBlockStatus(ID(Shared), TRUE) == E_OK);
    NvM_WriteAll();
    CHECK(await(0) == NVM_REQ_OK);
    copies_refused = 99;
    CHECK(NvM_SetRamBlockStatus(ID(Shared), TRUE) == E_OK);
    NvM_WriteAll();
    CHECK(await(0) == NVM_REQ_NOT_OK && status(ID(Shared)) == NVM_REQ_NOT_OK && seen.all.result == NVM_REQ_NOT_OK);
    NvM_Init(NULL);
    CHECK(NvM_SetRamBlockStatus(ID(Shared), TRUE) == E_OK);
    NvM_WriteAll();
    CHECK(await(0) == NVM_REQ_NOT_OK && status(ID(Shared)) == NVM_REQ_NOT_OK);
    NvM_Init(NULL);
    NvM_ReadAll();                      /* what wasn't taken was not given */
    CHECK(await(0) == NVM_REQ_NOT_OK && status(ID(Shared)) == NVM_REQ_NOT_OK && status(ID(Member)) == NVM_REQ_OK);
    copies_refused = 0;
    NvM_Init(NULL);
    NvM_ReadAll();
    CHECK(await(0) == NVM_REQ_OK && is_all(shared, 8, 0x51));
}

static void canceled(void) {
    NvM_WriteAll();
    NvM_CancelWriteAll();
    CHECK(await(0) == NVM_REQ_CANCELED && status(ID(Member)) == NVM_REQ_CANCELED && seen.member.result == NVM_REQ_CANCELED);
    memset(Member, 0x36, 4);
    CHECK(NvM_SetRamBlockStatus(ID(Member), TRUE) == E_OK);
    NvM_WriteAll();
    cycle();
    cycle();
    NvM_CancelWriteAll();               /* one that is under way lets the member in hand end */
    CHECK(NvM_SimRefusal() == 0);
    NvM_CancelWriteAll();
    CHECK(NvM_SimRefusal() == 15);
    CHECK(await(0) == NVM_REQ_CANCELED && status(ID(Always)) == NVM_REQ_CANCELED);
    NvM_CancelWriteAll();
    CHECK(NvM_SetRamBlockStatus(ID(Shared), TRUE) == E_OK);
    in_shared_copy = NvM_CancelWriteAll;    /* the last copy that it waits for cancels it */
    NvM_WriteAll();
    CHECK(await(0) == NVM_REQ_CANCELED && !in_shared_copy && status(ID(Shared)) == NVM_REQ_CANCELED);
    NvM_WriteAll();                     /* what wasn't stored is still to be */
    CHECK(await(0) == NVM_REQ_OK);
    memset(Member, 0, 4);
    CHECK(NvM_ReadPRAMBlock(ID(Member)) == E_OK && await(ID(Member)) == NVM_REQ_OK && is_all(Member, 4, 0x36));
}

/* A write of another content leaves the RAM block as it was: changed. */
static void buffer_beside_ram(void) {
    memset(Member, 0x37, 4);
    CHECK(NvM_SetRamBlockStatus(ID(Member), TRUE) == E_OK && NvM_WriteBlock(ID(Member), Single) == E_OK && await(ID(Member)) == NVM_REQ_OK);
    CHECK(MemIf_GetStatus(0) == MEMIF_BUSY);
    cycle();
    CHECK(MemIf_GetStatus(0) == MEMIF_IDLE && Fee_GetStatus() == MEMIF_IDLE && Fls_GetStatus() == MEMIF_IDLE);
    NvM_WriteAll();
    CHECK(MemIf_GetStatus(0) == MEMIF_BUSY && await(0) == NVM_REQ_OK && status(ID(Member)) == NVM_REQ_OK);
    memset(Member, 0, 4);
    CHECK(NvM_ReadPRAMBlock(ID(Member)) == E_OK && await(ID(Member)) == NVM_REQ_OK && is_all(Member, 4, 0x37));
    CHECK(NvM_SetRamBlockStatus(ID(Member), TRUE) == E_OK && NvM_SetRamBlockStatus(ID(Member), FALSE) == E_OK);
    NvM_WriteAll();
    CHECK(await(0) == NVM_REQ_OK && status(ID(Member)) == NVM_REQ_BLOCK_SKIPPED);
}

/* What a ReadAll gave, and the application then changed, is stored as it is at the WriteAll, also without a further mark. */
static void changed_between(void) {
    memset(Member, 0x38, 4);
    CHECK(NvM_SetRamBlockStatus(ID(Member), TRUE) == E_OK);
    NvM_ReadAll();
    CHECK(await(0) == NVM_REQ_OK && is_all(Member, 4, 0x37));
    memset(Member, 0x39, 4);
    CHECK(NvM_SetRamBlockStatus(ID(Member), TRUE) == E_OK);
    memset(Member, 0x3A, 4);
    NvM_WriteAll();
    CHECK(await(0) == NVM_REQ_OK);
    CHECK(NvM_ReadPRAMBlock(ID(Member)) == E_OK && await(ID(Member)) == NVM_REQ_OK && is_all(Member, 4, 0x3A));
}

/* A WriteAll that is asked for while a write of a member is under way stores the member as it is then. */
static void write_all_behind_a_write(void) {
    memset(Member, 0x3B, 4);
    CHECK(NvM_WritePRAMBlock(ID(Member)) == E_OK);
    CHECK(NvM_SetRamBlockStatus(ID(Member), TRUE) == E_NOT_OK && NvM_SimRefusal() == 11);
    NvM_WriteAll();
    CHECK(NvM_WriteBlock(ID(Plain), Member) == E_NOT_OK && NvM_SimRefusal() == 10);
    NvM_WriteAll();
    CHECK(NvM_SimRefusal() == 10);
    CHECK(await(0) == NVM_REQ_OK && seen.member.service == NVM_WRITE_ALL_API_ID && status(ID(Member)) == NVM_REQ_BLOCK_SKIPPED);
}

static void lists(void) {
    unsigned before, modes;
    memset(Member, 0x11, 4);
    NvM_ValidateAll();
    CHECK(await(0) == NVM_REQ_OK && seen.all.service == NVM_VALIDATE_ALL_API_ID);
    NvM_WriteAll();
    CHECK(await(0) == NVM_REQ_OK && status(ID(Member)) == NVM_REQ_OK);
    seen.plain.count = 0;
    before = seen.member.count;
    memset(Single, 0x6C, 4);
    CHECK(NvM_SetDataIndex(ID(Set), 0) == E_OK && NvM_WriteBlock(ID(Set), Single) == E_OK && await(ID(Set)) == NVM_REQ_OK);
    NvM_FirstInitAll();
    CHECK(await(0) == NVM_REQ_OK && seen.all.service == NVM_FIRST_INIT_ALL_API_ID && seen.member.count == before + 1 && seen.plain.count == 1);
    CHECK(seen.member.service == NVM_FIRST_INIT_ALL_API_ID && is_all(Member, 4, 0x11));
    CHECK(NvM_ReadPRAMBlock(ID(Member)) == E_OK && await(ID(Member)) == NVM_REQ_OK && is_all(Member, 4, 0x33));
    CHECK(NvM_ReadBlock(ID(Plain), Single) == E_OK && await(ID(Plain)) == NVM_REQ_NV_INVALIDATED);
    memset(Single, 0, 4);               /* the instances of a dataset stay */
    CHECK(NvM_ReadBlock(ID(Set), Single) == E_OK && await(ID(Set)) == NVM_REQ_OK && is_all(Single, 2, 0x6C));
    before = seen.member.count;         /* a request of one block that was under way ends as its own */
    CHECK(NvM_RestoreBlockDefaults(ID(Member), Single) == E_OK);
    NvM_FirstInitAll();
    while (seen.member.count == before) cycle();
    CHECK(seen.member.service == NVM_RESTORE_BLOCK_DEFAULTS_API_ID && is_all(Single, 4, 0x33));
    CHECK(await(0) == NVM_REQ_OK && seen.member.count == before + 2 && seen.member.service == NVM_FIRST_INIT_ALL_API_ID);
    before = seen.member.count;         /* a block is pending until its defaults are stored */
    modes = seen.block_mode.count;
    NvM_FirstInitAll();
    while (status(ID(Member)) != NVM_REQ_PENDING) cycle();
    while (status(ID(Member)) == NVM_REQ_PENDING) cycle();
    CHECK(seen.member.count == before + 1 && seen.block_mode.count == modes + 2 && await(0) == NVM_REQ_OK);
    NvM_SetBlockLockStatus(ID(Plain), TRUE);
    NvM_FirstInitAll();
    CHECK(await(0) == NVM_REQ_NOT_OK && status(ID(Plain)) == NVM_REQ_BLOCK_SKIPPED && status(ID(Member)) == NVM_REQ_OK);
    NvM_SetBlockLockStatus(ID(Plain), FALSE);
}

/* Which RAM blocks are valid: none behind a start-up, and those that something was read into, or that the application says are. */
static void valid_rams(void) {
    CHECK(!NvM_SimRamIsValid(0) && !NvM_SimRamIsValid(99) && !NvM_SimRamIsValid(ID(Plain)));
    NvM_Init(NULL);
    CHECK(!NvM_SimRamIsValid(ID(Member)) && !NvM_SimRamIsValid(ID(Single)) && !NvM_SimRamIsValid(1));
    NvM_ReadAll();
    CHECK(await(0) == NVM_REQ_OK && NvM_SimRamIsValid(ID(Member)) && NvM_SimRamIsValid(ID(Made)) && NvM_SimRamIsValid(1) && !NvM_SimRamIsValid(ID(Single)));
    NvM_WriteAll();                     /* one that it doesn't store stays valid */
    CHECK(await(0) == NVM_REQ_OK && status(ID(Member)) == NVM_REQ_BLOCK_SKIPPED && NvM_SimRamIsValid(ID(Member)));
    CHECK(NvM_SetRamBlockStatus(ID(Single), TRUE) == E_OK && NvM_SimRamIsValid(ID(Single)));
    CHECK(NvM_SetRamBlockStatus(ID(Single), FALSE) == E_OK && !NvM_SimRamIsValid(ID(Single)));
    CHECK(NvM_WritePRAMBlock(ID(Single)) == E_OK && NvM_SimRamIsValid(ID(Single)) && await(ID(Single)) == NVM_REQ_OK && NvM_SimRamIsValid(ID(Single)));
}

/* What an application makes of its RAM block by itself are its defaults: FirstInitAll stores them. */
static void lists_make(void) {
    unsigned before = seen.made.count, makes = seen.made_by_callback;
    memset(Made, 0, 2);
    NvM_FirstInitAll();
    CHECK(await(0) == NVM_REQ_OK && seen.made.count == before + 1 && seen.made.service == NVM_FIRST_INIT_ALL_API_ID);
    CHECK(seen.made_by_callback == makes + 1 && is_all(Made, 2, 0x66));
    memset(Made, 0, 2);
    CHECK(NvM_ReadPRAMBlock(ID(Made)) == E_OK && await(ID(Made)) == NVM_REQ_OK && is_all(Made, 2, 0x66) && seen.made_by_callback == makes + 1);
    makes_refused = 1;                  /* where it makes none, nothing is stored */
    memset(Made, 0, 2);
    NvM_FirstInitAll();
    CHECK(await(0) == NVM_REQ_NOT_OK && status(ID(Made)) == NVM_REQ_NOT_OK && seen.made.count == before + 3 && makes_refused == 0);
    CHECK(NvM_ReadPRAMBlock(ID(Made)) == E_OK && await(ID(Made)) == NVM_REQ_OK && is_all(Made, 2, 0x66));
}

/* A RAM block that nothing could be read into isn't valid, so the next WriteAll doesn't store it, marked as it was before. */
static void nothing_to_read(void) {
    CHECK(NvM_InvalidateNvBlock(ID(Made)) == E_OK && await(ID(Made)) == NVM_REQ_OK);
    CHECK(NvM_SetRamBlockStatus(ID(Made), TRUE) == E_OK && NvM_ReadPRAMBlock(ID(Made)) == E_OK && await(ID(Made)) == NVM_REQ_NV_INVALIDATED);
    CHECK(!NvM_SimRamIsValid(ID(Made)));
    NvM_WriteAll();
    CHECK(await(0) == NVM_REQ_OK && status(ID(Made)) == NVM_REQ_BLOCK_SKIPPED);
    CHECK(NvM_SetRamBlockStatus(ID(Made), TRUE) == E_OK);
    NvM_WriteAll();
    CHECK(await(0) == NVM_REQ_OK && status(ID(Made)) == NVM_REQ_OK);
}

/* The services of the modules below answer by their errors. */
static void below(void) {
    uint8 four[4] = { 0 };
    Std_VersionInfoType version;
    CHECK(MemIf_Write(0, 128, four) == E_NOT_OK && seen.error.module == MEMIF_MODULE_ID && seen.error.error == MEMIF_E_PARAM_DEVICE);
    CHECK(MemIf_Read(0, 128, 0, four, 4) == E_NOT_OK && MemIf_GetJobResult(0) == MEMIF_JOB_FAILED && MemIf_GetStatus(1) == MEMIF_UNINIT);
    CHECK(MemIf_InvalidateBlock(0, 128) == E_NOT_OK && MemIf_EraseImmediateBlock(0, 128) == E_NOT_OK);
    CHECK(Fee_Write(128, four) == E_NOT_OK && seen.error.module == FEE_MODULE_ID && seen.error.error == FEE_E_INVALID_BLOCK_NO);
    CHECK(Fee_Read(128, 0, four, 4) == E_NOT_OK && Fee_InvalidateBlock(128) == E_NOT_OK && Fee_EraseImmediateBlock(128) == E_NOT_OK);
    CHECK(Fls_Write(0, four, 4) == E_NOT_OK && seen.error.module == FLS_MODULE_ID && seen.error.error == FLS_E_PARAM_ADDRESS);
    CHECK(Fls_Read(0, four, 4) == E_NOT_OK && Fls_Erase(0, 256) == E_NOT_OK && Fls_Compare(0, four, 4) == E_NOT_OK && Fls_BlankCheck(0, 4) == E_NOT_OK);
    CHECK(Fee_GetJobResult() == MEMIF_JOB_OK && Fls_GetJobResult() == MEMIF_JOB_OK);
    Fee_GetVersionInfo(&version);
    CHECK(version.moduleID == FEE_MODULE_ID);
    Fls_GetVersionInfo(&version);
    CHECK(version.moduleID == FLS_MODULE_ID);
    MemIf_GetVersionInfo(NULL);
    CHECK(seen.error.module == MEMIF_MODULE_ID && seen.error.error == MEMIF_E_PARAM_POINTER);
    Fee_Init(NULL);
    Fls_Init(NULL);
    Fee_SetMode(MEMIF_MODE_FAST);
    Fls_SetMode(MEMIF_MODE_SLOW);
    MemIf_SetMode(MEMIF_MODE_SLOW);
    Fee_Cancel();
    Fls_Cancel();
    MemIf_Cancel(0);
    Fee_JobEndNotification();
    Fee_JobErrorNotification();
    NvM_JobEndNotification();
    NvM_JobErrorNotification();
}

/* A callback may ask for more, end the unit, or begin it anew. */
static uint8 other[4] = { 8, 8, 8, 8 };
static Std_ReturnType accepted;
static void write_again(void) { accepted = NvM_WriteBlock(ID(Plain), other); }
static void close_unit(void) { NvM_SimClose(); }
static void close_and_open(void) { NvM_SimClose(); NvM_Init(NULL); }
static void reset_unit(void) { NvM_Init(NULL); }
static void reopen_and_ask(void) { NvM_SimClose(); NvM_Init(NULL); accepted = NvM_WritePRAMBlock(ID(Shared)); }
static void cancel_shared(void) { accepted = NvM_CancelJobs(ID(Shared)); }

static void begin_two(void) {
    CHECK(NvM_WriteBlock(ID(Plain), other) == E_OK && NvM_WriteBlock(ID(Urgent), other) == E_OK && NvM_WritePRAMBlock(ID(Single)) == E_OK);
}

static void callbacks_that_call(void) {
    uint8 back[4] = { 0 };
    unsigned before;
    blank_unit();
    in_plain_done = write_again;
    CHECK(NvM_InvalidateNvBlock(ID(Plain)) == E_OK);
    while (in_plain_done) cycle();
    CHECK(accepted == E_OK && status(ID(Plain)) == NVM_REQ_PENDING && await(ID(Plain)) == NVM_REQ_OK);
    CHECK(NvM_ReadBlock(ID(Plain), back) == E_OK && await(ID(Plain)) == NVM_REQ_OK && memcmp(back, other, 4) == 0);
    in_plain_done = close_unit;
    begin_two();
    while (in_plain_done) cycle();
    CHECK(NvM_SimFault() == NVM_SIM_CLOSED);
    cycle();
    NvM_Init(NULL);
    CHECK(NvM_SimFault() == NVM_SIM_UP);
    in_plain_done = close_and_open;
    begin_two();
    while (in_plain_done) cycle();
    CHECK(NvM_SimFault() == NVM_SIM_UP && status(ID(Single)) == NVM_REQ_OK);
    NvM_ReadAll();                      /* of a unit that is closed nobody is told any more */
    in_member_mode = close_unit;
    before = seen.member.count;
    while (in_member_mode) cycle();
    CHECK(NvM_SimFault() == NVM_SIM_CLOSED && seen.member.count == before);
    NvM_Init(NULL);
    in_plain_done = reset_unit;
    begin_two();
    while (in_plain_done) cycle();
    CHECK(NvM_SimFault() == NVM_SIM_UP && status(ID(Single)) == NVM_REQ_OK && NvM_ReadBlock(ID(Plain), back) == E_OK && await(ID(Plain)) == NVM_REQ_OK);
}

/* What BswM was told last is so, also where the block's callback asks for its next job, or that of all for the next of all. */
static void write_member_again(void) { accepted = NvM_WritePRAMBlock(ID(Member)); }

static void callbacks_in_order(void) {
    in_member_done = write_member_again;
    CHECK(NvM_ReadPRAMBlock(ID(Member)) == E_OK);
    while (in_member_done) cycle();
    CHECK(accepted == E_OK && status(ID(Member)) == NVM_REQ_PENDING && seen.block_mode.result == NVM_REQ_PENDING);
    CHECK(await(ID(Member)) == NVM_REQ_OK && seen.block_mode.result == NVM_REQ_OK);
    in_all_done = NvM_WriteAll;
    NvM_ReadAll();
    while (in_all_done) cycle();
    CHECK(status(0) == NVM_REQ_PENDING && seen.job_mode.service == NVM_WRITE_ALL_API_ID && seen.job_mode.result == NVM_REQ_PENDING);
    CHECK(await(0) == NVM_REQ_OK && seen.job_mode.service == NVM_WRITE_ALL_API_ID && seen.job_mode.result == NVM_REQ_OK);
}

/* A RAM block that the application makes, with a call that ends the unit. */
static void makers_that_call(void) {
    void (*const each[])(void) = { close_unit, close_and_open, reset_unit };
    for (unsigned i = 0; i < 3; i++) {
        in_make = each[i];
        CHECK(NvM_RestorePRAMBlockDefaults(ID(Made)) == E_OK);
        cycle();
        CHECK(!in_make && NvM_SimFault() == (i ? NVM_SIM_UP : NVM_SIM_CLOSED));
        NvM_Init(NULL);
        in_make = each[i];
        CHECK(NvM_ReadPRAMBlock(ID(Made)) == E_OK);
        while (in_make) cycle();
        CHECK(NvM_SimFault() == (i ? NVM_SIM_UP : NVM_SIM_CLOSED));
        NvM_Init(NULL);
    }
}

static void copies_that_call(void) {
    void (*const each[])(void) = { close_unit, close_and_open, reset_unit };
    for (unsigned i = 0; i < 3; i++) {
        in_shared_copy = each[i];
        CHECK(NvM_WritePRAMBlock(ID(Shared)) == E_OK);
        cycle();
        CHECK(NvM_SimFault() == (i ? NVM_SIM_UP : NVM_SIM_CLOSED));
        if (!i) NvM_Init(NULL);
        CHECK(NvM_SetRamBlockStatus(ID(Shared), TRUE) == E_OK);
        in_shared_copy = each[i];
        NvM_WriteAll();
        cycle();
        CHECK(!in_shared_copy && NvM_SimFault() == (i ? NVM_SIM_UP : NVM_SIM_CLOSED));
        if (!i) NvM_Init(NULL);
        in_shared_copy = each[i];
        NvM_ReadAll();
        while (in_shared_copy) cycle();
        CHECK(NvM_SimFault() == (i ? NVM_SIM_UP : NVM_SIM_CLOSED));
        NvM_Init(NULL);
    }
    in_shared_copy = reopen_and_ask;
    memset(shared, 0x5B, 8);
    CHECK(NvM_WritePRAMBlock(ID(Shared)) == E_OK);
    cycle();                            /* (the copy that was under way is another unit's) */
    CHECK(accepted == E_OK && status(ID(Shared)) == NVM_REQ_PENDING && await(ID(Shared)) == NVM_REQ_OK);
    in_shared_copy = cancel_shared;
    CHECK(NvM_WritePRAMBlock(ID(Shared)) == E_OK);
    cycle();
    CHECK(accepted == E_OK && status(ID(Shared)) == NVM_REQ_CANCELED && await(0) == NVM_REQ_OK);
}

/* What Det does with an error in a main function may end the unit: of a copy that the stack then refused. */
static void errors_that_call(void) {
    void (*const each[])(void) = { close_unit, close_and_open, reset_unit };
    unsigned before;
    for (unsigned i = 0; i < 3; i++) {
        CHECK(NvM_SetBlockProtection(ID(Shared), TRUE) == E_OK && NvM_WritePRAMBlock(ID(Shared)) == E_OK);
        in_error = each[i];
        before = seen.shared.count;
        cycle();
        CHECK(!in_error && seen.runtime_error.error == NVM_E_WRITE_PROTECTED && seen.shared.count == before);
        CHECK(NvM_SimFault() == (i ? NVM_SIM_UP : NVM_SIM_CLOSED));
        NvM_Init(NULL);
    }
    CHECK(NvM_SetBlockProtection(ID(Shared), TRUE) == E_OK && NvM_WritePRAMBlock(ID(Shared)) == E_OK);
    in_error = cancel_shared;
    before = seen.shared.count;
    cycle();
    CHECK(accepted == E_OK && status(ID(Shared)) == NVM_REQ_CANCELED && seen.shared.count == before + 1);
    CHECK(NvM_SetBlockProtection(ID(Shared), FALSE) == E_OK);
}

/* A cut that was planned comes, however long the life before it, and what was stored stands behind it. */
static void long_life(uint32 writes) {
    uint8 four[4] = { 0 }, back[4] = { 0 };
    blank_unit();
    NvM_ReadAll();
    CHECK(await(0) == NVM_REQ_OK);
    CHECK(NvM_SimCut(2 * writes + 40, 5) == E_OK && NvM_SimCut(0, 5) == E_NOT_OK);
    for (uint32 i = 0; i < writes; i++) {
        memcpy(four, &i, 4);
        CHECK(NvM_WriteBlock(ID(Urgent), four) == E_OK);
        if (await(ID(Urgent)) != NVM_REQ_OK) break;
    }
    CHECK(NvM_SimIsOff() && NvM_ReadBlock(ID(Plain), back) == E_NOT_OK && NvM_SimRefusal() == 2);
    CHECK(NvM_WritePRAMBlock(ID(Shared)) == E_NOT_OK && NvM_SimRefusal() == 2);
    NvM_ReadAll();
    CHECK(NvM_SimRefusal() == 2);
    CHECK(NvM_SimRestart() == E_OK && !NvM_SimIsOff());
    for (uint32 i = 0; i < writes; i++) {
        memcpy(four, &i, 4);
        CHECK(NvM_WriteBlock(ID(Urgent), four) == E_OK && await(ID(Urgent)) == NVM_REQ_OK);
    }
    NvM_ReadAll();
    CHECK(await(0) == NVM_REQ_OK);
    memset(Member, 0x35, 4);
    CHECK(NvM_SetRamBlockStatus(ID(Member), TRUE) == E_OK);
    NvM_WriteAll();                     /* what a WriteAll behind a long life acknowledged is found by the next start */
    CHECK(await(0) == NVM_REQ_OK && status(1) == NVM_REQ_OK);
    NvM_SimClose();
    NvM_Init(NULL);
    memset(Member, 0, 4);
    NvM_ReadAll();
    CHECK(await(0) == NVM_REQ_OK && status(ID(Member)) == NVM_REQ_OK && is_all(Member, 4, 0x35));
    CHECK(NvM_ReadBlock(ID(Urgent), back) == E_OK && await(ID(Urgent)) == NVM_REQ_OK && memcmp(back, four, 2) == 0);
}

static void cuts_are_counted(void) {
    blank_unit();
    CHECK(NvM_SimCut(0, 0) == E_NOT_OK);
    for (unsigned i = 0; i < CUTS; i++) CHECK(NvM_SimCut(1000000, 0) == E_OK);
    CHECK(NvM_SimCut(1000000, 0) == E_NOT_OK);
}

/* The history is told line by line: each entry of the unit once, a start-up first. */
static struct { unsigned lines, founds, asks, posts, offs; char last[8]; } told;

static void take_line(const char *line) {
    told.lines++;
    told.founds += strncmp(line, "found", 5) == 0;
    told.asks += strncmp(line, "ask", 3) == 0;
    told.posts += strncmp(line, "post", 4) == 0;
    told.offs += strncmp(line, "off", 3) == 0;
    memset(told.last, 0, sizeof told.last);
    memcpy(told.last, line, strcspn(line, " ,") < sizeof told.last ? strcspn(line, " ,") : 0);
    CHECK(strchr(line, '\n') == NULL);
}

static void histories(void) {
    static uint8 room[4096];
    uint8 four[4] = { 0 };
    unsigned asks;
    NvM_SimHistory(take_line, room, sizeof room);
    blank_unit();
    CHECK(told.founds == 1 && told.lines == NvM_SimEntries());
    asks = told.asks;
    CHECK(NvM_WriteBlock(ID(Plain), four) == E_OK && told.asks == asks + 1 && strcmp(told.last, "ask") == 0);
    CHECK(await(ID(Plain)) == NVM_REQ_OK && told.posts == 1 && strcmp(told.last, "post") == 0);
    CHECK(NvM_WriteBlock(99, four) == E_NOT_OK && NvM_SimCut(1, 0) == E_OK && NvM_WriteBlock(ID(Plain), four) == E_OK);
    while (!NvM_SimIsOff()) cycle();
    CHECK(told.offs == 1 && strcmp(told.last, "off") == 0);
    NvM_Init(NULL);
    CHECK(told.founds == 2 && strcmp(told.last, "found") == 0 && told.lines == NvM_SimEntries());
    NvM_SimHistory(NULL, NULL, 0);
    CHECK(NvM_WriteBlock(ID(Plain), four) == E_OK && await(ID(Plain)) == NVM_REQ_OK && told.lines < NvM_SimEntries());
    NvM_SimHistory(take_line, room, 4);     /* (no line is as short) */
    CHECK(NvM_WriteBlock(ID(Plain), four) == E_OK && await(ID(Plain)) == NVM_REQ_OK && told.founds == 2 && told.posts == 1);
    NvM_SimHistory(take_line, NULL, sizeof room);   /* (without a room there is no line) */
    CHECK(NvM_WriteBlock(ID(Plain), four) == E_OK && await(ID(Plain)) == NVM_REQ_OK && told.founds == 2 && told.posts == 1);
    NvM_SimHistory(NULL, NULL, 0);
}

/* A table that isn't the text's is refused, not believed, and so is a text that gives a block to its application. */
static NvM_BlockDescriptorType blocks[10];
static NvM_ConfigType config;

static void refused(uint8 fault, NvM_BlockIdType id) {
    unsigned before = seen.error.count;
    NvM_Init(&config);
    CHECK(NvM_SimFault() == fault && NvM_SimFaultBlock() == id);
    CHECK(seen.error.count == before + 1 && seen.error.api == NVM_INIT_API_ID);
    CHECK(NvM_ReadBlock(ID(Plain), other) == E_NOT_OK);
    CHECK(NvM_WriteBlock(ID(Plain), other) == E_NOT_OK && NvM_WriteBlock(ID(Plain), NULL) == E_NOT_OK && seen.error.error == NVM_E_UNINIT);
    CHECK(NvM_SimIsIdle());
    memcpy(blocks, NvM_Config.blocks, sizeof blocks);
    config = NvM_Config;
    config.blocks = blocks;
}

static void wrong_tables(void) {
    static const char *const NO_TEXT[] = { "{", NULL }, *const NO_LENGTH[] = {
        "{\"id\":7,\"page\":16,\"sector\":1024,\"sectors\":8,\"standard\":4,\"immediate\":2,\"blocks\":[{\"length\":4},{\"length\":0}]}", NULL },
        *const WITH_SYNC[] = {
        "{\"id\":7,\"page\":16,\"sector\":1024,\"sectors\":8,\"standard\":4,\"immediate\":2,\"blocks\":[",
        "{\"length\":4},{\"length\":4,\"ram\":\"sync\"}]}", NULL };
    NvM_SimFlash(flash, sizeof flash, CUTS);
    memcpy(blocks, NvM_Config.blocks, sizeof blocks);
    config = NvM_Config;
    config.blocks = blocks;
    blocks[0].length = 8;
    refused(NVM_SIM_BAD_TABLE, ID(Plain));
    blocks[1].length = 2;
    refused(NVM_SIM_BAD_TABLE, ID(Member));
    blocks[1].ram = NULL;
    refused(NVM_SIM_BAD_TABLE, ID(Member));
    blocks[0].ram = Member;
    refused(NVM_SIM_BAD_TABLE, ID(Plain));
    blocks[6].is = 0;
    refused(NVM_SIM_BAD_TABLE, ID(Set));
    blocks[1].is = NVM_HAS_DEFAULTS;    /* no member, but in the text */
    refused(NVM_SIM_BAD_TABLE, ID(Member));
    blocks[1].is = (uint8)(blocks[1].is & ~NVM_HAS_DEFAULTS);
    refused(NVM_SIM_BAD_TABLE, ID(Member));
    blocks[2].is = NVM_IN_READALL;
    refused(NVM_SIM_BAD_TABLE, ID(Single));
    blocks[2].is = NVM_IN_WRITEALL;
    refused(NVM_SIM_BAD_TABLE, ID(Single));
    blocks[3].from_nvm = NULL;
    refused(NVM_SIM_BAD_TABLE, ID(Shared));
    config.count = 9;
    refused(NVM_SIM_BAD_TABLE, ID(Late));
    config.room_size = 100;             /* less than the text */
    refused(NVM_SIM_BAD_CONFIG, 0);
    config.text = NULL;
    refused(NVM_SIM_BAD_CONFIG, 0);
    config.room = NULL;
    refused(NVM_SIM_BAD_CONFIG, 0);
    config.blocks = NULL;
    refused(NVM_SIM_BAD_TABLE, 0);
    config.count = 600;                 /* more than there may be */
    refused(NVM_SIM_BAD_TABLE, 0);
    config.text = NO_TEXT;
    refused(NVM_SIM_BAD_CONFIG, 0);
    CHECK(NvM_SimRule() == 1);
    config.text = NO_LENGTH;
    refused(NVM_SIM_BAD_CONFIG, 3);
    CHECK(NvM_SimRule() == 13);
    config.text = WITH_SYNC;
    config.count = 2;
    refused(NVM_SIM_SYNCHRONIZED, 3);
    NvM_SimFlash(flash, sizeof flash / 2, CUTS);
    refused(NVM_SIM_WRONG_SIZE, 0);
    NvM_SimFlash(flash, sizeof flash, CUTS);
    NvM_Init(&config);
    CHECK(NvM_SimFault() == NVM_SIM_UP);
}

/* A dataset has no defaults, so none that its application makes. */
static Std_ReturnType make_none(void) {
    CHECK(0);
    return E_OK;
}

static void datasets_have_no_defaults(void) {
    static const char *const OF_DATASET[] = {
        "{\"id\":7,\"page\":16,\"sector\":1024,\"sectors\":8,\"standard\":4,\"immediate\":2,\"blocks\":[",
        "{\"kind\":\"dataset\",\"length\":2,\"nv\":2,\"ram\":\"permanent\"}]}", NULL };
    static const NvM_BlockDescriptorType ONE[] = { { 2, NVM_IS_DATASET, 0, Made, NULL, make_none, NULL, NULL } };
    NvM_SimFlash(flash, sizeof flash, CUTS);
    config = NvM_Config;
    config.text = OF_DATASET;
    config.blocks = ONE;
    config.count = 1;
    NvM_Init(&config);
    CHECK(NvM_SimFault() == NVM_SIM_UP && NvM_RestorePRAMBlockDefaults(2) == E_NOT_OK && NvM_SimRefusal() == 3);
    CHECK(seen.error.error == NVM_E_BLOCK_CONFIG && NvM_RestoreBlockDefaults(2, NULL) == E_NOT_OK && NvM_SimRefusal() == 3);
    config = NvM_Config;
    config.blocks = blocks;
}

/* A copy is given up behind as many repeats as a table can say. */
static void most_repeats(void) {
    NvM_SimFlash(flash, sizeof flash, CUTS);
    memcpy(blocks, NvM_Config.blocks, sizeof blocks);
    blocks[3].repeats = 255;
    NvM_Init(&config);
    copies_refused = 256;
    CHECK(NvM_WritePRAMBlock(ID(Shared)) == E_OK && await(ID(Shared)) == NVM_REQ_NOT_OK && copies_refused == 0);
    copies_refused = 255;
    CHECK(NvM_WritePRAMBlock(ID(Shared)) == E_OK && await(ID(Shared)) == NVM_REQ_OK && copies_refused == 0);
    copies_refused = 256;
    CHECK(NvM_ReadPRAMBlock(ID(Shared)) == E_OK && await(ID(Shared)) == NVM_REQ_NOT_OK && copies_refused == 0);
    memcpy(blocks, NvM_Config.blocks, sizeof blocks);
}

/* A flash in a file is there for the next unit, and for one at a time. */
static void files(const char *path) {
    int file;
    memset(other, 0x5A, 4);
    CHECK(NvM_SimFile(path, NVM_SIM_FLASH_SIZE, 0) == E_OK);
    NvM_Init(NULL);
    CHECK(NvM_SimFault() == NVM_SIM_UP && NvM_WriteBlock(ID(Plain), other) == E_OK && await(ID(Plain)) == NVM_REQ_OK);
    file = open(path, O_RDWR);
    CHECK(flock(file, LOCK_EX | LOCK_NB) != 0);
    CHECK(NvM_SimFile(NULL, 0, 0) == E_OK && NvM_SimFault() == NVM_SIM_CLOSED && flock(file, LOCK_EX | LOCK_NB) == 0);
    CHECK(NvM_SimFile(path, NVM_SIM_FLASH_SIZE, 0) == E_NOT_OK);
    NvM_Init(NULL);
    CHECK(NvM_SimFault() == NVM_SIM_FLASH);
    close(file);
    CHECK(NvM_SimFile(path, NVM_SIM_FLASH_SIZE / 2, 0) == E_NOT_OK && NvM_SimFile(path, NVM_SIM_FLASH_SIZE * 2, 0) == E_NOT_OK);
    CHECK(NvM_SimFile(path, NVM_SIM_FLASH_SIZE, 0) == E_OK);
    NvM_Init(NULL);
    memset(Single, 0, 4);
    CHECK(NvM_ReadBlock(ID(Plain), Single) == E_OK && await(ID(Plain)) == NVM_REQ_OK && is_all(Single, 4, 0x5A));
    CHECK(NvM_SimFile(NULL, 0, 0) == E_OK && truncate(path, 0) == 0 && NvM_SimFile(path, NVM_SIM_FLASH_SIZE, 0) == E_OK);
    CHECK(NvM_SimFile("/", NVM_SIM_FLASH_SIZE, 0) == E_NOT_OK && NvM_SimFile(NULL, 0, 0) == E_OK);
    (void)unlink(path);
}

int main(int count, char **words) {
    uint32 writes = count > 1 ? (uint32)strtoul(words[1], NULL, 10) : 30000;
    before_init();
    second_device();
    first_start();
    single_requests();
    datasets();
    refusals();
    full_queue();
    synchronized();
    shut_down_and_start();
    refused_copies();
    canceled();
    buffer_beside_ram();
    changed_between();
    write_all_behind_a_write();
    lists();
    valid_rams();
    lists_make();
    nothing_to_read();
    below();
    callbacks_that_call();
    makers_that_call();
    copies_that_call();
    errors_that_call();
    callbacks_in_order();
    long_life(writes);
    cuts_are_counted();
    histories();
    wrong_tables();
    datasets_have_no_defaults();
    most_repeats();
    NvM_SimClose();
    files("test_nvm.img");
    printf("%u checks, %u failed\n", checks, failures);
    return failures != 0;
}
