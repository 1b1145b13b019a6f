/* A day of a unit, whatever fails in it: each request ends, unless the power is off, and a result that says that something was read or stored is
   so. */
#include "day.h"
#include "application.h"
#include "NvM_Sim.h"
#include "check.h"
#include <string.h>

static const NvM_BlockIdType STORED[] = { ID(Plain), ID(Single), ID(Shared), ID(Member) };
enum { COUNT = 4 };

/* What may be stored: what was acknowledged last, and whatever was asked for since. */
static uint8 may_hold[COUNT][256];

static unsigned place_of(NvM_BlockIdType id) {
    unsigned place = 0;
    while (STORED[place] != id) place++;
    return place;
}

static void note_write(NvM_BlockIdType id, uint8 value, int is_acknowledged) {
    uint8 *may = may_hold[place_of(id)];
    if (is_acknowledged) memset(may, 0, 256);
    may[value] = 1;
}

static int is_up(void) {
    if (NvM_SimFault() == NVM_SIM_DOWN) NvM_Init(NULL);
    return NvM_SimFault() == NVM_SIM_UP;
}

/* A request that was asked ends, if it was accepted. */
static NvM_RequestResultType end_of(NvM_BlockIdType id, Std_ReturnType asked) {
    NvM_RequestResultType result;
    if (asked != E_OK) return NVM_REQ_NOT_OK;
    result = await(id);
    CHECK(result != NVM_REQ_PENDING || NvM_SimIsOff());
    return result;
}

static void write_plain(uint8 value) {
    uint8 four[4];
    memset(four, value, 4);
    note_write(ID(Plain), value, end_of(ID(Plain), NvM_WriteBlock(ID(Plain), four)) == NVM_REQ_OK);
}

static void read_plain(void) {
    uint8 four[4] = { 0xEE, 0xEE, 0xEE, 0xEE };
    NvM_RequestResultType result = end_of(ID(Plain), NvM_ReadBlock(ID(Plain), four));
    if (result == NVM_REQ_OK) CHECK(is_all(four, 4, four[0]) && may_hold[place_of(ID(Plain))][four[0]]);
    else CHECK(is_all(four, 4, 0xEE));
}

static void write_ram(NvM_BlockIdType id, uint8 *ram, size_t length, uint8 value) {
    memset(ram, value, length);
    note_write(id, value, end_of(id, NvM_WritePRAMBlock(id)) == NVM_REQ_OK);
}

static void read_ram(NvM_BlockIdType id, uint8 *ram, size_t length) {
    NvM_RequestResultType result;
    memset(ram, 0xEE, length);
    result = end_of(id, NvM_ReadPRAMBlock(id));
    if (result == NVM_REQ_OK) CHECK(is_all(ram, length, ram[0]) && may_hold[place_of(id)][ram[0]]);
    else if (result != NVM_REQ_RESTORED_FROM_ROM) CHECK(is_all(ram, length, 0xEE));
}

/* What a WriteAll acknowledged of a member is stored. */
static void shut_down(uint8 value) {
    NvM_RequestResultType result = NVM_REQ_NOT_OK;
    Std_ReturnType marked, both;
    memset(Member, value, 4);
    memset(shared, value, 8);
    marked = NvM_SetRamBlockStatus(ID(Member), TRUE);
    both = NvM_SetRamBlockStatus(ID(Shared), TRUE);
    NvM_WriteAll();
    if (await(0) == NVM_REQ_OK) CHECK(marked != E_OK || status(ID(Member)) == NVM_REQ_OK);
    (void)NvM_GetErrorStatus(ID(Member), &result);
    note_write(ID(Member), value, marked == E_OK && result == NVM_REQ_OK);
    (void)NvM_GetErrorStatus(ID(Shared), &result);
    note_write(ID(Shared), value, both == E_OK && result == NVM_REQ_OK);
}

static void start_up(void) {
    NvM_RequestResultType result = NVM_REQ_NOT_OK;
    NvM_ReadAll();
    (void)await(0);
    if (NvM_GetErrorStatus(ID(Member), &result) == E_OK && result == NVM_REQ_OK && status(0) == NVM_REQ_OK)
        CHECK(is_all(Member, 4, Member[0]) && may_hold[place_of(ID(Member))][Member[0]]);
}

void day(void) {
    start_up();
    write_plain(0x21);
    write_plain(0x22);
    read_plain();
    write_ram(ID(Single), Single, 4, 0x31);
    read_ram(ID(Single), Single, 4);
    write_ram(ID(Shared), shared, 8, 0x41);
    read_ram(ID(Shared), shared, 8);
    shut_down(0x51);
    NvM_Init(NULL);
    CHECK(is_up());
    start_up();
    NvM_ValidateAll();
    CHECK(await(0) != NVM_REQ_PENDING || NvM_SimIsOff());
    NvM_FirstInitAll();
    CHECK(await(0) != NVM_REQ_PENDING || NvM_SimIsOff());
    note_write(ID(Member), 0x33, 0);
    note_write(ID(Plain), 0, 0);
    shut_down(0x52);
}

void look(void) {
    uint8 four[4] = { 0 };
    NvM_Init(NULL);
    CHECK(is_up());
    NvM_ReadAll();
    CHECK(await(0) != NVM_REQ_PENDING);
    read_plain();
    read_ram(ID(Single), Single, 4);
    read_ram(ID(Shared), shared, 8);
    read_ram(ID(Member), Member, 4);
    CHECK(NvM_WriteBlock(ID(Plain), four) == E_OK && await(ID(Plain)) == NVM_REQ_OK);
    NvM_SimClose();
}

void begin_day(void) { memset(may_hold, 0, sizeof may_hold); }
