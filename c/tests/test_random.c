/* Requests, cycles, resets, power cuts and closed units as a seed draws them, of all blocks, in any order, and from callbacks too. What is read
   must be what was acknowledged last, or was asked for since. It ends with 0 where it is.

       test_random [SEED [STEPS]] */
#include "application.h"
#include "MemIf.h"
#include "NvM_Sim.h"
#include "check.h"
#include <stdlib.h>
#include <string.h>

enum { LAST = ID(OwnRam), LONGEST = 8, CUTS = 1000 };

static uint8 flash[NVM_SIM_FLASH_SIZE], buffers[LAST + 1][LONGEST];
static uint8 may_hold[LAST + 1][256];       /* what may be stored, by its first byte; each content has equal bytes */
static uint8 to_ram[LAST + 1];              /* the request under way reads into the RAM block */
static uint8 is_write[LAST + 1], is_read[LAST + 1];     /* it writes a content, or reads into the buffer */
static uint8 written[LAST + 1];             /* the content that is written */
static uint32 drawn;

static const struct { uint8 *ram, length; } BLOCKS[LAST + 1] = {
    { NULL, 0 }, { NULL, 2 }, { NULL, 4 }, { Member, 4 }, { Single, 4 }, { shared, 8 }, { Made, 2 }, { NULL, 2 }, { NULL, 2 }, { Always, 4 }, { NULL, 3 }
};

static uint8 *ram_of(unsigned id) { return id == ID(OwnRam) ? NvM_Ram_OwnRam : BLOCKS[id].ram; }

static uint32 draw(uint32 below) {
    drawn = drawn * 1664525u + 1013904223u;
    return (drawn >> 8) % below;
}

static int is_pending(unsigned id) {
    NvM_RequestResultType result = NVM_REQ_OK;
    return NvM_GetErrorStatus((NvM_BlockIdType)id, &result) == E_OK && result == NVM_REQ_PENDING;
}

static void note(unsigned id, uint8 value) { may_hold[id][value] = 1; }

/* The application changes its RAM block, while nothing is read into it. */
static void set_ram(unsigned id) {
    if (!ram_of(id) || is_pending(0) || (is_pending(id) && to_ram[id])) return;
    memset(ram_of(id), (int)draw(255) + 1, BLOCKS[id].length);
    note(id, ram_of(id)[0]);
}

/* A write of a content was accepted. */
static void ask_write(unsigned id, uint8 value) {
    note(id, value);
    written[id] = value;
    is_write[id] = 1;
}

static void write_block(unsigned id) {
    uint8 content[LONGEST];
    if (is_pending(id) || is_pending(0)) return;
    memset(content, (int)draw(255) + 1, sizeof content);
    if (NvM_WriteBlock((NvM_BlockIdType)id, content) == E_OK) ask_write(id, content[0]);
}

static void write_ram(unsigned id) {
    if (is_pending(id) || is_pending(0)) return;
    if (NvM_WritePRAMBlock((NvM_BlockIdType)id) != E_OK) return;
    if (id == ID(Shared)) note(id, shared[0]);      /* (what is stored is copied later) */
    else ask_write(id, ram_of(id)[0]);
}

static void write_all(void) {
    if (is_pending(0)) return;
    NvM_WriteAll();
    for (unsigned id = 2; is_pending(0) && id <= LAST; id++)
        if (ram_of(id)) note(id, ram_of(id)[0]);
}

static void read_block(unsigned id) {
    if (is_pending(id)) return;
    memset(buffers[id], 0xEE, LONGEST);
    if (!is_pending(id) && NvM_ReadBlock((NvM_BlockIdType)id, buffers[id]) == E_OK) is_read[id] = 1;
}

static void read_ram(unsigned id) {
    if (!is_pending(id) && NvM_ReadPRAMBlock((NvM_BlockIdType)id) == E_OK) to_ram[id] = 1;
}

static void start(void) {
    memset(is_write, 0, sizeof is_write);
    memset(is_read, 0, sizeof is_read);
    memset(to_ram, 0, sizeof to_ram);
    NvM_Init(NULL);
    CHECK(NvM_SimFault() == NVM_SIM_UP);
    if (draw(3) == 0) CHECK(NvM_SimIsOff() == FALSE);
    if (draw(2) == 0) {
        uint32 nth = 1 + draw(200);     /* (the order of two arguments is the compiler's) */
        (void)NvM_SimCut(nth, draw(17));
    }
}

/* (the RAM block of a member may be given at any time then: what it holds may be stored again) */
static void read_all(void) {
    if (is_pending(0)) return;
    NvM_ReadAll();
    for (unsigned id = 2; id <= LAST; id++) to_ram[id] = 1;
}

static void step(void) {
    unsigned id = draw(LAST + 2);
    NvM_BlockIdType block = (NvM_BlockIdType)id;
    unsigned place = id >= 2 && id <= LAST ? id : 2;
    uint8 index;
    switch (draw(28)) {
    case 0: case 1: case 2: write_block(place); break;
    case 3: case 4: if (ram_of(place)) write_ram(place); break;
    case 5: read_block(place); break;
    case 6: read_ram(place); break;
    case 7: case 8: set_ram(place); break;
    case 9: case 10: (void)NvM_SetRamBlockStatus(block, (boolean)draw(2)); break;
    case 11: write_all(); break;
    case 12: NvM_CancelWriteAll(); break;
    case 13: read_all(); break;
    case 14: NvM_SetBlockLockStatus(block, (boolean)(draw(4) == 0)); break;
    case 15: (void)NvM_SetBlockProtection(block, (boolean)(draw(4) == 0)); break;
    case 16: (void)NvM_CancelJobs(block); break;
    case 17: (void)NvM_GetDataIndex(block, &index); break;
    case 18: copies_refused = draw(5); break;
    case 19: if (draw(8) == 0) start(); break;
    case 20: if (draw(8) == 0) { NvM_SimClose(); start(); } break;
    case 21: NvM_ValidateAll(); break;
    case 22: (void)NvM_RestoreBlockDefaults(block, NULL); (void)NvM_EraseNvBlock(99); break;
    case 23: if (draw(2) == 0) (void)NvM_WriteBlock(block, NULL); break;
    case 24: in_plain_done = draw(2) ? start : write_all; break;
    case 25: in_error = draw(3) ? read_all : start; break;
    case 26: in_member_mode = draw(2) ? read_all : write_all; break;
    default: in_shared_copy = draw(3) ? read_all : start; break;
    }
}

/* A block that a step may have stored without the test's knowledge: what its RAM block holds may be stored. */
static void look_at_rams(void) {
    for (unsigned id = 2; id <= LAST; id++)
        if (ram_of(id)) note(id, ram_of(id)[0]);
}

/* A request that has ended: a content that was acknowledged is what is stored now, or what was asked for since; one that was read is one that
   may be. (Of a dataset the index may be another one.) */
static void look_at_ends(void) {
    for (unsigned id = 2; id <= LAST; id++) {
        NvM_RequestResultType result = NVM_REQ_NOT_OK;
        if (NvM_GetErrorStatus((NvM_BlockIdType)id, &result) != E_OK || result == NVM_REQ_PENDING) continue;
        if (is_write[id] && result == NVM_REQ_OK && !ram_of(id) && id != ID(Set)) {
            memset(may_hold[id], 0, 256);
            note(id, written[id]);
        }
        if (is_read[id] && result == NVM_REQ_OK) CHECK(is_all(buffers[id], BLOCKS[id].length, buffers[id][0]) && may_hold[id][buffers[id][0]]);
        is_write[id] = is_read[id] = to_ram[id] = 0;
    }
}

/* A status that the services keep is the stack's, of a block whose results are the stack's alone. */
NvM_RequestResultType NvMShim_StatusOf(NvM_BlockIdType id);

static void look_at_statuses(void) {
    static const NvM_BlockIdType OF_STACK[] = { 1, ID(Plain), ID(Single), ID(Urgent), ID(Set) };
    NvM_RequestResultType result;
    if (NvM_SimFault() != NVM_SIM_UP) return;
    for (size_t i = 0; i < sizeof OF_STACK / sizeof OF_STACK[0]; i++)
        CHECK(NvM_GetErrorStatus(OF_STACK[i], &result) == E_OK && (result == NvMShim_StatusOf(OF_STACK[i]) || result == NVM_REQ_PENDING));
}

/* Behind it nothing fails: each block is read, and holds what it may, a default, or nothing. */
static void look(void) {
    static const uint8 DEFAULTS[LAST + 1] = { 0, 0, 0, 0x33, 0, 0x55, 0x66, 0, 0xAA, 0, 0 };
    copies_refused = 0;
    in_plain_done = in_shared_copy = in_error = in_member_mode = NULL;
    NvM_SimClose();
    NvM_SimFlash(flash, sizeof flash, CUTS);
    NvM_Init(NULL);
    for (unsigned id = 2; id <= LAST; id++) {
        uint8 content[LONGEST] = { 0 };
        NvM_RequestResultType result;
        CHECK(NvM_ReadBlock((NvM_BlockIdType)id, content) == E_OK);
        result = await((NvM_BlockIdType)id);
        CHECK(result == NVM_REQ_OK || result == NVM_REQ_INTEGRITY_FAILED || result == NVM_REQ_RESTORED_FROM_ROM || result == NVM_REQ_NV_INVALIDATED);
        if (result != NVM_REQ_OK) continue;
        CHECK(is_all(content, BLOCKS[id].length, content[0]) && (may_hold[id][content[0]] || content[0] == DEFAULTS[id]));
    }
}

int main(int count, char **words) {
    uint32 seed = count > 1 ? (uint32)strtoul(words[1], NULL, 10) : 1;
    unsigned long steps = count > 2 ? strtoul(words[2], NULL, 10) : 20000;
    memset(flash, 0xFF, sizeof flash);
    drawn = seed;
    NvM_SimFlash(flash, sizeof flash, CUTS);
    start();
    for (unsigned long i = 0; i < steps && !failures; i++) {
        step();
        if (NvM_SimFault() != NVM_SIM_UP || (NvM_SimIsOff() && draw(20) == 0)) start();
        for (uint32 cycles = draw(12); cycles > 0; cycles--) cycle();
        look_at_rams();
        look_at_ends();
        look_at_statuses();
    }
    look();
    printf("seed %lu, %lu steps: %u checks, %u failed\n", (unsigned long)seed, steps, checks, failures);
    return failures != 0;
}
