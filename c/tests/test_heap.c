/* So many cycles of a unit with writes that interrupt, requests on all blocks and resets. The linker puts what stands below in the place of the
   C library's heap, so that each call of it between the unit's opening and its end is counted: there must be none. */
#include "NvM.h"
#include "NvM_Sim.h"
#include <stdio.h>
#include <stdlib.h>
#include <string.h>

enum { CYCLES = 1000000, ROUND = 400, ROUNDS_TO_SWEEP = 10, ROUNDS_TO_RESET = 25 };
#define ID(name) NvMConf_NvMBlockDescriptor_##name

extern uint8 Kept[32], Always[8];
Std_ReturnType LongDone(uint8 service, NvM_RequestResultType result);
Std_ReturnType UrgentDone(uint8 service, NvM_RequestResultType result);
Std_ReturnType CopiedToNvm(void *mirror);
Std_ReturnType CopiedFromNvm(const void *mirror);
void *__wrap_malloc(size_t size);
void *__wrap_realloc(void *at, size_t size);
void __wrap_free(void *at);
void *__real_malloc(size_t size);
void *__real_realloc(void *at, size_t size);
void __real_free(void *at);

uint8 Kept[32], Always[8];
static uint8 flash[NVM_SIM_FLASH_SIZE], copied[16], given[1024];
static unsigned asked, ended, failed, interrupted, sweeps, resets;

/* What the unit is doing, and how often the heap was called meanwhile. */
typedef enum { OUTSIDE, WRITE, WRITE_RAM, READ, RESTORE, CHANGE, ALL, CYCLE, POLL, RESET, DOINGS } doing;
static const char *const NAMES[DOINGS] = {
    "outside", "NvM_WriteBlock", "NvM_WritePRAMBlock", "NvM_ReadBlock", "NvM_RestoreBlockDefaults", "NvM_SetDataIndex and others",
    "NvM_ReadAll and others", "NvM_MainFunction", "NvM_GetErrorStatus", "NvM_Init of a unit that is up"
};
static doing now;
static unsigned long taken[DOINGS], given_back[DOINGS];

void *__wrap_malloc(size_t size) { taken[now]++; return __real_malloc(size); }
void *__wrap_realloc(void *at, size_t size) { taken[now]++; given_back[now] += at != NULL; return __real_realloc(at, size); }
void __wrap_free(void *at) { given_back[now]++; __real_free(at); }

Std_ReturnType LongDone(uint8 service, NvM_RequestResultType result) {
    ended += service == NVM_WRITE_BLOCK_API_ID;     /* (it is read, too) */
    failed += result != NVM_REQ_OK;
    return E_OK;
}

/* (where the long write is still pending it was in hand, and begins anew) */
Std_ReturnType UrgentDone(uint8 service, NvM_RequestResultType result) {
    NvM_RequestResultType other = NVM_REQ_OK;
    (void)service;
    ended++;
    failed += result != NVM_REQ_OK;
    (void)NvM_GetErrorStatus(ID(Long), &other);
    interrupted += other == NVM_REQ_PENDING;
    return E_OK;
}

Std_ReturnType CopiedToNvm(void *mirror) { memcpy(mirror, copied, sizeof copied); return E_OK; }
Std_ReturnType CopiedFromNvm(const void *mirror) { memcpy(copied, mirror, sizeof copied); return E_OK; }

static void turn(unsigned count) {
    now = CYCLE;
    while (count-- > 0) NvM_MainFunction();
}

static NvM_RequestResultType status_of(NvM_BlockIdType id) {
    NvM_RequestResultType result = NVM_REQ_NOT_OK;
    now = POLL;
    (void)NvM_GetErrorStatus(id, &result);
    return result;
}

static void write_urgent(unsigned round) {
    uint8 content[NVM_LENGTH_Urgent] = { (uint8)(round >> 8), (uint8)round, 1, 2 };
    now = WRITE;
    asked += NvM_WriteBlock(ID(Urgent), content) == E_OK;
}

/* A long write, of which three urgent ones take the turns. */
static void write_long(unsigned round) {
    uint8 content[NVM_LENGTH_Long];
    memset(content, (int)(round & 0xFF), sizeof content);
    now = WRITE;
    asked += NvM_WriteBlock(ID(Long), content) == E_OK;
    turn(9);
    write_urgent(round);
    turn(30);
    write_urgent(round + 1u);
    turn(17);
    write_urgent(round + 2u);
    turn(ROUND / 2 - 56);
}

/* The other requests of one block, two of which are refused. */
static void ask_others(unsigned round) {
    uint8 set[NVM_LENGTH_Set] = { (uint8)round }, index = 0;
    now = CHANGE;
    (void)NvM_SetDataIndex(ID(Set), (uint8)(round % 3));
    (void)NvM_GetDataIndex(ID(Set), &index);
    (void)NvM_SetBlockProtection(ID(Set), FALSE);
    Kept[0] = Always[1] = copied[2] = (uint8)round;
    (void)NvM_SetRamBlockStatus(ID(Kept), TRUE);
    (void)NvM_SetRamBlockStatus(ID(Copied), TRUE);
    now = WRITE;
    failed += NvM_WriteBlock(ID(Set), set) != E_OK || NvM_WriteBlock(ID(Set), set) == E_OK || NvM_WriteBlock(99, set) == E_OK;
    turn(ROUND / 10);
    now = WRITE_RAM;
    failed += NvM_WritePRAMBlock(ID(Kept)) != E_OK;
    failed += NvM_WritePRAMBlock(ID(Copied)) != E_OK;
    turn(ROUND / 10);
    now = READ;
    failed += NvM_ReadBlock(ID(Long), given) != E_OK || NvM_ReadPRAMBlock(ID(Kept)) != E_OK || NvM_ReadPRAMBlock(ID(Copied)) != E_OK;
    turn(ROUND / 10);
    now = RESTORE;
    failed += NvM_RestoreBlockDefaults(ID(Kept), given) != E_OK || NvM_RestorePRAMBlockDefaults(ID(Always)) != E_OK;
    now = CHANGE;
    (void)NvM_InvalidateNvBlock(ID(Set));
    turn(ROUND / 10);
    failed += status_of(ID(Set)) == NVM_REQ_PENDING || status_of(ID(Kept)) != NVM_REQ_OK || status_of(ID(Copied)) != NVM_REQ_OK;
}

static void sweep(doing it, void (*service)(void)) {
    now = it;
    service();
    NvM_MainFunction();
    turn(ROUND / 2);
    failed += status_of(0) != NVM_REQ_OK;
    sweeps++;
}

/* (in the midst of a write, so that the start-up drops it) */
static void reset(void) {
    uint8 content[NVM_LENGTH_Long] = { 0 };
    now = WRITE;
    (void)NvM_WriteBlock(ID(Long), content);
    turn(5);
    now = RESET;
    NvM_Init(NULL);
    NvM_Init(NULL);     /* (once more, with no entry between) */
    failed += NvM_SimFault() != NVM_SIM_UP;
    resets += 2;
    sweep(ALL, NvM_ReadAll);
}

/* The calls of the heap between the opening and the end. */
static unsigned long of_heap(void) {
    unsigned long sum = 0;
    for (doing it = (doing)(OUTSIDE + 1); it < DOINGS; it = (doing)(it + 1)) {
        sum += taken[it] + given_back[it];
        if (taken[it] + given_back[it]) printf("%s: the heap gave %lu times and took back %lu\n", NAMES[it], taken[it], given_back[it]);
    }
    return sum;
}

int main(int count, char **words) {
    unsigned long cycles = count > 1 ? strtoul(words[1], NULL, 10) : (unsigned long)CYCLES, calls;
    memset(flash, 0xFF, sizeof flash);
    NvM_SimFlash(flash, sizeof flash, 0);
    NvM_Init(NULL);
    if (NvM_SimFault() != NVM_SIM_UP) return 2;
    sweep(OUTSIDE, NvM_ReadAll);
    for (unsigned round = 1; round <= cycles / ROUND; round++) {
        write_long(round);
        ask_others(round);
        if (round % ROUNDS_TO_SWEEP == 0) sweep(ALL, NvM_WriteAll);
        if (round % ROUNDS_TO_RESET == 0) reset();
    }
    now = OUTSIDE;
    NvM_SimClose();
    calls = of_heap();
    printf("%lu cycles, %u writes, %u that interrupted, %u requests on all blocks, %u resets, %u failed: %lu calls of the heap\n",
           cycles, asked, interrupted, sweeps, resets, failed, calls);
    return calls || failed || asked != ended || interrupted < asked / 2 || resets < 2 || taken[OUTSIDE] == 0 || taken[OUTSIDE] != given_back[OUTSIDE];
}
