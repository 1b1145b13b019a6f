/* What the files of the services share: what is kept of the unit, and what each file has for the others.

   A request that needs the application first waits here: a copy out of a synchronized block, the contents of a WriteAll, a block of a
   list. So does one whose content is still to be delivered. All others are the stack's from the call on. */
#ifndef NVM_SHIM_H
#define NVM_SHIM_H

#define NVM_OF_EVERY_UNIT
#include "NvM.h"
#include "NvM_Sim.h"
#include "nvm_c.h"

/* (there may be none: then NvM_Init takes no null pointer, and errors before it are told to nobody) */
#pragma weak NvM_Config

enum { MOST_BLOCKS = 511, OWN_BLOCK = 1, FIRST_BLOCK = 2, PLACES = MOST_BLOCKS + FIRST_BLOCK, NO_RESULT = 0xFF };

/* What nvm_turn answers. */
enum { TURN_IDLE = 0, TURN_POSTED = 3, TURN_OFF = 4 };

/* Why a request is refused, by docs/SCRIPT.md: those that the shim refuses by itself, or looks at. */
enum {
    REFUSED_BLOCK = 1, REFUSED_OFF = 2, REFUSED_TYPE = 3, REFUSED_LENGTH = 5, REFUSED_NO_RAM = 6, REFUSED_ALL_PENDING = 10,
    REFUSED_PENDING = 11, REFUSED_LOCKED = 12, REFUSED_HISTORY = 17
};

/* Where a request is. */
typedef enum {
    PHASE_NONE,
    PHASE_COPY_OUT,     /* waits, before the stack is asked: of one block for its copy, of ReadAll and WriteAll for requests of one block and copies */
    PHASE_ASKED,        /* is the stack's */
    PHASE_COPY_IN,      /* the stack has posted it, and the application hasn't taken its content */
    PHASE_INIT,         /* waits for the application to make its RAM block */
    PHASE_IN_ALL,       /* a member of a request on all blocks, or of a list: its defaults are there, and wait to be stored */
    PHASE_LIST,         /* of all blocks: goes through them one by one */
    PHASES
} NvMShim_Phase;

typedef struct {
    void *destination;      /* where what a job gives goes, or NULL for the RAM block */
    NvMShim_Phase phase;
    uint16 tries;           /* copies that the application refused: one more than a table's greatest number of repeats */
    uint8 service;          /* of the request under way, or the last one */
    uint8 told;             /* the last result, or NO_RESULT: then it is the stack's to tell */
    uint8 is_own;           /* the result isn't the stack's */
    uint8 of_ram;           /* it reads or writes the RAM block */
    uint8 is_changed;       /* a WriteAll stores the RAM block */
    uint8 is_marked;        /* .. so the stack has it */
    uint8 is_locked;
    uint8 is_copied;        /* the copy out was made */
} NvMShim_Block;

/* A request on all blocks, or a list of single ones. */
typedef struct {
    NvMShim_Phase phase;
    uint8 service, told;
    uint8 is_canceled;      /* before the stack was asked */
    uint8 has_failed;       /* of a list: one of its blocks did */
    NvM_BlockIdType at;     /* the member whose Post comes next; of a list the block in hand; 0 for none */
} NvMShim_All;

typedef struct {
    nvm_handle handle;
    const NvM_ConfigType *config;
    nvm_memory flash;
    uint32 most_cuts;
    uint32 opening;         /* how often a unit was opened, started or closed: an application's call may have done it */
    NvMShim_Block blocks[PLACES];
    uint16 in_phase[PHASES];    /* how many of them are */
    NvMShim_All all;
    NvM_BlockIdType fault_block;
    uint16 last_id;         /* of a unit that is open; else 0 */
    uint8 fault, rule, refusal, is_off, is_idle;
    uint8 is_at_rest;       /* a turn had nothing to do, and nothing was asked since */
} NvMShim_Unit;

extern NvMShim_Unit NvMShim;

/* The unit. (A configuration that was refused has no blocks: what it points to isn't looked at again.) */
static inline unsigned NvMShim_LastId(void) { return NvMShim.last_id; }

static inline const NvM_BlockDescriptorType *NvMShim_BlockOf(NvM_BlockIdType id) {
    return id >= FIRST_BLOCK && id <= NvMShim_LastId() ? &NvMShim.config->blocks[id - FIRST_BLOCK] : NULL;
}

static inline int NvMShim_Is(NvM_BlockIdType id, uint8 flag) {
    const NvM_BlockDescriptorType *block = NvMShim_BlockOf(id);
    return block && (block->is & flag);
}

static inline int NvMShim_IsUp(void) { return NvMShim.fault == NVM_SIM_UP; }
static inline int NvMShim_IsSame(uint32 opening) { return NvMShim.opening == opening; }

static inline void NvMShim_Put(NvM_BlockIdType id, NvMShim_Phase phase) {
    NvMShim.in_phase[NvMShim.blocks[id].phase]--;
    NvMShim.in_phase[phase]++;
    NvMShim.blocks[id].phase = phase;
}

/* No request on one block is under way. */
static inline int NvMShim_IsAlone(void) { return NvMShim.in_phase[PHASE_NONE] + NvMShim.in_phase[PHASE_IN_ALL] == PLACES; }

/* table.c: whether the block table is what the configuration of the opened unit says. */
uint8 NvMShim_FaultOfTable(void);

/* history.c: the line of the entry that a proved call added. */
void NvMShim_BeginHistory(void);
void NvMShim_TellLine(void);
extern void (*NvMShim_ToldTo)(const char *line);
static inline void NvMShim_Tell(void) { if (NvMShim_ToldTo) NvMShim_TellLine(); }

/* stack.c: the proved calls. */
uint8 NvMShim_Ask(uint8 service, NvM_BlockIdType id, uint8 number, const void *content, size_t length, uint8 *value);
uint8 NvMShim_PutRam(NvM_BlockIdType id, const void *content);
uint8 NvMShim_SetChanged(NvM_BlockIdType id, uint8 is_changed);
int NvMShim_TakeRam(NvM_BlockIdType id);
int NvMShim_TakeGiven(void *into, size_t length);
NvM_RequestResultType NvMShim_StatusOf(NvM_BlockIdType id);

/* What the last request that ended has come to, of one block, or by 0 of all. */
static inline NvM_RequestResultType NvMShim_ResultOf(NvM_BlockIdType id) {
    uint8 told = id ? NvMShim.blocks[id].told : NvMShim.all.told;
    return told != NO_RESULT ? told : NvMShim_StatusOf(id);
}

/* errors.c: refusals, and what the Default Error Tracer is told. */
Std_ReturnType NvMShim_Refuse(uint8 service, uint8 why);
Std_ReturnType NvMShim_RefusePointer(uint8 service);
void NvMShim_Report(uint8 service, uint8 error);
void NvMShim_ReportOf(uint16 module, uint8 service, uint8 error);

static inline int NvMShim_IsReady(uint8 service) {
    NvMShim.refusal = 0;
    if (NvMShim_IsUp()) return 1;
    NvMShim_Report(service, NVM_E_UNINIT);
    return 0;
}

/* services.c: requests on one block. */
void NvMShim_Begin(NvM_BlockIdType id, uint8 service, NvMShim_Phase phase, void *destination, uint8 of_ram);

/* copies.c: what the application is asked for, and what it gets. */
int NvMShim_CopyOut(NvM_BlockIdType id);
void NvMShim_BeginWaiting(NvM_BlockIdType id);
int NvMShim_IsMade(NvM_BlockIdType id);
NvM_RequestResultType NvMShim_InitBlock(NvM_BlockIdType id, NvM_RequestResultType result);

/* ends.c: the end of a request. */
int NvMShim_Gives(NvM_RequestResultType result);
int NvMShim_IsFailed(NvM_RequestResultType result);
void NvMShim_End(NvM_BlockIdType id, NvM_RequestResultType result);
void NvMShim_EndRead(NvM_BlockIdType id, NvM_RequestResultType result);
void NvMShim_EndPosted(void);
void NvMShim_NoteMark(NvM_BlockIdType id, NvM_RequestResultType result);

/* all_blocks.c: ReadAll and WriteAll; lists.c: FirstInitAll and ValidateAll. */
void NvMShim_BeginAll(uint8 service, NvMShim_Phase phase);
void NvMShim_AskAll(void);
void NvMShim_PostMember(void);
void NvMShim_EndAllIfDone(void);
void NvMShim_EndAll(void);
void NvMShim_GoThroughList(void);

#endif
