/* ReadAll and WriteAll. They wait until no request on one block is under way, so that each RAM block can be put; then the stack takes
   the members in their order, and posts one after the other: block 1, which holds the configuration's id, first of a ReadAll and last of a
   WriteAll. */
#include "shim.h"
#include <string.h>

static int is_write(void) { return NvMShim.all.service == NVM_WRITE_ALL_API_ID; }
static int is_member(NvM_BlockIdType id) { return NvMShim_Is(id, is_write() ? NVM_IN_WRITEALL : NVM_IN_READALL); }

/* The member behind one, or the first one behind 0; 0 behind the last. */
static NvM_BlockIdType next_member(NvM_BlockIdType id) {
    NvM_BlockIdType next = id == 0 || id == OWN_BLOCK ? FIRST_BLOCK : (NvM_BlockIdType)(id + 1u);
    if (id == 0 && !is_write()) return OWN_BLOCK;
    if (id == OWN_BLOCK && is_write()) return 0;
    while (next <= NvMShim_LastId() && !is_member(next)) next++;
    if (next <= NvMShim_LastId()) return next;
    return is_write() ? OWN_BLOCK : 0;
}

/* Each member that has no request of its own is pending with it. */
static void take_members(void) {
    uint32 opening = NvMShim.opening;
    for (unsigned id = FIRST_BLOCK; id <= NvMShim_LastId() && NvMShim_IsSame(opening); id++)
        if (is_member((NvM_BlockIdType)id) && NvMShim.blocks[id].phase == PHASE_NONE)
            NvMShim_Begin((NvM_BlockIdType)id, NvMShim.all.service, PHASE_IN_ALL, NULL, 1);
}

/* A request on all blocks, where none is under way. */
void NvMShim_BeginAll(uint8 service, NvMShim_Phase phase) {
    uint32 opening = NvMShim.opening;
    if (!NvMShim_IsReady(service)) return;
    if (NvMShim.is_off || NvMShim.all.phase != PHASE_NONE) {
        (void)NvMShim_Refuse(service, NvMShim.is_off ? REFUSED_OFF : REFUSED_ALL_PENDING);
        return;
    }
    memset(&NvMShim.all, 0, sizeof NvMShim.all);
    NvMShim.all.service = service;
    NvMShim.all.phase = phase;
    NvMShim.all.told = NO_RESULT;
    if (phase == PHASE_COPY_OUT) take_members();
    if (NvMShim_IsSame(opening) && NvMShim.config->job_mode) NvMShim.config->job_mode(service, NVM_REQ_PENDING);
}

void NvM_ReadAll(void) { NvMShim_BeginAll(NVM_READ_ALL_API_ID, PHASE_COPY_OUT); }
void NvM_WriteAll(void) { NvMShim_BeginAll(NVM_WRITE_ALL_API_ID, PHASE_COPY_OUT); }

void NvM_CancelWriteAll(void) {
    uint8 why = 0;
    if (!NvMShim_IsReady(NVM_CANCEL_WRITE_ALL_API_ID) || !is_write() || NvMShim.all.phase == PHASE_NONE) return;
    if (NvMShim.all.phase == PHASE_COPY_OUT) NvMShim.all.is_canceled = 1;
    else why = NvMShim_Ask(NVM_CANCEL_WRITE_ALL, 0, 0, NULL, 0, NULL);
    if (why) (void)NvMShim_Refuse(NVM_CANCEL_WRITE_ALL_API_ID, why);
}

/* The callbacks come last, since they may ask for more, or end the unit: BswM's first, as of one block. */
void NvMShim_EndAll(void) {
    uint8 service = NvMShim.all.service;
    uint32 opening = NvMShim.opening;
    NvM_RequestResultType result = NvMShim_ResultOf(0);
    NvMShim.all.phase = PHASE_NONE;
    NvMShim.all.told = result;
    if (NvMShim.config->job_mode) NvMShim.config->job_mode(service, result);
    if (NvMShim_IsSame(opening) && NvMShim.config->all_done) NvMShim.config->all_done(service, result);
}

/* Each member that wasn't taken ends as it was, or with a result of its own. */
static int end_members(uint8 result) {
    uint32 opening = NvMShim.opening;
    for (unsigned number = FIRST_BLOCK; number <= NvMShim_LastId(); number++) {
        NvM_BlockIdType id = (NvM_BlockIdType)number;
        if (NvMShim.blocks[id].phase == PHASE_IN_ALL) NvMShim_End(id, result);
        if (!NvMShim_IsSame(opening)) return 0;
    }
    return 1;
}

/* What could not begin, or was canceled before it did. */
static void end_unasked(uint8 result) {
    NvMShim.all.told = result;
    if (end_members(result)) NvMShim_EndAll();
}

static int is_to_store(NvM_BlockIdType id) {
    return is_member(id) && NvMShim_BlockOf(id)->ram && (NvMShim.blocks[id].is_changed || NvMShim_Is(id, NVM_ALWAYS_CHANGED));
}

/* Whether each copy out of a synchronized block is decided. */
static int copies_are_decided(void) {
    uint32 opening = NvMShim.opening;
    int are_decided = 1;
    for (unsigned number = FIRST_BLOCK; number <= NvMShim_LastId(); number++) {
        NvM_BlockIdType id = (NvM_BlockIdType)number;
        if (!is_to_store(id) || !NvMShim_BlockOf(id)->to_nvm) continue;
        if (!NvMShim_CopyOut(id)) are_decided = 0;
        if (!NvMShim_IsSame(opening)) return 0;
    }
    return are_decided;
}

/* The contents of what is to be stored go to the stack as they are now. What it has of any other member, or of one whose content can't be
   put, is an older one, and must not be stored. Tells why the stack doesn't know, or 0. */
static uint8 put_contents(void) {
    for (unsigned number = FIRST_BLOCK; number <= NvMShim_LastId(); number++) {
        NvM_BlockIdType id = (NvM_BlockIdType)number;
        const NvM_BlockDescriptorType *block = NvMShim_BlockOf(id);
        int is_put = is_to_store(id) && (block->to_nvm ? NvMShim.blocks[id].is_copied : NvMShim_PutRam(id, block->ram) == 0);
        uint8 why = is_member(id) ? NvMShim_SetChanged(id, (uint8)is_put) : 0;
        if (why) return why;
        if (is_to_store(id) && !is_put) NvMShim.blocks[id].told = NVM_REQ_NOT_OK;
    }
    return 0;
}

/* Whether all requests on one block have ended, and each copy is decided. */
static int may_begin(void) {
    uint32 opening = NvMShim.opening;
    if (!NvMShim_IsAlone()) return 0;
    take_members();
    if (!NvMShim_IsSame(opening) || NvMShim.all.phase != PHASE_COPY_OUT) return 0;
    return !is_write() || copies_are_decided();
}

/* One that waits: once it may begin, the stack is asked. (The application's calls may cancel it, or end the unit.) */
void NvMShim_AskAll(void) {
    uint32 opening = NvMShim.opening;
    uint8 why;
    if (!NvMShim.all.is_canceled && !may_begin()) return;
    if (NvMShim.all.is_canceled) {
        end_unasked(NVM_REQ_CANCELED);
        return;
    }
    why = is_write() ? put_contents() : 0;
    if (!why) why = NvMShim_Ask(NvMShim.all.service, 0, 0, NULL, 0, NULL);
    if (why) {
        (void)NvMShim_Refuse(NvMShim.all.service, why);
        if (NvMShim_IsSame(opening)) end_unasked(NVM_REQ_NOT_OK);
        return;
    }
    NvMShim.all.phase = PHASE_ASKED;
    NvMShim.all.at = next_member(0);
}

/* The stack has posted the next member. */
static void end_member(NvM_BlockIdType id) {
    NvM_RequestResultType result = NvMShim_ResultOf(id);
    if (id == OWN_BLOCK) return;
    NvMShim_NoteMark(id, NvMShim_StatusOf(id));
    if (is_write()) NvMShim_End(id, result);
    else NvMShim_EndRead(id, result);
}

/* Each member's RAM and callback come at its own Post; behind that of the last of them comes the one of all. The members are those of the
   text, with which the table was compared. */
void NvMShim_PostMember(void) {
    NvM_BlockIdType id = NvMShim.all.at;
    if (!id || NvMShim_StatusOf(0) != NVM_REQ_PENDING) return;
    NvMShim.all.at = next_member(id);
    end_member(id);
}

/* Where a member's result isn't the stack's own that of all is made of theirs. */
static void result_of_all(void) {
    int has_failed = NvMShim_IsFailed(NvMShim_StatusOf(OWN_BLOCK)), has_own = 0;
    for (unsigned number = FIRST_BLOCK; number <= NvMShim_LastId(); number++) {
        NvM_BlockIdType id = (NvM_BlockIdType)number;
        if (!is_member(id)) continue;
        has_own |= NvMShim.blocks[id].is_own;
        has_failed |= NvMShim_IsFailed(NvMShim_ResultOf(id));
    }
    if (has_own && NvMShim_StatusOf(0) != NVM_REQ_CANCELED) NvMShim.all.told = has_failed ? NVM_REQ_NOT_OK : NVM_REQ_OK;
}

/* The stack has posted all: what is left of the members, and at last all, once the application has taken each content. */
void NvMShim_EndAllIfDone(void) {
    NvM_RequestResultType result = NvMShim_StatusOf(0);
    if (result == NVM_REQ_PENDING || !NvMShim_IsAlone()) return;
    if (!end_members(result == NVM_REQ_CANCELED ? NVM_REQ_CANCELED : NVM_REQ_NOT_OK)) return;
    if (NvMShim.all.told == NO_RESULT) result_of_all();
    NvMShim_EndAll();
}
