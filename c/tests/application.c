/* The application's side of unit.json. */
#include "application.h"
#include "BswM_NvM.h"
#include "Det.h"
#include "Fee.h"
#include "Fls.h"
#include "NvM_Sim.h"
#include "check.h"
#include <string.h>

uint8 Member[4], Single[4], Made[2], Always[4], shared[8];
seen_of seen;
unsigned copies_refused, late_refused, makes_refused, checks, failures;
void (*in_plain_done)(void), (*in_member_done)(void), (*in_member_mode)(void), (*in_all_done)(void);
void (*in_shared_copy)(void), (*in_make)(void), (*in_error)(void);

Std_ReturnType PlainDone(uint8 service, NvM_RequestResultType result);
Std_ReturnType MemberDone(uint8 service, NvM_RequestResultType result);
Std_ReturnType SingleDone(uint8 service, NvM_RequestResultType result);
Std_ReturnType SharedDone(uint8 service, NvM_RequestResultType result);
Std_ReturnType MadeDone(uint8 service, NvM_RequestResultType result);
Std_ReturnType UrgentDone(uint8 service, NvM_RequestResultType result);
Std_ReturnType AlwaysDone(uint8 service, NvM_RequestResultType result);
void AllDone(uint8 service, NvM_RequestResultType result);
Std_ReturnType SharedToNvm(void *mirror);
Std_ReturnType SharedFromNvm(const void *mirror);
Std_ReturnType MakeMade(void);
Std_ReturnType LateToNvm(void *mirror);
Std_ReturnType LateFromNvm(const void *mirror);
Std_ReturnType LateDone(uint8 service, NvM_RequestResultType result);

static Std_ReturnType note(call_of *call, uint8 service, NvM_RequestResultType result) {
    call->service = service;
    call->result = result;
    call->count++;
    return E_OK;
}

static void once(void (**what)(void)) {
    void (*it)(void) = *what;
    *what = NULL;
    if (it) it();
}

Std_ReturnType PlainDone(uint8 service, NvM_RequestResultType result) {
    (void)note(&seen.plain, service, result);
    once(&in_plain_done);
    return E_OK;
}

static unsigned all_is_pending(void) {
    NvM_RequestResultType of_all = NVM_REQ_OK;
    (void)NvM_GetErrorStatus(0, &of_all);
    return of_all == NVM_REQ_PENDING;
}

Std_ReturnType MemberDone(uint8 service, NvM_RequestResultType result) {
    seen.members_before_all += all_is_pending();
    (void)note(&seen.member, service, result);
    once(&in_member_done);
    return E_OK;
}

Std_ReturnType SingleDone(uint8 service, NvM_RequestResultType result) { return note(&seen.single, service, result); }
Std_ReturnType SharedDone(uint8 service, NvM_RequestResultType result) { return note(&seen.shared, service, result); }
Std_ReturnType MadeDone(uint8 service, NvM_RequestResultType result) { return note(&seen.made, service, result); }
Std_ReturnType UrgentDone(uint8 service, NvM_RequestResultType result) { return note(&seen.urgent, service, result); }
Std_ReturnType AlwaysDone(uint8 service, NvM_RequestResultType result) { return note(&seen.always, service, result); }

void AllDone(uint8 service, NvM_RequestResultType result) {
    (void)note(&seen.all, service, result);
    once(&in_all_done);
}

void BswM_NvM_CurrentJobMode(uint8 service, NvM_RequestResultType result) { (void)note(&seen.job_mode, service, result); }

void BswM_NvM_CurrentBlockMode(NvM_BlockIdType id, NvM_RequestResultType result) {
    CHECK(id == ID(Member));
    seen.block_mode.result = result;
    seen.block_mode.count++;
    once(&in_member_mode);
}

static int is_refused(void) {
    seen.copies++;
    once(&in_shared_copy);
    if (!copies_refused) return 0;
    copies_refused--;
    return 1;
}

Std_ReturnType SharedToNvm(void *mirror) {
    if (is_refused()) return E_NOT_OK;
    memcpy(mirror, shared, sizeof shared);
    return E_OK;
}

Std_ReturnType SharedFromNvm(const void *mirror) {
    if (is_refused()) return E_NOT_OK;
    memcpy(shared, mirror, sizeof shared);
    return E_OK;
}

/* (the last member of ReadAll, which is read and never written) */
Std_ReturnType LateToNvm(void *mirror) {
    (void)mirror;
    return E_NOT_OK;
}

Std_ReturnType LateFromNvm(const void *mirror) {
    CHECK(is_all((const uint8 *)mirror, 2, 0xBB));
    if (!late_refused) return E_OK;
    late_refused--;
    return E_NOT_OK;
}

Std_ReturnType LateDone(uint8 service, NvM_RequestResultType result) {
    seen.late_before_all += all_is_pending();
    return note(&seen.late, service, result);
}

Std_ReturnType MakeMade(void) {
    seen.made_by_callback++;
    if (makes_refused) {
        makes_refused--;
        return E_NOT_OK;
    }
    memset(Made, 0x66, sizeof Made);
    once(&in_make);
    return E_OK;
}

static Std_ReturnType note_error(error_of *it, uint16 module, uint8 api, uint8 error) {
    it->module = module;
    it->api = api;
    it->error = error;
    it->count++;
    once(&in_error);
    return E_OK;
}

Std_ReturnType Det_ReportError(uint16 module, uint8 instance, uint8 api, uint8 error) {
    (void)instance;
    return note_error(&seen.error, module, api, error);
}

Std_ReturnType Det_ReportRuntimeError(uint16 module, uint8 instance, uint8 api, uint8 error) {
    (void)instance;
    return note_error(&seen.runtime_error, module, api, error);
}

NvM_RequestResultType status(NvM_BlockIdType id) {
    NvM_RequestResultType result = 0xEE;
    CHECK(NvM_GetErrorStatus(id, &result) == E_OK);
    return result;
}

void cycle(void) {
    Fls_MainFunction();
    Fee_MainFunction();
    NvM_MainFunction();
    if (NvM_SimIsOff()) seen.offs = 1;
}

NvM_RequestResultType await(NvM_BlockIdType id) {
    NvM_RequestResultType result = NVM_REQ_PENDING;
    for (int i = 0; i < 2000 && result == NVM_REQ_PENDING && !(i && NvM_SimIsOff()); i++) {
        if (NvM_GetErrorStatus(id, &result) != E_OK) return 0xEE;
        if (result == NVM_REQ_PENDING) cycle();
    }
    return result;
}

int is_all(const uint8 *at, size_t length, uint8 value) {
    for (size_t i = 0; i < length; i++) if (at[i] != value) return 0;
    return 1;
}
