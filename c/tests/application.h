/* The application's side of unit.json: its RAM blocks, and what it was called for. */
#ifndef APPLICATION_H
#define APPLICATION_H

#include "NvM.h"
#include <stddef.h>

extern uint8 Member[4], Single[4], Made[2], Always[4], shared[8];

/* What was called last of each kind, and how often. */
typedef struct { uint8 service, result; unsigned count; } call_of;
typedef struct { uint16 module; uint8 api, error; unsigned count; } error_of;
typedef struct {
    call_of plain, member, single, shared, made, urgent, always, late, all, job_mode;
    struct { uint8 result; unsigned count; } block_mode;
    error_of error, runtime_error;
    unsigned copies, made_by_callback, members_before_all, late_before_all;
    unsigned offs;                          /* whether the power went off */
} seen_of;
extern seen_of seen;
extern unsigned copies_refused, late_refused;   /* so many copies to come are refused, of Shared and of Late */
extern unsigned makes_refused;              /* so many calls of MakeMade make nothing */
extern void (*in_plain_done)(void);         /* what PlainDone does, once */
extern void (*in_member_done)(void);        /* what MemberDone does, once */
extern void (*in_member_mode)(void);        /* what BswM does when it is told of Member, once */
extern void (*in_all_done)(void);           /* what AllDone does, once */
extern void (*in_shared_copy)(void);        /* what the next copy does, once */
extern void (*in_make)(void);               /* what MakeMade does, once */
extern void (*in_error)(void);              /* what Det does with the next error, once */

NvM_RequestResultType status(NvM_BlockIdType id);
void cycle(void);
NvM_RequestResultType await(NvM_BlockIdType id);
int is_all(const uint8 *at, size_t length, uint8 value);

#endif
