/* Each cycle: what waits for the application, one turn of the stack, and what that turn ended. Behind a turn that had nothing to do the next
   one has nothing to do either until something is asked, so it isn't made. A call of the application may end the unit, or begin another one;
   then the rest of this cycle isn't its. */
#include "shim.h"

static int has_waiting(void) {
    return NvMShim.in_phase[PHASE_COPY_OUT] || NvMShim.in_phase[PHASE_COPY_IN] || NvMShim.in_phase[PHASE_INIT];
}

static void begin_waiting(uint32 opening) {
    if (has_waiting())
        for (unsigned id = FIRST_BLOCK; id <= NvMShim_LastId() && NvMShim_IsSame(opening); id++) NvMShim_BeginWaiting((NvM_BlockIdType)id);
    if (!NvMShim_IsSame(opening)) return;
    if (NvMShim.all.phase == PHASE_COPY_OUT) NvMShim_AskAll();
    else if (NvMShim.all.phase == PHASE_LIST) NvMShim_GoThroughList();
}

static void turn(void) {
    uint8 turned = nvm_turn(&NvMShim.handle);
    NvMShim_Tell();
    NvMShim.is_off |= turned == TURN_OFF;
    NvMShim.is_idle = NvMShim.is_at_rest = turned == TURN_IDLE;
    if (turned == TURN_POSTED && NvMShim.all.phase == PHASE_ASKED) NvMShim_PostMember();
    else if (turned == TURN_POSTED) NvMShim_EndPosted();
}

void NvM_MainFunction(void) {
    uint32 opening = NvMShim.opening;
    if (!NvMShim_IsUp()) return;
    if (!NvMShim.is_off) begin_waiting(opening);
    if (!NvMShim_IsSame(opening)) return;
    if (!NvMShim.is_at_rest) turn();
    if (NvMShim_IsSame(opening) && NvMShim.all.phase == PHASE_ASKED) NvMShim_EndAllIfDone();
}
