/* Every header in one file, behind each other in another order than they need each other; OURS_FIRST puts the project's own basic types
   last. C90 and C++ read it. */
#ifndef OURS_FIRST
#include "Std_Types.h"
#endif
#include "NvM_Sim.h"
#include "Fls.h"
#include "Fee.h"
#include "MemIf.h"
#include "NvM_Cbk.h"
#include "NvM.h"
#include "NvM_Types.h"
#include "MemIf_Types.h"
#include "BswM_NvM.h"
#include "Det.h"
#include "Std_Types.h"

#if NVM_REQ_OK != 0 || NVM_REQ_RESTORED_FROM_ROM != 8 || NVM_E_PARAM_POINTER != 0x0E || NVM_DEV_ERROR_DETECT != STD_ON
#error "the preprocessor doesn't see the standard's numbers"
#endif

Std_ReturnType use_of_headers(void);
Std_ReturnType use_of_headers(void) {
    NvM_RequestResultType result = NVM_REQ_OK;
    if (MemIf_GetStatus(MEMIF_BROADCAST_ID) != MEMIF_IDLE) return E_NOT_OK;
    return NvM_GetErrorStatus(NvMConf_NvMBlockDescriptor_Odometer, &result);
}
