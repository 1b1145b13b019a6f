/* What the manager tells a BSW Mode Manager (SWS BSW Mode Manager), which a unit of its own defines. */
#ifndef BSWM_NVM_H
#define BSWM_NVM_H

#include "NvM_Types.h"

#ifdef __cplusplus
extern "C" {
#endif

void BswM_NvM_CurrentJobMode(uint8 ServiceId, NvM_RequestResultType CurrentJobMode);
void BswM_NvM_CurrentBlockMode(NvM_BlockIdType Block, NvM_RequestResultType CurrentBlockMode);

#ifdef __cplusplus
}
#endif

#endif
