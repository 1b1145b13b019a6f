/* The gearbox's application: what its tasks, its EcuM and its generated NvM_Cfg.c call of it. */
#ifndef GEARBOX_H
#define GEARBOX_H

#include "Std_Types.h"
#include "NvM_Types.h"

#ifdef __cplusplus
extern "C" {
#endif

extern uint8 Gearbox_Odometer[4], Gearbox_ShiftPoints[24], Gearbox_Starts[2];

Std_ReturnType Gearbox_OdometerDone(uint8 ServiceId, NvM_RequestResultType JobResult);
Std_ReturnType Gearbox_FaultDone(uint8 ServiceId, NvM_RequestResultType JobResult);
Std_ReturnType Gearbox_CrashDone(uint8 ServiceId, NvM_RequestResultType JobResult);
Std_ReturnType Gearbox_InitShiftPoints(void);
Std_ReturnType Gearbox_ClutchToNvm(void *NvMBuffer);
Std_ReturnType Gearbox_ClutchFromNvm(const void *NvMBuffer);
void Gearbox_AllDone(uint8 ServiceId, NvM_RequestResultType JobResult);

void EcuM_StartUp(void);
void EcuM_ShutDown(void);
void SchM_Task10ms(void);
boolean Gearbox_IsAtRest(void);
void Gearbox_Drive(uint16 km);
void Gearbox_Crash(void);
void Gearbox_Show(void);

#ifdef __cplusplus
}
#endif

#endif
