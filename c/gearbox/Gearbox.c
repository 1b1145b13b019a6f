/* The software of a gearbox control unit, as it is written for the NVRAM Manager of any AUTOSAR stack of Release 4.x: nothing in it knows
   that its flash is a file and that its power can be cut. main.c puts it on a PC. */
#include "Gearbox.h"
#include "BswM_NvM.h"
#include "Det.h"
#include "Fee.h"
#include "Fls.h"
#include "MemIf.h"
#include "NvM.h"
#include <stdio.h>
#include <string.h>

#if !defined(NVM_AR_RELEASE_MAJOR_VERSION) || (NVM_AR_RELEASE_MAJOR_VERSION != 4u)
#error "an NVRAM Manager of Release 4.x is needed"
#endif

#define NVM_ID(name) NvMConf_NvMBlockDescriptor_##name

typedef enum { STARTING, RUNNING, STOPPING, AT_REST } phase_of_unit;

uint8 Gearbox_Odometer[4], Gearbox_ShiftPoints[NVM_LENGTH_ShiftPoints], Gearbox_Starts[2];
static uint8 clutch[NVM_LENGTH_ClutchAdaptation], crash[NVM_LENGTH_CrashRecord], faults[3][NVM_LENGTH_FaultMemory];
static boolean clutch_is_in_use;
static uint8 fault_at;
static uint16 km_to_drive;
static phase_of_unit phase = AT_REST;

static uint16 number_at(const uint8 *at) { return (uint16)((uint16)(at[0] << 8) | at[1]); }

static void put_number(uint8 *at, uint16 value) {
    at[0] = (uint8)(value >> 8);
    at[1] = (uint8)value;
}

/* What the manager calls. */

Std_ReturnType Gearbox_OdometerDone(uint8 ServiceId, NvM_RequestResultType JobResult) {
    if (ServiceId == NVM_WRITE_PRAM_BLOCK_API_ID && JobResult == NVM_REQ_OK) printf("stored %u km\n", number_at(Gearbox_Odometer + 2));
    return E_OK;
}

Std_ReturnType Gearbox_InitShiftPoints(void) {
    for (unsigned i = 0; i < NVM_LENGTH_ShiftPoints; i++) Gearbox_ShiftPoints[i] = (uint8)(20u + 4u * i);
    return E_OK;
}

/* The clutch's control loop must not be disturbed while it uses its values. */
Std_ReturnType Gearbox_ClutchToNvm(void *NvMBuffer) {
    if (clutch_is_in_use) {
        clutch_is_in_use = FALSE;
        return E_NOT_OK;
    }
    memcpy(NvMBuffer, clutch, sizeof clutch);
    return E_OK;
}

Std_ReturnType Gearbox_ClutchFromNvm(const void *NvMBuffer) {
    memcpy(clutch, NvMBuffer, sizeof clutch);
    return E_OK;
}

/* The fault memory is read one dataset behind the other. */
static void read_fault(void) {
    if (fault_at == 3) return;
    (void)NvM_SetDataIndex(NVM_ID(FaultMemory), fault_at);
    (void)NvM_ReadBlock(NVM_ID(FaultMemory), faults[fault_at]);
}

Std_ReturnType Gearbox_FaultDone(uint8 ServiceId, NvM_RequestResultType JobResult) {
    if (ServiceId != NVM_READ_BLOCK_API_ID) return E_OK;
    if (JobResult != NVM_REQ_OK) memset(faults[fault_at], 0, sizeof faults[fault_at]);
    fault_at++;
    read_fault();
    return E_OK;
}

Std_ReturnType Gearbox_CrashDone(uint8 ServiceId, NvM_RequestResultType JobResult) {
    if (ServiceId == NVM_WRITE_BLOCK_API_ID) printf("crash record: result %u\n", (unsigned)JobResult);
    return E_OK;
}

void Gearbox_AllDone(uint8 ServiceId, NvM_RequestResultType JobResult) {
    printf("%s: result %u\n", ServiceId == NVM_READ_ALL_API_ID ? "ReadAll" : "WriteAll", (unsigned)JobResult);
}

/* The mode manager: the unit runs behind ReadAll, and its supply may go behind WriteAll. */
void BswM_NvM_CurrentJobMode(uint8 ServiceId, NvM_RequestResultType CurrentJobMode) {
    if (CurrentJobMode == NVM_REQ_PENDING) return;
    if (ServiceId == NVM_WRITE_ALL_API_ID) phase = AT_REST;
    if (ServiceId != NVM_READ_ALL_API_ID) return;
    put_number(Gearbox_Starts, (uint16)(number_at(Gearbox_Starts) + 1u));
    phase = RUNNING;
    fault_at = 0;
    read_fault();
}

void BswM_NvM_CurrentBlockMode(NvM_BlockIdType Block, NvM_RequestResultType CurrentBlockMode) {
    if (Block == NVM_ID(CrashRecord) && CurrentBlockMode == NVM_REQ_PENDING) printf("crash record: pending\n");
}

Std_ReturnType Det_ReportError(uint16 ModuleId, uint8 InstanceId, uint8 ApiId, uint8 ErrorId) {
    printf("Det: module %u, instance %u, service 0x%02x, error 0x%02x\n", ModuleId, InstanceId, ApiId, ErrorId);
    return E_OK;
}

Std_ReturnType Det_ReportRuntimeError(uint16 ModuleId, uint8 InstanceId, uint8 ApiId, uint8 ErrorId) {
    return Det_ReportError(ModuleId, InstanceId, ApiId, ErrorId);
}

/* What EcuM does at the start and before the end, by the standard's order of modules. */

void EcuM_StartUp(void) {
    static const uint8 SERIAL[NVM_LENGTH_SerialNumber] = { 'G', 'B', '4', '7', '1', '1', '0', '0', '0', '0', '0', '1' };
    Fls_Init(NULL);
    Fee_Init(NULL);
    NvM_Init(NULL);
    phase = STARTING;
    /* (it is written once, at the end of the line; later it is protected, which Det is told of) */
    if (MemIf_GetStatus(0) != MEMIF_UNINIT) (void)NvM_WriteBlock(NVM_ID(SerialNumber), SERIAL);
    NvM_ReadAll();
}

void EcuM_ShutDown(void) {
    clutch[0]++;
    clutch_is_in_use = TRUE;
    put_number(NvM_Ram_OilTemperature, 95);
    (void)NvM_SetRamBlockStatus(NVM_ID(ClutchAdaptation), TRUE);
    (void)NvM_SetRamBlockStatus(NVM_ID(OilTemperature), TRUE);
    phase = STOPPING;
    NvM_WriteAll();
}

boolean Gearbox_IsAtRest(void) { return (boolean)(phase == AT_REST); }

/* The application. */

void Gearbox_Drive(uint16 km) { km_to_drive = km; }

void Gearbox_Crash(void) {
    static const uint8 FAULT[NVM_LENGTH_FaultMemory] = { 0x90, 0x11, 0x22, 0x01 };
    memset(crash, 0xC5, sizeof crash);
    (void)NvM_WriteBlock(NVM_ID(CrashRecord), crash);
    (void)NvM_SetDataIndex(NVM_ID(FaultMemory), 1);
    (void)NvM_WriteBlock(NVM_ID(FaultMemory), FAULT);
}

static void drive(void) {
    NvM_RequestResultType result = NVM_REQ_PENDING;
    if (phase != RUNNING || km_to_drive == 0) return;
    if (NvM_GetErrorStatus(NVM_ID(Odometer), &result) != E_OK || result == NVM_REQ_PENDING) return;
    put_number(Gearbox_Odometer + 2, (uint16)(number_at(Gearbox_Odometer + 2) + 1u));
    if (NvM_WritePRAMBlock(NVM_ID(Odometer)) == E_OK) km_to_drive--;
}

void SchM_Task10ms(void) {
    drive();
    Fls_MainFunction();
    Fee_MainFunction();
    NvM_MainFunction();
}

void Gearbox_Show(void) {
    printf("%u km, start %u, clutch 0x%02x, shift point %u, oil %u, fault 0x%02x\n", number_at(Gearbox_Odometer + 2), number_at(Gearbox_Starts),
           clutch[0], Gearbox_ShiftPoints[3], number_at(NvM_Ram_OilTemperature), faults[1][0]);
}
