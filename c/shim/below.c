/* The modules below the NVRAM Manager, whose turns NvM_MainFunction makes. Their blocks and their flash are the stack's own, so that a status
   is all that another has of them, and each job is refused. */
#include "shim.h"
#include "Fee.h"
#include "Fls.h"
#include "MemIf.h"
#include "NvM_Cbk.h"

/* The services' identifiers in their own specifications: MemIf's, Fee's and Fls's. */
enum { MEMIF_SET_MODE = 1, MEMIF_READ, MEMIF_WRITE, MEMIF_CANCEL, MEMIF_GET_STATUS, MEMIF_GET_JOB_RESULT, MEMIF_INVALIDATE, MEMIF_GET_VERSION, MEMIF_ERASE };
enum { FEE_SET_MODE = 1, FEE_READ, FEE_WRITE, FEE_CANCEL, FEE_INVALIDATE = 7, FEE_GET_VERSION, FEE_ERASE };
enum { FLS_ERASE = 1, FLS_WRITE, FLS_CANCEL, FLS_READ = 7, FLS_COMPARE, FLS_SET_MODE, FLS_BLANK_CHECK = 0x0A, FLS_GET_VERSION = 0x10 };

static MemIf_StatusType status_below(void) { return !NvMShim_IsUp() ? MEMIF_UNINIT : NvM_SimIsIdle() ? MEMIF_IDLE : MEMIF_BUSY; }

static Std_ReturnType refuse(uint16 module, uint8 service, uint8 error) {
    NvMShim_ReportOf(module, service, error);
    return E_NOT_OK;
}

static void tell_version(uint16 module, uint8 service, uint8 error, Std_VersionInfoType *version) {
    if (!version) {
        NvMShim_ReportOf(module, service, error);
        return;
    }
    NvM_GetVersionInfo(version);
    version->moduleID = module;
}

MemIf_StatusType MemIf_GetStatus(uint8 DeviceIndex) {
    if (DeviceIndex != 0 && DeviceIndex != MEMIF_BROADCAST_ID) {
        NvMShim_ReportOf(MEMIF_MODULE_ID, MEMIF_GET_STATUS, MEMIF_E_PARAM_DEVICE);
        return MEMIF_UNINIT;
    }
    return status_below();
}

static Std_ReturnType refuse_memif(uint8 service) { return refuse(MEMIF_MODULE_ID, service, MEMIF_E_PARAM_DEVICE); }

MemIf_JobResultType MemIf_GetJobResult(uint8 DeviceIndex) {
    (void)DeviceIndex;
    (void)refuse_memif(MEMIF_GET_JOB_RESULT);
    return MEMIF_JOB_FAILED;
}

void MemIf_SetMode(MemIf_ModeType Mode) { (void)Mode; (void)refuse_memif(MEMIF_SET_MODE); }
void MemIf_Cancel(uint8 DeviceIndex) { (void)DeviceIndex; (void)refuse_memif(MEMIF_CANCEL); }

Std_ReturnType MemIf_Read(uint8 DeviceIndex, uint16 BlockNumber, uint16 BlockOffset, uint8 *DataBufferPtr, uint16 Length) {
    (void)DeviceIndex; (void)BlockNumber; (void)BlockOffset; (void)DataBufferPtr; (void)Length;
    return refuse_memif(MEMIF_READ);
}

Std_ReturnType MemIf_Write(uint8 DeviceIndex, uint16 BlockNumber, const uint8 *DataBufferPtr) {
    (void)DeviceIndex; (void)BlockNumber; (void)DataBufferPtr;
    return refuse_memif(MEMIF_WRITE);
}

Std_ReturnType MemIf_InvalidateBlock(uint8 DeviceIndex, uint16 BlockNumber) { (void)DeviceIndex; (void)BlockNumber; return refuse_memif(MEMIF_INVALIDATE); }
Std_ReturnType MemIf_EraseImmediateBlock(uint8 DeviceIndex, uint16 BlockNumber) { (void)DeviceIndex; (void)BlockNumber; return refuse_memif(MEMIF_ERASE); }

void MemIf_GetVersionInfo(Std_VersionInfoType *VersionInfoPtr) {
    tell_version(MEMIF_MODULE_ID, MEMIF_GET_VERSION, MEMIF_E_PARAM_POINTER, VersionInfoPtr);
}

static Std_ReturnType refuse_fee(uint8 service) { return refuse(FEE_MODULE_ID, service, FEE_E_INVALID_BLOCK_NO); }

void Fee_Init(const Fee_ConfigType *ConfigPtr) { (void)ConfigPtr; }
void Fee_MainFunction(void) {}
MemIf_StatusType Fee_GetStatus(void) { return status_below(); }
MemIf_JobResultType Fee_GetJobResult(void) { return MEMIF_JOB_OK; }
void Fee_SetMode(MemIf_ModeType Mode) { (void)Mode; (void)refuse_fee(FEE_SET_MODE); }
void Fee_Cancel(void) { (void)refuse_fee(FEE_CANCEL); }

Std_ReturnType Fee_Read(uint16 BlockNumber, uint16 BlockOffset, uint8 *DataBufferPtr, uint16 Length) {
    (void)BlockNumber; (void)BlockOffset; (void)DataBufferPtr; (void)Length;
    return refuse_fee(FEE_READ);
}

Std_ReturnType Fee_Write(uint16 BlockNumber, const uint8 *DataBufferPtr) { (void)BlockNumber; (void)DataBufferPtr; return refuse_fee(FEE_WRITE); }
Std_ReturnType Fee_InvalidateBlock(uint16 BlockNumber) { (void)BlockNumber; return refuse_fee(FEE_INVALIDATE); }
Std_ReturnType Fee_EraseImmediateBlock(uint16 BlockNumber) { (void)BlockNumber; return refuse_fee(FEE_ERASE); }
void Fee_GetVersionInfo(Std_VersionInfoType *VersionInfoPtr) { tell_version(FEE_MODULE_ID, FEE_GET_VERSION, FEE_E_PARAM_POINTER, VersionInfoPtr); }
void Fee_JobEndNotification(void) {}
void Fee_JobErrorNotification(void) {}

static Std_ReturnType refuse_fls(uint8 service) { return refuse(FLS_MODULE_ID, service, FLS_E_PARAM_ADDRESS); }

void Fls_Init(const Fls_ConfigType *ConfigPtr) { (void)ConfigPtr; }
void Fls_MainFunction(void) {}
MemIf_StatusType Fls_GetStatus(void) { return status_below(); }
MemIf_JobResultType Fls_GetJobResult(void) { return MEMIF_JOB_OK; }
void Fls_SetMode(MemIf_ModeType Mode) { (void)Mode; (void)refuse_fls(FLS_SET_MODE); }
void Fls_Cancel(void) { (void)refuse_fls(FLS_CANCEL); }

Std_ReturnType Fls_Read(Fls_AddressType SourceAddress, uint8 *TargetAddressPtr, Fls_LengthType Length) {
    (void)SourceAddress; (void)TargetAddressPtr; (void)Length;
    return refuse_fls(FLS_READ);
}

Std_ReturnType Fls_Write(Fls_AddressType TargetAddress, const uint8 *SourceAddressPtr, Fls_LengthType Length) {
    (void)TargetAddress; (void)SourceAddressPtr; (void)Length;
    return refuse_fls(FLS_WRITE);
}

Std_ReturnType Fls_Erase(Fls_AddressType TargetAddress, Fls_LengthType Length) { (void)TargetAddress; (void)Length; return refuse_fls(FLS_ERASE); }

Std_ReturnType Fls_Compare(Fls_AddressType SourceAddress, const uint8 *TargetAddressPtr, Fls_LengthType Length) {
    (void)SourceAddress; (void)TargetAddressPtr; (void)Length;
    return refuse_fls(FLS_COMPARE);
}

Std_ReturnType Fls_BlankCheck(Fls_AddressType TargetAddress, Fls_LengthType Length) { (void)TargetAddress; (void)Length; return refuse_fls(FLS_BLANK_CHECK); }
void Fls_GetVersionInfo(Std_VersionInfoType *VersionInfoPtr) { tell_version(FLS_MODULE_ID, FLS_GET_VERSION, FLS_E_PARAM_POINTER, VersionInfoPtr); }

void NvM_JobEndNotification(void) {}
void NvM_JobErrorNotification(void) {}
