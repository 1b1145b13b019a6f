/* Refusals, as NvM_SimRefusal and the Default Error Tracer are told of them. */
#include "shim.h"

/* (before NvM_Init errors go where the configuration that is linked says) */
static const NvM_ConfigType *config_of_errors(void) { return NvMShim.config ? NvMShim.config : &NvM_Config; }

void NvMShim_ReportOf(uint16 module, uint8 service, uint8 error) {
    const NvM_ConfigType *config = config_of_errors();
    if (config && config->report_error) (void)config->report_error(module, NVM_INSTANCE_ID, service, error);
}

void NvMShim_Report(uint8 service, uint8 error) { NvMShim_ReportOf(NVM_MODULE_ID, service, error); }

static void report_at_run_time(uint8 service, uint8 error) {
    const NvM_ConfigType *config = config_of_errors();
    if (config && config->report_runtime_error) (void)config->report_runtime_error(NVM_MODULE_ID, NVM_INSTANCE_ID, service, error);
}

/* A refusal as the standard's error. What no error of it means is told by NvM_SimRefusal alone. */
Std_ReturnType NvMShim_Refuse(uint8 service, uint8 why) {
    static const uint8 ERRORS[] = {
        0, NVM_E_PARAM_BLOCK_ID, 0, NVM_E_BLOCK_CONFIG, NVM_E_PARAM_BLOCK_DATA_IDX, NVM_E_BLOCK_CONFIG, NVM_E_PARAM_ADDRESS,
        NVM_E_BLOCK_WITHOUT_DEFAULTS, NVM_E_BLOCK_CONFIG, NVM_E_BLOCK_CONFIG, NVM_E_BLOCK_PENDING, NVM_E_BLOCK_PENDING,
        NVM_E_BLOCK_LOCKED, NVM_E_WRITE_PROTECTED, NVM_E_BLOCK_CONFIG, 0, NVM_E_QUEUE_OVERFLOW, 0
    };
    uint8 error = why < sizeof ERRORS ? ERRORS[why] : 0;
    NvMShim.refusal = why;
    if (error == NVM_E_QUEUE_OVERFLOW || error == NVM_E_WRITE_PROTECTED) report_at_run_time(service, error);
    else if (error) NvMShim_Report(service, error);
    return E_NOT_OK;
}

Std_ReturnType NvMShim_RefusePointer(uint8 service) {
    NvMShim.refusal = 0;
    NvMShim_Report(service, NVM_E_PARAM_POINTER);
    return E_NOT_OK;
}
