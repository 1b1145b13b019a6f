"""The parameters of an ECU configuration (ECUC) of NvM, Fee, Fls, Ea and Eep, by their containers: which key of a unit each one is, or
what it would have meant and the one value that the stack has for it. docs/ARXML.md shows this table.

The names are those of Release 4.x. Nothing here says which release has which."""
from collections import namedtuple

# of a parameter or a reference: its type, the key of the unit that it is, the one value that the stack has (None where it has none), and what
# another value means
Parameter = namedtuple("Parameter", "type key fixed means", defaults=(None, None, ""))

INTEGER, FLOAT, FLAG, CHOICE, TEXT, FUNCTION, REFERENCE = ("integer", "float", "boolean", "enumeration", "string", "function", "reference")


def key(kind, name):
    return Parameter(kind, name)


def fixed(kind, value, means):
    return Parameter(kind, None, value, means)


def none(kind, means):
    return Parameter(kind, None, None, means)


DEM = none(REFERENCE, "the Dem event that is reported; there is no Dem: a failed job has its result, faults of the flash are counted")
PORT = fixed(FLAG, False, "a port of the RTE for the block; there is no RTE, and its callbacks are called as functions")
SPEED = none(INTEGER, "bytes that the driver moves in one cycle; a turn programs one page, erases one sector or reads one content")
DRIVER = none(FUNCTION, "what the driver calls when a job ends; the stack polls it")
PUBLISHED = "a figure of the hardware that is published and not configured; the unit has its shape alone"
VERSION = fixed(FLAG, True, "whether the version can be asked for; in C it can")
SWITCH = none(FLAG, "whether the driver's call can be left out; the stack uses what it needs of its own driver")
PARTITION = none(REFERENCE, "the partition of a multi-core unit; the stack has one owner")

COMMON = {
    "NvMCompiledConfigId": key(INTEGER, "id"),
    "NvMSizeStandardJobQueue": key(INTEGER, "standard"),
    "NvMSizeImmediateJobQueue": key(INTEGER, "immediate"),
    "NvMRepeatMirrorOperations": key(INTEGER, "repeats of each block"),
    "NvMDatasetSelectionBits": fixed(INTEGER, 6, "bits of a device's block number that are the index; here a number is 64 times the id, plus the index"),
    "NvMPollingMode": fixed(FLAG, True, "false: Fee and Ea call NvM when a job ends; here NvM polls"),
    "NvMJobPrioritization": fixed(FLAG, True, "false: jobs in the order of their requests; here by priority, and immediate ones first"),
    "NvMDynamicConfiguration": fixed(FLAG, True, "false: ReadAll doesn't look at the configuration id; here it does"),
    "NvMApiConfigClass": fixed(CHOICE, "NVM_API_CONFIG_CLASS_3", "which services there are; here all"),
    "NvMSetRamBlockStatusApi": fixed(FLAG, True, "whether NvM_SetRamBlockStatus is there; it is"),
    "NvMVersionInfoApi": VERSION,
    "NvMDrvModeSwitch": fixed(FLAG, False, "true: ReadAll and WriteAll switch the driver to fast mode; there are no modes"),
    "NvMDevErrorDetect": fixed(FLAG, False, "true: errors go to Det; tools/header makes it so with --det"),
    "NvMMultiBlockCallback": none(FUNCTION, "what is called when ReadAll or WriteAll has ended; tools/header takes it as --all-done NAME"),
    "NvMBswMMultiBlockJobStatusInformation": fixed(FLAG, False, "true: BswM is told of ReadAll and WriteAll; tools/header makes it so with --bswm"),
    "NvMMainFunctionPeriod": none(FLOAT, "seconds between two calls of the main function; the caller makes the turns, and tools/plan counts them with --turn-ms"),
    "NvMCrcNumOfBytes": none(INTEGER, "bytes of which a CRC is made in one cycle; there are no CRCs"),
    "NvMBufferAlignmentValue": none(TEXT, "the alignment of NvM's buffers; the stack moves bytes"),
    "NvMCsmRetryCounter": none(INTEGER, "tries of ciphering a block; nothing is ciphered"),
    "NvMEcucPartitionRef": PARTITION,
    "NvMMasterEcucPartitionRef": PARTITION,
}

BLOCK = {
    "NvMNvramBlockIdentifier": key(INTEGER, "id of the block"),
    "NvMBlockManagementType": key(CHOICE, "kind"),
    "NvMNvBlockLength": key(INTEGER, "length"),
    "NvMNvBlockNum": key(INTEGER, "nv"),
    "NvMRomBlockNum": key(INTEGER, "rom"),
    "NvMRomBlockDataAddress": key(TEXT, "defaults, rom"),
    "NvMBlockJobPriority": key(INTEGER, "priority"),
    "NvMRamBlockDataAddress": key(TEXT, "ram, c.ram"),
    "NvMBlockUseSyncMechanism": key(FLAG, "ram"),
    "NvMSelectBlockForReadAll": key(FLAG, "readall"),
    "NvMSelectBlockForWriteAll": key(FLAG, "writeall"),
    "NvMWriteBlockOnce": key(FLAG, "once"),
    "NvMBlockWriteProt": key(FLAG, "protected"),
    "NvMResistantToChangedSw": key(FLAG, "resistant"),
    "NvMMaxNumOfReadRetries": key(INTEGER, "reads"),
    "NvMMaxNumOfWriteRetries": key(INTEGER, "writes"),
    "NvMNvramDeviceId": key(INTEGER, "device, where no reference tells it"),
    "NvMSingleBlockCallback": key(FUNCTION, "c.done"),
    "NvMInitBlockCallback": key(FUNCTION, "c.init"),
    "NvMWriteRamBlockToNvCallback": key(FUNCTION, "c.to_nvm"),
    "NvMReadRamBlockFromNvCallback": key(FUNCTION, "c.from_nvm"),
    "NvMBlockUseSetRamBlockStatus": key(FLAG, "c.set_ram"),
    "NvMBlockUseAutoValidation": key(FLAG, "c.auto"),
    "NvMSelectBlockForFirstInitAll": key(FLAG, "c.first_init"),
    "NvMBswMBlockStatusInformation": key(FLAG, "c.bswm"),
    "NvMNvBlockBaseNumber": fixed(INTEGER, None, "the block's number on its device without the index; here it is the block's id"),
    "NvMBlockUseCrc": fixed(FLAG, False, "true: a CRC of the content; here gates show whether a record is whole, and bits that change by themselves aren't noticed"),
    "NvMBlockCrcType": none(CHOICE, "the CRC of the content; there is none"),
    "NvMCalcRamBlockCrc": fixed(FLAG, False, "true: a CRC of the RAM block, which a ReadAll looks at; there is none"),
    "NvMBlockUseCRCCompMechanism": fixed(FLAG, False, "true: a write of what stands there is left out; here it is made"),
    "NvMWriteVerification": fixed(FLAG, False, "true: what was written is read back and compared; here the gate behind it is what counts"),
    "NvMWriteVerificationDataSize": none(INTEGER, "bytes that are compared in one cycle behind a write; nothing is compared"),
    "NvMStaticBlockIDCheck": fixed(FLAG, False, "true: the block's id stands before its content and is compared; here it stands in each record's header"),
    "NvMBlockUseCompression": fixed(FLAG, False, "true: the content is compressed; here it stands as it is"),
    "NvMBlockHeaderInclude": none(TEXT, "a header that declares the block's RAM and callbacks; tools/header takes it as --include FILE"),
    "NvMBlockUsePort": PORT,
    "NvMProvideRteServicePort": PORT,
    "NvMProvideRteAdminPort": PORT,
    "NvMProvideRteInitBlockPort": PORT,
    "NvMProvideRteJobFinishedPort": PORT,
    "NvMProvideRteMirrorPort": PORT,
    "NvMRPortInterfacesASRVersion": none(CHOICE, "the release of the RTE's ports; there is no RTE"),
    "NvMInvokeCallbacksForReadAll": fixed(FLAG, True, "false: a ReadAll doesn't call the block's callback; in C it does, when the member's own job has ended"),
    "NvMInvokeCallbacksForWriteAll": fixed(FLAG, True, "false: a WriteAll doesn't call the block's callback; in C it does, when the member's own job has ended"),
    "NvMInvokeCallbacksForInitAll": fixed(FLAG, True, "false: a FirstInitAll doesn't call the block's callback; in C it does"),
    "NvMBlockEcucPartitionRef": PARTITION,
}

DEM_EVENTS = dict.fromkeys(("NVM_E_HARDWARE", "NVM_E_INTEGRITY_FAILED", "NVM_E_LOSS_OF_REDUNDANCY", "NVM_E_QUEUE_OVERFLOW", "NVM_E_REQ_FAILED",
                            "NVM_E_VERIFY_FAILED", "NVM_E_WRITE_PROTECTED", "NVM_E_WRONG_BLOCK_ID"), DEM)

CIPHER = none(REFERENCE, "the job of the crypto services that ciphers the block; nothing is ciphered, so its content would stand readable")


def emulation(prefix, driver):
    """The containers of Fee or Ea, which have the same parameters by their own names."""
    return {
        f"{prefix}General": {
            f"{prefix}VirtualPageSize": key(INTEGER, "page"),
            f"{prefix}PollingMode": fixed(FLAG, True, "false: the driver calls when a job ends; here it is polled"),
            f"{prefix}SetModeSupported": fixed(FLAG, False, "true: the device has a fast and a slow mode; there are no modes"),
            f"{prefix}VersionInfoApi": VERSION,
            f"{prefix}DevErrorDetect": fixed(FLAG, False, "true: errors go to Det; the device is NvM's own"),
            f"{prefix}MainFunctionPeriod": none(FLOAT, "seconds between two calls of the main function; one turn is that of NvM, the device and the driver"),
            f"{prefix}NvmJobEndNotification": none(FUNCTION, "what is called when a job ends; the stack polls"),
            f"{prefix}NvmJobErrorNotification": none(FUNCTION, "what is called when a job fails; the stack polls"),
            f"{prefix}Index": fixed(INTEGER, 0, "which of several devices of this kind it is; there is one"),
            f"{prefix}MinimumReadPageSize": none(INTEGER, "the least bytes of a read; contents are read whole"),
            f"{prefix}BufferAlignmentValue": none(TEXT, "the alignment of the buffers; the stack moves bytes"),
            f"{prefix}EcucPartitionRef": PARTITION,
        },
        f"{prefix}BlockConfiguration": {
            f"{prefix}BlockNumber": fixed(INTEGER, None, "the block's number on the device; here it is 64 times the block's id, so an image of another stack isn't read"),
            f"{prefix}BlockSize": fixed(INTEGER, None, "the bytes of the block on the device; here they are those of NvMNvBlockLength"),
            f"{prefix}ImmediateData": key(FLAG, "priority 0"),
            f"{prefix}NumberOfWriteCycles": none(INTEGER, "how often the block is written in its life; tools/plan works out the wear by --writes"),
            f"{prefix}DeviceIndex": none(REFERENCE, f"the {driver} that the block stands on; there is one"),
            f"{prefix}MemAccAddressArea": none(REFERENCE, "the address area that the block stands in; there is one driver of its own"),
        },
        f"{prefix}PublishedInformation": dict.fromkeys(
            (f"{prefix}BlockOverhead", f"{prefix}PageOverhead", f"{prefix}MaximumBlockingTime"), none(INTEGER, PUBLISHED)),
    }


FLS_CONFIG = {
    **dict.fromkeys(("FlsMaxReadFastMode", "FlsMaxReadNormalMode", "FlsMaxWriteFastMode", "FlsMaxWriteNormalMode"), SPEED),
    **dict.fromkeys(("FlsJobEndNotification", "FlsJobErrorNotification", "FlsAcErase", "FlsAcWrite"), DRIVER),
    "FlsCallCycle": none(FLOAT, "seconds between two calls of the main function; one turn is that of NvM, Fee and the driver"),
    "FlsDefaultMode": none(CHOICE, "the driver's mode behind its start; there are no modes"),
    "FlsProtection": none(INTEGER, "write protection of the flash by its hardware; blocks are protected one by one"),
}
SWITCHES = ("AcLoadOnJobStart", "BlankCheckApi", "CancelApi", "CompareApi", "DevErrorDetect", "EraseVerificationEnabled", "GetJobResultApi",
            "GetStatusApi", "SetModeApi", "TimeoutSupervisionEnabled", "UseInterrupts", "VersionInfoApi",
            "WriteVerificationEnabled")
FLS = {
    "FlsGeneral": {
        **dict.fromkeys((f"Fls{it}" for it in SWITCHES), SWITCH),
        "FlsTotalSize": fixed(INTEGER, None, "the bytes of the flash; here they are those of its sectors"),
        "FlsBaseAddress": none(INTEGER, "where the flash begins for the processor; here its first byte is that of the image"),
        "FlsDriverIndex": fixed(INTEGER, 0, "which of several drivers it is; there is one"),
        "FlsEcucPartitionRef": PARTITION,
    },
    "FlsConfigSet": FLS_CONFIG,
    "FlsSector": {
        "FlsPageSize": key(INTEGER, "page"),
        "FlsSectorSize": key(INTEGER, "sector"),
        "FlsNumberOfSectors": key(INTEGER, "sectors"),
        "FlsSectorStartaddress": fixed(INTEGER, None, "where the sectors begin; here one behind the other"),
    },
    "FlsPublishedInformation": dict.fromkeys(
        ("FlsAcLocationErase", "FlsAcLocationWrite", "FlsAcSizeErase", "FlsAcSizeWrite", "FlsEraseTime", "FlsErasedValue", "FlsExpectedHwId",
         "FlsSpecifiedEraseCycles", "FlsWriteTime"), none(INTEGER, PUBLISHED)),
}
EEP = {
    "EepGeneral": {
        **dict.fromkeys(("EepDevErrorDetect", "EepUseInterrupts", "EepVersionInfoApi", "EepWriteCycleReduction"), SWITCH),
        "EepDriverIndex": fixed(INTEGER, 0, "which of several drivers it is; there is one"),
    },
    "EepInitConfiguration": {
        "EepSize": key(INTEGER, "eeprom.sectors"),
        "EepBaseAddress": none(INTEGER, "where the EEPROM begins for the processor; here its first byte is that of the image"),
        **dict.fromkeys(("EepFastReadBlockSize", "EepFastWriteBlockSize", "EepNormalReadBlockSize", "EepNormalWriteBlockSize"), SPEED),
        **dict.fromkeys(("EepJobEndNotification", "EepJobErrorNotification"), DRIVER),
        "EepJobCallCycle": none(FLOAT, "seconds between two calls of the main function; one turn is that of NvM, Ea and the driver"),
        "EepDefaultMode": none(CHOICE, "the driver's mode behind its start; there are no modes"),
    },
    "EepPublishedInformation": {
        "EepWriteUnitSize": key(INTEGER, "eeprom.page"),
        "EepEraseUnitSize": key(INTEGER, "eeprom.sector"),
        **dict.fromkeys(("EepAllowedWriteCycles", "EepEraseTime", "EepEraseValue", "EepMinimumAddressType", "EepMinimumLengthType", "EepReadUnitSize",
                         "EepSpecifiedEraseCycles", "EepTotalSize", "EepWriteTime"), none(INTEGER, PUBLISHED)),
    },
}

# by module and container. A container that stands in another one is named by itself
MODULES = {
    "NvM": {
        "NvMCommon": COMMON,
        "NvMBlockDescriptor": BLOCK,
        "NvMSingleBlockCallback": {"NvMSingleBlockCallbackFnc": key(FUNCTION, "c.done")},
        "NvMInitBlockCallback": {"NvMInitBlockCallbackFnc": key(FUNCTION, "c.init")},
        "NvMTargetBlockReference": {},
        "NvMFeeRef": {"NvMNameOfFeeBlock": key(REFERENCE, "device 0")},
        "NvMEaRef": {"NvMNameOfEaBlock": key(REFERENCE, "device 1")},
        "NvMBlockCiphering": {"NvMCsmEncryptionJobReference": CIPHER, "NvMCsmDecryptionJobReference": CIPHER,
                              "NvMNvBlockNVRAMDataLength": none(INTEGER, "the bytes of the ciphered content; nothing is ciphered")},
        "NvmDemEventParameterRefs": DEM_EVENTS,
        "NvMDemEventParameterRefs": DEM_EVENTS,
    },
    "Fee": emulation("Fee", "Fls"),
    "Ea": emulation("Ea", "Eep"),
    "Fls": {**FLS, "FlsSectorList": {}},
    "Eep": EEP,
}
PUBLISHED_VERSION = "CommonPublishedInformation"


def known(module, container, name):
    """What is known of a parameter or a reference, or None."""
    return MODULES[module].get(container, {}).get(name)


def rows():
    """Each parameter with its module and container."""
    for module, containers in MODULES.items():
        for container, found in containers.items():
            yield from ((module, container, name, it) for name, it in found.items())
