"""A unit of the proved stack in Python: its flash is memory, its power goes off at any operation and byte, and it starts up again.

    with natukeri.Unit("ecu.json") as ecu:
        ecu.write("odometer", 1000)
        ecu.cut(3, 8)                   # in the third operation of the flash from now, 8 bytes of it done
        ...

Each call is one of c/nvm_c.h, of libnvm.so, where it says what is proved; the package itself is tried, not proved. What is asked for by the
names of a unit file, and told in words, is its own. It is Python 3.9 or later with its standard library alone; docs/BENCH.md is its page."""
from natukeri.answers import (BadConfiguration, Failed, HistoryFull, ImageFault, ImageInUse, NoSuchBlock, PowerOff, Refusal, Refused, Result,
                              SecondDevice, Service, StartUpFailed, Turn, UnitClosed, UnitError, WrongImageSize)
from natukeri.configuration import Configuration
from natukeri.image_file import StoredUnit
from natukeri.sweeps import Cut, behind_cut, cuts_of, image_behind, operations_of, sweep
from natukeri.unit import Unit

__all__ = ["BadConfiguration", "Configuration", "Cut", "Failed", "HistoryFull", "ImageFault", "ImageInUse", "NoSuchBlock", "PowerOff", "Refusal",
           "Refused", "Result", "SecondDevice", "Service", "StartUpFailed", "StoredUnit", "Turn", "Unit", "UnitClosed", "UnitError",
           "WrongImageSize", "behind_cut", "cuts_of", "image_behind", "operations_of", "sweep"]
