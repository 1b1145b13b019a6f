"""Tests of examples/body_controller.json as a bench has them; docs/BENCH.md goes through them."""
import natukeri
import pytest

pytestmark = pytest.mark.unit_file("../../examples/body_controller.json")
CRASH = b"\xaa" * 64


def sold(unit):
    unit.read_all()
    unit.put_ram("odometer", 7)
    unit.write_all()


def crash(unit):
    unit.write("crash record", CRASH)
    unit.write("odometer", 8)


def test_a_protected_block_keeps_its_content(unit):
    unit.write("odometer", 7)
    unit.protect("odometer")
    with pytest.raises(natukeri.Refused, match="the block is protected"):
        unit.write("odometer", 8)
    assert unit.read_number("odometer") == 7


@pytest.mark.power_cuts(of=crash, before=sold)
def test_a_crash_record_comes_before_the_odometer(unit):
    assert unit.read_number("odometer") == 7 or unit.read("crash record") == CRASH
