"""A plugin of pytest: a fixture for a unit, and one case for each power cut.

    pytestmark = pytest.mark.unit_file("ecu.json")  # a path from the folder of the test file on

    def test_it(unit): ...                          # a unit over a blank flash

    @pytest.mark.power_cuts(of=crash, before=sold)  # crash(unit) over the image that sold(unit) leaves, with a cut at each operation
    def test_cuts(unit, power_cut): ...             # the unit behind that cut and the next start-up"""
from __future__ import annotations

import functools
from collections.abc import Generator, Iterator
from pathlib import Path
from typing import Any, NamedTuple, Optional

import pytest

from natukeri.configuration import Configuration, configuration_of
from natukeri.sweeps import Cut, Drive, Keep, behind_cut, cuts_of, image_behind
from natukeri.unit import Unit


def pytest_configure(config: Any) -> None:
    config.addinivalue_line("markers", "unit_file(path): that of the fixture 'unit', from the folder of the test file on")
    config.addinivalue_line("markers", "power_cuts(of=drive, before=None, keep='some'): one case for each power cut of drive(unit)")


def _configuration(node: Any) -> Configuration:
    mark = node.get_closest_marker("unit_file")
    if mark is None or len(mark.args) != 1:
        raise pytest.UsageError(f"{node.nodeid}: the fixture 'unit' needs the mark unit_file(path)")
    return configuration_of(Path(str(getattr(node, "path", None) or node.fspath)).parent / mark.args[0])


@functools.lru_cache(maxsize=64)
def _image(config: Configuration, before: Optional[Drive]) -> Optional[bytes]:
    """The image that `before` leaves, made once."""
    return None if before is None else image_behind(config, before)


class PowerCuts(NamedTuple):
    """What the mark power_cuts is given, each by its name: pytest takes a mark of a single function for one of that function."""
    of: Drive
    before: Optional[Drive] = None
    keep: Keep = "some"


def _power_cuts(node: Any) -> Optional[PowerCuts]:
    mark = node.get_closest_marker("power_cuts")
    if mark is None:
        return None
    if mark.args or "of" not in mark.kwargs or set(mark.kwargs) - set(PowerCuts._fields):
        raise pytest.UsageError(f"{node.nodeid}: the mark is power_cuts(of=drive, before=None, keep='some'), each by its name")
    return PowerCuts(**mark.kwargs)


@pytest.hookimpl(hookwrapper=True)
def pytest_runtest_makereport(item: Any) -> Generator[None, Any, None]:
    """Shows the history of the unit below a case that failed."""
    outcome = yield
    report, it = outcome.get_result(), getattr(item, "funcargs", {}).get("unit")
    if report.when == "call" and report.failed and isinstance(it, Unit):
        report.sections.append(("history of the unit", "\n".join(it.history)))


def pytest_generate_tests(metafunc: Any) -> None:
    given = _power_cuts(metafunc.definition)
    if given is None:
        return
    if "unit" not in metafunc.fixturenames:
        raise pytest.UsageError(f"{metafunc.definition.nodeid}: what has the mark power_cuts takes the fixture 'unit'")
    config = _configuration(metafunc.definition)
    metafunc.parametrize("power_cut", cuts_of(config, given.of, _image(config, given.before), given.keep), ids=str)


@pytest.fixture
def power_cut() -> Optional[Cut]:
    """The power cut that the fixture 'unit' stands behind, or None."""
    return None


@pytest.fixture
def unit(request: Any, power_cut: Optional[Cut]) -> Iterator[Unit]:
    """A unit over a blank flash; of a test with the mark power_cuts the unit behind one of these cuts and the next start-up."""
    config, given = _configuration(request.node), _power_cuts(request.node)
    if given is None or power_cut is None:
        made = Unit(config)
    else:
        made = behind_cut(config, given.of, power_cut, _image(config, given.before))
    with made:
        yield made
