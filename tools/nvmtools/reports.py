"""What tools tell other programs: one JSON object (docs/TOOLS.md, 'For other programs'), and a file as JUnit writes them."""
import xml.etree.ElementTree as xml

from nvmtools.files import in_place_of
from nvmtools.tool import add_json, tell  # (what a tool needs of it stands in one place)

__all__ = ["add_json", "add_junit", "tell", "write_junit"]


def add_junit(words):
    words.add_argument("--junit", metavar="FILE", help="store the result of each case there, as JUnit does")


def write_junit(path, tool, of, cases):
    """Stores cases of a tool over a file, each a name with what is wrong, or None where it is well. Without a path it does
    nothing."""
    if not path:
        return
    suite = xml.Element("testsuite", name=f"{tool} {of}", tests=str(len(cases)), errors="0",
                        failures=str(sum(why is not None for _, why in cases)))
    for name, why in cases:
        case = xml.SubElement(suite, "testcase", classname=f"{tool}.{of.replace('.', '_')}", name=name)
        if why is not None:
            xml.SubElement(case, "failure", message=why.splitlines()[0]).text = why
    xml.indent(suite)
    with in_place_of(path) as beside:
        xml.ElementTree(suite).write(beside, encoding="utf-8", xml_declaration=True)
