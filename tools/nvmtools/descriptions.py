"""ECU configuration as AUTOSAR's tools exchange it: ARXML of Release 4 (TPS ECU Configuration), read as containers with their places.

A file is read piece by piece, and of it the modules alone that are asked for are kept. A document type is refused, so no entity is ever
expanded and nothing else is opened. Definitions are told by the last name of their path, as each vendor has packages of its own."""
import contextlib
import json
import re
import sys
import xml.parsers.expat
from collections import namedtuple

from nvmtools.places import Place
from nvmtools.tool import NO_INPUT, Stop

NO_ARXML, TWICE, NOWHERE = 4, 10, 11
NAMESPACE = "http://autosar.org/schema/r4.0"
MOST = 1 << 28
PIECE = 1 << 16
DEEPEST = 200
OWN = "natukeri"
MODULE, CONTAINER, PACKAGE = "ECUC-MODULE-CONFIGURATION-VALUES", "ECUC-CONTAINER-VALUE", "AR-PACKAGE"
# what stands in a container or a value and says nothing of the configuration
ASIDE = ("SHORT-NAME", "DEFINITION-REF", "LONG-NAME", "DESC", "CATEGORY", "INTRODUCTION", "ADMIN-DATA", "ANNOTATIONS", "INDEX", "IS-AUTO-VALUE",
         "ECUC-DEF-EDITION", "IMPLEMENTATION-CONFIG-VARIANT", "MODULE-DESCRIPTION-REF", "POST-BUILD-VARIANT-USED", "VALUE", "VALUE-REF",
         "PARAMETER-VALUES", "REFERENCE-VALUES", "SUB-CONTAINERS", "CONTAINERS")

# a parameter or a reference of a container: its name, what it is, the path or the label of the base that a reference begins with, its place
Value = namedtuple("Value", "name text base place")
# a base that references of a package may begin with
Base = namedtuple("Base", "label package is_default")


class Element:
    """An element that is kept: its name without its namespace."""

    def __init__(self, tag, attributes, place):
        self.tag, self.attributes, self.place = tag, attributes, place
        self.below, self.pieces = [], []

    @property
    def text(self):
        return "".join(self.pieces).strip()

    def all(self, *way):
        """The elements at the end of a way of names."""
        found = [self]
        for name in way:
            found = [below for it in found for below in it.below if name in (below.tag, "*")]
        return found

    def first(self, name):
        return next((it for it in self.below if it.tag == name), None)

    def text_of(self, name):
        found = self.first(name)
        return found.text if found else ""


class Container:
    """A container, or a module: its parameters, its references and the containers in it, by name; and what this tool left of a unit in it."""

    def __init__(self, name, definition, path, place):
        self.name, self.definition, self.path, self.place = name, definition, path, place
        self.values, self.references, self.below, self.own = {}, {}, {}, {}
        # values that stand there once more, and the names of those that were made use of
        self.further, self.used = [], set()
        self.package = path.rpartition("/")[0]

    def inner(self, definition):
        """The containers of a definition that stand in it at any depth."""
        for it in self.below.values():
            if it.definition == definition:
                yield it
            yield from it.inner(definition)

    def whole(self):
        """Itself, and all containers in it."""
        yield self
        for it in self.below.values():
            yield from it.whole()


def last_name(path):
    return path.rstrip("/").rpartition("/")[2]


class Reader:
    """Reads a file into modules: each one with the containers below it."""

    def __init__(self, path, wanted, told):
        self.path, self.wanted, self.told = path, wanted, told
        self.open, self.skipped, self.modules, self.bases, self.others = [], 0, [], {}, {}
        self.parser = it = xml.parsers.expat.ParserCreate(namespace_separator=" ")
        it.buffer_text = True
        it.StartElementHandler, it.EndElementHandler, it.CharacterDataHandler = self.start, self.end, self.characters
        it.StartDoctypeDeclHandler = self.refuse_type

    def place(self):
        return Place(self.path, self.parser.CurrentLineNumber, self.parser.CurrentColumnNumber + 1)

    def stop(self, why, status=NO_ARXML):
        raise Stop(f"{self.place()}: {why}{self.inside()}", status)

    def inside(self):
        """Where in the description the parser is, as far as names tell it."""
        names = [name for it in self.open if (name := it.text_of("SHORT-NAME"))]
        return f"; in /{'/'.join(names)}" if names else ""

    def refuse_type(self, *_):
        self.stop("a document type (DTD), as no ARXML has: its entities may grow without end or open other files, so it isn't read")

    def start(self, name, attributes):
        space, _, tag = name.rpartition(" ")
        if not self.open:
            self.begin(space, tag)
        elif space != NAMESPACE:
            self.stop(f"an element {tag[:40]} of another namespace than {NAMESPACE}")
        if self.skipped:
            self.skipped += 1
            return
        if len(self.open) == DEEPEST:
            self.stop(f"nested deeper than {DEEPEST}")
        if self.is_aside(tag):
            self.skipped = 1
            return
        element = Element(tag, attributes, self.place())
        if self.open:
            self.open[-1].below.append(element)
        self.open.append(element)

    def begin(self, space, tag):
        if tag != "AUTOSAR":
            self.stop(f"no ARXML: its root is {tag[:40]} and not AUTOSAR")
        if space != NAMESPACE:
            release = re.search(r"[0-9.]+$", space)
            why = f"of schema {release[0]}" if release and space.startswith("http://autosar.org/") else "without a namespace" if not space else \
                f"of the namespace {space[:60]}"
            self.stop(f"an ARXML {why}: this tool reads those of Release 4, whose namespace is {NAMESPACE}")

    def is_aside(self, tag):
        """Whether an element is passed over: what isn't ECU configuration, and the modules that nobody asks for."""
        above = self.open[-1] if self.open else None
        if above is None:
            return False
        if above.tag == "ELEMENTS":
            return tag != MODULE
        if above.tag == MODULE and tag == "CONTAINERS":
            name = last_name(above.text_of("DEFINITION-REF"))
            return bool(name) and name not in self.wanted
        return False

    def characters(self, text):
        if self.open and not self.skipped:
            self.open[-1].pieces.append(text)

    def end(self, name):
        if self.skipped:
            self.skipped -= 1
            return
        element = self.open.pop()
        if element.tag == MODULE:
            self.take_module(element)
            self.open[-1].below.pop()
        elif element.tag == "REFERENCE-BASES":
            self.bases[self.package()] = [self.base_of(it) for it in element.all("REFERENCE-BASE")]
        elif element.tag == PACKAGE and self.open:
            self.open[-1].below.pop()

    def base_of(self, element):
        is_this = element.text_of("BASE-IS-THIS-PACKAGE") in ("true", "1")
        return Base(element.text_of("SHORT-LABEL"), self.package() if is_this else element.text_of("PACKAGE-REF"),
                    element.text_of("IS-DEFAULT") in ("true", "1"))

    def package(self):
        """The path of the package that is being read."""
        return "".join(f"/{it.text_of('SHORT-NAME')}" for it in self.open if it.tag == PACKAGE)

    def take_module(self, element):
        name = last_name(element.text_of("DEFINITION-REF"))
        if name not in self.wanted:
            if name:
                self.others[name] = self.others.get(name) or element.place
            else:
                self.told.refuse(element.place, f"{self.package()}/{element.text_of('SHORT-NAME')}",
                                 "a module without a DEFINITION-REF: nothing says which one it is")
            return
        self.modules.append(self.container_of(element, self.package()))

    def container_of(self, element, above):
        """A container or a module, with all that stands in it."""
        name, definition = element.text_of("SHORT-NAME"), last_name(element.text_of("DEFINITION-REF"))
        made = Container(name, definition, f"{above}/{name or '?'}", Place(self.path, element.place.line))
        if not name or not definition:
            self.told.refuse(made.place, made.path, f"a container without a {'DEFINITION-REF' if name else 'SHORT-NAME'}")
        self.stop_on_variants(element, made.path)
        for it in element.all("PARAMETER-VALUES", "*"):
            self.take_value(made, made.values, it, "VALUE")
        for it in element.all("REFERENCE-VALUES", "*"):
            self.take_value(made, made.references, it, "VALUE-REF")
        for group in element.all("ADMIN-DATA", "SDGS", "SDG"):
            if group.attributes.get("GID") == OWN:
                self.take_own(made, group)
        for it in element.all("SUB-CONTAINERS", CONTAINER) + element.all("CONTAINERS", CONTAINER):
            self.add(made, self.container_of(it, made.path))
        return made

    def stop_on_variants(self, element, path):
        for it in element.below:
            if it.tag == "VARIATION-POINT":
                self.told.refuse(Place(self.path, it.place.line), path,
                                 "it is there in some variants alone, as VARIATION-POINT says: give the description of one variant")
            elif it.tag not in ASIDE:
                self.told.drop(Place(self.path, it.place.line), f"{path}/{it.tag}", "nothing that this tool knows")

    def take_value(self, container, among, element, of):
        name, place = last_name(element.text_of("DEFINITION-REF")), Place(self.path, element.place.line)
        path = f"{container.path}/{name or '?'}"
        if not name:
            self.told.refuse(place, path, "a parameter without a DEFINITION-REF: nothing says which one it is")
            return
        self.stop_on_variants(element, path)
        found = element.all(of)
        if len(found) > 1 or found and found[0].below:
            self.told.refuse(place, path, f"its {of} is a formula or several: give the description of one variant")
            return
        if name in among:
            container.further.append(Value(name, found[0].text if found else None, None, place))
            return
        text, base = (found[0].text, found[0].attributes.get("BASE")) if found else (None, None)
        among[name] = Value(name, text, base, place)

    def take_own(self, container, group):
        for it in group.all("SD"):
            try:
                container.own[it.attributes.get("GID")] = json.loads(it.text)
            except (ValueError, RecursionError):
                self.told.refuse(Place(self.path, it.place.line), container.path, f"its SDG \"{OWN}\" has no JSON in {it.attributes.get('GID')}")

    def add(self, above, made):
        """Puts a container into another one, unless its name stands there twice."""
        twin = above.below.setdefault(made.name, made)
        if twin is not made:
            self.told.refuse(made.place, made.path, f"two containers have this path: the other one stands in line {twin.place.line}", TWICE)


def opened(path):
    """A file, or standard input where the path is '-'."""
    if path == "-":
        if sys.stdin is None:
            raise Stop("standard input is closed", NO_INPUT)
        return contextlib.nullcontext(sys.stdin.buffer)
    try:
        return open(path, "rb")
    except (OSError, ValueError) as error:
        raise Stop(f"{path}: {getattr(error, 'strerror', None) or error}") from None


def pieces(path):
    size = 0
    with opened(path) as file:
        while True:
            try:
                piece = file.read(PIECE)
            except OSError as error:
                raise Stop(f"{path}: {error.strerror}") from None
            size += len(piece)
            if size > MOST:
                raise Stop(f"{path}: it has more than {MOST:,} bytes")
            yield piece
            if not piece:
                return


def parse_all(path, parser, inside=str):
    """Hands a file to a parser, piece by piece. Where it is no XML an end tells what it is in."""
    for piece in pieces(path):
        try:
            parser.Parse(piece, not piece)
        except xml.parsers.expat.ExpatError as error:
            what = xml.parsers.expat.ErrorString(error.code)
            if error.lineno == 1 and piece.lstrip().startswith(b"{"):
                what += "; --from-unit makes the ARXML of a unit"
            raise Stop(f"{Place(path, error.lineno, error.offset + 1)}: no XML: {what}{inside()}", NO_ARXML) from None
        except (LookupError, ValueError) as error:
            raise Stop(f"{Place(path, parser.CurrentLineNumber)}: no XML that can be read: {error}", NO_ARXML) from None


def read(path, wanted, told):
    """The modules of an ARXML file that are wanted, the others by their names, and the bases of references by package."""
    reader = Reader(path, wanted, told)
    parse_all(path, reader.parser, reader.inside)
    return reader


class Description:
    """The modules of one ECU in one file or several, and where references lead."""

    def __init__(self, paths, wanted, told):
        self.modules, self.by_path, self.bases, self.others, self.told = {}, {}, {}, {}, told
        for path in paths:
            found = read(path, wanted, told)
            for package, bases in found.bases.items():
                self.bases.setdefault(package, []).extend(bases)
            for name, place in found.others.items():
                self.others.setdefault(name, place)
            for module in found.modules:
                self.take(module)
        for module in self.modules.values():
            self.by_path.update((it.path, it) for it in module.whole())

    def take(self, module):
        """A module: the same path in another file is a further part of it."""
        first = self.modules.setdefault(module.definition, module)
        if first is module:
            return
        if first.path != module.path:
            self.told.refuse(module.place, module.path, f"a second module {module.definition}: the other one is {first.path} in {first.place}", TWICE)
        elif first.place.file == module.place.file:
            self.told.refuse(module.place, module.path, f"two modules have this path: the other one stands in line {first.place.line}", TWICE)
        else:
            self.join(first, module)

    def join(self, first, further):
        """Puts a further part of a container into its first one."""
        for name in ("values", "references"):
            for key, value in getattr(further, name).items():
                known = getattr(first, name).setdefault(key, value)
                if known is not value and known.text != value.text:
                    self.told.refuse(value.place, f"{first.path}/{key}", f"it stands twice with different values, first in {known.place}", TWICE)
        first.own.update(further.own)
        first.further += further.further
        for name, it in further.below.items():
            known = first.below.setdefault(name, it)
            if known is it:
                continue
            if known.definition != it.definition:
                self.told.refuse(it.place, it.path, f"two containers have this path: the other one stands in {known.place}", TWICE)
            else:
                self.join(known, it)

    def led_to(self, container, value):
        """The container that a reference leads to, or None."""
        if not value.text:
            return None
        if value.text.startswith("/"):
            return self.by_path.get(value.text)
        package = container.package
        while package:
            for it in self.bases.get(package, ()):
                if it.label == value.base if value.base else it.is_default:
                    return self.by_path.get(f"{it.package.rstrip('/')}/{value.text}")
            package = package.rpartition("/")[0]
        return None


class DefinitionReader:
    """The names of the parameters and references that a file of definitions has, with the containers that they stand in, by module."""

    MODULE, KINDS = "ECUC-MODULE-DEF", ("PARAMETERS", "REFERENCES")

    def __init__(self, wanted):
        self.wanted, self.found, self.open, self.names = wanted, {}, [], []
        self.parser = it = xml.parsers.expat.ParserCreate(namespace_separator=" ")
        it.buffer_text = True
        it.StartElementHandler, it.EndElementHandler, it.CharacterDataHandler = self.start, self.end, self.characters
        it.StartDoctypeDeclHandler = self.refuse_type

    def refuse_type(self, *_):
        raise ValueError("a document type (DTD)")

    def start(self, name, _):
        self.open.append(name.rpartition(" ")[2])
        self.names.append("")

    def characters(self, text):
        if self.open and self.open[-1] == "SHORT-NAME" and len(self.open) > 1:
            self.names[-2] += text.strip()

    def end(self, _):
        self.open.pop()
        name = self.names.pop()
        if len(self.open) < 2 or self.open[-1] not in self.KINDS or self.MODULE not in self.open or not name:
            return
        module = self.names[self.open.index(self.MODULE)]
        if module in self.wanted:
            self.found.setdefault(module, set()).add((self.names[-2], name))


def definitions_in(path, wanted):
    """The names of parameters by module, each with its container."""
    reader = DefinitionReader(wanted)
    parse_all(path, reader.parser)
    return reader.found
