"""A wheel of the package for Python, as PEP 427 has it: python/natukeri with libnvm.so in it, and the modules of the tools."""
import base64
import glob
import hashlib
import os
import zipfile

from nvmtools.calls import TOP, read_text

try:
    import tomllib
except ImportError:
    # (before Python 3.11 nothing of the standard library reads TOML, so no wheel is made)
    tomllib = None

# of glibc 2.34 or later: what the library calls of it
TAG = "py3-none-manylinux_2_34_x86_64"
# of each file in a wheel: a release that is made twice is the same twice
TIME = (2020, 1, 1, 0, 0, 0)


def project():
    """What python/pyproject.toml says."""
    return tomllib.loads(read_text(f"{TOP}/python/pyproject.toml"))["project"]


def facts(known):
    """The files of a wheel that tell what it is, by their names."""
    folder = f"{known['name']}-{known['version']}.dist-info"
    points = [line for group, names in known["entry-points"].items() for line in (f"[{group}]", *(f"{name} = {to}" for name, to in names.items()), "")]
    return folder, {
        f"{folder}/METADATA": "\n".join(["Metadata-Version: 2.1", f"Name: {known['name']}", f"Version: {known['version']}",
                                         f"Summary: {known['description']}", f"License: {known['license']['text']}",
                                         f"Requires-Python: {known['requires-python']}", ""]).encode(),
        f"{folder}/WHEEL": f"Wheel-Version: 1.0\nGenerator: natukeri\nRoot-Is-Purelib: false\nTag: {TAG}\n".encode(),
        f"{folder}/entry_points.txt": "\n".join(points).encode(),
        f"{folder}/LICENSE": read_text(f"{TOP}/LICENSE").encode()}


def packed(library):
    """The files of a wheel by their names: the package, the modules that it takes from the tools, and the library."""
    found = [(f"natukeri/{os.path.basename(it)}", it) for it in [*glob.glob(f"{TOP}/python/natukeri/*.py"), f"{TOP}/python/natukeri/py.typed"]]
    found += [(f"nvmtools/{os.path.basename(it)}", it) for it in glob.glob(f"{TOP}/tools/nvmtools/*.py")]
    # (of which the words of a broken rule are)
    found.append(("nvmtools/docs/CONFIGURATION.md", f"{TOP}/docs/CONFIGURATION.md"))
    files = {}
    for name, path in [*sorted(found), ("natukeri/libnvm.so", library)]:
        with open(path, "rb") as file:
            files[name] = file.read()
    return files


def row(name, content):
    """A file's row of the list that each wheel has of itself."""
    return f"{name},sha256={base64.urlsafe_b64encode(hashlib.sha256(content).digest()).rstrip(b'=').decode()},{len(content)}\n"


def make_wheel(folder, library):
    """Makes a wheel with a library in a folder, and returns its path."""
    known = project()
    about, told = facts(known)
    files = {**packed(library), **told}
    files[f"{about}/RECORD"] = ("".join(row(*it) for it in files.items()) + f"{about}/RECORD,,\n").encode()
    path = f"{folder}/{known['name']}-{known['version']}-{TAG}.whl"
    with zipfile.ZipFile(path, "w", zipfile.ZIP_DEFLATED) as wheel:
        for name, content in files.items():
            entry = zipfile.ZipInfo(name, TIME)
            entry.external_attr, entry.compress_type = (0o100644 << 16), zipfile.ZIP_DEFLATED
            wheel.writestr(entry, content)
    return path
