"""libnvm.a and libnvm.so: the proved exports of crates/nvm_c, the standard's services over them, and what both call of the kit's archive."""
import glob
import os
import shutil
import subprocess
import tempfile

from nvmtools.calls import TOP, Stop

ARCHIVE = f"{TOP}/crates/nvm_c/out/libnvm_c.a"
# where they stand in this repository, for programs that take them from here, as the package for Python does
MADE = f"{TOP}/.cache/lib"
# raised where a name of the libraries for C goes, or means something else
VERSION = 0
EXPORTS = f"LIBNVM_{VERSION} {{\n    global: nvm_*; NvM_*; MemIf_*; Fee_*; Fls_*;\n    local: *;\n}};\n"


def run(*given, **more):
    ran = subprocess.run(given, stdout=subprocess.PIPE, stderr=subprocess.STDOUT, text=True, **more)
    if ran.returncode:
        raise Stop(f"{' '.join(given)[:80]}: {ran.returncode}\n{ran.stdout[-2000:]}", 4)
    return ran.stdout


def sources():
    return sorted(glob.glob(f"{TOP}/c/shim/*.c"))


def make_libraries(archive, kit, lib, scratch):
    """Makes both in the folder lib, of the archive of nvm_c and the kit's own."""
    parts = [archive, f"{kit}/c/liblibc_c.a"]
    shim, below = f"{scratch}/services.o", f"{scratch}/below.o"
    # (the modules below are an object of their own: a unit that has another Fee doesn't link them)
    for made in (shim, below):
        taken = [it for it in sources() if (os.path.basename(it) == "below.c") == (made == below)]
        run("gcc", "-std=c99", "-O2", "-fPIC", "-r", "-nostdlib", f"-I{TOP}/c", f"-I{TOP}/c/std", *taken, "-o", made)
    os.makedirs(lib, exist_ok=True)
    run("ar", "-M", input="\n".join([f"CREATE {lib}/libnvm.a", *(f"ADDLIB {it}" for it in parts), f"ADDMOD {shim}", f"ADDMOD {below}", "SAVE", "END", ""]))
    run("ranlib", f"{lib}/libnvm.a")
    with open(f"{scratch}/exports", "w", encoding="utf-8") as file:
        file.write(EXPORTS)
    name = f"libnvm.so.{VERSION}"
    run("gcc", "-shared", "-o", f"{lib}/{name}", f"-Wl,-soname,{name}", f"-Wl,--version-script={scratch}/exports", shim, below,
        "-Wl,--whole-archive", archive, "-Wl,--no-whole-archive", parts[1])
    os.symlink(name, f"{lib}/libnvm.so")


def bring_up_to_date(kit):
    """The shared library of this repository, which is made anew where it is older than the archive or a source in C."""
    if not os.path.exists(ARCHIVE):
        raise Stop(f"{ARCHIVE} isn't there: tools/dev/try_c --build makes it", 4)
    made = f"{MADE}/libnvm.so"
    taken = [ARCHIVE, *sources(), *glob.glob(f"{TOP}/c/*.h"), *glob.glob(f"{TOP}/c/shim/*.h")]
    if not os.path.exists(made) or any(os.path.getmtime(it) > os.path.getmtime(made) for it in taken):
        shutil.rmtree(MADE, ignore_errors=True)
        with tempfile.TemporaryDirectory() as scratch:
            make_libraries(ARCHIVE, kit, MADE, scratch)
    return made
