"""The library for C: its archive as it is built, and where it is put with its header, a shared object and what pkg-config reads."""

import os
import shutil
import subprocess
import tempfile
from pathlib import Path

from lib.crates import TOP

CRATE = TOP / "crates/weklandu"
# The built archive: the one that the variable WEKLANDU_A names, or that of this checkout.
ARCHIVE = Path(os.environ.get("WEKLANDU_A") or CRATE / "out/libweklandu.a")
HEADERS = (TOP / "include/weklandu.h", TOP / "bindings/cpp/weklandu.hpp")
VERSION = "1.0.0"
# The end target of this machine, by the name that the kit's compiler has for it.
HOST = "x86_64-unknown-linux-gnu"
# The end target of 64-bit ARM.
ARM = "aarch64-unknown-linux-gnu"
# The name that a program keeps of the shared object: its number rises where a program has to be built anew.
SONAME = f"libweklandu.so.{VERSION.split('.', maxsplit=1)[0]}"
CONFIG = """prefix={prefix}
includedir=${{prefix}}/include
libdir=${{prefix}}/lib

Name: weklandu
Description: A compositor's machine whose pictures are proved
Version: {version}
Cflags: -I${{includedir}}
Libs: -L${{libdir}} -lweklandu
"""


class NoArchive(Exception):
    """There is no archive, and none could be built."""


def built(target=HOST):
    """Builds the archive for a `target`, with its proof, unless the variable WEKLANDU_A names one. Returns its path."""
    if "WEKLANDU_A" not in os.environ:
        words = ["rt", "lib"] + ["--target", target] * (target != HOST)
        done = subprocess.run(words, cwd=CRATE, capture_output=True, text=True, check=False)
        if done.returncode:
            raise NoArchive(done.stdout + done.stderr)
    if not ARCHIVE.is_file():
        raise NoArchive(f"{ARCHIVE}: is not there")
    return ARCHIVE


def compiler(target):
    """Returns the compiler of C for a `target`: the one that the variable CC names, or the usual one."""
    return os.environ.get("CC") or ("cc" if target == HOST else f"{cross(target)}gcc")


def cross(target):
    """Returns what the names of the tools of C begin with for another `target` than this machine's: its triple without the vendor."""
    parts = target.split("-")
    return "-".join([parts[0], *parts[2:]]) + "-"


def heap(target, folder):
    """Puts the objects with the three functions of the heap, over malloc, realloc and free, into a `folder`: for a `target` of this machine
    they are the kit's."""
    if target != HOST:
        own = [compiler(target), "-O2", "-fPIC", "-c", TOP / "tools/lib/heap.c", "-o", "heap.o"]
        subprocess.run(own, cwd=folder, check=True)
        return
    page = subprocess.run(["rt", "doc"], capture_output=True, text=True, check=True).stdout.strip()
    own = next((above / "c/liblibc_c.a" for above in Path(page).parents if (above / "c/liblibc_c.a").is_file()), None)
    if own is None:
        raise NoArchive("the kit's liblibc_c.a is not where `rt doc` leads to")
    subprocess.run(["ar", "x", own.resolve()], cwd=folder, check=True)


def put_libraries(archive, folder, target):
    """Writes into a `folder` one archive of the library for a `target` with its heap, and a shared object of the same."""
    archiver = "ar" if target == HOST else f"{cross(target)}ar"
    with tempfile.TemporaryDirectory() as scratch:
        subprocess.run([archiver, "x", archive.resolve()], cwd=scratch, check=True)
        heap(target, scratch)
        objects = sorted(Path(scratch).glob("*.o"))
        whole = folder / "libweklandu.a"
        whole.unlink(missing_ok=True)
        subprocess.run([archiver, "rcs", whole, *objects], check=True)
        put_shared(objects, folder, target)


def put_shared(objects, folder, target):
    """Writes into a `folder` the shared object of these `objects` for a `target` by its version, and links to it by its name of programs and
    of linkers."""
    shared = folder / f"libweklandu.so.{VERSION}"
    for old in folder.glob("libweklandu.so*"):
        old.unlink()
    subprocess.run([compiler(target), "-shared", f"-Wl,-soname,{SONAME}", "-o", shared, *objects], check=True)
    (folder / SONAME).symlink_to(shared.name)
    (folder / "libweklandu.so").symlink_to(SONAME)


def install(archive, prefix, target=HOST):
    """Puts headers, the `archive` for a `target`, its shared object and pkg-config's file below a folder, the `prefix`."""
    prefix = Path(prefix).resolve()
    for name in "include", "lib/pkgconfig":
        (prefix / name).mkdir(parents=True, exist_ok=True)
    for header in HEADERS:
        shutil.copy(header, prefix / "include")
    put_libraries(archive, prefix / "lib", target)
    (prefix / "lib/pkgconfig/weklandu.pc").write_text(CONFIG.format(prefix=prefix, version=VERSION), encoding="utf-8")
