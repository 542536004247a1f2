"""Where things stand, and what a machine needs for the measurement."""

import os
import pathlib
import platform
import shutil
import subprocess
import sys

ROOT = pathlib.Path(__file__).resolve().parents[2]
TARGET = ROOT / "target" / "perf"
NATIVE = platform.machine() == "x86_64"
TRIPLE = "x86_64-unknown-linux-gnu"


def proof_kit():
    """The folder of the proof kit, which has a linker and a C library."""
    return pathlib.Path(shutil.which("rt")).resolve().parents[1]


def libmodbus():
    """The shared library, for x86-64 on every machine."""
    return pathlib.Path(
        os.environ.get("LIBMODBUS", "/usr/lib/x86_64-linux-gnu/libmodbus.so.5")
    )


def rustc():
    """A Rust compiler that can make x86-64 code, or None. Debian's may stand behind another."""
    for candidate in (os.environ.get("RUSTC"), "rustc", "/usr/bin/rustc"):
        if candidate and shutil.which(candidate):
            words = [candidate, "--print", "target-libdir", "--target", TRIPLE]
            asked = subprocess.run(words, capture_output=True, text=True, check=False)
            if asked.returncode == 0 and list(pathlib.Path(asked.stdout.strip()).glob("libstd-*")):
                return candidate
    return None


def missing():
    """What is missing, each with Debian's package that has it."""
    amd64 = "" if NATIVE else ":amd64"
    needs = [
        (shutil.which("rt"), "rt: the proof kit"),
        (shutil.which("cc"), "cc: gcc"),
        (shutil.which("readelf"), "readelf: binutils"),
        (libmodbus().exists(), f"{libmodbus()}: libmodbus5{amd64}"),
        (rustc(), f"a Rust compiler for {TRIPLE}: rustc, libstd-rust-dev{amd64}"),
    ]
    if NATIVE:
        needs.append((shutil.which("valgrind"), "valgrind: valgrind"))
    else:
        needs.append((shutil.which("qemu-x86_64"), "qemu-x86_64: qemu-user"))
    return [name for found, name in needs if not found]


def refuse_what_is_missing():
    """Ends with status 2 where something is missing; nothing is installed."""
    names = missing()
    if not names:
        return
    print("perf: missing here, with the package of Debian that has it:", file=sys.stderr)
    for name in names:
        print(f"  {name}", file=sys.stderr)
    if not NATIVE:
        print(
            "  (packages for amd64: dpkg --add-architecture amd64 && apt-get update)",
            file=sys.stderr,
        )
    sys.exit(2)
