"""Builds the programs that are measured, as x86-64 code."""

import kit
from counting import run

SOURCES = kit.ROOT / "host" / "perf"
SHARED = [SOURCES / "captures.c", SOURCES / "known.c", SOURCES / "lines.c"]
LINK = [SOURCES / "link.c", *SHARED]
LIBRARY = kit.ROOT / "target" / "staticlib" / "libpanel.a"
REFERENCE = kit.TARGET / "libreference.rlib"


def linked(name, *sources):
    """A program of C sources and the library."""
    program = kit.TARGET / name
    run([kit.ROOT / "host" / "build" / "program", program, *sources])
    return program


def library():
    """The program over the library."""
    return [linked("library", *LINK)]


def stack():
    """The program that tells what stack the library takes."""
    return linked("stack", SOURCES / "stack.c", *SHARED)


def reference():
    """The same program over the reference: its objects, linked once more."""
    words = [kit.rustc(), "--edition", "2021", "-C", "opt-level=3", "--target", kit.TRIPLE]
    face, program = kit.TARGET / "libface.a", kit.TARGET / "reference"
    run(
        [*words, "--crate-type", "rlib", "--crate-name", "reference", "-o", REFERENCE]
        + [kit.ROOT / "host" / "reference" / "src" / "lib.rs"]
    )
    run(
        [*words, "--crate-type", "staticlib", "--crate-name", "face", "-o", face]
        + ["--extern", f"reference={REFERENCE}", SOURCES / "reference.rs"]
    )
    objects = [kit.TARGET / f"library.{source.stem}.o" for source in LINK]
    run(
        [kit.proof_kit() / "bin" / "rattle-link", "--target", kit.TRIPLE, "--toolchain"]
        + [kit.proof_kit() / "toolchain", "-o", program, *objects, face]
    )
    return [program]


def libmodbus():
    """The program over libmodbus."""
    return [linked("libmodbus", SOURCES / "libmodbus.c"), kit.libmodbus()]
