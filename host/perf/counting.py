"""Counts x86-64 instructions inside functions of a program, those of the functions that they call
included. The kernel's are not counted, since a system call is one instruction."""

import os
import re
import subprocess

import kit

# A call instruction is two to seven bytes long. So a function that was called from an address has
# come back at the next instruction that stands less than eight bytes behind it.
LONGEST_CALL = 7


def run(command, **environment):
    """What a program prints; it has to end well."""
    words = [str(word) for word in command]
    done = subprocess.run(
        words, env={**os.environ, **environment}, capture_output=True, text=True, check=False
    )
    if done.returncode != 0:
        raise SystemExit(f"perf: {' '.join(words)}:\n{done.stdout}{done.stderr}")
    return done.stdout


def by_callgrind(program, functions):
    """Counted by valgrind's tool, on a machine that runs x86-64 code itself."""
    out = kit.TARGET / "callgrind.out"
    library = kit.proof_kit() / "toolchain" / "lib"
    toggles = [f"--toggle-collect={name}" for name in functions]
    printed = run(
        ["valgrind", "--tool=callgrind", "--collect-atstart=no", *toggles]
        + [f"--callgrind-out-file={out}", library / "ld-linux-x86-64.so.2"]
        + ["--library-path", library, *program]
    )
    totals = re.search(r"^totals: (\d+)$", out.read_text(), re.MULTILINE)
    return int(totals[1]) if totals else 0, printed


def executed(log):
    """The address of each instruction in an emulator's log of executed blocks."""
    with open(log, encoding="ascii", errors="replace") as lines:
        for line in lines:
            if line.startswith("Trace "):
                yield int(line.split("/", 2)[1], 16)


def inside(addresses, entries):
    """How many addresses are executed from an entry until the return behind its call."""
    count, before, called_from = 0, None, None
    for address in addresses:
        if called_from is None:
            if address in entries:
                called_from = before
                count += 1
        elif called_from < address <= called_from + LONGEST_CALL:
            called_from = None
        else:
            count += 1
        before = address
    if called_from is not None:
        raise SystemExit("perf: a counted function did not come back")
    return count


def by_emulator(program, functions):
    """Counted in the emulator's log, with blocks of one instruction each."""
    log = kit.TARGET / "trace.log"
    printed = run(
        [kit.ROOT / "host" / "build" / "run", *program],
        QEMU_ONE_INSN_PER_TB="1",
        QEMU_SINGLESTEP="1",
        QEMU_LOG="exec,nochain",
        QEMU_LOG_FILENAME=str(log),
    )
    places = dict(re.findall(r"^at (\w+) (\w+)$", printed, re.MULTILINE))
    count = inside(executed(log), {int(places[name], 16) for name in functions})
    log.unlink()
    return count, printed


def count(program, functions):
    """The instructions inside the functions in one run of a program, and what it printed."""
    return (by_callgrind if kit.NATIVE else by_emulator)(program, functions)


METHOD = "callgrind" if kit.NATIVE else "the emulator's log of executed instructions"
