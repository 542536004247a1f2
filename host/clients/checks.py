"""Counting of checks, runs of a program, the simulator as a process that never outlives them, and
what it shows of an exchange."""

import contextlib
import select
import subprocess
import tempfile
import time

from rkc_host import Host, open_port

START_SECONDS = 5
STEP_SECONDS = 5
END_SECONDS = 5


class Checks:
    """Prints a line for each check and counts."""

    def __init__(self):
        self.passed = 0
        self.failed = 0
        self.client = ""

    def same(self, name, got, expected):
        """Passes where what was got is what was expected."""
        if got == expected:
            self.passed += 1
            print(f"ok      {self.client}: {name}", flush=True)
        else:
            self.fail(name, f"got {got!r}, expected {expected!r}")

    def fail(self, name, why):
        self.failed += 1
        print(f"FAILED  {self.client}: {name}: {why}", flush=True)

    @contextlib.contextmanager
    def of(self, client):
        """The checks of one client. What breaks off is one failed check, and the next goes on."""
        self.client = client
        try:
            yield
        except Exception as broken:  # pylint: disable=broad-except
            self.fail("breaks off", f"{type(broken).__name__}: {broken}")

    def total(self):
        print(f"{self.passed} passed, {self.failed} failed", flush=True)


def run_once(command, words):
    """A run that ends at once: its status, standard output and standard error."""
    done = subprocess.run(
        [*command, *words],
        stdin=subprocess.DEVNULL,
        capture_output=True,
        text=True,
        timeout=STEP_SECONDS,
        check=False,
    )
    return done.returncode, done.stdout, done.stderr


class Simulator:
    """A simulator that is ready and runs. `port` is the name of its line; `shown`, a file, takes
    what it shows."""

    def __init__(self, command, *words, shown=None):
        self.process = subprocess.Popen(
            [*command, *words],
            stdin=subprocess.DEVNULL,
            stdout=subprocess.PIPE,
            stderr=shown,
            text=True,
        )
        try:
            self.port = self.first_line()
        except BaseException:
            self.end()
            raise

    def first_line(self):
        """The name of its line, which it prints when it is ready."""
        ready, _, _ = select.select([self.process.stdout], [], [], START_SECONDS)
        name = self.process.stdout.readline().strip() if ready else ""
        if not name:
            raise RuntimeError("the simulator does not start")
        return name

    def __enter__(self):
        return self

    def __exit__(self, *_):
        self.end()

    def wait(self):
        """The status with which it ends by itself. It is made to end where it doesn't."""
        try:
            return self.process.wait(END_SECONDS)
        except subprocess.TimeoutExpired:
            self.process.kill()
            return self.process.wait()
        finally:
            self.process.stdout.close()

    def end(self):
        """The status with which it ends when asked to."""
        self.process.terminate()
        return self.wait()


def exchange(command, words, parts, count, gap_seconds=0):
    """A simulator of its own is sent these parts, with a gap between them. As many bytes of its
    answers as asked for, and the lines that it shows."""
    with tempfile.TemporaryFile("w+") as shown:
        with Simulator(command, *words, "-v", shown=shown) as simulator:
            with contextlib.closing(Host(open_port(simulator.port))) as host:
                for place, part in enumerate(parts):
                    time.sleep(gap_seconds if place > 0 else 0)
                    host.send_bytes(part)
                heard = host.hear_bytes(count)
        shown.seek(0)
        return heard, shown.read().splitlines()
