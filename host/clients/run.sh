#!/bin/sh
# Tries real clients on the simulator: run.sh COMMAND.., the words that start it. The program
# panel-playback stands beside it. A line for each check; the last line is `N passed, M failed`, and
# the status is not 0 where a check failed.
set -u

# All checks together take a fraction of this; it ends a run in which something hangs.
limit_seconds=110

missing() {
    echo "missing: $1"
    echo "0 passed, 1 failed"
    exit 1
}

# Another python3 may come before the one of the system, which is the one that has the packages.
python=
for candidate in python3 /usr/bin/python3; do
    if "$candidate" -c 'import pymodbus.client' 2>/dev/null; then
        python=$candidate
        break
    fi
done
[ -n "$python" ] || missing 'a python3 with pymodbus (python3-pymodbus, python3-serial-asyncio)'
command -v mbpoll >/dev/null || missing 'mbpoll'
command -v "$1" >/dev/null || missing "$1"

# In the foreground, so that an interrupt from the keyboard reaches it.
exec timeout --foreground --kill-after=5 "$limit_seconds" "$python" -B "$(dirname "$0")/all.py" "$@"
