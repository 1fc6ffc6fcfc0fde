"""A machine's clock in the hands of a test: Debian's faketime in front of each process that asks it.

Shards and words see a clock that stands at the moment that was set last, so that everything that is
answered between two settings has one moment. HAProxy's clock goes on from there, since its waits are
measured by it. Who was started before sees a new moment at its next look."""
from __future__ import annotations

import time

from month.machine import Machine
from support.ahead import FAKETIME

STANDS, GOES_ON = "/run/clock-stands", "/run/clock-goes-on"
ENVIRONMENT = [
    *(f"{name}={value}" for name, value in FAKETIME.items()),
    f"FAKETIME_TIMESTAMP_FILE={STANDS}",
    "FAKETIME_FMT=%s",
    "FAKETIME_NO_CACHE=1",
    # No word goes by a file's time, and SQLite asks for one's size all the time.
    "NO_FAKE_STAT=1",
]
# Python sleeps until a moment of the clock of waits, which faketime takes for one of the other clock.
SLEEP = (
    "import select, time; "
    "time.sleep = lambda seconds, wait=select.select: wait([], [], [], seconds) and None\n"
)
# HAProxy's watchdog is a signal in the middle of anything, and asks the clock: in the middle of faketime's
# own look at it that would wait for itself for good.
NO_WATCH = "SystemCallFilter=~timer_create\\nSystemCallErrorNumber=EPERM\\n"
SET_UP = f"""
set -e
printf '[Service]\\nEnvironment=FAKETIME_TIMESTAMP_FILE={GOES_ON}\\n{NO_WATCH}' > /run/clock.conf
install -D -m 644 /run/clock.conf /etc/systemd/system/haproxy.service.d/clock.conf
systemctl daemon-reload
systemctl set-environment {' '.join(ENVIRONMENT)}
"""


class Clock:
    """The clock of a machine, which stands."""

    def __init__(self, made: Machine, moment: int) -> None:
        self.machine, self.now = made, moment
        made.write("$(python3 -c 'import site; print(site.getsitepackages()[0])')/clock.pth", SLEEP)
        self.set(moment)
        made.run(SET_UP)
        made.environment = ENVIRONMENT

    def set(self, moment: int) -> None:
        """Sets it: never back, but for those who want to see what becomes of it."""
        self.now = moment
        lines = {STANDS: str(moment), GOES_ON: f"+{moment - int(time.time())}"}
        for path, line in lines.items():
            self.machine.write(f"{path}.new && chmod 644 {path}.new && mv {path}.new {path}", line)
