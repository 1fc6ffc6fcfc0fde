"""`office up` on a machine of two, before and after Pacemaker is up there; systemd's word stands still."""
from __future__ import annotations

import pathlib

from machines.office import TWO, file, on

MORE = '[haproxy]\nuser = ""\nsockets = "/mnt"\nfile = "/mnt/haproxy.cfg"\n[cluster]'
# What systemd says of a unit: Pacemaker's state is told, all others aren't up.
SYSTEMCTL = """\
mkdir /mnt/bin
cat > /mnt/bin/systemctl <<'END'
#!/bin/sh
echo "$@" >> /mnt/asked
case "$*" in *ActiveState*pacemaker) echo {pacemaker} ;; *ActiveState*) echo inactive ;; esac
END
chmod 755 /mnt/bin/systemctl
PATH=/mnt/bin:$PATH
"""
UP = "timeout 10 $office --file {file} up; echo status $?"
ASKED = "\ngrep haproxy /mnt/asked | grep -v ^show"


def told(place: pathlib.Path, pacemaker: str, more: str = "") -> list[str]:
    """What the word says while systemd says this of Pacemaker, and then what more lines print."""
    path = file(place, TWO, "[cluster]", MORE)
    lines = SYSTEMCTL.format(pacemaker=pacemaker) + UP.format(file=path) + more
    return on("m1", lines).splitlines()


def test_no_shard_is_asked_before_pacemaker_is_up(tmp_path: pathlib.Path) -> None:
    assert told(tmp_path, "inactive") == [
        "/mnt/haproxy.cfg: written",
        "01 isn't up here: Pacemaker starts it where its disk is",
        "02 isn't up here: Pacemaker starts it where its disk is",
        "the unit haproxy is started",
        "Pacemaker isn't up on this machine: no shard is asked",
        "status 0",
    ]


def test_shards_are_asked_once_it_is(tmp_path: pathlib.Path) -> None:
    found = told(tmp_path, "active")
    # Nobody answers here: the word is ended while it asks.
    assert "the unit haproxy is started" in found and "status 124" in found, found


def test_haproxy_is_started_and_not_enabled(tmp_path: pathlib.Path) -> None:
    found = told(tmp_path, "inactive", ASKED)
    assert found[-2:] == ["status 0", "restart haproxy"], found
