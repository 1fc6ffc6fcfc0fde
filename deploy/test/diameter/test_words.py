"""The words of the command that the bridge has: kinds of groups from tariff books, and top-ups."""
from __future__ import annotations

import json
import os
import pathlib
import select
import subprocess
from collections.abc import Iterator
from typing import Any

import pytest
from diameter.bridge import CODES, Bridge, Office
from diameter.wire import RAR, Gateway, ccr, octets, seconds, service
from support.waiting import until
from support.world import BOOK, OFFICE, TOP

KINDS = {"10": "time", "20": "octets", "30": "events"}
PRINTED = "10 time\n20 octets\n30 events\n"


def named(office: Office, *more: str) -> None:
    """The office's file with a table of the bridges."""
    office.write(office.text + "[diameter]\n" + "".join(f"{line}\n" for line in more))


@pytest.fixture(autouse=True)
def as_it_was(office: Office) -> Iterator[None]:
    """The office's file is put back behind each test."""
    yield
    office.write(office.text)


@pytest.fixture
def units(office: Office, tmp_path: pathlib.Path) -> dict[str, str]:
    """An environment in which systemctl knows the first shard's process."""
    systemctl = tmp_path / "systemctl"
    systemctl.write_text(f"#!/bin/sh\necho {office.shards[1].pid}\n")
    systemctl.chmod(0o755)
    return os.environ | {"PATH": f"{tmp_path}:{os.environ['PATH']}"}


@pytest.mark.parametrize("words", [[BOOK], [BOOK, TOP / "examples/later-book.toml"], []])
def test_kinds_of_groups(office: Office, units: dict[str, str], words: list[Any]) -> None:
    """Of files, or of the shard that is served."""
    file = office.place / "groups.json"
    named(office, f'groups = "{file}"')
    file.unlink(missing_ok=True)
    told = office.office("diameter", *words, "--dry-run", env=units)
    assert told.returncode == 0, told.stderr
    assert set(PRINTED.splitlines()) <= set(told.stdout.splitlines()) and not file.exists()
    assert told.stderr == f"{file}: would be written\n"
    done = office.office("diameter", *words, env=units)
    assert (done.stdout, done.stderr) == (told.stdout, f"{file}: written\n")
    made = json.loads(file.read_text())
    assert {group: made[group] for group in KINDS} == KINDS
    before = file.stat().st_ino
    assert office.office("diameter", *words, env=units).stderr == f"{file}: as before\n"
    assert file.stat().st_ino == before


def test_the_bridge_reads_them(office: Office, starts: Any) -> None:
    file = office.place / "groups.json"
    named(office, f'groups = "{file}"')
    office.command("diameter", BOOK)
    gateway = Gateway(starts(office.doors["gateways"], units="#{}", groups=f'"{file}"').port)
    office.account("49800", 10**9)
    both = [*seconds(60), *octets(5)]
    answer = gateway.ask(ccr("kinds", 1, 0, service(10, both), account="49800"))
    assert answer.services[0]["Granted-Service-Unit"] == seconds(60)
    gateway.close()


def test_books_that_dont_follow(office: Office, tmp_path: Any) -> None:
    named(office, f'groups = "{tmp_path}/groups.json"')
    other = tmp_path / "other.toml"
    other.write_text(BOOK.read_text().replace('unit = "time"', 'unit = "events"'))
    told = office.office("diameter", BOOK, other)
    assert (told.returncode, told.stderr) == (1, "office: group 10 is in time and events\n")
    other.write_text("no book")
    assert office.office("diameter", other).returncode == 1
    assert office.office("diameter", tmp_path / "nowhere").returncode == 1
    assert not (tmp_path / "groups.json").exists()


def final(office: Office, bridge: Bridge, account: str) -> Gateway:
    """A gateway whose session of this account is at a final unit."""
    office.account(account, 300_000)
    gateway = Gateway(bridge.port)
    gateway.ask(ccr(f"final{account}", 1, 0, service(10, seconds(600)), account=account))
    return gateway


def test_top_ups_by_word(office: Office, bridge: Bridge) -> None:
    named(office, f'bridges = ["127.0.0.1:{bridge.watch}"]')
    gateway = final(office, bridge, "49801")
    assert office.command("credited", "49801", "49802") == "49801 1\n49802 0\n"
    assert len(gateway.asked(RAR)) == 1
    gateway.close()
    named(office, f'bridges = ["127.0.0.1:{bridge.watch}", "127.0.0.1:1"]')
    told = office.office("credited", "49801")
    assert told.returncode == 1 and "127.0.0.1:1 doesn't answer" in told.stderr
    wrong: list[list[str]] = [[], ["4980x"], ["49801", "--follow"]]
    for words in wrong:
        assert office.office("credited", *words).returncode == 2


def top_ups(office: Office) -> list[tuple[str, dict[str, Any]]]:
    """A credit, an allowance and a redemption, of an account each."""
    more: dict[str, Any] = {"Reference": "more"}
    code = CODES[office.shard("49812")]
    return [
        ("/accounts/49810/credits", {"Amount": 10**6} | more),
        ("/accounts/49811/allowances", {"Blocks": 5, "Scope": 10} | more),
        (f"/vouchers/{code}/redeem", {"Subscription-Id-Data": "49812"} | more),
    ]


def test_top_ups_of_the_doors_log(office: Office, bridge: Bridge) -> None:
    log = office.log
    text = office.text.replace("[haproxy]\n", f'[haproxy]\nlog = "{log}"\n')
    office.write(text + f'[diameter]\nbridges = ["127.0.0.1:{bridge.watch}"]\n')
    gateways = [final(office, bridge, account) for account in ("49810", "49811", "49812")]
    words = [str(OFFICE), "--file", str(office.file), "credited", "--follow"]
    with subprocess.Popen(words, stdout=subprocess.PIPE, text=True) as following:
        try:
            assert following.stdout

            # It follows once it tells of a first top-up.
            def follows() -> bool:
                body = {"Amount": 1, "Reference": f"probe{len(probes)}"}
                probes.append(office.script.ask("POST", "/accounts/49800/credits", body).status)
                return bool(select_ready(following))

            probes: list[int] = []
            office.account("49800")
            until(follows, "the first line")
            for path, body in top_ups(office):
                answer = office.script.ask("POST", path, body)
                assert answer.status == 200 and "Bucket" in answer.body, (path, answer)
            # What is refused isn't told of.
            office.script.ask("POST", "/accounts/4/credits", {"Amount": 1, "Reference": "x"})
            for gateway in gateways:
                assert len(gateway.asked(RAR)) == 1
        finally:
            following.kill()
    for gateway in gateways:
        gateway.close()


def select_ready(process: subprocess.Popen[str]) -> bool:
    """Whether a process has printed something, within a moment."""
    return bool(select.select([process.stdout], [], [], 0.2)[0])


def test_a_trace_of_the_bridges_lines(office: Office, bridge: Bridge) -> None:
    """`office trace` reads a file of lines of both: the doors' and the bridge's."""
    gateway = final(office, bridge, "49820")
    bridge.credited("49820")
    assert len(gateway.asked(RAR)) == 1
    until(lambda: '"what":"RAR","account":"49820"' in bridge.out.read_text(), "the line")
    joined = office.place / "joined"
    joined.write_text(office.log.read_text() + bridge.out.read_text())
    office.write(office.text.replace("[haproxy]\n", f'[haproxy]\nlog = "{joined}"\n'))
    told = office.command("trace", "49820", "-10 min")
    assert "gw.example at diameter: initial request 0 of session final49820: accepted" in told
    assert "gw.example at diameter: told to ask again for session final49820: accepted" in told
    assert "gateways at gateways: initial request 0 of session final49820: accepted" in told
    gateway.close()
