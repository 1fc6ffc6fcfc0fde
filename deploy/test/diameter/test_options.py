"""What the configuration adds to the mapping, and what is read of it at a reload."""
from __future__ import annotations

import json
import pathlib
import subprocess
from collections.abc import Iterator
from typing import Any

import pytest
from diameter.bridge import MONDAY_10, SOURCE, Bridge, Office
from diameter.wire import Gateway, ccr, events, octets, seconds, service, subscriber
from support.world import BOOK

GSU = "Granted-Service-Unit"
RSU, USU = "Requested-Service-Unit", "Used-Service-Unit"
IMSI = [subscriber(1, "262011234567890"), subscriber(0, "49151")]
HINTS = """#{10 => #{holding_time => 300, threshold => 60}, 20 => #{threshold => 1000},
  30 => #{threshold => 5}}"""


def test_everything_set(office: Office, starts: Any) -> None:
    bridge = starts(
        office.doors["gateways"],
        default_groups='#{<<"32260@3gpp.org">> => 10, <<"32274@3gpp.org">> => 30}',
        subscribers="[imsi]",
        strict_mbit="false",
        failure_handling="0",
        hints=HINTS,
    )
    gateway = Gateway(bridge.port)
    office.account("262011234567890", 10**9)
    groups = [service(10, seconds(600)), service(20, octets(5000)), service(30, [])]
    answer = gateway.ask(ccr("c1", 1, 0, *groups, ((7777, 0), b"x"), subscription=IMSI))
    assert (answer.result, answer.get("Credit-Control-Failure-Handling")) == (2001, 0)
    names = ("Time-Quota-Threshold", "Volume-Quota-Threshold", "Unit-Quota-Threshold")
    told = [[each.get(name) for name in (*names, "Quota-Holding-Time")] for each in answer.services]
    assert told == [[60, None, None, 300], [None, 1000, None, None], [None] * 4]

    long, short = "ext.01.001.8.32260@3gpp.org", "32260@3gpp.org"
    beside = gateway.ask(ccr("c2", 1, 0, (RSU, seconds(60)), context=long, subscription=IMSI))
    assert (beside.result, beside.get(GSU), beside.get("Validity-Time")) == (
        2001,
        seconds(60),
        3600,
    )
    assert beside.services == []
    units = [(USU, seconds(60)), (RSU, seconds(30))]
    update = gateway.ask(ccr("c2", 2, 1, *units, context=short, subscription=IMSI))
    assert (update.result, update.get(GSU)) == (2001, seconds(30))
    parts = [(USU, [("Tariff-Change-Usage", 0), *seconds(10)]), (USU, seconds(10))]
    end = gateway.ask(ccr("c2", 3, 2, *parts, context=short, subscription=IMSI))
    assert end.result == 2001

    debit = [("Requested-Action", 0), (RSU, events(1))]
    message = gateway.ask(ccr("c3", 4, 0, *debit, context="32274@3gpp.org", subscription=IMSI))
    assert (message.result, message.get(GSU)) == (2001, events(1))
    none = gateway.ask(ccr("c4", 1, 0, (RSU, seconds(60)), subscription=IMSI))
    assert none.result == 5008
    default = service(None, seconds(60))
    taken = gateway.ask(ccr("c5", 1, 0, default, context=short, subscription=IMSI))
    assert (taken.result, taken.services[0]["Rating-Group"]) == (2001, 10)
    gateway.close()


def test_a_bar_is_seen_where_the_balance_is_read(office: Office, starts: Any) -> None:
    # Only a door of scripts or operators lets a balance be read.
    socket = '{local, "%s/office.sock"}' % office.place
    bridge = starts(0, office=socket, opening="balance")
    gateway = Gateway(bridge.port)
    office.account("49510", 10**6)
    assert gateway.ask(ccr("b1", 1, 0, account="49510")).result == 2001
    assert gateway.ask(ccr("b2", 1, 0, account="49511")).result == 5030
    office.bar("49510")
    assert gateway.ask(ccr("b3", 1, 0, account="49510")).result == 4010
    assert gateway.ask(ccr("b4", 1, 0, service(10, []), account="49510")).result == 4010
    gateway.close()


def tagged(office: Office, bridge: Bridge) -> tuple[int, int]:
    """Tariff-Time-Change of a grant that 20:00 of a Monday divides, and what 300 seconds before it and
    600 behind it cost."""
    gateway = Gateway(bridge.port)
    office.account("49700", 10**9)
    before = office.sums("49700")[3]
    name = f"t{office.moment}"
    answer = gateway.ask(ccr(name, 1, 0, service(10, seconds(3600)), account="49700"))
    tags = [[("Tariff-Change-Usage", tag), *seconds(count)] for tag, count in ((0, 300), (1, 600))]
    gateway.ask(ccr(name, 3, 1, service(10, None, tags), account="49700"))
    gateway.close()
    change = dict(answer.services[0][GSU])["Tariff-Time-Change"]
    return change, office.sums("49700")[3] - before


@pytest.fixture(scope="module")
def moving(
    tmp_path_factory: pytest.TempPathFactory, starts: Any
) -> Iterator[tuple[Office, Bridge]]:
    """An office whose clock goes on from test to test, and its bridge."""
    office = Office(tmp_path_factory.mktemp("moving"), MONDAY_10 + 35400)
    try:
        yield office.up(), starts(office.doors["gateways"])
    finally:
        office.end()


def test_tariff_time_change_counts_from_1900(moving: tuple[Office, Bridge]) -> None:
    """Ten minutes before 20:00 of a Monday."""
    assert tagged(*moving) == (1767643200 + 2208988800, 500_000 + 500_000)


TUESDAY_10 = MONDAY_10 + 86400


def test_a_later_book_within_a_session(moving: tuple[Office, Bridge]) -> None:
    """A grant is settled by the book of its moment, and the next one by the book that began since."""
    office, bridge = moving
    gateway = Gateway(bridge.port)
    office.moved(TUESDAY_10)
    office.account("49710", 10**9)
    sixty = service(10, seconds(60))
    assert gateway.ask(ccr("book", 1, 0, sixty, account="49710")).result == 2001
    office.moved(TUESDAY_10 + 600, BOOK.with_name("later-book.toml"), TUESDAY_10 + 60)
    update = service(10, seconds(60), [seconds(60)])
    assert gateway.ask(ccr("book", 2, 1, update, account="49710")).result == 2001
    old = office.sums("49710")[3]
    end = service(10, None, [seconds(60)])
    assert gateway.ask(ccr("book", 3, 2, end, account="49710")).result == 2001
    assert (old, office.sums("49710")[3] - old) == (100_000, 120_000)
    gateway.close()


@pytest.mark.slow
def test_tariff_time_change_behind_2036(tmp_path: pathlib.Path, starts: Any) -> None:
    """Half an hour before 20:00 of a Monday in 2038: the count has begun again."""
    office = Office(tmp_path / "office", 2147455800)
    try:
        bridge = starts(office.up().doors["gateways"])
        assert tagged(office, bridge) == (2147457600 + 2208988800 - 2**32, 500_000 + 500_000)
    finally:
        office.end()


def test_a_reload(office: Office, starts: Any, tmp_path: Any) -> None:
    groups = tmp_path / "groups.json"
    groups.write_text('{"10": "octets"}')
    bridge: Bridge = starts(office.doors["gateways"], units="#{}", groups=f'"{groups}"')
    gateway = Gateway(bridge.port)
    office.account("49520", 10**9)
    both = service(10, [*seconds(60), *octets(5)])
    assert gateway.ask(ccr("r1", 1, 0, both, account="49520")).result == 5004
    groups.write_text('{"10": "time"}')
    bridge.write(peers='["gw.example"]')
    bridge.reload()
    assert gateway.ask(ccr("r2", 1, 0, both, account="49520")).services[0][GSU] == seconds(60)
    assert Gateway(bridge.port, "gw2.example").cea.result == 3010
    # A file that can't be read changes nothing.
    groups.write_text("no JSON")
    assert bridge.process
    bridge.process.send_signal(1)
    assert gateway.ask(ccr("r3", 1, 0, both, account="49520")).services[0][GSU] == seconds(60)
    gateway.close()


WRONG = {
    "#{}.": "origin_host is missing",
    "#{origin_host => 5}.": "origin_host takes a name",
    "no term": "syntax error",
    "[].": "is one map",
    "#{in_flight => 0}.": "in_flight takes 1 to 100000 requests",
    "#{in_flihgt => 5}.": "in_flihgt is no key of this file",
    "#{listen => []}.": "listen takes",
    "#{listen => [#{ip => {127,0,0,1}, port => 3868, tls => #{}}]}.": "listen takes",
    "#{subscribers => [imsi, e164]}.": "subscribers takes",
    "#{subscribers => [e164 | sip]}.": "subscribers takes",
    "#{origin_realm => [300]}.": "origin_realm takes a name",
    '#{groups => "/nowhere"}.': "/nowhere",
    "#{hints => #{20 => #{hold => 1}}}.": "hints takes",
    "#{opening => maybe}.": "opening takes check or balance",
    '#{listen => [#{ip => {127,0,0,1}, port => 3868, tls => #{certfile => "a", keyfile => "b",'
    ' cacertfile => "c", crlfile => "/nowhere"}}]}.': "crlfile /nowhere",
    '#{listen => [#{ip => {127,0,0,1}, port => 3868, tls => #{certfile => "a", keyfile => "b",'
    ' cacertfile => "c", crlfile => "/etc/hostname"}}]}.': "isn't a revocation list",
}
NEEDED = {
    "origin_host": '"ocs.example"',
    "origin_realm": '"example"',
    "listen": "[#{ip => {127,0,0,1}, port => 3868}]",
    "office": "{{127,0,0,1}, 8080}",
}


def faulty(text: str, folder: pathlib.Path) -> pathlib.Path:
    """A file of this text, with the keys that are needed besides."""
    file = folder / "diameter.config"
    if text.startswith("#{") and text != "#{}.":
        more = [f"{key} => {value}" for key, value in NEEDED.items() if f"{key} =>" not in text]
        text = "#{" + ", ".join([*more, text[2:]])
    file.write_text(text)
    return file


def checked(home: pathlib.Path, file: pathlib.Path) -> tuple[int, str]:
    """The status of the command that only reads a file, and what it says."""
    ended = subprocess.run([home / "ocs-diameter", "--check", file], capture_output=True, text=True)
    return ended.returncode, ended.stderr


# One process that reads several files, and prints what it says of each.
TELL = """lists:foreach(fun(F) ->
    {error, Fault} = ocs_diameter_config:load(F),
    io:format("~s~n", [ocs_diameter_config:told(Fault)])
  end, init:get_plain_arguments()), halt()."""


def test_configurations_with_a_fault(home: pathlib.Path, tmp_path: pathlib.Path) -> None:
    files = []
    for at, text in enumerate(WRONG):
        (tmp_path / str(at)).mkdir()
        files.append(faulty(text, tmp_path / str(at)))
    words: list[Any] = ["erl", "-noinput", "-pa", home / "ebin", "-eval", TELL, "-extra", *files]
    told = subprocess.run(words, capture_output=True, text=True, check=True).stdout.splitlines()
    assert len(told) == len(WRONG)
    assert [line for line, wanted in zip(told, WRONG.values()) if wanted not in line] == []
    assert checked(home, files[0]) == (1, f"ocs-diameter: {files[0]}: {told[0]}\n")


@pytest.mark.slow
@pytest.mark.parametrize("text", WRONG)
def test_the_command_tells_of_a_fault(
    home: pathlib.Path, tmp_path: pathlib.Path, text: str
) -> None:
    file = faulty(text, tmp_path)
    status, told = checked(home, file)
    assert status == 1
    assert told.startswith(f"ocs-diameter: {file}: ") and WRONG[text] in told


@pytest.mark.parametrize("words, status", [(["--help"], 0), (["--chekc"], 2), (["a", "b"], 2)])
def test_words(home: Any, words: list[str], status: int) -> None:
    ended = subprocess.run([home / "ocs-diameter", *words], capture_output=True, text=True)
    assert ended.returncode == status and "usage: ocs-diameter" in ended.stdout + ended.stderr


def test_the_shown_configuration_is_read(home: Any) -> None:
    file = SOURCE / "diameter.config"
    assert checked(home, file) == (0, f"ocs-diameter: {file} is read\n")
    text = file.read_text()
    keys = json.loads(
        subprocess.run(
            ["erl", "-noinput", "-pa", home / "ebin", "-eval", ASK, "-extra", file],
            capture_output=True,
            text=True,
        ).stdout
    )
    assert [key for key in keys if f"{key} =>" not in text] == []


ASK = """ok = ocs_diameter_config:load(hd(init:get_plain_arguments())),
  io:format("~s", [jiffy:encode(maps:keys(ocs_diameter_config:get()))]), halt()."""
