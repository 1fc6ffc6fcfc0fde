"""Words over a shard that is stopped for them: bars, and what a kill of the word leaves."""
from __future__ import annotations

from collections.abc import Iterator

import pytest

from month.machine import wait_until
from month.stand import BOOK, Stand, now, stand

DONE = '{"Result-Code":2001}'


@pytest.fixture(scope="module", name="office")
def made() -> Iterator[Stand]:
    with stand() as office:
        for account in ("49151", "49152", "49153", "49154"):
            office.open(account, 1_000_000)
        yield office


def test_a_stolen_sim_is_barred_by_one_line(office: Stand) -> None:
    home = office.home("49151")
    told = office.machine.run("office bar 49151")
    assert told.stdout == f"{home} 49151 {DONE}\n"
    assert f"{home}: requests waited" in told.stderr
    assert office.ask("GET", "/accounts/49151")["Barred"] is True
    assert office.debit("49151", "barred")["Result-Code"] == 4010
    journal = "journalctl --no-pager -t office"
    wait_until(lambda: "bar 49151 in shard" in office.run(journal, None), "the journal")
    assert office.is_up(home)


def test_a_bar_that_stands_stops_nothing(office: Stand) -> None:
    told = office.machine.run("office bar 49151")
    assert told.stdout == f"{office.home('49151')} 49151 as before\n"
    assert told.stderr == ""


def test_a_bar_is_lifted(office: Stand) -> None:
    assert office.machine.run("office unbar 49151").stdout.endswith(f" 49151 {DONE}\n")
    assert office.debit("49151", "free")["Result-Code"] == 2001


def test_a_dry_run_changes_nothing(office: Stand) -> None:
    told = office.machine.run("office bar --dry-run 49151")
    assert told.stdout == f"{office.home('49151')} 49151 would be changed\n"
    assert office.ask("GET", "/accounts/49151")["Barred"] is False


def test_a_list_is_one_stop_a_shard(office: Stand) -> None:
    those = [str(at) for at in range(49300, 49308)]
    for account in those:
        office.open(account)
    office.machine.write("/tmp/list", "\n".join(those) + "\n")
    told = office.machine.run("office bar --list /tmp/list")
    assert told.stdout.count(DONE) == len(those)
    shards = {office.home(account) for account in those}
    assert told.stderr.count("requests waited") == len(shards)
    assert all(office.ask("GET", f"/accounts/{one}")["Barred"] for one in those)


def test_an_unknown_account_is_told_and_the_others_are_barred(office: Stand) -> None:
    told = office.machine.run("office bar 49152 770000", 1)
    assert "office" not in told.stdout and "770000" in told.stderr
    assert told.stdout.endswith(f" 49152 {DONE}\n")
    office.run("office bar abc", 2)
    office.run("office bar", 2)


def test_it_is_barred_while_the_doors_are_away(office: Stand) -> None:
    home = office.home("49153")
    office.run("systemctl stop haproxy")
    told = office.machine.run("office bar 49153")
    office.run("systemctl start haproxy")
    assert told.stdout == f"{home} 49153 {DONE}\n"
    wait_until(lambda: '"Barred":true' in office.asked("GET", "/accounts/49153"), "the doors")


SLOW = """#!/bin/sh
if [ "$1" = bar ]; then
    echo $$ > /run/slow
    exec sleep 3600
fi
exec /usr/local/bin/ocs-kept "$@"
"""


def test_a_kill_of_the_word_leaves_the_shard_up(office: Stand) -> None:
    home = office.home("49154")
    office.run("mv /usr/local/bin/ocs /usr/local/bin/ocs-kept; install -m 666 /dev/null /run/slow")
    office.machine.write("/usr/local/bin/ocs", SLOW)
    office.run("chmod 755 /usr/local/bin/ocs")
    word = office.started("office bar 49154")
    wait_until(lambda: office.run("cat /run/slow", None).strip() != "", "the word of the program")
    assert not office.is_up(home)
    office.kill(word)
    wait_until(lambda: office.is_up(home), "the start")
    office.run("kill -KILL $(cat /run/slow); mv /usr/local/bin/ocs-kept /usr/local/bin/ocs")
    assert office.ask("GET", "/accounts/49154")["Barred"] is False
    assert office.machine.run("office bar 49154").stdout.endswith(f" 49154 {DONE}\n")
    units = "systemctl --no-pager list-units"
    wait_until(lambda: "office-guard" not in office.run(units), "no guard")


def test_two_words_never_have_one_shard(office: Stand) -> None:
    home = office.home("49151")
    both = [office.machine.started(f"office {word} 49151") for word in ("bar", "bar", "bar")]
    told = [each.communicate(timeout=600)[0] for each in both]
    # A word that has waited for the lock for long enough is refused.
    assert all("49151" in each or "to itself" in each for each in told), told
    assert any(DONE in each for each in told)
    assert office.is_up(home)
    assert office.ask("GET", "/accounts/49151")["Barred"] is True
    office.run("office unbar 49151")


def test_a_shard_that_rested_starts_once_that_is_meant(office: Stand) -> None:
    long_ago = now() - 3 * 86_400
    office.run(
        f"systemctl stop ocs@03; rm /var/lib/ocs/03.*; cd /; run='runuser -u ocs -- ocs'; "
        f"$run init /var/lib/ocs/03.db /srv/ocs/{BOOK}; "
        f"$run open /var/lib/ocs/03.db 1 --at {long_ago}; systemctl start ocs@03",
        None,
    )
    told = office.machine.run("office up", 1)
    assert "03 isn't started: the clock is 3 days ahead" in told.stderr
    assert not [line for line in told.stdout.splitlines() if line.startswith("03 ")]
    # What a word would do has the clock's moment for good.
    why = "shard 03 isn't up, and the clock is 3 days ahead"
    assert why in office.machine.run("office migrate --shard 03", 1).stderr
    assert why in office.machine.run("systemctl stop ocs@03; office migrate --shard 03", 1).stderr
    told = office.machine.run("systemctl start ocs@03; office up --meant")
    assert "03 is started\n" in told.stdout and "03 answers\n" in told.stdout


def test_a_unit_that_serves_something_else_changes_nothing(office: Stand) -> None:
    before = office.run("cat /etc/haproxy/haproxy.cfg")
    office.run("cp /etc/ocs/office.toml /tmp/; echo 'first-port = 9100' >> /etc/ocs/office.toml")
    told = office.machine.run("office up", 1)
    office.run("cp /tmp/office.toml /etc/ocs/office.toml")
    assert (told.stdout, "ocs@01 lacks `--port 9101`" in told.stderr) == ("", True)
    assert office.run("cat /etc/haproxy/haproxy.cfg") == before


def test_up_goes_on_where_it_was_stopped(office: Stand) -> None:
    up = "office up --shard 02"
    assert "haproxy is up" in office.run(f"office up > /dev/null; {up}")
    office.run("printf '[waits]\\nidle = 74\\n' >> /etc/ocs/office.toml")
    office.run("office doors > /etc/haproxy/haproxy.cfg")
    assert "haproxy would be started, or read it" in office.run(f"{up} --dry-run")
    told = office.run(up)
    assert "haproxy.cfg: as before\n" in told and "the unit haproxy is reloaded" in told
    assert "haproxy is up" in office.run(up)


def test_a_shard_more_is_known_to_who_watches(office: Stand) -> None:
    units = "office-measures.service office-agent.socket office-agent.service"
    office.run(f"cd deploy && cp {units} /etc/systemd/system/ && systemctl daemon-reload")
    office.run("systemctl start office-measures office-agent.socket")
    measures = (
        "curl -sS --retry 40 --retry-connrefused --retry-delay 1 http://127.0.0.1:8405/metrics"
    )
    asked = "curl -sS http://127.0.0.1:8081/office/agent/shards"
    assert 'ocs_shard_up{shard="05"}' not in office.run(measures)
    assert '"shard":"05"' not in office.run(asked)
    office.run("sed -i 's/^more = .*/more = 1/' /etc/ocs/office.toml; office new-shard 05")
    office.run("office up", None)
    assert 'ocs_shard_up{shard="05"} 1' in office.run(measures)
    assert '"shard":"05"' in office.run(asked)
    office.run("systemctl stop office-measures")
    assert office.run("systemctl is-failed office-measures", None).strip() == "inactive"


def test_a_shard_ahead_of_the_clock_is_refused_before_it_is_stopped(office: Stand) -> None:
    home = office.home("49151")
    later = now() + 3_000_000
    office.run(
        f"systemctl stop ocs@{home}; runuser -u ocs -- ocs open /var/lib/ocs/{home}.db 1234 "
        f"--at {later}; office check --start {home} --meant; systemctl start ocs@{home}"
    )
    before = office.run(f"systemctl show -p MainPID ocs@{home}")
    told = office.machine.run("office bar 49151", 1)
    assert "ahead of this machine's clock" in told.stderr
    assert office.run(f"systemctl show -p MainPID ocs@{home}") == before
