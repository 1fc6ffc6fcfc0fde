"""The page beside the real agent under systemd, by its socket's unit and within its limits, behind the
doors of HAProxy, in a copy of this machine: each task ends in the agent's own answer."""
from __future__ import annotations

import itertools
import pathlib
import re
import time
from collections.abc import Iterator
from typing import Any

import pytest
from month.machine import wait_until
from support.callers import debit
from support.waiting import until

from console.behind import behind, rows_of
from console.person import Person
from console.pictures import taken
from console.stood import ACCOUNT, CODES, COUNTER, DESK, OF_CODES, OPERATORS, Desk, stood
from console.test_shown import money, utc

pytestmark = pytest.mark.slow

SECONDS = "%Y-%m-%d %H:%M:%S"
MONTH = time.strftime("%Y%m", time.gmtime())
FREE, NUMBERS = iter(CODES), itertools.count(50000, 1000)
ID = re.compile(r"\(request ([0-9a-f]{8})\)")
# Where the program stands still once it was asked for a bar, so that the agent is killed there.
SLOW = """#!/bin/sh
[ "$1" = bar ] && test -e /run/slow && { touch /run/there; sleep 61; }
exec /usr/local/bin/ocs-kept "$@"
"""


@pytest.fixture(scope="module")
def desk() -> Iterator[Desk]:
    """The office in a copy of this machine."""
    with stood() as one:
        yield one


def at_the_page(
    desk: Desk, port: int, name: str = "", *, has_tls: bool = False
) -> Iterator[Person]:
    """Somebody against whom the browser has nothing at the end."""
    one = desk.person(port, name, has_tls=has_tls)
    try:
        yield one
        assert one.faults() == []
    finally:
        one.end()


@pytest.fixture(scope="module")
def ada(desk: Desk) -> Iterator[Person]:
    """An operator, by her certificate over TLS."""
    yield from at_the_page(desk, OPERATORS, has_tls=True)


@pytest.fixture(scope="module")
def rosa(desk: Desk) -> Iterator[Person]:
    """A revenue officer, by name and password."""
    yield from at_the_page(desk, OPERATORS, "rosa")


@pytest.fixture(scope="module")
def operator(desk: Desk) -> Iterator[Person]:
    """An operator of the machine."""
    yield from at_the_page(desk, DESK)


@pytest.fixture(scope="module")
def shop(desk: Desk) -> Iterator[Person]:
    """A shop of the machine."""
    yield from at_the_page(desk, COUNTER)


@pytest.fixture(params=["keys", "pointer"])
def way(request: pytest.FixtureRequest, ada: Person, rosa: Person, shop: Person) -> Iterator[str]:
    """How the page is used."""
    for person in (ada, rosa, shop):
        person.way = request.param
    yield request.param
    for person in (ada, rosa, shop):
        person.way = "pointer"


def line_of(desk: Desk, person: Person) -> dict[str, Any]:
    """The agent's line of the answer that the page shows."""
    found = ID.search(person.outcome())
    assert found, person.outcome()
    wanted = found[1]

    def lines() -> list[dict[str, Any]]:
        return [one for one in desk.lines() if one["id"].startswith(wanted) and "status" in one]

    wait_until(lambda: bool(lines()), f"the agent's line of {wanted}")
    return lines()[-1]


def told_of(desk: Desk, account: str = ACCOUNT) -> Any:
    """What the agent answers of an account."""
    return desk.told(f"account/{account}?month={MONTH}")


def test_she_comes_by_her_certificate(ada: Person) -> None:
    behind(ada, ACCOUNT)
    assert ada.text("#who") == "ada, operator"
    assert ada.value("location.protocol") == "https:"
    wanted = ["Credit", "Allowance", "Voucher", "Price", "Bar"]
    assert ada.texts('[role="tab"]') == wanted
    assert ada.text("#agent-none") == ""


def test_the_agent_is_within_its_unit(desk: Desk, ada: Person) -> None:
    """What answers the page is the unit's process: started by its socket, with its limits."""
    behind(ada, ACCOUNT)
    run = desk.office.run
    shown = run("systemctl show office-agent --property MainPID,ActiveState,TriggeredBy,User")
    words = dict(line.split("=", 1) for line in shown.split())
    assert words["ActiveState"] == "active" and words["TriggeredBy"] == "office-agent.socket"
    status = run(f"cat /proc/{words['MainPID']}/status")
    found = dict(re.findall(r"^(\w+):\s+(\S+)", status, re.M))
    assert (found["NoNewPrivs"], found["Seccomp"], found["Uid"]) == ("1", "2", "0")
    # CAP_CHOWN, DAC_OVERRIDE, DAC_READ_SEARCH, FOWNER, KILL, SETGID, SETUID, and no other.
    assert int(found["CapBnd"], 16) == 0b11101111
    assert run("stat -c '%a %U %G' /run/ocs-agent/socket").split() == ["660", "root", "haproxy"]
    last = [one for one in desk.lines() if one["what"].startswith("GET /office/agent/account/")]
    assert last[-1]["who"] == "ada"


def test_what_is_open_and_what_it_holds(desk: Desk, ada: Person) -> None:
    behind(ada, ACCOUNT)
    wanted = []
    for one in told_of(desk)["sessions"]:
        for group in one["groups"]:
            held = [
                f"allowance {row['bucket']}: {row['amount']} blocks".replace("1 blocks", "1 block")
                if row["is_blocks"]
                else f"bucket {row['bucket']}: {money(row['amount'])}"
                for row in group["held"]
            ]
            times = [utc(one[name], SECONDS) for name in ("touched", "ends")]
            numbers = [str(group["rating_group"]), f"{group['used']:,}"]
            wanted.append([one["session"], *times, *numbers, ", ".join(held), "End"])
    assert rows_of(ada, "[data-part='open sessions']") == wanted
    assert len(wanted) == 1 and wanted[0][0] == "voice-1" and wanted[0][5]


def test_what_covered_a_charge(desk: Desk, ada: Person) -> None:
    behind(ada, ACCOUNT)
    found = told_of(desk)["charges"]
    rows = [row for row in rows_of(ada, "#charges") if re.match(r"\d\d:", row[0])]
    wanted = sorted(
        [utc(one["moment"], "%H:%M:%S"), str(one["rating_group"]), str(one["covered"] or "")]
        for one in found
    )
    assert sorted([row[0], row[1], row[3]] for row in rows) == wanted
    assert sum(one["covered"] for one in found) == 6


def test_a_session_is_ended(desk: Desk, ada: Person, way: str) -> None:
    account = desk.new(next(NUMBERS), "01")
    initial = debit(account, f"call-{way}") | {"CC-Request-Type": 1}
    del initial["Requested-Action"]
    assert desk.office.ask("POST", "/ccr", initial)["Result-Code"] == 2001
    assert desk.office.ask("GET", f"/accounts/{account}")["Buckets"][0]["Reserved"] > 0
    time.sleep(1.1)
    behind(ada, account)
    assert [row[0] for row in rows_of(ada, "[data-part='open sessions']")] == [f"call-{way}"]
    before = ada.counted("done")
    ada.push("[data-part='open sessions'] button")
    ada.is_counted("done", before)
    assert ada.outcome().startswith(f"Ended session call-{way}")
    assert desk.office.ask("GET", f"/accounts/{account}")["Buckets"][0]["Reserved"] == 0
    time.sleep(1.1)
    behind(ada, account)
    assert "No open sessions." in ada.texts("#agent-parts p")


def test_a_stolen_sim_is_barred_and_unbarred(desk: Desk, ada: Person, way: str) -> None:
    account = desk.new(next(NUMBERS), "02")
    behind(ada, account)
    for word, is_barred in (("Bar", True), ("Unbar", False)):
        ada.tab("bar")
        assert ada.text("#bar-button") == word
        said = ada.send("bar")
        line = line_of(desk, ada)
        wanted = {"who": "ada", "account": account, "changed": True, "status": 200}
        assert {name: line[name] for name in wanted} == wanted
        assert said.startswith(f"{word}red; others of its shard waited {line['waited']} seconds")
        assert desk.office.ask("GET", f"/accounts/{account}")["Barred"] is is_barred
        assert ada.is_seen("#barred") is is_barred
        if is_barred:
            assert desk.office.debit(account, f"after-{way}")["Result-Code"] == 4010
        until(lambda: ada.is_seen("#tab-bar"), "the tab of bars")


def test_why_she_was_refused(desk: Desk, operator: Person) -> None:
    """The lines of the journal: a refusal at a second, by whom, and its id."""
    account = desk.new(next(NUMBERS), "03")
    assert desk.office.debit(account, "much", 10**7)["Result-Code"] == 4012
    desk.office.logs('"code":"4012"')
    behind(operator, account)
    shown = rows_of(operator, "[data-part=lines]")
    wanted = [
        [utc(int(one["moment"]), SECONDS), one["who"], one["asked"], one["answered"], one["id"][:8]]
        for one in reversed(told_of(desk, account)["lines"])
        if not (one["asked"].startswith("reading ") and one["answered"] == "answered")
    ]
    assert shown == wanted
    refused = [row for row in shown if "(4012)" in row[3]]
    assert len(refused) == 1 and refused[0][1] == "scripts"


@pytest.mark.parametrize("who", ["ada", "shop"])
def test_a_voucher_of_another_shard(
    desk: Desk, request: pytest.FixtureRequest, way: str, who: str
) -> None:
    person: Person = request.getfixturevalue(who)
    account, code = desk.new(next(NUMBERS), "04", 0), next(FREE)
    if who == "ada":
        behind(person, account)
    else:
        person.show(account)
    person.tab("redeem")
    person.fill("redeem", code=code)
    assert person.send("redeem").startswith("Redeemed the voucher as bucket 1")
    line = line_of(desk, person)
    name = "ada" if who == "ada" else "counter"
    wanted = {"who": name, "account": account, "shard": "04", "Bucket": 1, "status": 200}
    assert {each: line[each] for each in wanted} == wanted
    assert person.again().startswith("Redeemed the voucher as bucket 1")
    buckets = desk.office.ask("GET", f"/accounts/{account}")["Buckets"]
    assert [one["Credited"] for one in buckets] == [5_000_000]
    assert person.text("#available") == "5.00"


def test_books_that_hold_and_come(desk: Desk, ada: Person) -> None:
    ada.show("office")
    shelf = desk.told("books")["shelves"]
    assert len(shelf) == 1
    wanted = []
    for book in shelf[0]["books"]:
        for group in book["groups"]:
            numbers = [str(group["rating_group"]), group["unit"], f"{group['block']:,}"]
            wanted += [[*numbers, group["cycle"], one["period"]] for one in group["prices"]]
    assert [row[:5] for row in rows_of(ada, "#books-parts")] == wanted
    titles = ada.texts("#books-parts h3")
    assert titles[0] == "Holds"
    assert titles[1] == f"Comes from {shelf[0]['books'][1]['starts_shown']}"


def test_a_book_is_tried(desk: Desk, rosa: Person) -> None:
    rosa.show("office")
    rosa.file("#trial [name=file]", pathlib.Path("/srv/ocs/examples/later-book.toml"))
    start = time.strftime("%Y-%m-%dT00:00", time.gmtime(time.time() + 40 * 86400))
    rosa.value(f"document.querySelector('#trial [name=from]').value = '{start}'")
    before = rosa.counted("done")
    rosa.push("#trial button.main")
    rosa.is_counted("done", before)
    said = f"The book may follow from ... {start.replace('T', ' ')} "
    assert re.match(said, rosa.text("#trial-done")), rosa.text("#trial-done")
    assert len(rows_of(rosa, "#trial-parts")) > 20


def test_vouchers_are_checked(desk: Desk, rosa: Person) -> None:
    rosa.show("office")
    rosa.file("#check [name=file]", pathlib.Path("/tmp/vouchers.csv"))
    before = rosa.counted("done")
    rosa.push("#check button.main")
    rosa.is_counted("done", before)
    said = f"20 codes: 0 new, 20 there already. Shard {OF_CODES} would get them."
    assert rosa.text("#check-done") == said


def test_the_sums(desk: Desk, rosa: Person) -> None:
    rosa.show(f"office/{MONTH}")
    rows = desk.told(f"sums?month={MONTH}")["charges"]
    shown = rows_of(rosa, "[data-part='charges by shard']")
    by_shard = {
        shard: sum(row["collected"] for row in rows if row["shard"] == shard)
        for shard in dict.fromkeys(row["shard"] for row in rows)
    }
    assert {row[0]: row[5] for row in shown} == {one: money(sum_) for one, sum_ in by_shard.items()}
    figure = "document.querySelector('#sums-figures [data-figure=Collected]').textContent"
    assert rosa.value(figure) == money(sum(by_shard.values())) != "0.00"
    assert rosa.value("document.querySelectorAll('#sums-chart rect').length") >= 1


def test_the_shards_and_their_units(desk: Desk, rosa: Person) -> None:
    rosa.show("office")
    shown = rows_of(rosa, "#shards-parts")
    assert [row[0] for row in shown] == ["01", "02", "03", "04"]
    assert {row[1] for row in shown} == {"active"} and all(row[2] != "no" for row in shown)
    desk.office.run("systemctl stop ocs@03")
    try:
        rosa.show("office")
        row = rows_of(rosa, "#shards-parts")[2]
        assert (row[0], row[1], row[2]) == ("03", "inactive", "no")
    finally:
        desk.office.run("systemctl start ocs@03")


def test_who_only_reads_is_offered_nothing(desk: Desk, rosa: Person) -> None:
    behind(rosa, ACCOUNT)
    assert not rosa.is_seen("#do") and rows_of(rosa, "[data-part='open sessions']")
    before = rosa.counted("done")
    rosa.value("sendBar()")
    rosa.is_counted("done", before)
    assert "rosa may not do that here (403)" in rosa.outcome() + rosa.told()
    assert desk.office.ask("GET", f"/accounts/{ACCOUNT}")["Barred"] is False


@pytest.fixture
def slow(desk: Desk) -> Iterator[None]:
    """The program stands still where it is asked for a bar."""
    desk.office.run("mv /usr/local/bin/ocs /usr/local/bin/ocs-kept")
    desk.office.machine.write("/usr/local/bin/ocs", SLOW)
    desk.office.run("chmod 755 /usr/local/bin/ocs; rm -f /run/there; touch /run/slow")
    yield
    desk.office.run("mv /usr/local/bin/ocs-kept /usr/local/bin/ocs")


def test_the_agent_is_killed_in_the_middle_of_a_bar(desk: Desk, ada: Person, slow: None) -> None:
    """The page has no answer, systemd starts the agent and the shard, and the same again bars her."""
    account = desk.new(next(NUMBERS), "01")
    behind(ada, account)
    ada.tab("bar")
    before = ada.counted("done")
    ada.push("#bar button.main")
    wait_until(
        lambda: desk.office.machine.run("test -e /run/there", None).returncode == 0, "the bar"
    )
    desk.office.run("systemctl kill --kill-whom=main -s KILL office-agent; rm /run/slow")
    ada.is_counted("done", before)
    # HAProxy says 502, or lets a browser whose connection it has kept ask again by itself.
    if ada.outcome().startswith("No answer."):
        assert ada.texts("#unanswered span") == [f"Bar for account {account}"]
        wait_until(lambda: desk.office.is_up("01"), "the shard")
        ada.again()
    assert ada.outcome().startswith("Barred; others of its shard waited")
    assert not ada.is_seen("#waiting") and desk.office.is_up("01")
    begins = [one for one in desk.lines() if one["what"].endswith(f"/bar/{account}")]
    assert ["begins" in one for one in begins] == [True, True, False]
    assert desk.office.ask("GET", f"/accounts/{account}")["Barred"] is True


def begun(desk: Desk) -> int:
    """How many redemptions the agent has begun."""
    return sum("begins" in one and one["what"].endswith("/redeem") for one in desk.lines())


@pytest.mark.parametrize("who", ["ada", "shop"])
def test_the_agent_is_killed_with_a_voucher_in_its_hands(
    desk: Desk, request: pytest.FixtureRequest, who: str
) -> None:
    """Its code's shard stands still meanwhile, so that the agent waits for it."""
    person: Person = request.getfixturevalue(who)
    account, code = desk.new(next(NUMBERS), "03", 0), next(FREE)
    if who == "ada":
        behind(person, account)
    else:
        person.show(account)
    person.tab("redeem")
    person.fill("redeem", code=code)
    before, many = person.counted("done"), begun(desk)
    desk.office.run(f"systemctl kill -s STOP ocs@{OF_CODES}")
    try:
        person.push("#redeem button.main")
        wait_until(lambda: begun(desk) > many, "its beginning")
        time.sleep(0.5)
        desk.office.run("systemctl kill --kill-whom=main -s KILL office-agent")
        person.is_counted("done", before)
        assert person.outcome().startswith("No answer.")
    finally:
        desk.office.run(f"systemctl kill -s CONT ocs@{OF_CODES}")
    for _ in range(2):
        assert person.again().startswith("Redeemed the voucher as bucket 1")
    buckets = desk.office.ask("GET", f"/accounts/{account}")["Buckets"]
    assert [one["Credited"] for one in buckets] == [5_000_000]
    assert not person.is_seen("#waiting")


def test_an_office_whose_agent_is_stopped(desk: Desk, ada: Person, shop: Person) -> None:
    """All else goes on: a voucher is looked for in the account's own shard."""
    account, code = desk.new(next(NUMBERS), OF_CODES, 0), next(FREE)
    desk.office.run("systemctl stop office-agent.socket office-agent")
    try:
        behind(ada, account)
        assert ada.text("#agent-none").endswith("The office can't answer now (503).")
        assert "Bar" not in ada.texts('[role="tab"]')
        shop.show(account)
        shop.tab("redeem")
        shop.fill("redeem", code=code)
        assert shop.send("redeem").startswith("Redeemed the voucher as bucket 1")
        shop.fill("redeem", code="999999999999")
        assert "Only the codes of this account's shard were looked at." in shop.send("redeem")
    finally:
        desk.office.run("systemctl start office-agent.socket")
    behind(ada, account)
    assert ada.text("#agent-none") == ""


def test_its_pictures(desk: Desk, ada: Person, pictures: pathlib.Path) -> None:
    """What is behind an account: open sessions, covered charges, the log; and the tab of bars."""
    behind(ada, ACCOUNT)
    taken(ada, pictures, "behind", "#agent")
    ada.tab("bar")
    taken(ada, pictures, "bar", "#do")
    ada.show("office")
    taken(ada, pictures, "shards", "#shards")
    taken(ada, pictures, "books", "#books")


def test_the_audit_finds_nothing(desk: Desk) -> None:
    assert desk.office.run("office audit") == "findings 0 in 4 databases\n"
