"""What is done with an account on the page, each task with how it is seen to be done (`tasks`)."""
from __future__ import annotations

import collections
import pathlib
import re
import tempfile
import time
from collections.abc import Callable
from typing import Any

from support.callers import debit
from support.waiting import until

from console.behind import rows_of
from console.desk import MONTH, Desk
from console.office import ACCOUNT, DAY, POOR
from console.person import Person
from console.test_shown import PARTS, blocks, money, utc

SECONDS = "%Y-%m-%d %H:%M:%S"
ID = r" \(request ([0-9a-f]{8})\)"
LOST = "ask = (real => async (...words) => { await real(...words); throw new Told('lost'); })(ask)"


def found(person: Person, account: str) -> None:
    """Asks for an account by its number, and waits for what is behind it where that is shown."""
    before = person.counted("behind")
    person.find(account)
    if person.is_seen("#agent"):
        person.is_counted("behind", before)


def pressed(person: Person, selector: str, what: str = "shown") -> None:
    """Presses something, and waits until the page has finished what it does then."""
    before = person.counted(what)
    person.push(selector)
    person.is_counted(what, before)


# What is seen of an account.


def balance(desk: Desk, person: Person) -> None:
    """What has she? The amounts that are left, and those that are used up or over."""
    found(person, ACCOUNT)
    rows = desk.ask("GET", f"/accounts/{ACCOUNT}")["Buckets"]
    amounts = [row for row in rows if row.get("Unit") != "blocks"]
    assert person.text("#available") == money(sum(row["Available"] for row in amounts))
    person.push("#past-box summary")
    shown = "[...document.querySelectorAll('[data-bucket] .bar')].map(one => one.ariaLabel)"
    until(lambda: len(person.value(shown)) == len(rows), "all buckets")
    left = [row for row in rows if row["Available"] + row["Reserved"]]
    over = [row for row in reversed(rows) if row not in left]
    left.sort(key=lambda row: (row["Until"], row["Number"]))
    assert left and over and person.value(shown) == [parts(row) for row in left + over]


def parts(row: dict[str, Any]) -> str:
    """What a bucket's bar says."""
    written = blocks if row.get("Unit") == "blocks" else money
    return ", ".join(f"{part} {written(row[part])}" for part in PARTS)


def charges_of(desk: Desk, account: str) -> list[list[int]]:
    """The charges of this month, as the statement's text has them."""
    rows = [one.split() for one in desk.statement(account).splitlines()[2:]]
    end = next(at for at, words in enumerate(rows) if words[0] == "TOTAL")
    return [[int(word) for word in words] for words in rows[:end]]


def charges(desk: Desk, person: Person) -> None:
    """What was charged, and when? By day; a day is closed and opened."""
    found(person, ACCOUNT)
    rows = charges_of(desk, ACCOUNT)
    wanted = [[utc(row[0], "%H:%M:%S"), str(row[1]), f"{row[2]:,}"] for row in reversed(rows)]
    assert shown_charges(person) == wanted
    is_last = [utc(row[0], "%Y-%m-%d") == utc(rows[-1][0], "%Y-%m-%d") for row in rows]
    person.push("#charges tbody:nth-of-type(1) tr.day button")
    assert len(shown_charges(person)) == len(rows) - sum(is_last)
    person.push("#charges tbody:nth-of-type(1) tr.day button")
    assert shown_charges(person) == wanted


def shown_charges(person: Person) -> list[list[str]]:
    """Moment, group and blocks of the charges that are shown."""
    return [row[:3] for row in rows_of(person, "#charges") if re.match(r"\d\d:", row[0])]


def month(desk: Desk, person: Person) -> None:
    """A month as bars, of money and of a group's blocks; the months beside it, by buttons and by the list."""
    found(person, ACCOUNT)
    rows = charges_of(desk, ACCOUNT)
    for name, at, mine, written in (
        ("blocks of group 30", 2, [row for row in rows if row[1] == 30], lambda many: f"{many:,}"),
        ("money collected", 4, rows, money),
    ):
        person.choose("#series", name)
        assert person.text("#chart figcaption") == bars(mine, at, written)
    here = person.text("#chart-title")
    pressed(person, "#before")
    assert person.text("#chart-title") == f"{month_before(here[:7])} by day"
    pressed(person, "#after")
    assert person.text("#chart-title") == here
    pressed(person, "#before")
    counted = person.counted("shown")
    person.choose("#month", person.options("#month")[0])
    person.is_counted("shown", counted)
    assert person.text("#chart-title") == here


def bars(rows: list[list[int]], at: int, written: Callable[[int], str]) -> str:
    """What a chart of a column says to who doesn't see it."""
    days: collections.Counter[str] = collections.Counter()
    for row in rows:
        days[utc(row[0], "%Y-%m-%d")] += row[at]
    return "; ".join(f"{day}: {written(many)}" for day, many in sorted(days.items()) if many)


def month_before(month: str) -> str:
    """The month before one."""
    year, number = map(int, month.split("-"))
    return f"{year - (number == 1)}-{(number - 2) % 12 + 1:02}"


def text(desk: Desk, person: Person) -> None:
    """The month as the program writes it."""
    found(person, POOR)
    person.push("#text")
    path = f"/accounts/{POOR}/statement/{MONTH}"
    until(lambda: person.value("location.pathname") == path, "the text")
    until(person.is_complete, "all of it")
    shown = person.value("document.body.innerText")
    assert shown.split()[6:] == desk.statement(POOR).split()[6:]


# What an account gets.


def voucher(desk: Desk, person: Person) -> None:
    """A code of another shard, with a blank and a hyphen; the same again is the same."""
    account, code = desk.new(0), next(desk.codes)
    found(person, account)
    person.tab("redeem")
    for _ in range(2):
        person.fill("redeem", code=f"{code[:4]} {code[4:8]}-{code[8:]}")
        assert re.fullmatch(f"Redeemed the voucher as bucket 1{ID}", person.send("redeem"))
    buckets = desk.ask("GET", f"/accounts/{account}")["Buckets"]
    assert [one["Credited"] for one in buckets] == [5_000_000]
    assert person.text("#available") == "5.00"


def price(desk: Desk, person: Person) -> None:
    """Would ten minutes be paid, and what would they cost? Nothing is charged."""
    account = desk.new()
    before = desk.ask("GET", f"/accounts/{account}")["Buckets"]
    found(person, account)
    person.tab("price")
    person.fill("price", scope="10", unit="seconds", count="600")
    said = r"It costs (0\.50|1\.00) without allowances; the account can pay it\."
    assert re.fullmatch(said, person.send("price"))
    person.fill("price", scope="10", unit="seconds", count="999999999")
    assert "the account can't pay it" in person.send("price")
    assert desk.ask("GET", f"/accounts/{account}")["Buckets"] == before


def opening(desk: Desk, person: Person) -> None:
    """An account that isn't there is opened."""
    number = next(desk.numbers)
    person.find(number)
    pressed(person, "#open button", "done")
    assert re.fullmatch(f"Opened {number}{ID}", person.outcome())
    assert desk.ask("GET", f"/accounts/{number}")["Buckets"] == []
    assert person.text("#balance-title") == f"Account {number}"


def credit(desk: Desk, person: Person) -> None:
    """A credit with a last day and a group; sent again it is done once. The log has its reference."""
    account, day = desk.new(), utc(int(time.time()) + 40 * DAY, "%Y-%m-%d")
    found(person, account)
    person.tab("credit")
    reference = person.value("document.querySelector('#credit [name=reference]').value")
    assert re.fullmatch(r"page-\d{4}-\d\d-\d\d-[0-9a-f]{16}", reference)
    person.fill("credit", amount="1,012.50", until=day, scope="20")
    told = re.fullmatch(f"Credited 1,012.50 as bucket 2{ID}", person.send("credit"))
    assert told and desk.line(told[1])["reference"] == reference
    assert person.again().startswith("Credited 1,012.50 as bucket 2")
    _, bucket = desk.ask("GET", f"/accounts/{account}")["Buckets"]
    assert (bucket["Credited"], bucket["Scope"]) == (1_012_500_000, 20)
    assert utc(bucket["Until"] - 60) == f"{day} 23:59"
    assert person.text("#available") == "1,013.50"
    assert person.value("document.querySelector('#credit [name=reference]').value") != reference


def allowance(desk: Desk, person: Person) -> None:
    """Blocks of a group, with a last day."""
    account, day = desk.new(), utc(int(time.time()) + 40 * DAY, "%Y-%m-%d")
    found(person, account)
    person.tab("allow")
    person.fill("allow", blocks="25", scope="30", until=day)
    assert re.fullmatch(f"Gave 25 blocks of group 30 as allowance 2{ID}", person.send("allow"))
    bucket = desk.ask("GET", f"/accounts/{account}")["Buckets"][1]
    assert (bucket["Unit"], bucket["Credited"], bucket["Scope"]) == ("blocks", 25, 30)
    assert person.texts("#live h3") == ["Allowance 2", "Bucket 1"]


def bar(desk: Desk, person: Person) -> None:
    """A stolen SIM is barred, and the bar is lifted; the page says how long others waited."""
    account = desk.new()
    found(person, account)
    for word, is_barred in (("Bar", True), ("Unbar", False)):
        until(lambda: person.is_seen("#tab-bar"), "the tab of bars")
        person.tab("bar")
        assert person.text("#bar-button") == word
        before = person.counted("behind")
        said = rf"{word}red; others of its shard waited [0-9.]+ seconds{ID}"
        assert re.fullmatch(said, person.send("bar"))
        assert desk.ask("GET", f"/accounts/{account}")["Barred"] is is_barred
        assert person.is_seen("#barred") is is_barred
        person.is_counted("behind", before)


def answer_lost(desk: Desk, person: Person) -> None:
    """A command whose answer is lost is sent again, by a page that is opened anew; the same is left."""
    account, code = desk.new(0), next(desk.codes)
    lost(person, account, code)
    pressed(person, "#unanswered button.main", "done")
    assert person.outcome().startswith("Redeemed the voucher as bucket 1")
    assert not person.is_seen("#waiting")
    lost(person, account, code)
    person.push("#unanswered button:not(.main)")
    until(lambda: not person.is_seen("#waiting"), "an empty list")
    buckets = desk.ask("GET", f"/accounts/{account}")["Buckets"]
    assert [one["Credited"] for one in buckets] == [5_000_000]


def lost(person: Person, account: str, code: str) -> None:
    """A voucher is redeemed, its answer is lost, and the page is opened anew."""
    found(person, account)
    person.tab("redeem")
    person.fill("redeem", code=code)
    person.value(LOST)
    assert person.send("redeem").startswith("No answer. It may have been done")
    person.show(account)
    title = f"Voucher {code} for account {account}, reference redeem-{code}"
    assert person.texts("#unanswered span") == [title]


# What is behind an account.


def sessions(desk: Desk, person: Person) -> None:
    """Which sessions has she open, and what do they hold?"""
    found(person, ACCOUNT)
    wanted = []
    for one in desk.told(f"account/{ACCOUNT}?month={MONTH}")["sessions"]:
        times = [utc(one[name], SECONDS) for name in ("touched", "ends")]
        for group in one["groups"]:
            held = ", ".join(map(written_hold, group["held"]))
            numbers = [str(group["rating_group"]), f"{group['used']:,}"]
            wanted.append([one["session"], *times, *numbers, held])
    assert [row[:6] for row in rows_of(person, "[data-part='open sessions']")] == wanted
    assert len(wanted) == 1 and wanted[0][0] == f"voice-{ACCOUNT}" and wanted[0][5]


def written_hold(row: dict[str, Any]) -> str:
    """What a session holds of a bucket, as the page writes it."""
    if row["is_blocks"]:
        return f"allowance {row['bucket']}: {blocks(row['amount'])}"
    return f"bucket {row['bucket']}: {money(row['amount'])}"


def end(desk: Desk, person: Person) -> None:
    """A session is ended: what it held is free again."""
    account = desk.new()
    session = desk.session(account)
    assert desk.ask("GET", f"/accounts/{account}")["Buckets"][0]["Reserved"] > 0
    until(lambda: sees_sessions(person, account) == [session], "the session")
    pressed(person, "[data-part='open sessions'] button", "done")
    assert person.outcome().startswith(f"Ended session {session}")
    assert desk.ask("GET", f"/accounts/{account}")["Buckets"][0]["Reserved"] == 0
    until(lambda: sees_sessions(person, account) == [], "no session")


def sees_sessions(person: Person, account: str) -> list[str]:
    """The open sessions that the page shows of an account, which is asked for."""
    found(person, account)
    return [row[0] for row in rows_of(person, "[data-part='open sessions']")]


def refusal(desk: Desk, person: Person) -> None:
    """Why was she refused at 14:03? The log's lines; those that only looked come by a button."""
    account = desk.new(0)
    assert desk.ask("POST", "/ccr", debit(account, f"poor-{account}"))["Result-Code"] == 4012
    refused = "document.querySelector('[data-part=lines]')?.textContent.includes('(4012)')"

    def is_told() -> bool:
        found(person, account)
        return bool(person.value(refused))

    until(is_told, "the line of the refusal")
    few = rows_of(person, "[data-part=lines]")
    assert [row[1] for row in few if "(4012)" in row[3]] == ["scripts"]
    person.push("#agent-parts > button.more")
    more = rows_of(person, "[data-part=lines]")
    assert [row for row in more if row in few] == few and len(more) > len(few)
    lines = desk.told(f"account/{account}?month={MONTH}")["lines"]
    told = [
        [utc(int(one["moment"]), SECONDS), one["who"], one["asked"], one["answered"], one["id"][:8]]
        for one in reversed(lines)
    ]
    assert more == told[-len(more) :]


def covered(desk: Desk, person: Person) -> None:
    """What covered a charge?"""
    found(person, ACCOUNT)
    rows = desk.told(f"account/{ACCOUNT}?month={MONTH}")["charges"]
    shown = [row for row in rows_of(person, "#charges") if re.match(r"\d\d:", row[0])]
    wanted = [f"{one['covered']:,}" if one["covered"] else "" for one in reversed(rows)]
    assert [row[3] for row in shown] == wanted
    assert sum(one["covered"] for one in rows) == 6 and person.is_seen("#charges th.covered")


def table(desk: Desk, person: Person) -> None:
    """The month as CSV: the bytes of the office's own word."""
    found(person, ACCOUNT)
    with tempfile.TemporaryDirectory() as folder:
        words = {"behavior": "allow", "downloadPath": folder}
        person.do("Browser.setDownloadBehavior", **words)
        file = pathlib.Path(folder) / f"{ACCOUNT}-{MONTH}.csv"
        person.push("#csv")
        until(file.exists, "the file")
        assert file.read_text() == desk.statement(ACCOUNT, "--csv")
