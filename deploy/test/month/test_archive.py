"""The archive's door: what was answered before a carry or a move is answered so again, and nothing of it is
accepted anew."""
from __future__ import annotations

import collections
import csv
import dataclasses
import json
import pathlib
import random
import time
from collections.abc import Iterator
from typing import Any

import pytest

from month.machine import wait_until
from month.stand import PRICE, Stand, doors, request, stand
from month.worlds import BEGIN, BOOK, ocs, world
from office import copies
from office.archive import answers, known
from office.archive.answers import Asked, Key
from office.archive.past import File, moment_of
from office.archive.open_files import OpenFiles
from office.audit import sums
from office.faults import Refused
from office.tables import opened

FIRST, COUNT = 49_200, 40
REFUND = {"Currency-Code": 978, "Unit-Value": {"Exponent": -2, "Value-Digits": 25}}
CODES = "".join(f"{at:012},5000000,30,\n" for at in range(1, 9))
Told = dict[str, Any]


def test_a_filter_has_each_key_and_few_others(tmp_path: pathlib.Path) -> None:
    made = world(tmp_path, 1, 120)
    with opened(made.path) as database:
        found = known.of_copy(database)
        rows = list(database.rows("SELECT account, kind, name FROM answers"))
    assert len(rows) > 60
    assert all(found.may_have(row["account"], row["kind"], row["name"]) for row in rows)
    many, chance = known.Filter(20_000), random.Random(7)
    for each in range(20_000):
        many.add(str(49_000 + each % 900), 1, f"gw;{each};{chance.random()}")
    wrong = sum(many.may_have(str(49_000 + at % 900), 1, f"gw;new;{at}") for at in range(20_000))
    assert wrong < 20_000 * 0.01


def test_archives_stay_open_until_another_file_has_their_place(tmp_path: pathlib.Path) -> None:
    books = {name: (tmp_path / f"{name}.db") for name in ("one", "other")}
    for at, path in enumerate(books.values(), 1):
        ocs("init", path, BOOK)
        ocs("open", path, f"4915{at}", "--at", BEGIN)
    made, files = tmp_path / "02-20260105T100000Z.db", OpenFiles()
    turning = made.with_name("03-20260105T100000Z.db.turning")
    copies.make_whole(books["one"], made)
    copies.make_whole(books["one"], turning)
    those = [File("02", made, "02", BEGIN), File("03", turning, "03", BEGIN)]
    asked = "SELECT account FROM accounts"
    for _ in range(2):
        with files.looked_at(those) as parts:
            assert [part.database.one(asked) for part in parts] == ["49151", "49151"]
            first = parts[0]
        # One that isn't ended yet isn't kept.
        assert [key[0] for key in files.held] == [made]
    with files.looked_at(those[:1]) as parts:
        assert parts == [first]
    made.unlink()
    copies.make_whole(books["other"], made)
    with files.looked_at(those[:1]) as parts:
        assert parts[0].database.one(asked) == "49152"
    with pytest.raises(Refused), files.looked_at(those[:1]) as parts:
        parts[0].database.one("SELECT nothing FROM accounts")
    made.unlink()
    with pytest.raises(Refused), files.looked_at(those[:1]):
        pass
    with files.looked_at([]) as parts:
        assert parts == [] and not files.held


def event(account: str, session: str, **more: object) -> bytes:
    """The body of a debit."""
    return json.dumps(request(account, session, 4, 0, 10, 60) | more).encode()


def test_a_key_is_the_one_that_the_program_reads() -> None:
    one = answers.key_of(Asked("POST", "/ccr", event("49151", "s")))
    assert one is not None and (one.account, one.kind, one.name, one.number) == ("49151", 1, "s", 0)
    body = b'{"Reference":"r","Amount":5,"Reference":"q"}'
    asked = Asked("POST", "/accounts/49151/credits", body)
    assert answers.key_of(asked) == Key("49151", 2, "q", 0, '{"Amount":5,"Reference":"q"}')
    disguised = event("49151", "s").replace(b'"s"', b'"\\u0073"')
    assert answers.key_of(Asked("POST", "/ccr", disguised)) == one
    for action in (2, 3):
        read = event("49151", "s", **{"Requested-Action": action})
        assert answers.key_of(Asked("POST", "/ccr", read)) is None
    for path, content in (("/ccr", b"{"), ("/ccr", b"[]"), ("/ccr", b"\xff"), ("/sweep", b"{}")):
        assert answers.key_of(Asked("POST", path, content)) is None
    other = answers.key_of(Asked("POST", "/accounts/49151/allowances", body))
    assert other is not None and other.content == "{}"


@pytest.fixture(scope="module", name="office")
def made() -> Iterator[Stand]:
    with stand() as office:
        rows = "".join(f"{at},9000000\n" for at in range(FIRST, FIRST + COUNT))
        office.machine.write("/tmp/new.csv", "account,amount\n" + rows)
        office.run("office clearing --write; office load /tmp/new.csv")
        doors(office.machine, 1)
        office.run("office new-shard 05; systemctl start ocs@05")
        office.machine.write("/tmp/v.csv", "code,amount,days,scope\n" + CODES)
        office.run("office import --shard 02 /tmp/v.csv")
        wait_until(lambda: office.is_up("05"), "the new shard")
        yield office


@dataclasses.dataclass
class Past:
    """An account of shard 02 that lived before each of two carries, as "one" and as "two"."""

    account: str
    archive: str  # the file of the first carry


@pytest.fixture(scope="module", name="past")
def carried_twice(office: Stand) -> Past:
    account, archives = of_shard(office, "02")[0], []
    for name in ("one", "two"):
        assert all('"Result-Code":2001' in body for _, body in all_of(office, lived(account, name)))
        archives.append(carried(office, "02"))
    return Past(account, archives[0])


def carried(office: Stand, shard: str) -> str:
    """The archive of a shard that is carried, whose commands are all of before its turn."""
    told = office.run(f"office carry {shard}")
    archive = next(line for line in told.splitlines() if " archive " in line).split()[2]
    last = office.run(f"sqlite3 'file:{archive}?immutable=1' 'SELECT last_moment FROM meta'")
    assert int(last) < moment_of(pathlib.PurePath(archive).stem)
    return archive


def of_shard(office: Stand, shard: str) -> list[str]:
    """The accounts of the file that live in a shard."""
    those = map(str, range(FIRST, FIRST + COUNT))
    return [one for one in those if office.home(one) == shard]


def lived(account: str, name: str) -> list[tuple[str, str, Told]]:
    """A session, an event, a refund, a credit and an allowance of an account."""
    used = request(account, f"{name}-session", 2, 1, 10, 600, 60)
    back = request(account, f"{name}-refund", 4, 0, 10, -1) | {"Requested-Action": 1}
    del back["Multiple-Services-Credit-Control"]
    return [
        ("POST", "/ccr", request(account, f"{name}-session", 1, 0, 10, 600)),
        ("POST", "/ccr", used),
        ("POST", "/ccr", request(account, f"{name}-session", 3, 2, 10, -1, 90)),
        ("POST", "/ccr", request(account, f"{name}-event", 4, 0, 10, 60)),
        ("POST", "/ccr", back | {"Requested-Service-Unit": {"CC-Money": REFUND}}),
        ("POST", f"/accounts/{account}/credits", {"Amount": 70_000, "Reference": f"{name}-c"}),
        (
            "POST",
            f"/accounts/{account}/allowances",
            {"Blocks": 3, "Scope": 10, "Reference": f"{name}-a"},
        ),
    ]


def all_of(office: Stand, those: list[tuple[str, str, Told]]) -> list[tuple[str, str]]:
    """The status and the body of each answer."""
    heads = [office.asked(*one).partition("\n\n") for one in those]
    return [(head.partition("\n")[0], body) for head, _, body in heads]


def test_what_was_answered_before_a_carry_is_answered_so_again(office: Stand) -> None:
    own = of_shard(office, "02")[1:3]
    asked = [each for account in own for each in lived(account, "before")]
    code = {"Subscription-Id-Data": own[0], "Reference": "shop-1"}
    asked.append(("POST", "/vouchers/000000000001/redeem", code))
    first = all_of(office, asked)
    assert all('"Result-Code":2001' in body for _, body in first)
    office.run("office carry 02")
    had = [office.ask("GET", f"/accounts/{one}")["Buckets"] for one in own]
    assert all_of(office, asked) == first
    assert [office.ask("GET", f"/accounts/{one}")["Buckets"] for one in own] == had
    assert office.table("02", "SELECT count(*) FROM charges") == ["0"]
    # Once more: an archive of before and one of since, each with answers of its own.
    later = [each for account in own for each in lived(account, "since")]
    since = all_of(office, later)
    assert all('"Result-Code":2001' in body for _, body in since)
    office.run("office carry 02")
    had = [office.ask("GET", f"/accounts/{one}")["Buckets"] for one in own]
    assert all_of(office, asked + later) == first + since
    assert [office.ask("GET", f"/accounts/{one}")["Buckets"] for one in own] == had
    office.run("office audit")


def test_the_rest_is_as_the_old_database_says(
    office: Stand, past: Past, tmp_path: pathlib.Path
) -> None:
    """What has a key that was used, and isn't the same: the program says it over the whole archive."""
    one, old = past.account, tmp_path / "old.db"
    root = pathlib.Path(f"/proc/{office.machine.first()}/root")
    old.write_bytes((root / past.archive[1:]).read_bytes())
    changed = [
        request(one, "one-event", 4, 0, 10, 61),
        request(one, "one-event", 4, 5, 10, 60),
        request(one, "one-session", 1, 0, 10, 60),
        request(one, "one-session", 1, 7, 10, 60),
        request(one, "one-session", 2, 1, 10, 600, 61),
        request(one, "one-session", 2, 9, 10, 600, 60),
        request(one, "one-session", 3, 9, 10, -1, 60),
        request(one, "one-event", 3, 1, 10, -1, 60),
    ]
    with opened(old) as database:
        at = database.last_moment
    file = tmp_path / "changed.in"
    file.write_text("".join(f"{at} {json.dumps(each)}\n" for each in changed), encoding="utf-8")
    wanted = ocs("replay", old, file).splitlines()
    assert [
        body for _, body in all_of(office, [("POST", "/ccr", one) for one in changed])
    ] == wanted
    credit = f"/accounts/{one}/credits"
    refused = all_of(
        office,
        [
            ("POST", credit, {"Amount": 70_001, "Reference": "one-c"}),
            ("POST", credit, {"Amount": 70_000, "Reference": "one-a"}),
            ("POST", credit, {"Amount": 0, "Reference": "one-c"}),
            ("POST", credit, {"Reference": "one-c"}),
            (
                "POST",
                f"/accounts/{one}/allowances",
                {"Blocks": 3, "Scope": 10, "Reference": "one-c"},
            ),
        ],
    )
    assert [body for _, body in refused] == [
        '{"Refusal":"O5"}',
        '{"Refusal":"O5"}',
        '{"Failed-AVP":"Amount","Result-Code":5004}',
        '{"Failed-AVP":"Amount","Result-Code":5005}',
        '{"Refusal":"O5"}',
    ]
    assert [head for head, _ in refused].count("HTTP/1.1 400 Bad Request") == 2


def test_what_is_new_is_never_answered_by_an_archive(office: Stand, past: Past) -> None:
    one, other = past.account, of_shard(office, "02")[4]
    had = office.available(other)
    told = office.asked("POST", "/ccr", request(other, "one-event", 4, 0, 10, 60))
    assert '"Result-Code":2001' in told and "office-archive" not in told
    assert office.available(other) < had
    # A check of a balance and a price enquiry are answered anew, whatever their Session-Id.
    check = request(one, "one-event", 4, 0, 10, 60) | {"Requested-Action": 2}
    told = office.asked("POST", "/ccr", check)
    assert "Check-Balance-Result" in told and "office-archive" not in told
    assert office.ask("PUT", f"/accounts/{one}") == {"Refusal": "O1"}


def test_a_name_in_disguise_is_found(office: Stand, past: Past) -> None:
    one = past.account
    body = json.dumps(request(one, "one-event", 4, 0, 10, 60))
    first, had = asked_as_it_is(office, body), office.available(one)
    twice = body.replace('"Session-Id"', '"Session-Id": "another", "Session-Id"', 1)
    nested = body[:-1] + ', "x": {"Session-Id": "another"}}'
    escaped = body[:-1] + ', "x": "\\n"}'
    for text in (twice, nested, escaped):
        assert asked_as_it_is(office, text) == first
    # The doors take no letter as an escape.
    assert asked_as_it_is(office, body.replace("one-event", "one\\u002devent")) == "{}"
    assert '"Result-Code":2001' in first and office.available(one) == had


def asked_as_it_is(office: Stand, body: str) -> str:
    """The answer to a request of these very bytes."""
    office.machine.write("/tmp/body", body)
    return office.run(
        "curl -sS --unix-socket /run/haproxy/office.sock -H 'Content-Type: application/json' "
        "--data-binary @/tmp/body http://office/ccr"
    )


def test_without_its_service_a_repeat_is_refused_and_the_new_goes_on(
    office: Stand, past: Past
) -> None:
    one = past.account
    repeat = ("POST", "/ccr", request(one, "one-event", 4, 0, 10, 60))
    first = all_of(office, [repeat])
    office.run("systemctl stop office-archive.socket office-archive.service")
    had = office.available(one)
    told = office.asked(*repeat)
    assert told.startswith("HTTP/1.1 503") and office.available(one) == had
    assert office.debit(one, "while-away")["Result-Code"] == 2001
    office.run("systemctl start office-archive.socket")
    assert all_of(office, [repeat]) == first
    office.run("systemctl kill -s KILL office-archive")
    wait_until(lambda: all_of(office, [repeat]) == first, "the service")
    # A filter that can't be read has any key: all are asked for.
    name = office.run("head -n 1 /etc/ocs/known/index").strip()
    office.run(f"mv /etc/ocs/known/{name}.filter /tmp/away; systemctl restart haproxy")
    wait_until(lambda: all_of(office, [repeat]) == first, "the doors")
    assert office.debit(one, "no-filter")["Result-Code"] == 2001
    office.run("systemctl stop office-archive.socket office-archive.service")
    new = request(one, "no-filter-2", 4, 0, 10, 60)
    assert office.asked("POST", "/ccr", new).startswith("HTTP/1.1 503")
    office.run("systemctl start office-archive.socket")
    office.run(f"mv /tmp/away /etc/ocs/known/{name}.filter; systemctl restart haproxy")
    wait_until(lambda: all_of(office, [repeat]) == first, "the doors")


def test_statements_and_exports_have_what_archives_have(office: Stand, past: Past) -> None:
    one, month = past.account, office.run("date -u +%Y%m").strip()
    assert office.debit(one, "behind-both")["Result-Code"] == 2001
    export = office.run(f"office statement {one} {month} --csv").splitlines()
    sessions = [line.split(",")[1] for line in export[1:]]
    assert sessions.count("one-event") == sessions.count("two-event") == 1
    assert sessions.index("one-event") < sessions.index("two-event") < sessions.index("behind-both")
    assert not any(each.startswith("carry-") for each in sessions)
    text = office.run(f"office statement {one} {month}").splitlines()
    by_http = office.asked("GET", f"/accounts/{one}/statement/{month}").partition("\n\n")[2]
    assert by_http.splitlines()[1:] == text[1:] and len(text) > len(sessions)
    for word, ending in (("statements", "txt"), ("exports", "csv")):
        office.run(f"rm -rf /tmp/all; office {word} {month} /tmp/all --shard 02")
        made = office.run(f"cat /tmp/all/02/{one}.{ending}").splitlines()
        assert made[1:] == (export if ending == "csv" else text)[1:]
    # A month of before has nothing in the archives, and is closed there.
    before = office.run(f"office statement {one} 202001").splitlines()
    by_http = office.asked("GET", f"/accounts/{one}/statement/202001").partition("\n\n")[2]
    assert by_http.splitlines() == before and "TOTAL          0" in before[2]


def test_a_code_that_was_redeemed_before_a_carry_is_credited_once(office: Stand) -> None:
    other = of_shard(office, "03")[0]
    for code in ("000000000002", "000000000003"):
        assert "Bucket" in office.run(f"office redeem {code} {other}")
    had = office.available(other)
    office.run("office carry 02; office carry 03")
    for code in ("000000000002", "000000000003"):
        assert "Bucket" in office.run(f"office redeem {code} {other}")
    assert office.available(other) == had
    office.run("office audit")


@pytest.mark.slow
def test_what_is_asked_while_a_shard_turns_is_charged_once(office: Stand) -> None:
    everyone = list(map(str, range(FIRST, FIRST + COUNT)))
    before = {one: office.available(one) for one in everyone}
    asks = office.asks(FIRST, COUNT, 8, "turning")
    for shard in ("01", "02", "03", "04"):
        office.run(f"office carry {shard}")
    assert int(asks.communicate(timeout=600)[0].split()[0]) == 8 * COUNT
    charged = {one: amount - 8 * PRICE for one, amount in before.items()}
    assert {one: office.available(one) for one in everyone} == charged
    asks = office.asks(FIRST, COUNT, 8, "turning")
    assert int(asks.communicate(timeout=600)[0].split()[0]) == 8 * COUNT
    assert {one: office.available(one) for one in everyone} == charged
    office.run("office audit")


@pytest.mark.slow
def test_a_request_that_waits_for_a_shard_that_turns_is_a_repeat_afterwards(office: Stand) -> None:
    """A debit is accepted and its answer doesn't arrive, since who asked has gone; its repeat comes while
    the shard turns, and waits."""
    one = of_shard(office, "04")[0]
    office.machine.write("/tmp/held", json.dumps(request(one, "held", 4, 0, 30, 1)))
    body = request(one, "held", 4, 0, 30, -1)
    body["Multiple-Services-Credit-Control"][0]["Requested-Service-Unit"] = {
        "CC-Service-Specific-Units": 1
    }
    office.machine.write("/tmp/held", json.dumps(body))
    ask = (
        "curl -sS --max-time 80 --unix-socket /run/haproxy/office.sock "
        "-H 'Content-Type: application/json' -d @/tmp/held http://office/ccr"
    )
    had, first = office.available(one), office.run(ask)
    word = office.started("office carry 04")
    held = f"/proc/{office.machine.first()}/root/etc/ocs/known/held-04"
    wait_until(lambda: pathlib.Path(held).exists() or word.poll() is not None, "the turn")
    again = [office.machine.started(ask) for _ in range(6)]
    told = word.communicate(timeout=300)[0]
    assert word.returncode == 0, told
    assert {each.communicate(timeout=300)[0] for each in again} == {first}
    assert office.available(one) == had - PRICE


@pytest.mark.slow
def test_a_carry_that_is_killed_leaves_each_repeat_its_answer(office: Stand) -> None:
    one = of_shard(office, "04")[1]
    repeat = ("POST", "/ccr", request(one, "killed", 4, 0, 10, 60))
    first = all_of(office, [repeat])
    had = office.available(one)
    for tenths in range(4, 34, 3):
        word = office.started("office carry 04")
        time.sleep(tenths / 10)
        office.kill(word)
        wait_until(lambda: office.is_up("04"), "the start")
        wait_until(lambda: office.home(one) == "04", "the shard")
        wait_until(lambda: "held" not in office.run("ls /etc/ocs/known", None), "the guard")
        assert all_of(office, [repeat]) == first and office.available(one) == had
    office.run("office carry 04")
    assert all_of(office, [repeat]) == first and office.available(one) == had


def test_an_account_that_moved_is_answered_as_before(office: Stand) -> None:
    one, other = of_shard(office, "01")[:2]
    asked = [*lived(one, "old"), *lived(other, "old")]
    first = all_of(office, asked)
    month = office.run("date -u +%Y%m").strip()
    export = office.run(f"office statement {one} {month} --csv")
    assert "moved 2" in office.run(f"office move --from 01 --to 05 {one} {other}")
    had = [office.ask("GET", f"/accounts/{each}")["Buckets"] for each in (one, other)]
    assert all_of(office, asked) == first
    assert [office.ask("GET", f"/accounts/{each}")["Buckets"] for each in (one, other)] == had
    assert office.run(f"office statement {one} {month} --csv") == export
    assert office.home(one) == "05"
    # Where its old shard is carried, what it left there is no second past of it.
    office.run("office carry 01; office carry 05")
    assert all_of(office, asked) == first
    assert office.run(f"office statement {one} {month} --csv") == export
    assert "moved 1" in office.run(f"office move --from 05 --to 01 {one}")
    assert all_of(office, asked) == first
    assert office.run(f"office statement {one} {month} --csv") == export
    office.run("office audit")


def test_an_audit_beside_a_night_of_before_a_carry(office: Stand) -> None:
    one = of_shard(office, "04")[2]
    all_of(office, lived(one, "night"))
    office.run("office backups")
    night = office.run("ls -d /var/lib/ocs/copies/2* | tail -n 1").strip()
    office.debit(one, "behind-the-night")
    archives = [pathlib.PurePath(carried(office, "04"))]
    office.debit(one, "behind-the-carry")
    time.sleep(1.1)
    archives.append(pathlib.PurePath(carried(office, "04")))
    audit = f"office audit --before {night}"
    office.run(f"{audit} && office bar {one}")
    told = office.machine.run(audit, 1).stdout
    assert told == f"04 accounts {one}: barred since the earlier copy\n"
    office.run(f"office unbar {one}")
    # The first archive is the one that has to have it all.
    gone = "DELETE FROM answers WHERE name = 'night-event'"
    office.run(f'sqlite3 {archives[0]} "{gone}"')
    told = office.machine.run(audit, 1).stdout
    assert told == f"04 answers {one} 1 night-event 0: not as in the earlier copy\n"


def test_the_sums_have_what_archives_have(office: Stand) -> None:
    all_of(office, lived(of_shard(office, "03")[0], "sums"))
    before = totals(office)
    assert before["charged"] > 0 and before["available"] > 0
    office.run("office carry 03")
    assert totals(office) == before
    assert "03-" in office.run("cut -d, -f 11 /tmp/sums/charges.csv")


def totals(office: Stand) -> dict[str, int]:
    """The sums over all rows of the office's sums."""
    office.run("rm -rf /tmp/sums; office audit --sums /tmp/sums")
    found = collections.Counter[str]()
    for name in ("charges", "buckets"):
        path = pathlib.Path(f"/proc/{office.machine.first()}/root/tmp/sums/{name}.csv")
        with path.open(encoding="utf-8", newline="") as stream:
            for row in csv.DictReader(stream):
                numbers = {key: row[key] for key in (*sums.USES, *sums.AMOUNTS) if key in row}
                found.update({key: int(value) for key, value in numbers.items()})
    return dict(found)


def test_a_copy_of_before_a_carry_is_answered_by_itself(office: Stand) -> None:
    one = of_shard(office, "03")[1]
    office.run("office backups")
    repeat = ("POST", "/ccr", request(one, "after-the-copy", 4, 0, 10, 60))
    assert '"Result-Code":2001' in all_of(office, [repeat])[0][1]
    charged = office.available(one)
    time.sleep(1.1)
    office.run("office carry 03")
    assert all_of(office, [repeat])[0][1] and office.available(one) == charged
    told = office.run("office restore 03")
    assert "it answers nothing any more" in told
    wait_until(lambda: office.home(one) == "03", "the shard")
    assert office.available(one) > charged
    assert '"Result-Code":2001' in all_of(office, [repeat])[0][1]
    assert office.available(one) == charged
