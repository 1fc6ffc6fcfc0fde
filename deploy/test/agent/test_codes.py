"""Codes looked at before they are imported: what stands against each, and that nothing is imported."""
from __future__ import annotations

import contextlib
import pathlib
import shutil
import sqlite3

import pytest

from agent.running import OF_FIRST, OF_LAST, Agent
from support.callers import Answer, Caller
from support.world import BOOK, done, program

HEAD = "code,amount,days,scope\n"
PATH = "/office/agent/vouchers/check"


def check(caller: Caller, text: str | bytes) -> Answer:
    """The agent's answer."""
    return caller.patient(90).ask("POST", PATH, text, Content_Type="text/csv")


def test_new_codes_are_good_and_stay_out(agent: Agent, ada: Caller) -> None:
    text = HEAD + "".join(f"4000000000{at:02},5000000,30,\n" for at in range(20))
    told = check(ada, text).body
    counts = {"codes": 20, "new": 20, "present": 0, "conflicting": 0}
    assert {name: told[name] for name in counts} == counts
    assert (told["good"], told["faults"], told["shard"]) == (True, [], "02")
    assert check(ada, text).body["new"] == 20
    agent.kill()
    agent.start()
    assert check(ada, text).body["new"] == 20


def test_the_word_would_say_the_same(agent: Agent, ada: Caller, tmp_path: pathlib.Path) -> None:
    path = tmp_path / "new.csv"
    path.write_text(HEAD + "500000000000,5000000,30,\n")
    told = agent.world.command("import", "--dry-run", path)
    assert told == f"{check(ada, path.read_text()).body['shard']} would get 1 codes\n"


def test_codes_that_are_there_go_to_their_shard(ada: Caller) -> None:
    text = HEAD + f"{OF_FIRST[0]},5000000,30,\n" + "600000000000,1,,\n"
    told = check(ada, text).body
    assert (told["shard"], told["new"], told["present"], told["good"]) == ("01", 1, 1, True)


def test_other_terms(ada: Caller) -> None:
    told = check(ada, HEAD + f"{OF_FIRST[1]},7,30,\n").body
    assert (told["conflicting"], told["good"]) == (1, False)
    assert "other terms" in told["faults"][0]["fault"]


def test_a_code_of_another_shard(ada: Caller) -> None:
    told = check(ada, HEAD + f"{OF_FIRST[2]},5000000,30,\n{OF_LAST[0]},5000000,30,\n").body
    assert (told["shard"], told["good"]) == ("01", False)
    (fault,) = told["faults"]
    assert fault["code"] == OF_LAST[0] and fault["fault"].startswith("shard 04 has it")


def test_a_code_twice(ada: Caller) -> None:
    told = check(ada, HEAD + "700000000000,1,,\n700000000000,1,,\n").body
    assert {one["code"]: one["fault"] for one in told["faults"]} == {
        "700000000000": "is 2 times in the file"
    }


def test_a_code_that_an_archive_has_as_spent(agent: Agent, ada: Caller) -> None:
    folder = agent.world.place / "archive"
    folder.mkdir(exist_ok=True)
    path = folder / "02-20260101T000000Z.db"
    done(program(), "init", path, BOOK)
    done(program(), "open", path, "1")
    voucher = folder / "v.csv"
    voucher.write_text(HEAD + "800000000000,1,,\n800000000001,1,,\n")
    done(program(), "import", path, voucher)
    with contextlib.closing(sqlite3.connect(path)) as store, store:
        store.execute("UPDATE vouchers SET account = '1' WHERE code = '800000000000'")
    try:
        told = check(ada, voucher.read_text()).body
    finally:
        shutil.rmtree(folder)
    assert [one["code"] for one in told["faults"]] == ["800000000000"]
    assert "02-20260101T000000Z.db has it as spent" in told["faults"][0]["fault"]


FORMS = {
    "a header": ("code,amount\n", "record 1: the header is code,amount,days,scope"),
    "three fields": (HEAD + "1,2,3\n", "record 2: a record has four fields"),
    "a code": (HEAD + "123456789014,1,,\n12,1,,\n", "record 3: a code is 12 digits"),
    "an amount": (HEAD + "123456789014,0,,\n", "record 2: an amount is 1 to 10^15"),
    "days": (HEAD + "123456789014,1,9999,\n", "record 2: days are 1 to 3,650"),
    "a scope": (HEAD + "123456789014,1,,x\n", "record 2: a scope is a rating group"),
}


@pytest.mark.parametrize("text, fault", FORMS.values(), ids=list(FORMS))
def test_a_form_that_is_wrong(ada: Caller, text: str, fault: str) -> None:
    told = check(ada, text)
    assert (told.status, told.body["good"]) == (200, False)
    assert any(fault in one["fault"] for one in told.body["faults"]), told.text


@pytest.mark.parametrize("text, fault", ((b"", "empty"), (b" \n", "empty"), (b"\xff", "no UTF-8")))
def test_what_can_not_be_read(ada: Caller, text: bytes, fault: str) -> None:
    told = check(ada, text)
    assert (told.status, fault in told.body["fault"]) == (400, True)


def test_a_body_that_is_called_something_else(ada: Caller) -> None:
    for kind in ("application/json", "text/plain", "multipart/form-data"):
        assert ada.ask("POST", PATH, HEAD, Content_Type=kind).status == 415
