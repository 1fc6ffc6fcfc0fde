"""An account of 10,000 buckets and 10,000 charges: a small server answers in the shards' place, since
to make so many takes the program minutes."""
from __future__ import annotations

import http.server
import itertools
import json
import threading
import time
from collections.abc import Iterator
from typing import Any

import pytest
from support.world import World

from console.office import ACCOUNT, BEGIN, DAY, MOMENT, home
from console.person import Person
from console.test_layout import SCHEMES, WIDTHS, looked_at

MANY, LIVE = 10_000, 2_500


def bucket(number: int) -> dict[str, Any]:
    """A bucket; the first ones live, each with an end of its own."""
    left = 1_000_000 if number <= LIVE else 0
    more = {"From": BEGIN, "Until": MOMENT + 1 + (number * 7919) % LIVE * 60}
    spent = {"Charged": 1_000_000 - left, "Expired": 0, "Reserved": 0}
    return {"Available": left, "Credited": 1_000_000, "Number": number, **more, **spent}


def statement() -> str:
    """A month of charges: half of them on one day."""
    lines = [
        f"ACCOUNT {ACCOUNT} MONTH 202601 MOMENT {MOMENT}",
        " MOMENT GROUP BLOCKS RATED COLLECTED UNCOLLECTED",
    ]
    for at in range(MANY):
        moment = BEGIN + (5 * DAY + at if at < MANY // 2 else (at % 28) * DAY + at)
        lines.append(f"{moment} {10 + at % 3 * 10} 2 300 {300 - at % 2} {at % 2}")
    paid = 300 * MANY - MANY // 2
    lines += [f"TOTAL {2 * MANY} {300 * MANY} {paid} {MANY // 2}", f"COLLECTED TO DATE {paid}"]
    return "\n".join(lines) + "\n"


class Shard(http.server.BaseHTTPRequestHandler):
    """Answers as a shard would that has such an account."""

    def do_GET(self) -> None:
        buckets = [bucket(number) for number in range(1, MANY + 1)]
        told = {"Account": ACCOUNT, "Barred": False, "Buckets": buckets, "Moment": MOMENT}
        is_text = "statement" in self.path
        data = (statement() if is_text else json.dumps(told)).encode()
        self.send_response(200)
        self.send_header("Content-Type", "text/plain" if is_text else "application/json")
        self.send_header("Content-Length", str(len(data)))
        self.end_headers()
        self.wfile.write(data)

    def log_message(self, *_: object) -> None:
        """Prints nothing."""


@pytest.fixture(scope="module")
def crowded(world: World) -> Iterator[None]:
    """The first account's shard is such a server meanwhile."""
    here = home(world, ACCOUNT)
    world.kill(here)
    http.server.ThreadingHTTPServer.allow_reuse_address = True
    server = http.server.ThreadingHTTPServer(("127.0.0.1", world.first + here), Shard)
    threading.Thread(target=server.serve_forever, daemon=True).start()
    yield
    server.shutdown()
    server.server_close()
    world.start(here)


@pytest.mark.usefixtures("crowded")
def test_ten_thousand_buckets_and_charges(operator: Person) -> None:
    begun = time.monotonic()
    operator.show(ACCOUNT)
    print(f"shown after {time.monotonic() - begun:.1f} s")
    assert operator.text("#available") == f"{LIVE:,}.00"
    assert operator.text("#past-count") == "7,500 used up or over"
    assert operator.value("document.querySelectorAll('#live [data-bucket]').length") == 6
    operator.click("#live > button")
    assert operator.value("document.querySelectorAll('#live [data-bucket]').length") == 46
    ends = operator.value(
        "[...document.querySelectorAll('#live [data-bucket] > .parts:last-child span:last-child')].map(one => one.textContent)"
    )
    assert ends == sorted(ends)
    operator.click("#live > button")
    assert operator.value("document.querySelectorAll('#live [data-bucket]').length") == 86
    assert operator.text("#live > button") == "Show 40 more of 2,414 buckets"
    operator.click("#past-box summary")
    assert operator.value("document.querySelectorAll('#past [data-bucket]').length") in (0, 40)


COVERED = "charges.forEach(row => { row.covered = 1234; }); hasCovered = true; showCharges();"


@pytest.mark.usefixtures("crowded")
def test_all_columns_of_charges_fit(operator: Person) -> None:
    """Covered and uncollected beside the others, from 320 pixels on."""
    operator.show(ACCOUNT)
    operator.value(COVERED)
    assert operator.texts("#charges thead th")[-1].replace("\u00ad", "") == "Uncollected"
    try:
        for width, scheme in itertools.product(WIDTHS, SCHEMES):
            seen = looked_at(operator, width, scheme)
            assert (width, scheme, seen["low"], seen["wide"]) == (width, scheme, [], [])
            assert seen["scroll"] <= width
    finally:
        operator.look(1200)


@pytest.mark.usefixtures("crowded")
def test_ten_thousand_charges_by_day(operator: Person) -> None:
    operator.show(ACCOUNT)
    figure = "document.querySelector('[data-figure={}]').textContent"
    assert operator.value(figure.format("Charges")) == "10,000"
    assert operator.value(figure.format("Uncollected")) == "0.005"
    assert operator.value("document.querySelectorAll('#charges tr.day').length") == 28
    rows = "document.querySelectorAll('#charges tbody tr:not(.day)').length"
    before = operator.value(rows)
    assert before < 200
    button = "#charges tbody:nth-of-type(23) tr.day button"
    assert operator.text(button) == "2026-01-06"
    operator.click(button)
    assert operator.value(rows) == before + 501
    operator.click("#charges tbody:nth-of-type(23) .more")
    assert operator.value(rows) == before + 1001
    operator.click(button)
    assert operator.value(rows) == before
    assert operator.value("document.querySelectorAll('#chart rect').length") >= 28
