"""Requests byte by byte: lengths, heads, chunks, targets, and bodies that name an account in a way
that HAProxy reads otherwise than the program."""
from __future__ import annotations

import itertools
import json
from collections.abc import Callable

import pytest
from support.callers import Caller, charges, debit, opened, raw, status
from support.world import World

ACCOUNT = "70004"
GOOD = json.dumps(debit(ACCOUNT, "one")).encode()
CHUNKS = b"%x\r\n" % len(GOOD) + GOOD + b"\r\n0\r\n\r\n"
# Answers of HAProxy to bytes that are no request; they are HTML, and reach no rule.
NO_REQUEST = {400, 408}


@pytest.fixture(scope="module", autouse=True)
def account(world: World) -> None:
    """The account that is asked about has money."""
    opened(Caller(world, world.place / "office.sock"), ACCOUNT, 1_000_000)


def request(
    world: World,
    *fields: str,
    body: bytes = GOOD,
    target: str = "/ccr",
    method: str = "POST",
    version: str = "HTTP/1.1",
    host: str | None = None,
    is_long: bool = True,
) -> bytes:
    """A request's bytes; `is_long` says whether it gives its length."""
    head = [f"{method} {target} {version}"]
    head += [f"Host: 127.0.0.1:{world.doors['here']}" if host is None else host]
    head += ["Content-Type: application/json"] if method == "POST" else []
    head += [f"Content-Length: {len(body)}"] if is_long and body else []
    return "\r\n".join([*filter(None, head), *fields]).encode("latin1") + b"\r\n\r\n" + body


# What is sent to the gateways' door of this machine, and the statuses that it may have.
Made = Callable[[World], bytes]
BYTES: dict[str, tuple[Made, set[int]]] = {
    "a plain one": (lambda w: request(w), {200}),
    "the length twice": (lambda w: request(w, f"Content-Length: {len(GOOD)}"), {200}),
    "two lengths": (lambda w: request(w, "Content-Length: 5"), {400}),
    "a length with a sign": (
        lambda w: request(w, f"Content-Length: +{len(GOOD)}", is_long=False),
        {400},
    ),
    "an empty length": (lambda w: request(w, "Content-Length: ", is_long=False), {400}),
    "a length below 0": (lambda w: request(w, "Content-Length: -1", is_long=False), {400}),
    "a length in hex": (lambda w: request(w, "Content-Length: 0x10", is_long=False), {400}),
    "a length of 5,000,000": (
        lambda w: request(w, "Content-Length: 5000000", is_long=False),
        {413},
    ),
    "a length of 10^19": (
        lambda w: request(w, f"Content-Length: 1{19 * '0'}", is_long=False),
        {413},
    ),
    "a length of 65,537": (lambda w: request(w, "Content-Length: 65537", is_long=False), {413}),
    "a body of 65,537 bytes": (lambda w: request(w, body=GOOD + b" " * (65537 - len(GOOD))), {413}),
    "a body of 65,536 bytes": (lambda w: request(w, body=GOOD + b" " * (65536 - len(GOOD))), {200}),
    "no length": (lambda w: request(w, is_long=False, body=b""), {411}),
    "chunks": (
        lambda w: request(w, "Transfer-Encoding: chunked", body=CHUNKS, is_long=False),
        {501},
    ),
    "chunks with a length": (
        lambda w: request(w, "Transfer-Encoding: chunked", body=CHUNKS),
        {400, 501},
    ),
    "chunks where nothing is taken": (
        lambda w: request(w, "Transfer-Encoding: chunked", body=CHUNKS, is_long=False, target="/x"),
        {501},
    ),
    "another coding": (lambda w: request(w, "Transfer-Encoding: gzip"), {400, 501}),
    "a field of 7,000 bytes": (lambda w: request(w, "X: " + "x" * 7000), {200}),
    "a field of 8,100 bytes": (lambda w: request(w, "X: " + "x" * 8100), {431}),
    "a field of 70,000 bytes": (lambda w: request(w, "X: " + "x" * 70000), {400, 431}),
    "a head above the buffer": (lambda w: request(w, "X: " + "x" * 90000), {400, 431}),
    "60 fields": (lambda w: request(w, *(f"X{at}: 1" for at in range(60))), {200}),
    "a hundred fields": (lambda w: request(w, *(f"X{at}: 1" for at in range(101))), {400}),
    "Connection: Content-Length": (lambda w: request(w, "Connection: Content-Length"), {200}),
    "Upgrade: h2c": (lambda w: request(w, "Upgrade: h2c", "Connection: Upgrade"), {200}),
    "Upgrade: websocket": (
        lambda w: request(w, "Upgrade: websocket", "Connection: Upgrade"),
        {200},
    ),
    "Expect: 100-continue": (lambda w: request(w, "Expect: 100-continue"), {200}),
    "another expectation": (lambda w: request(w, "Expect: 200-ok"), {200, 417}),
    "a control character": (lambda w: request(w, "X: a\x01b"), {200, 400}),
    "a NUL": (lambda w: request(w, "X: a\0b"), {200, 400}),
    "an empty field name": (lambda w: request(w, ": x"), {400}),
    "a field name with a space": (lambda w: request(w, "X y: x"), {400}),
    "a folded field": (lambda w: request(w, "X: a\r\n b"), {200, 400}),
    "two hosts": (lambda w: request(w, "Host: evil.example"), {400, 421}),
    "no host": (lambda w: request(w, host=""), {400, 421}),
    "another host": (lambda w: request(w, host="Host: evil.example"), {421}),
    "an absolute target of another host": (
        lambda w: request(w, target="http://evil.example/ccr"),
        {400, 404, 421},
    ),
    "a lower-case method": (lambda w: request(w, method="post"), {405, 411}),
    "TRACE": (lambda w: request(w, method="TRACE", body=b""), {405}),
    "CONNECT": (
        lambda w: request(w, method="CONNECT", body=b"", target="x:1"),
        {400, 404, 405, 421},
    ),
    "HTTP/0.9": (lambda w: b"GET /ccr\r\n\r\n", {400}),
    "HTTP/2.7": (lambda w: request(w, version="HTTP/2.7"), {200, 400, 505}),
    "HTTP/2 by its preface": (
        lambda w: b"PRI * HTTP/2.0\r\n\r\nSM\r\n\r\n" + b"\0" * 20,
        NO_REQUEST | {0, 404},
    ),
    "a greeting of TLS": (
        lambda w: b"\x16\x03\x01\x02\x00\x01\x00\x01\xfc\x03\x03" + b"x" * 200,
        NO_REQUEST,
    ),
    "no request": (lambda w: b"nonsense\r\n\r\n", NO_REQUEST),
    "a target with a query": (lambda w: request(w, target="/ccr?x"), {404}),
    "a target with two slashes": (lambda w: request(w, target="//ccr"), {404}),
    "a target with a dot": (lambda w: request(w, target="/./ccr"), {404}),
    "a target that goes up": (lambda w: request(w, target="/x/../ccr"), {404}),
    "a target in disguise": (lambda w: request(w, target="/%63cr"), {404}),
    "a target with a fragment": (lambda w: request(w, target="/ccr#x"), {400}),
    "a target above ASCII": (lambda w: request(w, target="/ccr\xe9"), {400}),
    "a target with a line's end": (lambda w: request(w, target="/ccr%0a"), {404}),
}


@pytest.mark.parametrize("made, wanted", BYTES.values(), ids=list(BYTES))
def test_bytes(world: World, made: Made, wanted: set[int]) -> None:
    assert status(raw(world.doors["here"], made(world))) in wanted


def test_all_of_these_were_one_debit(world: World, at: Callable[..., Caller]) -> None:
    told = raw(world.doors["here"], request(world))
    assert json.loads(told.partition(b"\r\n\r\n")[2])["Result-Code"] == 2001
    assert charges(at("scripts"), ACCOUNT) == 1


ACCOUNTS = {
    "a percent code": "/accounts/%37%30004",
    "a slash in disguise": f"/accounts/{ACCOUNT}%2fcredits",
    "two slashes": f"//accounts/{ACCOUNT}",
    "a dot": f"/accounts/./{ACCOUNT}",
    "16 digits": "/accounts/1234567890123456",
    "a letter": "/accounts/7000a",
    "an empty one": "/accounts/",
    "digits above ASCII": "/accounts/7%D9%A0",
}


@pytest.mark.parametrize("target", ACCOUNTS.values(), ids=list(ACCOUNTS))
def test_an_account_that_is_none(at: Callable[..., Caller], target: str) -> None:
    assert at("desk").ask("GET", target).status == 404


ID = '"Subscription-Id":{"Subscription-Id-Type":0,"Subscription-Id-Data":"70004"}'
OTHER = ID.replace("70004", "70005")
# An account that HAProxy would read otherwise than the program.
NAMED = {
    "its data twice": (
        '"Subscription-Id-Data":"70004"',
        '"Subscription-Id-Data":"70005","Subscription-Id-Data":"70004"',
    ),
    "the member twice": (ID, f"{OTHER},{ID}"),
    "the member twice, the other behind": (ID, f"{ID},{OTHER}"),
    "with spaces": (ID, f'"Subscription-Id" \t:{{}},{ID}'),
    "over lines": (ID, f'"Subscription-Id"\n:\n{{}},{ID}'),
    "its data in disguise": ("Subscription-Id-Data", r"Subscription-Id-D\u0061ta"),
    "the member in disguise": ("Subscription-Id", r"Subscription-I\u0064"),
    "both": (ID, OTHER + "," + ID.replace("Subscription", r"\u0053ubscription")),
    "not at all": (ID, '"x":1'),
    "by a number": ('"70004"', "70004"),
    "as a list": (ID, f'"Subscription-Id":[{ID.partition(":")[2]}]'),
    "below another": (ID, f'"x":{{{ID}}}'),
    "nested too deep": (ID, '"x":' + "[" * 60 + "]" * 60 + f",{ID}"),
}


@pytest.mark.parametrize("old, new", NAMED.values(), ids=list(NAMED))
def test_an_account_that_is_named_in_another_way(
    at: Callable[..., Caller], old: str, new: str
) -> None:
    before = charges(at("scripts"), ACCOUNT)
    text = json.dumps(debit(ACCOUNT, "named"), separators=(",", ":"))
    assert old in text
    answer = at("here").ask("POST", "/ccr", text.replace(old, new))
    assert answer.status == 400
    assert charges(at("scripts"), ACCOUNT) == before


REDEMPTIONS = {
    "twice": '{"Subscription-Id-Data":"70005","Subscription-Id-Data":"70004","Reference":"v"}',
    "in disguise": r'{"Subscription-Id-Dat\u0061":"70004","Reference":"v"}',
    "not at all": '{"Reference":"v"}',
}


@pytest.mark.parametrize("text", REDEMPTIONS.values(), ids=list(REDEMPTIONS))
def test_a_redemption_that_names_its_account_so(at: Callable[..., Caller], text: str) -> None:
    assert at("shops", "shop-8").ask("POST", "/vouchers/123456789012/redeem", text).status == 400


PASSED = {
    "a text beyond ASCII": json.dumps({**debit(ACCOUNT, "far"), "Name": "caf\u00e9 \u20ac"}),
    "behind deep members": json.dumps(debit(ACCOUNT, "deep"))[:-1]
    + ',"a":'
    + "[" * 60
    + "]" * 60
    + "}",
    "a member of the same beginning": json.dumps(debit(ACCOUNT, "like"))[:-1]
    + ',"Subscription-Id-Datas":"1"}',
}


@pytest.mark.parametrize("text", PASSED.values(), ids=list(PASSED))
def test_bodies_that_are_handed_on(at: Callable[..., Caller], text: str) -> None:
    assert at("here").ask("POST", "/ccr", text).body["Result-Code"] == 2001


SHARDS = ("own", "other", "99", "", "1", "01,02")


@pytest.mark.parametrize(
    "door, name, number",
    [
        (door, name, number)
        for (door, name), number in itertools.product(
            {
                "here": None,
                "gateways": "pgw-2",
                "shops": "shop-8",
                "operators": "ada",
                "desk": None,
            }.items(),
            SHARDS,
        )
    ],
)
def test_a_shard_is_named_by_scripts_alone(
    at: Callable[..., Caller], door: str, name: str | None, number: str
) -> None:
    own = at("scripts").ask("GET", f"/accounts/{ACCOUNT}").shard
    told = {"own": own, "other": "01" if own != "01" else "02"}.get(number, number)
    before = charges(at("scripts"), ACCOUNT)
    for method, target, body in (
        ("POST", "/ccr", debit(ACCOUNT, f"shard-{number}")),
        ("GET", f"/accounts/{ACCOUNT}", None),
        ("PUT", f"/accounts/{ACCOUNT}", None),
    ):
        assert at(door, name).ask(method, target, body, Office_Shard=told).status == 403
    assert charges(at("scripts"), ACCOUNT) == before


def test_a_script_names_a_shard(at: Callable[..., Caller]) -> None:
    script = at("scripts")
    own = script.ask("GET", f"/accounts/{ACCOUNT}").shard
    other = "01" if own != "01" else "02"
    path = f"/accounts/{ACCOUNT}"
    assert script.ask("GET", path, Office_Shard=other).body == {"Refusal": "O2"}
    assert script.ask("GET", path, Office_Shard=own).body["Account"] == ACCOUNT
    for number in ("99", "00", "1", "", "01,02", "02,01"):
        assert script.ask("GET", path, Office_Shard=number).status == 404
    assert script.ask("POST", "/sweep").status == 400


def test_who_is_given_the_shards_number(at: Callable[..., Caller]) -> None:
    assert at("here").ask("POST", "/ccr", debit(ACCOUNT, "told")).shard == ""
    assert at("shops", "shop-8").ask("GET", f"/accounts/{ACCOUNT}").shard == ""
    own = at("scripts").ask("GET", f"/accounts/{ACCOUNT}").shard
    assert own in ("01", "02", "03", "04")
    assert at("operators", "ada").ask("GET", f"/accounts/{ACCOUNT}").shard == own


def test_each_answer_has_an_id_and_is_kept_by_nobody(at: Callable[..., Caller]) -> None:
    for answer in (
        at("here").ask("GET", "/nothing"),
        at("desk").ask("GET", f"/accounts/{ACCOUNT}"),
    ):
        assert len(answer.fields["x-request-id"]) == 36
        assert answer.fields["cache-control"] == "no-store"
        assert answer.fields["x-content-type-options"] == "nosniff"


def test_a_shard_is_handed_four_things(world: World, at: Callable[..., Caller]) -> None:
    """Fields of a client end no connection of a shard: none of these makes it say 431 or 501."""
    fields = {f"X_{letter}": letter * 900 for letter in "abcdefg"}
    answer = at("desk").ask("GET", f"/accounts/{ACCOUNT}", Expect="200-ok", **fields)
    assert answer.status == 200


def test_a_head_that_stops_is_ended(world: World) -> None:
    told = raw(world.doors["here"], b"POST /ccr HTTP/1.1\r\nHost: x\r\n", seconds=6)
    assert status(told) == 408


def test_a_body_that_stops_is_ended(world: World) -> None:
    told = raw(
        world.doors["here"],
        request(world, "Content-Length: 400", body=b"{", is_long=False),
        seconds=6,
    )
    assert status(told) == 408


def test_a_client_that_ends_its_sending_in_a_body(world: World, at: Callable[..., Caller]) -> None:
    before = charges(at("scripts"), ACCOUNT)
    cut = request(world, f"Content-Length: {len(GOOD)}", body=GOOD[:-20], is_long=False)
    assert status(raw(world.doors["here"], cut, is_half=True)) in (0, 400, 408)
    assert charges(at("scripts"), ACCOUNT) == before
