"""Who may ask what: each kind of caller at each target by each method."""
from __future__ import annotations

import itertools
import time
from collections.abc import Callable

import pytest
from support.callers import LEFT_OUT, Caller, debit, opened, refund
from support.world import World

ACCOUNT = "70001"
# Each target, with the methods that some role has there.
TARGETS = {
    "/ccr": ("POST",),
    f"/accounts/{ACCOUNT}": ("GET", "PUT"),
    f"/accounts/{ACCOUNT}/statement/202601": ("GET",),
    f"/accounts/{ACCOUNT}/credits": ("POST",),
    f"/accounts/{ACCOUNT}/allowances": ("POST",),
    "/vouchers/999999999999/redeem": ("POST",),
    "/sweep": ("POST",),
    "/office": ("GET",),
    "/office/console.js": ("GET",),
    "/office/console.css": ("GET",),
    "/office/me": ("GET",),
    "/health": ("GET",),
    "/health/01": ("GET",),
    "/metrics": ("GET",),
    "/nothing": (),
    f"/accounts/{ACCOUNT}/": (),
    "/": (),
}
METHODS = ("GET", "POST", "PUT", "DELETE", "HEAD", "OPTIONS", "PATCH")
PAGE = {("GET", target) for target in TARGETS if target.startswith("/office")}
OPERATOR = {
    ("POST", "/ccr"),
    ("GET", f"/accounts/{ACCOUNT}"),
    ("PUT", f"/accounts/{ACCOUNT}"),
    ("GET", f"/accounts/{ACCOUNT}/statement/202601"),
    ("POST", f"/accounts/{ACCOUNT}/credits"),
    ("POST", f"/accounts/{ACCOUNT}/allowances"),
    ("POST", "/vouchers/999999999999/redeem"),
    *PAGE,
    ("GET", "/health"),
}
OWN = {*PAGE, ("GET", "/health")}
SHOP = {
    ("POST", "/ccr"),
    ("GET", f"/accounts/{ACCOUNT}"),
    ("GET", f"/accounts/{ACCOUNT}/statement/202601"),
    ("POST", "/vouchers/999999999999/redeem"),
}
MAY = {
    "gateway": {("POST", "/ccr"), ("GET", "/health")},
    "shop": SHOP | PAGE,
    "shop without a page": SHOP,
    "operator": OPERATOR,
    "reader": {(method, target) for method, target in OPERATOR if method == "GET"},
    "script": OPERATOR - OWN | {("POST", "/sweep")},
    "watcher": {("GET", "/health"), ("GET", "/health/01"), ("GET", "/metrics")},
}
# Role, door, name.
CALLERS = {
    "gateway by certificate": ("gateway", "gateways", "pgw-2"),
    "gateway of this machine": ("gateway", "here", None),
    "shop by certificate": ("shop", "shops", "shop-8"),
    "shop of this machine": ("shop without a page", "counter", None),
    "operator by certificate": ("operator", "operators", "ada"),
    "operator of this machine": ("operator", "desk", None),
    "reader by certificate": ("reader", "operators", "audit"),
    "script": ("script", "scripts", None),
    "watcher": ("watcher", "measures", None),
}


@pytest.fixture(scope="module", autouse=True)
def account(world: World) -> None:
    """The account that is asked about is open."""
    opened(Caller(world, world.place / "office.sock"), ACCOUNT)


def wanted(role: str, method: str, target: str) -> set[int]:
    """What a role is answered. Bodies are empty, so what reaches a shard is 200 or 400."""
    if not TARGETS[target]:
        return {404}
    if method not in TARGETS[target]:
        return {405}
    return {200, 400} if (method, target) in MAY[role] else {403}


@pytest.mark.parametrize("who, target, method", list(itertools.product(CALLERS, TARGETS, METHODS)))
def test_a_caller_at_a_target(
    at: Callable[..., Caller], who: str, target: str, method: str
) -> None:
    role, door, name = CALLERS[who]
    shard = "04" if (role, target) == ("script", "/sweep") else LEFT_OUT
    answer = at(door, name).ask(method, target, Office_Shard=shard)
    assert answer.status in wanted(role, method, target)


def test_an_operator_may_ask_for_units(at: Callable[..., Caller]) -> None:
    body = debit(ACCOUNT, "by-operator")
    assert at("operators", "ada").ask("POST", "/ccr", body).body["Result-Code"] == 4012


REFUNDS = {
    "a gateway without the right": ("gateways", "pgw-1", 403),
    "a gateway with it": ("gateways", "pgw-2", 200),
    "whoever is at a gateways' door of this machine": ("here", None, 403),
    "whoever is at one that may refund": ("refunding", None, 200),
    "an operator": ("operators", "ada", 200),
    "an operator who only reads": ("operators", "audit", 403),
    "a script": ("scripts", None, 200),
}


@pytest.mark.parametrize("door, name, status", REFUNDS.values(), ids=list(REFUNDS))
def test_a_refund_is_a_right_of_its_own(
    at: Callable[..., Caller], door: str, name: str | None, status: int
) -> None:
    account = opened(at("scripts"), "70050")
    before = len(at("scripts").ask("GET", f"/accounts/{account}").body["Buckets"])
    answer = at(door, name).ask("POST", "/ccr", refund(account, f"refund-{door}-{name}"))
    after = len(at("scripts").ask("GET", f"/accounts/{account}").body["Buckets"])
    assert (answer.status, after - before) == (status, int(status == 200))


HIDDEN = {
    "with spaces": '"Requested-Action" \t\r\n: \n 1',
    "a second time": '"Requested-Action":0,"Requested-Action":1',
    "a first time": '"Requested-Action":1,"Requested-Action":0',
    "in disguise": r'"Requested-\u0041ction":1',
    "as a fraction": '"Requested-Action":1.0',
    "as a power": '"Requested-Action":1e0',
}


@pytest.mark.parametrize("text", HIDDEN.values(), ids=list(HIDDEN))
def test_a_refund_that_is_hidden(at: Callable[..., Caller], text: str) -> None:
    account = opened(at("scripts"), "70051")
    body = refund(account, f"hidden-{time.monotonic()}")
    del body["Requested-Action"]
    sent = str(body).replace("'", '"')[:-1] + f", {text}}}"
    assert at("gateways", "pgw-1").ask("POST", "/ccr", sent).status in (400, 403)
    assert at("scripts").ask("GET", f"/accounts/{account}").body["Buckets"] == []
