"""Requests of chance: JSON to AVPs by hand, through the bridge, to a stub that has to see the same JSON;
answers of chance back; and requests with bytes changed by chance."""
from __future__ import annotations

import random
import socket
from typing import Any

import pytest
from diameter.bridge import Stub
from diameter.wire import (
    PATIENCE,
    Avp,
    Gateway,
    M,
    Message,
    V,
    ccr,
    greeting,
    message,
    money,
    read_raw,
    service,
)

MSCC, RSU, USU = (
    "Multiple-Services-Credit-Control",
    "Requested-Service-Unit",
    "Used-Service-Unit",
)
GSU, TAG = "Granted-Service-Unit", "Tariff-Change-Usage"
MEMBERS = {10: "CC-Time", 20: "CC-Total-Octets", 30: "CC-Service-Specific-Units"}
MOST = {10: 2**32 - 1, 20: 10**18, 30: 10**18}
NTP = 2208988800


def request(dice: random.Random, at: int) -> tuple[dict[str, Any], list[Avp]]:
    """A request as JSON and its AVPs."""
    kind = dice.choice((1, 2, 3, 4))
    name = "".join(chr(dice.randrange(0x21, 0x7F)) for _ in range(dice.randrange(100)))
    digits = "".join(dice.choice("0123456789") for _ in range(dice.randrange(1, 16)))
    body: dict[str, Any] = {
        "Session-Id": f"z{at};{name}",
        "CC-Request-Type": kind,
        "CC-Request-Number": dice.randrange(2**32),
        "Subscription-Id": {"Subscription-Id-Type": 0, "Subscription-Id-Data": digits},
    }
    avps: list[Avp] = []
    if kind == 4:
        body["Requested-Action"] = dice.randrange(4)
        avps.append(("Requested-Action", body["Requested-Action"]))
    if body.get("Requested-Action") == 1:
        value = dice.randrange(1, 2**63), dice.randrange(-6, 1), dice.randrange(1000)
        unit = {"Value-Digits": value[0], "Exponent": value[1]}
        body[RSU] = {"CC-Money": {"Unit-Value": unit, "Currency-Code": value[2]}}
        return body, [*avps, (RSU, money(*value))]
    count = 1 if kind == 4 else dice.randrange(0 if kind == 3 else 1, 4)
    told = [part(dice, kind, group) for group in dice.sample((10, 20, 30), count)]
    body[MSCC] = [each for each, _ in told]
    return body, avps + [each for _, each in told]


def part(dice: random.Random, kind: int, group: int) -> tuple[dict[str, Any], Avp]:
    """A service as JSON and as an AVP."""
    member, told = MEMBERS[group], {"Rating-Group": group}
    more: dict[str, Any] = {}
    wanted: list[Avp] | None = None
    used: list[list[Avp]] = []
    if kind in (1, 4) or kind == 2 and dice.random() < 0.7:
        more[RSU] = dice.choice(({}, {member: dice.randrange(1, MOST[group] + 1)}))
        wanted = list(more[RSU].items())
    if kind in (2, 3) and dice.random() < 0.8:
        tags = dice.sample((None, 0, 1, 2), dice.randrange(1, 5))
        rows = [(tag, dice.randrange(MOST[group] + 1)) for tag in tags]
        for tag, n in rows:
            used.append([(member, n)] if tag is None else [(member, n), (TAG, tag)])
        rows.sort(key=lambda row: 9 if row[0] is None else row[0])
        more[USU] = [{member: n} | ({} if tag is None else {TAG: tag}) for tag, n in rows]
    return told | more, service(group, wanted, used)


def answer_to(dice: random.Random, body: dict[str, Any]) -> dict[str, Any]:
    """An answer of a form that the office has."""
    code = dice.choice((2001, 2001, 2001, 4010, 4012, 5031, 5012))
    made = {name: body[name] for name in ("CC-Request-Number", "CC-Request-Type", "Session-Id")}
    made["Result-Code"] = code
    action = body.get("Requested-Action")
    if code != 2001:
        return made
    if action == 2:
        made["Check-Balance-Result"] = dice.randrange(2)
    elif action == 3:
        value = {"Exponent": -6, "Value-Digits": dice.randrange(10**18)}
        made["Cost-Information"] = {"Currency-Code": dice.randrange(1, 1000), "Unit-Value": value}
    elif MSCC in body:
        made[MSCC] = [granted(dice, body["CC-Request-Type"], each) for each in body[MSCC]]
    return made


def granted(dice: random.Random, kind: int, asked: dict[str, Any]) -> dict[str, Any]:
    """A service of an answer."""
    group = asked["Rating-Group"]
    code = dice.choice((2001, 2001, 4010, 4012, 5031))
    made: dict[str, Any] = {"Rating-Group": group, "Result-Code": code}
    if code != 2001 or RSU not in asked:
        return made
    made[GSU] = {MEMBERS[group]: dice.randrange(1, 2**32)}
    if kind == 4:
        return made
    made["Validity-Time"] = dice.randrange(1, 43201)
    if dice.random() < 0.5:
        made[GSU]["Tariff-Time-Change"] = dice.randrange(60, 4102444799) // 60 * 60
    if dice.random() < 0.5:
        server = {
            "Redirect-Address-Type": 2,
            "Redirect-Server-Address": f"http://a.example/{group}",
        }
        final = {"Final-Unit-Action": 1, "Redirect-Server": server}
        made["Final-Unit-Indication"] = dice.choice(({"Final-Unit-Action": 0}, final))
    return made


def as_json(answer: Message, wanted: dict[str, Any]) -> dict[str, Any]:
    """An answer's AVPs as the office's JSON, by their names."""
    names = ("CC-Request-Number", "CC-Request-Type", "Result-Code", "Session-Id")
    made = {name: answer.get(name) for name in (*names, "Check-Balance-Result")}
    made = {name: value for name, value in made.items() if value is not None}
    if answer.get("Cost-Information"):
        made["Cost-Information"] = members(answer.get("Cost-Information"))
    if MSCC in wanted:
        made[MSCC] = [members(each) for each in answer.every(MSCC)]
    return made


def members(avps: list[tuple[str, Any]]) -> dict[str, Any]:
    """A group as an object; a time counts from 1970."""
    made: dict[str, Any] = {}
    for name, value in avps:
        if name == "Tariff-Time-Change":
            value += (0 if value >= 2**31 else 2**32) - NTP
        made[name] = members(value) if isinstance(value, list) else value
    return made


RESULT_CODE = bytes.fromhex("0000010c4000000c")


def broken(dice: random.Random, hop: int) -> bytes:
    """A request with some bytes behind its head changed."""
    proxy: Avp = ("Proxy-Info", [("Proxy-Host", "p.example"), ("Proxy-State", b"123")])
    avps = [avp for _, each in (part(dice, 2, 10), part(dice, 2, 20)) for avp in (each, proxy)]
    host: Avp = ("Destination-Host", "ocs.example")
    raw = bytearray(message(*ccr(f"broken;{hop}", 2, hop, host, *avps), hop, hop))
    for _ in range(dice.randrange(1, 5)):
        raw[dice.randrange(20, len(raw))] = dice.choice((0, 1, M, V, 255, dice.randrange(256)))
    return bytes(raw)


@pytest.mark.parametrize("count", [200, pytest.param(3000, marks=pytest.mark.slow)])
def test_broken_requests_have_an_answer(starts: Any, stub: Stub, count: int) -> None:
    """Whatever is in them: each has its own, and none finds a fault of the bridge (5012)."""
    dice, codes = random.Random(count), list[int]()
    bridge = starts(stub.port)
    with socket.create_connection(("127.0.0.1", bridge.port), PATIENCE) as one:
        one.sendall(message(*greeting("gw.example"), 1, 1))
        assert read_raw(one)
        for hop in range(count):
            asked = broken(dice, hop)
            one.sendall(asked)
            answer = read_raw(one)
            assert answer[12:16] == asked[12:16], asked.hex()
            at = answer.index(RESULT_CODE) + len(RESULT_CODE)
            codes.append(int.from_bytes(answer[at : at + 4], "big"))
    assert {2001, 5001, 5014} <= set(codes) and 5012 not in codes
    assert "error" not in bridge.errors.read_text()


@pytest.mark.parametrize("count", [100, pytest.param(1500, marks=pytest.mark.slow)])
def test_requests_of_chance(starts: Any, stub: Stub, count: int) -> None:
    dice = random.Random(7)
    gateway = Gateway(starts(stub.port).port)
    differ = []
    for at in range(count):
        body, avps = request(dice, at)
        reply = answer_to(dice, body)
        stub.plan = lambda _: (200, reply)
        number = body["Subscription-Id"]["Subscription-Id-Data"]
        name, kind = body["Session-Id"], body["CC-Request-Type"]
        answer = gateway.ask(ccr(name, kind, body["CC-Request-Number"], *avps, account=number))
        seen, back = stub.take(), as_json(answer, reply)
        if seen[:1] != [body] or back != reply:
            differ.append((body, seen, reply, back))
    assert differ == []
    gateway.close()
