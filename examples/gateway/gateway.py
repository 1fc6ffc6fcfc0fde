#!/usr/bin/env python3
"""A gateway's side of a call of so many seconds of rating group 10.

    gateway.py OFFICE SUBSCRIBER SESSION SECONDS [MOMENT]

OFFICE is http://HOST:PORT, or https://HOST:PORT with --cacert, --cert and --key. The call
begins at the machine's moment, or at MOMENT, and then no second is waited for. Each
answer is a line of standard output. The exit status is 0 if all that was used was
reported; 1 if not, and then the last line of standard error says how much and why; 2 if
the words are wrong."""
from __future__ import annotations

import argparse
import dataclasses
import http.client
import json
import ssl
import sys
import time
import urllib.parse
from typing import Any

Json = dict[str, Any]

GROUP, SERVICES = 10, "Multiple-Services-Credit-Control"
INITIAL, UPDATE, TERMINATION = 1, 2, 3
DONE = 2001
# What an answer repeats of its request.
KEY = ("Session-Id", "CC-Request-Type", "CC-Request-Number")
# Seconds before the same is sent again, at first and at most.
FIRST_WAIT, LONGEST_WAIT = 0.1, 10.0
# Seconds for which a connection is kept that isn't used. The program ends it after 30.
KEPT = 20


class NoAnswer(Exception):
    """The office gave no answer for as long as it was asked."""


def main() -> int:
    words = read_words()
    began = int(time.time()) if words.moment is None else words.moment
    call = Call(words.subscriber, words.session, words.seconds, began)
    try:
        last = run(call, Office(words), words.moment is None)
        if not call.used:
            return 0
        why = json.dumps(last)
    except NoAnswer as fault:
        why = str(fault)
    seconds = sum(part["CC-Time"] for part in call.used)
    request = f"request {call.number} of session {call.session}"
    print(f"{seconds} used seconds aren't reported: {request}: {why}", file=sys.stderr)
    return 1


def read_words() -> argparse.Namespace:
    plain = argparse.RawDescriptionHelpFormatter
    reader = argparse.ArgumentParser(description=__doc__, formatter_class=plain)
    reader.add_argument("office", metavar="OFFICE", type=urllib.parse.urlsplit)
    reader.add_argument("subscriber", metavar="SUBSCRIBER")
    reader.add_argument("session", metavar="SESSION")
    reader.add_argument("seconds", metavar="SECONDS", type=int)
    reader.add_argument("moment", metavar="MOMENT", type=int, nargs="?")
    reader.add_argument("--cacert", help="the authority of the office's certificate")
    reader.add_argument("--cert", help="the gateway's certificate")
    reader.add_argument("--key", help="its key, if it isn't in the file of --cert")
    wait = "seconds for an answer, more than the office needs for a 504 (%(default)s)"
    reader.add_argument("--wait", type=float, default=75, help=wait)
    patience = "seconds in which the same is sent again (%(default)s)"
    reader.add_argument("--patience", type=float, default=7200, help=patience)
    words = reader.parse_args()
    if words.office.scheme not in ("http", "https"):
        reader.error("OFFICE is http://HOST:PORT or https://HOST:PORT")
    return words


def run(call: Call, office: Office, is_live: bool) -> Json:
    """Takes the call to its end, and gives the last answer."""
    while True:
        request = call.request()
        answer = office.ask(request)
        call.moment = int(time.time()) if is_live else call.moment
        print(call.moment, json.dumps(answer.get(SERVICES, answer)), flush=True)
        if answer["Result-Code"] != DONE:
            return answer
        call.used = []
        if request["CC-Request-Type"] == TERMINATION:
            return answer
        office.rest(call.use(answer[SERVICES][0]), is_live)
        call.number += 1


@dataclasses.dataclass
class Call:
    """A call as its gateway knows it."""

    subscriber: str
    session: str
    left: int  # the seconds that are still wanted
    moment: int
    number: int = 0
    # What was used and isn't settled.
    used: list[dict[str, int]] = dataclasses.field(default_factory=list)

    def request(self) -> Json:
        """The next request: the first one, one for more, or the last one."""
        kind = INITIAL if self.number == 0 else UPDATE if self.left else TERMINATION
        service: Json = {"Rating-Group": GROUP}
        service |= {"Requested-Service-Unit": {}} if self.left else {}
        service |= {"Used-Service-Unit": self.used} if self.used else {}
        subscriber = {
            "Subscription-Id-Type": 0,
            "Subscription-Id-Data": self.subscriber,
        }
        return {
            "Session-Id": self.session,
            "CC-Request-Type": kind,
            "CC-Request-Number": self.number,
            "Subscription-Id": subscriber,
            SERVICES: [service],
        }

    def use(self, service: Json) -> int:
        """Uses what is granted, apart before and after a change of the tariff, and gives
        the seconds of it. Where nothing is granted the call ends."""
        if service["Result-Code"] != DONE:
            self.left = 0
            return 0
        units = service["Granted-Service-Unit"]
        going: int = min(self.left, units["CC-Time"], service["Validity-Time"])
        change = units.get("Tariff-Time-Change", self.moment + going)
        before = min(going, max(0, change - self.moment))
        self.used = [
            {"CC-Time": before, "Tariff-Change-Usage": 0},
            {"CC-Time": going - before, "Tariff-Change-Usage": 1},
        ]
        self.used = self.used if before < going else [{"CC-Time": going}]
        self.left = 0 if "Final-Unit-Indication" in service else self.left - going
        self.moment += going
        return going


class Office:
    """The office, over a connection that is kept."""

    def __init__(self, words: argparse.Namespace) -> None:
        self.connection = connection_to(words)
        self.patience = words.patience

    def ask(self, request: Json) -> Json:
        """The answer. Until it comes the very same bytes are sent again: a repeat of what
        was accepted gets the first answer, and changes nothing."""
        body, wait = json.dumps(request).encode(), FIRST_WAIT
        until = time.monotonic() + self.patience
        while True:
            status, text = self.send(body)
            answer = answer_of(request, status, text)
            if answer is not None:
                return answer
            if status == 200:
                # What comes on this connection may be the answer to another request.
                self.connection.close()
            came = " ".join(text.decode(errors="replace").split())[:200]
            why = f"no answer ({status or 'nothing'}: {came})"
            if time.monotonic() + wait > until:
                raise NoAnswer(why)
            if wait == LONGEST_WAIT:
                print(f"{why}: the same again in {wait:g} seconds", file=sys.stderr)
            time.sleep(wait)
            wait = min(2 * wait, LONGEST_WAIT)

    def send(self, body: bytes) -> tuple[int, bytes]:
        """The status and the body that come, or 0 and why nothing comes whole."""
        head = {"Content-Type": "application/json"}
        try:
            self.connection.request("POST", "/ccr", body, head)
            came = self.connection.getresponse()
            return came.status, came.read()
        except (OSError, http.client.HTTPException) as fault:
            self.connection.close()
            return 0, repr(fault).encode()

    def rest(self, seconds: int, is_live: bool) -> None:
        """Waits for the next request, without the connection if that is long."""
        if seconds > KEPT:
            self.connection.close()
        time.sleep(seconds if is_live else 0)


def connection_to(words: argparse.Namespace) -> http.client.HTTPConnection:
    """A connection, which opens with its first request."""
    host, wait = words.office.netloc, words.wait
    if words.office.scheme == "http":
        return http.client.HTTPConnection(host, timeout=wait)
    tls = ssl.create_default_context(cafile=words.cacert)
    if words.cert:
        tls.load_cert_chain(words.cert, words.key)
    return http.client.HTTPSConnection(host, timeout=wait, context=tls)


def answer_of(request: Json, status: int, text: bytes) -> Json | None:
    """The answer to this request: 200 with a Result-Code, of its session and number. All
    else is none, and says nothing sure of whether the request was accepted."""
    try:
        told = json.loads(text)
    except ValueError:
        return None
    if status != 200 or not isinstance(told, dict) or "Result-Code" not in told:
        return None
    return told if all(told.get(key) == request[key] for key in KEY) else None


if __name__ == "__main__":
    sys.exit(main())
