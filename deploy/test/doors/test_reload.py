"""HAProxy is reloaded in the middle of requests: each is answered, and done once."""
from __future__ import annotations

import http.client
import json
import threading
import time
from collections.abc import Callable

from support.callers import Caller, Connection, asked, charges, debit, opened
from support.waiting import until
from support.world import World

GATEWAYS, RELOADS = 6, 4
JSON = {"Content-Type": "application/json"}


class Gateway(threading.Thread):
    """Asks for debits over a kept connection; what isn't answered is asked again."""

    def __init__(self, caller: Caller, account: str, ends: threading.Event) -> None:
        super().__init__(daemon=True)
        self.caller, self.account, self.ends = caller, account, ends
        self.done, self.again, self.wrong = 0, 0, list[str]()

    def run(self) -> None:
        one = self.caller.connection()
        while not self.ends.is_set():
            one = self.ask(one, f"reload-{self.account}-{self.done}")
            self.done += 1
        one.close()

    def ask(self, one: Connection, session: str) -> Connection:
        """Asks until there is an answer; the connection that is open then."""
        while True:
            try:
                answer = asked(one, "POST", "/ccr", debit(self.account, session))
            except (OSError, http.client.HTTPException):
                self.again += 1
                one.close()
                one = self.caller.connection()
                continue
            if answer.status != 200 or '"Result-Code":2001' not in answer.text:
                self.wrong.append(f"{answer.status} {answer.text}")
            return one


def test_a_reload_in_the_middle(world: World, at: Callable[..., Caller]) -> None:
    script, ends = at("scripts"), threading.Event()
    accounts = [opened(script, str(70300 + one), 10**12) for one in range(GATEWAYS)]
    gateways = [
        Gateway(at("gateways", "pgw-2") if one % 2 else at("here"), account, ends)
        for one, account in enumerate(accounts)
    ]
    for gateway in gateways:
        gateway.start()
    for _ in range(RELOADS):
        time.sleep(0.7)
        world.reload()
    time.sleep(0.7)
    ends.set()
    for gateway in gateways:
        gateway.join(60)
    assert [gateway.wrong for gateway in gateways] == [[]] * GATEWAYS
    assert all(gateway.done for gateway in gateways)
    assert [charges(script, account) for account in accounts] == [one.done for one in gateways]


def test_a_request_of_the_process_before_has_its_turn(
    world: World, at: Callable[..., Caller]
) -> None:
    """It waited while HAProxy was reloaded, its shard had no connection for it, and the new
    process asks that shard without a pause."""
    script, told = at("scripts"), list[int]()
    account = opened(script, "70310", 10**12)
    home = int(script.ask("GET", f"/accounts/{account}").shard)
    late = threading.Thread(target=lambda: told.append(debited(at, account, "late")), daemon=True)
    with world.still(home):
        first = at("here").connection()
        first.request("POST", "/ccr", json.dumps(debit(account, "first")), JSON)
        until(lambda: world.asked(home) == 1, "a request in the shard's hands")
        late.start()
        until(lambda: world.waiting() == 1, "a request that waits")
        world.reload()
        after = threading.Thread(target=debited, args=(at, account, "after"), daemon=True)
        after.start()
        until(lambda: world.asked(home) == 1, "a request of the new process")
        first.close()
    asked_since = 0
    while not told:
        assert debited(at, account, f"since-{asked_since}") == 200
        asked_since += 1
    assert told == [200]
    after.join(60)


def debited(at: Callable[..., Caller], account: str, session: str) -> int:
    """The status of a debit's answer."""
    return at("here").patient(60).ask("POST", "/ccr", debit(account, f"turn-{session}")).status
