"""The shard of an account is the one that HAProxy chooses, for other numbers of shards too."""
from __future__ import annotations

import asyncio
import dataclasses
import http.client
import pathlib
import subprocess
import threading
from collections.abc import Iterator

import pytest
from support import ports
from support.waiting import until

from office import settings, shards
from office.doors import configuration

ACCOUNTS = [str(at) for at in range(49151, 49251)] + [
    f"{at:015}" for at in range(0, 10**9, 10**7)
]
ANSWER = b"HTTP/1.1 200 OK\r\nContent-Length: 2\r\n\r\n{}"
MOST = 99


async def answer(reader: asyncio.StreamReader, writer: asyncio.StreamWriter) -> None:
    """Answers each request of a connection; none has a body."""
    while await reader.readline():
        while (await reader.readline()).strip():
            pass
        writer.write(ANSWER)
        await writer.drain()
    writer.close()


@pytest.fixture(scope="module")
def first() -> Iterator[int]:
    """Servers on the ports after this one."""
    port, loop = ports.free(MOST + 2), asyncio.new_event_loop()
    servers = [
        loop.run_until_complete(asyncio.start_server(answer, "127.0.0.1", port + at))
        for at in range(1, MOST + 1)
    ]
    thread = threading.Thread(target=loop.run_forever, daemon=True)
    thread.start()
    yield port
    loop.call_soon_threadsafe(loop.stop)
    thread.join(10)
    for server in servers:
        server.close()


@pytest.mark.parametrize("count, more", [(1, 0), (2, 0), (3, 0), (4, 1), (7, 0), (12, 0), (99, 0)])
def test_homes_are_haproxys(tmp_path: pathlib.Path, first: int, count: int, more: int) -> None:
    desk = first + MOST + 1
    door = settings.Door(name="desk", role="operator", at=f"127.0.0.1:{desk}")
    told = settings.Settings()
    page = tmp_path / "page"
    page.write_text("<p>")
    moved = tmp_path / "moved"
    moved.write_text("49151 05\n" if more else "")
    office = dataclasses.replace(
        told.office, shards=count, more=more, first_port=first, page=str(page), moved=str(moved)
    )
    proxy = settings.Proxy(user="", sockets=str(tmp_path))
    told = dataclasses.replace(told, office=office, haproxy=proxy, doors=(door,))
    (tmp_path / "haproxy.cfg").write_text(configuration.text(told))
    words = ["haproxy", "-db", "-f", str(tmp_path / "haproxy.cfg")]
    with subprocess.Popen(words, stdout=subprocess.DEVNULL, stderr=subprocess.DEVNULL) as haproxy:
        try:
            until(lambda: ports.listens(desk), "HAProxy")
            homes = shards.Homes(told)
            assert found(desk) == {account: homes.home(account).number for account in ACCOUNTS}
        finally:
            haproxy.terminate()


def found(port: int) -> dict[str, str]:
    """The shard that each account reaches."""
    kept = http.client.HTTPConnection("127.0.0.1", port, timeout=10)
    made = {}
    for account in ACCOUNTS:
        kept.request("GET", f"/accounts/{account}")
        told = kept.getresponse()
        told.read()
        made[account] = told.headers["Office-Shard"]
    kept.close()
    return made
