"""How the doors serve the page: its parts, its policy, who asks; and pages of other origins."""
from __future__ import annotations

import base64
import hashlib
import http.server
import json
import re
import threading
from collections.abc import Iterator

import pytest
from support import ports
from support.callers import Caller
from support.world import DEPLOY, World

from console.office import ACCOUNT, SECRET, balance
from console.person import Person

CONSOLE = DEPLOY / "console"
KINDS = {"console.js": "text/javascript; charset=utf-8", "console.css": "text/css; charset=utf-8"}
ME = {
    "desk": {"Name": "desk", "Role": "operator", "Changes": True, "Seconds": 12},
    "counter": {"Name": "counter", "Role": "shop", "Changes": True, "Seconds": 12},
    "ada": {"Name": "ada", "Role": "operator", "Changes": True, "Seconds": 12},
    "rosa": {"Name": "rosa", "Role": "operator", "Changes": False, "Seconds": 12},
}


def hash_of(name: str) -> str:
    """A file's hash as a policy names it."""
    digest = hashlib.sha256((CONSOLE / name).read_bytes()).digest()
    return f"sha256-{base64.b64encode(digest).decode()}"


def test_the_page_names_its_parts_by_hash() -> None:
    """Where this fails, console.html has to say the hash that the message says."""
    text = (CONSOLE / "console.html").read_text(encoding="utf-8")
    named = dict(re.findall(r'"/office/([a-z.]+)" integrity="([^"]*)"', text))
    assert named == {name: hash_of(name) for name in KINDS}


@pytest.mark.parametrize("door", ["desk", "counter"])
def test_the_page_and_its_parts(world: World, door: str) -> None:
    caller = Caller(world, world.doors[door])
    page = caller.ask("GET", "/office")
    assert page.text == (CONSOLE / "console.html").read_text(encoding="utf-8")
    assert page.fields["content-type"] == "text/html; charset=utf-8"
    policy = page.fields["content-security-policy"]
    assert f"script-src '{hash_of('console.js')}'; style-src 'self'" in policy
    assert policy.startswith("default-src 'none'; connect-src 'self'; ") and "unsafe" not in policy
    for name, kind in KINDS.items():
        part = caller.ask("GET", f"/office/{name}", Sec_Fetch_Site="same-origin")
        assert part.text == (CONSOLE / name).read_text(encoding="utf-8")
        assert part.fields["content-type"] == kind
        assert part.fields["x-content-type-options"] == "nosniff"
        assert caller.ask("GET", f"/office/{name}", Sec_Fetch_Site="cross-site").status == 403


def test_no_part_makes_texts_to_elements() -> None:
    text = (CONSOLE / "console.js").read_text(encoding="utf-8")
    page = (CONSOLE / "console.html").read_text(encoding="utf-8")
    assert not re.search(r"innerHTML|outerHTML|insertAdjacentHTML|document\.write|eval\(", text)
    assert not re.search(r"https?://(?!www\.w3\.org/2000/svg)", text + page)
    assert not re.search(r"<(script|style)[^>]*>[^<]|\son[a-z]+=|\sstyle=", page)


@pytest.mark.parametrize("who", list(ME))
def test_a_door_says_who_asks(world: World, who: str) -> None:
    is_named = who in ("ada", "rosa")
    caller = Caller(world, world.doors["operators" if is_named else who], is_named)
    fields = {}
    if is_named:
        word = base64.b64encode(f"{who}:{SECRET}".encode()).decode()
        fields["Authorization"] = f"Basic {word}"
    answer = caller.ask("GET", "/office/me", **fields)
    assert (answer.status, answer.body) == (200, ME[who])


def test_a_page_for_another_script_isnt_served(world: World) -> None:
    """A page beside parts that aren't its own is refused before HAProxy reads it."""
    folder = world.place / "other"
    folder.mkdir()
    for name in ("console.html", *KINDS):
        (folder / name).write_bytes((CONSOLE / name).read_bytes())
    (folder / "console.js").write_text("alert(1);\n")
    text = world.file.read_text()
    try:
        world.file.write_text(text.replace(str(CONSOLE), str(folder)))
        told = world.office("doors")
        assert (told.returncode, told.stdout) == (1, "")
        assert "is made for another console.js: its hash is sha256-" in told.stderr
        (folder / "console.css").unlink()
        assert "console.css: No such file" in world.office("check").stderr
    finally:
        world.file.write_text(text)


class AnotherSite(http.server.BaseHTTPRequestHandler):
    """Another site's page."""

    def do_GET(self) -> None:
        text = b"<!doctype html><title>another site</title><h1>another site</h1>"
        self.send_response(200)
        self.send_header("Content-Type", "text/html")
        self.send_header("Content-Length", str(len(text)))
        self.end_headers()
        self.wfile.write(text)

    def log_message(self, *_: object) -> None:
        """Prints nothing."""


@pytest.fixture(scope="module")
def site() -> Iterator[int]:
    """The port of another site."""
    server = http.server.ThreadingHTTPServer(("127.0.0.1", ports.free()), AnotherSite)
    threading.Thread(target=server.serve_forever, daemon=True).start()
    yield server.server_port
    server.shutdown()
    server.server_close()


@pytest.fixture
def visitor(tmp_path_factory: pytest.TempPathFactory) -> Iterator[Person]:
    """Somebody who is at another site with a browser that reaches the doors."""
    one = Person(tmp_path_factory.mktemp("visitor"))
    yield one
    one.end()


TRIES = """Promise.allSettled([
    fetch(TO + '/accounts/ACCOUNT/credits', {method: 'POST', mode: 'no-cors', body: BODY}),
    fetch(TO + '/accounts/ACCOUNT/credits', {method: 'POST', headers: {'Content-Type': 'application/json'}, body: BODY}),
    fetch(TO + '/office/agent/redeem', {method: 'POST', headers: {'Content-Type': 'application/json'}, body: BODY}),
    fetch(TO + '/accounts/ACCOUNT').then(one => one.text()),
    fetch(TO + '/office/me').then(one => one.text()),
    fetch(TO + '/office/console.js').then(one => one.text()),
]).then(all => all.map(one => String(one.value)))"""


@pytest.mark.parametrize("door", ["desk", "counter"])
def test_a_page_of_another_origin(world: World, visitor: Person, site: int, door: str) -> None:
    before = balance(world)
    visitor.open(f"http://127.0.0.1:{site}/")
    to = json.dumps(f"http://127.0.0.1:{world.doors[door]}")
    body = json.dumps(json.dumps({"Amount": 9, "Reference": "from-elsewhere"}))
    tries = TRIES.replace("TO", to).replace("ACCOUNT", ACCOUNT).replace("BODY", body)
    told = visitor.value(tries)
    assert told[1:] == ["undefined"] * 5 and "Bucket" not in told[0]
    assert balance(world) == before


def test_a_link_of_another_site_leads_to_the_page(world: World, visitor: Person, site: int) -> None:
    """A link opens the page, and does nothing else, whatever stands behind its #."""
    before = balance(world)
    visitor.open(f"http://127.0.0.1:{site}/")
    visitor.value(f"location.href = 'http://127.0.0.1:{world.doors['desk']}/office#{ACCOUNT}'")
    visitor.is_counted("shown", 0)
    assert visitor.text("#balance-title") == f"Account {ACCOUNT}"
    assert balance(world) == before
