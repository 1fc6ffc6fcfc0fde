"""Pages of other sites: by their bytes, and as real pages in Chromium."""
from __future__ import annotations

import http.server
import itertools
import json
import threading
from collections.abc import Callable, Iterator

import pytest
from support import ports
from support.browser import Browser
from support.callers import Caller, opened
from support.waiting import until
from support.world import World

ACCOUNT, BODY = "70003", '{"Amount":5000000,"Reference":"evil"}'
CREDITS = f"/accounts/{ACCOUNT}/credits"
DOORS = {
    "here": None,
    "operators": "ada",
    "desk": None,
    "shops": "shop-8",
    "counter": None,
    "gateways": "pgw-2",
    "scripts": None,
}


@pytest.fixture(scope="module", autouse=True)
def account(world: World) -> None:
    """The account that is attacked is open."""
    opened(Caller(world, world.place / "office.sock"), ACCOUNT)


def buckets(script: Caller) -> int:
    """How many buckets the account has."""
    return len(script.ask("GET", f"/accounts/{ACCOUNT}").body["Buckets"])


FOREIGN = {
    "another site": {"Origin": "http://evil.example", "Sec_Fetch_Site": "cross-site"},
    "no origin": {"Origin": "null"},
    "a site of the same name": {"Sec_Fetch_Site": "same-site"},
    "another site that hides its origin": {"Sec_Fetch_Site": "cross-site"},
    "another port": {"Origin": "https://localhost:1"},
    "another site beside an own one": {"Origin": "http://evil.example, {own}"},
}


@pytest.mark.parametrize("door, foreign", list(itertools.product(DOORS, FOREIGN)))
def test_a_foreign_page(at: Callable[..., Caller], door: str, foreign: str) -> None:
    caller = at(door, DOORS[door])
    own = f"http://127.0.0.1:{caller.door}"
    fields = {name: text.replace("{own}", own) for name, text in FOREIGN[foreign].items()}
    for kind in ("text/plain", "application/json"):
        answer = caller.ask("POST", CREDITS, BODY, Content_Type=kind, **fields)
        assert answer.status == 403
    assert buckets(at("scripts")) == 0


HOSTS = ("evil.example", "rebind.example:8080", "localhost", "", "evil.example,{own}", "{own},x")


@pytest.mark.parametrize(
    "door, host", list(itertools.product(("here", "operators", "desk", "shops", "gateways"), HOSTS))
)
def test_a_foreign_host(at: Callable[..., Caller], door: str, host: str) -> None:
    caller = at(door, DOORS[door])
    named = host.replace("{own}", f"localhost:{caller.door}")
    assert caller.ask("GET", f"/accounts/{ACCOUNT}", Host=named).status == 421


KINDS = (
    *("text/plain", "application/x-www-form-urlencoded", "multipart/form-data", ""),
    *("application/jso", "application/jsonp", "text/plain;application/json"),
    *("text/plain, application/json", "text/plain,application/json"),
)


@pytest.mark.parametrize("door, kind", list(itertools.product(("operators", "desk"), KINDS)))
def test_a_body_that_is_no_json(at: Callable[..., Caller], door: str, kind: str) -> None:
    caller = at(door, DOORS[door])
    assert caller.ask("POST", CREDITS, BODY, Content_Type=kind).status == 415


OWN = {
    "its own origin": ("{own}", "same-origin", 200),
    "its own origin from another site": ("{own}", "cross-site", 403),
    "without a site": ("{own}", "-", 200),
    "another scheme": ("http://localhost:{port}", "same-origin", 403),
}


@pytest.mark.parametrize("origin, site, status", OWN.values(), ids=list(OWN))
def test_the_offices_own_page(
    at: Callable[..., Caller], world: World, origin: str, site: str, status: int
) -> None:
    port = str(world.doors["operators"])
    told = origin.replace("{own}", f"https://localhost:{port}").replace("{port}", port)
    fields = {"Origin": told, "Sec_Fetch_Site": site}
    account = opened(at("scripts"), "70052")
    body = {"Amount": 1, "Reference": "own"}
    answer = at("operators", "ada").ask("POST", f"/accounts/{account}/credits", body, **fields)
    assert answer.status == status


def test_the_page_has_a_policy(at: Callable[..., Caller]) -> None:
    answer = at("operators", "ada").ask("GET", "/office", Sec_Fetch_Site="cross-site")
    policy = answer.fields["content-security-policy"]
    assert answer.status == 200
    assert "frame-ancestors 'none'" in policy and "unsafe" not in policy
    assert answer.fields["x-frame-options"] == "DENY"
    assert answer.fields["cache-control"] == "no-store"
    assert "access-control-allow-origin" not in answer.fields


def test_a_preflight_is_refused(at: Callable[..., Caller]) -> None:
    fields = {"Origin": "http://evil.example", "Access_Control_Request_Method": "POST"}
    assert at("desk").ask("OPTIONS", CREDITS, **fields).status == 403


# What a page tries, with TO its address and BODY a text of JSON.
TRIES = {
    "a text": "fetch(TO, {method: 'POST', mode: 'no-cors', body: BODY}).then(() => 1, () => 0)",
    "a beacon": "navigator.sendBeacon(TO, BODY)",
    "bytes": "fetch(TO, {method: 'POST', mode: 'no-cors', body: new TextEncoder().encode(BODY)})"
    ".then(() => 1, () => 0)",
    "JSON": "fetch(TO, {method: 'POST', headers: {'Content-Type': 'application/json'}, body: BODY})"
    ".then(() => 1, () => 0)",
    "a look": "fetch(TO.replace('/credits', '')).then(one => one.text(), () => 0)",
}
FORM = """(() => {
    const form = document.createElement('form'), field = document.createElement('input');
    form.method = 'POST'; form.enctype = 'text/plain'; form.action = TO;
    field.name = BODY.slice(0, -1) + ',"x":"'; field.value = '"}';
    form.append(field); document.body.append(form); form.submit(); return 1;
})()"""
FRAME = """new Promise(done => {
    const frame = document.createElement('iframe');
    frame.onload = () => done(1); frame.src = TO; document.body.append(frame);
    setTimeout(() => done(0), 4000);
})"""


class AnotherSite(http.server.BaseHTTPRequestHandler):
    """Another site's page."""

    def do_GET(self) -> None:
        text = b"<!doctype html><title>another site</title><h1>another site</h1>"
        self.send_response(200)
        self.send_header("Content-Type", "text/html")
        self.send_header("Content-Length", str(len(text)))
        self.end_headers()
        self.wfile.write(text)

    def log_message(self, *_: object) -> None:
        """Prints nothing."""


@pytest.fixture(scope="module")
def site() -> Iterator[int]:
    """The port of another site."""
    server = http.server.ThreadingHTTPServer(("127.0.0.1", ports.free()), AnotherSite)
    threading.Thread(target=server.serve_forever, daemon=True).start()
    yield server.server_port
    server.shutdown()
    server.server_close()


@pytest.fixture(scope="module")
def browser(tmp_path_factory: pytest.TempPathFactory) -> Iterator[Browser]:
    """A browser for which each name of `.example` leads to this machine."""
    place = tmp_path_factory.mktemp("browser")
    one = Browser(place, "--host-resolver-rules=MAP *.example 127.0.0.1")
    yield one
    one.end()


def tried(text: str, to: str, reference: str) -> str:
    """An attempt at an address."""
    body = json.dumps({"Amount": 9, "Reference": reference}, separators=(",", ":"))
    return text.replace("TO", json.dumps(to)).replace("BODY", json.dumps(body))


@pytest.mark.parametrize("name", ["127.0.0.1", "evil.example"])
@pytest.mark.parametrize("door", ["here", "desk"])
def test_a_page_in_chromium_credits_nothing(
    world: World, at: Callable[..., Caller], site: int, browser: Browser, name: str, door: str
) -> None:
    before = buckets(at("scripts"))
    to = f"http://127.0.0.1:{world.doors[door]}{CREDITS}"
    for what, text in TRIES.items():
        browser.open(f"http://{name}:{site}/")
        told = browser.value(tried(text, to, f"{name} {door} {what}"))
        assert "Bucket" not in str(told)
    browser.value(tried(FORM, to, f"{name} {door} form"))
    until(lambda: browser.is_complete() and "another site" not in shown(browser), "its answer")
    assert shown(browser) == "{}"
    assert buckets(at("scripts")) == before
    whys = {line["why"] for line in world.lines() if line.get("door") == door}
    assert {"browser"} <= whys or {"origin"} <= whys


def shown(browser: Browser) -> str:
    """The text that the page shows."""
    return str(browser.value("document.body ? document.body.innerText : ''")).strip()


def test_the_same_in_chromium_from_its_own_page(
    world: World, at: Callable[..., Caller], browser: Browser
) -> None:
    account = opened(at("scripts"), "70053")
    desk = f"http://127.0.0.1:{world.doors['desk']}"
    browser.open(f"{desk}/office")
    text = TRIES["JSON"].replace("() => 1", "one => one.status")
    assert browser.value(tried(text, f"{desk}/accounts/{account}/credits", "own")) == 200


@pytest.mark.parametrize("door", ["here", "desk"])
def test_a_name_that_leads_here_in_chromium(world: World, browser: Browser, door: str) -> None:
    browser.open(f"http://rebind.example:{world.doors[door]}/office")
    path = json.dumps(f"/accounts/{ACCOUNT}")
    assert browser.value(f"fetch({path}).then(one => one.status, () => 0)") == 421


def test_the_page_isnt_framed_in_chromium(world: World, site: int, browser: Browser) -> None:
    browser.open(f"http://127.0.0.1:{site}/")
    browser.value(tried(FRAME, f"http://127.0.0.1:{world.doors['desk']}/office", ""))
    assert browser.reported("frame-ancestors") or browser.reported("X-Frame-Options")


def test_the_page_runs_under_its_policy_in_chromium(world: World, browser: Browser) -> None:
    browser.events.clear()
    browser.open(f"http://127.0.0.1:{world.doors['desk']}/office#{ACCOUNT}")
    until(lambda: browser.value("document.body.dataset.shown"), "the page")
    assert not browser.reported("Content Security Policy")
