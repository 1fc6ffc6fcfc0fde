"""The office's page as a door for people returns it: the page, its script and its style.

The policy names the script by its hash, so that nothing that gets into the page by a text runs; the
page itself names the hashes of both, and no other site may frame it. Beside the page a door says who
asks and what that one may do, by which the page offers no more."""
from __future__ import annotations

import base64
import hashlib
import pathlib
import re
from collections.abc import Iterable

from office.doors import routes
from office.faults import Refused
from office.settings import Door, Settings, Waits

# A style has no hash in a policy: browsers look at the page's `integrity` of it instead.
POLICY = (
    "default-src 'none'; connect-src 'self'; img-src data:; base-uri 'none'; form-action 'none'; "
    "frame-ancestors 'none'; script-src {scripts}; style-src 'self'"
)
FIELDS = (
    "hdr X-Frame-Options DENY hdr Referrer-Policy no-referrer "
    "hdr Cross-Origin-Opener-Policy same-origin"
)
KINDS = {".html": "text/html", ".js": "text/javascript", ".css": "text/css"}
# A part as the page names it: its address, its name, its hash.
PART = re.compile(r'(?:src|href)="(/office/([a-z]+\.(?:js|css)))"\s+integrity="([^"]*)"')


def rules(settings: Settings, door: Door) -> list[str]:
    """The rules that return the page, its parts, and who asks."""
    path = pathlib.Path(settings.office.page)
    text = content(path).decode()
    parts = {address: path.with_name(name) for address, name, _ in PART.findall(text)}
    made = [f"{returned(path)} {policy(text, path)} {FIELDS} if {{ path /office }}"]
    made += [f"{returned(part)} if {{ path {address} }}" for address, part in parts.items()]
    return made + asker(settings.waits, door)


def returned(path: pathlib.Path) -> str:
    """The beginning of a rule that returns a file."""
    kind = KINDS.get(path.suffix, "text/html")
    return f'    http-request return status 200 content-type "{kind}; charset=utf-8" file {path}'


def policy(text: str, path: pathlib.Path) -> str:
    """The field with the policy of a page, whose parts have to be those that it names."""
    scripts = []
    for _, name, named in PART.findall(text):
        found = hash_of(content(path.with_name(name)))
        if found != named:
            raise Refused(f"office: page: {path} is made for another {name}: its hash is {found}")
        scripts += [found] if name.endswith(".js") else []
    return f'hdr Content-Security-Policy "{POLICY.format(scripts=listed(scripts))}"'


def content(path: pathlib.Path) -> bytes:
    """The bytes of the page or of a part of it."""
    try:
        return path.read_bytes()
    except OSError as fault:
        raise Refused(f"office: page: {path}: {fault.strerror}") from fault


def hash_of(data: bytes) -> str:
    """A hash as a policy and a page name it."""
    return "sha256-" + base64.b64encode(hashlib.sha256(data).digest()).decode()


def listed(hashes: Iterable[str]) -> str:
    """Hashes as a policy lists them."""
    return " ".join(f"'{one}'" for one in hashes) or "'none'"


def asker(waits: Waits, door: Door) -> list[str]:
    """The rules that say who asks, in which role, whether by that one anything may be changed, and
    how many seconds a request may take here."""
    seconds = waits.queue + waits.start + waits.answer
    kind = "    http-request return status 200 content-type application/json lf-string"
    asked = f"{{ path {routes.ASKER} }}"

    def told(changes: str) -> str:
        who = f'"Name":"%[var(txn.who)]","Role":"{door.role}"'
        return f'{kind} \'{{{who},"Changes":{changes},"Seconds":{seconds}}}\' if {asked}'

    return [*([told("false") + " reads"] if is_bounded(door) else []), told("true")]


def is_bounded(door: Door) -> bool:
    """Whether some who come by this door may only read."""
    return door.role == "operator" and door.tls
