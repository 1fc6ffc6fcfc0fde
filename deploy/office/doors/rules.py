"""The rules of a door, in the order in which a request is looked at.

`configuration` calls `of` for each door. A field is looked at whole (`req.fhdr`): one with commas
is no list of values here, one of which would do. What a request costs HAProxy's thread is these
rules: some forty comparisons, and readings of the body by three regular expressions."""
from __future__ import annotations

from collections.abc import Iterable

from office.doors import lines, page, routes
from office.settings import Door, Operator, Settings

# Names on a line of HAProxy's, which takes 64 words.
ROW = 16
# Requests at once of all who ask at a door that knows nobody by name.
NAMELESS = 200
# Wrong answers in a minute to a stranger at the operators' door; codes that no voucher has, to a shop.
GUESSES = 20
# A name that comes twice in a body would be read in its first place here and in its last by the
# program, and a letter as `\u0061` not at all.


def twice(*names: str) -> str:
    """A pattern of a body that has one of these names twice."""
    each = [rf'"{name}"\s*:' for name in names]
    return "(?s)(" + "|".join(f"{name}.*{name}" for name in each) + ")"


TWICE = twice("Subscription-Id", "Subscription-Id-Data")
DISGUISED = r"\\u00[2-7]"
# REFUND_ACCOUNT of RFC 8506, wherever it is in the body.
REFUND = r'"Requested-Action"\s*:\s*1(?![0-9])'
# EVENT_REQUEST with CHECK_BALANCE or PRICE_ENQUIRY, each name once in the body: nothing is changed.
ENQUIRY = (r'"CC-Request-Type"\s*:\s*4\s*[,}]', r'"Requested-Action"\s*:\s*[23]\s*[,}]')
ENQUIRY_TWICE = twice("CC-Request-Type", "Requested-Action")


def of(settings: Settings, door: Door) -> list[str]:
    """All rules of a door, but for where a request goes."""
    made = whole(settings)
    if door.role == "watcher":
        return [*made, *nameless("watcher"), *kept_out(door), *watched()]
    made += lines.of_request(door.role) + who(settings, door) + kept_out(door)
    made += may(settings, door)
    if door.is_for_people():
        made += page.rules(settings, door)
    if door.role in ("gateway", "operator"):
        made.append(answered("if { path /health }"))
    made += [*turns(settings, door), *guesses(door), *account()]
    return [*made, *refunds(settings, door), *enquiries(door)]


def refused(status: int, why: str, condition: str) -> list[str]:
    """A request of this condition is answered so, and its line says why."""
    return [
        f"    http-request set-var(txn.why) str({why}) {condition}",
        f"    http-request deny status {status} content-type application/json string '{{}}' "
        "if { var(txn.why) -m found }",
    ]


def answered(condition: str) -> str:
    """HAProxy answers such a request itself."""
    kind = "content-type application/json string '{}'"
    return f"    http-request return status 200 {kind} {condition}"


def listed(name: str, names: Iterable[str]) -> list[str]:
    """A condition of this name: who asks is one of these; of none, nobody."""
    told = list(names)
    rows = [told[at : at + ROW] for at in range(0, len(told), ROW)]
    made = [f"    acl {name} var(txn.who) -m str {' '.join(row)}" for row in rows]
    return made or [f"    acl {name} always_false"]


def whole(settings: Settings) -> list[str]:
    """A request's length is given and bounded, and then all of it has come: who is refused after
    that has sent its body, and reads the answer."""
    length = "req.hdr(Content-Length)"
    return [
        "    http-request set-var-fmt(txn.what) '%[method] %[pathq]'",
        *refused(501, "coding", "if { req.hdr(Transfer-Encoding) -m found }"),
        *refused(411, "length", f"if {{ method POST PUT }} !{{ {length} -m found }}"),
        *refused(413, "body", f"if {{ {length} -m found }} !{{ {length} -m reg ^[0-9]{{1,5}}$ }}"),
        *refused(413, "body", f"if {{ req.hdr_val(Content-Length) gt {routes.BODY} }}"),
        *refused(431, "head", f"if {{ req.hdrs,length gt {routes.HEAD} }}"),
        f"    http-request wait-for-body time {settings.waits.request}s",
    ]


def nameless(name: str) -> list[str]:
    """Whoever asks is called so."""
    return [f"    http-request set-var(txn.who) str({name})"]


def who(settings: Settings, door: Door) -> list[str]:
    """Who asks: by certificate, by password, or whoever is at the door."""
    if not door.tls:
        return nameless(door.name)
    names = [caller.name for caller in settings.callers(door.role)]
    made = ["    http-request set-var(txn.who) ssl_c_s_dn(CN) if { ssl_c_used }"]
    if door.role == "operator" and by_password(settings):
        made += passwords()
    is_other = f"if {{ ssl_c_used }} !{{ ssl_c_s_dn(OU) -m str {door.role} }}"
    return [
        *made,
        *refused(403, "role", is_other),
        *listed("named", names),
        *refused(403, "name", "unless named"),
    ]


def by_password(settings: Settings) -> list[Operator]:
    """The operators that have a password."""
    return [operator for operator in settings.operators if operator.password]


def passwords() -> list[str]:
    """A name and a password where no certificate is shown; a stranger may guess a few times."""
    is_stranger = "if !{ ssl_c_used }"
    is_known, is_nobody = "{ http_auth(operators) }", "if !{ var(txn.who) -m found }"
    return [
        *refused(429, "guesses", f"{is_stranger} {{ sc2_http_err_rate gt {GUESSES} }}"),
        f"    http-request set-var(txn.who) http_auth_user {is_stranger} {is_known}",
        f"    http-request set-var(txn.why) str(unknown) {is_nobody}",
        f"    http-request auth realm Office {is_nobody}",
    ]


def kept_out(door: Door) -> list[str]:
    """What no door of this role takes from whomever: another host's name, a page of another site, a
    shard's number, a target, method or role that doesn't fit."""
    made = []
    if door.hosts:
        hosts = " ".join(door.hosts)
        made += refused(421, "host", f"unless {{ req.fhdr(Host) -i -m str {hosts} }}")
    made += same_origin(door) if door.is_for_people() else no_browser()
    if door.role != "script":
        made += refused(403, "shard", "if { req.fhdr(Office-Shard) -m found }")
    return made + on_route(door)


def on_route(door: Door) -> list[str]:
    """A target and a method that some role has (404, 405), and this one (403)."""
    what = "var(txn.what) -m reg"
    own = routes.pattern(routes.at(door))
    every = routes.pattern(list(routes.ROUTES))
    return [
        f"    acl own {what} '{own}'",
        *refused(404, "target", f"if !own !{{ {what} '{routes.targets()}' }}"),
        *refused(405, "method", f"if !own !{{ {what} '{every}' }}"),
        *refused(403, "route", "if !own"),
    ]


def no_browser() -> list[str]:
    """A door that is none for pages."""
    is_page = "if { req.fhdr(Origin) -m found } || { req.fhdr(Sec-Fetch-Site) -m found }"
    return refused(403, "browser", is_page)


def same_origin(door: Door) -> list[str]:
    """A door for its own page alone; another site may link to the page."""
    scheme = "https" if door.tls else "http"
    ours = " ".join(f"{scheme}://{host}" for host in door.hosts)
    origin, site = "req.fhdr(Origin)", "req.fhdr(Sec-Fetch-Site)"
    is_other = f"if {{ {origin} -m found }} !{{ {origin} -i -m str {ours} }}"
    is_site = f"if {{ {site} -m found }} !{{ {site} -m str same-origin none }} !{{ path /office }}"
    return refused(403, "origin", is_other) + refused(403, "site", is_site)


def may(settings: Settings, door: Door) -> list[str]:
    """What this caller may ask of what its role may; a body's type."""
    made = []
    if door.role == "operator" and door.tls:
        readers = [operator.name for operator in settings.operators if operator.only == "read"]
        only = [route for route in routes.of(door.role) if route.only_reads]
        made += listed("reads", readers)
        made.append(f"    acl only-reads var(txn.what) -m reg '{routes.pattern(only)}'")
        made += refused(403, "read", "if reads !METH_GET !only-reads")
    return made if door.role == "script" else made + typed(door)


def typed(door: Door) -> list[str]:
    """The body of a POST is called what its route takes."""
    made, own = [], [route for route in routes.of(door.role) if route.method == "POST"]
    others = sorted({route.kind for route in own} - {routes.JSON})
    for at, kind in enumerate(others):
        pattern = routes.pattern([route for route in own if route.kind == kind])
        made.append(f"    acl typed-{at} var(txn.what) -m reg '{pattern}'")
        made += refused(415, "type", f"if typed-{at} !{called(kind)}")
    is_other = "".join(f" !typed-{at}" for at in range(len(others)))
    return made + refused(415, "type", f"if METH_POST{is_other} !{called(routes.JSON)}")


def called(kind: str) -> str:
    """The condition that a body is called so."""
    return f"{{ req.fhdr(Content-Type) -i -m reg '^{kind}\\s*(;|$)' }}"


def turns(settings: Settings, door: Door) -> list[str]:
    """How much of the office one caller may have; the second request of one waits behind the first
    of each other. What was refused before doesn't count."""
    made = ["    http-request track-sc0 var(txn.who) table callers"]
    callers = settings.callers(door.role) if door.tls else ()
    if not callers:
        made.append(f"    http-request set-var(txn.at_once) int({NAMELESS})")
    made += bounds("at-once", {caller.name: caller.at_once for caller in callers})
    made += bounds("a-second", {caller.name: caller.a_second for caller in callers})
    made += refused(429, "at-once", "if { sc0_conn_cur,sub(txn.at_once) gt 0 }")
    if callers:
        made += refused(429, "rate", "if { sc0_gpc0_rate,sub(txn.a_second) ge 0 }")
    return [
        *made,
        "    http-request sc-inc-gpc0(0)",
        "    http-request set-priority-class sc0_conn_cur",
    ]


def bounds(name: str, told: dict[str, int]) -> list[str]:
    """Sets a variable to the bound of who asks: a rule a bound, not a caller."""
    made, variable = [], name.replace("-", "_")
    for at, bound in enumerate(sorted(set(told.values()))):
        made += listed(f"{name}-{at}", (who for who, most in told.items() if most == bound))
        made.append(f"    http-request set-var(txn.{variable}) int({bound}) if {name}-{at}")
    return made


def guesses(door: Door) -> list[str]:
    """A shop that has tried many codes that no voucher has redeems nothing for the rest of a minute."""
    if door.role != "shop":
        return []
    is_code = f"{{ path_beg /vouchers/ {routes.REDEEM} }}"
    return [
        *refused(429, "codes", f"if {is_code} {{ sc0_gpc1_rate gt {GUESSES} }}"),
        "    http-response sc-inc-gpc1(0) if { var(txn.refusal) -m str O3 }",
    ]


def account() -> list[str]:
    """The account that HAProxy reads is the one that the shard reads: once, and not in disguise."""
    return [
        "    acl names-account path /ccr",
        "    acl names-account path_beg /vouchers/",
        *refused(400, "account", f"if names-account {{ req.body -m reg '{TWICE}' }}"),
        *refused(400, "account", f"if names-account {{ req.body -m reg '{DISGUISED}' }}"),
        *refused(400, "account", "if names-account !{ var(txn.account) -m found }"),
    ]


def refunds(settings: Settings, door: Door) -> list[str]:
    """A refund brings an account money that nobody paid: a gateway needs a right of its own for it.
    Operators and scripts may credit an account anyhow."""
    is_refund = f"{{ path /ccr }} {{ req.body -m reg '{REFUND}' }}"
    if door.role != "gateway" or (not door.tls and door.refunds):
        return []
    if not door.tls:
        return refused(403, "refund", f"if {is_refund}")
    names = [gateway.name for gateway in settings.gateways if gateway.refunds]
    return listed("refunds", names) + refused(403, "refund", f"if !refunds {is_refund}")


def enquiries(door: Door) -> list[str]:
    """What a shop asks of /ccr is a price, or whether it would be paid: nothing that changes."""
    if door.role != "shop":
        return []
    made = refused(403, "enquiry", f"if {{ path /ccr }} {{ req.body -m reg '{ENQUIRY_TWICE}' }}")
    for pattern in ENQUIRY:
        made += refused(403, "enquiry", f"if {{ path /ccr }} !{{ req.body -m reg '{pattern}' }}")
    return made


def watched() -> list[str]:
    """Measures and health. A shard's health is an answer of the shard, before all that wait."""
    return [
        "    http-request use-service prometheus-exporter if { path /metrics }",
        answered("if { path /health }"),
        "    http-request set-var(txn.shard) path,field(3,/)",
        "    http-request set-path /accounts/0",
        "    http-request set-priority-class int(-1)",
    ]
