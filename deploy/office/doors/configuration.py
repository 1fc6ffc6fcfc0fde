"""HAProxy's configuration (2.6) for an office's settings.

The words `doors` and `up` call `text`. A shard answers one connection after another, so HAProxy has
one thread and one connection to each: what waits, waits in HAProxy. A door more costs a request
nothing; a request costs the rules of its own door."""
from __future__ import annotations

import hashlib
import pathlib

from office import cluster, log_line, proxy, shards
from office.doors import lines, routes, rules
from office.settings import Door, Settings

# Holds a head and a body at their bounds, so that the account is found wherever it is.
BUFFER = 81920
# An answer that a client takes slowly waits in the system's buffer, not in its shard
# (net.core.wmem_max bounds it).
SENT = 4_194_304
EMPTY, UNABLE = "{}", '{"Result-Code":5012}'
# Seconds for an answer of the agent; and for one for which it stops and starts a shard.
AGENT_ANSWER, AGENT_PAUSE = 120, 900
# HAProxy's own answers, beside those of rules.
OWN = dict.fromkeys((400, 401, 403, 404, 405, 408, 413, 429), EMPTY)
OWN |= dict.fromkeys((500, 502, 503, 504), UNABLE)
# A shard is handed the request line and these fields, nothing else of what a client sent.
STRANGE = "'^(?!(?i:host|content-length|content-type)$)'"
# A shard's connection: one, which goes where nothing was asked for a second or two.
ONE = "maxconn 1 pool-max-conn 1 pool-purge-delay 1s"
# A machine that died ends no connection. A request that was under way there would have the shard's one
# turn until its time is over, while the shard is served elsewhere; so the other side's kernel is asked
# whether it is there. Whoever has the address by then ends the connection.
ALIVE = (
    "    option srvtcpka",
    "    srvtcpka-idle 3s",
    "    srvtcpka-intvl 1s",
    "    srvtcpka-cnt 5",
)


def text(settings: Settings) -> str:
    """The whole configuration, with its own sum, by which `proxy` asks whether it was read."""
    made = [*process(settings), "", "defaults", *logged(), *defaults(settings)]
    for door in settings.doors:
        made += ["", *frontend(settings, door)]
    made += ["", *backend(settings), "", *tables(), "", *agent(settings), *archive(settings)]
    if settings.machines:
        made += ["", *relays(settings)]
    named = rules.by_password(settings)
    if named:
        made += ["", "userlist operators"]
        made += [f"    user {operator.name} password {operator.password}" for operator in named]
    whole = "\n".join(made) + "\n"
    mark = f"global\n    setenv {proxy.MADE} {hashlib.sha256(whole.encode()).hexdigest()[:16]}\n"
    return whole.replace("global\n", mark, 1)


def process(settings: Settings) -> list[str]:
    """What holds for the whole process."""
    waits, proxy = settings.waits, settings.haproxy
    most = sum(door.connections for door in settings.doors) + 100
    made = [
        "# Made by `office doors` of the office's file: change that file, not this one.",
        "global",
        "    nbthread 1",
        f"    maxconn {most}",
        f"    tune.bufsize {BUFFER}",
        f"    tune.sndbuf.client {SENT}",
        "    log stdout len 8192 format raw daemon",
        "    ssl-default-bind-options ssl-min-ver TLSv1.2",
        f"    stats socket {proxy.sockets}/admin.sock mode 600 level admin",
        "    # A process that was replaced ends its requests, and then lets its shards go.",
        f"    hard-stop-after {overlap(settings)}s",
        "    set-var proc.begun date()",
        f"    lua-load {pathlib.Path(__file__).with_name('woken.lua')}",
    ]
    made += waits_for_moves(settings) + looks_at_archives(settings)
    return made + ([f"    user {proxy.user}", f"    group {proxy.user}"] if proxy.user else [])


def longest(settings: Settings) -> int:
    """The seconds that a request may take: its turn, the shard's start, its answer; with two
    machines those of the relay as well."""
    waits = settings.waits
    alone = waits.queue + waits.start + waits.answer
    return alone + waits.start + waits.answer + 5 if settings.machines else alone


def overlap(settings: Settings) -> int:
    """The seconds for which a process that was replaced may be beside the one that replaced it."""
    return longest(settings) + 5


def shared(settings: Settings) -> list[str]:
    """How a shard's one connection is used. A shard serves one connection after another, so one
    that is kept keeps away another process: while a reload may leave two, each lets its go."""
    two = f"{{ stopping }} || {{ date,sub(proc.begun) lt {overlap(settings)} }}"
    return ["    http-reuse always", f"    http-request set-header Connection close if {two}"]


def logged() -> list[str]:
    """The log's lines of each door."""
    return [
        "    log global",
        f"    log-format '{log_line.haproxy(log_line.Answered)}'",
        f"    error-log-format '{log_line.haproxy(log_line.Broken)}'",
        "    unique-id-format '%[uuid()]'",
    ]


def defaults(settings: Settings) -> list[str]:
    """What holds for each door, for the shards and for relays: waits, tries, answers."""
    waits = settings.waits
    return [
        "    mode http",
        f"    timeout http-request {waits.request}s",
        f"    timeout http-keep-alive {waits.idle}s",
        "    # For a client's side alone: it doesn't run while a request waits for its shard.",
        f"    timeout client {waits.request}s",
        "    timeout connect 1s",
        f"    timeout queue {waits.queue}s",
        f"    timeout server {waits.answer}s",
        "    # A shard that starts again is waited for, each try a second after the other. No",
        "    # other may answer in its place: it doesn't know the account.",
        f"    retries {waits.start}",
        "    retry-on conn-failure",
        "    no option redispatch",
        "    # What waits in the name of a client that has gone isn't asked.",
        "    option abortonclose",
        "    option disable-h2-upgrade",
        *(
            f"    http-error status {status} content-type application/json string '{body}'"
            for status, body in OWN.items()
        ),
    ]


def frontend(settings: Settings, door: Door) -> list[str]:
    """A door: where it is, its rules, where its requests go."""
    made = [f"frontend {door.name}", bind(settings, door), f"    maxconn {door.connections}"]
    if door.tls:
        made += [
            "    tcp-request connection track-sc2 src table strangers",
            f"    tcp-request connection reject if {{ sc2_conn_cur gt {settings.tls.an_address} }}",
        ]
    made += [
        "    http-after-response set-header X-Request-Id %[unique-id]",
        "    http-after-response set-header Cache-Control no-store",
        "    http-after-response set-header X-Content-Type-Options nosniff",
        "    http-after-response set-header Cross-Origin-Resource-Policy same-origin",
    ]
    if door.role in ("gateway", "shop"):
        made += [
            f"    http-after-response del-header Office-{each}" for each in ("Shard", "Archive")
        ]
    return made + rules.of(settings, door) + to_shard(settings, door)


def bind(settings: Settings, door: Door) -> str:
    """The line that opens a door."""
    if door.is_socket():
        rights = f"mode 660 group {door.group}" if door.group else "mode 600"
        return f"    bind unix@{door.at} {rights}"
    if not door.tls:
        return f"    bind {door.at}"
    tls = settings.tls
    is_optional = door.role == "operator" and rules.by_password(settings)
    return (
        f"    bind {door.at} ssl crt {tls.certificate} ca-file {tls.clients} "
        f"crl-file {tls.revoked} verify {'optional' if is_optional else 'required'} alpn http/1.1"
    )


def to_shard(settings: Settings, door: Door) -> list[str]:
    """Which shard is asked, and what it is handed of the request."""
    made: list[str] = []
    if has_moved(settings):
        moved = f"var(txn.account),map_str({settings.office.moved})"
        is_moving = "if { var(txn.shard) -m str moving } !{ req.fhdr(Office-Shard) -m found }"
        made = [
            f"    http-request set-var(txn.shard) {moved} if {{ var(txn.account) -m found }}",
            f"    http-request lua.settled {is_moving}",
            *rules.refused(503, "moving", is_moving),
        ]
    if door.role == "script":
        is_named = "{ req.fhdr(Office-Shard) -m found }"
        made.append(f"    http-request set-var(txn.shard) req.fhdr(Office-Shard) if {is_named}")
        made += rules.refused(400, "shard", "if { path /sweep } !{ var(txn.shard) -m found }")
    made += to_archive(settings)
    numbers = "|".join(shard.number for shard in shards.of(settings))
    is_shard = f"{{ var(txn.shard) -m reg ^({numbers})$ }}"
    kept = [] if settings.machines else ["    use_backend archive if { var(txn.past) -m str kept }"]
    return [
        *made,
        *rules.refused(404, "shard", f"if {{ var(txn.shard) -m found }} !{is_shard}"),
        f"    http-request del-header {STRANGE} -m reg",
        "    http-response wait-for-body time 1s",
        *(to_agent(settings, door) if door.role in routes.PEOPLE else ()),
        *kept,
        "    http-response set-header Office-Shard %s unless { var(txn.agent) -m found } "
        "|| { var(txn.past) -m found }",
        "    default_backend shards",
    ]


def to_agent(settings: Settings, door: Door) -> list[str]:
    """The agent is told who asks, and whether that is somebody who only reads, or only redeems; what a
    client said of it has been taken away."""
    is_agent = f"if {{ path_beg {routes.AGENT}/ }}"
    made = [
        f"    http-request set-var(txn.agent) bool(true) {is_agent}",
        f"    http-request set-header Office-Caller %[var(txn.who)] {is_agent}",
        f"    http-request set-header X-Request-Id %[unique-id] {is_agent}",
    ]
    if door.role == "shop":
        made.append(f"    http-request set-header Office-May redeem {is_agent}")
    elif any(operator.only == "read" for operator in settings.operators):
        readers = [operator.name for operator in settings.operators if operator.only == "read"]
        made += rules.listed("looks", readers)
        made.append(f"    http-request set-header Office-May read {is_agent} looks")
    return [*made, f"    use_backend agent {is_agent}"]


def to_archive(settings: Settings) -> list[str]:
    """What may be a repeat of before a carry or a move is asked for at the archive's service; where
    that is away nobody else may answer it. Who names a shard means that one."""
    if settings.machines:
        return []
    is_asked = "if !{ req.fhdr(Office-Shard) -m found } !{ path_beg /office/ }"
    made = [f"    http-request lua.known {is_asked}"]
    for why in ("held", "away"):
        made += rules.refused(503, f"archive-{why}", f"if {{ var(txn.past) -m str {why} }}")
    return [*made, "    http-request unset-var(txn.past) if { var(txn.past) -m str new }"]


def has_moved(settings: Settings) -> bool:
    """Whether accounts may live elsewhere than in the shard of their hash."""
    return settings.office.more > 0 or pathlib.Path(settings.office.moved).exists()


def waits_for_moves(settings: Settings) -> list[str]:
    """What lets a request wait for an account that moves."""
    if not has_moved(settings):
        return []
    return [
        f"    setenv OFFICE_MOVED {settings.office.moved}",
        f"    setenv OFFICE_WAIT {1000 * (settings.waits.queue + settings.waits.start)}",
        f"    lua-load {pathlib.Path(__file__).with_name('settled.lua')}",
    ]


def looks_at_archives(settings: Settings) -> list[str]:
    """What says of a request that an archive may have it."""
    if settings.machines:
        return []
    return [
        f"    setenv OFFICE_KNOWN {settings.archive.known}",
        f"    setenv OFFICE_ARCHIVE {settings.archive.socket}",
        f"    setenv OFFICE_WAIT {1000 * (settings.waits.queue + settings.waits.start)}",
        f"    setenv OFFICE_HASHED {settings.office.shards}",
        f"    setenv OFFICE_SHARDS {settings.office.shards + settings.office.more}",
        f"    lua-load {pathlib.Path(__file__).with_name('known.lua')}",
    ]


def archive(settings: Settings) -> list[str]:
    """The service `office archive`; a request that isn't equal to the first takes it a start of the
    program."""
    if settings.machines:
        return []
    return [
        "",
        "backend archive",
        f"    timeout server {AGENT_ANSWER}s",
        *lines.of_answer(),
        *counted(),
        f"    server archive unix@{settings.archive.socket} maxconn 16",
    ]


def counted() -> list[str]:
    """Answers are counted by who asked and what was said."""
    key = "'%[var(txn.who,-)] %[var(txn.code,-)] %[var(txn.service,-)] %[var(txn.refusal,-)]'"
    return [
        f"    http-response set-var-fmt(txn.counted) {key}",
        "    http-response track-sc1 var(txn.counted) table counted",
        "    http-response sc-inc-gpc0(1)",
    ]


def backend(settings: Settings) -> list[str]:
    """The shards: one connection each, and the queue before it."""
    made = [
        "backend shards",
        "    balance hash var(txn.account)",
        "    hash-type consistent sdbm avalanche",
        *shared(settings),
        *lines.of_answer(),
        *counted(),
        "    use-server %[var(txn.shard)] if { var(txn.shard) -m found }",
    ]
    if settings.machines:
        # A relay waits for the other machine's request, for the shard's start and for its answer.
        waits = settings.waits
        made.append(f"    timeout server {waits.start + 2 * waits.answer + 5}s")
        made += ALIVE
    for shard in shards.of(settings):
        weight = "" if shard.is_hashed else " weight 0"
        made.append(
            f"    server {shard} {place(settings, shard)} id {int(shard.number)} " f"{ONE}{weight}"
        )
    return made


def agent(settings: Settings) -> list[str]:
    """The service `office agent`. A bar takes as long as two starts of a shard."""
    pauses = " ".join(f"{routes.AGENT}/{word}/" for word in ("bar", "unbar"))
    return [
        "backend agent",
        f"    timeout server {AGENT_ANSWER}s",
        f"    http-request set-timeout server {AGENT_PAUSE}s if {{ path_beg {pauses} }}",
        "    http-response wait-for-body time 1s",
        *lines.of_agent(),
        f"    server agent unix@{settings.agent.socket} maxconn 16",
    ]


def place(settings: Settings, shard: shards.Shard) -> str:
    """Where a shard is asked: on this machine, or by its relay at the address that moves with it."""
    if not settings.machines:
        return f"127.0.0.1:{shard.port}"
    return f"{cluster.address(settings.cluster, shard.number)}:{relay(settings, shard)}"


def relay(settings: Settings, shard: shards.Shard) -> int:
    """The port of a shard's relay."""
    return settings.cluster.relays + int(shard.number)


def relays(settings: Settings) -> list[str]:
    """The shards that this machine may have: a shard's relay takes requests of both machines' doors,
    and nobody else's, to the shard over the one connection."""
    each = shards.of(settings)
    ours = [machine.own for machine in cluster.of_disks(settings.machines)]
    ours += [cluster.address(settings.cluster, shard.number) for shard in each]
    made = [
        "# The door's line is the log's: a relay has none.",
        "defaults",
        *defaults(settings),
        "",
    ]
    for shard in each:
        made += [
            f"frontend relay{shard}",
            f"    bind :{relay(settings, shard)}",
            "    maxconn 20",
            f"    tcp-request connection reject if !{{ src {' '.join(ours)} }}",
            f"    default_backend here{shard}",
            f"backend here{shard}",
            *shared(settings),
            f"    timeout queue {settings.waits.answer}s",
            f"    server {shard} 127.0.0.1:{shard.port} {ONE}",
            "",
        ]
    return made[:-1]


def tables() -> list[str]:
    """What is counted: requests of a caller and wrong codes, answers by caller and code, an address at
    doors with tls."""
    kept = "conn_cur,gpc0,gpc0_rate(1s),gpc1,gpc1_rate(60s)"
    return [
        "backend callers",
        f"    stick-table type string len 40 size 10k expire 1h store {kept}",
        "backend counted",
        "    stick-table type string len 64 size 10k expire 24d store gpc0",
        "backend strangers",
        "    stick-table type ip size 100k expire 10m store conn_cur,http_err_rate(60s)",
    ]
