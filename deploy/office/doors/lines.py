"""What the log's line of an answer says of a request and of its answer, as rules of HAProxy.

`rules` takes those of a request, `configuration` those of an answer; `log_line` has the line. Each
member is one reading of the body."""
from __future__ import annotations

from office.doors.routes import AGENT, REDEEM

# HAProxy writes a number of more than six digits wrong unless it is asked for as a whole one.
# Member of the line, where it is in the body of a request, and whether that is one of /ccr.
REQUEST = (
    ("session", "'$.Session-Id'", True),
    ("type", "'$.CC-Request-Type','int'", True),
    ("number", "'$.CC-Request-Number','int'", True),
    ("reference", "'$.Reference'", False),
    ("amount", "'$.Amount','int'", False),
    ("amount", "'$.Blocks','int'", False),
)
FIRST = "$.Multiple-Services-Credit-Control[0]"
GRANTED = f"{FIRST}.Granted-Service-Unit"
# Member of the line, where it is in the body of an answer, and whether it is one to /ccr.
ANSWER = (
    ("code", "'$.Result-Code','int'", False),
    ("refusal", "'$.Refusal'", False),
    ("service", f"'{FIRST}.Result-Code','int'", True),
    ("granted", f"'{GRANTED}.CC-Time','int'", True),
    ("granted", f"'{GRANTED}.CC-Total-Octets','int'", True),
    ("granted", f"'{GRANTED}.CC-Service-Specific-Units','int'", True),
)


def of_request(role: str) -> list[str]:
    """Rules that take what the line says of a request, before anything of it is refused."""
    account = "    http-request set-var(txn.account)"
    data = "req.body,json_query('$.Subscription-Id.Subscription-Id-Data')"
    made = [
        f"{account} path,field(3,/) if {{ path_beg /accounts/ }}",
        f"{account} {data} if {{ path /ccr }}",
        f"{account} req.body,json_query('$.Subscription-Id-Data') if {{ path_beg /vouchers/ }}",
    ]
    for name, place, is_ccr in REQUEST:
        where = "{ path /ccr }" if is_ccr else "METH_POST !{ path /ccr }"
        made.append(f"    http-request set-var(txn.{name}) req.body,json_query({place}) if {where}")
    if role == "operator":
        named = " ".join(f"{AGENT}/{word}/" for word in ("account", "bar", "unbar"))
        made.append(f"{account} path,field(5,/) if {{ path_beg {named} }}")
    if role in ("operator", "shop"):
        made.append(f"{account} req.body,json_query('$.Account') if {{ path {REDEEM} }}")
    return made


def of_answer() -> list[str]:
    """Rules that take what the line says of an answer."""
    made = []
    for name, place, is_ccr in ANSWER:
        where = " if { var(txn.session) -m found }" if is_ccr else ""
        made.append(f"    http-response set-var(txn.{name}) res.body,json_query({place}){where}")
    return made


def of_agent() -> list[str]:
    """The same of an answer of the agent."""
    rows = (row for row in ANSWER if row[0] in ("code", "refusal"))
    return [
        f"    http-response set-var(txn.{name}) res.body,json_query({place})"
        for name, place, _ in rows
    ]
