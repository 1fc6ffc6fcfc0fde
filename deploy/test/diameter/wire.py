"""Diameter by hand: the bytes of messages, and a gateway with one connection.

Nothing here knows the bridge or OTP. The codes are those of RFC 6733, RFC 8506, TS 32.299 and
TS 29.061; `AVPS` has every AVP that the mapping names, so that each can be sent."""
from __future__ import annotations

import contextlib
import socket
import ssl
import struct
import threading
from collections.abc import Sequence
from typing import Any

VENDOR_3GPP = 10415
M, V = 0x40, 0x80
REQUEST, PROXIABLE, ERROR, AGAIN = 0x80, 0x40, 0x20, 0x10
CCR, RAR, CER, DWR, DPR = 272, 258, 257, 280, 282
# Seconds that an answer is waited for: longer than the bridge asks the office for one.
PATIENCE = 90
# An AVP to be sent: its name, or (code, vendor), its value, and perhaps its flags.
Avp = tuple[Any, ...]
# An AVP that was read: a group's value is a list of them.
Read = tuple[Any, Any]
# A request to be sent: code, application, AVPs and flags.
Request = tuple[int, int, list[Avp], int]

KINDS = {
    "text": "User-Name 1, Called-Station-Id 30, Calling-Station-Id 31, Filter-Id 11, Acct-Session-Id"
    " 44, Acct-Multi-Session-Id 50, Origin-Host 264, Origin-Realm 296, Destination-Host 293,"
    " Destination-Realm 283, Session-Id 263, Product-Name 269, Error-Message 281, Route-Record 282,"
    " Proxy-Host 280, Cost-Unit 424, Redirect-Server-Address 435, Subscription-Id-Data 444,"
    " Service-Context-Id 461",
    "bytes": "Framed-IP-Address 8, Class 25, Proxy-State 33, Framed-IPv6-Prefix 97, Host-IP-Address"
    " 257, CC-Correlation-Id 411, Service-Parameter-Value 442, User-Equipment-Info-Value 460",
    "u32": "Event-Timestamp 55, Auth-Application-Id 258, Acct-Application-Id 259,"
    " Supported-Vendor-Id 265, Vendor-Id 266, Result-Code 268, Disconnect-Cause 273,"
    " Origin-State-Id 278, Re-Auth-Request-Type 285, Termination-Cause 295, CC-Request-Number 415,"
    " CC-Request-Type 416, CC-Session-Failover 418, CC-Time 420, Check-Balance-Result 422,"
    " Currency-Code 425, Credit-Control-Failure-Handling 427, Rating-Group 432,"
    " Redirect-Address-Type 433, Requested-Action 436, Service-Identifier 439,"
    " Service-Parameter-Type 441, Validity-Time 448, Final-Unit-Action 449, Subscription-Id-Type"
    " 450, Tariff-Time-Change 451, Tariff-Change-Usage 452, Multiple-Services-Indicator 455,"
    " User-Equipment-Info-Type 459, Accounting-Record-Type 480, Accounting-Record-Number 485",
    "u64": "CC-Input-Octets 412, CC-Output-Octets 414, CC-Service-Specific-Units 417,"
    " CC-Sub-Session-Id 419, CC-Total-Octets 421",
    "i32": "Exponent 429",
    "i64": "Value-Digits 447",
    "group": "Vendor-Specific-Application-Id 260, Failed-AVP 279, Proxy-Info 284, CC-Money 413,"
    " Cost-Information 423, Final-Unit-Indication 430, Granted-Service-Unit 431, Redirect-Server"
    " 434, Requested-Service-Unit 437, Service-Parameter-Info 440, Subscription-Id 443, Unit-Value"
    " 445, Used-Service-Unit 446, Multiple-Services-Credit-Control 456, G-S-U-Pool-Reference 457,"
    " User-Equipment-Info 458, OC-Supported-Features 621, User-Equipment-Info-Extension 653,"
    " Subscription-Id-Extension 659, QoS-Final-Unit-Indication 669",
}
KINDS_3GPP = {
    "bytes": "3GPP-IMSI 1, 3GPP-Charging-Id 2, 3GPP-PDP-Type 3, 3GPP-SGSN-Address 6,"
    " 3GPP-GGSN-Address 7, 3GPP-NSAPI 10, 3GPP-Selection-Mode 12, 3GPP-Charging-Characteristics 13,"
    " 3GPP-SGSN-MCC-MNC 18, 3GPP-RAT-Type 21, 3GPP-User-Location-Info 22, 3GPP-MS-TimeZone 23,"
    " PS-Furnish-Charging-Information 865, Refund-Information 2022",
    "u32": "Time-Quota-Threshold 868, Volume-Quota-Threshold 869, Trigger-Type 870,"
    " Quota-Holding-Time 871, Reporting-Reason 872, Quota-Consumption-Time 881, Unit-Quota-Threshold"
    " 1226, Event-Charging-TimeStamp 1258, Envelope-Reporting 1268, AoC-Request-Type 2055",
    "group": "Service-Information 873, PS-Information 874, QoS-Information 1016,"
    " Service-Specific-Info 1249, Trigger 1264, Envelope 1266, Time-Quota-Mechanism 1270,"
    " AF-Correlation-Information 1276, Announcement-Information 3904, Related-Trigger 3926",
}


def named(kinds: dict[str, str], vendor: int) -> dict[str, tuple[int, int, str]]:
    """Code, vendor and kind by the name of an AVP."""
    made = {}
    for kind, rows in kinds.items():
        for row in rows.split(", "):
            name, _, code = row.rpartition(" ")
            made[name] = (int(code), vendor, kind)
    return made


AVPS = named(KINDS, 0) | named(KINDS_3GPP, VENDOR_3GPP)
NAMES = {(code, vendor): (name, kind) for name, (code, vendor, kind) in AVPS.items()}
FORMATS = {"u32": ">I", "i32": ">i", "u64": ">Q", "i64": ">q"}


def value_bytes(kind: str, value: Any) -> bytes:
    """A value's bytes; bytes are taken as they are, so that a value may be wrong."""
    if isinstance(value, bytes):
        return value
    if kind == "group":
        return b"".join(avp(*each) for each in value)
    if kind == "text":
        return str(value).encode()
    return struct.pack(FORMATS[kind], value)


def avp(name: Any, value: Any, flags: int = M) -> bytes:
    """The bytes of an AVP."""
    code, vendor, kind = AVPS[name] if isinstance(name, str) else (*name, "bytes")
    data = value_bytes(kind, value)
    head = 12 if vendor else 8
    made = struct.pack(">II", code, (flags | (V if vendor else 0)) << 24 | head + len(data))
    made += struct.pack(">I", vendor) if vendor else b""
    return made + data + b"\0" * (-len(data) % 4)


def message(
    code: int, application: int, avps: Sequence[Avp], flags: int, hop: int = 0, end: int = 0
) -> bytes:
    """The bytes of a message."""
    body = b"".join(avp(*each) for each in avps)
    return (
        struct.pack(">IIIII", 1 << 24 | 20 + len(body), flags << 24 | code, application, hop, end)
        + body
    )


def read_avps(data: bytes) -> list[Read]:
    """The AVPs of these bytes; a byte too many or too few is a `ValueError`."""
    made: list[Read] = []
    while data:
        code, word = struct.unpack(">II", data[:8])
        head, vendor, length = 8, 0, word & 0xFFFFFF
        if word >> 24 & V:
            head, vendor = 12, struct.unpack(">I", data[8:12])[0]
        if not head <= length <= len(data):
            raise ValueError(f"length {length} of AVP {code}")
        raw = data[head:length]
        name, kind = NAMES.get((code, vendor), ((code, vendor), "bytes"))
        made.append((name, read_value(kind, raw)))
        data = data[length + -length % 4 :]
    return made


def read_value(kind: str, raw: bytes) -> Any:
    """A value of this kind."""
    if kind == "group":
        return read_avps(raw)
    if kind == "text":
        return raw.decode(errors="surrogateescape")
    return raw if kind == "bytes" else struct.unpack(FORMATS[kind], raw)[0]


class Message:
    """A message that came."""

    def __init__(self, raw: bytes) -> None:
        _, flags, self.application, self.hop, self.end = struct.unpack(">IIIII", raw[:20])
        self.flags, self.code = flags >> 24, flags & 0xFFFFFF
        self.raw, self.avps = raw, read_avps(raw[20:])

    @property
    def is_error(self) -> bool:
        """Whether it has the E flag."""
        return bool(self.flags & ERROR)

    @property
    def result(self) -> Any:
        """Its Result-Code."""
        return self.get("Result-Code")

    @property
    def failed(self) -> Any:
        """What is in its Failed-AVP."""
        return self.get("Failed-AVP")

    @property
    def services(self) -> list[dict[Any, Any]]:
        """Its services; of a name that comes twice the last value."""
        return [dict(each) for each in self.every("Multiple-Services-Credit-Control")]

    def get(self, name: str) -> Any:
        """The first value of this name, or none."""
        return next((value for found, value in self.avps if found == name), None)

    def every(self, name: str) -> list[Any]:
        """All values of this name."""
        return [value for found, value in self.avps if found == name]


def read_raw(connection: socket.socket) -> bytes:
    """The bytes of the next message; none where the connection ends."""
    raw, length = b"", 4
    while len(raw) < length:
        more = connection.recv(length - len(raw))
        if not more:
            return b""
        raw += more
        if len(raw) == 4:
            length = struct.unpack(">I", raw)[0] & 0xFFFFFF
    return raw


def read_message(connection: socket.socket) -> Message | None:
    """The next message; none where the connection ends."""
    raw = read_raw(connection)
    return Message(raw) if raw else None


def greeting(host: str, capabilities: Sequence[Avp] = (("Auth-Application-Id", 4),)) -> Request:
    """The Capabilities-Exchange-Request of this host."""
    own: list[Avp] = [
        ("Origin-Host", host),
        ("Origin-Realm", "example"),
        ("Host-IP-Address", b"\0\1\x7f\0\0\1"),
        ("Vendor-Id", 0),
        ("Product-Name", "test", 0),
    ]
    return (CER, 0, [*own, *capabilities], REQUEST)


class Gateway:
    """A gateway's connection. A thread reads; answers wait for who asked. Requests of the other end
    are kept, and answered by `answers`."""

    def __init__(
        self,
        port: int,
        host: str = "gw.example",
        capabilities: Sequence[Avp] = (("Auth-Application-Id", 4),),
        tls: ssl.SSLContext | None = None,
        address: str = "127.0.0.1",
    ) -> None:
        self.host = host
        self.changed, self.writing, self.hops = threading.Condition(), threading.Lock(), 0
        self.came: dict[int, Message] = {}
        self.order: list[int] = []
        self.requests: list[Message] = []
        self.is_closed = False
        self.answers = {DWR: 2001, DPR: 2001, RAR: 2001}
        self.connection = socket.create_connection((address, port), PATIENCE)
        self.connection.setsockopt(socket.IPPROTO_TCP, socket.TCP_NODELAY, 1)
        if tls:
            self.connection = tls.wrap_socket(self.connection, server_hostname="ocs.example")
        self.connection.settimeout(None)
        threading.Thread(target=self.read, daemon=True).start()
        self.cea = self.ask(greeting(host, capabilities))

    def origin(self) -> list[Avp]:
        """Who it is."""
        return [("Origin-Host", self.host), ("Origin-Realm", "example")]

    def read(self) -> None:
        """Reads until the connection ends."""
        with contextlib.suppress(OSError, ValueError):
            while one := read_message(self.connection):
                with self.changed:
                    self.take(one)
                    self.changed.notify_all()
        with self.changed:
            self.is_closed = True
            self.changed.notify_all()

    def take(self, one: Message) -> None:
        """Keeps a message, and answers a request."""
        if not one.flags & REQUEST:
            self.came[one.hop] = one
            self.order.append(one.hop)
            return
        self.requests.append(one)
        code = self.answers.get(one.code)
        if code is not None:
            session: list[Avp] = [("Session-Id", one.get("Session-Id"))] if one.code == RAR else []
            avps: list[Avp] = [*session, ("Result-Code", code), *self.origin()]
            self.send(message(one.code, one.application, avps, 0, one.hop, one.end))

    def send(self, raw: bytes) -> None:
        """Sends bytes."""
        with self.writing:
            self.connection.sendall(raw)

    def begin(self, request: Request, is_again: bool = False) -> int:
        """Sends a request; its hop-by-hop identifier."""
        code, application, avps, flags = request
        with self.changed:
            self.hops += 1
            hop = self.hops
        flags |= AGAIN if is_again else 0
        self.send(message(code, application, avps, flags, hop, hop))
        return hop

    def wait(self, hop: int, seconds: float = PATIENCE) -> Message | None:
        """The answer to this request; none where none comes."""
        with self.changed:
            self.changed.wait_for(lambda: hop in self.came or self.is_closed, seconds)
            return self.came.pop(hop, None)

    def ask(self, request: Request, is_again: bool = False) -> Message:
        """The answer to a request; an `AssertionError` where none comes."""
        answer = self.wait(self.begin(request, is_again))
        assert answer, "no answer"
        return answer

    def asked(self, code: int, count: int = 1, seconds: float = PATIENCE) -> list[Message]:
        """The other end's requests of this code, once there are so many, or time is over."""
        with self.changed:
            self.changed.wait_for(
                lambda: bool(sum(one.code == code for one in self.requests) >= count), seconds
            )
            return [one for one in self.requests if one.code == code]

    def ended(self) -> bool:
        """Whether the other end closes the connection."""
        with self.changed:
            return self.changed.wait_for(lambda: self.is_closed, PATIENCE)

    def close(self) -> None:
        """Ends the connection without a word."""
        with contextlib.suppress(OSError):
            self.connection.shutdown(socket.SHUT_RDWR)
        self.connection.close()


def ccr(
    session: str,
    kind: int,
    number: int,
    *avps: Avp,
    account: str | None = "49151",
    host: str = "gw.example",
    to: str = "example",
    context: str = "32251@3gpp.org",
    subscription: Sequence[Avp] | None = None,
) -> Request:
    """A Credit-Control-Request."""
    if subscription is None:
        subscription = [] if account is None else [subscriber(0, account)]
    head: list[Avp] = [
        ("Session-Id", session),
        ("Origin-Host", host),
        ("Origin-Realm", "example"),
        ("Destination-Realm", to),
        ("Auth-Application-Id", 4),
        ("Service-Context-Id", context),
        ("CC-Request-Type", kind),
        ("CC-Request-Number", number),
    ]
    return (CCR, 4, [*head, *subscription, *avps], REQUEST | PROXIABLE)


def subscriber(kind: int, data: Any) -> Avp:
    """A Subscription-Id."""
    return ("Subscription-Id", [("Subscription-Id-Type", kind), ("Subscription-Id-Data", data)])


def service(
    group: int | None,
    requested: Sequence[Avp] | None = None,
    used: Sequence[Sequence[Avp]] = (),
    *more: Avp,
) -> Avp:
    """A Multiple-Services-Credit-Control; units are lists of AVPs."""
    avps: list[Avp] = [] if group is None else [("Rating-Group", group)]
    if requested is not None:
        avps.append(("Requested-Service-Unit", list(requested)))
    avps += [("Used-Service-Unit", list(part)) for part in used]
    return ("Multiple-Services-Credit-Control", [*avps, *more])


def seconds(count: int) -> list[Avp]:
    """Units of time."""
    return [("CC-Time", count)]


def octets(count: int) -> list[Avp]:
    """Octets of both directions."""
    return [("CC-Total-Octets", count)]


def events(count: int) -> list[Avp]:
    """Units of events."""
    return [("CC-Service-Specific-Units", count)]


def money(digits: int, exponent: int | None, currency: int | None = 978) -> list[Avp]:
    """Money as a refund names it."""
    value: list[Avp] = [("Value-Digits", digits)]
    value += [] if exponent is None else [("Exponent", exponent)]
    code: list[Avp] = [] if currency is None else [("Currency-Code", currency)]
    return [("CC-Money", [("Unit-Value", value), *code])]
