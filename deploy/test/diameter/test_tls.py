"""TLS from the first byte (RFC 6733 2.1): gateways with a certificate of the operator's authority that
isn't revoked and names their Origin-Host, and no others."""
from __future__ import annotations

import contextlib
import pathlib
import socket
import ssl
import time
from typing import Any

import pytest
from diameter.bridge import Bridge, Stub
from diameter.wire import PATIENCE, Gateway, ccr, seconds, service
from support.waiting import until
from support.world import done

SIXTY = service(10, seconds(60))


class Authority:
    """An authority of openssl's `ca`, with its revocation list."""

    def __init__(self, folder: pathlib.Path, name: str) -> None:
        self.folder, self.name = folder / name, name
        self.folder.mkdir()
        (self.folder / "index").write_text("")
        (self.folder / "serial").write_text("01\n")
        (self.folder / "number").write_text("01\n")
        (self.folder / "ca.conf").write_text(
            f"[ca]\ndefault_ca = own\n[own]\ndir = {self.folder}\ndatabase = $dir/index\n"
            "serial = $dir/serial\ncrlnumber = $dir/number\nnew_certs_dir = $dir\n"
            "certificate = $dir/ca.pem\nprivate_key = $dir/ca.key\ndefault_md = sha256\n"
            "policy = any\ncopy_extensions = copy\ndefault_crl_days = 2\nunique_subject = no\n"
            "[any]\ncommonName = supplied\n"
        )
        self.own = self.folder / "ca.pem"
        new = [
            "-x509",
            "-newkey",
            "ec",
            "-pkeyopt",
            "ec_paramgen_curve:P-256",
            "-nodes",
            "-days",
            2,
        ]
        usage = "keyUsage=critical,keyCertSign,cRLSign"
        done(
            *("openssl", "req", *new, "-subj", f"/CN={name}", "-addext", usage),
            *("-keyout", self.folder / "ca.key", "-out", self.own),
        )
        self.revoked = self.folder / "revoked.pem"
        self.listed()

    def certificate(self, name: str, alternative: str = "", days: int = 2) -> pathlib.Path:
        """A key and a certificate of this name in one file."""
        key, request, made = (self.folder / f"{name}.{end}" for end in ("key", "csr", "pem"))
        more = ["-addext", f"subjectAltName={alternative}"] if alternative else []
        new = ["-newkey", "ec", "-pkeyopt", "ec_paramgen_curve:P-256", "-nodes"]
        done(
            *("openssl", "req", *new, "-subj", f"/CN={name}", *more),
            *("-keyout", key, "-out", request),
        )
        ends = time.strftime("%Y%m%d%H%M%SZ", time.gmtime(time.time() + days * 86400 - 3600))
        begins = time.strftime("%Y%m%d%H%M%SZ", time.gmtime(time.time() - 86400))
        done(
            *("openssl", "ca", "-batch", "-config", self.folder / "ca.conf", "-in", request),
            *("-startdate", begins, "-enddate", ends, "-out", made, "-notext"),
        )
        made.write_text(made.read_text() + key.read_text())
        return made

    def listed(self, revoked: pathlib.Path | None = None) -> None:
        """Writes the revocation list, with this certificate more."""
        words = ["openssl", "ca", "-batch", "-config", self.folder / "ca.conf"]
        if revoked:
            done(*words, "-revoke", revoked)
        done(*words, "-gencrl", "-out", self.revoked)


@pytest.fixture(scope="module")
def ours(tmp_path_factory: pytest.TempPathFactory) -> Authority:
    """The operator's authority."""
    return Authority(tmp_path_factory.mktemp("authorities"), "ours")


@pytest.fixture(scope="module")
def theirs(tmp_path_factory: pytest.TempPathFactory) -> Authority:
    """Somebody else's authority."""
    return Authority(tmp_path_factory.mktemp("authorities"), "theirs")


@pytest.fixture(scope="module")
def bridge(starts: Any, ours: Authority) -> Any:
    """A bridge with TLS over a stub."""
    stub = Stub()
    own = ours.certificate("ocs.example", "DNS:ocs.example")
    files = f'certfile => "{own}", keyfile => "{own}", cacertfile => "{ours.own}"'
    listen = '[#{ip => {127,0,0,1}, port => PORT, tls => #{%s, crlfile => "%s"}}]'
    yield starts(stub.port, listen=listen % (files, ours.revoked), pool_size="16")
    stub.stop()


def client(certificate: pathlib.Path | None, trusted: Authority) -> ssl.SSLContext:
    """What a gateway shows and trusts."""
    one = ssl.create_default_context(cafile=str(trusted.own))
    if certificate:
        one.load_cert_chain(certificate)
    return one


def greeted(bridge: Bridge, tls: ssl.SSLContext | None, host: str = "gw.example") -> Any:
    """The Result-Code of CEA; none where no connection is made."""
    try:
        gateway = Gateway(bridge.port, host, tls=tls)
    except (OSError, AssertionError):
        return None
    gateway.close()
    return gateway.cea.result


def test_a_request_over_tls(bridge: Bridge, ours: Authority) -> None:
    gateway = Gateway(bridge.port, tls=client(ours.certificate("gw.example"), ours))
    assert isinstance(gateway.connection, ssl.SSLSocket)
    assert gateway.connection.version() == "TLSv1.3"
    assert gateway.ask(ccr("tls", 1, 0, SIXTY)).result == 2001
    line = bridge.line(session="tls")
    assert line["peer"] == "127.0.0.1:%d" % gateway.connection.getsockname()[1]
    gateway.close()


NAMES = {
    "the common name": ("gw1.example", "", "gw1.example", 2001),
    "its case": ("gw2.example", "", "GW2.Example", 2001),
    "a DNS name": ("pgw", "DNS:gw3.example,DNS:gw4.example", "gw4.example", 2001),
    "another common name": ("gw5.example", "", "gw6.example", 3010),
    "a common name beside DNS names": ("gw7.example", "DNS:gw8.example", "gw7.example", 3010),
    "an ending of the name": ("example", "", "gw9.example", 3010),
}


@pytest.mark.parametrize("case", NAMES)
def test_the_certificate_names_the_host(bridge: Bridge, ours: Authority, case: str) -> None:
    name, alternative, host, code = NAMES[case]
    certificate = ours.certificate(name, alternative)
    assert greeted(bridge, client(certificate, ours), host) == code


def test_strangers(bridge: Bridge, ours: Authority, theirs: Authority) -> None:
    assert greeted(bridge, client(theirs.certificate("gw.example"), ours)) is None
    assert greeted(bridge, client(None, ours)) is None
    assert greeted(bridge, client(ours.certificate("over.example", days=0), ours)) is None
    assert greeted(bridge, None) is None


def test_a_certificate_that_is_revoked(bridge: Bridge, ours: Authority) -> None:
    lost = ours.certificate("lost.example")
    standing = Gateway(bridge.port, "lost.example", tls=client(lost, ours))
    beside = Gateway(bridge.port, tls=client(ours.certificate("gw.example"), ours))
    assert standing.cea.result == beside.cea.result == 2001
    ours.listed(lost)
    bridge.reload()
    assert standing.ended()
    assert beside.ask(ccr("beside", 1, 0, SIXTY)).result == 2001
    beside.close()
    assert greeted(bridge, client(lost, ours), "lost.example") is None
    kept = ours.certificate("kept.example")
    assert greeted(bridge, client(kept, ours), "kept.example") == 2001


@pytest.mark.slow
def test_strangers_who_say_nothing(bridge: Bridge, ours: Authority) -> None:
    """More of them than processes that accept; a gateway comes in when their time is over."""
    certificate = client(ours.certificate("gw.example"), ours)
    with contextlib.ExitStack() as opened:
        for _ in range(50):
            opened.enter_context(socket.create_connection(("127.0.0.1", bridge.port)))
        until(lambda: greeted(bridge, certificate) == 2001, "a gateway's turn", 2 * PATIENCE)
    assert greeted(bridge, certificate) == 2001
