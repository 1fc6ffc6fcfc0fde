"""Certificates and passwords: who is let in, and under which name."""
from __future__ import annotations

import base64
import shutil
import socket
from collections.abc import Callable

import pytest
from support.callers import NO_CONNECTION, Caller, debit, opened
from support.waiting import until
from support.world import OFFICE, World, done

SECRET = "correct-horse-41"

ACCOUNT = "70002"


@pytest.fixture(scope="module", autouse=True)
def account(world: World) -> None:
    """The account that is asked about is open."""
    opened(Caller(world, world.place / "office.sock"), ACCOUNT, 1_000_000)


# Door, certificate, method, target, status.
CERTIFICATES = {
    "none at the gateways' door": ("gateways", None, "/health", NO_CONNECTION),
    "none at the shops' door": ("shops", None, f"/accounts/{ACCOUNT}", NO_CONNECTION),
    "a gateway's": ("gateways", "pgw-1", "/health", 200),
    "a gateway's that isn't named": ("gateways", "pgw-unnamed", "/health", 403),
    "a shop's at the gateways' door": ("gateways", "shop-7", "/health", 403),
    "an operator's at the gateways' door": ("gateways", "ada", "/health", 403),
    "a gateway's at the operators' door": ("operators", "pgw-1", f"/accounts/{ACCOUNT}", 403),
    "a shop's at the operators' door": ("operators", "shop-7", f"/accounts/{ACCOUNT}", 403),
    "a gateway's at the shops' door": ("shops", "pgw-1", f"/accounts/{ACCOUNT}", 403),
    "an operator's at the shops' door": ("shops", "ada", f"/accounts/{ACCOUNT}", 403),
    "the office's own": ("gateways", "office", "/health", NO_CONNECTION),
}


@pytest.mark.parametrize(
    "door, name, target, status", CERTIFICATES.values(), ids=list(CERTIFICATES)
)
def test_a_certificate(
    at: Callable[..., Caller], door: str, name: str | None, target: str, status: int
) -> None:
    assert at(door, name).ask("GET", target).status == status


def test_another_authoritys_certificate(world: World, at: Callable[..., Caller]) -> None:
    other = world.place / "other"
    other.mkdir()
    text = world.file.read_text().replace(f"{world.place}/authority", f"{other}/authority")
    (other / "office.toml").write_text(text)
    done(OFFICE, "--file", other / "office.toml", "certificate", "gateway", "pgw-1")
    for part in ("crt", "key"):
        shutil.copy(other / f"authority/pgw-1.{part}", world.place / f"authority/forged.{part}")
    assert at("gateways", "forged").ask("GET", "/health").status == NO_CONNECTION


def test_a_certificate_that_is_over(world: World, at: Callable[..., Caller]) -> None:
    place = world.place / "authority"
    settings = ("-config", place / "openssl.cnf")
    shutil.copy(place / "pgw-1.key", place / "late.key")
    new = ("openssl", "req", "-new", *settings, "-subj", "/CN=-", "-key", place / "late.key")
    done(*new, "-out", place / "late.csr")
    ends = ("-startdate", "20200101000000Z", "-enddate", "20200201000000Z")
    names = ("-batch", "-notext", "-extensions", "as-client", "-subj", "/OU=gateway/CN=pgw-1")
    asked = ("-in", place / "late.csr", "-out", place / "late.crt")
    done("openssl", "ca", *settings, *names, *ends, *asked)
    assert at("gateways", "late").ask("GET", "/health").status == NO_CONNECTION


def test_a_key_that_a_client_keeps(world: World, at: Callable[..., Caller]) -> None:
    place = world.place / "authority"
    new = (
        "openssl",
        "req",
        "-new",
        "-newkey",
        "rsa:2048",
        "-nodes",
        "-subj",
        "/OU=operator/CN=ada",
    )
    done(*new, "-keyout", place / "own.key", "-out", world.place / "own.csr")
    world.command("certificate", "gateway", "pgw-2", "--request", world.place / "own.csr")
    shutil.copy(place / "pgw-2.crt", place / "own.crt")
    assert at("gateways", "own").ask("GET", "/health").status == 200
    assert at("operators", "own").ask("GET", f"/accounts/{ACCOUNT}").status == 403
    world.command("certificate", "gateway", "pgw-2")


def test_a_revoked_certificate(world: World, at: Callable[..., Caller]) -> None:
    assert at("gateways", "pgw-old").ask("GET", "/health").status == 200
    kept = at("gateways", "pgw-old").connection()
    kept.connect()
    assert world.office("revoke", "pgw-nobody").returncode == 1
    told = world.command("revoke", "pgw-old")
    assert "1 certificates of pgw-old are taken back" in told
    assert "nothing was reloaded" in told or "isn't active" in told
    world.reload()
    assert at("gateways", "pgw-old").ask("GET", "/health").status == NO_CONNECTION
    assert at("gateways", "pgw-1").ask("GET", "/health").status == 200
    until(lambda: is_ended(kept.sock), "the end of its kept connection")
    told_of = [line["verify"] for line in world.lines() if line.get("why") == "connection"]
    assert "23" in told_of


def is_ended(peer: socket.socket) -> bool:
    """Whether the other side has ended a connection."""
    peer.settimeout(0.2)
    try:
        return peer.recv(1) == b""
    except TimeoutError:
        return False
    except OSError:
        return True


def basic(name: str, secret: str) -> str:
    """The field of a name and a password."""
    return "Basic " + base64.b64encode(f"{name}:{secret}".encode()).decode()


PASSWORDS = {
    "none": ("-", 401),
    "the right one": (basic("grace", SECRET), 200),
    "a wrong one": (basic("grace", "x"), 401),
    "another's": (basic("ada", SECRET), 401),
    "no words": ("Basic", 401),
    "another scheme": ("Bearer " + SECRET, 401),
}


@pytest.mark.parametrize("field, status", PASSWORDS.values(), ids=list(PASSWORDS))
def test_a_password(at: Callable[..., Caller], field: str, status: int) -> None:
    answer = at("operators").ask("GET", f"/accounts/{ACCOUNT}", Authorization=field)
    assert answer.status == status
    assert ("Basic" in answer.fields.get("www-authenticate", "")) == (status == 401)


def test_a_password_isnt_for_gateways(at: Callable[..., Caller]) -> None:
    field = basic("grace", SECRET)
    answer = at("gateways").ask("POST", "/ccr", debit(ACCOUNT, "y"), Authorization=field)
    assert answer.status == NO_CONNECTION
    assert at("gateways", "ada").ask("GET", "/health", Authorization=field).status == 403


def test_guesses_are_stopped_and_certificates_go_on(at: Callable[..., Caller]) -> None:
    stranger, path = at("operators"), f"/accounts/{ACCOUNT}"
    told = [
        stranger.ask("GET", path, Authorization=basic("grace", f"guess-{one}")).status
        for one in range(40)
    ]
    assert set(told) <= {401, 429} and told[-1] == 429
    assert stranger.ask("GET", path, Authorization=basic("grace", SECRET)).status == 429
    assert at("operators", "ada").ask("GET", path).status == 200


def test_the_log_has_names_and_no_password(world: World, at: Callable[..., Caller]) -> None:
    answer = at("operators", "ada").ask("GET", f"/accounts/{ACCOUNT}")
    assert world.line(answer.fields["x-request-id"])["who"] == "ada"
    text = world.log.read_text()
    assert SECRET not in text
    assert basic("grace", SECRET)[6:] not in text


def test_a_password_of_the_word_is_let_in(world: World) -> None:
    told = world.command("password", "heidi").splitlines()
    secret, hashed = told[0].rpartition(" ")[2], told[3].split('"')[1]
    salt = hashed.split("$")[2:4]
    again = ("openssl", "passwd", "-5", "-salt", "$".join(salt), secret)
    assert done(*again).strip() == hashed
    assert world.office("password", "Heidi Klum").returncode == 2
