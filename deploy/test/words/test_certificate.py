"""The words `certificate` and `revoke` over an authority of which something is lost."""
from __future__ import annotations

import pathlib

import pytest
from support.world import OFFICE, done, ran

FILE = """
[tls]
authority = "{place}/authority"
certificate = "{place}/office.pem"
clients = "{place}/clients.pem"
revoked = "{place}/revoked.pem"
"""


@pytest.fixture
def file(tmp_path: pathlib.Path) -> pathlib.Path:
    """An office's file whose authority has signed a gateway's certificate, and taken back another."""
    path = tmp_path / "office.toml"
    path.write_text(FILE.format(place=tmp_path))
    for name in ("pgw-1", "pgw-2"):
        done(OFFICE, "--file", path, "certificate", "gateway", name)
    done(OFFICE, "--file", path, "revoke", "pgw-2")
    return path


def listed(folder: pathlib.Path) -> bool:
    """Whether the list has a certificate that was taken back."""
    told = done("openssl", "crl", "-noout", "-text", "-in", folder / "revoked.pem")
    return "Serial Number: 1001" in told


@pytest.mark.parametrize("lost", (["revoked.pem"], ["revoked.pem", "openssl.cnf", "lock"]), ids=len)
def test_an_authority_that_has_signed_is_not_made_anew(file: pathlib.Path, lost: list[str]) -> None:
    folder = file.parent / "authority"
    key = (folder / "clients.key").read_bytes()
    assert listed(folder)
    for name in lost:
        (folder / name).unlink()
    done(OFFICE, "--file", file, "certificate", "gateway", "pgw-3")
    assert (folder / "clients.key").read_bytes() == key and listed(folder)
    for name in ("pgw-1", "pgw-3"):
        done("openssl", "verify", "-CAfile", folder / "clients.pem", folder / f"{name}.crt")


def test_a_key_that_is_kept_elsewhere_is_asked_for(file: pathlib.Path) -> None:
    folder = file.parent / "authority"
    for name in ("clients.key", "revoked.pem"):
        (folder / name).unlink()
    told = ran(OFFICE, "--file", file, "certificate", "gateway", "pgw-3")
    assert told.returncode == 1 and "clients.key isn't there" in told.stderr
    assert not (folder / "clients.key").exists()
