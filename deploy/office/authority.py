"""The authority that signs the office's certificates, by openssl.

The words `certificate` and `revoke` call this. The authority is a folder of openssl's; it is made
when the first certificate is asked for, and need not be on the office's machine. A certificate has
its role in the OU and its name in the CN. Each call is one or two runs of openssl."""
from __future__ import annotations

import contextlib
import fcntl
import pathlib
import re
import subprocess
from collections.abc import Iterator, Sequence

from office import disk
from office.faults import Refused

CURVE = ("-algorithm", "EC", "-pkeyopt", "ec_paramgen_curve:P-256")
YEARS = 3650
# What openssl begins with.
FIRST = {"index": "", "serial": "1000\n", "crlnumber": "01\n"}
# Of a file that its owner alone may read.
SECRET = 0o600
SETTINGS = """\
[ca]
default_ca = office
[office]
dir = {folder}
database = $dir/index
serial = $dir/serial
crlnumber = $dir/crlnumber
new_certs_dir = $dir/signed
certificate = $dir/clients.pem
private_key = $dir/clients.key
default_md = sha256
default_days = {days}
default_crl_days = 3650
unique_subject = no
policy = client
copy_extensions = none
[client]
organizationalUnitName = supplied
commonName = supplied
[req]
distinguished_name = client
[as-client]
basicConstraints = critical,CA:FALSE
keyUsage = critical,digitalSignature
extendedKeyUsage = clientAuth
[as-server]
basicConstraints = critical,CA:FALSE
keyUsage = critical,digitalSignature
extendedKeyUsage = serverAuth
subjectAltName = {hosts}
[as-authority]
basicConstraints = critical,CA:TRUE,pathlen:0
keyUsage = critical,keyCertSign,cRLSign
subjectKeyIdentifier = hash
"""


class Authority:
    """An authority in a folder."""

    def __init__(self, folder: str | pathlib.Path) -> None:
        self.folder = pathlib.Path(folder).absolute()
        self.certificate, self.revoked = self.folder / "clients.pem", self.folder / "revoked.pem"

    def is_made(self) -> bool:
        """Whether it is there, whole."""
        return self.revoked.exists()

    def make(self) -> None:
        """Makes what isn't there of it: a key, its certificate, a list. What is there stays, since with
        another key nobody gets in whom this one has signed."""
        self.folder.mkdir(mode=0o700, parents=True, exist_ok=True)
        with self.alone():
            (self.folder / "signed").mkdir(exist_ok=True)
            for name, text in FIRST.items():
                if not (self.folder / name).exists():
                    disk.write(self.folder / name, text)
            secret = self.folder / "clients.key"
            if not secret.exists():
                if self.certificate.exists():
                    raise Refused(f"{secret} isn't there, which {self.certificate} is of: bring it")
                disk.write(secret, openssl("genpkey", *CURVE), SECRET)
            if not self.certificate.exists():
                words = ["-x509", "-days", YEARS, "-extensions", "as-authority", "-key", secret]
                subject = ["-subj", "/CN=Clients of the office"]
                disk.write(
                    self.certificate, openssl("req", "-new", *words, *subject, *self.settings())
                )
            self.list_revoked()

    def sign(self, role: str, name: str, hosts: Sequence[str] = (), days: int = 397) -> None:
        """A new key and a certificate of it, NAME.key and NAME.crt in the folder, in the place of
        those of that name. With hosts it is a server's."""
        with self.alone():
            secret = self.folder / f"{name}.key.new"
            disk.write(secret, openssl("genpkey", *CURVE), SECRET)
            request = self.folder / f"{name}.csr"
            openssl(
                "req", "-new", "-subj", "/CN=-", "-key", secret, *self.settings(), "-out", request
            )
            self.sign_request(role, name, request, hosts, days)
            secret.replace(self.folder / f"{name}.key")
            request.unlink()

    def sign_foreign(self, role: str, name: str, request: pathlib.Path, days: int = 397) -> None:
        """A certificate of a request that a client made of its own key. What the request says of
        role and name isn't looked at: these are said here."""
        with self.alone():
            self.sign_request(role, name, request, (), days)

    def sign_request(
        self, role: str, name: str, request: pathlib.Path, hosts: Sequence[str], days: int
    ) -> None:
        """Signs a request under this role and name."""
        kind = ["-extensions", "as-server" if hosts else "as-client"]
        subject = ["-subj", f"/OU={role}/CN={name}"]
        made = self.folder / f"{name}.crt.new"
        words = ["-batch", "-notext", *kind, *subject, "-in", request, "-out", made]
        openssl("ca", *self.settings(hosts, days), *words)
        made.replace(self.folder / f"{name}.crt")

    def revoke(self, name: str) -> int:
        """Takes back every certificate of a name that is good still; how many those were."""
        with self.alone():
            serials = self.serials(name)
            for serial in serials:
                openssl("ca", *self.settings(), "-revoke", self.folder / "signed" / f"{serial}.pem")
            self.list_revoked()
        return len(serials)

    def serials(self, name: str) -> list[str]:
        """The serial numbers of a name's certificates that weren't taken back."""
        rows = [row.split("\t") for row in (self.folder / "index").read_text().splitlines()]
        return [row[3] for row in rows if row[0] == "V" and row[5].endswith(f"/CN={name}")]

    def list_revoked(self) -> None:
        """Writes the list of those that were taken back, over the one before."""
        made = self.folder / "revoked.new"
        openssl("ca", *self.settings(), "-gencrl", "-out", made)
        made.replace(self.revoked)

    def settings(self, hosts: Sequence[str] = (), days: int = 397) -> list[object]:
        """The words that name openssl's settings, which are written anew."""
        path = self.folder / "openssl.cnf"
        named = ",".join(f"{kind_of(host)}:{host}" for host in hosts) or "DNS:localhost"
        path.write_text(SETTINGS.format(folder=self.folder, hosts=named, days=days))
        return ["-config", path]

    @contextlib.contextmanager
    def alone(self) -> Iterator[None]:
        """Nobody else signs meanwhile."""
        with (self.folder / "lock").open("w") as lock:
            fcntl.flock(lock, fcntl.LOCK_EX)
            yield


def kind_of(host: str) -> str:
    """How a certificate names a host: by its address or by its name."""
    return "IP" if re.fullmatch("[0-9.]+", host) else "DNS"


def openssl(*words: object) -> str:
    """What openssl prints for these words; refused, with what it says, where it fails."""
    try:
        ended = subprocess.run(
            ["openssl", *map(str, words)], capture_output=True, text=True, check=False
        )
    except OSError as fault:
        raise Refused(f"openssl: {fault.strerror}") from fault
    if ended.returncode:
        raise Refused(f"openssl {words[0]}: {ended.stderr.strip()[-300:]}")
    return ended.stdout
