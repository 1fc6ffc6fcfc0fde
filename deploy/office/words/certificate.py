"""Makes a certificate of a gateway, a shop, an operator, or of the office itself.

    office certificate office --host office.example    first: the authority, and the doors' own
    office certificate gateway pgw-1                    a key and a certificate of it
    office certificate gateway pgw-1 --request pgw-1.csr    of a key that the gateway keeps

The authority is the folder [tls] authority of the file; it is made with the first certificate. Who
has its clients.key lets in whom they like: keep it away from the doors' machine where you can. A
certificate of a client is let in once the file names it, in its role. A second one of a name is
good beside the first, so that a client can change from one to the other; `office revoke` takes all
of a name back."""
from __future__ import annotations

import argparse
import pathlib
import re

from office import disk, options, proxy
from office.authority import SECRET, Authority
from office.faults import Unread
from office.settings import HOST, NAME, Settings

ROLES = ("office", "gateway", "shop", "operator")


def add(parser: argparse.ArgumentParser) -> None:
    """Adds the word's arguments."""
    parser.add_argument("role", choices=ROLES)
    parser.add_argument("name", nargs="?", default="", metavar="NAME")
    parser.add_argument("--host", action="append", default=[], help="of the office: its names")
    parser.add_argument("--request", type=pathlib.Path, metavar="FILE", help="a client's request")
    parser.add_argument("--days", type=int, default=397, help="how long it is good (%(default)s)")
    options.dry_run(parser)


def run(settings: Settings, arguments: argparse.Namespace) -> int:
    """Makes the certificate, and the authority where there is none."""
    judge(arguments)
    authority = Authority(settings.tls.authority)
    if arguments.dry_run:
        if not authority.is_made():
            print(f"{authority.folder}: an authority would be made")
        print(f"{authority.folder}: {arguments.role} {arguments.name} would be signed")
        return 0
    if not authority.is_made():
        authority.make()
        print(f"{authority.folder}: an authority; keep clients.key")
    if arguments.role == "office":
        return of_office(settings, authority, arguments)
    made = authority.folder / f"{arguments.name}.crt"
    if arguments.request:
        authority.sign_foreign(arguments.role, arguments.name, arguments.request, arguments.days)
        print(made)
        return 0
    authority.sign(arguments.role, arguments.name, days=arguments.days)
    print(f"{made} and .key")
    return 0


def judge(arguments: argparse.Namespace) -> None:
    """Refuses words that don't fit each other."""
    if not 1 <= arguments.days <= 3650:
        raise Unread("--days is from 1 to 3650")
    if arguments.role == "office":
        if arguments.name or arguments.request or not arguments.host:
            raise Unread("the office's certificate takes --host and no name")
        if not all(re.fullmatch(HOST[0], host) and ":" not in host for host in arguments.host):
            raise Unread("--host is a name or an address, without a port")
    elif arguments.request and not arguments.request.is_file():
        raise Unread(f"{arguments.request} isn't there")
    elif arguments.host or not re.fullmatch(NAME[0], arguments.name) or arguments.name == "clients":
        raise Unread(f"a certificate of a {arguments.role} takes {NAME[1]}")


def of_office(settings: Settings, authority: Authority, arguments: argparse.Namespace) -> int:
    """The doors' own certificate, and what they know their clients by, where the file has them."""
    authority.sign("office", "office", arguments.host, arguments.days)
    both = [(authority.folder / f"office.{part}").read_text() for part in ("crt", "key")]
    tls = settings.tls
    for path, text in (
        (tls.certificate, "".join(both)),
        (tls.clients, authority.certificate.read_text()),
        (tls.revoked, authority.revoked.read_text()),
    ):
        pathlib.Path(path).parent.mkdir(parents=True, exist_ok=True)
        disk.write(pathlib.Path(path), text, SECRET)
        print(path)
    print(proxy.read_again(settings))
    return 0
