"""Takes the certificates of a client back: from then on the doors don't let them in.

    office revoke pgw-1

Writes the list [tls] revoked and has HAProxy read it: connections of the client that are open end,
other clients' requests go on. Where HAProxy isn't a unit of this machine it says so."""
from __future__ import annotations

import argparse
import pathlib

from office import disk, options, proxy
from office.authority import SECRET, Authority
from office.faults import Refused
from office.settings import Settings


def add(parser: argparse.ArgumentParser) -> None:
    """Adds the word's arguments."""
    parser.add_argument("name", metavar="NAME")
    options.dry_run(parser)


def run(settings: Settings, arguments: argparse.Namespace) -> int:
    """Takes the certificates back."""
    authority = Authority(settings.tls.authority)
    if not authority.is_made():
        raise Refused(f"{authority.folder}: there is no authority")
    found = len(authority.serials(arguments.name))
    if arguments.dry_run:
        print(f"{found} certificates of {arguments.name} would be taken back")
        return 0
    is_listed = f"/CN={arguments.name}\n" in (authority.folder / "index").read_text()
    if not found and not is_listed:
        raise Refused(f"{authority.folder}: there is no certificate of {arguments.name}")
    authority.revoke(arguments.name)
    disk.write(pathlib.Path(settings.tls.revoked), authority.revoked.read_text(), SECRET)
    print(f"{found} certificates of {arguments.name} are taken back: {settings.tls.revoked}")
    print(proxy.read_again(settings))
    return 0
