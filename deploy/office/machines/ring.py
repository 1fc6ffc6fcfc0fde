"""Corosync's file: who is there, over both networks, and that a majority decides.

`files` calls `text`."""
from __future__ import annotations

from office.settings import Settings

HEAD = """\
# Made by `office machines write` of the office's file: change that file, not this one.
totem {{
    version: 2
    cluster_name: {name}
    transport: knet
    token: {token}
    crypto_cipher: aes256
    crypto_hash: sha256
}}
quorum {{
    provider: corosync_votequorum
}}
logging {{
    to_syslog: yes
}}
nodelist {{
"""
NODE = """\
    node {{
        nodeid: {number}
        name: {name}
        ring0_addr: {own}
        ring1_addr: {office}
    }}
"""


def text(settings: Settings) -> str:
    """Corosync's whole file."""
    cluster = settings.cluster
    made = HEAD.format(name=cluster.name, token=cluster.token)
    for number, each in enumerate(settings.machines, 1):
        made += NODE.format(number=number, name=each.name, own=each.own, office=each.office)
    return made + "}\n"
