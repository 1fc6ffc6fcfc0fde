"""Requests go from a machine's doors to a shard by its relay, at the address that moves with it:
real HAProxy, real shard, in a machine's namespaces. Both machines' doors are the one HAProxy
here."""
from __future__ import annotations

import pathlib

from support.world import BOOK, DEPLOY, program

from machines import page
from machines.office import TWO, file, on

MORE = '[haproxy]\nuser = ""\nsockets = "/mnt"\n[cluster]'
# The shard listens as its unit has it; its address comes when the lines say so.
SERVED = """\
mkdir /var/lib/ocs/01
{program} init /var/lib/ocs/01/01.db {book} > /mnt/told
{program} serve /var/lib/ocs/01/01.db --port 8101 --connections 100000 > /mnt/told 2>&1 & shard=$!
$office --file {file} doors > /mnt/haproxy.cfg
haproxy -db -f /mnt/haproxy.cfg > /mnt/log 2>&1 & haproxy=$!
ask() {{ echo "$(curl -sS --max-time 60 -o - -w ' %{{http_code}}' "$@" 2>&1)"; }}
until ask http://127.0.0.1:8081/office | grep -q ' 200$'; do sleep 0.1; done
"""
ENDED = "kill $haproxy $shard; wait"
# An account of shard 01 and one of shard 02, of two.
ACCOUNT, OTHER = "49152", "49151"


def answers(tmp_path: pathlib.Path, lines: str) -> list[str]:
    """What the lines print, with a shard and HAProxy that are up on m1."""
    path = file(tmp_path, TWO, "[cluster]", MORE)
    begin = SERVED.format(program=program(), book=BOOK, file=path)
    return on("m1", f"{begin}{lines}\n{ENDED}").splitlines()


def test_a_request_reaches_the_shard_by_its_relay(tmp_path: pathlib.Path) -> None:
    told = answers(
        tmp_path,
        "ip addr add 10.51.0.101/24 dev eth1\n"
        f"for i in 1 2; do ask -X PUT -d '' http://127.0.0.1:8081/accounts/{ACCOUNT}; done\n"
        "grep -c '^{' /mnt/log",
    )
    assert told == ['{"Result-Code":2001} 200', '{"Refusal":"O1"} 200', "3"]


def test_an_address_that_moves_is_waited_for(tmp_path: pathlib.Path) -> None:
    told = answers(
        tmp_path,
        f"ask -X PUT -d '' http://127.0.0.1:8081/accounts/{ACCOUNT} & asked=$!\n"
        "sleep 3; echo before; ip addr add 10.51.0.101/24 dev eth1; wait $asked",
    )
    assert told == ["before", '{"Result-Code":2001} 200']


def test_a_shard_that_starts_is_waited_for_behind_its_address(tmp_path: pathlib.Path) -> None:
    told = answers(
        tmp_path,
        "ip addr add 10.51.0.101/24 dev eth1; kill -9 $shard\n"
        f"ask -X PUT -d '' http://127.0.0.1:8081/accounts/{ACCOUNT} & asked=$!\n"
        f"sleep 3; echo before; {program()} serve /var/lib/ocs/01/01.db --port 8101 "
        "--connections 1000 > /mnt/told 2>&1 & shard=$!\nwait $asked",
    )
    assert told == ["before", '{"Result-Code":2001} 200']


def test_a_relay_is_for_the_machines_alone(tmp_path: pathlib.Path) -> None:
    asked = "http://10.51.0.101:8201/accounts/49151"
    told = answers(
        tmp_path,
        "ip addr add 10.51.0.101/24 dev eth1; ip addr add 10.51.0.66/24 dev eth1\n"
        f"ask --interface 10.51.0.66 {asked}; ask --interface 127.0.0.1 {asked}\n"
        f"ask {asked}; ask --interface 10.51.0.11 {asked}",
    )
    found = [line[-4:] for line in told]
    assert [status for status in found if status[1:].isdigit()] == [" 000"] * 2 + [" 200"] * 2


def test_with_the_link_pulled_the_other_machines_shards_are_away(tmp_path: pathlib.Path) -> None:
    told = answers(
        tmp_path,
        "ip addr add 10.51.0.101/24 dev eth1\n"
        f"for a in {ACCOUNT} {OTHER}; do ask -X PUT -d '' http://127.0.0.1:8081/accounts/$a; done",
    )
    assert told == ['{"Result-Code":2001} 200', '{"Result-Code":5012} 503']


# The other machine, with the shard's address and a relay that takes a request and then says nothing.
PEER = """\
mkdir -p /run/netns; mount -t tmpfs tmpfs /run/netns
ip netns add m2; ip link add away type veth peer name eth1 netns m2
ip link set away master eth1 up; ip -n m2 link set eth1 up
for a in 10.51.0.12 10.51.0.101; do ip -n m2 addr add $a/24 dev eth1; done
ip netns exec m2 socat -u TCP-LISTEN:8201,fork,reuseaddr OPEN:/dev/null > /mnt/told 2>&1 & relay=$!
"""
# It is dead, and three seconds later its shard is here.
DEAD = "ip link set away down; sleep 3; ip addr add 10.51.0.101/24 dev eth1"


def test_a_request_that_was_under_way_at_a_dead_machine_lets_the_next_go(
    tmp_path: pathlib.Path,
) -> None:
    told = answers(
        tmp_path,
        f"{PEER}"
        f"ask -X PUT -d '' http://127.0.0.1:8081/accounts/{ACCOUNT} & first=$!\n"
        f"sleep 2; ask -X PUT -d '' http://127.0.0.1:8081/accounts/{ACCOUNT} & second=$!\n"
        f"sleep 1; {DEAD}; began=$(date +%s)\n"
        "wait $first; wait $second; [ $(($(date +%s) - began)) -lt 15 ] && echo soon\n"
        "kill $relay",
    )
    assert told == ['{"Result-Code":5012} 502', '{"Result-Code":2001} 200', "soon"]


# Somebody listens where the relays of both machines are, and may be reached by everybody.
OPEN = """\
socat -u TCP-LISTEN:8201,fork,reuseaddr OPEN:/dev/null > /mnt/told 2>&1 & own=$!
reached() { runuser -u "$1" -- bash -c ": < /dev/tcp/$2/8201" 2> /mnt/told; }
for a in 10.51.0.11 10.51.0.12; do until reached nobody $a; do sleep 0.1; done; done
"""
ASKED = """
for user in nobody haproxy; do
    for a in 10.51.0.11 10.51.0.12; do reached $user $a && echo $user reaches $a; done
done
kill $own $relay
"""


def test_users_of_a_machine_are_kept_from_the_relays_of_both() -> None:
    ports = page.fenced(page.section("The shards' own ports", DEPLOY / "README.md"))
    set_up = page.blocks(page.section("Set up"))
    relays = next(lines for _, lines in set_up if "8201-8298" in lines)
    told = on("m1", f"{PEER}{OPEN}{ports}{relays}{ASKED}").splitlines()
    assert told == [f"haproxy reaches {address}" for address in ("10.51.0.11", "10.51.0.12")]
