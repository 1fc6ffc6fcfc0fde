"""What `office machines` writes: as it is kept here, and taken by the engines that read it."""
from __future__ import annotations

import pathlib
import re

import pytest
from support.world import done, ran

from machines.office import ONE, TWO, file, office, on

GOLDEN = pathlib.Path(__file__).resolve().parent / "golden"
# Where each file of the examples is on a machine.
PLACES = {
    "corosync.conf": "/etc/corosync/corosync.conf",
    "ocs-01.res": "/etc/drbd.d/ocs-01.res",
    "ocs-02.res": "/etc/drbd.d/ocs-02.res",
    "cluster.xml": "/etc/ocs/cluster.xml",
    "machines.conf": "/etc/systemd/system/ocs@.service.d/machines.conf",
}
KEY = "head -c 256 /dev/zero > /etc/corosync/authkey; chmod 400 /etc/corosync/authkey\n"
VERSION = "export DRBD_DRIVER_VERSION_OVERRIDE=8.4.11\n"
WHOLE = (
    '<cib validate-with="pacemaker-3.9" epoch="1" num_updates="0" admin_epoch="0">{}<status/></cib>'
)


def written(path: pathlib.Path, machine: str, name: str) -> str:
    """What a machine has of a file after `write`; empty where it has none."""
    return on(machine, f"$office --file {path} machines write > /mnt/told; cat {name} 2> /dev/null")


@pytest.mark.parametrize("name", PLACES)
def test_two_machines_get_the_files_of_the_example(tmp_path: pathlib.Path, name: str) -> None:
    path = file(tmp_path)
    wanted = (GOLDEN / "two" / name).read_text()
    assert written(path, "m1", PLACES[name]) == wanted
    assert written(path, "m2", PLACES[name]) == wanted
    assert written(path, "m3", PLACES[name]) == (wanted if name == "corosync.conf" else "")


def test_haproxys_lines_are_those_of_the_example(tmp_path: pathlib.Path) -> None:
    for kind, text in (("one", ONE), ("two", TWO)):
        told = done_office(file(tmp_path, text), "doors")
        assert backends(told) == (GOLDEN / kind / "haproxy.cfg").read_text()
        (tmp_path / "haproxy.cfg").write_text(told)
        ended = ran("haproxy", "-c", "-f", tmp_path / "haproxy.cfg")
        assert (ended.returncode, "WARN" in ended.stderr) == (0, False), ended.stderr


def test_one_machine_needs_nothing(tmp_path: pathlib.Path) -> None:
    path = file(tmp_path, ONE)
    for words in ("", "write", "write --dry-run", "check"):
        told = done_office(path, "machines", *words.split())
        assert told == (GOLDEN / "one" / "machines.txt").read_text()


def test_who_has_which_shard_is_said(tmp_path: pathlib.Path) -> None:
    assert done_office(file(tmp_path), "machines") == (GOLDEN / "two" / "machines.txt").read_text()


def test_drbd_takes_each_resource(tmp_path: pathlib.Path) -> None:
    lines = f"{VERSION}$office --file {file(tmp_path)} machines write > /mnt/told\n"
    lines += "for s in 01 02; do drbdadm --config-file /etc/drbd.d/ocs-$s.res dump ocs-$s; done\n"
    for machine in ("m1", "m2"):
        told = on(machine, lines)
        assert told.count("protocol           C;") == 2, told
        assert told.count("fencing          resource-and-stonith;") == 2
        assert told.count("address          ipv4 10.51.0.12:770") == 2
        assert f"resource ocs-01 on {machine}: not ignored" in told
    told = on("m1", lines.replace("for s in", "sed -i s/fencing/fence/ /etc/drbd.d/*\nfor s in"))
    assert "Parse error" in told


def test_corosync_takes_its_file_on_each_machine(tmp_path: pathlib.Path) -> None:
    lines = f"$office --file {file(tmp_path)} machines write > /mnt/told\n{KEY}"
    taken = "corosync -t -c /etc/corosync/corosync.conf; echo status $?"
    for machine in ("m1", "m2", "m3"):
        assert on(machine, f"{lines}{taken}").count("status 0\n")
    wrong = "sed -i s/aes256/aes255/ /etc/corosync/corosync.conf\n"
    assert "status 8\n" in on("m1", f"{lines}{wrong}{taken}")


def test_pacemaker_takes_its_configuration() -> None:
    text = (GOLDEN / "two" / "cluster.xml").read_text()
    done("crm_verify", "--xml-text", WHOLE.format(text))
    for old, new in (('with-rsc="disk01"', 'with-rsc="disk09"'), ('score="50"', 'scare="50"')):
        assert old in text
        assert ran("crm_verify", "-V", "--xml-text", WHOLE.format(text.replace(old, new))).stderr


def test_systemd_takes_the_unit() -> None:
    unit = (GOLDEN.parents[2] / "ocs@.service").read_text()
    more = (GOLDEN / "two" / "machines.conf").read_text()
    lines = "mkdir /mnt/ocs@.service.d\n"
    for name, text in (("ocs@.service", unit), ("ocs@.service.d/machines.conf", more)):
        text = re.sub(r"/usr/local/bin/\w+", "/bin/true", text)
        text = text.replace("=ocs\n", "=root\n")
        lines += f"cat > /mnt/{name} <<'END'\n{text}END\n"
    lines += "mkdir -p /var/lib/ocs/01; cp -r /mnt/ocs@.service* /etc/systemd/system/\n"
    lines += "systemd-analyze verify --man=no /etc/systemd/system/ocs@01.service; echo status $?"
    told = on("m1", lines)
    assert told.endswith("status 0\n"), told


def test_a_second_write_changes_nothing(tmp_path: pathlib.Path) -> None:
    path = file(tmp_path)
    word = f"$office --file {path} machines write"
    told = on("m1", f"{word} --dry-run; find /etc/drbd.d /etc/ocs -type f; {word}; {word}")
    assert told.count("would be written; it is taken by: ") == 5
    assert told.count(" written; it is taken by: ") == 5 + 5 and told.count(" as before\n") == 5
    assert told.index("would be") < told.index("/etc/drbd.d/ocs-01.res written")
    changed = (
        f"{word} > /mnt/told; sed 's/\\[cluster]/[cluster]\\ntoken = 6000/' {path} > /mnt/two\n"
    )
    changed += "$office --file /mnt/two machines write; stat -c %a /etc/ocs/cluster.xml"
    told = on("m1", changed)
    assert re.findall(r"(\S+) written", told) == ["/etc/corosync/corosync.conf"]
    assert told.endswith("600\n")


def test_a_machine_that_the_file_has_not_is_refused(tmp_path: pathlib.Path) -> None:
    for word in ("write", "check"):
        told = on("m9", f"$office --file {file(tmp_path)} machines {word}; echo status $?")
        assert "this one is 'm9', and the file has m1, m2, m3" in told and "status 2" in told


def done_office(path: pathlib.Path, *words: object) -> str:
    """What the command prints; its status has to be 0."""
    ended = office(path, *words)
    assert ended.returncode == 0, ended.stderr
    return ended.stdout


def backends(text: str) -> str:
    """The lines of HAProxy's file that say where shards are, and relays whole."""
    wanted = re.findall(r"^    server .*\n", text[: text.index("backend callers")], re.M)
    relays = text[text.index("\nfrontend relay01") :] if "frontend relay01" in text else ""
    return "".join(wanted) + relays


def test_no_account_moves_while_two_machines_have_doors(tmp_path: pathlib.Path) -> None:
    told = office(file(tmp_path), "move", "--from", "01", "--to", "02", "49151")
    assert told.returncode == 1 and "the doors of the other machine" in told.stderr
