"""The Debian packages in a fresh Debian, and with shards that systemd serves: installed, upgraded over a
database of the version before, purged; data stays."""
from __future__ import annotations

import os
import pathlib
import re
import shutil
import subprocess

import pytest

from month.machine import DEPLOY, Machine, machine
from month.stand import Stand
from support import ports

pytestmark = pytest.mark.slow
DATABASE = "/var/lib/ocs/01.db"
CHANGES = (DEPLOY / "debian/changelog").read_text(encoding="utf-8")
# The version before and the newest; the program is the same in both.
OLD, NEW = re.findall(r"^ocs-server \((.*)\) ", CHANGES, re.MULTILINE)[1::-1]
PROGRAM = NEW.partition("-")[0]
BACK = "DROP TABLE covered; DROP TABLE allowance_buckets; UPDATE meta SET version = 2"


def run(*words: object, status: int = 0) -> str:
    """What a command prints on both streams."""
    told = subprocess.run(
        list(map(str, words)),
        stdout=subprocess.PIPE,
        stderr=subprocess.STDOUT,
        text=True,
        check=False,
        env={"PATH": "/usr/sbin:/usr/bin:/sbin:/bin", "DEBIAN_FRONTEND": "noninteractive"},
    )
    assert told.returncode == status, f"{words}: {told.returncode} {told.stdout[-2000:]}"
    return told.stdout


def built(folder: pathlib.Path, *version: str) -> None:
    """Makes the packages of a version, of which lintian says nothing."""
    words = [str(DEPLOY / "debian/package"), str(folder), *version]
    told = subprocess.run(words, capture_output=True, text=True, check=False)
    assert (told.returncode, told.stdout) == (0, "lintian: nothing\n"), told.stderr


@pytest.fixture(scope="module", name="packages")
def packages_of_both(tmp_path_factory: pytest.TempPathFactory) -> pathlib.Path:
    """A folder with the packages of two versions, `VERSION.deb` and `bridge-VERSION.deb`."""
    folder = tmp_path_factory.mktemp("packages")
    built(folder / OLD, OLD)
    built(folder / NEW)
    for version in (OLD, NEW):
        made = folder / version
        shutil.copy(made / f"ocs-server_{version}_amd64.deb", folder / f"{version}.deb")
        shutil.copy(made / f"ocs-diameter_{version}_all.deb", folder / f"bridge-{version}.deb")
    return folder


class Fresh:
    """A fresh Debian in a folder, and the packages of two versions in it."""

    def __init__(self, folder: pathlib.Path, packages: pathlib.Path) -> None:
        self.root = folder / "root"
        more = "adduser,haproxy,openssl,python3,python3-prometheus-client,sqlite3,systemd,"
        more += "curl,erlang-base,erlang-diameter,erlang-inets,erlang-jiffy,erlang-ssl,"
        more += "bash-completion,fish,zsh"
        run("debootstrap", "--variant=minbase", f"--include={more}", "bookworm", self.root)
        for package in packages.glob("*.deb"):
            shutil.copy(package, self.root)
        run("cp", "-r", DEPLOY.parent / "examples", self.root / "examples")

    def run(self, line: str, status: int = 0) -> str:
        """What a line prints in there."""
        return run(*self.words(line), status=status)

    def words(self, line: str) -> list[str]:
        """Words that run a line in there, with the processes of this machine and terminals."""
        enter = 'mount -t proc proc "$0/proc" && mount -t devpts devpts "$0/dev/pts" && '
        enter += 'exec chroot "$0" sh -c "$1"'
        return ["unshare", "--mount", "sh", "-c", enter, str(self.root), line]


@pytest.fixture(scope="module", name="fresh")
def made(tmp_path_factory: pytest.TempPathFactory, packages: pathlib.Path) -> Fresh:
    return Fresh(tmp_path_factory.mktemp("debian"), packages)


def test_it_is_installed_upgraded_and_purged(fresh: Fresh) -> None:
    fresh.run(f"dpkg --install /{OLD}.deb")
    assert fresh.run("stat -c '%U %a' /var/lib/ocs").split() == ["ocs", "750"]
    as_ocs = "setpriv --reuid ocs --regid ocs --clear-groups"
    fresh.run(f"{as_ocs} ocs-server init {DATABASE} /examples/book.toml")
    fresh.run(f"{as_ocs} ocs-server open {DATABASE} 49151")
    fresh.run(f"{as_ocs} ocs-server credit {DATABASE} 49151 1000000 c1")
    assert "Gives a shard a new database" in fresh.run("office carry --help")
    assert fresh.run("office audit " + DATABASE) == "findings 0 in 1 databases\n"
    assert "bind 127.0.0.1:8080" in fresh.run("office doors")
    assert "/usr/bin/ocs-server serve" in fresh.run("cat /lib/systemd/system/ocs@.service")
    assert "/usr/bin/office agent" in fresh.run("cat /lib/systemd/system/office-agent.service")
    assert "/usr/bin/office archive" in fresh.run("cat /lib/systemd/system/office-archive.service")
    assert "/usr/bin/office backups" in fresh.run("cat /lib/systemd/system/office-backups.service")
    fresh.run(
        "printf '[office]\\nshards = 1\\nprogram = \"/usr/bin/ocs-server\"\\n' > "
        "/etc/ocs/office.toml"
    )
    statement = f"{as_ocs} ocs-server statement {DATABASE} 49151 $(date +%Y%m)"
    before = fresh.run(statement).splitlines()[1:]
    fresh.run(f"dpkg --install --force-confold /{NEW}.deb")
    assert "shards = 1" in fresh.run("cat /etc/ocs/office.toml")
    assert fresh.run("ocs-server --version").startswith(f"ocs {PROGRAM}, ")
    # Where its tables are the same it goes on; where they are of a version before, the program says so, and
    # the operator migrates them.
    assert fresh.run(statement).splitlines()[1:] == before
    fresh.run(f'{as_ocs} sqlite3 {DATABASE} "{BACK}"')
    assert "open fault 6" in fresh.run(statement, 1)
    assert fresh.run(f"{as_ocs} ocs-server migrate {DATABASE}") == "version 3\n"
    assert "COLLECTED TO DATE 0" in fresh.run(statement)
    fresh.run("dpkg --purge ocs-server")
    assert fresh.run("ls /var/lib/ocs").split() == ["01.db", "01.db-wal"]
    assert fresh.run("id -un ocs") == "ocs\n"
    left = fresh.run("find /usr /etc /lib -xdev -name '*ocs-server*' -o -path '*share/ocs*'")
    assert left == ""


def test_what_is_printed_and_written_has_the_version(fresh: Fresh) -> None:
    fresh.run(f"dpkg --install /{NEW}.deb")
    for page in ("office", "ocs-server"):
        head = fresh.run(f"zgrep -m 1 '^.TH' /usr/share/man/man1/{page}.1.gz")
        assert PROGRAM in head, head
    assert re.findall(r"^apt-get install .*_(.*)_.*\.deb$", PAGE, re.MULTILINE) == [NEW, NEW]
    links = fresh.run("ls /usr/share/doc/ocs-server /usr/share/doc/ocs-server/examples")
    pages = set(re.findall(r"\]\(([A-Z]+\.md)\b", PAGE))
    assert pages and all(page in links for page in (*pages, "ocs.yml", "prometheus.yml"))


def test_a_package_of_another_version_than_its_program_is_not_built(tmp_path: pathlib.Path) -> None:
    other = tmp_path / "ocs"
    other.write_text('#!/bin/sh\necho "ocs 9.9.9, tables 3, no kit"\n', encoding="utf-8")
    other.chmod(0o755)
    told = subprocess.run(
        [DEPLOY / "debian/package", tmp_path / "made"],
        capture_output=True,
        text=True,
        check=False,
        env=os.environ | {"OCS": str(other)},
    )
    said = f"package: debian/changelog says {NEW}, and the program is ocs 9.9.9, tables 3, no kit\n"
    assert (told.returncode, told.stderr) == (1, said) and not (tmp_path / "made").exists()


# What each shell makes of `ocs-server mi` and a tab, where the package is installed; zsh in a terminal of
# its own.
BASH = """
. /usr/share/bash-completion/bash_completion
_completion_loader ocs-server
COMP_WORDS=(ocs-server mi) COMP_CWORD=1
$(complete -p ocs-server | sed 's/.*-F \\([^ ]*\\).*/\\1/')
printf '%s\n' "${COMPREPLY[@]}"
"""
ZSH = """
zmodload zsh/zpty && zpty z zsh -f -i
until_seen() {
    until [[ $seen == *$1* ]]; do zpty -r -t z line && seen+=$line || sleep 0.1; done
}
zpty -w z 'autoload -Uz compinit && compinit -u -D && print re""ady $_comps[ocs-server]'
until_seen 'ready _ocs-server'
zpty -w -n z $'ocs-server mi\\t'
until_seen grate && print migrate
"""
FISH = "complete -C 'ocs-server mi'"
SHELLS = {"bash": BASH, "zsh": ZSH, "fish": FISH}


@pytest.mark.parametrize("shell", SHELLS)
def test_a_shell_completes_the_installed_name(fresh: Fresh, shell: str) -> None:
    fresh.run(f"dpkg --install /{NEW}.deb")
    (fresh.root / "script").write_text(SHELLS[shell], encoding="utf-8")
    told = fresh.run(f"HOME=/tmp TERM=dumb timeout 60 {shell} /script < /dev/null")
    assert told.startswith("migrate")


def test_it_does_not_take_the_place_of_cscope(fresh: Fresh) -> None:
    listed = fresh.run(f"dpkg --contents /{NEW}.deb")
    assert "./usr/bin/ocs\n" not in listed and "man1/ocs.1" not in listed


def test_the_bridge_is_installed_upgraded_and_purged(fresh: Fresh) -> None:
    fresh.run(f"dpkg --install /{OLD}.deb /bridge-{OLD}.deb")
    own = "/etc/ocs/diameter.config"
    assert fresh.run(f"ocs-diameter --check {own}") == f"ocs-diameter: {own} is read\n"
    unit = fresh.run("cat /lib/systemd/system/ocs-diameter.service")
    assert f"/usr/lib/ocs-diameter/ocs-diameter {own}" in unit
    assert "/usr/bin/office credited" in fresh.run("cat /lib/systemd/system/ocs-credited.service")
    fresh.run(f"sed -i 's/ocs.example/ocs1.example/' {own}")
    fresh.run(f"dpkg --install --force-confold /{NEW}.deb /bridge-{NEW}.deb")
    assert 'origin_host => "ocs1.example"' in fresh.run(f"cat {own}")
    assert listens(fresh, own)
    fresh.run("dpkg --purge ocs-diameter ocs-server")
    names = "-name '*ocs-diameter*' -o -name diameter.config -o -name ocs-credited.service"
    assert fresh.run(f"find /usr /etc /lib -xdev {names}") == ""


def listens(fresh: Fresh, own: str) -> bool:
    """Whether the bridge that is installed starts on a port and says so; it is told to end then."""
    port = ports.free(2)
    fresh.run(f"sed -i 's/port => 3868/port => {port}/; s/9868/{port + 1}/' {own}")
    words = fresh.words(f"exec ocs-diameter {own}")
    with subprocess.Popen(words, stdout=subprocess.PIPE, stderr=subprocess.STDOUT) as bridge:
        assert bridge.stdout
        told = next((line for line in bridge.stdout if b"listening" in line), b"")
        bridge.terminate()
        bridge.stdout.read()
    return f"127.0.0.1:{port}".encode() in told


PAGE = (DEPLOY / "MONTH.md").read_text(encoding="utf-8")
# The first day of the package, as its page has it, after what this machine needs: it has no clock that is
# synchronised, and a rule by which no package starts or stops a unit.
SERVED = f"""
set -e
rm -f /usr/sbin/policy-rc.d /usr/local/bin/ocs
dpkg --install /tmp/{OLD}.deb
sed -i 's/^.office.$/[office]\\nsynchronised = false/' /etc/ocs/office.toml
install -d /run/haproxy
{PAGE.partition("## The package")[2].split("```")[3]}
"""
SHARDS = ("01", "02", "03", "04")


class Packaged(Stand):
    """An office of the package, whose command is the installed one."""

    def run(self, line: str, status: int | None = 0) -> str:
        """What a line prints on both streams."""
        return super().run(f"export PATH=/usr/sbin:/usr/bin:/sbin:/bin\n{line}", status)

    def processes(self) -> list[str]:
        """The process of each shard; 0 where none serves it."""
        show = "systemctl show --property MainPID --value"
        return [self.run(f"{show} ocs@{shard}").strip() for shard in SHARDS]

    def migrates(self) -> None:
        """The shards are of the version before, which the program says, and are migrated by the word."""
        self.run(f"systemctl stop {' '.join(f'ocs@{shard}' for shard in SHARDS)}")
        for shard in SHARDS:
            self.run(f'runuser -u ocs -- sqlite3 /var/lib/ocs/{shard}.db "{BACK}"')
        assert "open fault 6" in self.run(
            f"runuser -u ocs -- ocs-server statement {DATABASE} 1 202601", 1
        )
        told = self.run("office migrate")
        assert told == "".join(f"{shard} version 3\n" for shard in SHARDS)
        assert "04 answers" in self.run("office up")


def test_shards_are_served_upgraded_and_stopped_by_systemd(packages: pathlib.Path) -> None:
    with machine() as copy:
        office = Packaged(copy)
        for version in (OLD, NEW):
            brought(copy, packages / f"{version}.deb")
        told = office.run(SERVED)
        assert all(f"{shard} answers" in told for shard in SHARDS)
        assert office.run("systemctl is-active office-backups.timer").strip() == "active"
        office.open("49151", 1_000_000)
        assert office.debit("49151", "before")["Result-Code"] == 2001
        left, before = office.available("49151"), office.processes()
        office.run(f"dpkg --install --force-confold /tmp/{NEW}.deb")
        # What is served goes on, by the processes of before.
        assert office.processes() == before and "0" not in before
        assert office.available("49151") == left
        office.migrates()
        assert set(office.processes()).isdisjoint(before) and office.available("49151") == left
        assert office.debit("49151", "before")["Result-Code"] == 2001
        assert office.available("49151") == left
        office.run("office audit && office backups")
        office.run("dpkg --remove ocs-server")
        assert office.processes() == ["0"] * len(SHARDS)
        office.run("dpkg --purge ocs-server")
        assert office.run("find /etc/systemd -name 'ocs*' -o -name 'office*'") == ""
        kept = office.run("ls /var/lib/ocs").split()
        assert [name for name in kept if name.endswith(".db")] == [f"{one}.db" for one in SHARDS]
        assert office.run("id -un ocs") == "ocs\n"


def brought(copy: Machine, package: pathlib.Path) -> None:
    """Puts a package into a machine."""
    shutil.copy(package, f"/proc/{copy.first()}/root/tmp/{package.name}")
