"""A shard on two machines' disks by DRBD, and no cluster: the test takes power away, promotes and
brings back.

DRBD's file is the one that `office machines write` makes. Where it asks the cluster for its majority
and whether the other machine is off, it is told so: it is off, since the test has cut it."""
from __future__ import annotations

import pathlib
import random
import shutil
import time

from support import prompt
from support.image import image
from support.machine import SHARED, Machine, Network
from support.served import BOOKS, WAITING, Served
from support.turns import Turns
from support.volatile import FATES, Disk
from support.waiting import until
from support.world import program

from machines.office import file
from office import settings, shards
from office.machines import mirror

SIZE = 400 << 20
DEVICE, RELAY = "/dev/drbd1", 8001
HOST, PORTS = "10.52.0.254", 10800
# The shard listens on its machine alone; the test's HAProxy comes from outside.
UP = f"""
set -e
install -m 644 {SHARED}/ocs-01.res /etc/drbd.d
printf '#!/bin/sh\\nexit 7\\n' > /usr/lib/drbd/crm-fence-peer.sh
printf '#!/bin/sh\\necho ok\\n' > /usr/sbin/crmadmin
printf '#!/bin/sh\\necho Quorate: Yes\\n' > /usr/sbin/corosync-quorumtool
ln -sf /bin/true /usr/lib/drbd/crm-unfence-peer.sh
install -d /var/lib/ocs/01
socat TCP-LISTEN:{RELAY},fork,reuseaddr,nodelay TCP:127.0.0.1:8101,nodelay > /dev/null 2>&1 &
modprobe drbd
"""
# The other machine is known to be off, so nobody waits until DRBD finds it out.
PRIMARY = """
drbdadm disconnect --force ocs-01
for try in 1 2 3 4 5; do drbdadm primary ocs-01 && drbdadm connect ocs-01 && exit 0; sleep 1; done
cat /proc/drbd
exit 1
"""
WAIT = "until [[ $(< /proc/drbd) == *%s* ]]; do (( SECONDS < 300 )) || exit 1; moment; done\n"
IN_STEP, CONNECTED = WAITING + WAIT % "UpToDate/UpToDate", WAITING + WAIT % "cs:Connected"
VERIFY = f"""
drbdadm verify ocs-01
{CONNECTED}
grep -o 'oos:[0-9]*' /proc/drbd
"""


class Pair:
    """The machines, their disks, and the shard with its gateways."""

    def __init__(self, place: pathlib.Path, kind: str) -> None:
        self.network = Network(2)
        self.machines = [Machine(self.network, image(), place, number) for number in (1, 2)]
        self.disks = {one: self.disk(one) for one in self.machines}
        self.turns = Turns(place, "10.50.0.254", self.network.words, self.network.connect)
        self.served = Served(place, self.turns, kind)
        self.chance = random.Random(f"{kind} {place.name}")
        self.serving, self.second = self.machines
        self.unflushed = 0
        told = settings.read(file(place))
        text = mirror.text(told, shards.named(told, "01")).replace("/dev/office/01", "/dev/nbd0")
        for one in self.machines:
            (one.shared / "ocs-01.res").write_text(text)
            shutil.copy(program(), one.shared / "ocs")
            for at, book in enumerate(BOOKS):
                (one.shared / f"book{at}.toml").write_text(book)

    def disk(self, one: Machine) -> Disk:
        """A machine's disk: NBD, which the machine's kernel speaks. (What user-mode-linux has for
        files of its host, ubd, answers a flush and doesn't do it.)"""
        where = f"{HOST}:{PORTS + one.number}"
        inside = [*prompt.words(one.number), *self.network.words]
        return Disk(one.place / "disk.img", inside, where)

    def make(self) -> None:
        """Both disks have a file system with a new shard, in step."""
        for disk in self.disks.values():
            blank(disk)
        for one in self.machines:
            self.power(one)
        for one in self.machines:
            self.ready(one)
            one.sh("drbdadm create-md --force ocs-01 && drbdadm up ocs-01")
        first = self.serving
        first.sh(CONNECTED)
        first.sh("drbdadm new-current-uuid --clear-bitmap ocs-01/0 && drbdadm primary ocs-01")
        self.served.make(first, DEVICE)

    def power(self, one: Machine) -> None:
        """A machine gets power, and starts."""
        one.start("small", self.disks[one].start().removeprefix("nbd:"))

    def replace(self, one: Machine) -> None:
        """A machine's disk, which has failed, is taken out, and an empty one put in."""
        one.sh("nbd-client -d /dev/nbd0")
        self.disks[one].end()
        blank(self.disks[one])
        self.disks[one].start()
        one.sh(f"nbd-client {HOST} {PORTS + one.number} /dev/nbd0")

    def ready(self, one: Machine) -> None:
        """Waits until a machine is ready for DRBD."""
        one.wait()
        one.sh(UP)

    def cut(self, one: Machine) -> None:
        """A machine loses its power, and its disk what it doesn't keep."""
        one.cut()
        fate, seed = self.chance.choice(FATES), self.chance.randrange(2**32)
        self.unflushed += self.disks[one].cut(fate, seed)

    def begin(self) -> None:
        """The shard is right on the machine that is to serve, and is served from now on."""
        self.served.begin(self.serving, DEVICE, f"{self.serving.address()}:{RELAY}")

    def lose(self, one: Machine) -> None:
        """A machine is cut under load, and the other serves, or goes on. It gets power again at once,
        and starts meanwhile."""
        gateways, before = self.served.gateways, self.served.gateways.answered
        self.cut(one)
        self.power(one)
        if one is self.serving:
            self.turns.end()
            gateways.end()
            self.serving, self.second = self.second, self.serving
            self.serving.sh(PRIMARY)
            self.begin()
            gateways.start()
        else:
            until(lambda: gateways.answered > before + 40, "answers of one machine alone", 300)

    def come_back(self, one: Machine) -> None:
        """A machine that starts is brought into step."""
        self.ready(one)
        one.sh("drbdadm up ocs-01")
        self.serving.sh(IN_STEP)

    def ask(self) -> None:
        """The gateways ask for a while, and half of the time another process writes to the same
        file system, so that more is under way than the shard's log."""
        time.sleep(self.chance.uniform(0.5, 3))
        if self.chance.random() < 0.5:
            other = f"{self.serving.layout.place}/other"
            line = f"dd if=/dev/zero of={other} bs=64k count=60; rm -f {other}"
            self.serving.sh(f"({line}) > /dev/null 2>&1 < /dev/null &")
            time.sleep(self.chance.uniform(0, 1))

    def add_book(self) -> None:
        """The shard is stopped, and a book is being added."""
        self.served.gateways.end()
        self.served.stop(self.serving)
        self.served.add(self.serving)
        time.sleep(self.chance.uniform(0, 0.5))

    def verify(self) -> None:
        """Both disks are the same, block by block."""
        self.served.gateways.end()
        assert self.serving.sh(VERIFY).split() == ["oos:0"]
        self.served.gateways.start()

    def end(self) -> None:
        """Takes all away."""
        self.served.end()
        for one in self.machines:
            one.cut()
        for disk in self.disks.values():
            disk.end()
        self.network.end()


def blank(disk: Disk) -> None:
    """A disk has nothing on it."""
    with disk.file.open("wb") as made:
        made.truncate(SIZE)
