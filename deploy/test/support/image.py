"""What a test's machines boot: Debian with an office's packages on one disk, made once.

Debian's debootstrap makes it, with the modules of Debian's user-mode-linux, its kernel as a program.
It is kept outside of the repository, in a folder of XDG_CACHE_HOME or /var/cache, under a name that
changes with what it is made of."""
from __future__ import annotations

import fcntl
import hashlib
import os
import pathlib
import shutil
import subprocess

from support.world import done

CACHE = pathlib.Path(os.environ.get("XDG_CACHE_HOME", "/var/cache")) / "ocs-test"
GUEST = pathlib.Path(__file__).resolve().parent / "guest"
MODULES = pathlib.Path("/usr/lib/uml/modules")
MIRROR = "http://deb.debian.org/debian"
SIZE = 3 << 30
# Of the machine itself; of deploy's README and MACHINES.md; of the tests' door into it.
FIRST = "systemd-sysv,udev,dbus,iproute2,kmod"
PACKAGES = """
corosync curl drbd-utils e2fsprogs fence-agents haproxy lvm2 nbd-client nftables openssl pacemaker
pacemaker-cli-utils procps psmisc python3 python3-prometheus-client resource-agents socat sqlite3
xfsprogs
""".split()
# Nothing is started while packages are put into a folder, and no pages are.
NO_START = "#!/bin/sh\nexit 101\n"
NO_PAGES = "".join(f"path-exclude /usr/share/{name}/*\n" for name in ("doc", "man", "locale"))
# What debootstrap may have mounted in there stays.
AWAY = ["rm", "-rf", "--one-file-system"]
# What only Pacemaker and the page's lines start, and what a machine of a test has no use for.
OFF = "corosync drbd haproxy lvm2-monitor pacemaker".split()
NEVER = """
apt-daily.timer apt-daily-upgrade.timer dev-hugepages.mount dev-mqueue.mount dpkg-db-backup.timer
e2scrub_all.timer e2scrub_reap.service fstrim.timer getty.target kmod-static-nodes.service
modprobe@configfs.service modprobe@dm_mod.service modprobe@drm.service modprobe@efi_pstore.service
modprobe@fuse.service modprobe@loop.service sys-kernel-debug.mount sys-kernel-tracing.mount
systemd-binfmt.service systemd-logind.service systemd-pstore.service systemd-random-seed.service
systemd-update-utmp.service systemd-update-utmp-runlevel.service systemd-user-sessions.service
""".split()


def image() -> pathlib.Path:
    """The disk, made where it isn't there; it is never written to."""
    CACHE.mkdir(parents=True, exist_ok=True)
    made = CACHE / f"debian-{identity()}.img"
    with (CACHE / "lock").open("w") as lock:
        fcntl.flock(lock, fcntl.LOCK_EX)
        if not made.exists():
            for old in CACHE.glob("debian-*.img"):
                old.unlink()
            half = CACHE / "half.img"
            fill(CACHE / "root", half)
            half.rename(made)
    return made


def identity() -> str:
    """A word for what the disk is made of."""
    kernel = done("dpkg-query", "--show", "--showformat", "${Version}", "user-mode-linux")
    files = [pathlib.Path(__file__), *guest_files()]
    text = [kernel, *(file.read_text() for file in files)]
    return hashlib.sha256("\0".join(text).encode()).hexdigest()[:12]


def guest_files() -> list[pathlib.Path]:
    """The files of a machine that are the tests' own."""
    return sorted(file for file in GUEST.rglob("*") if file.is_file())


def fill(root: pathlib.Path, disk: pathlib.Path) -> None:
    """Makes Debian in a folder, and of the folder a disk."""
    done(*AWAY, root)
    done("debootstrap", "--variant=minbase", f"--include={FIRST}", "bookworm", root, MIRROR)
    (root / "usr/sbin/policy-rc.d").write_text(NO_START)
    (root / "usr/sbin/policy-rc.d").chmod(0o755)
    (root / "etc/dpkg/dpkg.cfg.d/small").write_text(NO_PAGES)
    install(root)
    shutil.copytree(MODULES, root / "usr/lib/modules", dirs_exist_ok=True)
    for file in guest_files():
        place = root / file.relative_to(GUEST)
        place.parent.mkdir(parents=True, exist_ok=True)
        shutil.copy(file, place)
    done("chroot", root, "systemctl", "enable", "machine", "door")
    done("chroot", root, "systemctl", "disable", *OFF)
    done("chroot", root, "systemctl", "mask", *NEVER)
    (root / "etc/machine-id").write_text("")
    with disk.open("wb") as made:
        made.truncate(SIZE)
    done("mkfs.ext4", "-q", "-F", "-d", root, disk)
    done(*AWAY, root)


def install(root: pathlib.Path) -> None:
    """Puts the packages into a folder."""
    shutil.copy("/etc/resolv.conf", root / "etc/resolv.conf")
    quiet = {"DEBIAN_FRONTEND": "noninteractive", "LC_ALL": "C"}
    for words in (["update"], ["install", "--yes", "--no-install-recommends", *PACKAGES]):
        asked = ["chroot", str(root), "apt-get", "--quiet", "--quiet", *words]
        subprocess.run(asked, env=os.environ | quiet, stdout=subprocess.DEVNULL, check=True)
