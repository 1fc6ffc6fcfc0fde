"""DRBD's resource of a shard (8.4, of Debian's kernel): protocol C, so that a sync of the program
returns once both disks have it.

`files` calls `text` for each shard."""
from __future__ import annotations

from office.cluster import Machine, of_disks
from office.settings import Settings
from office.shards import Shard

TEXT = """\
# Made by `office machines write` of the office's file: change that file, not this one.
resource {name} {{
    device /dev/drbd{minor};
    meta-disk internal;
    net {{
        protocol C;
        # The other machine is away after some 6 s of silence (in tenths: 30 a ping, 60 a write).
        ping-int 3;
        ping-timeout 30;
        timeout 60;
        connect-int 3;
        # Where both were written to while apart a person decides: nothing is thrown away by itself.
        after-sb-0pri disconnect;
        after-sb-1pri disconnect;
        after-sb-2pri disconnect;
        verify-alg crc32c;
    }}
    disk {{
        on-io-error detach;
        # Alone a machine writes once the other's copy is marked as old, so that it isn't promoted.
        fencing resource-and-stonith;
        resync-rate 40M;
        c-plan-ahead 0;
    }}
    handlers {{
        # By itself the script has a machine go on after 90 s in any case. So it is asked once the other
        # machine answers the cluster or is known to be lost, and only where there is a majority: a
        # machine without one, which others may be about to fence, writes nothing.
        fence-peer "{alone}";
        after-resync-target "/usr/lib/drbd/crm-unfence-peer.sh";
    }}
{places}
}}
"""
ALONE = (
    "until { crmadmin -t 3s -S $DRBD_PEER | grep -q ok || ! crm_node -p | grep -qw $DRBD_PEER; } && "
    "corosync-quorumtool -s | grep -q '^Quorate: *Yes'; do sleep 1; done; "
    "exec /usr/lib/drbd/crm-fence-peer.sh"
)
PLACE = """\
    on {machine} {{
        disk {disk};
        address {address}:{port};
    }}"""


def name(shard: Shard) -> str:
    """The resource of a shard."""
    return f"ocs-{shard}"


def device(shard: Shard) -> str:
    """What a shard's file system is on."""
    return f"/dev/drbd{int(shard.number)}"


def disk(machine: Machine, shard: Shard) -> str:
    """The volume of a shard on a machine."""
    return machine.disk.replace("{shard}", shard.number)


def text(settings: Settings, shard: Shard) -> str:
    """The file of a shard's resource."""
    number = int(shard.number)
    places = [
        PLACE.format(
            machine=machine.name,
            disk=disk(machine, shard),
            address=machine.own,
            port=settings.cluster.mirrors + number,
        )
        for machine in of_disks(settings.machines)
    ]
    return TEXT.format(name=name(shard), minor=number, alone=ALONE, places="\n".join(places))
