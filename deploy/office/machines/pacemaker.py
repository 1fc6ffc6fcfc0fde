"""Whether Pacemaker leaves a shard's unit alone, for words that stop it (`alone`)."""
from __future__ import annotations

import subprocess

from office.shards import Shard

UNIT, SECONDS = "pacemaker", 30


def leave(shard: Shard) -> str:
    """The line by which Pacemaker leaves a shard's unit alone."""
    return f"crm_resource --meta -r ocs{shard} -p is-managed -v false"


def take(shard: Shard) -> str:
    """The line by which it takes the unit back."""
    return f"crm_resource --meta -r ocs{shard} -d is-managed"


def leaves(shard: Shard) -> bool:
    """Whether it leaves the unit alone; where it gives no answer, it doesn't."""
    asked = ["crm_resource", "--meta", "-r", f"ocs{shard}", "-g", "is-managed"]
    try:
        ended = subprocess.run(asked, capture_output=True, text=True, check=False, timeout=SECONDS)
    except (OSError, subprocess.TimeoutExpired):
        return False
    return ended.stdout.strip() == "false"
