"""The bridge's sources: dialyzer finds nothing, and each public function has its types (build)."""
from __future__ import annotations

import pathlib

import pytest
from support.world import ran

pytestmark = pytest.mark.slow

APPLICATIONS = ("erts", "kernel", "stdlib", "ssl", "public_key", "inets", "diameter")


def test_dialyzer(home: pathlib.Path, tmp_path: pathlib.Path) -> None:
    table = tmp_path / "plt"
    ran("dialyzer", "--build_plt", "--output_plt", table, "--apps", *APPLICATIONS)
    beams = sorted((home / "ebin").glob("ocs_diameter*.beam"))
    told = ran("dialyzer", "--plt", table, "-Wunmatched_returns", *beams)
    lines = told.stdout.splitlines()
    faults = [line for line in lines if ".erl:" in line and "jiffy:" not in line]
    assert beams and not faults and told.returncode != 1, told.stdout
