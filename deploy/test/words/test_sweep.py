"""The word `sweep`."""
from __future__ import annotations

from support.world import World


def test_each_shard_is_swept(world: World) -> None:
    told = world.command("sweep").splitlines()
    assert [line[:14] for line in told] == ['01 {"Accounts"', '02 {"Accounts"']
    assert world.command("sweep", "--shard", "2").startswith("02 ")


def test_a_shard_that_is_away_is_reported(world: World) -> None:
    text = world.file.read_text()
    world.file.write_text(text + "[waits]\nstart = 1\n")
    world.balance()
    world.kill(1)
    try:
        told = world.office("sweep")
        assert (told.returncode, told.stdout[:14]) == (1, '02 {"Accounts"')
        assert told.stderr.startswith("01 POST /sweep: 503")
    finally:
        world.start(1)
        world.file.write_text(text)
        world.balance()


def test_no_such_shard(world: World) -> None:
    told = world.office("sweep", "--shard", "03")
    assert (told.returncode, told.stderr) == (
        2,
        "office: there is no shard 03: they are 01 to 02, by [office]\n",
    )
