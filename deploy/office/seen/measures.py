"""The measures of an office, for Prometheus: what HAProxy's own exporter doesn't know.

`words/measures.py` registers `Measures`, whose `collect` is called for each scrape. That costs each
shard two reads, side by side over the shards and bounded in time, a look at its files, and a word of
systemctl; no database that is served is opened."""
from __future__ import annotations

import concurrent.futures
import contextlib
import dataclasses
import pathlib
import re
from collections.abc import Iterator

from prometheus_client.core import CounterMetricFamily, GaugeMetricFamily, Metric
from prometheus_client.registry import Collector

from office import clock, nights, proxy
from office.faults import Fault
from office.machines import watched
from office.seen import looks, starts
from office.seen.certificates import Ends
from office.seen.turned_away import TurnedAway
from office.settings import Settings
from office.shards import Shard, of

# A row of HAProxy's table of answers, whose key is caller, code, service and refusal.
ROW = re.compile(r"key=(?P<key>.*?) use=.*gpc0=(?P<count>[0-9]+)")
# Each measure of a shard, with what it is.
OF_SHARD = {
    "up": "Whether the shard answered a probe in time, 1 or 0",
    "probe_seconds": "Seconds until it did, its turn in the queue among them",
    "ahead_seconds": "How far its last moment that is known is ahead of the clock",
    "bytes": "Bytes of its database and log",
    "log_bytes": "Bytes of its log",
    "room_bytes": "Bytes that are free on its disk",
    "copied_timestamp_seconds": "When it was last copied",
    "swept_timestamp_seconds": "When it was last swept",
    "start_seconds": "Seconds of its last start, until it listened",
    "start_expected_seconds": "Seconds of a start with the files as they are now",
    "restarts": "Starts again by systemd since the unit was loaded",
}


class Measures(Collector):
    """What is collected each time Prometheus asks."""

    def __init__(self, settings: Settings, turned_away: TurnedAway | None = None) -> None:
        self.settings, self.turned_away = settings, turned_away
        self.starts, self.ends = starts.Starts(), Ends()

    def collect(self) -> Iterator[Metric]:
        """The measures of each shard, and of the office."""
        shards = of(self.settings)
        clearing = looks.clearing_accounts(self.settings)
        with concurrent.futures.ThreadPoolExecutor(len(shards)) as pool:
            told = list(pool.map(lambda shard: self.of_shard(shard, clearing), shards))
        values = dict(zip((shard.number for shard in shards), told))
        yield from (of_shards(name, text, values) for name, text in OF_SHARD.items())
        yield from (self.waits(), self.clock(), self.certificates())
        yield from (elsewhere(self.settings), answers(self.settings))
        if self.turned_away:
            yield turned_away(self.turned_away)
        if self.settings.machines:
            yield from machines(self.settings)

    def of_shard(self, shard: Shard, clearing: dict[str, str]) -> dict[str, float | None]:
        """The measures of a shard, by their names; None where one isn't known."""
        told = looks.of_shard(self.settings, shard, clearing)
        start = self.starts.of(shard)
        if start:
            size = int(told["bytes"] or 0)
            told |= {"start_seconds": start.seconds, "restarts": start.restarts}
            told["start_expected_seconds"] = start.expected(size)
        return told

    def waits(self) -> Metric:
        """The waits of the file, so that alarms go by them."""
        made = GaugeMetricFamily("ocs_wait_seconds", "Waits of the office's file", labels=["wait"])
        for name, value in dataclasses.asdict(self.settings.waits).items():
            made.add_metric([name], value)
        return made

    def clock(self) -> Metric:
        """Whether the clock is kept; nothing where the kernel doesn't say."""
        made = GaugeMetricFamily("ocs_clock_set", "Whether something keeps the machine's clock")
        with contextlib.suppress(Fault):
            made.add_metric([], int(clock.is_synchronised()))
        return made

    def certificates(self) -> Metric:
        """The ends of certificates."""
        made = GaugeMetricFamily(
            "ocs_certificate_ends_timestamp_seconds",
            "When a certificate of the doors, or the list of revoked ones, ends",
            labels=["role", "name"],
        )
        for end in self.ends.of(self.settings):
            made.add_metric([end.role, end.name], end.moment)
        return made


def of_shards(name: str, text: str, told: dict[str, dict[str, float | None]]) -> Metric:
    """One measure of all shards, of those that have it."""
    made = GaugeMetricFamily(f"ocs_shard_{name}", text, labels=["shard"])
    for shard, values in told.items():
        value = values.get(name)
        if value is not None:
            made.add_metric([shard], value)
    return made


def elsewhere(settings: Settings) -> Metric:
    """When the copies in the other place were made; 0 where it has none."""
    text = "When the last copies in the other place were made"
    made = GaugeMetricFamily("ocs_copies_elsewhere_timestamp_seconds", text)
    if settings.keeping.elsewhere:
        found = list(nights.nights(pathlib.Path(settings.keeping.elsewhere)))
        made.add_metric([], nights.moment(found[-1]) if found else 0.0)
    return made


def answers(settings: Settings) -> Metric:
    """Answers of shards by caller, code, the first service's code and refusal, since HAProxy's last
    start or reload."""
    labels = ["caller", "code", "service", "refusal"]
    made = CounterMetricFamily("ocs_answers", "Answers of shards", labels=labels)
    try:
        table = proxy.told(settings, "show table counted")
    except Fault:
        return made
    for row in map(ROW.search, table.splitlines()):
        parts = row["key"].replace("\\ ", " ").split(" ") if row else []
        if row and len(parts) == len(labels):
            made.add_metric(["" if part == "-" else part for part in parts], int(row["count"]))
    return made


def turned_away(counted: TurnedAway) -> Metric:
    """Whom the doors turned away, since the start of the measures."""
    text = "Requests and connections that a door turned away, by the reason of its log"
    made = CounterMetricFamily("ocs_turned_away", text, labels=["door", "why"])
    for (door, why), count in list(counted.counts.items()):
        made.add_metric([door, why], count)
    return made


def machines(settings: Settings) -> Iterator[Metric]:
    """Whether the copies on both machines are in step, and the votes."""
    text = "Whether a shard's copies on both machines are the same, 1 or 0"
    made = GaugeMetricFamily("ocs_shard_mirrored", text, labels=["shard"])
    for number, is_in_step in watched.mirrors(settings).items():
        made.add_metric([number], int(is_in_step))
    yield made
    seen = watched.votes()
    text = "Votes that this machine sees"
    yield GaugeMetricFamily("ocs_votes", text, value=seen.there)
    text = "Machines of the office's file, each with a vote"
    yield GaugeMetricFamily("ocs_votes_expected", text, value=len(settings.machines))
    text = "Whether the votes that this machine sees are a majority, 1 or 0"
    yield GaugeMetricFamily("ocs_votes_majority", text, value=int(seen.is_majority))
