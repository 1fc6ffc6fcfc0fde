"""Shows the measures of the office to Prometheus.

    office measures [--port PORT] [--once]

It listens on 127.0.0.1 until it is stopped; the unit office-measures runs it. --once prints the
measures and ends. deploy/SEEN.md says what each is, and which alarms stand on them."""
from __future__ import annotations

import argparse
import contextlib
import threading

from office.faults import Refused
from office.settings import Settings


def add(parser: argparse.ArgumentParser) -> None:
    """Adds the word's arguments."""
    parser.add_argument("--port", type=int, help="instead of the file's (measures: port)")
    parser.add_argument("--once", action="store_true", help="print the measures, and end")


def run(settings: Settings, arguments: argparse.Namespace) -> int:
    """Prints the measures, or shows them until the process is stopped."""
    try:
        import prometheus_client
    except ImportError as fault:
        raise Refused("install Debian's package python3-prometheus-client") from fault
    from office.seen.measures import Measures
    from office.seen.turned_away import TurnedAway

    registry = prometheus_client.CollectorRegistry(auto_describe=False)
    if arguments.once:
        registry.register(Measures(settings))
        print(prometheus_client.generate_latest(registry).decode(), end="")
        return 0
    counted = TurnedAway(settings)
    counted.start()
    registry.register(Measures(settings, counted))
    port = arguments.port or settings.measures.port
    prometheus_client.start_http_server(port, addr="127.0.0.1", registry=registry)
    with contextlib.suppress(KeyboardInterrupt):
        threading.Event().wait()
    return 0
