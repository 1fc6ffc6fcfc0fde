"""What passes on ports of Diameter, captured and taken apart by tshark."""
from __future__ import annotations

import pathlib
import signal
import subprocess
import xml.etree.ElementTree
from collections.abc import Iterator, Sequence

from support.waiting import until

Element = xml.etree.ElementTree.Element
# tshark finds a frame malformed, or at fault.
FAULTY = "_ws.malformed or _ws.expert.severity >= 8388608"
# The head of a Session-Id up to the last byte of its length.
SESSION_ID = bytes.fromhex("00000107400000")


class Capture:
    """A capture of ports of the loopback address, in a file."""

    def __init__(self, file: pathlib.Path, ports: Sequence[int]) -> None:
        self.file, self.ports = file, ports
        self.out = file.with_suffix(".out")
        self.process: subprocess.Popen[bytes] | None = None

    def start(self) -> Capture:
        """Begins it."""
        which = " or ".join(f"tcp port {port}" for port in self.ports)
        words = ["tshark", "-q", "-i", "lo", "-f", which, "-w", str(self.file)]
        with self.out.open("wb") as out:
            self.process = subprocess.Popen(
                words, stdin=subprocess.DEVNULL, stdout=out, stderr=out, start_new_session=True
            )
        until(lambda: b"Capture started" in self.out.read_bytes(), "the capture")
        return self

    def has(self, raw: bytes) -> None:
        """Waits until the file has these bytes of a message."""
        until(lambda: raw in self.file.read_bytes(), "the last message")

    def sessions(self) -> int:
        """How often the file has a Session-Id."""
        return self.file.read_bytes().count(SESSION_ID)

    def stop(self) -> None:
        """Ends it; the file is whole afterwards."""
        if self.process is None:
            return
        process, self.process = self.process, None
        process.send_signal(signal.SIGINT)
        try:
            process.wait(60)
        finally:
            process.kill()

    def words(self, which: str, form: str) -> list[str]:
        """The words that print the frames that a filter takes."""
        ports = [word for port in self.ports for word in ("-d", f"tcp.port=={port},diameter")]
        return ["tshark", "-r", str(self.file), "-Y", which, "-T", form, *ports]

    def messages(self, port: int | None = None) -> Iterator[tuple[str, float, Element]]:
        """The stream, the moment and the element of each message, of one port or all, as tshark takes
        it apart. A frame at a time is kept."""
        words = self.words(
            "diameter" if port is None else f"diameter and tcp.port == {port}", "pdml"
        )
        with subprocess.Popen(words, stdout=subprocess.PIPE, stderr=subprocess.DEVNULL) as process:
            assert process.stdout
            for _, packet in xml.etree.ElementTree.iterparse(process.stdout):
                if packet.tag == "packet":
                    stream, moment = shown(packet, "tcp.stream"), value(packet, "timestamp")
                    for each in packet.iter("proto"):
                        if each.get("name") == "diameter":
                            yield stream, float(moment), each
                    packet.clear()

    def fields(self, which: str, *names: str) -> list[list[str]]:
        """Some fields of the frames that a filter takes."""
        words = self.words(which, "fields") + [word for name in names for word in ("-e", name)]
        told = subprocess.run(words, capture_output=True, text=True, check=False).stdout
        return [line.split("\t") for line in told.splitlines()]

    def count(self) -> int:
        """How many frames have a message of Diameter."""
        return len(self.fields("diameter", "frame.number"))

    def faults(self) -> list[list[str]]:
        """The number, the source port and what tshark says of each frame at fault."""
        return self.fields(FAULTY, "frame.number", "tcp.srcport", "_ws.expert.message")


def shown(element: Element, name: str) -> str:
    """The first field of this name."""
    return first(element, name, "show")


def value(element: Element, name: str) -> str:
    """The value of the first field of this name."""
    return first(element, name, "value")


def first(element: Element, name: str, what: str) -> str:
    """An attribute of the first field of this name."""
    found = (each for each in element.iter("field") if each.get("name") == name)
    one = next(found, None)
    return "" if one is None else one.get(what) or ""


def is_request(one: Element) -> bool:
    """Whether a message is a request."""
    return shown(one, "diameter.flags.request") in ("1", "True")
