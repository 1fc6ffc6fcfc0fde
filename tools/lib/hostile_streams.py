"""Streams of requests on connections of `ocs serve`: what is sent in pieces, the answers that come
back, and which bytes of the stream each of them answers, by the rules of docs/FORMATS.md."""
import contextlib
import json
import re
import socket
import subprocess
import threading
import time
from dataclasses import dataclass

SECONDS = 300
LONGEST_HEAD = 8192
REFUSED = (5002, 5004, 5005, 5012, 5030)
# All but 503, which comes if memory is refused, for a store that failed or a clock.
STATUSES = (
    "200 OK|400 Bad Request|404 Not Found|405 Method Not Allowed|411 Length Required"
    "|413 Payload Too Large|431 Request Header Fields Too Large|501 Not Implemented")
ANSWER = re.compile((
    f"HTTP/1.1 ({STATUSES})\r\nContent-Type: (application/json|text/plain)\r\n"
    "Content-Length: ([0-9]+)\r\n(Connection: close\r\n)?\r\n").encode())
LENGTH = re.compile(rb"(?im)^content-length:[ \t]*([0-9]{1,18})[ \t]*\r?$")
FAULT = re.compile(rb'\{("Failed-AVP":"[A-Za-z-]+","Result-Code":500[45]|"Result-Code":5012)\}')


class Difference(Exception):
    """What was found isn't what is due."""


def need(holds, *found):
    """Raises with what was found if it isn't so."""
    if not holds:
        raise Difference(" ".join(repr(one)[:500] for one in found))


@dataclass(frozen=True)
class Ended:
    """The program's status, and what it printed on both streams."""

    status: int
    out: bytes
    err: bytes


@dataclass(frozen=True)
class Answer:
    """The status and the body of an answer, and whether its connection ends after it."""

    status: int
    body: bytes
    closes: bool = False

    def is_read(self):
        """Whether its request was read, so that it is known where it ends."""
        return self.status in (200, 404, 405) or self.status == 400 and self.body != b"{}"

    def is_refused(self):
        """Whether its request is to change nothing."""
        told = json.loads(self.body) if self.body.startswith(b"{") else {}
        return self.status != 200 or "Refusal" in told or told.get("Result-Code") in REFUSED

    def said(self):
        """What it says, on whatever connection."""
        return self.status, self.body


def request(line, body=None):
    """The bytes of a request, which says its length where it has a body."""
    length = b"" if body is None else b"Content-Length: %d\r\n" % len(body)
    return b"%s HTTP/1.1\r\nHost: office\r\n%s\r\n%s" % (line.encode(), length, body or b"")


def pieces_of(chance, text):
    """A text in some pieces."""
    ends = sorted(chance.randrange(len(text) + 1) for _ in range(chance.choice((0, 1, 4, 16))))
    return [text[first:last] for first, last in zip([0, *ends], [*ends, len(text)])]


def send(peer, pieces):
    """Sends pieces one by one, and then the end."""
    with contextlib.suppress(OSError):
        for piece in pieces:
            peer.sendall(piece)
            time.sleep(0.0002)
        peer.shutdown(socket.SHUT_WR)


def exchanged(port, pieces):
    """What comes back on a connection on which pieces are sent, and then its end."""
    got = []
    with socket.create_connection(("127.0.0.1", port), timeout=SECONDS) as peer:
        peer.setsockopt(socket.IPPROTO_TCP, socket.TCP_NODELAY, 1)
        sender = threading.Thread(target=send, args=(peer, pieces))
        sender.start()
        with contextlib.suppress(ConnectionError):
            while more := peer.recv(1 << 16):
                got.append(more)
        sender.join()
    return b"".join(got)


def served(built, place, port, moment, streams):
    """What comes back on a connection for each of these streams; the server ends by itself."""
    words = ["serve", "db", "--port", port, "--connections", len(streams), "--at", moment]
    pipes = {"stdout": subprocess.PIPE, "stderr": subprocess.PIPE}
    got = []
    with subprocess.Popen([built, *map(str, words)], cwd=place, **pipes) as server:
        try:
            told = server.stdout.readline()
            with contextlib.suppress(ConnectionError):
                got += [exchanged(port, pieces) for pieces in streams]
            more, errors = server.communicate(timeout=SECONDS)
        finally:
            server.kill()
    ended = Ended(server.returncode, told + more, errors)
    need(ended == Ended(0, b"listening 127.0.0.1:%d\n" % port, b""), ended)
    return got


def check(answer, is_text):
    """Looks whether the body is one that the status has, and at the sums of a balance."""
    if is_text:
        need(answer.status == 200 and answer.body.startswith(b"ACCOUNT "), answer)
    elif answer.status == 200:
        for bucket in json.loads(answer.body).get("Buckets", ()):
            parts = [bucket[name] for name in ("Available", "Reserved", "Charged", "Expired")]
            need(sum(parts) == bucket["Credited"], answer)
    else:
        is_told = answer.status == 400 and FAULT.fullmatch(answer.body)
        need(is_told or answer.body == b"{}", answer)


def answers_in(text):
    """The answers of a connection, each whole; the last alone may end it."""
    answers, at = [], 0
    while at < len(text):
        head = ANSWER.match(text, at)
        need(head and not (answers and answers[-1].closes), answers[-1:], text[at:])
        at = head.end() + int(head[3])
        need(at <= len(text), "half of an answer", text[head.start() :])
        answer = Answer(int(head[1][:3]), text[head.end() : at], head[4] is not None)
        check(answer, head[2] == b"text/plain")
        answers.append(answer)
    return answers


def body_length(head):
    """The length of the body that a head says."""
    return sum(map(int, LENGTH.findall(head)))


def is_cut_short(rest):
    """Whether the rest of a stream is a beginning of a request, which has no answer."""
    head, found, body = rest.partition(b"\r\n\r\n")
    return len(body) < body_length(head) if found else len(rest) < LONGEST_HEAD


def requests_in(stream, answers):
    """The bytes of each request that was read; after them there is an end, or none is whole."""
    requests, at = [], 0
    for answer in answers:
        if not answer.is_read():
            need(answer.closes, answer)
            return requests
        end = stream.find(b"\r\n\r\n", at) + 4
        end += body_length(stream[at:end])
        need(at < end <= len(stream), "an answer to", stream[at:], answer)
        requests.append(stream[at:end])
        at = end
    is_ended = bool(answers) and answers[-1].closes or is_cut_short(stream[at:])
    need(is_ended, "no answer to", stream[at:])
    return requests
