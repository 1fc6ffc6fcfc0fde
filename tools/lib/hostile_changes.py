"""Changes of bytes by chance, which tools/faults bytes makes. Each takes what chooses and the bytes, a
byte or more, and gives other bytes."""
import re

# Numbers at the bounds of the formats and of the machine, and texts that are no numbers of theirs.
EDGES = [2**bits for bits in (16, 31, 32, 53, 63, 64)]
EDGES += [0, 10**9, 10**15, 10**18, 4 * 10**18, 4_102_444_800]
NUMBERS = [b"%d" % (edge + more) for edge in EDGES for more in (-1, 0, 1)]
NUMBERS += [b"-0", b"00", b"1.0", b"1e0", b"1e999", b"+1", b"0x1", b"1_0", 40 * b"9", 5000 * b"9"]
# Values of JSON that may be where another was.
VALUES = [b"null", b"true", b"[]", b"{}", b"[{}]", b'""', b'" "', rb'"\u0000"', rb'"\ud800"']
VALUES += [b'"\xc3\xa9"', b'"\xff"', b'"%s"' % (128 * b"x"), b'"%s"' % (129 * b"x")]
VALUES += [126 * b"[" + 126 * b"]", 9000 * b"[", 9000 * b'{"a":', 9000 * b"{a="]
# Pieces that are put in, mostly at the beginning of a line.
PIECES = [b"\0", b"\n", b"\r\n", b"\r\n\r\n", b"\t", b'"', b"'''", b"\\", b",", b"{", b"#", b"[["]
PIECES += [b"\xef\xbb\xbf", b"Content-Length: 0\r\n", b"content-length:\t0000000000000001 \r\n"]
PIECES += [b"Transfer-Encoding: chunked\r\n", b"Connection: CLOSE\r\n", b"Expect: 100-continue\r\n"]
PIECES += [b"GET /sweep HTTP/1.1\r\n\r\n", 2000 * b"A:\r\n", b"X: %s\r\n" % (8190 * b"x")]
PIECES += [70_000 * b"x", b"\x80", b"9"]
TOKEN = re.compile(rb'"(?:[^"\\]|\\.)*"|-?[0-9]+')
NUMBER = re.compile(rb"-?[0-9]+")
LONGEST = 70_000
PAGE, FRAME = 2048, 2072


def piece_of(chance, text):
    """The two ends of a piece, mostly of a short one."""
    first = chance.randrange(len(text))
    longest = chance.choice((1, 1, 4, 40, len(text)))
    return first, min(len(text), first + chance.randint(1, longest))


def change_byte(chance, text):
    at = chance.randrange(len(text))
    byte = chance.choice((text[at] ^ 1 << chance.randrange(8), chance.randrange(256)))
    return text[:at] + bytes([byte]) + text[at + 1 :]


def leave_out(chance, text):
    first, last = piece_of(chance, text)
    return text[:first] + text[last:]


def double(chance, text):
    first, last = piece_of(chance, text)
    times = min(chance.choice((1, 1, 1, 40)), 1 + LONGEST // (last - first))
    return text[:last] + times * text[first:last] + text[last:]


def move(chance, text):
    first, last = piece_of(chance, text)
    rest = text[:first] + text[last:]
    to = chance.randint(0, len(rest))
    return rest[:to] + text[first:last] + rest[to:]


def cut(chance, text):
    return text[: chance.randrange(len(text))]


def put_in(chance, text):
    lines = [0, *(found.end() for found in re.finditer(b"\n", text))]
    at = chance.choice((chance.randint(0, len(text)), chance.choice(lines)))
    return text[:at] + chance.choice(PIECES) + text[at:]


def change_line(chance, text):
    """A line is left out, or comes a second time somewhere."""
    lines = text.splitlines(keepends=True)
    one = chance.choice(lines)
    if chance.random() < 0.5:
        lines.remove(one)
    else:
        lines.insert(chance.randint(0, len(lines)), one)
    return b"".join(lines)


def with_another(chance, text, pattern, others):
    """One match of the pattern is one of the others."""
    found = list(pattern.finditer(text))
    if not found:
        return change_byte(chance, text)
    one = chance.choice(found)
    return text[: one.start()] + chance.choice(others) + text[one.end() :]


def change_number(chance, text):
    numbers = [int(number) for number in NUMBER.findall(text)[:40] if len(number) < 20]
    near = [b"%d" % (number + more) for number in numbers for more in (-1, 1)]
    return with_another(chance, text, NUMBER, chance.choice((NUMBERS, near or NUMBERS)))


def change_token(chance, text):
    tokens = TOKEN.findall(text)
    return with_another(chance, text, TOKEN, chance.choice((VALUES, NUMBERS, tokens or VALUES)))


def change_field(chance, pages):
    """A number of 1 to 8 bytes, mostly in the head of a page or of a frame of the log."""
    size = chance.choice((1, 2, 4, 8))
    step = chance.choice((PAGE, FRAME))
    at = step * chance.randrange(1 + len(pages) // step)
    at = min(len(pages), at + chance.choice((chance.randrange(112), chance.randrange(step))))
    bounds = (0, 1, 2 ** (8 * size - 1), 2 ** (8 * size) - 1, chance.randrange(2 ** (8 * size)))
    return pages[:at] + chance.choice(bounds).to_bytes(size, "big") + pages[at + size :]


def change_page(chance, pages):
    """A page is another one, or has no bytes but 0."""
    step = chance.choice((PAGE, FRAME))
    to, of = (step * chance.randrange(1 + len(pages) // step) for _ in range(2))
    page = chance.choice((pages[of : of + step], bytes(step)))
    return pages[:to] + page + pages[to + step :]


TEXTS = (
    change_byte, leave_out, double, move, cut, put_in, change_line, change_number, change_token)
FIELDS = (*TEXTS, change_line, change_line, *4 * (change_number, change_token))
FILES = (change_byte, change_byte, leave_out, double, move, cut, change_field, change_page)


def changed(chance, text, changes=TEXTS):
    """The bytes after a change, mostly one."""
    for _ in range(chance.choice((1, 1, 1, 2, 4))):
        text = chance.choice(changes)(chance, text) if text else put_in(chance, text)
    return text
