"""Rows of a table and entries of a script, each made twice from the pages and never by the tools: as the words a person writes, and as
bytes (section 1 of docs/RULES.md; docs/EVENTS.md). A word is a str, a Num, bytes (shown in hex), a Host or a Port."""
import struct
from collections import namedtuple

Num = namedtuple("Num", "value digits", defaults=[0])
Host = namedtuple("Host", "bytes")
Port = namedtuple("Port", "value")
MOST = 4096  # bytes of a body
KINDS = ("group", "connection", "route", "destination")


def word(value, rand):
    """The word that the tools print; with `rand` one that means the same."""
    def number(n, digits):
        printed = f"0x{n:0{digits}x}" if digits else str(n)
        return rand.choice([printed, str(n), f"000{n}", f"0x{n:x}", f"0x00{n:X}"]) if rand else printed
    if isinstance(value, Num):
        return number(*value)
    if isinstance(value, Host):
        dotted = ".".join(map(str, value.bytes))
        return dotted if any(value.bytes) or rand and rand.random() < 0.5 else "any"
    if isinstance(value, Port):
        return "any" if value.value == 0 and not (rand and rand.random() < 0.5) else number(value.value, 0)
    if isinstance(value, bytes):
        printed = value.hex() or "-"
        return printed.upper() if rand and rand.random() < 0.5 else printed
    return value


def line(words, rand=None):
    written = [word(value, rand) for value in words]
    if not rand:
        return " ".join(written)
    return rand.choice(["", "  ", "\t"]) + rand.choice([" ", "  ", "\t"]).join(written) + rand.choice(["", " ", "# x", "  # tick 1 \f \u2028 ü"])


def text(rows, rand=None):
    """The text of rows; with `rand` written otherwise: numbers, spaces, notes, line ends."""
    if not rand:
        return "".join(line(row) + "\n" for row in rows)
    out = []
    for row in rows:
        out += [rand.choice(["", "#", " # group 0 TCP"])] * rand.randrange(2) + [line(row, rand)]
    return rand.choice(["", "\ufeff"]) + rand.choice(["\n", "\r\n", "\r"]).join(out) + "\n"


def number(rand, width):
    top = 256 ** width - 1
    return rand.choice([0, 1, top, top - 1, rand.randrange(top + 1), rand.randrange(top + 1)])


def remote(rand):
    host = rand.choice([bytes(4), b"\xff" * 4, rand.randbytes(4), rand.randbytes(4)])
    port = number(rand, 2)
    return [Host(host), "port", Port(port)], host + struct.pack(">H", port)


def address(rand):
    """The 19 bytes of docs/EVENTS.md."""
    words, data = remote(rand)
    return words, b"\4" + bytes(12) + data


# Tables that the rules accept.

def connection_row(rand, group, send, tcp):
    automatic, switches = rand.randrange(2), number(rand, 4)
    alive = 0 if tcp or rand.random() < 0.5 else number(rand, 2)
    words, data = remote(rand)
    limit = ["alive", Num(alive), "tick" if alive == 1 else "ticks"] if alive else []
    return (["group", Num(group), ("manual", "automatic")[automatic], "remote", *words, "send", Num(send), "bytes", *limit,
             "switches", Num(switches, 8)],
            bytes([group, automatic]) + data + struct.pack(">HHI", send, alive, switches))


def route_row(rand, connection, header, tcp):
    longest, pdu, groups = rand.choice([0, 2, 1464, rand.randrange(1465)]), number(rand, 2), number(rand, 4)
    marked = tcp and rand.random() < 0.5
    return (["connection", Num(connection), *["tp"] * marked, "longest", Num(longest), "bytes", "id", Num(header, 8), "pdu", Num(pdu, 4),
             "groups", Num(groups, 8)],
            struct.pack(">BBHIHHI", connection, marked, longest, header, pdu, 0, groups))


def destination_row(rand, connection, pdu, send):
    trigger, longest, timeout = rand.randrange(2), rand.choice([0, send - 8, rand.randrange(send - 7)]), number(rand, 2)
    header, groups = number(rand, 4), number(rand, 4)
    return (["connection", Num(connection), ("held", "trigger")[trigger], "longest", Num(longest), "bytes", "id", Num(header, 8), "pdu", Num(pdu, 4),
             "timeout", Num(timeout), "ticks", "groups", Num(groups, 8)],
            struct.pack(">BBHIHHI", connection, trigger, longest, header, pdu, timeout, groups))


def pairs(rand, count, connections, width):
    """So many different pairs of a connection and an id or a PDU."""
    met = {}
    while len(met) < count:
        met[rand.randrange(connections), number(rand, width)] = None
    return met


def table(rand, counts):
    """Rows as words, in the order of the image, and the image."""
    groups, connections, routes, destinations = counts
    sends = [rand.choice([8, 1472, rand.randrange(8, 1473)]) for _ in range(connections)]
    protocols = [rand.randrange(2) for _ in range(groups)]
    owners = [rand.randrange(groups) for _ in range(connections)]
    bodies = ([([("UDP", "TCP")[p]], bytes([p + 1, 0])) for p in protocols],
              [connection_row(rand, *row, protocols[row[0]]) for row in zip(owners, sends)],
              [route_row(rand, *pair, protocols[owners[pair[0]]]) for pair in pairs(rand, routes, connections, 4)],
              [destination_row(rand, *pair, sends[pair[0]]) for pair in pairs(rand, destinations, connections, 2)])
    rows, image, body = [], struct.pack(">HH", 1, 4), b""
    for kind, made in enumerate(bodies):
        image += struct.pack(">HHI", kind + 1, len(made), 36 + len(body))
        rows += [[KINDS[kind], Num(i), *words] for i, (words, _) in enumerate(made)]
        body += b"".join(data for _, data in made)
    return rows, image + body


def shuffled(rand, rows):
    """The rows of a table with the kinds mixed, each kind in its order."""
    kinds = [row[0] for row in rows]
    rand.shuffle(kinds)
    left = {kind: iter([row for row in rows if row[0] == kind]) for kind in KINDS}
    return [next(left[kind]) for kind in kinds]


# Entries of docs/EVENTS.md.

def one(rand):
    value = number(rand, 1)
    return Num(value), bytes([value])


def some_bytes(rand, most):
    data = rand.randbytes(rand.choice([0, 1, 10, rand.randrange(60), rand.randrange(60)] + [most] * (rand.random() < 0.05)))
    return data, struct.pack(">I", len(data)) + data


def wide(rand, width, digits=0):
    value = number(rand, width)
    return Num(value, digits), value.to_bytes(width, "big")


def position(rand):
    on = rand.randrange(2)
    return ("off", "on")[on], bytes([on])


EVENTS = {
    "tick": (0, lambda rand: [wide(rand, 4)]),
    "open": (1, lambda rand: [one(rand)]),
    "close": (2, lambda rand: [one(rand)]),
    "connected": (3, lambda rand: [one(rand)]),
    "lost": (4, lambda rand: [one(rand)]),
    "remote": (5, lambda rand: [one(rand), address(rand)]),
    "switch": (6, lambda rand: [one(rand), one(rand), position(rand)]),
    "segment": (7, lambda rand: [one(rand), some_bytes(rand, MOST - 6)]),
    "walk": (8, lambda rand: [one(rand), wide(rand, 4), some_bytes(rand, MOST - 10)]),
    "take": (9, lambda rand: [one(rand), wide(rand, 4)]),
    "datagram": (10, lambda rand: [one(rand), address(rand)]),
    "accept": (11, lambda rand: [one(rand), address(rand)]),
    "transmit": (12, lambda rand: [wide(rand, 2, 4), some_bytes(rand, MOST - 7)]),
    "switch-all": (13, lambda rand: [one(rand), position(rand)]),
    "count": (14, lambda rand: [one(rand)]),
    "clear": (15, lambda rand: [one(rand)]),
    "cancel": (16, lambda rand: [one(rand)]),
}


def joined(fields):
    """The words and the bytes of fields."""
    words = [value for field, _ in fields for value in (field if isinstance(field, list) else [field])]
    return words, b"".join(data for _, data in fields)


def event(rand, name):
    """An event's line, as rows of words, and its entry."""
    kind, fields = EVENTS[name]
    words, body = joined(fields(rand))
    body = body if kind == 0 else b"\0" + body
    return [[name, *words]], struct.pack(">HHI", kind, 0, len(body)) + body


def part(rand):
    kind = rand.randrange(4)
    if kind == 0:
        held, value = number(rand, 1), number(rand, 8)
        return ["header", Num(held), Num(value)], struct.pack(">BBHQ", 0, 0, held, value)
    if kind == 1:
        route, held, length = number(rand, 1), number(rand, 2), number(rand, 2)
        return ["payload", Num(route), Num(held), Num(length)], struct.pack(">BBHQ", 1, route, held, length)
    route, left = number(rand, 1), number(rand, 4)
    if kind == 3:
        return ["transfer", Num(route), Num(left)], struct.pack(">BBHQ", 3, route, 0, left)
    return ["skip", Num(left)], struct.pack(">BBHQ", 2, 0, 0, left)


def choice(rand, *words):
    at = rand.randrange(len(words))
    return words[at], bytes([at])


def record(rand):
    def said(name):
        return name, b""
    return joined([choice(rand, "offline", "reconnect", "online"), said("open"), choice(rand, "no", "yes"), said("close"), choice(rand, "no", "yes"),
                   said("remote"), address(rand), said("switches"), wide(rand, 4, 8), said("part"), part(rand), said("used"), wide(rand, 2),
                   said("timer"), wide(rand, 2), said("due"), choice(rand, "no", "yes"), left_out("alive", wide(rand, 2)),
                   left_out("remote-set", choice(rand, "no", "yes"))])


def left_out(name, field):
    """A field behind its name, without words where it is 0."""
    word, data = field
    return ([name, word] if any(data) else []), data


def state(rand):
    """A start state: its lines as rows of words, and its entry."""
    empty, rows, body = b"\0\0\0\4" + bytes(42), [["state"]], b""
    for k in range(16):
        words, data = record(rand) if rand.random() < 0.5 else ([], empty)
        body += data
        rows += [["record", Num(k), *words]] if data != empty else []
    (udp, first), (tcp, second) = wide(rand, 4), wide(rand, 4)
    body += first + second
    rows += [["drops", udp, tcp]] if udp.value or tcp.value else []
    for name, size in (("rx", 1464), ("tx", 1472)):
        for k in range(16):
            data = rand.randbytes(rand.choice([0, 1, size, rand.randrange(size)])) if rand.random() < 0.3 else b""
            data = data.rstrip(b"\0")
            body += data + bytes(size - len(data))
            rows += [[name, Num(k), data]] if data else []
    return rows + [["end"]], struct.pack(">HHI", 65535, 0, len(body)) + body
