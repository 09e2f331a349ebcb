"""The fields of a line, each told once and used both ways: words to bytes and bytes to words. An error names the place (line and column, or
a byte), the field and the reason."""
import ipaddress
import re


class Wrong(Exception):
    """What cannot be read: where, which field, why."""

    def __init__(self, place, field, reason):
        super().__init__(f"{place}: {field}: {reason}")


class Words:
    """The words of one line, taken from the front. A word begins and ends with a quotation mark, and then may hold spaces and `#`, or it ends
    before a space or `#`, which starts a comment. `column` is where the word taken last begins; `columns` has it by the word's field."""
    form = re.compile(r'\s*("[^"]*"?|[^\s#]+)')

    def __init__(self, line, text):
        self.line, self.words, self.places, self.columns = line, [], [], {}
        self.column = self.end_column = 1
        word = self.form.match(text)
        while word:
            self.words.append(word[1])
            self.places.append(word.start(1) + 1)
            self.end_column = word.end() + 1
            word = self.form.match(text, word.end())

    def wrong(self, field, reason, column=None):
        return Wrong(f"line {self.line}, column {column or self.column}", field, reason)

    def next(self, field):
        if not self.words:
            raise self.wrong(field, "is missing", self.end_column)
        self.column = self.columns[field] = self.places.pop(0)
        return self.words.pop(0)

    def quoted(self, field):
        """What stands between quotation marks."""
        got = self.next(field)
        if not re.fullmatch('"[^"]*"', got):
            raise self.wrong(field, f"`{got}` is not in quotation marks")
        if not got[1:-1].isprintable() or "\ufffd" in got:
            raise self.wrong(field, "has a character that cannot be printed")
        if got[1:-1].strip() != got[1:-1] or got == '""':
            raise self.wrong(field, f"`{got}` is empty, or begins or ends with a space")
        return got[1:-1]

    def choice(self, field, choices):
        got = self.next(field)
        if got not in choices:
            raise self.wrong(field, f"`{got}` is none of {', '.join(choices)}")
        return got

    def number(self, field, most):
        got = self.next(field)
        if not re.fullmatch("[0-9]{1,999}|0x[0-9a-fA-F]{1,999}", got):
            raise self.wrong(field, f"`{got}` is no number (decimal digits, or 0x and hex digits)")
        value = int(got, 16 if got.startswith("0x") else 10)
        if value > most:
            raise self.wrong(field, f"{got} is more than {most}")
        return value

    def hex(self, field, most):
        got = self.next(field)
        if got == "-":
            return b""
        if not re.fullmatch("[0-9a-fA-F]+", got):
            raise self.wrong(field, f"`{got}` is neither hex digits nor `-` for none")
        if len(got) % 2:
            raise self.wrong(field, f"{len(got)} hex digits are no whole bytes")
        if len(got) > 2 * most:
            raise self.wrong(field, f"{len(got) // 2} bytes are more than {most}")
        return bytes.fromhex(got)

    def end(self):
        if self.words:
            raise self.wrong("end of line", f"`{self.words[0]}` is left over", self.places[0])


def lines(text):
    """The lines that say something, as Words."""
    for number, line in enumerate(re.split("\r\n|\r|\n", text), 1):
        if "\0" in line:
            raise Wrong(f"line {number}, column {line.index(chr(0)) + 1}", "text", "has a zero byte, which only images and scripts of bytes have")
        words = Words(number, line)
        if words.words:
            yield words


class Bytes:
    """The bytes of one row or entry (`whose`), from `at` to before `last`, taken from the front. An error names the byte where the field taken
    last begins."""

    def __init__(self, whose, data, at, last):
        self.whose, self.data, self.at, self.last, self.field = whose, data, at, last, at

    def wrong(self, field, reason):
        return Wrong(f"{self.whose}, byte {self.field}", field, reason)

    def left(self):
        return self.last - self.at

    def next(self, field, width):
        self.field = self.at
        if width > self.left():
            raise self.wrong(field, f"is cut off: {self.left()} of {width} bytes")
        self.at += width
        return self.data[self.field:self.at]

    def part(self, field, width):
        """The next bytes, to be taken apart."""
        self.next(field, width)
        return Bytes(self.whose, self.data, self.field, self.at)

    def number(self, field, width, most):
        value = int.from_bytes(self.next(field, width), "big")
        if value > most:
            raise self.wrong(field, f"{value} is more than {most}")
        return value

    def end(self):
        self.field = self.at
        if self.left():
            raise self.wrong("end", f"{self.left()} bytes are left over")


class Word:
    """A word that stands in the line and not in the bytes."""

    def __init__(self, word):
        self.word = self.form = word

    def read(self, words):
        got = words.next(self.word)
        if got != self.word:
            raise words.wrong(self.word, f"`{got}` stands where the word `{self.word}` belongs")
        return b""

    def show(self, _):
        return self.word


class Always:
    """Bytes that have one value, and no word."""
    form = ""

    def __init__(self, field, value):
        self.field, self.value = field, value

    def read(self, _):
        return self.value

    def show(self, data):
        got = data.next(self.field, len(self.value))
        if got != self.value:
            raise data.wrong(self.field, f"{got.hex()} is not {self.value.hex()}")
        return ""


class Number:
    """A number of a width; shown decimal, or with so many hex digits."""

    def __init__(self, field, width, digits=0, most=None):
        self.field, self.width, self.digits = field, width, digits
        self.most = 256 ** width - 1 if most is None else most
        self.form = f"<{field}>"

    def read(self, words):
        return words.number(self.field, self.most).to_bytes(self.width, "big")

    def show(self, data):
        value = data.number(self.field, self.width, self.most)
        return f"0x{value:0{self.digits}x}" if self.digits else str(value)


class Choice:
    """A byte with a word for each value."""

    def __init__(self, field, **values):
        self.field, self.values = field, values
        self.form = "|".join(values)

    def read(self, words):
        return bytes([self.values[words.choice(self.field, self.values)]])

    def show(self, data):
        value = data.next(self.field, 1)[0]
        for word, number in self.values.items():
            if number == value:
                return word
        raise data.wrong(self.field, f"{value} is none of {', '.join(f'{number} ({word})' for word, number in self.values.items())}")


class Mark:
    """A byte that is 1 where its word stands, and 0 where it does not."""

    def __init__(self, field, word):
        self.field, self.word, self.form = field, word, f"[{word}]"

    def read(self, words):
        here = words.words[:1] == [self.word]
        if here:
            words.next(self.field)
        return bytes([here])

    def show(self, data):
        value = data.next(self.field, 1)[0]
        if value > 1:
            raise data.wrong(self.field, f"{value} is neither 0 nor 1 ({self.word})")
        return self.word * value


class Ticks:
    """A number of ticks in two bytes, with its unit."""

    def __init__(self, field):
        self.field, self.form = field, f"<{field}> ticks"

    def read(self, words):
        value = words.number(self.field, 65535)
        got = words.next("ticks")
        if got not in ("tick", "ticks"):
            raise words.wrong("ticks", f"`{got}` stands where the word `ticks` belongs")
        return value.to_bytes(2, "big")

    def show(self, data):
        value = data.number(self.field, 2, 65535)
        return f"{value} tick" + "s" * (value != 1)


class Maybe:
    """A field behind its word. Where the word does not stand the field's bytes are 0, and such a field is not shown."""

    def __init__(self, word, width, field):
        self.word, self.width, self.field, self.form = word, width, field, f"[{word} {field.form}]"

    def read(self, words):
        if words.words[:1] != [self.word]:
            return bytes(self.width)
        words.next(self.word)
        return self.field.read(words)

    def show(self, data):
        shown = self.field.show(data)
        return f"{self.word} {shown}" if any(data.data[data.field:data.at]) else ""


class Address:
    """IPv4 address and port, each of which may be `any` (0)."""

    def __init__(self, field):
        self.host, self.port = field + " address", field + " port"
        self.form = f"<{self.host}> port <{self.port}>"

    def read(self, words):
        got = words.next(self.host)
        host = "0.0.0.0" if got == "any" else got
        try:
            address = ipaddress.IPv4Address(host)
        except ValueError:
            address = None
        if not address or str(address) != host:
            raise words.wrong(self.host, f"`{got}` is no IPv4 address (four numbers from 0 to 255, without leading zeros) nor `any`")
        Word("port").read(words)
        if words.words[:1] == ["any"]:
            words.words[0] = "0"
        return address.packed + words.number(self.port, 65535).to_bytes(2, "big")

    def show(self, data):
        host, port = data.next(self.host, 4), data.number(self.port, 2, 65535)
        return f"{'.'.join(map(str, host)) if any(host) else 'any'} port {port or 'any'}"


class Hex:
    """A length of four bytes and so many bytes, which end the body."""

    def __init__(self, field, most):
        self.field, self.most = field, most
        self.form = f"<{field} in hex, or ->"

    def read(self, words):
        data = words.hex(self.field, self.most)
        return len(data).to_bytes(4, "big") + data

    def show(self, data):
        length = data.number("length", 4, 2 ** 32 - 1)
        if length != data.left():
            raise data.wrong("length", f"{length} is said and {data.left()} bytes follow")
        return data.next(self.field, length).hex() or "-"


def read(row, words):
    """The bytes of a line's fields."""
    return b"".join([field.read(words) for field in row])


def show(row, data):
    """The words of a row's bytes."""
    return " ".join(filter(None, [field.show(data) for field in row]))


def form(name, row):
    """How a line is written, for a reader."""
    return " ".join(filter(None, [name] + [field.form for field in row]))
