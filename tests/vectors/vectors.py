"""The vectors of docs/vectors/: parsed to the last word, and put to a reader. docs/vectors/README.md has their shape."""
import re
from pathlib import Path
from typing import NamedTuple

from reader import Refused

DOCS = Path(__file__).resolve().parents[2] / "docs"
FOLDER = DOCS / "vectors"

# For each call the kinds of its arguments, and of what follows the first word of each answer. "entries" and "octets" are the
# rooms of a lent table of numbers and of a lent table of bytes.
PAIR = {"handovers": "number", "no_chain": ""}
CHANGED = {"built": "number number number bytes bytes"}
CALLS = {
    "validate": ("bytes", {"accepted": "number number"}),
    "build": ("bytes" + " entries" * 5 + " octets", {"built": "number number number" + " list" * 5 + " bytes"}),
    "tags": ("bytes octets", {"built": "number number number bytes"}),
    "parents": ("bytes entries", {"filled": "list"}),
    "lasts": ("bytes entries", {"filled": "list"}),
    "read": ("bytes", {"tag": "number number number number number"}),
    "write": ("number number number number number octets", {"written": "bytes"}),
    "lookup": ("bytes number", {"found": "bytes"}),
    "pair": ("bytes bytes", PAIR),
    "pair_at": ("bytes number number", PAIR),
    "chain": ("bytes number number entries", {"chain": "list", "no_chain": ""}),
    "neighbours": ("bytes number entries", {"neighbours": "list"}),
    "reach": ("bytes number", {"reach": "number number number"}),
    "margin": ("bytes number number", {"margin": "signed"}),
    "same": ("bytes bytes", {"same": "", "different": ""}),
    "add": ("bytes number number number octets octets", CHANGED),
    "withdraw": ("bytes number number octets octets", CHANGED),
    "short_tags": ("bytes octets", {"built": "number number number bytes"}),
    "short_read": ("bytes", {"tag": "number number number number"}),
    "short_write": ("number number number number octets", {"written": "bytes"}),
    "short_pair": ("bytes bytes", PAIR),
    "short_pair_at": ("bytes number number", PAIR),
}
for _, _answers in CALLS.values():
    _answers["refused"] = "number number number"
ROOMS = ("entries", "octets")
TABLES = {call: [(at, kind) for at, kind in enumerate(kinds.split()) if kind in ROOMS] for call, (kinds, _) in CALLS.items()}


class Vector(NamedTuple):
    where: str  # file and line
    text: str
    call: str
    arguments: tuple
    answer: tuple


class Malformed(ValueError):
    pass


# Words.


def number_of(word):
    if not re.fullmatch(r"0|[1-9][0-9]*", word) or int(word) >= 2**32:
        raise Malformed(f"'{word}' is no number")
    return int(word)


def signed_of(word):
    return -number_of(word[1:]) if word[:1] == "-" and word != "-0" else number_of(word)


def bytes_of(word):
    if word == "-":
        return b""
    if not re.fullmatch(r"([0-9a-f]{2})+", word):
        raise Malformed(f"'{word}' is no bytes")
    return bytes.fromhex(word)


def list_of(word):
    return [] if word == "-" else [number_of(item) for item in word.split(",")]


def long_bytes_of(word):
    """Parts with + between them: bytes, bytes*COUNT, COUNT windows as windows:COUNT:STEP:LENGTH, or rows:COLUMN:COLUMN and on."""
    whole = b""
    for part in word.split("+"):
        if part.startswith("windows:"):
            count, step, length = map(number_of, part.split(":")[1:])
            for v in range(count):
                whole += (v * step).to_bytes(4, "little") + length.to_bytes(4, "little")
        elif part.startswith("rows:"):
            columns = [long_list_of(column) for column in part.split(":")[1:]]
            if len(set(map(len, columns))) != 1:
                raise Malformed("columns of different lengths")
            whole += bytes_of_rows(zip(*columns))
        elif "*" in part:
            piece, count = part.split("*")
            whole += bytes_of(piece) * number_of(count)
        else:
            whole += bytes_of(part)
    return whole


def long_list_of(word):
    """Items with commas between them: a number, NUMBER*COUNT, or FROM..TO, rising or falling by 1."""
    whole = []
    for item in [] if word == "-" else word.split(","):
        if ".." in item:
            start, stop = map(number_of, item.split(".."))
            step = 1 if start <= stop else -1
            whole += range(start, stop + step, step)
        elif "*" in item:
            number, count = map(number_of, item.split("*"))
            whole += [number] * count
        else:
            whole.append(number_of(item))
    return whole


SHORT = {"bytes": bytes_of, "number": number_of, "signed": signed_of, "list": list_of, "entries": number_of, "octets": number_of}
LONG = dict(SHORT, bytes=long_bytes_of, list=long_list_of)


def words_to_values(words, kinds, forms):
    kinds = kinds.split()
    if len(words) != len(kinds):
        raise Malformed(f"{len(words)} words where {len(kinds)} are due")
    return tuple(forms[kind](word) for word, kind in zip(words, kinds))


def bytes_of_rows(rows):
    """Two bytes for each number, row by row."""
    return b"".join(number.to_bytes(2, "little") for row in rows for number in row)


def tags_of_rows(values):
    """The tag file of a plan number and build's tables, for the word `rows`."""
    return bytes_of_rows((values[0], *row) for row in zip(*values[4:8]))


# Lines.


def without_comment(line):
    return " ".join(line.split("#")[0].split())


def parse_vector(text, where="", forms=SHORT):
    sides = text.split(" : ")
    if len(sides) != 2:
        raise Malformed("a vector has one ' : '")
    (call, *arguments), (answer, *values) = (side.split() for side in sides)
    if call not in CALLS or answer not in CALLS[call][1]:
        raise Malformed(f"no call '{call}' answers '{answer}'")
    arguments = words_to_values(arguments, CALLS[call][0], forms)
    rows = forms is LONG and values[-1:] == ["rows"]
    values = words_to_values(values[:-1] + ["-"] if rows else values, CALLS[call][1][answer], forms)
    if rows:
        values = values[:-1] + (tags_of_rows(values),)
    return Vector(where, text, call, arguments, (answer, *values))


def parse_file(path):
    """The revision that a file belongs to, and its vectors. Every line is a vector, a comment, or empty, but for the first."""
    lines = path.read_text(encoding="ascii").split("\n")
    if lines.pop() != "":
        raise Malformed(f"{path.name} does not end with its last line")
    first = re.fullmatch(r"revision ([0-9]+)", lines[0]) if lines else None
    if not first:
        raise Malformed(f"{path.name} does not begin with its revision")
    vectors = []
    for at, line in enumerate(lines[1:], 2):
        where = f"{path.name} {at}"
        text = without_comment(line)
        try:
            if text:
                vectors.append(parse_vector(text, where, LONG if path.name == "long.txt" else SHORT))
        except ValueError as error:
            raise Malformed(f"{where}: {error}") from None
    return int(first.group(1)), vectors


def all_vectors():
    return [vector for path in sorted(FOLDER.glob("*.txt")) for vector in parse_file(path)[1]]


# A vector put to a reader: anything with the calls as methods that reader.Reader has.


def lend(kind, room):
    """A table with something in it, so that a call that spoils what it must leave is seen."""
    if kind == "entries":
        return [50000 + at % 9973 for at in range(room)]
    return bytearray(225 + at % 29 for at in range(room))


def answer_of(call, result, lent):
    """The answer, and how much of each lent table was written."""
    tag_length = 8 if call.startswith("short") else 10
    call = call.replace("short_", "")
    if call == "validate":
        return ("accepted", *result), []
    if call in ("build", "tags", "add", "withdraw"):
        entries = 8 + 8 * result[1] if call in ("add", "withdraw") else result[1]
        rooms = [entries] * (len(lent) - 1) + [tag_length * result[1]]
        return ("built", *result, *(table[:room] for table, room in zip(lent, rooms))), rooms
    if call in ("parents", "lasts", "neighbours", "chain") and result is not None:
        name = {"parents": "filled", "lasts": "filled"}.get(call, call)
        return (name, lent[0][:result]), [result]
    if call == "read":
        return ("tag", *result), []
    if call == "reach":
        return ("reach", *result), []
    if call == "margin":
        return ("margin", *lent[0]), [1]
    if call == "write":
        return ("written", lent[0][:tag_length]), [tag_length]
    if call == "same":
        return ("same" if result else "different",), []
    if result is None:
        return ("no_chain",), [0] * len(lent)
    return ("found" if call == "lookup" else "handovers", result), []


def said(reader, vector):
    """What the reader answers. What it spoiled, or how it broke, is an answer too, and never a right one."""
    arguments, lent = list(vector.arguments), []
    for at, kind in TABLES[vector.call]:
        arguments[at] = lend(kind, arguments[at])
        lent.append(arguments[at])
    if vector.call == "margin":  # The place for its number, of which a vector has no word. No byte of what stands there is 0.
        lent.append([0x5A5A5A5A5A5A5A5A])
        arguments.append(lent[0])
    before = [table[:] for table in lent]
    try:
        answer, written = answer_of(vector.call, getattr(reader, vector.call)(*arguments), lent)
    except Refused as no:
        answer, written = ("refused", no.number, no.input, no.position), [0] * len(lent)
    except Exception as broken:
        return ("broken", repr(broken))
    if any(len(now) != len(was) or now[room:] != was[room:] for now, was, room in zip(lent, before, written)):
        return ("spoiled", *answer)
    return answer


def passes(reader, vector):
    return said(reader, vector) == vector.answer


def word_of(value):
    """The word of a value of an answer."""
    if isinstance(value, (bytes, bytearray)):
        return value.hex() or "-"
    if isinstance(value, (list, tuple)):
        return ",".join(map(str, value)) or "-"
    return str(value)


def words_of(answer):
    return " ".join(map(word_of, answer))
