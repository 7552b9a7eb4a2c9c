"""The vectors of docs/vectors/ and the document that they belong to.

    python3 -B -m unittest discover -s tests/vectors                 from the repository's root
    python3 -B tests/vectors/test_vectors.py --catches               each wrong reader, and the shortest vector that it fails

The right reader passes every vector, each wrong reader fails one, the compiled library passes all that its C interface can
express (where PODDRESHI_LIBRARY names it), and docs/FORMAT.md agrees with the vectors.
"""
import os
import re
import struct
import sys
import unittest
from collections import Counter, defaultdict

from library import Library
from reader import Reader, Refused
from vectors import CALLS, DOCS, FOLDER, Malformed, all_vectors, bytes_of_rows, parse_file, parse_vector, passes, said
from vectors import without_comment, words_of
from wrong_end_readers import WRONG

VECTORS = sorted(all_vectors(), key=lambda one: 10**9 if one.where.startswith("long.txt") else len(one.text))  # The quick first.
DOCUMENT = (DOCS / "FORMAT.md").read_text(encoding="utf-8")
QUESTIONS = range(1, 17)
NOT_IN_C = ["parents", "lasts", "read", "short_read"]
SLIPS = (
    "pair 00 00",
    "pair 00 : no_chain",
    "pair 0 00 : no_chain",
    "pair 0A 00 : no_chain",
    "pair 00 00 : same",
    "pair 00 00 : no_chain : no_chain",
    "pear 00 00 : no_chain",
    "reach 00 01 : reach 1 0 1",
    "reach 00 1 : reach 1",
    "margin 00 0 0 : margin -0",
    "margin 00 0 0 : margin +1",
    "margin 00 0 -1 : margin 1",
    "withdraw 00 13 0 8 : refused 1 0 0",
    "add 00 13 0 1 16 10 : built 13 1 1 00",
    "chain 00 0 0 1 : chain 1,,2",
    "lookup 00*2 0 : found 00",
)


def first_failed(reader):
    return next((vector for vector in VECTORS if not passes(reader, vector)), None)


def failure(reader, vector):
    return f"{vector.where}: {vector.text[:300]}\n  but it says: {words_of(said(reader, vector))[:300]}"


def table(*headings):
    """The rows of the table of the document that has these headings, each as a list of its cells."""
    lines = DOCUMENT.split("\n")
    at = lines.index("| " + " | ".join(headings) + " |")
    rows = []
    for line in lines[at + 2 :]:
        if not line.startswith("|"):
            return rows
        rows.append([cell.strip() for cell in line.strip("|").split("|")])


def whole(cell):
    """The number of a cell, with its sign and without the commas between its digits."""
    return int(cell.replace("−", "-").replace(",", ""))


def blocks():
    """The lines of the fenced blocks of the document."""
    return [line for block in DOCUMENT.split("```")[1::2] for line in block.strip("\n").split("\n")]


def answered(call):
    """What the vectors of a call have behind its own name as the answer, by the arguments."""
    return {vector.arguments: vector.answer[1] for vector in VECTORS if vector.call == call == vector.answer[0]}


# The plan files and tag files that the fenced blocks show, in order, and how many lines each of them has.
SHOWN = {
    "plan 12": 8, "two windows": 3, "plan 16": 6, "plan 17": 5, "tags of plan 12": 7, "plan 14": 9, "short tags of plan 14": 8,
    "plan 13": 9, "tags of plan 13": 8, "plan 15": 7, "tags of plan 15": 6,
}


def octets(*names):
    """The bytes that the fenced blocks show of these."""
    lines = [line for line in blocks() if re.match(r"[0-9a-f]{2} ", line)]
    shown = [bytes.fromhex(re.match(r"([0-9a-f]{2} )+", line + " ").group()) for line in lines]
    assert len(shown) == sum(SHOWN.values()), len(shown)
    rest = iter(shown)
    files = {name: b"".join(next(rest) for _ in range(count)) for name, count in SHOWN.items()}
    return [files[name] for name in names]


class Files(unittest.TestCase):
    def test_every_file_is_parsed_to_its_last_line(self):
        self.assertEqual({path.suffix for path in FOLDER.iterdir() if path.name != "README.md"}, {".txt"})
        due = 0
        for path in FOLDER.glob("*.txt"):
            revision, _ = parse_file(path)
            self.assertEqual(f"{revision}", re.search(r"^Revision ([0-9]+), ", DOCUMENT, re.M).group(1), path.name)
            due += sum(1 for line in path.read_text().splitlines()[1:] if line.split("#")[0].strip())
            self.assertIn(f"`{path.name}`", (FOLDER / "README.md").read_text())
        self.assertEqual(len(VECTORS), due)

    def test_no_vector_stands_twice(self):
        self.assertEqual([text for text, times in Counter(vector.text for vector in VECTORS).items() if times > 1], [])


class Readers(unittest.TestCase):
    def test_the_right_reader_passes_every_vector(self):
        failed = first_failed(Reader())
        self.assertIsNone(failed, failed and failure(Reader(), failed))

    def test_each_wrong_reader_fails_some_vector(self):
        self.assertGreaterEqual(len({reader.__name__ for reader in WRONG}), 40)
        self.assertEqual(len({reader.mistake for reader in WRONG}), len(WRONG))
        caught = {reader: first_failed(reader()) for reader in WRONG}
        self.assertEqual([f"{reader.__name__}: {reader.mistake}" for reader in WRONG if caught[reader] is None], [])
        files = Counter(vector.where.split()[0] for vector in caught.values())
        counts = ", ".join(f"{times} by {name}" for name, times in sorted(files.items()))
        print(f"vectors: {len(VECTORS)} vectors, {len(WRONG)} wrong readers; caught first: {counts}")

    def test_the_library_passes_every_vector_that_c_can_express(self):
        if "PODDRESHI_LIBRARY" not in os.environ:
            print("vectors: the compiled library is not tried, since PODDRESHI_LIBRARY does not say where it is")
            self.skipTest("PODDRESHI_LIBRARY is not set")
        library = Library(os.environ["PODDRESHI_LIBRARY"])
        expressible = [vector for vector in VECTORS if library.has(vector.call)]
        for vector in expressible:
            self.assertTrue(passes(library, vector), failure(library, vector))
        self.assertEqual([call for call in CALLS if not library.has(call)], NOT_IN_C)
        print(f"vectors: the library passes {len(expressible)}; not in its C interface: {', '.join(NOT_IN_C)}")

    def test_the_library_answers_pages_of_the_vectors_of_pair_at(self):
        if "PODDRESHI_LIBRARY" not in os.environ:
            self.skipTest("PODDRESHI_LIBRARY is not set")
        library, pages = Library(os.environ["PODDRESHI_LIBRARY"]), defaultdict(list)
        for vector in VECTORS:
            if vector.call == "pair_at":
                tags, first, second = vector.arguments
                pages[tags].append((first, second, vector.answer))
        for tags, due in pages.items():
            pairs = [row[:2] for row in due]
            if len(tags) % 10 == 0:
                self.assertEqual(library.page(tags, pairs), due)
                continue
            with self.assertRaises(Refused) as caught:
                library.page(tags, pairs)
            self.assertEqual({("refused", *caught.exception.args)}, {row[2] for row in due})


class Document(unittest.TestCase):
    def test_what_it_shows_stands_in_the_files(self):
        stored = {vector.text for vector in VECTORS}
        shown = [without_comment(line) for line in blocks() if line.split()[0] in CALLS]
        self.assertGreaterEqual(len(shown), 40)
        self.assertEqual([text for text in shown if text not in stored], [])

    def test_plan_12_is_the_one_of_the_vectors(self):
        file, tags = octets("plan 12", "tags of plan 12")
        rows = table("position", "parent", "component", "depth", "rank", "last", "rank of the last")
        numbers = [list(map(int, row)) for row in rows]
        positions, parents, components, depths, ranks, lasts, last_ranks = map(list, zip(*numbers))
        self.assertEqual(positions, list(range(7)))
        due = [
            ("build", ("built", 12, 7, 2, parents, components, depths, ranks, last_ranks, tags)),
            ("tags", ("built", 12, 7, 2, tags)),
            ("parents", ("filled", parents)),
            ("lasts", ("filled", lasts)),
        ]
        stored = [(vector.call, vector.answer) for vector in VECTORS if vector.arguments[0] == file]
        self.assertEqual([one for one in due if one not in stored], [])

    def test_the_overlap_that_it_works_out_is_the_one_of_the_vectors(self):
        """With minimums of 5, 6 and 11, of which the document says what they change."""
        (file,) = octets("two windows")
        minimums = {minimum: file[:4] + struct.pack("<I", minimum) + file[8:] for minimum in (5, 6, 11)}
        self.assertEqual(minimums[5], file)
        self.assertEqual([at for at in range(len(file)) if minimums[6][at] != file[at]], [4])
        stored = [(vector.call, vector.arguments, vector.answer) for vector in VECTORS]
        self.assertIn(("chain", (minimums[5], 0, 1, 2), ("chain", [1, 0])), stored)
        self.assertIn(("chain", (minimums[6], 0, 1, 2), ("no_chain",)), stored)
        self.assertIn(("validate", (minimums[11],), ("refused", 4, 0, 0)), stored)

    def test_the_margins_that_it_works_out_are_those_of_the_vectors(self):
        stored = answered("margin")
        for file in octets("plan 12", "plan 16", "plan 17"):
            positions = range(struct.unpack_from("<H", file, 2)[0])
            shown = [list(map(whole, row)) for row in table("margin", *map(str, positions))]
            self.assertEqual(shown, [[u, *(stored[file, u, v] for v in positions)] for u in positions])

    def test_windows_overlap_just_when_their_margin_reaches_the_minimum(self):
        """In the vectors of margin and of neighbours that have a file and a position in common."""
        beside = {arguments[:2]: found for arguments, found in answered("neighbours").items()}
        compared = Counter()
        for (file, first, second), margin in answered("margin").items():
            if first != second and (file, first) in beside:
                overlap = second in beside[file, first]
                self.assertEqual(overlap, margin >= struct.unpack_from("<I", file, 4)[0], (file.hex(), first, second))
                compared[overlap, margin > 0] += 1
        self.assertGreaterEqual(min(compared[kind] for kind in ((True, True), (False, True), (False, False))), 5)

    def test_plan_17_is_the_one_of_the_vectors(self):
        """With the answers that the document names, of the plan whose windows lie at the last end."""
        (file,) = octets("plan 17")
        rows = table("position", "offset", "length", "end", "parent", "last", "component", "depth", "rank", "rank of the last")
        numbers = [list(map(whole, row)) for row in rows]
        positions, offsets, lengths, ends, parents, lasts, components, depths, ranks, last_ranks = map(list, zip(*numbers))
        self.assertEqual(positions, list(range(4)))
        self.assertEqual(list(zip(offsets, lengths)), list(struct.iter_unpack("<II", file[8:])))
        self.assertEqual(ends, [offset + length for offset, length in zip(offsets, lengths)])
        self.assertEqual(max(ends), 2**32 - 1)
        tags = bytes_of_rows((17, *row) for row in zip(components, depths, ranks, last_ranks))
        short = bytes_of_rows((17, *row) for row in zip(components, depths, ranks))
        stored = [(vector.call, vector.arguments[1:], vector.answer) for vector in VECTORS if vector.arguments[0] == file]
        for due in (
            ("build", (4, 4, 4, 4, 4, 40), ("built", 17, 4, 1, parents, components, depths, ranks, last_ranks, tags)),
            ("lasts", (4,), ("filled", lasts)),
            ("short_tags", (32,), ("built", 17, 4, 1, short)),
            ("chain", (0, 3, 4), ("chain", [3, 1, 0])),
            ("add", (18, 4_294_880_896, 86_400, 48, 50), ("refused", 5, 0, 0)),
            ("add", (18, 4_294_880_896, 86_399, 48, 50), ("refused", 4, 0, 0)),
        ):
            self.assertIn(due, stored)

    def test_plan_14_is_the_one_of_the_vectors(self):
        file, tags = octets("plan 14", "short tags of plan 14")
        rows = table("position", "end", "parent", "component", "depth", "rank")
        positions, ends, parents, components, depths, ranks = map(list, zip(*(map(int, row) for row in rows)))
        self.assertEqual(positions, list(range(8)))
        pairs = struct.iter_unpack("<II", file[8:])
        self.assertEqual(ends, [offset + length for offset, length in pairs])
        self.assertEqual(tags, bytes_of_rows((14, *row) for row in zip(components, depths, ranks)))
        stored = [(vector.call, vector.answer) for vector in VECTORS if vector.arguments[0] == file]
        self.assertIn(("short_tags", ("built", 14, 8, 2, tags)), stored)
        self.assertIn(("parents", ("filled", parents)), stored)

    def test_the_changes_that_it_works_out_are_those_of_the_vectors(self):
        """And plan 13 and plan 15 keep the tags of plan 12 that the document says."""
        old, added, withdrawn = octets("plan 12", "plan 13", "plan 15")
        tags, added_tags, withdrawn_tags = octets("tags of plan 12", "tags of plan 13", "tags of plan 15")
        stored = [(vector.call, vector.arguments, vector.answer) for vector in VECTORS]
        self.assertIn(("add", (old, 13, 18, 3, len(added), len(added_tags)), ("built", 13, 8, 2, added, added_tags)), stored)
        room = len(withdrawn), len(withdrawn_tags)
        self.assertIn(("withdraw", (old, 15, 2, *room), ("built", 15, 6, 3, withdrawn, withdrawn_tags)), stored)
        before, after = ([file[at + 2 : at + 10] for at in range(0, len(file), 10)] for file in (tags, added_tags))
        self.assertEqual([v for v in range(7) if before[v] == after[v]], list(range(6)))
        after = [withdrawn_tags[at + 2 : at + 10] for at in range(0, len(withdrawn_tags), 10)]
        self.assertEqual([v for v in range(6) if after[v] == before[v + (v >= 2)]], [])

    def test_the_revision_is_the_last_of_its_table(self):
        rows = table("revision", "date", "what changed", "a reader made to the revision before")
        self.assertEqual([int(row[0]) for row in rows], list(range(1, len(rows) + 1)))
        self.assertIn(f"\nRevision {rows[-1][0]}, {rows[-1][1]}\n", DOCUMENT)

    def test_every_question_has_words(self):
        words = {int(number): text for number, text in table("number", "words")}
        self.assertEqual(sorted(words), list(QUESTIONS))
        names = {name for row in table("name", "stands for") for name in re.findall(r"{(\w+)}", row[0])}
        used = {name for text in words.values() for name in re.findall(r"{(\w+)}", text)}
        self.assertEqual(used, names)

    def test_every_refusal_that_a_call_can_give_has_a_vector(self):
        """And no vector has another: the table of calls says which questions are asked, and of which input."""
        stands_for = {word: set(map(int, re.findall(r"(?<!window )\b\d+", text))) for word, text in table("word", "stands for")}
        questions = {int(row[0]): row for row in table("number", "question", "asked by", "input", "position")}
        self.assertEqual(list(questions), list(QUESTIONS))
        given = defaultdict(set)
        for vector in VECTORS:
            if vector.answer[0] == "refused":
                number, input, position = vector.answer[1:]
                given[vector.call].add((number, input))
                self.assertTrue(position == 0 or questions[number][4].startswith("the window's"), vector.where)
        self.assertEqual([row[0] for row in table("call", "takes", "answers", "asks")], list(CALLS))
        for call, _, _, asks in table("call", "takes", "answers", "asks"):
            due = set()
            for item in asks.split(", "):
                what, both = re.fullmatch(r"(\w+)( of both)?", item).groups()
                for number in stands_for.get(what) or {int(what)}:
                    inputs = (1,) if questions[number][3] == "1" else (0, 1) if both else (0,)
                    due |= {(number, input) for input in inputs}
            self.assertEqual(given[call], due, call)

    def test_every_answer_has_a_vector(self):
        given = {(vector.call, vector.answer[0]) for vector in VECTORS}
        self.assertEqual(given, {(call, answer) for call, (_, answers) in CALLS.items() for answer in answers})

    def test_it_stands_alone(self):
        texts = {"FORMAT.md": DOCUMENT, "README.md": (FOLDER / "README.md").read_text(encoding="utf-8")}
        for name, text in texts.items():
            self.assertEqual([line for line in text.split("\n") if len(line) > 130], [], name)
            self.assertIsNone(re.search(r"\./poddreshi|crates|tests/|examples/|\bgate\b|\brt\b|\.rt\b", text), name)

    def test_a_vector_with_a_slip_is_not_passed_over(self):
        for text in SLIPS:
            with self.assertRaises(Malformed, msg=text):
                parse_vector(text)


def catches():
    for reader in WRONG:
        vector = first_failed(reader())
        print(f"{reader.__name__}: {reader.mistake}")
        print(f"    {failure(reader(), vector)}" if vector else "    NO VECTOR CATCHES IT")


if __name__ == "__main__":
    if sys.argv[1:] == ["--catches"]:
        catches()
    else:
        unittest.main()
