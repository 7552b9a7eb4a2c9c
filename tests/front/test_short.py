"""Short tags: the calls, the command with --short, and what is said where one form of tags is given for the other."""
import csv
import io
import json
import random
import unittest

from support import EVEN, EXAMPLES, PLAN_12, SHORT_TAGS, TAGS_12, Case, line_plan, plan, random_windows, refusal

import poddreshi

COUNTS = [
    [0, 1, 1, 2, 2, 3, None, None],
    [1, 0, 1, 1, 2, 2, None, None],
    [1, 1, 0, 1, 1, 2, None, None],
    [2, 1, 1, 0, 1, 1, None, None],
    [2, 2, 1, 1, 0, 1, None, None],
    [3, 2, 2, 1, 1, 0, None, None],
    [None, None, None, None, None, None, 0, 1],
    [None, None, None, None, None, None, 1, 0],
]


def short_tag(at: int) -> bytes:
    return SHORT_TAGS[8 * at : 8 * at + 8]


def even_windows(generator: random.Random, count: int) -> list:
    """The windows of an even plan: offsets in order, and ends in order."""
    windows = random_windows(generator, count)
    ends = sorted(offset + length for offset, length in windows)
    return [(offset, end - offset) for (offset, _), end in zip(windows, ends)]


class Calls(unittest.TestCase):
    def test_the_example(self):
        self.assertEqual(poddreshi.short_tags(EVEN), (14, 8, 2, SHORT_TAGS))
        self.assertEqual(poddreshi.short_tags(plan()), (12, 0, 0, b""))
        self.assertEqual(poddreshi.short_read(short_tag(4)), (14, 0, 2, 3))
        self.assertEqual(poddreshi.short_write(14, 0, 2, 3), short_tag(4))
        self.assertEqual(b"".join(poddreshi.short_lookup(SHORT_TAGS, at) for at in range(8)), SHORT_TAGS)
        for first in range(8):
            pairs = [poddreshi.short_pair(short_tag(first), short_tag(second)).count for second in range(8)]
            self.assertEqual(pairs, COUNTS[first])
            pairs = [poddreshi.short_pair_at(SHORT_TAGS, first, second).count for second in range(8)]
            self.assertEqual(pairs, COUNTS[first])

    def test_text_forms(self):
        self.assertEqual(str(poddreshi.short_tags(EVEN)), "plan 14, 8 windows, 2 components")
        self.assertEqual(str(poddreshi.short_read(short_tag(4))), "plan 14, component 0, depth 2, rank 3")
        self.assertEqual(str(poddreshi.short_pair(short_tag(1), short_tag(4))), "2 handovers")
        self.assertEqual(str(poddreshi.short_pair_at(SHORT_TAGS, 5, 6)), "no chain")

    def test_even_plans_answer_as_their_tags_do(self):
        generator = random.Random(13)
        for count in (1, 2, 5, 9, 17, 33, 60):
            file = plan(*even_windows(generator, count))
            tags, short = poddreshi.tags(file).tags, poddreshi.short_tags(file).tags
            self.assertEqual(short, b"".join(tags[10 * at : 10 * at + 8] for at in range(count)))
            for first in range(count):
                for second in range(count):
                    due = poddreshi.pair_at(tags, first, second)
                    self.assertEqual(poddreshi.short_pair_at(short, first, second), due, (file.hex(), first, second))

    def test_the_largest_even_plan(self):
        short = poddreshi.short_tags(line_plan()).tags
        self.assertEqual(len(short), 8 * 2048)
        self.assertEqual(poddreshi.short_pair_at(short, 0, 2047).count, 2047)
        self.assertEqual(poddreshi.short_read(short[-8:]), (12, 0, 2047, 0))
        self.assertEqual(poddreshi.short_tags(plan(*[(5, 5)] * 2048)).components, 1)  # equal ends pass

    def test_bytes_of_every_kind(self):
        writable, backwards = (lambda data: memoryview(bytearray(data))), (lambda data: memoryview(data[::-1])[::-1])
        for kind in (bytes, bytearray, memoryview, writable, backwards):
            self.assertEqual(poddreshi.short_tags(kind(EVEN)).tags, SHORT_TAGS)
            self.assertEqual(poddreshi.short_pair(kind(short_tag(1)), kind(short_tag(4))).count, 2)
            self.assertEqual(poddreshi.short_pair_at(kind(SHORT_TAGS), 1, 4).count, 2)
            self.assertEqual(poddreshi.short_lookup(kind(SHORT_TAGS), 4), short_tag(4))
            self.assertEqual(poddreshi.short_read(kind(short_tag(4))), (14, 0, 2, 3))
            mixed = short_tag(0) + b"\x0d" + short_tag(0)[1:]
            self.assertEqual(refusal(poddreshi.short_pair_at, kind(mixed), 0, 1), (11, 1, 0))

    def test_refusals(self):
        high = bytes.fromhex("0e00000000080300")
        asked = {
            (1, 0, 0): (poddreshi.short_tags, b""),
            (2, 0, 0): (poddreshi.short_tags, b"\x0c\0\x01\x08\x01\0\0\0"),
            (14, 0, 0): (poddreshi.short_tags, plan((0, 9), (1, 1), minimum=0)),
            (3, 0, 0): (poddreshi.short_tags, EVEN + b"\0"),
            (5, 0, 0): (poddreshi.short_tags, plan((2**32 - 1, 6))),
            (4, 0, 2): (poddreshi.short_tags, plan((0, 9), (1, 1), (2, 0))),  # before 13, of which window 1 is at fault
            (6, 0, 2): (poddreshi.short_tags, plan((5, 9), (6, 1), (4, 9))),
            (13, 0, 1): (poddreshi.short_tags, PLAN_12),
            (13, 0, 3): (poddreshi.short_tags, plan((0, 9), (1, 8), (2, 9), (3, 7), (4, 5))),  # the later one, and the first
            (7, 0, 0): (poddreshi.short_pair_at, SHORT_TAGS, 8, 9),
            (7, 1, 0): (poddreshi.short_pair_at, SHORT_TAGS, 0, 2**64),
            (9, 0, 0): (poddreshi.short_pair_at, SHORT_TAGS[1:], 0, 9),
            (9, 1, 0): (poddreshi.short_pair, short_tag(0), TAGS_12[:10]),
            (10, 0, 0): (poddreshi.short_read, high),
            (10, 1, 0): (poddreshi.short_pair_at, short_tag(0) + high, 0, 1),
            (11, 1, 0): (poddreshi.short_pair, short_tag(0), b"\x0d" + short_tag(0)[1:]),
            (12, 1, 0): (poddreshi.short_pair, short_tag(0), short_tag(0)[:4] + b"\x01" + short_tag(0)[5:]),
        }
        self.assertEqual([refusal(*call) for call in asked.values()], list(asked))
        self.assertEqual(refusal(poddreshi.short_lookup, SHORT_TAGS, 8), (7, 0, 0))
        self.assertEqual(refusal(poddreshi.short_lookup, high, 0), (10, 0, 0))
        self.assertEqual(refusal(poddreshi.short_write, 12, 0, 2048, 0), (10, 0, 0))
        self.assertEqual(refusal(poddreshi.short_write, 65535, 2047, 2047, 2047), None)
        with self.assertRaises(ValueError):
            poddreshi.short_write(65536, 0, 0, 0)
        with self.assertRaises(ValueError):
            poddreshi.short_pair_at(SHORT_TAGS, -1, 0)


class Commands(Case):
    def setUp(self):
        super().setUp()
        self.plan = self.file("even.plan", EVEN)
        self.tags = self.file("even.tags", SHORT_TAGS)

    def text(self, *words, **options) -> str:
        return self.answers(*words, **options).decode()

    def rows(self, *words) -> list:
        return list(csv.reader(io.StringIO(self.text(*words, "--csv"))))

    def data(self, *words):
        return json.loads(self.answers(*words, "--json"))

    def test_the_example_is_made_of_its_text(self):
        self.assertEqual(self.answers("plan", 14, EXAMPLES / "even.txt"), EVEN)

    def test_tags(self):
        self.assertEqual(self.answers("tags", "--short", self.plan), SHORT_TAGS)
        self.assertEqual(self.answers("tags", "-", "--short", stdin=plan()), b"")
        self.answers("tags", "--short", self.plan, "-o", "new.tags")
        self.assertEqual((self.folder / "new.tags").read_bytes(), SHORT_TAGS)

    def test_tags_of_a_plan_that_is_not_even(self):
        old = self.folder / "old"
        old.write_bytes(b"as it was")
        words = "window 1 of the plan ends at 5 and the one before it at 10; short tags need ends that never fall"
        for where in ((), ("-o", old), ("--into", "cabinets")):
            self.says(1, f"refused by question 13: {words}", "tags", "--short", "-", *where, stdin=PLAN_12)
        self.assertEqual(old.read_bytes(), b"as it was")
        self.assertFalse((self.folder / "cabinets").exists())
        self.assertEqual(self.answers("tags", "-", stdin=PLAN_12), TAGS_12)

    def test_tags_into_a_folder(self):
        told = self.text("tags", "--short", self.plan, "--into", "cabinets")
        self.assertEqual(told, "plan 14, 8 windows, 2 components: a short tag for each in cabinets\n")
        files = sorted((self.folder / "cabinets").iterdir())
        self.assertEqual([path.name for path in files], [f"{v:04}.tag" for v in range(8)])
        self.assertEqual([path.read_bytes() for path in files], [short_tag(at) for at in range(8)])
        self.assertEqual(self.text("count", "--short", files[1], files[4]), "2 handovers\n")
        self.fails(2, "tags", "--short", self.plan, "--into", "other", "-o", "file")

    def test_tag_and_explain(self):
        self.assertEqual(self.answers("tag", "--short", self.tags, 4), short_tag(4))
        told = "plan number  14\ncomponent     0\ndepth         2\nrank          3\n"
        self.assertEqual(self.text("explain", "--short", self.tags, 4), told)
        self.assertEqual(self.text("explain", "--short", "-", stdin=short_tag(4)), told)
        self.assertEqual(self.data("explain", "--short", self.tags, 4), {"plan": 14, "component": 0, "depth": 2, "rank": 3})
        rows = [["plan", "component", "depth", "rank"], ["14", "0", "2", "3"]]
        self.assertEqual(self.rows("explain", "--short", self.tags, 4), rows)

    def test_count(self):
        self.assertEqual(self.text("count", "--short", self.tags, 1, 4), "2 handovers\n")
        self.assertEqual(self.text("count", self.tags, 5, 6, "--short"), "no chain\n")
        first = self.file("1.tag", short_tag(1))
        self.assertEqual(self.text("count", "--short", first, "-", stdin=short_tag(4)), "2 handovers\n")
        self.assertEqual(self.data("count", "--short", self.tags, 1, 4), {"first": 1, "second": 4, "handovers": 2})
        self.assertEqual(self.rows("count", "--short", self.tags, 1, 6)[1], ["1", "6", "no chain"])
        self.assertEqual(self.run_front("count", "--short", self.tags, 1, 6, "--exit-code").returncode, 4)

    def test_count_all(self):
        counts = ["1 handover", "0 handovers", "1 handover", "1 handover", "2 handovers", "2 handovers", "no chain", "no chain"]
        told = "".join(f"{at}  {words}\n" for at, words in enumerate(counts))
        self.assertEqual(self.text("count", "--short", self.tags, 1, "--all"), told)
        counts = self.data("count", "--short", self.tags, 1, "--all")["counts"]
        self.assertEqual([row["handovers"] for row in counts], COUNTS[1])
        rows = self.rows("count", "--short", self.tags, 6, "--all")
        self.assertEqual([row[2] for row in rows[1:]], ["no chain"] * 6 + ["0", "1"])

    def test_the_largest_even_plan(self):
        tags = self.file("long.tags", self.answers("tags", "--short", "-", stdin=line_plan()))
        self.assertEqual(self.text("count", "--short", tags, 0, 2047), "2,047 handovers\n")
        rows = self.rows("count", "--short", tags, 2047, "--all")
        self.assertEqual([row[2] for row in rows[1:]], [str(2047 - at) for at in range(2048)])

    def test_from_a_text_to_the_answer_and_back(self):
        """A planner's text, its plan, its short tags in cabinets, and what two of them answer is what the plan does."""
        windows = even_windows(random.Random(8), 40)
        text = self.file("plan.txt", "".join(f"{offset} {length}\n" for offset, length in windows))
        self.answers("plan", 9, text, "-o", "9.plan")
        self.answers("tags", "--short", "9.plan", "--into", "cabinets")
        self.answers("tags", "--short", "9.plan", "-o", "9.tags")
        joined = b"".join(path.read_bytes() for path in sorted((self.folder / "cabinets").iterdir()))
        self.assertEqual(joined, (self.folder / "9.tags").read_bytes())
        for at in range(40):
            numbers = poddreshi.short_read(joined[8 * at : 8 * at + 8])
            self.assertEqual(poddreshi.short_write(*numbers), joined[8 * at : 8 * at + 8])
        file = (self.folder / "9.plan").read_bytes()
        for first, second in ((0, 39), (39, 0), (3, 17), (20, 21), (11, 11)):
            told = self.text("count", "--short", f"cabinets/{first:04}.tag", f"cabinets/{second:04}.tag")
            self.assertEqual(told, f"{poddreshi.chain(file, first, second).handovers}\n")


class MixedUp(Case):
    """One form of tags given for the other: one line that says what was expected, and what to do."""

    def setUp(self):
        super().setUp()
        self.long, self.short = self.file("long.tag", TAGS_12[:10]), self.file("short.tag", short_tag(0))
        self.long_tags, self.short_tags = self.file("12.tags", TAGS_12), self.file("even.tags", SHORT_TAGS)

    def refused(self, words: str, *command, **options):
        self.says(1, f"refused by question {words}", *command, **options)

    def test_two_tags(self):
        words = "9: the first tag has 10 bytes; a short tag has 8 (10 bytes may be 1 tag: leave out --short)"
        self.refused(words, "count", "--short", self.long, self.long)
        words = "9: the first tag has 8 bytes; a tag has 10 (8 bytes may be 1 short tag: add --short)"
        self.refused(words, "count", self.short, self.short)

    def test_one_of_each(self):
        both = "(one may be a short tag and the other not: a pair takes two of one form)"
        for options, wanted in {(): "a tag has 10", ("--short",): "a short tag has 8"}.items():
            fault, length = (self.long, 10) if options else (self.short, 8)
            for pair in ((self.short, self.long), (self.long, self.short)):
                which = "first" if pair[0] == fault else "second"
                self.refused(f"9: the {which} tag has {length} bytes; {wanted} {both}", "count", *pair, *options)

    def test_one_tag(self):
        words = "9: the tag has 10 bytes; a short tag has 8 (10 bytes may be 1 tag: leave out --short)"
        self.refused(words, "explain", "--short", self.long)
        words = "9: the tag has 8 bytes; a tag has 10 (8 bytes may be 1 short tag: add --short)"
        self.refused(words, "explain", self.short)

    def test_tag_files(self):
        words = "9: the tag file has 70 bytes; a short tag file has a multiple of 8 (70 bytes may be 7 tags: leave out --short)"
        for command in (("count", 0, 1), ("count", 0, "--all"), ("tag", 0), ("explain", 0)):
            self.refused(words, command[0], "--short", self.long_tags, *command[1:])
        words = "9: the tag file has 64 bytes; a tag file has a multiple of 10 (64 bytes may be 8 short tags: add --short)"
        for command in (("count", 0, 1), ("count", 0, "--all"), ("tag", 0), ("explain", 0)):
            self.refused(words, command[0], self.short_tags, *command[1:])

    def test_tag_files_whose_length_both_forms_have(self):
        """Then 9 is answered "yes", and where another question refuses the other form is named too."""
        words = "11: the first tag is of plan 4 and the second of plan 2 (80 bytes may be 8 tags: leave out --short)"
        self.refused(words, "count", "--short", "-", 1, 2, stdin=poddreshi.tags(EVEN).tags)
        ten = poddreshi.short_tags(line_plan(10)).tags
        words = "7: there is no window 9: the tag file has 8 tags, 0 to 7 (80 bytes may be 10 short tags: add --short)"
        for command in (("count", "-", 0, 9), ("tag", "-", 9), ("explain", "-", 9)):
            self.refused(words, *command, stdin=ten)

    def test_no_hint_where_neither_form_fits(self):
        self.refused("9: the tag has 9 bytes; a short tag has 8", "explain", "--short", "-", stdin=bytes(9))
        self.refused("9: the tag has no bytes; a short tag has 8", "explain", "--short", "-")
        self.refused("9: the tag has more than 10 bytes; a short tag has 8", "explain", "--short", "-", stdin=TAGS_12)
        words = "9: the tag file has 63 bytes; a short tag file has a multiple of 8"
        self.refused(words, "tag", "--short", "-", 0, stdin=bytes(63))
        self.refused("7: there is no window 0: the tag file has no short tags", "tag", "--short", "-", 0)
        self.refused("7: there is no window 8: the tag file has 8 short tags, 0 to 7", "count", "--short", self.short_tags, 8, 0)

    def test_words_for_short_tags(self):
        """They say eight bytes, and nothing of the rank of the last."""
        for other, words in {
            "0e00000801000300": "10: the second tag has component 2,048; each is at most 2,047",
            "0e00000000080a10": "10: the second tag has depth 2,048 and rank 4,106; each is at most 2,047",
            "0d00000000000500": "11: the first tag is of plan 14 and the second of plan 13",
            "0e00000001000500": "12: the two tags have component 0 and rank 5 alike and differ elsewhere, "
            "so they are not both of one plan",
        }.items():
            self.refused(words, "count", "--short", self.short, "-", stdin=bytes.fromhex(other))
            self.refused(words, "count", "--short", "-", 0, 1, stdin=short_tag(0) + bytes.fromhex(other))
        high = bytes.fromhex("0e00000801000300")
        words = "10: the tag has component 2,048; each is at most 2,047"
        for command in (("explain", "-"), ("explain", "-", 0), ("tag", "-", 0), ("count", "-", 0, "--all")):
            self.refused(words, *command, "--short", stdin=high)

    def test_an_input_that_is_too_long(self):
        about = "standard input: is longer than 524,280 bytes, so it is no short tag file"
        self.fails(3, "count", "--short", "-", 0, 0, stdin=bytes(524_288), about=about)


if __name__ == "__main__":
    unittest.main()
