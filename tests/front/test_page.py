"""A page of pairs: the call, and the command that reads pairs and answers each in its place."""
import csv
import io
import json
import os
import random
import unittest

from support import EXAMPLES, FRONT, SHORT_TAGS, TAGS_12, Case, OldFile, at_most, line_plan, plan, random_windows, refusal

import poddreshi

HIGH = bytes.fromhex("0c000000000803000200")  # a depth of 2,048
OTHER_PLAN = b"\x0d" + TAGS_12[1:10]
OTHER_LAST = TAGS_12[:8] + b"\x03\x00"  # component and rank of window 0, and another last
MIXED = TAGS_12[:10] + HIGH + TAGS_12[20:30] + OTHER_PLAN + OTHER_LAST
PAIRS = """\
# first and second
1 5
  5\t6       # no chain

0 7
7 8
6 6
"""
ANSWERS = """\
1  5  3 handovers
5  6  no chain
0  7  refused by question 7: there is no window 7: the tag file has 7 tags, 0 to 6
7  8  refused by question 7: there is no window 7: the tag file has 7 tags, 0 to 6
6  6  0 handovers
"""


def alone(tags, first, second):
    """What pair_at says of one pair: an answer, or the numbers and words of a refusal."""
    try:
        return poddreshi.pair_at(tags, first, second)
    except poddreshi.Refused as no:
        return no.args


def plain(answer):
    return answer.args if isinstance(answer, poddreshi.Refused) else answer


def told_by(cell: str) -> str:
    """A cell of CSV: a count, or `by` and the number of the question that refused."""
    return cell.split(":")[0].replace("refused by question", "by")


class Calls(unittest.TestCase):
    def as_alone(self, tags, pairs):
        self.assertEqual([plain(answer) for answer in poddreshi.page(tags, pairs)], [alone(tags, *pair) for pair in pairs])

    def test_plan_12(self):
        answers = poddreshi.page(TAGS_12, [(5, at) for at in range(7)])
        self.assertEqual([answer.count for answer in answers], [3, 3, 2, 3, 1, 0, None])
        self.assertTrue(all(isinstance(answer, poddreshi.Handovers) for answer in answers))
        self.assertEqual([str(answer) for answer in answers[4:]], ["1 handover", "0 handovers", "no chain"])

    def test_refused_records_between_good_ones(self):
        pairs = [(0, 2), (0, 1), (1, 0), (2, 0), (0, 3), (3, 0), (0, 0), (0, 4), (5, 9), (0, 5), (1, 5), (2, 2)]
        answers = poddreshi.page(MIXED, pairs)
        refused = [(no.number, no.input, no.position) for no in answers if isinstance(no, poddreshi.Refused)]
        due = [(10, 1, 0), (10, 0, 0), (11, 1, 0), (11, 1, 0), (12, 1, 0), (7, 0, 0), (7, 1, 0), (7, 1, 0)]
        self.assertEqual(refused, due)
        self.assertEqual([answer.count for answer in answers if not isinstance(answer, poddreshi.Refused)], [1, 1, 0, 0])
        self.as_alone(MIXED, pairs)

    def test_the_words_of_refused_records(self):
        answers = poddreshi.page(MIXED, [(0, 1), (0, 3), (0, 4), (1_000, 0), (0, 2**64)])
        holder = "the tag file has 5 tags, 0 to 4"
        self.assertEqual(
            [str(no) for no in answers],
            [
                "refused by question 10: the second tag has depth 2,048; each is at most 2,047",
                "refused by question 11: the first tag is of plan 12 and the second of plan 13",
                "refused by question 12: the two tags have component 0 and rank 5 alike and differ elsewhere, "
                "so they are not both of one plan",
                f"refused by question 7: there is no window 1,000: {holder}",
                f"refused by question 7: there is no window {2**64:,}: {holder}",
            ],
        )

    def test_a_tag_file_of_wrong_length_is_refused_whole(self):
        for tags in (TAGS_12[1:], TAGS_12 + b"\0", b"\0"):
            for pairs in ([], [(0, 1)], [(0, 99)]):
                self.assertEqual(refusal(poddreshi.page, tags, pairs), (9, 0, 0))
        with self.assertRaisesRegex(poddreshi.Refused, "the tag file has 69 bytes; a tag file has a multiple of 10"):
            poddreshi.page(TAGS_12[1:], [])

    def test_no_pairs_and_no_tags(self):
        self.assertEqual(poddreshi.page(TAGS_12, []), [])
        self.assertEqual(poddreshi.page(b"", []), [])
        (no,) = poddreshi.page(b"", [(0, 0)])
        self.assertEqual((no.number, no.input, no.position), (7, 0, 0))
        self.assertEqual(no.words, "there is no window 0: the tag file has no tags")

    def test_positions_of_any_size(self):
        far = (7, 2**16, 2**32, 2**63, 2**64 - 1, 2**64, 10**30)
        self.as_alone(TAGS_12, [(at, 0) for at in far] + [(0, at) for at in far] + [(at, at) for at in far])
        answers = poddreshi.page(TAGS_12, [(4, 5), (2**64, 5), (4, 5)])
        self.assertEqual((answers[0].count, answers[1].number, answers[2].count), (1, 7, 1))
        for pair in ((-1, 0), (0, -1), (2**64, -1)):
            with self.assertRaisesRegex(ValueError, "a position is a number from 0"):
                poddreshi.page(TAGS_12, [(0, 0), pair])

    def test_pairs_of_every_kind(self):
        due = [poddreshi.Handovers(1), poddreshi.Handovers(None)]
        for pairs in ([(4, 5), (5, 6)], ([4, 5], [5, 6]), iter([(4, 5), (5, 6)]), {4: 5, 5: 6}.items(), zip((4, 5), (5, 6))):
            self.assertEqual(poddreshi.page(TAGS_12, pairs), due)
        for wrong in ([(1, 2, 3), (4,)], [(1,)], [()], [(1, 2), (1, 2, 3)]):
            with self.assertRaises(ValueError):
                poddreshi.page(TAGS_12, wrong)
        for wrong in ([(1.5, 2)], [("1", "2")], [1, 2], [(None, 1)]):
            with self.assertRaises(TypeError):
                poddreshi.page(TAGS_12, wrong)

    def test_bytes_of_every_kind(self):
        writable, backwards = (lambda data: memoryview(bytearray(data))), (lambda data: memoryview(data[::-1])[::-1])
        for kind in (bytes, bytearray, memoryview, writable, backwards):
            answer, no = poddreshi.page(kind(MIXED), [(0, 2), (0, 3)])
            self.assertEqual((answer.count, no.words), (1, "the first tag is of plan 12 and the second of plan 13"))

    def test_a_tag_file_longer_than_a_plan(self):
        tags = TAGS_12[:10] * 65_534 + TAGS_12[50:60]
        answers = poddreshi.page(tags, [(0, 65_534), (65_533, 65_532), (65_535, 0), (2_048, 65_534)])
        self.assertEqual([plain(answer)[0] for answer in answers], [3, 0, 7, 3])

    def test_every_pair_of_some_plans(self):
        generator = random.Random(4)
        for count in (1, 2, 7, 20, 45):
            tags = poddreshi.tags(plan(*random_windows(generator, count))).tags
            self.as_alone(tags, [(first, second) for first in range(count + 1) for second in range(count + 1)])

    def test_the_largest_plan(self):
        tags = poddreshi.tags(line_plan()).tags
        answers = poddreshi.page(tags, [(0, at) for at in range(2048)])
        self.assertEqual([answer.count for answer in answers], list(range(2048)))
        # The greatest count of all: of two tags that stand together in no plan.
        greatest = bytes.fromhex("ffffff07ff07ff07ff07" "ffffff07000000000000")
        self.assertEqual(poddreshi.page(greatest, [(0, 1)])[0].count, 2049)

    def test_any_tags_at_all(self):
        generator = random.Random(17)
        small = [0, 1, 2, 3, 2047, 2048]
        for _ in range(30):
            numbers = [generator.choice(small) for _ in range(5 * 8)]
            tags = b"".join(number.to_bytes(2, "little") for number in numbers)
            self.as_alone(tags, [(first, second) for first in range(9) for second in range(9)])


class Commands(Case):
    def setUp(self):
        super().setUp()
        self.tags = self.file("12.tags", TAGS_12)
        self.pairs = self.file("pairs.txt", PAIRS)

    def text(self, *words, **options) -> str:
        return self.answers("page", *words, **options).decode()

    def rows(self, *words, **options) -> list:
        return list(csv.reader(io.StringIO(self.text(*words, "--csv", **options))))

    def data(self, *words, **options) -> list:
        data = json.loads(self.text(*words, "--json", **options))
        self.assertEqual(list(data), ["pairs"])
        return data["pairs"]

    def test_text(self):
        self.assertEqual(self.text(self.tags, self.pairs), ANSWERS)

    def test_csv(self):
        rows = self.rows(self.tags, self.pairs)
        self.assertEqual(rows[:3], [["first", "second", "handovers"], ["1", "5", "3"], ["5", "6", "no chain"]])
        words = "refused by question 7: there is no window 7: the tag file has 7 tags, 0 to 6"
        self.assertEqual(rows[3:], [["0", "7", words], ["7", "8", words], ["6", "6", "0"]])

    def test_json(self):
        refused = {"refused": 7, "words": "there is no window 7: the tag file has 7 tags, 0 to 6"}
        self.assertEqual(
            self.data(self.tags, self.pairs),
            [
                {"first": 1, "second": 5, "handovers": 3},
                {"first": 5, "second": 6, "handovers": None},
                {"first": 0, "second": 7, **refused},
                {"first": 7, "second": 8, **refused},
                {"first": 6, "second": 6, "handovers": 0},
            ],
        )

    def test_standard_input(self):
        for where in ((), ("-",)):
            self.assertEqual(self.text(self.tags, *where, stdin=PAIRS.encode()), ANSWERS)
        self.assertEqual(self.text("-", self.pairs, stdin=TAGS_12), ANSWERS)
        for where in ((), ("-",)):
            self.fails(2, "page", "-", *where, about="standard input can be one input and not two")
        self.assertEqual(self.text("-", "--all", stdin=TAGS_12[:10]), "0  0  0 handovers\n")

    def test_columns_stand_below_one_another(self):
        told = self.text(self.tags, stdin=b"0 5\n5 1000\n")
        self.assertTrue(told.startswith("0     5  3 handovers\n5  1000  refused by question 7: there is no window 1,000:"))

    def test_pairs_as_csv(self):
        due = "1  5  3 handovers\n5  6  no chain\n"
        for text in (
            "first,second\n1,5\n5,6\n",
            "# of plan 12\nFirst;Second\n1;5\n\n5; 6\n",
            "second\tname\tfirst\n5\tNorth pier\t1\n6\t\t5\n",
            "\ufefffirst,second,handovers\r\n1,5,3\r\n5,6,no chain\r\n",
        ):
            self.assertEqual(self.text(self.tags, stdin=text.encode()), due, text)
        # What page and count --all write is such a list.
        again = self.answers("page", self.tags, self.pairs, "--csv")
        self.assertEqual(self.text(self.tags, stdin=again), ANSWERS)
        row = self.answers("count", self.tags, 5, "--all", "--csv")
        self.assertEqual(self.answers("page", self.tags, "--csv", stdin=row), row)

    def test_lines_that_are_wrong_are_named_and_nothing_is_answered(self):
        text = b"1 5\n1\n1 2 3\n-1 2\n1 x\n1,5\n1.5 2\n\xff 1\n" + "1 ٣\n".encode() + b"2 " + 21 * b"9" + b"\n5 6\n"
        line = "a line has two positions and nothing more"
        said = [
            f"line 2: {line}",
            f"line 3: {line}",
            'line 4: a position is a number from 0, not "-1"',
            'line 5: a position is a number from 0, not "x"',
            f"line 6: {line}; CSV begins with a line first,second",
            'line 7: a position is a number from 0, not "1.5"',
            "line 8: is no text in UTF-8",
            'line 9: a position is a number from 0, not "٣"',
            f'line 10: a position is a number from 0, not "{21 * "9"}"',
        ]
        for form in ((), ("--csv",), ("--json",)):
            error = "\n".join(f"standard input, {each}" for each in said)
            self.says(1, error, "page", self.tags, *form, stdin=text)
        name = self.file("bad.txt", "1 5\n1\n")
        self.says(1, f"{name}, line 2: {line}", "page", self.tags, name)
        self.says(1, f"standard input, line 2: {line}", "page", self.tags, stdin=b"first,second\n1\n")

    def test_no_pairs(self):
        for text in (b"", b"\n\n", b"# none\n"):
            self.assertEqual(self.text(self.tags, stdin=text), "")
        self.assertEqual(self.rows(self.tags), [["first", "second", "handovers"]])
        self.assertEqual(self.rows(self.tags, stdin=b"first,second\n"), [["first", "second", "handovers"]])
        self.assertEqual(self.data(self.tags), [])

    def test_no_tags(self):
        empty = self.file("empty.tags", b"")
        told = "0  0  refused by question 7: there is no window 0: the tag file has no tags\n"
        self.assertEqual(self.text(empty, stdin=b"0 0\n"), told)
        self.assertEqual(self.text(empty, "--all"), "")
        self.assertEqual(self.data(empty, "--all"), [])

    def test_a_tag_file_of_wrong_length(self):
        words = "refused by question 9: the tag file has 69 bytes; a tag file has a multiple of 10"
        none, bad = self.file("none", ""), self.file("bad", "x")
        for rest in ((self.pairs,), ("--all",), ("--all", "--csv"), (none, "--json"), (bad,)):
            self.says(1, words, "page", "-", *rest, stdin=TAGS_12[1:])
        words = "refused by question 9: the tag file has 64 bytes; a tag file has a multiple of 10 "
        self.says(1, words + "(64 bytes may be 8 short tags: a page takes none)", "page", "-", "--all", stdin=SHORT_TAGS)
        self.fails(3, "page", "-", "--all", stdin=bytes(655_351), about="standard input: is longer than 655,350 bytes")

    def test_records_that_are_refused_spoil_no_other(self):
        mixed = self.file("mixed.tags", MIXED)
        rows = self.rows(mixed, stdin=b"0 2\n0 1\n0 3\n0 4\n18446744073709551615 0\n2 0\n")[1:]
        self.assertEqual([told_by(cell) for *_, cell in rows], ["1", "by 10", "by 11", "by 12", "by 7", "1"])
        self.assertTrue(rows[4][2].endswith(f"there is no window {2**64 - 1:,}: the tag file has 5 tags, 0 to 4"))

    def test_positions_up_to_20_digits(self):
        for at in (7, 2**32, 2**64 - 1, 2**64, 10**20 - 1):
            (row,) = self.data(self.tags, stdin=f"0 {at}\n".encode())
            self.assertEqual((row["second"], row["refused"]), (at, 7))
            self.assertIn(f"no window {at:,}:", row["words"])

    def test_all(self):
        due = [["first", "second", "handovers"]]
        for first in range(7):
            row = self.answers("count", self.tags, first, "--all", "--csv").decode()
            due += list(csv.reader(io.StringIO(row)))[1:]
        self.assertEqual(self.rows(self.tags, "--all"), due)
        told = self.text(self.tags, "--all").splitlines()
        self.assertEqual((len(told), told[12], told[48]), (49, "1  5  3 handovers", "6  6  0 handovers"))
        pairs = [(row["first"], row["second"]) for row in self.data(self.tags, "--all")]
        self.assertEqual(pairs, [divmod(at, 7) for at in range(49)])

    def test_all_of_the_tags_that_are_refused(self):
        rows = self.rows(self.file("mixed.tags", MIXED), "--all")[1:]
        due = ["0 10 1 11 12", "10 10 10 10 10", "1 10 0 11 1", "11 10 11 0 11", "12 10 1 11 0"]
        self.assertEqual([told_by(cell).replace("by ", "") for *_, cell in rows], " ".join(due).split())

    def test_all_of_many_pages(self):
        tags = poddreshi.tags(line_plan(131)).tags  # 17,161 pairs
        name = self.file("131.tags", tags)
        due = [(first, second, abs(first - second)) for first in range(131) for second in range(131)]
        self.assertEqual([tuple(map(int, row)) for row in self.rows(name, "--all")[1:]], due)
        self.assertEqual([tuple(row.values()) for row in self.data(name, "--all")], due)
        lines = self.text(name, "--all").splitlines()
        self.assertEqual([tuple(int(word) for word in line.split()[:3]) for line in lines], due)
        pairs = "".join(f"{first} {second}\n" for first, second, _ in due)
        self.assertEqual(self.text(name, stdin=pairs.encode()).splitlines(), lines)

    def test_the_example(self):
        year = poddreshi.tags(self.answers("plan", 40, EXAMPLES / "year.txt", "--origin", "2026-01-01")).tags
        rows = self.rows(self.file("year.tags", year), EXAMPLES / "pairs.txt")[1:]
        self.assertEqual([told_by(cell) for *_, cell in rows], ["2", "3", "no chain", "2", "by 7"])

    def test_exit_code(self):
        apart, joined, refused = b"5 6\n", b"1 5\n", b"1 9\n"
        for text, status in ((apart, 4), (joined, 0), (refused, 0), (joined + apart + refused, 4), (b"", 0)):
            self.assertEqual(self.run_front("page", self.tags, stdin=text).returncode, 0)
            for form in ((), ("--csv",), ("--json",)):
                done = self.run_front("page", self.tags, "--exit-code", *form, stdin=text)
                self.assertEqual((done.returncode, done.stderr), (status, b""))
        self.assertEqual(self.run_front("page", self.tags, "--all", "--exit-code").returncode, 4)
        joined = self.file("joined.tags", TAGS_12[:60])
        self.assertEqual(self.run_front("page", joined, "--all", "--exit-code").returncode, 0)

    def test_mistaken_commands(self):
        for words in (
            (),
            (self.tags, self.pairs, "--all"),
            (self.tags, "-", "--all"),
            (self.tags, "1", "5"),
            (self.tags, "--short"),
            (self.tags, "--csv", "--json"),
            ("-", "-"),
        ):
            self.fails(2, "page", *words, about="poddreshi: ")
        self.fails(2, "page", self.tags, self.pairs, "--all", about="page takes a list of pairs or --all, not both")

    def test_inputs_that_fail(self):
        self.fails(3, "page", "nowhere.tags", self.pairs, about="nowhere.tags: no such file or directory")
        self.fails(3, "page", self.tags, "nowhere.txt", about="nowhere.txt: no such file or directory")
        self.fails(3, "page", self.tags, "", about="a file with no name: no such file or directory")
        about = "standard input: is longer than 1,048,576 bytes, so it is no list of pairs"
        self.fails(3, "page", self.tags, stdin=b"1 5\n" * 300_000, about=about)
        for words in (("page", self.tags, "-"), ("page", "-", "--all"), ("page", "-", self.pairs)):
            with open("/dev/zero", "rb") as endless:
                self.assertEqual(self.run_front(*words, stdin_file=endless).returncode, 3)


class Outputs(OldFile):
    """Whole or not there in a file; on a pipe as far as it is read. The table has many pages."""

    def setUp(self):
        super().setUp()
        self.tags = self.file("line.tags", poddreshi.tags(line_plan(200)).tags)

    def test_a_file_is_replaced_when_all_is_there(self):
        for form in ((), ("--csv",), ("--json",)):
            self.assertEqual(self.answers("page", self.tags, "--all", *form, "-o", "old"), b"")
            self.assertEqual(self.old.read_bytes(), self.answers("page", self.tags, "--all", *form))
        self.assertEqual(self.answers("page", self.tags, "-o", "/dev/stdout", stdin=b"0 9\n"), b"0  9  9 handovers\n")
        self.answers("page", self.tags, "-o", "line.tags", stdin=b"0 9\n")  # over its own input
        self.assertEqual((self.folder / "line.tags").read_bytes(), b"0  9  9 handovers\n")

    def test_the_old_file_stays(self):
        for length in (20, 300_000):
            self.fails(3, "page", self.tags, "--all", "-o", "old", preexec_fn=at_most(length), about="old: file too large")
            self.unchanged("line.tags")
        self.fails(1, "page", self.tags, "-o", "old", stdin=b"1\n")
        self.fails(1, "page", "-", "--all", "-o", "old", stdin=b"\0")
        self.unchanged("line.tags")

    def test_a_full_disk_and_closed_streams(self):
        with open("/dev/full", "wb") as full:
            self.fails(3, "page", self.tags, "--all", stdout=full, about="standard output: no space left on device")
        done = self.run_front("page", self.tags, "--all", front=FRONT, preexec_fn=lambda: os.close(1))
        self.assertEqual((done.returncode, done.stderr), (3, b"poddreshi: standard output: bad file descriptor\n"))
        closed = {"front": FRONT, "preexec_fn": lambda: os.close(0)}
        self.fails(3, "page", self.tags, about="standard input: bad file descriptor", **closed)

    def test_a_pipe_that_is_closed(self):
        reading, writing = os.pipe()
        os.close(reading)
        for form in ((), ("--csv",), ("--json",)):
            self.fails(3, "page", self.tags, "--all", *form, stdout=writing, about="standard output: broken pipe")
        os.close(writing)

    def test_a_pipe_that_is_closed_after_the_first_lines(self):
        """Of a table that would take hours, the first lines come at once."""
        self.file("many.tags", TAGS_12[:10] * 65_535)
        script = f"'{FRONT}' page many.tags --all | head -n 2"
        done = self.run_front("-c", script, front="/bin/sh")
        lines = [f"    0  {second:5}  0 handovers\n" for second in range(2)]
        self.assertEqual(done.stdout.decode(), "".join(lines))
        self.assertEqual(done.stderr, b"poddreshi: standard output: broken pipe\n")


if __name__ == "__main__":
    unittest.main()
