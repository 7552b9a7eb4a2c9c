"""A window added to a plan, or withdrawn: from Python and C, and by the command, with the tags and what became of them."""
import ctypes
import itertools
import json
import os
import random
import subprocess
import unittest
from unittest import mock

from support import BOLTING, END_LIMIT, EXAMPLES, FRONT, NAMED, PLAN_12, PLAN_31, REFUSED_PLANS, TAGS_12, Case, Forms, OldFile, at_most, line_plan
from support import needs_modes, obey_modes, plan, random_windows, refusal

import poddreshi
from poddreshi import files, library, wording
from poddreshi.failures import Failure

WINDOWS_12 = ((0, 10), (2, 3), (4, 12), (9, 2), (12, 6), (17, 1), (18, 4))
ADDED_13 = plan(*WINDOWS_12, (20, 5), number=13)  # it overlaps window 6, which was alone
ADDED_TAGS = b"".join(
    bytes.fromhex("0d00") + TAGS_12[at + 2 : at + 10] for at in range(0, 60, 10)
) + bytes.fromhex("0d000100000001000000" "0d000100010000000000")
ADDED_TOLD = "plan 13, 8 windows, 2 components: window 7 added; tags changed in more than the plan number: 6, 7\n"
WITHOUT_3 = plan(*WINDOWS_12[:3], *WINDOWS_12[4:], number=13)


def due(file: bytes, number: int, add=None, withdraw=None) -> tuple:
    """What a change should give, by the request's words: the file, its tags as build has them, for each window where it was, and the
    positions whose tags are not what the same window's were. Each window goes by its old position, whatever its new one is."""
    windows = list(enumerate(poddreshi.windows_of(file)))
    if add is not None:
        behind = [each for each in windows if each[1].offset <= add[0]]
        windows = behind + [(None, add)] + windows[len(behind) :]
    else:
        windows = [each for each in windows if each[0] != withdraw]
    made = plan(*(window for _, window in windows), number=number, minimum=poddreshi.minimum_of(file))
    before, after = ([tags[at + 2 : at + 10] for at in range(0, len(tags), 10)] for tags in map(tags_of, (file, made)))
    was = tuple(old for old, _ in windows)
    altered = tuple(at for at, old in enumerate(was) if old is None or before[old] != after[at])
    return made, tags_of(made), was, altered


def tags_of(file: bytes) -> bytes:
    return poddreshi.build(file).tags


def told(changed: poddreshi.Changed) -> tuple:
    return changed.file, changed.tags, changed.was, changed.altered


def overlap(one, other, minimum: int) -> bool:
    return min(one[0] + one[1], other[0] + other[1]) - max(one[0], other[0]) >= minimum


def some_plans(cases: int):
    """Plans with few and many windows that begin together, with gaps and without, and a window to add to each."""
    generator = random.Random(6)
    for case in range(cases):
        span, longest, minimum = generator.choice([8, 60, 400]), generator.choice([12, 90]), generator.choice([1, 5])
        windows = random_windows(generator, generator.randrange(30), span, longest)
        file = plan(*((offset, length + minimum) for offset, length in windows), minimum=minimum)
        yield file, (generator.randrange(span + 50), generator.randrange(minimum, longest))


class Package(unittest.TestCase):
    def test_plan_12_with_a_window_more(self):
        changed = poddreshi.add(PLAN_12, 13, 20, 5)
        self.assertEqual(changed[:3], (13, 8, 2))
        self.assertEqual(changed.file, ADDED_13)
        self.assertEqual(changed.tags, ADDED_TAGS)
        self.assertEqual(changed.was, (0, 1, 2, 3, 4, 5, 6, None))
        self.assertEqual(changed.altered, (6, 7))
        self.assertEqual(str(changed), "plan 13, 8 windows, 2 components")

    def test_plan_12_with_a_window_less(self):
        for at, components, altered in ((3, 2, (0,)), (6, 1, ()), (2, 3, (0, 1, 2, 3, 4, 5))):
            changed = poddreshi.withdraw(PLAN_12, 13, at)
            self.assertEqual(changed[:3], (13, 6, components))
            self.assertEqual(changed.file, plan(*WINDOWS_12[:at], *WINDOWS_12[at + 1 :], number=13))
            self.assertEqual(changed.was, tuple(old for old in range(7) if old != at))
            self.assertEqual(changed.altered, altered)
        self.assertEqual(poddreshi.withdraw(PLAN_12, 13, 3).tags[:10].hex(), "0d000000000004000300")

    def test_behind_all_with_the_same_offset_or_a_smaller_one(self):
        file = plan((5, 5), (5, 7), (9, 5))
        for window, at in (((0, 1), 0), ((4, 9), 0), ((5, 1), 2), ((5, 5), 2), ((5, 7), 2), ((8, 2), 2), ((9, 5), 3), ((10, 1), 3)):
            changed = poddreshi.add(file, 13, *window)
            self.assertEqual(poddreshi.windows_of(changed.file)[at], window)
            self.assertEqual(changed.was.index(None), at)
            self.assertIn(at, changed.altered)

    def test_the_minimum_stays(self):
        changed = poddreshi.add(BOLTING, 22, 130, 30)
        self.assertEqual(poddreshi.minimum_of(changed.file), 30)
        self.assertEqual(poddreshi.neighbours(changed.file, 4).positions, ())  # it shares twenty minutes with window 3
        self.assertEqual(poddreshi.neighbours(poddreshi.add(BOLTING, 22, 120, 30).file, 4).positions, (3,))

    def test_from_no_windows_and_to_none(self):
        one = poddreshi.add(plan(minimum=9), 65_535, 7, 9)
        self.assertEqual(one, (65_535, 1, 1, plan((7, 9), number=65_535, minimum=9), b"\xff\xff" + bytes(8), (None,), (0,)))
        none = poddreshi.withdraw(one.file, 0, 0)
        self.assertEqual(none, (0, 0, 0, plan(number=0, minimum=9), b"", (), ()))
        self.assertEqual(len(none.file), 8)

    def test_the_most_windows(self):
        most = poddreshi.add(line_plan(2047), 13, 9000, 1)
        self.assertEqual((most.windows, most.components, len(most.file), len(most.tags)), (2048, 2, 16_392, 20_480))
        self.assertEqual(most.altered, (2047,))
        self.assertEqual(told(poddreshi.withdraw(line_plan(), 13, 1000)), due(line_plan(), 13, withdraw=1000))
        self.assertEqual(poddreshi.withdraw(most.file, 14, 2047).file, b"\x0e" + line_plan(2047)[1:])

    def test_every_change_beside_the_words_of_the_request(self):
        """Where few tags changed and where many did, and with several windows that begin together."""
        sizes = set()
        for file, window in some_plans(80):
            self.assertEqual(told(poddreshi.add(file, 13, *window)), due(file, 13, add=window))
            for at in range(len(poddreshi.windows_of(file))):
                changed = poddreshi.withdraw(file, 14, at)
                self.assertEqual(told(changed), due(file, 14, withdraw=at))
                sizes.add(len(changed.altered))
        self.assertGreater(len(sizes), 10)

    def test_the_tags_that_are_promised_to_stay(self):
        """Of components wholly before an added window that have no overlap with it, and of those with a smaller number than a withdrawn
        window's."""
        kept = 0
        for file, window in some_plans(60):
            windows, tree, minimum = poddreshi.windows_of(file), poddreshi.build(file), poddreshi.minimum_of(file)
            changed = poddreshi.add(file, 13, *window)
            place = changed.was.index(None)
            for component in range(tree.components):
                own = [at for at in range(len(windows)) if tree.component_of[at] == component]
                if max(own) < place and not any(overlap(windows[at], window, minimum) for at in own):
                    self.assertFalse(set(own) & set(changed.altered), (file, window))
                    kept += len(own)
            for at in range(len(windows)):
                smaller = [each for each in range(at) if tree.component_of[each] < tree.component_of[at]]
                self.assertFalse(set(smaller) & set(poddreshi.withdraw(file, 13, at).altered), (file, at))
        self.assertGreater(kept, 100)

    def test_there_and_back(self):
        for file, window in some_plans(20):
            changed = poddreshi.add(file, 13, *window)
            self.assertEqual(poddreshi.withdraw(changed.file, 12, changed.was.index(None)).file, file)

    def test_bytes_of_every_kind(self):
        for kind in (bytearray, memoryview, lambda data: memoryview(data[::-1])[::-1]):
            self.assertEqual(poddreshi.add(kind(PLAN_12), 13, 20, 5).file, ADDED_13)
            self.assertEqual(poddreshi.withdraw(kind(ADDED_13), 12, 7).file, PLAN_12)
            self.assertEqual(refusal(poddreshi.add, kind(PLAN_12), 12, 20, 5), (16, 0, 0))

    def test_refusals_in_their_order(self):
        full, add, withdraw = line_plan(), poddreshi.add, poddreshi.withdraw
        far, falling = 2**32 - 1, full[:-8] + bytes(8)  # the last window has length 0, and begins before the one ahead of it
        for numbers, call in (
            ((4, 0, 2047), (add, falling, 12, far, 0)),
            ((4, 0, 2047), (withdraw, falling, 12, 2048)),
            ((15, 0, 0), (add, full, 12, far, 0)),
            ((15, 0, 0), (add, full, 13, 0, 9)),
            ((16, 0, 0), (add, PLAN_12, 12, far, 0)),
            ((16, 0, 0), (add, PLAN_12, 12, 0, 9)),
            ((16, 0, 0), (withdraw, full, 12, 2048)),
            ((16, 0, 0), (withdraw, PLAN_12, 12, 0)),
            ((4, 0, 0), (add, PLAN_12, 13, far, 0)),
            ((4, 0, 0), (add, BOLTING, 22, 0, 29)),
            ((5, 0, 0), (add, PLAN_12, 13, far, far)),
            ((5, 0, 0), (add, PLAN_12, 13, far - 1, 2)),
            ((5, 0, 0), (add, PLAN_12, 13, 2**31, 2**31)),
            ((5, 0, 0), (add, plan(), 13, far, 1)),
            ((5, 0, 0), (add, plan(), 13, 1, far)),
            ((7, 0, 0), (withdraw, PLAN_12, 13, 7)),
            ((7, 0, 0), (withdraw, plan(), 13, 0)),
            (None, (add, PLAN_12, 13, 10_000_000, 1)),
            (None, (add, PLAN_12, 13, far - 1, 1)),
            (None, (add, PLAN_12, 13, 0, far)),
            (None, (add, BOLTING, 22, 0, 30)),
            (None, (withdraw, full, 13, 2047)),
        ):
            self.assertEqual(refusal(*call), numbers, call[2:])

    def test_a_plan_that_is_refused(self):
        """As in every call, also where the added window would be refused by the same question and position."""
        for file, words in REFUSED_PLANS.items():
            for call in ((poddreshi.add, file, 12, 0, 0), (poddreshi.withdraw, file, 12, 99)):
                with self.assertRaises(poddreshi.Refused) as caught:
                    call[0](*call[1:])
                self.assertEqual(str(caught.exception), f"refused by question {words}")

    def test_words_of_the_change(self):
        far = 2**32 - 1
        for words, call in {
            "15: the plan has 2,048 windows, and no plan has more; none can be added": (poddreshi.add, line_plan(), 13, 0, 1),
            "16: the plan has number 12 already; a changed plan has another": (poddreshi.withdraw, PLAN_12, 12, 0),
            "4: the added window has length 29; a length is at least the minimum handover, 30": (poddreshi.add, BOLTING, 22, 0, 29),
            "5: the added window ends at 8,589,934,590; an end is at most 4,294,967,295": (poddreshi.add, PLAN_12, 13, far, far),
            "7: there is no window 7: the plan has 7 windows, 0 to 6": (poddreshi.withdraw, PLAN_12, 13, 7),
        }.items():
            with self.assertRaises(poddreshi.Refused) as caught:
                call[0](*call[1:])
            self.assertEqual(str(caught.exception), f"refused by question {words}")

    def test_numbers_out_of_range(self):
        """None is cut down to what C can hold."""
        for number in (-1, 65_536, 2**32, 10**30):
            for call in ((poddreshi.add, PLAN_12, number, 0, 1), (poddreshi.withdraw, PLAN_12, number, 0)):
                with self.assertRaisesRegex(ValueError, "^a plan number is 0 to 65,535$"):
                    call[0](*call[1:])
        for number in (-1, 2**32, 10**30):
            with self.assertRaisesRegex(ValueError, "^an offset is 0 to 4,294,967,295$"):
                poddreshi.add(PLAN_12, 13, number, 1)
            with self.assertRaisesRegex(ValueError, "^a length is 0 to 4,294,967,295$"):
                poddreshi.add(PLAN_12, 13, 0, number)
        with self.assertRaisesRegex(ValueError, "^a position is a number from 0$"):
            poddreshi.withdraw(PLAN_12, 13, -1)
        for at in (2**16, 2**32 + 1, 2**64 - 1, 2**64, 10**30):
            self.assertEqual(refusal(poddreshi.withdraw, PLAN_12, 13, at), (7, 0, 0))


class Lent(unittest.TestCase):
    """The two tables of bytes, as C lends them."""

    def asked(self, call, *change, file: int, tags: int) -> tuple:
        """The answer to a change of plan 12 with tables of these lengths, and all bytes around them."""
        tables = [(ctypes.c_uint8 * 120)(*[0xAA] * 120) for _ in range(2)]
        answer = library.ask(call, PLAN_12, len(PLAN_12), *change, tables[0], file, tables[1], tags)
        return answer, *map(bytes, tables)

    def test_room_and_what_lies_past_it(self):
        rest = bytes([0xAA]) * 120
        for call, change, made, tags, answer in (
            ("add", (13, 20, 5), ADDED_13, ADDED_TAGS, [13, 8, 2]),
            ("withdraw", (13, 3), WITHOUT_3, tags_of(WITHOUT_3), [13, 6, 2]),
        ):
            for more in (0, 1, 20):
                given = self.asked(call, *change, file=len(made) + more, tags=len(tags) + more)
                self.assertEqual(given[0], (library.Kind.BUILT, answer))
                self.assertEqual(given[1:], (made + rest[len(made) :], tags + rest[len(tags) :]))
            for lengths in ((len(made) - 1, len(tags)), (len(made), len(tags) - 1), (0, 0), (120, 0), (0, 120)):
                given = self.asked(call, *change, file=lengths[0], tags=lengths[1])
                self.assertEqual(given, ((library.Kind.REFUSED, [8, 0, 0]), rest, rest))

    def test_a_refusal_writes_nothing(self):
        rest = bytes([0xAA]) * 120
        for change in (("add", 12, 20, 5), ("add", 13, 20, 0), ("add", 13, END_LIMIT, 1), ("withdraw", 12, 3), ("withdraw", 13, 7)):
            self.assertEqual(self.asked(*change, file=120, tags=120)[1:], (rest, rest), change)


class Words(unittest.TestCase):
    def test_ranges(self):
        for numbers, words in {
            (): "",
            (0,): "0",
            (3, 4): "3, 4",
            (3, 4, 5): "3 to 5",
            (0, 3, 4, 5, 6, 7): "0, 3 to 7",
            (0, 1, 5, 6, 7, 9, 2046, 2047): "0, 1, 5 to 7, 9, 2046, 2047",
        }.items():
            self.assertEqual(wording.ranges(numbers), words)
        self.assertEqual(wording.ranges(range(2048)), "0 to 2047")


class Command(Forms):
    def text(self, *words, **options) -> str:
        """What is said of a change whose plan goes to a file."""
        return self.answers(*words, "-o", "changed.plan", **options).decode()

    def bytes_of(self, name: str) -> bytes:
        return (self.folder / name).read_bytes()


class Answers(Command):
    def test_the_plan_on_standard_output(self):
        for words in ((), ("-o", "-"), ("-o", "/dev/stdout")):
            done = self.run_front("add", self.plan, 13, 20, 5, *words)
            self.assertEqual((done.returncode, done.stdout, done.stderr.decode()), (0, ADDED_13, ADDED_TOLD))
        done = self.run_front("withdraw", "-", 13, 3, stdin=PLAN_12)
        self.assertEqual((done.returncode, done.stdout), (0, WITHOUT_3))
        line = "plan 13, 6 windows, 2 components: window 3 of plan 12 withdrawn; tags changed in more than the plan number: 0\n"
        self.assertEqual(done.stderr.decode(), line)

    def test_the_plan_in_a_file(self):
        self.assertEqual(self.answers("add", self.plan, 13, 20, 5, "-o", "13.plan").decode(), ADDED_TOLD)
        self.assertEqual(self.bytes_of("13.plan"), ADDED_13)
        self.assertEqual(self.answers("withdraw", self.plan, 14, 3, "--output", "13.plan")[:7], b"plan 14")
        self.assertEqual(self.bytes_of("13.plan"), b"\x0e" + WITHOUT_3[1:])

    def test_the_tags_beside_it(self):
        told = self.answers("add", self.plan, 13, 20, 5, "-o", "13.plan", "--tags", "13.tags").decode()
        self.assertEqual((told, self.bytes_of("13.plan"), self.bytes_of("13.tags")), (ADDED_TOLD, ADDED_13, ADDED_TAGS))
        self.assertEqual(self.answers("tags", "13.plan"), ADDED_TAGS)
        done = self.run_front("add", self.plan, 13, 20, 5, "--tags", "other.tags")
        self.assertEqual((done.stdout, done.stderr.decode(), self.bytes_of("other.tags")), (ADDED_13, ADDED_TOLD, ADDED_TAGS))
        done = self.run_front("add", self.plan, 13, 20, 5, "-o", "other.plan", "--tags", "-")
        self.assertEqual((done.stdout, done.stderr.decode(), self.bytes_of("other.plan")), (ADDED_TAGS, ADDED_TOLD, ADDED_13))
        found = sorted(path.name for path in self.folder.iterdir())
        self.assertEqual(found, ["12.plan", "13.plan", "13.tags", "other.plan", "other.tags", "year.plan"])

    def test_no_tag_changed(self):
        line = "plan 13, 6 windows, 1 component: window 6 of plan 12 withdrawn; no tag changed in more than the plan number\n"
        self.assertEqual(self.text("withdraw", self.plan, 13, 6), line)
        line = "plan 1, no windows, no components: window 0 of plan 12 withdrawn; no tag changed in more than the plan number\n"
        self.assertEqual(self.text("withdraw", "-", 1, 0, "--tags", "tags", stdin=plan((5, 5))), line)
        self.assertEqual((self.bytes_of("changed.plan"), self.bytes_of("tags")), (plan(number=1), b""))

    def test_many_tags_changed(self):
        line = "plan 13, 6 windows, 3 components: window 2 of plan 12 withdrawn; tags changed in more than the plan number: 0 to 5\n"
        self.assertEqual(self.text("withdraw", self.plan, 13, 2), line)
        told = self.text("withdraw", "-", 13, 0, stdin=line_plan())
        self.assertTrue(told.startswith("plan 13, 2,047 windows, 1 component: window 0 of plan 12 withdrawn; "), told)
        self.assertTrue(told.endswith(" more than the plan number: 0 to 2046\n"), told)

    def test_one_after_another(self):
        """Plan 12 again, by way of standard output and standard input."""
        added = self.run_front("add", self.plan, 13, 20, 5).stdout
        self.assertEqual(self.run_front("withdraw", "-", 12, 7, stdin=added).stdout, PLAN_12)

    def test_a_plan_written_over_itself(self):
        self.answers("add", self.plan, 13, 20, 5, "-o", self.plan)
        self.assertEqual(self.bytes_of("12.plan"), ADDED_13)
        self.answers("withdraw", self.plan, 12, 7, "-o", self.plan, "--tags", "tags")
        self.assertEqual((self.bytes_of("12.plan"), self.bytes_of("tags")), (PLAN_12, TAGS_12))

    def test_names_and_dates(self):
        told = self.text("withdraw", self.year, 41, "Weir, lift", *NAMED)
        self.assertEqual(
            told,
            "plan 41, 59 windows, 18 components: window 6 (Weir, lift) of plan 40 withdrawn; "
            "tags changed in more than the plan number: 2, 4\n"
            "2  Tank yard, lift    2026-01-31 08:00  2026-02-02 08:00\n"
            "4  Ferry slip, crane  2026-02-02 02:00  2026-02-02 14:00\n",
        )
        self.assertEqual(told, self.text("withdraw", self.year, 41, 6, *NAMED))
        done = self.run_front("withdraw", self.year, 41, 6, *NAMED)
        self.assertEqual((done.stdout, done.stderr.decode()), (self.bytes_of("changed.plan"), told))
        names = self.file("names", "5 Quay\n1 North pier\n")
        told = self.text("withdraw", self.plan, 13, 3, "--names", names).splitlines()
        self.assertEqual([line.split() for line in told[1:]], [["0", "0", "10"]])
        told = self.text("withdraw", self.plan, 13, "North pier", "--names", names)
        self.assertIn(": window 1 (North pier) of plan 12 withdrawn; ", told)
        told = self.text("add", self.plan, 13, "2026-02-06 08:20", "5m", "--origin", "2026-02-06 08:00").splitlines()
        self.assertEqual(told[0], ADDED_TOLD.strip())
        dates = ["6 2026-02-06 08:18 2026-02-06 08:22", "7 2026-02-06 08:20 2026-02-06 08:25"]
        self.assertEqual([" ".join(line.split()) for line in told[1:]], dates)
        self.assertEqual(self.bytes_of("changed.plan"), ADDED_13)

    def test_csv(self):
        header = "position,name,begin,end,was,altered\n"
        due = "0,,0,10,0,no\n1,,2,5,1,no\n2,,4,16,2,no\n3,,9,11,3,no\n4,,12,18,4,no\n5,,17,18,5,no\n6,,18,22,6,yes\n7,,20,25,,yes\n"
        self.assertEqual(self.text("add", self.plan, 13, 20, 5, "--csv"), header + due)
        due = "0,,0,10,0,yes\n1,,2,5,1,no\n2,,4,16,2,no\n3,,12,18,4,no\n4,,17,18,5,no\n5,,18,22,6,no\n"
        self.assertEqual(self.text("withdraw", self.plan, 13, 3, "--csv"), header + due)
        self.assertEqual(self.text("withdraw", "-", 13, 0, "--csv", stdin=plan((5, 5))), header)

    def test_the_csv_has_the_names_of_the_changed_plan(self):
        self.file("names.csv", self.text("add", self.year, 41, "2026-02-02 02:00", "5h", *NAMED, "--csv"))
        before = json.loads(self.answers("text", self.year, *NAMED, "--json"))["windows"]
        after = json.loads(self.answers("text", "changed.plan", "--names", "names.csv", "--json"))["windows"]
        names = [window["name"] for window in before]
        self.assertEqual([window["name"] for window in after], [*names[:7], "", *names[7:]])
        self.assertIn("Lock 5, lift", names[7:])

    def test_json(self):
        window = {"position": 7, "name": "", "offset": 20, "length": 5}
        data = self.data("add", self.plan, 13, 20, 5)
        self.assertEqual(list(data), ["plan", "components", "added", "altered", "windows"])
        self.assertEqual((data["plan"], data["components"], data["added"], data["altered"]), (13, 2, window, [6, 7]))
        self.assertEqual(data["windows"][7], {**window, "was": None, "altered": True})
        self.assertEqual([(each["was"], each["altered"]) for each in data["windows"][5:7]], [(5, False), (6, True)])
        data = self.data("withdraw", self.year, 41, "Weir, lift", *NAMED)
        self.assertEqual((data["withdrawn"]["position"], data["withdrawn"]["begin"]), (6, "2026-02-02 02:00"))
        self.assertEqual([each["was"] for each in data["windows"]][4:8], [4, 5, 7, 8])
        self.assertEqual(data["windows"][6]["name"], "Lock 5, lift")
        self.assertEqual(data["altered"], [at for at, each in enumerate(data["windows"]) if each["altered"]])

    def test_lengths_and_offsets_as_in_a_text(self):
        self.text("add", self.plan, 13, "0", "1h30m")
        self.assertEqual(poddreshi.windows_of(self.bytes_of("changed.plan"))[1], (0, 90))
        self.text("add", self.plan, 13, "2026-02-07", "2d", "--origin", "2026-02-06")
        self.assertEqual(poddreshi.windows_of(self.bytes_of("changed.plan"))[7], (1440, 2880))

    def test_every_form_of_the_same_change(self):
        for file, window in some_plans(6):
            name = self.file("any.plan", file)
            made, tags, was, altered = due(file, 13, add=window)
            rows = self.rows("add", name, 13, *window, "--tags", "any.tags")
            self.assertEqual((self.bytes_of("changed.plan"), self.bytes_of("any.tags")), (made, tags))
            self.assertEqual([row["was"] for row in rows], ["" if old is None else str(old) for old in was])
            self.assertEqual([at for at, row in enumerate(rows) if row["altered"] == "yes"], list(altered))
            self.assertTrue(self.text("add", name, 13, *window).endswith(f" number: {wording.ranges(altered)}\n"))


class Refusals(Command):
    def test_of_the_plan(self):
        for file, words in REFUSED_PLANS.items():
            for change in (("add", "-", 12, 0, 0), ("withdraw", "-", 12, 99)):
                self.says(1, f"refused by question {words}", *change, stdin=file)

    def test_of_the_change(self):
        full = self.file("full.plan", line_plan())
        for words, change in {
            "15: the plan has 2,048 windows, and no plan has more; none can be added": ("add", full, 12, 0, 0),
            "16: the plan has number 12 already; a changed plan has another": ("add", self.plan, 12, 0, 0),
            "4: the added window has length 0; a length is at least the minimum handover, 1": ("add", self.plan, 13, END_LIMIT, 0),
            "5: the added window ends at 4,294,967,296; an end is at most 4,294,967,295": ("add", self.plan, 13, END_LIMIT, 1),
            "7: there is no window 7: the plan has 7 windows, 0 to 6": ("withdraw", self.plan, 13, 7),
        }.items():
            for form in ((), ("-o", "x", "--tags", "y", "--csv")):
                self.says(1, f"refused by question {words}", *change, *form)
        self.says(1, "refused by question 16: the plan has number 12 already; a changed plan has another", "withdraw", full, 12, 2048)
        self.says(1, "refused by question 7: there is no window 0: the plan has no windows", "withdraw", "-", 13, 0, stdin=plan())
        self.assertEqual(sorted(path.name for path in self.folder.iterdir()), ["12.plan", "full.plan", "year.plan"])

    def test_mistakes(self):
        p = self.plan
        for about, words in (
            ("a plan number is at most 65,535", ("add", p, 70_000, 0, 1)),
            ("a plan number is at most 65,535", ("withdraw", p, 70_000, 0)),
            ('a plan number is a number from 0, not "-1"', ("add", p, -1, 0, 1)),
            ('a plan number is a number from 0, not "x"', ("withdraw", p, "x", 0)),
            ("an offset of 5,000,000,000 does not fit a plan file, which holds up to 4,294,967,295", ("add", p, 13, 5 * 10**9, 1)),
            ("a length of 4,294,967,296 does not fit a plan file, which holds up to 4,294,967,295", ("add", p, 13, 0, 2**32)),
            ('"-5" is no offset; write a number (1440) or a date', ("add", p, 13, -5, 1)),
            ('"" is no offset', ("add", p, 13, "", 1)),
            ('"2026-02-06" is a date; say with --origin which date 0 is', ("add", p, 13, "2026-02-06", 1)),
            ('"2026-02-06" lies before the origin', ("add", p, 13, "2026-02-06", 1, "--origin", "2026-02-07")),
            ('"soon" is no length; write a number (90)', ("add", p, 13, 0, "soon")),
            ('there is no window "x"; a position is a number from 0; names come with --names', ("withdraw", p, 13, "x")),
            ('there is no window "-1"', ("withdraw", p, 13, -1)),
            ('there is no window ""', ("withdraw", p, 13, "")),
            ("standard input can be one input and not two", ("withdraw", "-", 13, 0, "--names", "-")),
            ("lies past the year 9999", ("add", p, 13, 20, 5, "--origin", "9999-12-31 23:50")),
            ("see poddreshi add --help", ("add", p, 13, 0)),
            ("see poddreshi withdraw --help", ("withdraw", p, 13)),
            ("unrecognized arguments: --minimum 5", ("add", p, 13, 0, 1, "--minimum", 5)),
        ):
            self.fails(2, *words, about=about)

    def test_outputs_over_one_another(self):
        (self.folder / "link").symlink_to("both")
        two, one = "standard output can be one output and not two", "the plan and its tags go to two files, not one"
        for about, outputs in (
            (two, ("--tags", "-")),
            (two, ("-o", "-", "--tags", "/dev/stdout")),
            (one, ("-o", "both", "--tags", "both")),
            (one, ("-o", "./both", "--tags", self.folder / "both")),
            (one, ("-o", "link", "--tags", "both")),
        ):
            self.fails(2, "add", self.plan, 13, 20, 5, *outputs, about=about)
            self.fails(2, "withdraw", "nowhere.plan", 13, 3, *outputs, about=about)
        for form, outputs in itertools.product(("csv", "json"), ((), ("-o", "-"), ("-o", "13.plan", "--tags", "-"))):
            about = f"--{form} takes standard output, so the plan and its tags go to files: -o FILE, --tags FILE"
            self.fails(2, "add", self.plan, 13, 20, 5, f"--{form}", *outputs, about=about)
        self.assertEqual(sorted(path.name for path in self.folder.iterdir()), ["12.plan", "link", "year.plan"])

    def test_inputs_that_fail(self):
        self.fails(3, "add", "nowhere.plan", 13, 0, 1, about="poddreshi: nowhere.plan: no such file or directory")
        self.fails(3, "withdraw", self.plan, 13, 0, "--names", "nowhere", about="poddreshi: nowhere: no such file or directory")

    def test_no_more_is_read_than_the_limit_and_one(self):
        for words in (("add", "-", 13, 0, 1), ("withdraw", "-", 13, 0)):
            with open("/dev/zero", "rb") as endless:
                self.fails(1, *words, stdin_file=endless, about="refused by question 14")


class Outputs(OldFile):
    """The plan and its tags are both there or neither, and with a word on which tags changed."""

    ADD = ("add", PLAN_31, 32, 5, 60)
    WITHDRAW = ("withdraw", PLAN_31, 32, 5)
    CHANGES = (ADD, WITHDRAW)

    def test_a_refused_change_leaves_the_old_files(self):
        second = self.folder / "second"
        second.write_bytes(b"as it was, too")
        for status, *words in (
            (1, "add", PLAN_31, 31, 5, 60),
            (1, "add", PLAN_31, 32, 5, 14),
            (1, "withdraw", PLAN_31, 32, 48),
            (2, "withdraw", PLAN_31, 32, "x"),
        ):
            for outputs in (("-o", "old", "--tags", "second"), ("-o", "second", "--tags", "old"), ("--tags", "old")):
                self.fails(status, *words, *outputs)
                self.assertEqual(second.read_bytes(), b"as it was, too")
                self.unchanged("second")

    def test_one_output_that_fails_leaves_the_other(self):
        (self.folder / "folder").mkdir()
        for bad, about in {
            "nowhere/x": "nowhere/x: no such file or directory",
            "folder": "folder: is a directory",
            "/dev/full": "/dev/full: no space left on device",
            "": "a file with no name: is a directory",
        }.items():
            for words, other in zip(self.CHANGES, ("old", "new")):
                for outputs in (("-o", other, "--tags", bad), ("-o", bad, "--tags", other)):
                    self.says(3, f"poddreshi: {about}", *words, *outputs)
                    self.unchanged("folder")

    def test_a_full_disk(self):
        for words in self.CHANGES:
            for length in (5, 400, 469):  # too little for the plan, or for the tags alone
                self.fails(3, *words, "-o", "old", "--tags", "tags", preexec_fn=at_most(length), about="file too large")
                self.unchanged()

    def test_standard_output_that_fails(self):
        """With the plan, or with what is said of it: no file is there then that was not there before."""
        reading, writing = os.pipe()
        os.close(reading)
        for outputs in (("-o", "old"), ("--tags", "old"), ("-o", "old", "--tags", "new")):
            with open("/dev/full", "wb") as full:
                self.fails(3, *self.ADD, *outputs, stdout=full, about="standard output: no space left on device")
            self.unchanged()
            self.fails(3, *self.WITHDRAW, *outputs, stdout=writing, about="standard output: broken pipe")
            self.unchanged()
        os.close(writing)
        closed = {"front": FRONT, "preexec_fn": lambda: os.close(1)}
        self.fails(3, *self.ADD, "-o", "old", "--tags", "new", **closed, about="standard output: bad file descriptor")
        self.unchanged()

    @needs_modes
    def test_a_folder_that_cannot_be_written(self):
        locked = self.folder / "locked"
        locked.mkdir()
        locked.chmod(0o555)
        obeying = {"front": FRONT, "preexec_fn": obey_modes}
        self.fails(3, *self.ADD, "-o", "old", "--tags", "locked/x", **obeying, about="locked/x: permission denied")
        self.unchanged("locked")

    def test_a_file_that_cannot_take_its_place(self):
        """When all are whole, and another has its place already: that one is taken back, be it new or in the place of an old one."""
        rename, moved = os.replace, []

        def failing(source, target):
            moved.append(target)
            if len(moved) == 2:
                raise OSError(13, "Permission denied")
            rename(source, target)

        before = self.old.stat()
        for first in (self.old, self.folder / "new"):
            moved.clear()
            with mock.patch.object(files.os, "replace", failing), self.assertRaisesRegex(Failure, "second: permission denied"):
                files.write_together([(str(first), b"plan"), (str(self.folder / "second"), b"tags")])
            self.unchanged()
        self.assertEqual(self.old.stat().st_ino, before.st_ino)

    def test_without_second_names(self):
        """A file system that cannot keep an old file by a second name is written to as ever."""
        with mock.patch.object(files.os, "link", side_effect=PermissionError(1, "Operation not permitted")):
            files.write_together([(str(self.old), b"plan"), (str(self.folder / "tags"), b"tags")])
        self.assertEqual([path.read_bytes() for path in (self.old, self.folder / "tags")], [b"plan", b"tags"])
        self.assertEqual(len(list(self.folder.iterdir())), 2)

    def test_the_files_are_there_when_it_is_said(self):
        """Whoever reads the line from a pipe finds the files behind it."""
        plan, tags, seen = self.folder / "plan", self.folder / "tags", []
        with mock.patch.object(files, "_write_stream", lambda *_: seen.append((plan.read_bytes(), tags.read_bytes()))):
            files.write_together([(None, b"said"), (str(plan), b"plan"), (str(tags), b"tags")])
        self.assertEqual(seen, [(b"plan", b"tags")])

    def test_modes_and_links(self):
        self.old.chmod(0o640)
        (self.folder / "link").symlink_to("old")
        self.answers(*self.ADD, "-o", "link", "--tags", "tags", preexec_fn=lambda: os.umask(0o027))
        self.assertTrue((self.folder / "link").is_symlink())
        self.assertEqual([(self.folder / name).stat().st_mode & 0o777 for name in ("old", "tags")], [0o640, 0o640])
        self.assertEqual(sorted(path.name for path in self.folder.iterdir()), ["link", "old", "tags"])

    def test_pipes(self):
        os.mkfifo(self.folder / "pipe")
        with subprocess.Popen(["cat", str(self.folder / "pipe")], stdout=subprocess.PIPE) as reader:
            self.answers(*self.ADD, "-o", "new", "--tags", "pipe")
            self.assertEqual(reader.stdout.read(), self.answers("tags", "new"))

    def test_standard_output_that_leads_to_an_output(self):
        """What is said is not written among the bytes of a plan."""
        with open(self.old, "wb") as old:
            done = self.run_front("add", EXAMPLES / "plan-12.plan", 13, 20, 5, "-o", "/dev/stdout", stdout=old)
        self.assertEqual((done.stderr.decode(), self.old.read_bytes()), (ADDED_TOLD, ADDED_13))
        with open(self.old, "wb") as old:
            done = self.run_front("add", EXAMPLES / "plan-12.plan", 13, 20, 5, "-o", "old", stdout=old)
        self.assertEqual((done.stderr.decode(), self.old.read_bytes()), (ADDED_TOLD, ADDED_13))


if __name__ == "__main__":
    unittest.main()
