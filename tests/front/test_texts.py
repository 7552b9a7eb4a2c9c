"""A planner's text: what is read, every fault by its line, and the round trip."""
import random
import unittest
from datetime import datetime

from support import EXAMPLES, PLAN_12, Case, plan, random_windows

import poddreshi
from poddreshi import names, texts
from poddreshi.texts import Faulty
from poddreshi.times import MINUTES, SECONDS, Clock

ORIGIN = Clock(datetime(2026, 1, 1))


def made(text, clock=Clock(), **options):
    file, entries = texts.make(12, text if isinstance(text, bytes) else text.encode(), clock, **options)
    return [tuple(window) for window in poddreshi.windows_of(file)], [entry.name for entry in entries]


def faults(text, clock=Clock(), **options):
    try:
        made(text, clock, **options)
    except Faulty as bad:
        return [str(fault) for fault in bad.faults]
    return []


class Reading(unittest.TestCase):
    def test_lines(self):
        text = "# a plan\n\n 0\t10 North pier # behind\r\n2 3 Bay#4\n4 12 \"Bay #3\" # third\n"
        text += "9 2 5\" pipe # fourth\n\xa012 6 \"say \"\"go\"\"\"\n"
        windows, named = made(text)
        self.assertEqual(windows, [(0, 10), (2, 3), (4, 12), (9, 2), (12, 6)])
        self.assertEqual(named, ["North pier", "Bay#4", "Bay #3", '5" pipe', 'say "go"'])

    def test_dates_and_lengths(self):
        text = "2026-01-01 90\n2026-01-01 08:00 48h North pier\n2026-01-02T6:30 1d12h30m\n2026-02-06 2w x\n1000000 1h\n"
        windows, named = made(text, ORIGIN)
        self.assertEqual(windows, [(0, 90), (480, 2880), (1830, 2190), (51840, 20160), (1000000, 60)])
        self.assertEqual(named, ["", "North pier", "", "x", ""])

    def test_csv(self):
        for text in (
            "offset,length,name\n0,10,North pier\n# left out\n  # this too\n2,3,\"Bay #3, \"\"old\"\"\"\n",
            "\ufeffname;Length (minutes);OFFSET\r\nNorth pier;10;0\r\n\"Bay #3, \"\"old\"\"\";3;2\r\n",
            "# a comment\noffset\tlength\tname\n0\t10\tNorth pier\n\n2\t3\tBay #3, \"old\"\n",
        ):
            self.assertEqual(made(text), ([(0, 10), (2, 3)], ["North pier", 'Bay #3, "old"']))
        self.assertEqual(made("length,offset\n1h,2026-01-01 08:00\n", ORIGIN)[0], [(480, 60)])
        self.assertEqual(faults("offset,length\n1,2\n3,x\n4\n\"5,6\n"), [
            'line 3: "x" is no length; write a number (90), or numbers with letters (2d, 48h, 1h30m)',
            "line 4: a line has an offset and a length, and may have a name",
            "line 6: is no line of CSV: unexpected end of data",
        ])

    def test_sort(self):
        text = "9 2 c\n0 10 a\n9 1 d\n4 12 b\n"
        self.assertEqual(made(text, sort=True), ([(0, 10), (4, 12), (9, 2), (9, 1)], list("abcd")))

    def test_empty(self):
        self.assertEqual(faults("# nothing\n"), ["line 1: the text has no window; --empty makes a plan of none"])
        self.assertEqual(made("# nothing\n", empty=True), ([], []))


class Faults(unittest.TestCase):
    def test_all_at_once_in_order_of_lines(self):
        text = b"5 5\n4 0\n9\nx 1\n6 x\n\xff 1\n3 1\n4294967295 1\n"
        text += b"2026-01-01 08:00 1\n4294967296 1\n7 4294967296\n8 1 a\x07\n9 1\n"
        self.assertEqual(faults(text), [
            "line 2: refused by question 4: window 1 of the plan has length 0; a length is at least the minimum handover, 1",
            "line 2: refused by question 6: window 1 of the plan begins at 4, earlier than the window before it, at 5",
            "line 3: a line has an offset and a length, and may have a name",
            'line 4: "x" is no offset; write a number (1440) or a date (2026-02-06 08:00)',
            'line 5: "x" is no length; write a number (90), or numbers with letters (2d, 48h, 1h30m)',
            "line 6: is no text in UTF-8",
            "line 7: refused by question 6: window 2 of the plan begins at 3, earlier than the window before it, at 4",
            "line 8: refused by question 5: window 3 of the plan ends at 4,294,967,296; an end is at most 4,294,967,295",
            'line 9: "2026-01-01 08:00" is a date; say with --origin which date 0 is',
            "line 10: an offset of 4,294,967,296 does not fit a plan file, which holds up to 4,294,967,295",
            "line 11: a length of 4,294,967,296 does not fit a plan file, which holds up to 4,294,967,295",
            "line 12: a name has no control characters",
            "line 13: refused by question 6: window 4 of the plan begins at 9, earlier than the window before it, at 4,294,967,295",
        ])

    def test_a_first_line_that_is_nothing(self):
        for line in ("\0\0", "x" * 200_000, '"' * 9, ",;\t"):
            self.assertEqual(len(faults(line)), 1)

    def test_csv_without_its_header(self):
        told = "line 1: a line has an offset and a length, and may have a name; CSV begins with a line offset,length,name"
        self.assertEqual(faults("0,10,North\n"), [told])

    def test_order_behind_an_end_that_is_too_late(self):
        self.assertEqual(faults("4294967295 1\n5 1\n"), [
            "line 1: refused by question 5: window 0 of the plan ends at 4,294,967,296; an end is at most 4,294,967,295",
            "line 2: refused by question 6: window 1 of the plan begins at 5, earlier than the window before it, at 4,294,967,295",
        ])

    def test_order_of_ends_that_are_all_too_late(self):
        told = [fault[:29] for fault in faults("4294967292 9\n4294967291 9\n4294967295 1\n4294967294 2\n")]
        asked = [(1, 5), (2, 5), (2, 6), (3, 5), (4, 5), (4, 6)]
        self.assertEqual(told, [f"line {line}: refused by question {number}" for line, number in asked])

    def test_dates(self):
        told = faults("2025-12-31 1\n2026-02-30 1\n2026-01-01 24:00 1\n2026-01-01 1h30\n", ORIGIN)
        self.assertEqual(told, [
            'line 1: "2025-12-31" lies before the origin, 2026-01-01 00:00',
            'line 2: "2026-02-30" is no date of the calendar',
            'line 3: "2026-01-01 24:00" is no date of the calendar',
            'line 4: "1h30" is no length; write a number (90), or numbers with letters (2d, 48h, 1h30m)',
        ])

    def test_too_many_windows(self):
        lines = "".join(f"{v} 1\n" for v in range(2048))
        self.assertEqual(len(made(lines)[0]), 2048)
        self.assertEqual(faults(lines + "2048 1\n3000 1\n"), [
            "line 2049: refused by question 2: the plan is said to have 2,050 windows; a plan has at most 2,048"
        ])
        self.assertEqual(len(faults("0 1\n" * 70_000)), 1)


class RoundTrip(Case):
    def test_random_plans(self):
        generator = random.Random(13)
        origins = [Clock(), ORIGIN, Clock(datetime(1999, 12, 31, 23, 59)), Clock(datetime(1999, 12, 31, 23, 59, 58), SECONDS)]
        origins += [Clock(unit=MINUTES), Clock(unit=SECONDS)]
        shown = ["", "North pier", "Bay #3", '"quoted"', 'half"', "# hash", "a  b", "Kürs 7", "12 30", "2026-01-01"]
        for case in range(300):
            count = generator.choice([0, 1, 2, 7, 40])
            span = generator.choice([3, 100, 5000, 9_000_000, 4_000_000_000])
            windows = random_windows(generator, count, span, generator.choice([2, 400, 900_000]))
            windows = [poddreshi.Window(*window) for window in windows]
            clock, named = generator.choice(origins), [generator.choice(shown) for _ in windows]
            minimum = generator.randint(1, min([86_400, *(window.length for window in windows)]))
            file, entries = texts.make(12, texts.write(windows, named, minimum, clock).encode(), clock, empty=True)
            self.assertEqual((file, [entry.name for entry in entries]), (plan(*windows, minimum=minimum), named))

    def test_by_the_command(self):
        generator = random.Random(31)
        for count in (0, 1, 30, 2048):
            windows, number = random_windows(generator, count, 9_000_000), generator.randrange(65536)
            shortest = min((length for _, length in windows), default=86_400)
            file = plan(*windows, number=number, minimum=generator.choice([1, shortest]))
            for form in ((), ("--csv",)):
                for origin in ((), ("--origin", "2026-02-06 08:00")):
                    text = self.answers("text", "-", *form, *origin, stdin=file)
                    self.assertEqual(self.answers("plan", number, "-", "--empty", *origin, stdin=text), file)

    def test_examples(self):
        made = self.answers("plan", 31, EXAMPLES / "plan-31.txt")
        self.assertEqual(made, (EXAMPLES / "plan-31.plan").read_bytes())
        year = self.file("year.plan", self.answers("plan", 40, EXAMPLES / "year.txt", "--origin", "2026-01-01"))
        text = self.answers("text", year, "--names", EXAMPLES / "year.txt", "--origin", "2026-01-01").decode()
        own = (EXAMPLES / "year.txt").read_text(encoding="utf-8")
        self.assertEqual([line.split() for line in text.splitlines()[1:]], [line.split() for line in own.splitlines()[1:]])

    def test_faults_by_the_command(self):
        self.says(
            1,
            'standard input, line 1: "x" is no offset; write a number (1440) or a date (2026-02-06 08:00)\n'
            "standard input, line 2: refused by question 4: window 0 of the plan has length 0; "
            "a length is at least the minimum handover, 1",
            *("plan", 1, "-"),
            stdin=b"x 1\n5 0\n",
        )


class Names(unittest.TestCase):
    WINDOWS = poddreshi.windows_of(PLAN_12)

    def read(self, text, clock=Clock()):
        named, _ = names.read(text.encode(), self.WINDOWS, clock)
        return list(named)

    def test_the_plans_own_text(self):
        lines = [f"{window.offset} {window.length} name {v}" for v, window in enumerate(self.WINDOWS)]
        self.assertEqual(self.read("\n".join(lines)), [f"name {v}" for v in range(7)])
        self.assertEqual(self.read("\n".join(reversed(lines))), [f"name {v}" for v in range(7)])

    def test_lines_and_csv(self):
        wanted = ["", "", "Pier", "", "4 mile", "", ""]
        self.assertEqual(self.read("2 Pier\n4 4 mile # far\n"), wanted)
        self.assertEqual(self.read("name,position\nPier,2\n4 mile,4\n"), wanted)
        self.assertEqual(self.read(""), [""] * 7)


if __name__ == "__main__":
    unittest.main()
