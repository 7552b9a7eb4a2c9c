"""What the numbers of a plan count: said by nobody, by --unit or by the planner's text; and how far they go."""
import csv
import io
import itertools
import json
import random
import re
import unittest
import xml.etree.ElementTree as ET
from datetime import datetime

from support import BOLTING, END_LIMIT, EXAMPLES, PLAN_12, SHIFT, Case, old_plan, plan, random_windows, refusal

import poddreshi
from poddreshi import building, commandline, texts, times
from poddreshi.commands import all_commands
from poddreshi.failures import Mistake
from poddreshi.times import MINUTES, SECONDS, Clock

SVG = "{http://www.w3.org/2000/svg}"
TEXT = EXAMPLES / "shift.txt"
NEW_YEAR = ("--origin", "2026-01-01")
NAMED = ("--names", TEXT, *NEW_YEAR)
EVENING = 260 * 86_400 + 22 * 3600  # 2026-09-18 22:00:00, in seconds of the year
WINDOWS = [
    *((EVENING, 2700), (EVENING + 2600, 1800), (EVENING + 2625, 1220), (EVENING + 3755, 2550), (EVENING + 6210, 4200)),
    *((EVENING + 10_335, 2325), (EVENING + 10_680, 90), (EVENING + 12_570, 9020)),
]
UNITS = ((), ("--unit", "minutes"), ("--unit", "seconds"))
FINER = "has seconds; --unit seconds takes it, and so does a text with the line `unit seconds`"
NO_UNIT = ("list", "tags", "tag", "explain", "count", "page", "build", "install")  # of no time, so they take no unit


def made(text: str, *unit, origin=None, **options) -> list:
    """The windows of a text."""
    file, _ = texts.make(12, text.encode(), Clock(origin, *unit), **options)
    return [tuple(window) for window in poddreshi.windows_of(file)]


def faults(text: str, *unit, origin=None) -> list:
    """What is wrong in a text."""
    try:
        made(text, *unit, origin=origin)
    except texts.Faulty as bad:
        return [str(fault) for fault in bad.faults]
    return []


class Clocks(unittest.TestCase):
    def test_lengths(self):
        for word, minutes, seconds in (
            *(("90", 90, 90), ("0", 0, 0), ("2h", 120, 7200), ("1h30m", 90, 5400), ("45m", 45, 2700), ("2d", 2880, 172_800)),
            *(("1w", 10_080, 604_800), ("1w2d3h4m", 13_144, 788_640), ("4294967295", END_LIMIT, END_LIMIT)),
        ):
            lengths = [Clock(unit=unit).length(word) for unit in (None, MINUTES, SECONDS)]
            self.assertEqual(lengths, [minutes, minutes, seconds], word)
        finer = {"45s": 45, "1h30m20s": 5420, "1h20s": 3620, "0s": 0, "1d1s": 86_401, "4294967295s": END_LIMIT}
        for word, seconds in finer.items():
            self.assertEqual(Clock(unit=SECONDS).length(word), seconds)
            for unit in (None, MINUTES):
                with self.assertRaisesRegex(ValueError, f'^"{word}" {FINER}$'):
                    Clock(unit=unit).length(word)

    def test_words_that_are_no_length(self):
        for word in ("", "s", "90S", "20s1m", "1h30", "-5", "1.5", "1 h", "٣", "1" * 21):
            for unit, example in ((None, "1h30m"), (MINUTES, "1h30m"), (SECONDS, "1h30m20s")):
                with self.assertRaises(ValueError) as caught:
                    Clock(unit=unit).length(word)
                hint = f"write a number (90), or numbers with letters (2d, 48h, {example})"
                self.assertEqual(str(caught.exception), f'"{word}" is no length; {hint}')

    def test_lengths_as_they_are_shown(self):
        origin = datetime(2026, 1, 1)
        for number, minutes, seconds in (
            *((0, "0m", "0s"), (1, "1m", "1s"), (59, "59m", "59s"), (60, "1h", "1m"), (90, "1h30m", "1m30s")),
            *((3600, "60h", "1h"), (5420, "90h20m", "1h30m20s"), (END_LIMIT, "71582788h15m", "1193046h28m15s")),
        ):
            shown = [Clock(origin, unit).show_length(number) for unit in (None, MINUTES, SECONDS)]
            self.assertEqual(shown, [minutes, minutes, seconds])
            self.assertEqual([Clock(origin, unit).tell_length(number) for unit in (None, MINUTES, SECONDS)], shown)
            for unit in (None, MINUTES, SECONDS):
                self.assertEqual(Clock(None, unit).show_length(number), str(number))
                self.assertEqual(Clock(None, unit).length(Clock(origin, unit).show_length(number)), number)

    def test_lengths_as_they_are_told(self):
        for number, told in {
            1: ["1", "1 minute", "1 second"],
            30: ["30", "30 minutes", "30 seconds"],
            END_LIMIT: ["4,294,967,295", "4,294,967,295 minutes", "4,294,967,295 seconds"],
        }.items():
            self.assertEqual([Clock(unit=unit).tell_length(number) for unit in (None, MINUTES, SECONDS)], told)

    def test_dates(self):
        origin = datetime(2026, 2, 6, 8)
        for words, minutes in {"2026-02-06 08:00": 0, "2026-02-06T9:30": 90, "2026-02-07": 960, "2026-02-06 08:01:00": 1}.items():
            offsets = [Clock(origin, unit).offset(words) for unit in (None, MINUTES, SECONDS)]
            self.assertEqual(offsets, [minutes, minutes, 60 * minutes])
        self.assertEqual(Clock(origin, SECONDS).offset("2026-02-06 08:00:30"), 30)
        self.assertEqual(Clock(origin.replace(second=20), SECONDS).offset("2026-02-06T08:01:05"), 45)
        for unit in (None, MINUTES):
            with self.assertRaisesRegex(ValueError, f'^"2026-02-06 08:00:30" {FINER}$'):
                Clock(origin, unit).offset("2026-02-06 08:00:30")
        for words in ("2026-02-06 08:00:60", "2026-02-06 08:60:00"):
            with self.assertRaisesRegex(ValueError, "is no date of the calendar"):
                Clock(origin, SECONDS).offset(words)
        with self.assertRaisesRegex(ValueError, '^"2026-02-06 07:59:59" lies before the origin, 2026-02-06 08:00:00$'):
            Clock(origin, SECONDS).offset("2026-02-06 07:59:59")

    def test_dates_as_they_are_shown(self):
        origin = datetime(2026, 2, 6, 8)
        shown = [Clock(origin, unit).show(90) for unit in (None, MINUTES, SECONDS)]
        self.assertEqual(shown, ["2026-02-06 09:30", "2026-02-06 09:30", "2026-02-06 08:01:30"])
        self.assertEqual(Clock(origin, SECONDS).show(END_LIMIT), "2162-03-15 14:28:15")
        self.assertEqual(Clock(datetime(1, 1, 1)).show(END_LIMIT), "8167-02-16 04:15")

    def test_an_origin_with_seconds(self):
        fine = datetime(2026, 1, 1, 8, 0, 30)
        self.assertEqual(Clock(fine, SECONDS).checked().show(30), "2026-01-01 08:01:00")
        for unit in (None, MINUTES):
            with self.assertRaisesRegex(Mistake, f"^the origin 2026-01-01 08:00:30 {FINER}$"):
                Clock(fine, unit).checked()
            Clock(fine.replace(second=0), unit).checked()

    def test_the_units(self):
        self.assertEqual([times.unit(word) for word in ("minutes", "seconds")], [MINUTES, SECONDS])
        for word in ("", "minute", "second", "sec", "s", "Seconds", "hours", "minutes "):
            with self.assertRaisesRegex(ValueError, f'^a unit is minutes or seconds, not "{word}"$'):
                times.unit(word)


class Shown(Case):
    """Each command: with no unit, in minutes and in seconds."""

    def setUp(self):
        super().setUp()
        self.plan, self.shift = self.file("12.plan", PLAN_12), self.file("52.plan", SHIFT)

    def told(self, *words, **options) -> list:
        """What a command says with no unit and with each."""
        return [self.answers(*words, *unit, **options).decode() for unit in UNITS]

    def test_margin(self):
        for pair, told in {
            (0, 2): ["shares 6\n", "shares 6 minutes\n", "shares 6 seconds\n"],
            (1, 2): ["shares 1\n", "shares 1 minute\n", "shares 1 second\n"],
            (2, 5): ["1 apart\n", "1 minute apart\n", "1 second apart\n"],
            (0, 4): ["2 apart\n", "2 minutes apart\n", "2 seconds apart\n"],
            (4, 6): ["touches\n"] * 3,
        }.items():
            self.assertEqual(self.told("margin", self.plan, *pair), told)
        for form in ("--number", "--csv", "--json"):
            self.assertEqual(len(set(self.told("margin", self.plan, 0, 2, form))), 1)

    def test_margin_with_dates(self):
        one, other = "0    2026-01-01 00:00{}  2026-01-01 00:{}\n", "4    2026-01-01 00:{}  2026-01-01 00:{}\n"
        minutes = "2m apart\n" + one.format("", "10") + other.format("12", "18")
        seconds = "2s apart\n" + one.format(":00", "00:10") + other.format("00:12", "00:18")
        self.assertEqual(self.told("margin", self.plan, 0, 4, *NEW_YEAR), [minutes, minutes, seconds])

    def test_neighbours(self):
        told = self.told("neighbours", self.plan, 3, "--margins")
        shares = "0  shares 1{0}\n2  shares 2{0}{1}\n"
        self.assertEqual(told, [shares.format("", ""), shares.format(" minute", "s"), shares.format(" second", "s")])
        self.assertEqual(self.told("neighbours", self.plan, 3), ["0 2\n"] * 3)

    def test_chain(self):
        self.assertEqual(self.told("chain", self.shift, 0, 4), ["4 3 1 0\n"] * 3)
        told = self.answers("chain", self.shift, 0, 4, *NEW_YEAR, "--unit", "seconds").decode()
        self.assertEqual(
            told,
            "4    2026-09-18 23:43:30  2026-09-19 00:53:30\n"
            "3    2026-09-18 23:02:35  2026-09-18 23:45:05\n"
            "1    2026-09-18 22:43:20  2026-09-18 23:13:20\n"
            "0    2026-09-18 22:00:00  2026-09-18 22:45:00\n",
        )
        rows = list(csv.DictReader(io.StringIO(self.answers("chain", self.shift, 0, 1, "--csv", *NEW_YEAR, *UNITS[2]).decode())))
        self.assertEqual([(row["begin"], row["end"]) for row in rows][1], ("2026-09-18 22:00:00", "2026-09-18 22:45:00"))
        data = json.loads(self.answers("chain", self.shift, 0, 1, "--json", *NEW_YEAR, *UNITS[2]))["chain"][1]
        own = {"position": 0, "name": "", "offset": EVENING, "length": 2700}
        self.assertEqual(data, {**own, "begin": "2026-09-18 22:00:00", "end": "2026-09-18 22:45:00"})

    def test_reach(self):
        self.assertEqual(self.told("reach", self.plan, 3), ["3: from 0 to 5\n"] * 3)
        told = self.answers("reach", self.shift, *NEW_YEAR, *UNITS[2]).decode().splitlines()
        self.assertEqual(told[1], "component 1  windows 5 to 7  2026-09-19 00:52:15 to 2026-09-19 03:59:50  2: from 6 to 7")
        self.assertEqual(len(told), 2)

    def test_same(self):
        pair = ((0, 10), (5, 10))
        one, other = self.file("1.plan", plan(*pair, minimum=1)), self.file("6.plan", plan(*pair, minimum=6))
        words = "different: windows 0 and 1 overlap in the first plan and not in the second; "
        words += "the minimum handover of the first plan is 1{0} and that of the second 6{0}{1}\n"
        told = [words.format("", ""), words.format(" minute", "s"), words.format(" second", "s")]
        self.assertEqual(self.told("same", one, other), told)
        self.assertEqual(len(set(self.told("same", one, other, "--json"))), 1)

    def test_text(self):
        text = "# plan 3, 1 window: offset and length{}\n{}minimum 2\n5 7\n"
        told = [text.format("", ""), *(text.format(f" in {unit}", f"unit {unit}\n") for unit in ("minutes", "seconds"))]
        self.assertEqual(self.told("text", "-", stdin=plan((5, 7), number=3, minimum=2)), told)
        text = "# plan 3, 1 window: begin and length\n{}minimum 2{}\n2026-01-01 00:{} {}\n"
        told = [text.format("", "m", "05", "1h17m"), text.format("unit minutes\n", "m", "05", "1h17m")]
        told.append(text.format("unit seconds\n", "s", "00:05", "1m17s"))
        self.assertEqual(self.told("text", "-", *NEW_YEAR, stdin=plan((5, 77), number=3, minimum=2)), told)
        rows = "offset,length,name\n{}minimum,2,\n5,7,\n"
        told = [rows.format(""), rows.format("unit,minutes,\n"), rows.format("unit,seconds,\n")]
        self.assertEqual(self.told("text", "-", "--csv", stdin=plan((5, 7), minimum=2)), told)
        told = [rows.format(unit).replace("minimum,2,\n", "") for unit in ("", "unit,minutes,\n", "unit,seconds,\n")]
        self.assertEqual(self.told("text", "-", "--csv", stdin=plan((5, 7))), told)
        self.assertEqual(len(set(self.told("text", self.plan, "--json"))), 1)

    def test_chains(self):
        rigs = self.file("rigs", "Rig 0 2\n")
        words = "minimum handover 30{}"
        told = [words.format(""), words.format(" minutes"), words.format(" seconds")]
        for form, end in (((), "\n"), (("--html",), "</p>")):
            pages = self.told("chains", self.file("21.plan", BOLTING), rigs, *form)
            for page, minimum in zip(pages, told):
                self.assertIn(f"2 handovers in all, at most 2 (Rig), {minimum}{end}", page)
            self.assertNotIn("minutes", pages[0] + pages[2])
        dated = self.answers("chains", self.shift, rigs, *NEW_YEAR, *UNITS[2]).decode()
        self.assertIn("hand over 2026-09-18 22:43:20 to 2026-09-18 22:45:00\n", dated)
        self.assertTrue(dated.endswith("minimum handover 1m30s\n"))

    def test_draw(self):
        file = plan((0, 60), (30, 60), (100_000, 61), minimum=30)
        for unit, words, axis, minimum, interval, cut in zip(
            *(UNITS, ("", "minutes", "seconds"), ([], ["minutes"], ["seconds"]), ("30", "30 minutes", "30 seconds")),
            *(("30 to 90", "minutes 30 to 90", "seconds 30 to 90"), ("99,910", "99,910 minutes", "99,910 seconds")),
        ):
            sheet = ET.fromstring(self.answers("draw", "-", *unit, stdin=file))
            self.assertEqual(sheet.find(SVG + "title").text, f"Plan 12, minimum handover {minimum}: 3 windows, 2 components")
            self.assertEqual([text.text for text in sheet.iter(SVG + "text") if text.text in ("minutes", "seconds")], axis)
            titles = [title.text for title in sheet.iter(SVG + "title")]
            self.assertIn(f"window 1: {interval}, component 0, depth 1, parent 0", titles)
            self.assertIn(f"no window for {cut}", titles)
            chain = ET.fromstring(self.answers("draw", "-", 0, 1, *unit, stdin=file)).find(SVG + "desc").text
            other = interval.replace("30 to 90", "0 to 60")
            self.assertEqual(chain, f"The chain, from the later window to the earlier: window 1, {interval}; window 0, {other}.")

    def test_add(self):
        for unit, length in zip(UNITS, (120, 120, 7200)):
            added = self.answers("add", self.plan, 13, 20, "2h", *unit, "-o", "13.plan")
            self.assertEqual(added[:16], b"plan 13, 8 windo")
            self.assertEqual(poddreshi.windows_of((self.folder / "13.plan").read_bytes())[7], (20, length))
        when, told = "2026-09-19 03:58:20", "8    2026-09-19 03:58:20  2026-09-19 05:03:50\n"
        added = self.answers("add", self.shift, 53, when, "1h5m30s", *NEW_YEAR, *UNITS[2], "-o", "53.plan").decode()
        self.assertTrue(added.endswith(told), added)
        self.assertEqual(poddreshi.windows_of((self.folder / "53.plan").read_bytes()), [*WINDOWS, (EVENING + 21_500, 3930)])

    def test_withdraw(self):
        told = self.answers("withdraw", self.shift, 53, 7, *NEW_YEAR, *UNITS[2], "-o", "53.plan").decode()
        self.assertTrue(told.endswith("\n5    2026-09-19 00:52:15  2026-09-19 01:31:00\n"), told)

    def test_plan_and_renew(self):
        for unit, length in zip(UNITS, (120, 120, 7200)):
            file = self.answers("plan", 12, "-", "--minimum", "2h", *unit, stdin=b"0 3h\n")
            self.assertEqual((poddreshi.minimum_of(file), poddreshi.windows_of(file)), (length, [(0, length * 3 // 2)]))
            file = self.answers("renew", "-", "--minimum", "2h", *unit, stdin=old_plan((0, 9000)))
            self.assertEqual(file, plan((0, 9000), minimum=length))
        file = self.answers("plan", 12, "-", "--minimum", "1m30s", *UNITS[2], *NEW_YEAR, stdin=b"2026-01-01 00:01:05 1h20s a\n")
        self.assertEqual(file, plan((65, 3620), minimum=90))

    def test_dates_and_letters_of_before(self):
        """With no unit all is read and shown as it was: by the minute."""
        year = self.answers("plan", 40, EXAMPLES / "year.txt", *NEW_YEAR)
        self.assertEqual(poddreshi.windows_of(year)[0], (4 * 1440 + 480, 36 * 60))
        self.assertEqual(poddreshi.minimum_of(year), 120)
        self.assertEqual(year, self.answers("plan", 40, EXAMPLES / "year.txt", *NEW_YEAR, *UNITS[1]))
        for words in (("chain", "-", 2, 7), ("reach", "-"), ("margin", "-", 9, 12), ("draw", "-"), ("draw", "-", 2, 7)):
            told = [self.answers(*words, *NEW_YEAR, *unit, stdin=year) for unit in UNITS[:2]]
            self.assertEqual(told[0], told[1])


class Mistakes(Case):
    def setUp(self):
        super().setUp()
        self.plan = self.file("12.plan", PLAN_12)
        self.each = {
            **{name: (name, self.plan, 0, 1) for name in ("chain", "margin")},
            **{name: (name, self.plan, 0) for name in ("neighbours", "reach")},
            **{name: (name, self.plan) for name in ("text", "draw")},
            **{"same": ("same", self.plan, self.plan), "chains": ("chains", self.plan, self.file("rigs", "Rig 0 1\n"))},
            **{"add": ("add", self.plan, 13, 0, 1), "withdraw": ("withdraw", self.plan, 13, 0)},
            **{"plan": ("plan", 12, self.file("text", "0 1\n")), "renew": ("renew", self.file("old", old_plan((0, 1))))},
        }

    def test_every_command_that_tells_of_time(self):
        self.assertEqual({*self.each, *NO_UNIT}, {command.name for command in all_commands()})
        for words in self.each.values():
            for unit in UNITS:
                self.assertEqual(self.run_front(*words, *unit).returncode, 0, (words, unit))
        for words in (("list", self.plan), ("tags", self.plan)):
            self.fails(2, *words, "--unit", "seconds", about="unrecognized arguments: --unit seconds")

    def test_a_unit_that_is_none(self):
        for name, words in self.each.items():
            told = 'poddreshi: argument --unit: a unit is minutes or seconds, not "{}"; see poddreshi {} --help'
            for unit in ("sec", "s", "minute", "SECONDS", "hours", ""):
                self.says(2, told.format(unit, name), *words, "--unit", unit)
            self.fails(2, *words, "--unit", about="expected one argument")

    def test_an_origin_with_seconds(self):
        for name, words in self.each.items():
            if name in ("same", "renew"):  # which take no origin
                continue
            for unit in UNITS[:2]:
                told = f"poddreshi: the origin 2026-01-01 08:00:30 {FINER}"
                self.says(2, told, *words, "--origin", "2026-01-01 08:00:30", *unit)
            self.assertEqual(self.run_front(*words, "--origin", "2026-01-01 08:00:30", *UNITS[2]).returncode, 0)

    def test_words_with_seconds(self):
        for words, told in {
            ("add", self.plan, 13, 0, "45s"): f'"45s" {FINER}',
            ("add", self.plan, 13, "2026-01-01 00:00:30", 1, *NEW_YEAR): f'"2026-01-01 00:00:30" {FINER}',
            ("draw", self.plan, "--to", "2026-01-01 00:00:30", *NEW_YEAR): f'"2026-01-01 00:00:30" {FINER}',
            (*self.each["plan"], "--minimum", "1m0s"): f'argument --minimum: "1m0s" {FINER}',
            (*self.each["renew"], "--minimum", "90s"): f'argument --minimum: "90s" {FINER}',
        }.items():
            for unit in UNITS[:2]:
                self.says(2, f"poddreshi: {told}", *words, *unit)

    def test_a_minimum_that_is_none(self):
        hint = "write a number (90), or numbers with letters (2d, 48h, {})"
        for unit, example in zip(UNITS, ("1h30m", "1h30m", "1h30m20s")):
            for name in ("plan", "renew"):
                told = f'poddreshi: argument --minimum: "soon" is no length; {hint.format(example)}'
                self.says(2, told, *self.each[name], "--minimum", "soon", *unit)
        told = "poddreshi: argument --minimum: a minimum handover of {} does not fit a plan file, which holds up to 4,294,967,295"
        self.says(2, told.format("4,294,967,296"), *self.each["plan"], "--minimum", 2**32)
        self.says(2, told.format("6,000,000,000"), *self.each["renew"], "--minimum", "100000000m", *UNITS[2])
        self.says(2, 'poddreshi: argument --minimum: "" is no length; ' + hint.format("1h30m"), "plan", 1, "-", "--minimum", "")

    def test_a_minimum_is_read_before_the_text_is_judged(self):
        self.fails(2, "plan", 12, "-", "--minimum", "soon", stdin=b"x 1\n", about='"soon" is no length')


class Stated(Case):
    """The unit in the planner's text."""

    LINES = ("unit seconds\n0 2h a\n5 1m20s b\n", "0 2h a\n5 1m20s b\n  Unit Seconds # at the end\n")
    SHEETS = (
        *("offset,length,name\nunit,seconds,\n0,2h,a\n5,1m20s,b\n", "name;length;offset\na;2h;0\nb;1m20s;5\n;Seconds;UNIT\n"),
        *("Offset (seconds),Length,Name\n0,2h,a\n5,1m20s,b\n", "name;Length (Seconds);Offset\na;2h;0\nb;1m20s;5\n"),
        *("Offset (seconds)\tLength (seconds)\n0\t2h\n5\t1m20s\n", "# CSV\n\noffset [s],length in seconds\n0,2h\n5,1m20s\n"),
        *("offset (in seconds),length (sec.)\nunit,seconds\n0,2h\n5,1m20s\n", "Offset (s),Length,Name (m)\n0,2h,a\n5,1m20s,b\n"),
    )

    def test_it_holds_for_the_whole_text(self):
        for text in (*self.LINES, *self.SHEETS):
            self.assertEqual(made(text), [(0, 7200), (5, 80)], text)
            self.assertEqual(made(text, SECONDS), [(0, 7200), (5, 80)], text)
        self.assertEqual(made("0 2h\n5 1m\nunit minutes\n"), [(0, 120), (5, 1)])
        for header in ("Offset (minutes),Length", "offset,length (min)", "offset,length", "offset (start),length (hours)"):
            self.assertEqual(made(f"{header}\n0,2h\n"), [(0, 120)], header)

    def test_the_minimum_of_the_text_and_of_the_command(self):
        for text, options, minimum in (
            *((b"minimum 1m30s\n0 2h\nunit seconds\n", (), 90), (b"unit seconds\nminimum 2m\n0 2h\n", (), 120)),
            (b"unit seconds\nminimum 2m\n0 2h\n", ("--minimum", "45s"), 45),
            (b"unit minutes\n0 2h\n", ("--minimum", "1h"), 60),
            (b"0 2h\n", ("--minimum", "1h", "--unit", "seconds"), 3600),
        ):
            self.assertEqual(poddreshi.minimum_of(self.answers("plan", 12, "-", *options, stdin=text)), minimum)

    def test_an_origin_with_seconds(self):
        words, text = ("plan", 12, "-", "--origin", "2026-01-01 00:00:30"), b"2026-01-01 00:01:00 5\nunit "
        self.assertEqual(self.answers(*words, stdin=text + b"seconds\n"), plan((30, 5)))
        self.says(2, f"poddreshi: the origin 2026-01-01 00:00:30 {FINER}", *words, stdin=text + b"minutes\n")

    def test_what_is_no_statement(self):
        alone = "the line of the unit is unit minutes or unit seconds, and nothing more"
        for line, told in {
            "unit": alone,
            "unit seconds exactly": alone,
            "unit sec": 'a unit is minutes or seconds, not "sec"',
            "unit 60": 'a unit is minutes or seconds, not "60"',
        }.items():
            self.assertEqual(faults(f"0 5\n{line}\n"), [f"line 2: {told}"])
        self.assertEqual(faults("offset,length\n0,5\nunit,hours\n"), ['line 3: a unit is minutes or seconds, not "hours"'])

    def test_two_that_differ(self):
        second = "the unit is minutes here, and seconds on line {}"
        self.assertEqual(faults("unit seconds\n0 45s\nunit minutes\n"), [f"line 3: {second.format(1)}"])
        self.assertEqual(faults("Offset (seconds),Length (minutes)\n0,45s\n"), [f"line 1: {second.format(1)}"])
        self.assertEqual(faults("Offset (seconds),Length\nunit,minutes\n0,45s\n"), [f"line 2: {second.format(1)}"])
        told = faults("unit seconds\nunit minutes\n0 x\nunit seconds\nunit minutes\n")
        self.assertEqual([line[:6] for line in told], ["line 2", "line 3", "line 5"])
        self.assertEqual(faults("unit seconds\n0 45s\nunit seconds\n"), [])

    def test_the_command_says_another(self):
        told = "standard input, line {}: the unit is {} here, and {} by --unit"
        for text, line, own, other in (
            *((b"unit seconds\n0 45s\n", 1, "seconds", "minutes"), (b"0 45\nunit minutes\n", 2, "minutes", "seconds")),
            (b"# CSV\nOffset (seconds),Length\n0,45s\n", 2, "seconds", "minutes"),
        ):
            self.says(1, told.format(line, own, other), "plan", 12, "-", "--unit", other, stdin=text)
            self.assertEqual(self.answers("plan", 12, "-", "--unit", own, stdin=text), plan((0, 45)))
        self.says(
            1,
            told.format(1, "seconds", "minutes") + '\nstandard input, line 2: "x" is no offset; '
            "write a number (1440) or a date (2026-02-06 08:00:30)",
            *("plan", 12, "-", "--unit", "minutes"),
            stdin=b"unit seconds\nx 45s\n",
        )

    def test_seconds_in_a_text_of_minutes(self):
        text = "2026-01-01 00:00:30 50\n2026-01-01 00:01 45s\n2026-01-01 00:02:00 1m\nminimum 30s\n"
        told = [f'line 1: "2026-01-01 00:00:30" {FINER}', f'line 2: "45s" {FINER}', f'line 4: "30s" {FINER}']
        for unit in ((), (MINUTES,)):
            self.assertEqual(faults(text, *unit, origin=datetime(2026, 1, 1)), told)
        self.assertEqual(made(text, SECONDS, origin=datetime(2026, 1, 1)), [(30, 50), (60, 45), (120, 60)])

    def test_round_trip(self):
        generator = random.Random(8)
        origins = ((), ("--origin", "2026-02-06 08:00"), ("--origin", "2026-02-06"))
        for count, span in ((0, 9), (1, 9), (30, 9_000_000), (2048, 4_000_000_000)):
            windows, number = random_windows(generator, count, span), generator.randrange(65_536)
            shortest = min((length for _, length in windows), default=86_400)
            file = plan(*windows, number=number, minimum=generator.choice([1, shortest]))
            for form, origin, unit in itertools.product(((), ("--csv",)), origins, UNITS):
                text = self.answers("text", "-", *form, *origin, *unit, stdin=file)
                self.assertEqual(self.answers("plan", number, "-", "--empty", *origin, stdin=text), file)
        text = self.answers("text", "-", *UNITS[2], "--origin", "2026-02-06 08:00:30", stdin=SHIFT)
        self.assertEqual(self.answers("plan", 52, "-", "--origin", "2026-02-06 08:00:30", stdin=text), SHIFT)


class Names(Case):
    """A plan's own text with --names: the unit that it states is that of the output."""

    def setUp(self):
        super().setUp()
        self.shift = self.file("52.plan", SHIFT)

    def test_the_example(self):
        file = self.answers("plan", 52, TEXT, *NEW_YEAR)
        self.assertEqual(file, SHIFT)
        self.assertEqual((poddreshi.windows_of(file), poddreshi.minimum_of(file)), (WINDOWS, 90))
        self.assertGreater(WINDOWS[0][0], 10_000_000)
        self.assertEqual(file, self.answers("plan", 52, TEXT, *NEW_YEAR, *UNITS[2]))
        margins = {(0, 1): 100, (0, 2): 75, (2, 3): 90, (3, 4): 95, (4, 5): 75, (5, 6): 90, (5, 7): 90}
        self.assertEqual({pair: poddreshi.margin(file, *pair) for pair in margins}, margins)
        self.assertEqual([poddreshi.neighbours(file, at).positions for at in (0, 2, 5)], [(1,), (1, 3), (6, 7)])
        text = self.answers("text", self.shift, *NAMED).decode().splitlines()
        own = [line.split("#")[0].split() for line in TEXT.read_text(encoding="utf-8").splitlines()[1:]]
        own[7:9] = [own[7], [*own[8][:2], "1m30s", *own[8][3:]]]  # where the example has 90s
        self.assertEqual(text[:3], ["# plan 52, 8 windows: begin and length", "unit seconds", "minimum 1m30s"])
        self.assertEqual([line.split() for line in text[3:]], own[2:])

    def test_it_is_adopted(self):
        one, other = " 22:43:45  2026-09-18 23:04:05\n", " 22:00:00  2026-09-18 22:45:00\n"
        told = f"shares 1m15s\n2  Cross-passage 1, crane  2026-09-18{one}0  Portal, rail grinder    2026-09-18{other}"
        for unit in ((), UNITS[2]):
            self.assertEqual(self.answers("margin", self.shift, 2, "Portal, rail grinder", *NAMED, *unit).decode(), told)
        bare = "unit seconds\n" + "".join(f"{offset} {length} at {offset}\n" for offset, length in WINDOWS)
        names = self.file("bare", bare)
        self.assertTrue(self.answers("margin", self.shift, 2, 0, "--names", names).startswith(b"shares 75 seconds\n2  at "))
        self.assertEqual(self.answers("text", self.shift, "--names", names).splitlines()[1:3], [b"unit seconds", b"minimum 90"])
        sheet = ET.fromstring(self.answers("draw", self.shift, "--names", names))
        self.assertEqual(sheet.find(SVG + "title").text, "Plan 52, minimum handover 90 seconds: 8 windows, 2 components")
        told = self.answers("chains", self.shift, "-", "--names", names, stdin=b"Rig 0 1\n").decode()
        self.assertTrue(told.endswith("minimum handover 90 seconds\n"))
        unstated = self.file("unstated", bare.replace("unit seconds\n", ""))
        self.assertTrue(self.answers("margin", self.shift, 2, 0, "--names", unstated).startswith(b"shares 75\n2  at "))
        minutes = self.file("minutes", bare.replace("seconds", "minutes"))
        self.assertTrue(self.answers("margin", self.shift, 2, 0, "--names", minutes).startswith(b"shares 75 minutes\n2  at "))

    def test_a_window_is_added_by_it(self):
        for length in ("1h5m30s", 3930):
            self.answers("add", self.shift, 53, "2026-09-19 03:58:20", length, *NAMED, "-o", "53.plan")
            self.assertEqual(poddreshi.windows_of((self.folder / "53.plan").read_bytes())[8], (EVENING + 21_500, 3930))

    def test_an_origin_with_seconds(self):
        names = self.file("names", "unit seconds\n30 45 a\n")
        told = self.answers("chain", "-", "a", 0, "--names", names, "--origin", "2026-01-01 00:00:30", stdin=plan((30, 45)))
        self.assertEqual(told, b"0  a  2026-01-01 00:01:00  2026-01-01 00:01:45\n")
        names = self.file("names", "position,name,offset (seconds),length\n0,a,9,9\n")  # of another plan, so its unit plays no part
        told = f"poddreshi: the origin 2026-01-01 00:00:30 {FINER}"
        self.says(2, told, "chain", "-", 0, 0, "--names", names, "--origin", "2026-01-01 00:00:30", stdin=plan((30, 45)))

    def test_the_command_says_another(self):
        told = f"{TEXT}, line 2: the unit is seconds here, and minutes by --unit"
        for words in (("margin", self.shift, 2, 0), ("chain", self.shift, 0, 4), ("text", self.shift), ("draw", self.shift)):
            self.says(1, told, *words, *NAMED, "--unit", "minutes")
        names = self.file("names", "unit minutes\n0 1\nunit seconds\n")
        told = f"{names}, line 3: the unit is seconds here, and minutes on line 1"
        self.says(1, told, "chain", "-", 0, 0, "--names", names, stdin=plan((0, 1)))

    def test_the_text_of_another_plan(self):
        done = self.run_front("chain", "-", 0, 1, *NAMED, stdin=PLAN_12)
        self.assertEqual((done.returncode, done.stderr.count(b"a line of names has a position and a name, unless")), (1, 10))
        self.assertIn(b"(which takes --origin where it has dates, and the plan's --unit)", done.stderr)

    def test_lines_of_positions_state_nothing(self):
        names = self.file("names", "0 unit\n1 unit minutes\n")
        for unit, told in zip(UNITS, (b"shares 3\n", b"shares 3 minutes\n", b"shares 3 seconds\n")):
            self.assertTrue(self.answers("margin", "-", 0, 1, "--names", names, *unit, stdin=PLAN_12).startswith(told))

    def test_a_text_that_was_read_by_the_option(self):
        """It is the plan's own with the same option alone."""
        names = self.file("names", "2026-01-01 2h a\n")
        file = self.file("any.plan", self.answers("plan", 12, names, *NEW_YEAR, *UNITS[2]))
        self.assertEqual(self.answers("neighbours", file, "a", "--names", names, *NEW_YEAR, *UNITS[2]), b"none\n")
        self.fails(1, "neighbours", file, 0, "--names", names, *NEW_YEAR, about="and the plan's --unit")


class Limits(Case):
    """An end is 4,294,967,295 at most, which is also all that a plan file can hold."""

    def test_text(self):
        self.assertEqual(made("10000000 1\n4294967294 1\n"), [(10_000_000, 1), (4_294_967_294, 1)])
        self.assertEqual(made("0 4294967295\n"), [(0, END_LIMIT)])
        self.assertEqual(made("0 4294967295s\n", SECONDS), [(0, END_LIMIT)])
        late = "refused by question 5: window {} of the plan ends at {}; an end is at most 4,294,967,295"
        self.assertEqual(faults("4294967295 1\n"), [f"line 1: {late.format(0, '4,294,967,296')}"])
        self.assertEqual(faults("0 1\n# here\n4294967295 4294967295\n"), [f"line 3: {late.format(1, '8,589,934,590')}"])
        told = [f"line {at + 1}: {late.format(at, '4,294,967,296')}" for at in (0, 1)]
        self.assertEqual(faults("1 4294967295\n4294967294 2\n"), told)
        unfit = "does not fit a plan file, which holds up to 4,294,967,295"
        self.assertEqual(faults("4294967296 1\n"), [f"line 1: an offset of 4,294,967,296 {unfit}"])
        self.assertEqual(faults("0 4294967296\n"), [f"line 1: a length of 4,294,967,296 {unfit}"])
        self.assertEqual(faults("2162-03-15 06:28:16 1\n", SECONDS, origin=datetime(2026, 2, 6)), [
            f"line 1: an offset of 4,294,967,296 {unfit}"
        ])

    def test_order(self):
        earlier = "refused by question 6: window 1 of the plan begins at {}, earlier than the window before it, at 4,294,967,294"
        for offset, shown in {"0": "0", "4294967293": "4,294,967,293"}.items():
            self.assertEqual(faults(f"4294967294 1\n{offset} 1\n"), [f"line 2: {earlier.format(shown)}"])
        self.assertEqual(faults("0 1\n4294967294 1\n4294967294 1\n"), [])

    def test_add(self):
        told = "refused by question 5: the added window ends at 4,294,967,296; an end is at most 4,294,967,295"
        self.says(1, told, "add", "-", 13, 4_294_967_295, 1, stdin=PLAN_12)
        self.says(1, told, "add", "-", 13, 1, 4_294_967_295, stdin=PLAN_12)
        self.says(1, told, "add", "-", 13, "2162-02-07 06:28:15", "1s", *NEW_YEAR, *UNITS[2], stdin=PLAN_12)
        done = self.run_front("add", "-", 13, 4_294_967_294, 1, stdin=PLAN_12)
        self.assertEqual((done.returncode, poddreshi.windows_of(done.stdout)[-1]), (0, (4_294_967_294, 1)))

    def test_margin(self):
        file = plan((0, 1), (4_294_967_294, 1))
        self.assertEqual(poddreshi.margin(file, 0, 1), -4_294_967_293)
        for words, told in {
            (): "4,294,967,293 apart\n",
            UNITS[2]: "4,294,967,293 seconds apart\n",
            ("--number",): "-4294967293\n",
            (*NEW_YEAR, *UNITS[2]): "1193046h28m13s apart\n"
            "0    2026-01-01 00:00:00  2026-01-01 00:00:01\n"
            "1    2162-02-07 06:28:14  2162-02-07 06:28:15\n",
        }.items():
            self.assertEqual(self.answers("margin", "-", 0, 1, *words, stdin=file).decode(), told)

    def test_dates_past_the_calendar(self):
        told = "poddreshi: 4,294,967,295 from the origin 2026-01-01 00:00 lies past the year 9999"
        for words in (("text", "-"), ("draw", "-"), ("reach", "-")):
            self.says(2, told, *words, *NEW_YEAR, stdin=plan((0, END_LIMIT)))
            self.answers(*words, *NEW_YEAR, *UNITS[2], stdin=plan((0, END_LIMIT)))

    def test_chains_near_the_limit(self):
        file = plan((END_LIMIT - 300, 200), (END_LIMIT - 190, 190), (END_LIMIT - 90, 90), minimum=90)
        self.assertEqual(poddreshi.chain(file, 0, 2).positions, (2, 1, 0))
        self.assertEqual(refusal(poddreshi.validate, plan((END_LIMIT - 89, 90), minimum=90)), (5, 0, 0))
        told = self.answers("chain", "-", 0, 2, *NEW_YEAR, *UNITS[2], stdin=file).decode().splitlines()
        self.assertEqual(told[0].split(), "2 2162-02-07 06:26:45 2162-02-07 06:28:15".split())


class Help(unittest.TestCase):
    def words_of(self, command) -> list:
        """Every sentence of a command's help, what it says of each argument, and each example."""
        top = commandline.parser([command])
        own = next(action for action in top._actions if action.choices and command.name in action.choices).choices[command.name]
        about = [f"{action.metavar} {action.help}" for action in own._actions]
        return [command.summary, *command.details.replace(building.HOW_LONG, "").split(". "), *about, *command.examples]

    def test_minutes_are_named_with_the_unit_alone(self):
        named = 0
        for command in all_commands():
            for words in self.words_of(command):
                if re.search("minute", words, re.I):
                    self.assertRegex(words, "(?i)unit", command.name)
                    named += 1
        self.assertGreater(named, 12)  # so that the help was read
        top = commandline.parser(all_commands())
        self.assertNotIn("minute", top.format_help())

    def test_every_command_names_the_option(self):
        for command in all_commands():
            told = any("--unit" in words or "what the plan's numbers count" in words for words in self.words_of(command))
            self.assertEqual(told, command.name not in NO_UNIT, command.name)


if __name__ == "__main__":
    unittest.main()
