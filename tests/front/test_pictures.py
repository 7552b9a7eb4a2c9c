"""Pictures: well-formed, every number finite, and nothing outside the sheet."""
import math
import os
import random
import re
import shutil
import subprocess
import sys
import unittest
import xml.etree.ElementTree as ET

from support import END_LIMIT, EXAMPLES, PLAN_12, PYTHON, ROOT, Case, line_plan, plan, random_windows

PLAN_31 = (EXAMPLES / "plan-31.plan").read_bytes()
MINUTES, SECONDS = ("--unit", "minutes"), ("--unit", "seconds")
SVG = "{http://www.w3.org/2000/svg}"
NUMBERS = ("x", "y", "width", "height", "x1", "y1", "x2", "y2", "cx", "cy", "r", "rx", "font-size", "stroke-width")


def text_width(element) -> float:
    """What a text takes in a font of common widths; a different estimate from the package's."""
    words = element.text or ""
    narrow = sum(character in " .,:;'|ijltf()" for character in words)
    wide = sum(ord(character) > 0x2E80 or character in "mwMW@%…" for character in words)
    return float(element.get("font-size")) * (0.35 * narrow + 0.98 * wide + 0.6 * (len(words) - narrow - wide))


def text_span(element) -> tuple:
    """Where a text begins and ends on its line."""
    taken, anchor = text_width(element), element.get("text-anchor")
    left = float(element.get("x")) - {"start": 0, "middle": taken / 2, "end": taken}[anchor]
    return left, left + taken


class Pictures(Case):
    def drawn(self, file: bytes, *options) -> ET.Element:
        """A picture that has passed every check on its sheet."""
        sheet = ET.fromstring(self.answers("draw", "-", *options, stdin=file))
        wide, high = float(sheet.get("width")), float(sheet.get("height"))
        self.assertEqual(sheet.get("viewBox"), f"0 0 {sheet.get('width')} {sheet.get('height')}")
        for element in sheet.iter():
            numbers = {name: float(element.get(name)) for name in NUMBERS if element.get(name)}
            self.assertTrue(all(math.isfinite(number) for number in numbers.values()), numbers)
            if element is not sheet:
                self.inside(element, numbers, wide, high)
        self.apart(sheet)
        return sheet

    def inside(self, element, numbers, wide, high):
        spans = []
        if element.tag == SVG + "rect":
            x, y = numbers.get("x", 0), numbers.get("y", 0)
            self.assertTrue(numbers["width"] > 0 and numbers["height"] > 0)
            spans = [(x, x + numbers["width"], wide), (y, y + numbers["height"], high)]
        elif element.tag == SVG + "line":
            spans = [(*sorted((numbers["x1"], numbers["x2"])), wide), (*sorted((numbers["y1"], numbers["y2"])), high)]
        elif element.tag == SVG + "circle":
            x, y, r = (numbers[name] for name in ("cx", "cy", "r"))
            spans = [(x - r, x + r, wide), (y - r, y + r, high)]
        elif element.tag == SVG + "text":
            spans = [(*text_span(element), wide), (numbers["y"] - numbers["font-size"], numbers["y"], high)]
        for low, top, limit in spans:
            self.assertTrue(-0.1 <= low and top <= limit + 0.1, (element.tag, element.attrib, element.text))

    def apart(self, sheet):
        """No text runs into another on its line."""
        lines = {}
        for text in sheet.iter(SVG + "text"):
            lines.setdefault(text.get("y"), []).append((*text_span(text), text.text))
        for texts in map(sorted, lines.values()):
            for one, other in zip(texts, texts[1:]):
                self.assertLess(one[1], other[0], (one, other))

    def bars(self, sheet) -> list:
        return [rect for rect in sheet.iter(SVG + "rect") if rect.get("rx")]

    def shown(self, sheet) -> list:
        return [int(re.match(r"window (\d+)", bar.find(SVG + "title").text)[1]) for bar in self.bars(sheet)]

    def test_plan_12(self):
        sheet = self.drawn(PLAN_12)
        self.assertEqual(sheet.find(SVG + "title").text, "Plan 12, minimum handover 1: 7 windows, 2 components")
        self.assertEqual(self.shown(sheet), list(range(7)))
        self.assertNotIn("minute", ET.tostring(sheet, encoding="unicode"))

    def test_a_chain_and_its_component(self):
        sheet = self.drawn(PLAN_12, "3", "5")
        self.assertEqual(sheet.find(SVG + "title").text, "Plan 12, minimum handover 1: 3 handovers between window 3 and window 5")
        self.assertEqual(self.shown(sheet), [0, 1, 2, 3, 4, 5])
        self.assertEqual([bar.get("stroke") is not None for bar in self.bars(sheet)], [False, False, True, True, True, True])
        self.assertEqual(len(list(sheet.iter(SVG + "circle"))), 6)
        self.assertEqual(self.shown(self.drawn(PLAN_12, "3", "5", "--whole")), list(range(7)))
        self.assertEqual(sheet.find(SVG + "desc").text.count("window"), 5)

    def test_the_reach_of_a_component(self):
        """It is the chain between the farthest two windows, under a title of its own."""
        for at in (0, 3, 5):
            sheet = self.drawn(PLAN_12, "--reach", at)
            title = "Plan 12, minimum handover 1: reach 3, between window 0 and window 5"
            self.assertEqual(sheet.find(SVG + "title").text, title)
            self.assertIn(title, [text.text for text in sheet.iter(SVG + "text")])
            self.assertEqual(self.shown(sheet), [0, 1, 2, 3, 4, 5])
            self.assertEqual([bar.get("stroke") is not None for bar in self.bars(sheet)], [True, False, True, False, True, True])
        self.assertEqual(self.shown(self.drawn(PLAN_12, "--reach", "3", "--whole")), list(range(7)))
        for file, at, *ends in ((PLAN_12, 1, 0, 5), (PLAN_12, 6, 6, 6), (PLAN_31, 17, 18, 22)):
            between = f"between window {ends[0]} and window {ends[1]}"
            drawn = self.answers("draw", "-", "--reach", at, stdin=file).decode()
            chain = self.answers("draw", "-", *ends, stdin=file).decode()
            self.assertEqual(re.sub(f"reach [0-9], {between}", "*", drawn), re.sub(f"([0-9]|no) handovers {between}", "*", chain))

    def test_reach_by_name(self):
        names = self.file("names", "3 Quay\n5 Lock 2\n")
        sheet = self.drawn(PLAN_12, "--reach", "Quay", "--names", names)
        title = "Plan 12, minimum handover 1: reach 3, between window 0 and window 5 (Lock 2)"
        self.assertEqual(sheet.find(SVG + "title").text, title)

    def test_reach_that_is_no_answer(self):
        told = "refused by question 7: there is no window 7: the plan has 7 windows, 0 to 6"
        self.says(1, told, "draw", "-", "--reach", 7, stdin=PLAN_12)
        self.says(2, "poddreshi: draw takes two positions or --reach, not both", "draw", "-", 1, 5, "--reach", 1, stdin=PLAN_12)
        hint = "a position is a number from 0; names come with --names"
        self.says(2, f'poddreshi: there is no window "x"; {hint}', "draw", "-", "--reach", "x", stdin=PLAN_12)

    def test_no_chain(self):
        sheet = self.drawn(PLAN_12, "5", "6")
        self.assertEqual(sheet.find(SVG + "title").text, "Plan 12, minimum handover 1: no chain between window 5 and window 6")
        self.assertEqual(list(sheet.iter(SVG + "circle")), [])

    def test_from_and_to(self):
        self.assertEqual(self.shown(self.drawn(PLAN_12, "--from", "10", "--to", "12")), [2, 3])
        self.assertEqual(self.shown(self.drawn(PLAN_12, "--from", "18")), [6])
        self.assertEqual(self.shown(self.drawn(PLAN_12, "--from", "22")), [])
        self.assertEqual(self.shown(self.drawn(PLAN_12, "--origin", "2026-01-01", "--to", "2026-01-01 00:02")), [0])

    def test_empty(self):
        self.assertEqual(self.shown(self.drawn(plan())), [])

    def test_stretches_with_no_window_are_cut(self):
        sheet = self.drawn(plan((0, 60), (30, 60), (100_000, 60), (9_000_000, 60)))
        cuts = [rect.find(SVG + "title").text for rect in sheet.iter(SVG + "rect") if rect.find(SVG + "title") is not None]
        cuts = [words for words in cuts if words.startswith("no window for")]
        self.assertEqual(cuts, ["no window for 99,910", "no window for 8,899,940"])
        self.assertTrue(all(float(bar.get("width")) > 100 for bar in self.bars(sheet)))

    def test_bars_can_be_seen(self):
        most = END_LIMIT - 1
        for file in (plan((0, 9_999_999), (5, 1), (9_999_999, 1)), plan((0, most), (5, 1), (most, 1)), plan((0, 1), (1, most))):
            self.assertTrue(all(float(bar.get("width")) >= 4 for bar in self.bars(self.drawn(file))))

    def labels(self, file: bytes, *options) -> list:
        """What stands over the marks of the first axis, from left to right: dates, and then labels."""
        texts = [text for text in self.drawn(file, *options).iter(SVG + "text") if text.get("text-anchor") == "middle"]
        first = sorted({float(text.get("y")) for text in texts})[: 2 if "--origin" in options else 1]
        return [[text.text for text in texts if float(text.get("y")) == line] for line in first]

    def test_marks_of_the_longest_axis(self):
        """Round numbers, or round numbers of days where the unit is known, or of years where there is an origin."""
        longest = plan((0, END_LIMIT))
        (numbers,), (minutes,), (seconds,) = (self.labels(longest, *unit) for unit in ((), MINUTES, SECONDS))
        self.assertEqual(numbers, [f"{500_000_000 * v:,}" for v in range(9)])
        self.assertEqual(minutes, [f"{1440 * 500_000 * v:,}" for v in range(6)])
        self.assertEqual(seconds, [f"{86_400 * 5000 * v:,}" for v in range(10)])
        dates, times = self.labels(longest, *SECONDS, "--origin", "2026-01-01")
        self.assertEqual(dates, ["2026-01-01", *(f"{year}-01-01" for year in range(2040, 2180, 20))])
        self.assertEqual(set(times), {"00:00"})
        dates, _ = self.labels(longest, "--origin", "0001-01-01")
        self.assertEqual(dates, ["0001-01-01", *(f"{year}-01-01" for year in range(1000, 9000, 1000))])

    def test_marks_by_the_unit(self):
        """Where a unit is known they are round by the clock."""
        for length, numbers, minutes, seconds in (
            (20, range(0, 21, 2), range(0, 21, 2), range(0, 21, 2)),
            (150, range(0, 151, 20), range(0, 151, 15), range(0, 151, 15)),
            (1000, range(0, 1001, 100), range(0, 1001, 120), range(0, 1001, 120)),
            (10_000, range(0, 10_001, 1000), range(0, 10_001, 1440), range(0, 10_001, 900)),
            (100_000, range(0, 100_001, 10_000), range(0, 100_001, 10_080), range(0, 100_001, 10_800)),
        ):
            for unit, due in (((), numbers), (MINUTES, minutes), (SECONDS, seconds)):
                self.assertEqual(self.labels(plan((0, length)), *unit), [[f"{number:,}" for number in due]], (length, unit))

    def test_marks_with_seconds(self):
        """A time has seconds where it has some, whatever the step."""
        origin = ("--origin", "2026-02-06 08:00", *SECONDS)
        self.assertEqual(self.labels(plan((0, 60)), *origin)[1][:4], ["08:00", "08:00:05", "08:00:10", "08:00:15"])
        self.assertEqual(self.labels(plan((20, 7200)), *origin)[1][:3], ["08:00:20", "08:10", "08:20"])
        self.assertEqual(self.labels(plan((395, 7200)), *origin)[1][:3], ["08:10", "08:20", "08:30"])

    def test_pictures_up_to_the_limit(self):
        for file in (
            plan((END_LIMIT - 1, 1)),
            plan((0, 1), (END_LIMIT - 1, 1)),
            plan((END_LIMIT - 300, 200), (END_LIMIT - 190, 190), minimum=90),
            plan((5, 5), (2**31, 10**9), (END_LIMIT - 1000, 1000)),
            plan(*((2_097_151 * v, 2_000_000 + v) for v in range(2047))),
        ):
            for options in ((), MINUTES, SECONDS, (*SECONDS, "--origin", "2026-01-01 00:00:30"), ("--origin", "0001-01-01")):
                self.assertEqual(len(self.bars(self.drawn(file, *options))), len(file) // 8 - 1)
                self.drawn(file, "--from", END_LIMIT - 100, *options)
        last = self.drawn(plan((0, 1), (END_LIMIT - 1, 1)), "--from", END_LIMIT - 1, "--to", END_LIMIT)
        self.assertEqual(self.shown(last), [1])

    def test_a_year_with_names_and_dates(self):
        year = self.answers("plan", 40, EXAMPLES / "year.txt", "--origin", "2026-01-01")
        options = ("--origin", "2026-01-01", "--names", EXAMPLES / "year.txt")
        sheet = self.drawn(year, *options)
        words = [text.text for text in sheet.iter(SVG + "text")]
        self.assertEqual(len(self.bars(sheet)), 60)
        self.assertIn("date", words)
        self.assertTrue(any(re.fullmatch(r"2026-\d\d-\d\d", word) for word in words))
        self.assertIn("Boathouse, lift  59", words)
        self.assertTrue(all(float(bar.get("width")) >= 10 for bar in self.bars(sheet)))
        self.drawn(year, "2", "7", *options)

    def test_the_pictures_in_docs(self):
        """They are what `draw` draws now; where that has changed for the better, draw them again."""
        options = ("--origin", "2026-01-01", "--names", EXAMPLES / "year.txt")
        year = self.answers("plan", 40, EXAMPLES / "year.txt", *options[:2])
        for name, picture in {
            "plan-12-chain.svg": self.answers("draw", "-", 3, 5, "--unit", "minutes", stdin=PLAN_12),
            "year.svg": self.answers("draw", "-", *options, stdin=year),
        }.items():
            self.assertEqual((ROOT / "docs" / "pictures" / name).read_bytes(), picture, name)

    def test_the_largest_plan(self):
        sheet = self.drawn(line_plan(), "0", "2047")
        self.assertEqual(len(self.bars(sheet)), 2048)
        self.assertTrue(float(sheet.get("width")) <= 1600 and float(sheet.get("height")) <= 32767)
        described = re.findall(r"window (\d+)", sheet.find(SVG + "desc").text)
        self.assertEqual([int(v) for v in described], list(range(2047, -1, -1)))

    def test_random_plans(self):
        generator = random.Random(7)
        names = self.file("names", "0 " + "W" * 300 + "\n1 渡し場" + "し" * 99 + "\n2 <&\"'>\n3 \ufffe\n")
        for case in range(35):
            count = generator.choice([4, 9, 70, 300])
            span, longest = generator.choice([5, 500, 50_000, 9_000_000, 3_000_000_000]), generator.choice([2, 50, 5000])
            windows = random_windows(generator, count, span, longest)
            dated = [("--origin", "2026-02-28 23:59"), ("--origin", "0001-01-01"), ("--origin", "2026-02-28 23:59:58", *SECONDS)]
            options = generator.choice([(), *dated, ("--names", names), SECONDS, MINUTES])
            some, other = str(generator.randrange(count)), str(generator.randrange(count))
            ends = generator.choice([(), (some, other), ("--reach", some)])
            span = generator.choice([(), ("--from", "2"), ("--from", "1", "--to", str(windows[-1][0] + 1))])
            self.drawn(plan(*windows), *ends, *options, *span)

    def test_a_decimal_comma_changes_nothing(self):
        """The same bytes where the process has a locale that writes 1,5, which is made here."""
        numbers = 'LC_NUMERIC\ndecimal_point ","\nthousands_sep "."\ngrouping 3;3\nEND LC_NUMERIC\n'
        source = self.file("comma", numbers + 'LC_CTYPE\ncopy "POSIX"\nEND LC_CTYPE\n')
        command = ["localedef", "-c", "-i", source, "-f", "ANSI_X3.4-1968", str(self.folder / "xx_XX")]
        if shutil.which("localedef"):
            subprocess.run(command, stdout=subprocess.DEVNULL, stderr=subprocess.DEVNULL)
        if not (self.folder / "xx_XX").exists():
            self.skipTest("no locale can be made here")
        code = (
            "import locale, sys\n"
            "locale.setlocale(locale.LC_ALL, '')\n"
            "assert locale.str(1.5) == '1,5'\n"
            "from poddreshi.__main__ import main\n"
            "sys.exit(main())"
        )
        own = {"LC_ALL": "xx_XX", "LOCPATH": str(self.folder), "PYTHONPATH": str(ROOT / "python")}
        command = [sys.executable, "-c", code, "draw", str(EXAMPLES / "plan-31.plan"), "10", "16"]
        drawn = subprocess.run(command, env={**os.environ, **PYTHON, **own}, stdout=subprocess.PIPE).stdout
        self.assertEqual(drawn, self.answers("draw", EXAMPLES / "plan-31.plan", 10, 16))

    def test_no_module_asks_for_the_locale(self):
        for module in (ROOT / "python" / "poddreshi").rglob("*.py"):
            self.assertNotRegex(module.read_text(encoding="utf-8"), r"import locale|strftime\(|:n}")


if __name__ == "__main__":
    unittest.main()
