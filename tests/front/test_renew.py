"""Plan files of before the minimum handover: made anew, and told where they are given for plans of now."""
import unittest

from support import END_LIMIT, EXAMPLES, LISTING_12, PLAN_12, Case, line_plan, old_plan, plan

import poddreshi

OLD_12 = PLAN_12[:4] + PLAN_12[8:]
HINT = "(it looks like a plan file of before the minimum handover; `poddreshi renew` makes a new one of it)"
BEFORE = "a plan file of before the minimum handover has"


class Renew(Case):
    def test_good(self):
        self.assertEqual(OLD_12, old_plan((0, 10), (2, 3), (4, 12), (9, 2), (12, 6), (17, 1), (18, 4)))
        self.assertEqual(self.answers("renew", "-", stdin=OLD_12), PLAN_12)
        self.assertEqual(self.answers("renew", "-", stdin=old_plan()), plan())
        old = self.file("old.plan", old_plan((0, 10), (5, 10), number=65_535))
        for words, minimum in {("--minimum", "5"): 5, ("--minimum", "10m"): 10, (): 1}.items():
            self.assertEqual(self.answers("renew", old, *words), plan((0, 10), (5, 10), number=65_535, minimum=minimum))
        longest = line_plan()
        self.assertEqual(self.answers("renew", "-", stdin=longest[:4] + longest[8:]), longest)

    def test_the_example(self):
        made = self.answers("renew", EXAMPLES / "plan-31.old", "--minimum", 15)
        self.assertEqual(made, (EXAMPLES / "plan-31.plan").read_bytes())

    def test_into_a_file_and_over_itself(self):
        old = self.file("x.plan", OLD_12)
        self.answers("renew", old, "-o", "y.plan")
        self.assertEqual(self.answers("list", "y.plan").decode(), LISTING_12)
        self.answers("renew", old, "-o", old)
        self.assertEqual((self.folder / "x.plan").read_bytes(), PLAN_12)

    def refused(self, words: str, *options, stdin: bytes):
        """In one line with status 1, and an output that is there stays as it was."""
        kept = self.folder / "kept"
        kept.write_bytes(b"as it was")
        self.says(1, words, "renew", "-", *options, "-o", kept, stdin=stdin)
        self.says(1, words, "renew", "-", *options, stdin=stdin)
        self.assertEqual(kept.read_bytes(), b"as it was")
        self.assertEqual([path.name for path in self.folder.iterdir()], ["kept"])

    def test_refused_by_the_library(self):
        two = old_plan((0, 10), (5, 10))
        for minimum in (0, 86_401):
            words = f"refused by question 14: the plan has a minimum handover of {minimum:,}; a minimum is 1 to 86,400"
            self.refused(words, "--minimum", minimum, stdin=two)
        words = "refused by question 4: window 0 of the plan has length 10; a length is at least the minimum handover, 11"
        self.refused(words, "--minimum", 11, stdin=two)
        words = "refused by question 4: window 1 of the plan has length 0; a length is at least the minimum handover, 1"
        self.refused(words, stdin=old_plan((0, 10), (5, 0)))
        words = "refused by question 5: window 0 of the plan ends at 4,294,967,296; an end is at most 4,294,967,295"
        self.refused(words, stdin=old_plan((END_LIMIT, 1)))
        words = "refused by question 6: window 1 of the plan begins at 4, earlier than the window before it, at 5"
        self.refused(words, stdin=old_plan((5, 5), (4, 5)))

    def test_no_old_plan_file(self):
        for file, words in {
            b"": f"has no bytes; {BEFORE} at least 4",
            b"\x0c\0\0": f"has 3 bytes; {BEFORE} at least 4",
            b"\x0c\0\x01\x08": "is said to have 2,049 windows; a plan has at most 2,048",
            OLD_12[:-1]: f"has 59 bytes; {BEFORE} exactly 60 with 7 windows",
            OLD_12 + b"\0": f"has 61 bytes; {BEFORE} exactly 60 with 7 windows",
            old_plan() + b"\0": f"has 5 bytes; {BEFORE} exactly 4 with no windows",
            OLD_12 + bytes(99_999): f"has more than 16,392 bytes; {BEFORE} exactly 60 with 7 windows",
        }.items():
            self.refused(f"standard input: the file {words}", stdin=file)

    def test_a_file_of_the_new_form(self):
        already = "that is a plan file with a minimum handover already"
        self.refused(f"standard input: the file has 64 bytes; with 7 windows {already}", stdin=PLAN_12)
        self.refused(f"standard input: the file has 8 bytes; with no windows {already}", stdin=plan(minimum=9))

    def test_inputs_that_fail(self):
        self.fails(3, "renew", "nowhere.plan", about="poddreshi: nowhere.plan: no such file or directory")

    def test_from_python(self):
        self.assertEqual(poddreshi.renewed(OLD_12), PLAN_12)
        self.assertEqual(poddreshi.renewed(bytearray(OLD_12), 9)[:8].hex(), "0c00070009000000")
        with self.assertRaisesRegex(ValueError, "the file has 64 bytes; with 7 windows that is a plan file with a minimum"):
            poddreshi.renewed(PLAN_12)


class Hint(Case):
    """An old file is refused by 1, 14 or 3, and then it is said what it looks like."""

    OLD = {
        old_plan(): "1: the plan has 4 bytes; a plan has at least 8",
        OLD_12: "14: the plan has a minimum handover of 0; a minimum is 1 to 86,400",
        old_plan((86_401, 5)): "14: the plan has a minimum handover of 86,401; a minimum is 1 to 86,400",
        old_plan((5, 5)): "3: the plan has 12 bytes; with 1 window it has exactly 16",
    }
    ASKING = (
        *(("tags",), ("tags", "--short"), ("chain", 0, 1), ("neighbours", 0), ("reach", 0), ("reach",), ("draw",), ("text",)),
        *(("add", 13, 0, 1), ("withdraw", 13, 0)),
    )

    def test_each_question_and_command(self):
        for file, words in self.OLD.items():
            for command, *rest in (*self.ASKING, ("list", "--json"), ("list", "--csv"), ("chains", "rigs")):
                self.says(1, f"refused by question {words} {HINT}", command, "-", *rest, stdin=file)

    def test_either_of_two(self):
        new = self.file("new.plan", PLAN_12)
        for which, files in {"first": ("-", new), "second": (new, "-")}.items():
            words = f"14: the {which} plan has a minimum handover of 0; a minimum is 1 to 86,400 {HINT}"
            self.says(1, f"refused by question {words}", "same", *files, stdin=OLD_12)

    def test_list_keeps_its_line(self):
        for file, words in self.OLD.items():
            done = self.run_front("list", "-", stdin=file)
            told = (f"refused {words.split(':')[0]} 0\n", f"{HINT}\n", 1)
            self.assertEqual((done.stdout.decode(), done.stderr.decode(), done.returncode), told)

    def test_no_hint_where_the_length_is_another(self):
        for file in (b"", OLD_12[:-1], OLD_12 + b"\0", plan(minimum=0), PLAN_12 + b"\0\0\0\0", plan((5, 5), (4, 5))):
            self.assertNotIn("renew", self.fails(1, "tags", "-", stdin=file))
            self.assertEqual(self.run_front("list", "-", stdin=file).stderr, b"")

    def test_no_hint_in_a_refusal_by_2(self):
        """More windows than a plan can have: no plan file of before either."""
        file = b"\x0c\0\x01\x08" + bytes(8 * 2049)
        self.assertNotIn("renew", self.fails(1, "tags", "-", stdin=file, about="refused by question 2"))


if __name__ == "__main__":
    unittest.main()
