"""Refusals in words: what is wrong, and where."""
import pickle
import re
import string
import unittest

from support import PLAN_12, ROOT, TAGS_12, Case, plan

import poddreshi
from poddreshi import figures, refusals


ASKED = {
    1: "Has the file at least {HEADER_LENGTH} bytes?",
    2: "Is n at most {WINDOWS_LIMIT:,}?",
    3: "Has the file exactly {HEADER_LENGTH} + {WINDOW_LENGTH} n bytes?",
    4: "Is the length at least the minimum handover?",
    5: "Is offset + length at most {END_LIMIT:,}?",
    6: "Is the offset at least that of the window before?",
    7: "Is the position below the number of windows or tags?",
    8: "Does each table hold what is to be written?",
    9: "Has the tag {TAG_LENGTH} bytes (a short tag {SHORT_TAG_LENGTH}), the tag file a multiple of that?",
    10: "Is each field after the plan number at most {FIELD_LIMIT:,}?",
    11: "Have both tags one plan number?",
    12: "Do two tags of equal component and equal rank agree in all fields?",
    13: "Is the end at least that of the window before?",
    14: "Is the minimum handover {MINIMUM_LEAST} to {MINIMUM_LIMIT:,}?",
    15: "Has the plan fewer than {WINDOWS_LIMIT:,} windows?",
    16: "Is the new plan number another than the old?",
}


def as_in_the_document(template: str) -> str:
    """The figures filled in, and the names left as they are."""
    parts = []
    for literal, name, form, _ in string.Formatter().parse(template):
        parts.append(literal)
        if name is not None:
            figure = getattr(figures, name, None)
            parts.append(f"{{{name}}}" if figure is None else format(figure, form))
    return "".join(parts)


class Words(Case):
    def refused(self, words: str, *command, **options):
        self.says(1, f"refused by question {words}", *command, **options)

    def test_each_question_of_a_plan(self):
        for file, words in {
            b"\x0c\0\0": "1: the plan has 3 bytes; a plan has at least 8",
            b"\x0c\0\x01\x08\0\0\0\0": "2: the plan is said to have 2,049 windows; a plan has at most 2,048",
            plan(minimum=0): "14: the plan has a minimum handover of 0; a minimum is 1 to 86,400",
            plan((0, 9), minimum=86_401)[:-1]: "14: the plan has a minimum handover of 86,401; a minimum is 1 to 86,400",
            plan(minimum=2**32 - 1): "14: the plan has a minimum handover of 4,294,967,295; a minimum is 1 to 86,400",
            plan() + b"\0": "3: the plan has 9 bytes; with no windows it has exactly 8",
            plan((5, 5), (4, 0)): "4: window 1 of the plan has length 0; a length is at least the minimum handover, 1",
            plan((0, 1440), (5, 1439), minimum=1440): "4: window 1 of the plan has length 1,439; "
            "a length is at least the minimum handover, 1,440",
            plan((2**32 - 2, 2)): "5: window 0 of the plan ends at 4,294,967,296; an end is at most 4,294,967,295",
            plan((2**32 - 1, 2**32 - 1)): "5: window 0 of the plan ends at 8,589,934,590; an end is at most 4,294,967,295",
            plan((5, 5), (4, 5)): "6: window 1 of the plan begins at 4, earlier than the window before it, at 5",
        }.items():
            self.refused(words, "tags", "-", stdin=file)

    def test_positions(self):
        name = self.file("12.plan", PLAN_12)
        self.refused("7: there is no window 7: the plan has 7 windows, 0 to 6", "chain", name, 0, 7)
        self.refused("7: there is no window 99: the plan has no windows", "reach", "-", 99, stdin=plan())
        self.refused("7: there is no window 1: the plan has 1 window, window 0", "neighbours", "-", 1, stdin=plan((0, 1)))
        tags = self.file("12.tags", TAGS_12)
        self.refused("7: there is no window 1,000: the tag file has 7 tags, 0 to 6", "count", tags, 1, 1000)
        self.refused(f"7: there is no window {2**64:,}: the tag file has 7 tags, 0 to 6", "tag", tags, 2**64)

    def test_which_of_two(self):
        name = self.file("12.plan", PLAN_12)
        self.refused("1: the second plan has no bytes; a plan has at least 8", "same", name, "-")
        self.refused("1: the first plan has no bytes; a plan has at least 8", "same", "-", name)
        words = "14: the second plan has a minimum handover of 0; a minimum is 1 to 86,400"
        self.refused(words, "same", name, "-", stdin=plan(minimum=0))
        words = "4: window 0 of the first plan has length 10; a length is at least the minimum handover, 11"
        self.refused(words, "same", "-", name, stdin=plan((0, 10), (5, 10), minimum=11))
        tag, short = self.file("0.tag", TAGS_12[:10]), self.file("short.tag", TAGS_12[:9])
        self.refused("9: the second tag has 9 bytes; a tag has 10", "count", tag, short)
        self.refused("9: the first tag has more than 10 bytes; a tag has 10", "count", "-", tag, stdin=TAGS_12)

    def test_tags(self):
        tag = self.file("0.tag", TAGS_12[:10])
        for other, words in {
            "0c000008010003000200": "10: the second tag has component 2,048; each is at most 2,047",
            "0c000000000803000a10": "10: the second tag has depth 2,048 and rank of the last 4,106; each is at most 2,047",
            "0d000000000005000400": "11: the first tag is of plan 12 and the second of plan 13",
            "0c000000000005000300": "12: the two tags have component 0 and rank 5 alike and differ elsewhere, "
            "so they are not both of one plan",
        }.items():
            self.refused(words, "count", tag, "-", stdin=bytes.fromhex(other))
        self.refused("9: the tag file has 69 bytes; a tag file has a multiple of 10", "tag", "-", 0, stdin=TAGS_12[1:])
        # In a tag file the tags at the two positions are meant.
        mixed = TAGS_12[:10] + b"\x0d" + TAGS_12[11:20]
        self.refused("11: the first tag is of plan 12 and the second of plan 13", "count", "-", 0, 1, stdin=mixed)
        self.refused("9: the tag has 3 bytes; a tag has 10", "explain", "-", stdin=b"\x0c\0\0")

    def test_a_plan_that_is_too_long_is_not_read_to_its_end(self):
        with open("/dev/zero", "rb") as endless:
            words = "14: the plan has a minimum handover of 0; a minimum is 1 to 86,400"
            self.refused(words, "tags", "-", stdin_file=endless)
        words = "3: the plan has more than 16,392 bytes; with no windows it has exactly 8"
        self.refused(words, "tags", "-", stdin=plan() + bytes(100_000))

    def test_no_question_without_words(self):
        for number in refusals.WORDS:
            for input in (0, 1):
                self.assertTrue(str(refusals.Refused(number, input, 3)).startswith(f"refused by question {number}: "))
                self.assertNotIn("{", str(refusals.Refused(number, input, 3)))
                self.assertNotIn("{", str(refusals.refusal(number, input, 3, refusals.Asked())))

    def test_a_refusal_can_be_sent_to_another_process(self):
        with self.assertRaises(refusals.Refused) as caught:
            poddreshi.reach(PLAN_12, 7)
        sent = pickle.loads(pickle.dumps(caught.exception))
        self.assertEqual((str(sent), sent.number, sent.input, sent.position), (str(caught.exception), 7, 0, 0))

    def test_the_formats_document_has_the_same_words(self):
        text = (ROOT / "docs" / "FORMAT.md").read_text(encoding="utf-8")
        _, found, section = text.partition("\n## Words for refusals\n")
        if not found:
            self.skipTest("docs/FORMAT.md has no words for refusals")
        row = re.compile(r"^\| (\d+) \| ([^|]+) \|", re.M)
        asked = {int(number): words for number, words in row.findall(text) if words.endswith("?")}
        self.assertEqual(asked, {number: as_in_the_document(words) for number, words in ASKED.items()})
        said = {int(number): words for number, words in row.findall(section.partition("\n## ")[0])}
        self.assertEqual(said, {number: as_in_the_document(words) for number, words in refusals.WORDS.items()})


if __name__ == "__main__":
    unittest.main()
