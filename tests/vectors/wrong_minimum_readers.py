"""Wrong readers of the minimum handover, beside those of wrong_readers.py and of the same kind: the right one with one mistake
each.

Mistakes that no vector can show are not here: the shared units counted up to the end of u alone (in an accepted plan every
window is at least as long as the minimum, so the end of the later one decides nothing); the minimum less one taken from every
length before windows are asked for a shared unit, which is the same question; 13 asked only of windows that overlap (one that
ends before the window ahead of it lies in that, and shares all its units with it).
"""
from reader import Reader
from wrong_readers import InRounds, comparing, mistaken, refusing, wrong
from wrong_short_readers import WRONG

__all__ = ["WRONG"]

# The bytes.


def reading(name, mistake, minimum):
    wrong(name, mistake, minimum=lambda self, file: minimum(file))


reading("MinimumHighestByteFirst", "the minimum read highest byte first", lambda file: int.from_bytes(file[4:8], "big"))
reading("MinimumInTwoBytes", "the minimum read from its two low bytes", lambda file: int.from_bytes(file[4:6], "little"))
reading("MinimumInOneByte", "the minimum read from its low byte", lambda file: file[4])
reading("MinimumInThreeBytes", "the minimum read from its three low bytes", lambda file: int.from_bytes(file[4:7], "little"))
reading("MinimumFromItsHighHalf", "the minimum read from its two high bytes", lambda file: int.from_bytes(file[6:8], "little"))
reading("MinimumFromTheCount", "the minimum read from the number of windows", lambda file: int.from_bytes(file[2:4], "little"))
reading("MinimumOneTooEarly", "the minimum read from bytes 3 to 6", lambda file: int.from_bytes(file[3:7], "little"))
reading("MinimumOneTooLate", "the minimum read from bytes 5 to 8", lambda file: int.from_bytes(file[5:9], "little"))
reading("MinimumHalvesSwapped", "the minimum read as two halves, the high one first",
        lambda file: int.from_bytes(file[6:8] + file[4:6], "little"))
reading("MinimumBehindTheWindows", "the minimum read from the last four bytes", lambda file: int.from_bytes(file[-4:], "little"))
reading("MinimumFromTheFirstWindow", "the minimum read from bytes 8 to 11", lambda file: int.from_bytes(file[8:12], "little"))
reading("MinimumLeftOut", "the minimum passed over, and 1 taken for it", lambda file: 1)
reading("MinimumInHours", "the minimum read as hours", lambda file: 60 * int.from_bytes(file[4:8], "little"))
reading("MinimumFromZero", "the minimum read as one more than stands there", lambda file: int.from_bytes(file[4:8], "little") + 1)


wrong("MinimumSigned", "the minimum read as a signed number, of which 14 asks that it is not 0 and not above 86,400",
      minimum=lambda self, file: int.from_bytes(file[4:8], "little", signed=True),
      question_14=lambda self, minimum: minimum != 0 and minimum <= 86_400)
wrong("WindowsFromFour", "windows read from byte 4 on, as before the minimum",
      window=lambda self, file, at: (self.number(file[4 + 8 * at : 8 + 8 * at]), self.number(file[8 + 8 * at : 12 + 8 * at])))


@mistaken("the minimum read before the number of windows")
class MinimumBeforeTheCount(Reader):
    def header(self, file):
        return self.number(file[0:2]), self.number(file[6:8])

    def minimum(self, file):
        return self.number(file[2:6])


wrong("MinimumFirst", "the minimum read from the first four bytes, and the plan number and n behind it",
      header=lambda self, file: (self.number(file[4:6]), self.number(file[6:8])),
      minimum=lambda self, file: self.number(file[0:4]))
wrong("MinimumOfEachWindow", "twelve bytes for each window, of which the first four are its own minimum",
      window=lambda self, file, at: (
          self.number(file[12 + 12 * at : 16 + 12 * at]), self.number(file[16 + 12 * at : 20 + 12 * at])))

# Questions 1 and 3, which count the header.

wrong("FourBytesForOne", "1 asks for 4 bytes, and a byte past the end is 0", question_1=lambda self, file: len(file) >= 4)
wrong("FiveBytesForOne", "1 asks for more than 4 bytes", question_1=lambda self, file: len(file) > 4)
wrong("SixteenBytesForOne", "1 asks for a header and a window", question_1=lambda self, file: len(file) >= 16)
wrong("ThreeOfTheOldHeader", "3 asks for 4 + 8 n bytes", question_3=lambda self, file, windows: len(file) == 4 + 8 * windows)
wrong("ThreeOfEitherHeader", "3 lets a file of 4 + 8 n bytes pass too, with a byte past the end as 0",
      question_3=lambda self, file, windows: len(file) in (4 + 8 * windows, 8 + 8 * windows))
wrong("ThreeOfTwelve", "3 asks for 12 + 8 n bytes", question_3=lambda self, file, windows: len(file) == 12 + 8 * windows)


@mistaken("a file of 4 + 8 n bytes read as one of before, with a minimum of 1")
class OldFilesTaken(Reader):
    def read_plan(self, file, input=0):
        if len(file) >= 4 and len(file) == 4 + 8 * self.number(file[2:4]):
            file = file[:4] + b"\1\0\0\0" + file[4:]
        return super().read_plan(file, input)


# Question 14.


def limited(name, mistake, question):
    wrong(name, mistake, question_14=lambda self, minimum: question(minimum))


limited("NoFourteen", "14 is not asked", lambda minimum: True)
limited("ZeroPasses", "14 lets 0 pass", lambda minimum: minimum <= 86_400)
limited("OneRefused", "14 refuses 1", lambda minimum: 1 < minimum <= 86_400)
limited("NoUpperLimit", "14 refuses 0 alone", lambda minimum: minimum >= 1)
limited("UpTo86401", "14 lets 86,401 pass", lambda minimum: 1 <= minimum <= 86_401)
limited("Below86400", "14 refuses 86,400", lambda minimum: 1 <= minimum < 86_400)
limited("UpToADay", "14 lets a day of minutes pass and no more", lambda minimum: 1 <= minimum <= 1_440)
limited("UpToTwoBytes", "14 lets 65,535 pass and no more", lambda minimum: 1 <= minimum <= 65_535)
limited("UpToTheOldEnds", "14 lets pass what an end could be up to revision 8", lambda minimum: 1 <= minimum <= 10_000_000)
limited("UpToTheWindows", "14 asks for at most 2,048", lambda minimum: 1 <= minimum <= 2_048)
limited("FourteenIn16Bits", "14 compares in 16 bits", lambda minimum: 1 <= minimum % 2**16 <= 86_400)
wrong("ZeroForOne", "14 lets 0 pass, which is taken as 1", question_14=lambda self, minimum: minimum <= 86_400,
      minimum=lambda self, file: max(Reader.minimum(self, file), 1))
wrong("HeldToTheLimit", "a minimum above 86,400 taken as 86,400",
      minimum=lambda self, file: min(Reader.minimum(self, file), 86_400))


def in_turn(name, mistake, order):
    """A reader that asks the questions of a file in another order."""

    def ask_file(self, file, input):
        windows, minimum = self.header(file)[1], self.minimum(file)
        yes = {1: self.question_1(file), 2: self.question_2(windows), 3: self.question_3(file, windows)}
        for number in order:
            self.ask(self.question_14(minimum) if number == 14 else yes[number], number, input)

    wrong(name, mistake, ask_file=ask_file)


in_turn("FourteenAfterThree", "14 after 3", (1, 2, 3, 14))
in_turn("FourteenBeforeTwo", "14 before 2", (1, 14, 2, 3))
in_turn("FourteenBeforeOne", "14 before 1, with a byte past the end as 0", (14, 1, 2, 3))


@mistaken("14 after 4, 5 and 6 of all windows")
class FourteenAtLast(Reader):
    def ask_file(self, file, input):
        self.ask(self.question_1(file), 1, input)
        self.ask(self.question_2(self.header(file)[1]), 2, input)
        self.ask(self.question_3(file, self.header(file)[1]), 3, input)

    def ask_windows(self, pairs, minimum, input):
        super().ask_windows(pairs, minimum, input)
        self.ask(self.question_14(minimum), 14, input)


@mistaken("14 asked of a plan that has windows, and not of the empty one")
class FourteenOfWindows(Reader):
    def ask_file(self, file, input):
        if len(file) == 8 and self.header(file)[1] == 0:
            return
        super().ask_file(file, input)


refusing("FourteenAsFour", "a minimum that is refused, refused by 4",
         lambda number, input, at: (4 if number == 14 else number, input, at))
refusing("FourteenOfInputOne", "14 has input 1", lambda number, input, at: (number, 1 if number == 14 else input, at))
refusing("FourteenOfInputZero", "14 has input 0 for a second file",
         lambda number, input, at: (number, 0 if number == 14 else input, at))
refusing("FourteenAtPositionFour", "14 names the byte at which the minimum stands",
         lambda number, input, at: (number, input, 4 if number == 14 else at))

# Question 4.


def lengths(name, mistake, question):
    wrong(name, mistake, question_4=lambda self, length, minimum: question(length, minimum))


lengths("FourAgainstOne", "4 asks for a length of at least 1", lambda length, minimum: length >= 1)
lengths("OneUnitShorter", "4 lets a window pass that is a unit shorter than the minimum",
        lambda length, minimum: length + 1 >= minimum and length > 0)
lengths("FourTwiceTheMinimum", "4 asks for twice the minimum, a handover at either end",
        lambda length, minimum: length >= (2 * minimum if minimum > 1 else 1))
lengths("FourIn16Bits", "4 compares in 16 bits", lambda length, minimum: length > 0 and length % 2**16 >= minimum % 2**16)
lengths("FourInOneByte", "4 compares in one byte", lambda length, minimum: length > 0 and length % 256 >= minimum % 256)
wrong("FourOfTheEnd", "4 asked of the end, not of the length",
      ask_window=lambda self, pairs, minimum, at, input: (
          self.ask(self.question_4(sum(pairs[at]) if pairs[at][1] else 0, minimum), 4, input, at),
          Reader.ask_window(self, pairs, 1, at, input)))
wrong("FourOfTheFirst", "4 asked against the minimum of window 0 alone, and of the others against 1",
      ask_window=lambda self, pairs, minimum, at, input: Reader.ask_window(self, pairs, minimum if at == 0 else 1, at, input))
wrong("FourOfTheLater", "4 not asked against the minimum of window 0, which nothing comes before",
      ask_window=lambda self, pairs, minimum, at, input: Reader.ask_window(self, pairs, minimum if at else 1, at, input))


@mistaken("4 asked against 1 in its turn, and against the minimum once 6 has passed for all windows")
class MinimumAtLast(Reader):
    def ask_windows(self, pairs, minimum, input):
        super().ask_windows(pairs, 1, input)
        for at, (_, length) in enumerate(pairs):
            self.ask(self.question_4(length, minimum), 4, input, at)


@mistaken("4 against the minimum after 5 and 6 of the same window")
class MinimumAfterSix(Reader):
    def ask_window(self, pairs, minimum, at, input):
        super().ask_window(pairs, 1, at, input)
        self.ask(self.question_4(pairs[at][1], minimum), 4, input, at)


wrong("FourAfterFiveAndSix", "4 after 5 and 6", InRounds, ROUNDS=((5, 6, 4),))


@mistaken("a window that is shorter than the minimum is left out, and not refused")
class ShortWindowsLeftOut(Reader):
    def read_plan(self, file, input=0):
        self.ask_file(file, input)
        minimum = self.minimum(file)
        pairs = [self.window(file, at) for at in range(self.header(file)[1])]
        kept = [pair for pair in pairs if pair[1] == 0 or pair[1] >= minimum]
        rest = b"".join(number.to_bytes(4, "little") for pair in kept for number in pair)
        return super().read_plan(file[:2] + self.two_bytes(len(kept)) + file[4:8] + rest, input)


# Overlap.


def overlapping(name, mistake, overlap):
    """Of the minimum, the earlier window and the later, each with its offset and its end."""
    wrong(name, mistake, overlap=lambda self, plan, u, v: overlap(
        plan.minimum, plan.offsets[u], plan.ends[u], plan.offsets[v], plan.ends[v]))


overlapping("MinimumIgnored", "windows that share a unit taken as overlapping", lambda m, a, b, c, d: c < b)
overlapping("MoreThanTheMinimum", "windows that share just the minimum taken as not overlapping",
            lambda m, a, b, c, d: c + m < b)
overlapping("OneUnitLessThanTheMinimum", "windows that share a unit less than the minimum taken as overlapping",
            lambda m, a, b, c, d: c + max(m - 1, 1) <= b)
overlapping("WrapsBelowZero", "the end of u less the offset of v taken without a sign, so that windows apart share very much",
            lambda m, a, b, c, d: (b - c) % 2**32 >= m)
overlapping("DifferenceIn16Bits", "the end of u less the minimum taken in 16 bits", lambda m, a, b, c, d: c <= (b - m) % 2**16)
overlapping("SumIn16Bits", "the offset of v and the minimum added in 16 bits", lambda m, a, b, c, d: (c + m) % 2**16 <= b)
overlapping("SumInOneByte", "the minimum kept in one byte where windows are compared",
            lambda m, a, b, c, d: c + (m % 256 or 1) <= b)
overlapping("TwiceTheMinimum", "the minimum taken off twice, at either end", lambda m, a, b, c, d: c + 2 * m - 1 <= b)
overlapping("DistanceOfEnds", "the minimum compared with what lies between the ends",
            lambda m, a, b, c, d: c < b and abs(d - b) >= m)
overlapping("DistanceOfOffsets", "the minimum compared with what lies between the offsets",
            lambda m, a, b, c, d: c < b and c - a >= m)
overlapping("AtMostTheMinimum", "windows apart by less than the minimum taken as overlapping", lambda m, a, b, c, d: c < b + m)
overlapping("EndOfTheLater", "the end of the later window compared with the offset of the earlier",
            lambda m, a, b, c, d: a + m <= d)
overlapping("WholeWindows", "only windows of which one lies in the other share the minimum",
            lambda m, a, b, c, d: c < b and d <= b)
overlapping("EqualOffsetsOfTheMinimum", "equal offsets taken as not overlapping where the length is just the minimum",
            lambda m, a, b, c, d: c + m <= b and not (a == c and b == a + m))
overlapping("CappedAtADay", "the minimum held to a day where windows are compared",
            lambda m, a, b, c, d: c + min(m, 1_440) <= b)


# The minimum heeded in all but one thing.


def heedless(plan):
    return plan._replace(minimum=1)


wrong("ParentsByAUnit", "parents by shared units, lasts by the minimum",
      parent=lambda self, plan, v: Reader.parent(self, heedless(plan), v))
wrong("LastsByAUnit", "lasts by shared units, parents by the minimum",
      last=lambda self, plan, u: Reader.last(self, heedless(plan), u))
wrong("ChainsByAUnit", "chains and neighbours by shared units",
      overlapping=lambda self, plan, u, v: Reader.overlapping(self, heedless(plan), u, v))
wrong("ComponentsByAUnit", "components by shared units",
      tree=lambda self, plan: Reader.tree(self, plan)._replace(components=Reader.tree(self, heedless(plan)).components))
wrong("DepthsByAUnit", "depths by shared units",
      tree=lambda self, plan: Reader.tree(self, plan)._replace(depths=Reader.tree(self, heedless(plan)).depths))


class Heedless(Reader):
    """Windows that share a unit taken as overlapping, once the questions are asked."""

    def overlap(self, plan, u, v):
        return super().overlap(heedless(plan), u, v)


for _call in ("build", "tags", "parents", "lasts", "chain", "neighbours", "reach", "same", "add", "withdraw", "short_tags"):
    wrong("Heedless" + _call.title().replace("_", ""), f"the minimum heeded in every call but {_call}",
          **{_call: lambda self, *arguments, call=_call: getattr(Heedless(), call)(*arguments)})

# Sameness.

comparing("SameMinimums", "sameness asks for equal minimums too",
          lambda self, a, b: a.minimum == b.minimum and self.last_table(a) == self.last_table(b))
comparing("MinimumOfTheFirst", "sameness by the minimum of the first plan for both",
          lambda self, a, b: self.last_table(a) == self.last_table(b._replace(minimum=a.minimum)))
comparing("MinimumOfTheSecond", "sameness by the minimum of the second plan for both",
          lambda self, a, b: self.last_table(a._replace(minimum=b.minimum)) == self.last_table(b))
comparing("GreaterMinimum", "sameness by the greater minimum for both",
          lambda self, a, b: self.last_table(a._replace(minimum=max(a.minimum, b.minimum)))
          == self.last_table(b._replace(minimum=max(a.minimum, b.minimum))))
comparing("SameWindowsAlone", "equal windows called the same whatever the minimums",
          lambda self, a, b: (a.offsets, a.lengths) == (b.offsets, b.lengths) or self.last_table(a) == self.last_table(b))
wrong("FourOfTheFirstMinimum", "4 of the second file asked against the minimum of the first",
      same=lambda self, first, second: Reader.same(
          self, first, second if len(first) < 8 or len(second) < 8 else second[:4] + first[4:8] + second[8:]))

# Short tags.

wrong("EvenByTheMinimum", "13 lets an end pass that falls by less than the minimum",
      ask_even=lambda self, plan: [
          self.ask(plan.ends[v] + plan.minimum > plan.ends[v - 1], 13, 0, v) for v in range(1, len(plan.ends))])
