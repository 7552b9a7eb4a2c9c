"""Wrong readers of a margin, beside those of wrong_readers.py and of the same kind: the right one with one mistake each.

A mistake that no vector can show is not here: the two lengths added, less what lies from the smaller offset to the greater end
(that is the margin). wrong_end_readers.py has those of margins that need more than 31 bits.
"""
from reader import Reader, Refused
from wrong_change_readers import WRONG, InTurn
from wrong_readers import mistaken, wrong

__all__ = ["WRONG"]

# What the margin is made of.


def made(name, mistake, number):
    """A reader that makes the margin otherwise: of offset and end of the first window named, and of the second."""
    wrong(name, mistake, margin_of=lambda self, plan, u, v: number(plan.offsets[u], plan.ends[u], plan.offsets[v], plan.ends[v]))


made("GreaterEnd", "the greater end less the greater offset", lambda a, b, c, d: max(b, d) - max(a, c))
made("SmallerOffset", "the smaller end less the smaller offset", lambda a, b, c, d: min(b, d) - min(a, c))
made("WholeSpan", "the greater end less the smaller offset", lambda a, b, c, d: max(b, d) - min(a, c))
made("OffsetLessEnd", "the greater offset less the smaller end", lambda a, b, c, d: max(a, c) - min(b, d))
made("EndByOffsets", "the end of the window of smaller offset, whichever ends first",
     lambda a, b, c, d: (b if a <= c else d) - max(a, c))
made("EndWithItsOffset", "the end of the window of greater offset, whichever ends first",
     lambda a, b, c, d: (d if a <= c else b) - max(a, c))
made("OffsetByEnds", "the offset of the window of greater end, whichever begins last",
     lambda a, b, c, d: min(b, d) - (c if b <= d else a))
made("OffsetWithItsEnd", "the offset of the window of smaller end, whichever begins last",
     lambda a, b, c, d: min(b, d) - (a if b <= d else c))
made("FirstToSecond", "the end of the first window named less the offset of the second", lambda a, b, c, d: b - c)
made("SecondToFirst", "the end of the second window named less the offset of the first", lambda a, b, c, d: d - a)
made("OffsetsApart", "what lies between the offsets for the margin", lambda a, b, c, d: abs(a - c))
made("EndsApart", "what lies between the ends for the margin", lambda a, b, c, d: abs(b - d))
made("ShorterLessOffsets", "the smaller length less what lies between the offsets",
     lambda a, b, c, d: min(b - a, d - c) - abs(a - c))
made("LengthsForEnds", "the smaller length less the greater offset", lambda a, b, c, d: min(b - a, d - c) - max(a, c))
made("ShorterShared", "the smaller length where units are shared, as if one window lay in the other",
     lambda a, b, c, d: min(b - a, d - c) if max(a, c) < min(b, d) else min(b, d) - max(a, c))
wrong("EarlierToLater", "the end of the window of smaller position less the offset of the other",
      margin_of=lambda self, plan, u, v: plan.ends[min(u, v)] - plan.offsets[max(u, v)])

# The number.


def altered(name, mistake, change):
    """A reader whose margin is the right one, altered."""
    wrong(name, mistake, margin_of=lambda self, plan, u, v: change(Reader.margin_of(self, plan, u, v)))


altered("GapWithoutSign", "a gap given without its sign", abs)
altered("GapAsZero", "a gap given as 0", lambda margin: max(margin, 0))
altered("GapAsOne", "every gap given as -1", lambda margin: max(margin, -1))
altered("SharedAsZero", "shared units given as 0", lambda margin: min(margin, 0))
altered("SharedAsOne", "shared units given as 1", lambda margin: min(margin, 1))
altered("MarginLessOne", "a unit less, as if a window ended with the last unit that it covers", lambda margin: margin - 1)
altered("MarginPlusOne", "a unit more, as if a window covered its end", lambda margin: margin + 1)
altered("SharedLessOne", "shared units less one", lambda margin: margin - (margin > 0))
altered("SharedPlusOne", "shared units and one more", lambda margin: margin + (margin > 0))
altered("GapPlusOne", "a gap and a unit more", lambda margin: margin - (margin < 0))
altered("GapLessOne", "a gap less a unit", lambda margin: margin + (margin < 0))
altered("TouchingShares", "a shared unit given to windows that touch", lambda margin: margin or 1)
altered("TouchingLiesApart", "a gap of a unit given to windows that touch", lambda margin: margin or -1)


def kept(name, mistake, bits, lowest=0):
    """A reader that keeps so many bits of the margin."""
    altered(name, mistake, lambda margin: (margin - lowest) % 2**bits + lowest)


kept("MarginInOneByte", "the margin kept in one byte without a sign", 8)
kept("MarginInASignedByte", "the margin kept in one byte with a sign", 8, -(2**7))
kept("MarginIn16Bits", "the margin kept in 16 bits without a sign", 16)
kept("MarginIn16SignedBits", "the margin kept in 16 bits with a sign", 16, -(2**15))
kept("MarginIn24SignedBits", "the margin kept in 24 bits with a sign", 24, -(2**23))
kept("MarginIn32Bits", "the margin formed without a sign in 32 bits, or cut to these, so that a gap is very great", 32)
kept("MarginIn64Bits", "the margin formed without a sign in 64 bits", 64)
altered("MarginHeldTo16Bits", "the margin held to what 16 bits with a sign can hold",
        lambda margin: min(max(margin, -(2**15)), 2**15 - 1))
altered("MarginHeldTo86400", "the margin held to 86,400, as a minimum is", lambda margin: min(margin, 86_400))

# The two windows.


def named(name, mistake, windows):
    """A reader that takes other positions for the two that are named."""
    wrong(name, mistake, margin_of=lambda self, plan, u, v: Reader.margin_of(self, plan, *windows(plan, u, v)))


named("FirstTwice", "the first window with itself, whatever the second", lambda plan, u, v: (u, u))
named("SecondTwice", "the second window with itself, whatever the first", lambda plan, u, v: (v, v))
named("MarginFromOne", "positions counted from 1 in margin", lambda plan, u, v: (u - 1, v - 1))
named("MarginAtOneByte", "positions kept in one byte in margin", lambda plan, u, v: (u % 256, v % 256))
named("FirstOfTheOffset", "for each window the first of the same offset",
      lambda plan, u, v: [plan.offsets.index(plan.offsets[w]) for w in (u, v)])


def but_for(name, mistake, asked, margin):
    """A reader that gives something else for some two positions."""
    wrong(name, mistake, margin_of=lambda self, plan, u, v: (
        margin(self, plan, u) if asked(plan, u, v) else Reader.margin_of(self, plan, u, v)))


but_for("ItselfAsZero", "a window with itself given 0", lambda plan, u, v: u == v, lambda self, plan, u: 0)
but_for("ItselfAsItsEnd", "a window with itself given its end", lambda plan, u, v: u == v, lambda self, plan, u: plan.ends[u])
but_for("EqualAsZero", "two equal windows given 0, as if they were one",
        lambda plan, u, v: u != v and (plan.offsets[u], plan.ends[u]) == (plan.offsets[v], plan.ends[v]),
        lambda self, plan, u: 0)
wrong("SignOfTheOrder", "the sign turned round where the second position is the smaller",
      margin_of=lambda self, plan, u, v: Reader.margin_of(self, plan, u, v) * (-1 if v < u else 1))


class BesideOthers(Reader):
    """In a margin of this sign, units that a third window covers do not count."""

    SIGN = 1

    def margin_of(self, plan, u, v):
        margin = super().margin_of(plan, u, v)
        if margin * self.SIGN <= 0:
            return margin
        others = [range(*span) for w, span in enumerate(zip(plan.offsets, plan.ends)) if w not in (u, v)]
        start, stop = sorted((max(plan.offsets[u], plan.offsets[v]), min(plan.ends[u], plan.ends[v])))
        cuts = sorted({start, stop, *(cut for one in others for cut in (one.start, one.stop) if start < cut < stop)})
        return self.SIGN * sum(b - a for a, b in zip(cuts, cuts[1:]) if not any(a in one for one in others))


wrong("GapBesideOthers", "of a gap only the units that no window covers", BesideOthers, SIGN=-1)
wrong("SharedBesideOthers", "of shared units only those that no third window covers", BesideOthers)

# The minimum.


def by_minimum(name, mistake, change):
    """A reader that makes something else of the right margin and the minimum."""
    wrong(name, mistake, margin_of=lambda self, plan, u, v: change(Reader.margin_of(self, plan, u, v), plan.minimum))


by_minimum("LessTheMinimum", "the margin less the minimum", lambda margin, minimum: margin - minimum)
by_minimum("LessWhatIsAboveOne", "the margin less what the minimum has above 1", lambda margin, minimum: margin - minimum + 1)
by_minimum("TooFewAsZero", "shared units below the minimum given as 0, since the windows do not overlap",
           lambda margin, minimum: 0 if 0 < margin < minimum else margin)
by_minimum("TooFewAsAGap", "shared units below the minimum given as those that are missing, below 0",
           lambda margin, minimum: margin - minimum if 0 < margin < minimum else margin)
by_minimum("HeldToTheMinimum", "the margin held to the minimum", min)
wrong("MarginAlongAChain", "two windows that no chain joins given 0",
      margin_of=lambda self, plan, u, v: (
          0 if self.handovers_to(self.beside(plan), u)[v] is None else Reader.margin_of(self, plan, u, v)))


def by_margin(name, mistake, overlap):
    """A reader that takes windows as overlapping by their margin and the minimum."""
    wrong(name, mistake, overlap=lambda self, plan, u, v: overlap(self.margin_of(plan, u, v), plan.minimum))


by_margin("MarginAboveTheMinimum", "windows taken as overlapping where their margin is above the minimum",
          lambda margin, minimum: margin > minimum)
by_margin("MarginAboveZero", "windows taken as overlapping where their margin is above 0", lambda margin, minimum: margin > 0)
by_margin("MarginWithoutSign", "windows taken as overlapping where their margin without its sign is at least the minimum",
          lambda margin, minimum: abs(margin) >= minimum)

# Questions.


def asking(name, mistake, ask):
    """A reader that asks something in margin, once the plan is accepted, before the questions in their turn."""

    def margin(self, file, first, second, place):
        ask(self, self.read_plan(file), first, second)
        Reader.margin(self, file, first, second, place)

    wrong(name, mistake, margin=margin)


asking("MarginAsksTheSecondFirst", "7 asked of the second position first in margin",
       lambda self, plan, first, second: self.ask(self.question_7(second, len(plan.offsets)), 7, 1))
asking("MarginAsksTheGreater", "7 asked of the greater position in margin, with input 0",
       lambda self, plan, first, second: self.ask(self.question_7(max(first, second), len(plan.offsets)), 7))
asking("MarginAsksTheGreaterFirst", "7 asked of the greater position first in margin, with the input that it has",
       lambda self, plan, first, second: self.ask(
           self.question_7(max(first, second), len(plan.offsets)), 7, int(first < second)))
asking("ItselfRefused", "a window with itself refused by 7, for want of a second",
       lambda self, plan, first, second: self.ask(first != second or first >= len(plan.offsets), 7, 1))
asking("MarginAsksThirteen", "13 asked in margin too", lambda self, plan, first, second: self.ask_even(plan))


@mistaken("7 before 4, 5 and 6 in margin")
class MarginAsksSevenBeforeFour(InTurn):
    def margin(self, file, first, second, place):
        self.ask_positions(first, second, len(self.unasked(file).offsets))
        super().margin(file, first, second, place)


@mistaken("7 before 14 and 3 in margin")
class MarginAsksSevenBeforeFourteen(Reader):
    def margin(self, file, first, second, place):
        self.ask(self.question_1(file), 1)
        windows = self.header(file)[1]
        self.ask(self.question_2(windows), 2)
        self.ask_positions(first, second, windows)
        super().margin(file, first, second, place)


@mistaken("4, 5 and 6 asked in margin of the named windows alone")
class MarginAsksTheNamedAlone(InTurn):
    def margin(self, file, first, second, place):
        plan = self.unasked(file)
        for position in sorted({first, second}):
            if position < len(plan.offsets):
                self.ask_window(self.pairs(plan), plan.minimum, position, 0)
        self.ask_positions(first, second, len(plan.offsets))
        self.fill(place, [self.margin_of(plan, first, second)])


# The place for the number.


@mistaken("0 written to the place before anything is asked")
class PlaceCleared(Reader):
    def margin(self, file, first, second, place):
        place[0] = 0
        super().margin(file, first, second, place)


@mistaken("0 written to the place once the plan is accepted, before 7 is asked")
class PlaceClearedBeforeSeven(Reader):
    def margin(self, file, first, second, place):
        self.read_plan(file)
        place[0] = 0
        super().margin(file, first, second, place)


@mistaken("the length of the first window written to the place before 7 is asked of the second position")
class FirstWrittenAtOnce(Reader):
    def margin(self, file, first, second, place):
        plan = self.read_plan(file)
        if first < len(plan.offsets):
            place[0] = plan.lengths[first]
        super().margin(file, first, second, place)


@mistaken("the number of the refusal written to the place, below 0")
class RefusalInThePlace(Reader):
    def margin(self, file, first, second, place):
        try:
            super().margin(file, first, second, place)
        except Refused as no:
            place[0] = -no.number
            raise
