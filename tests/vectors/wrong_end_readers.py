"""Wrong readers of great numbers, beside those of wrong_readers.py and of the same kind: the right one with one mistake each. An
end is at most 4,294,967,295, so that sums need 33 bits, ends 32 without a sign, and margins 33 with one.

Mistakes that no vector can show are not here: 5 asked as whether the sum wraps in 32 bits, or whether it is then smaller than the
offset (the same question); ends kept in 32 bits behind 5, and offset + minimum formed in 32 bits (in an accepted plan neither
wraps, and any other plan is refused); end + 1 - minimum in 32 bits that wrap twice (the second undoes the first); numbers of 64
bits with a fraction, which hold all of these; a window that ends at 4,294,967,295 taken to overlap all behind it (it does, since
none of them ends later); the added window's offset and 1 formed in 32 bits (5 has refused the one that wraps); one of offset
4,294,967,294 put before others of that offset (all of them have length 1, so that the files are equal).
"""
import struct

from reader import Plan, Reader
from wrong_change_readers import placing, window, writing
from wrong_margin_readers import WRONG, altered, kept, made
from wrong_minimum_readers import overlapping
from wrong_readers import mistaken, wrong

__all__ = ["WRONG"]

LIMIT, OLD_LIMIT = 4_294_967_295, 10_000_000
ON_A_PLAN = ("validate", "build", "tags", "parents", "lasts", "chain", "neighbours", "reach", "margin", "same", "add", "withdraw",
             "short_tags")
BY_OVERLAP = [call for call in ON_A_PLAN if call not in ("validate", "margin")]


def signed(number):
    """What 32 bits with a sign make of a number."""
    return (number + 2**31) % 2**32 - 2**31


def rounded(number):
    """What a number of 32 bits with a fraction makes of a whole one: 24 bits are kept."""
    return int(struct.unpack("<f", struct.pack("<f", number))[0])


def held(number):
    return min(number, LIMIT)


def in_calls(name, mistake, calls, base):
    """A reader for each of these calls that makes the mistake of another reader in that call alone."""
    for call in calls:
        wrong(name + call.title().replace("_", ""), f"{mistake}, in {call} alone",
              **{call: lambda self, *arguments, call=call: getattr(base(), call)(*arguments)})


# Numbers in bytes.


def reading(name, mistake, number):
    """A reader that makes other numbers of the four bytes of an offset or a length."""
    wrong(name, mistake, window=lambda self, file, at: tuple(map(number, Reader.window(self, file, at))))


reading("WindowsReadIn24Bits", "offsets and lengths read from their three low bytes", lambda number: number % 2**24)
reading("WindowsReadIn31Bits", "offsets and lengths read without their highest bit", lambda number: number % 2**31)
reading("WindowsReadRounded", "offsets and lengths kept as numbers of 32 bits with a fraction", rounded)
reading("WindowsHeldTo31Bits", "offsets and lengths held to 2,147,483,647", lambda number: min(number, 2**31 - 1))
reading("WindowsHeldToTheOldLimit", "offsets and lengths held to 10,000,000", lambda number: min(number, OLD_LIMIT))
reading("WindowsInSeconds", "offsets and lengths read as minutes and brought to seconds", lambda number: 60 * number)
wrong("OffsetsInSeconds", "offsets read as minutes and brought to seconds, and lengths left as they are",
      window=lambda self, file, at: (60 * Reader.window(self, file, at)[0], Reader.window(self, file, at)[1]))
wrong("MinimumInSeconds", "the minimum read as minutes and brought to seconds, behind 14 and 4",
      plan_of=lambda self, number, minimum, pairs: Reader.plan_of(self, number, 60 * minimum, pairs))

# Question 5: the limit.


def limited(name, mistake, question):
    wrong(name, mistake, question_5=lambda self, offset, length: question(offset, length))


limited("NoFive", "5 is not asked", lambda offset, length: True)
limited("OldLimit", "5 asks for an end of at most 10,000,000, as up to revision 8",
        lambda offset, length: offset + length <= OLD_LIMIT)
limited("LimitOf2To32", "5 asks for an end of at most 4,294,967,296", lambda offset, length: offset + length <= 2**32)
limited("LimitTwoLower", "5 asks for an end of at most 4,294,967,293", lambda offset, length: offset + length <= LIMIT - 2)
limited("LimitOf31Bits", "5 asks for an end of at most 2,147,483,647", lambda offset, length: offset + length < 2**31)
limited("LimitOf2To31", "5 asks for an end of at most 2,147,483,648", lambda offset, length: offset + length <= 2**31)
limited("LimitOf24Bits", "5 asks for an end of at most 16,777,215", lambda offset, length: offset + length < 2**24)
limited("OldLimitInSeconds", "5 asks for an end of at most 600,000,000, sixty times the old limit",
        lambda offset, length: offset + length <= 60 * OLD_LIMIT)
limited("LimitInMinutes", "5 asks for an end of at most 71,582,788, as many minutes as 4,294,967,295 seconds have",
        lambda offset, length: offset + length <= LIMIT // 60)
limited("OffsetBelowTheLimit", "5 asked of the offset alone, which must be below 4,294,967,295",
        lambda offset, length: offset < LIMIT)
limited("FiveOfTheLength", "5 asked of the length alone", lambda offset, length: length <= LIMIT)
limited("LengthBelowTheLimit", "5 asked of the length alone, which must be below 4,294,967,295",
        lambda offset, length: length < LIMIT)
limited("EachBelowTheLimit", "5 asked of the offset and of the length, which must be below 4,294,967,295",
        lambda offset, length: max(offset, length) < LIMIT)
limited("EachOfTheOldLimit", "5 asked of the offset and of the length by the old limit, and of their sum by the new",
        lambda offset, length: max(offset, length) <= OLD_LIMIT)
limited("LengthOfTheOldLimit", "5 asks for a length of at most 10,000,000 too",
        lambda offset, length: offset + length <= LIMIT and length <= OLD_LIMIT)
limited("OffsetOfTheOldLimit", "5 asks for an offset of at most 10,000,000 too",
        lambda offset, length: offset + length <= LIMIT and offset <= OLD_LIMIT)
limited("LengthOf31Bits", "5 asks for a length of at most 2,147,483,647 too",
        lambda offset, length: offset + length <= LIMIT and length < 2**31)
limited("OffsetOf31Bits", "5 asks for an offset of at most 2,147,483,647 too",
        lambda offset, length: offset + length <= LIMIT and offset < 2**31)
limited("LastUnitBelowTheLimit", "5 asks that the last unit is below 4,294,967,294",
        lambda offset, length: offset + length - 1 < LIMIT - 1)
wrong("FiveWithTheMinimum", "5 asks that a handover fits behind the end",
      ask_window=lambda self, pairs, minimum, at, input: (
          self.ask(self.question_4(pairs[at][1], minimum), 4, input, at),
          self.ask(sum(pairs[at]) + minimum - 1 <= LIMIT, 5, input, at),
          Reader.ask_window(self, pairs, minimum, at, input)))
wrong("FiveOfTheMinimum", "5 asked of the offset and the minimum",
      ask_window=lambda self, pairs, minimum, at, input: Reader.ask_window(
          self, pairs[:at] + [(pairs[at][0], minimum if pairs[at][1] >= minimum else 0)], minimum, at, input))

# Question 5: the sum.

limited("SumSigned", "5 asks that the sum is not below 0 in 32 bits with a sign",
        lambda offset, length: signed(offset + length) >= 0)
limited("SumSignedAgainstTheLimit", "the sum of 5 in 32 bits with a sign, compared with the limit in more",
        lambda offset, length: signed(offset + length) <= LIMIT)
limited("LimitSigned", "the limit kept in 32 bits with a sign, where it is -1",
        lambda offset, length: offset + length <= signed(LIMIT))
limited("SignedAddends", "offset and length taken with a sign and added, and the sum asked to be 0 or more",
        lambda offset, length: signed(offset) + signed(length) >= 0)
limited("SignedOverflow", "5 refuses what overflows in 32 bits with a sign",
        lambda offset, length: -(2**31) <= signed(offset) + signed(length) < 2**31)
limited("WrapAsZero", "5 refuses a sum that is 0 in 32 bits, and no other", lambda offset, length: (offset + length) % 2**32 > 0)
limited("WrapOfBothHighBits", "5 refuses where offset and length both have their highest bit, and no others",
        lambda offset, length: offset < 2**31 or length < 2**31)
limited("WrapByTheHighBit", "5 refuses a sum that loses a highest bit in 32 bits, and no other",
        lambda offset, length: max(offset, length) < 2**31 or (offset + length) % 2**32 >= 2**31)
limited("WrapAgainstTheOldLimit", "5 refuses a sum that is at most 10,000,000 in 32 bits where the offset is not",
        lambda offset, length: offset <= OLD_LIMIT or (offset + length) % 2**32 > OLD_LIMIT)
limited("WrapByAtMost", "5 refuses a sum that is at most the length in 32 bits",
        lambda offset, length: (offset + length) % 2**32 > length)
limited("RestWithASign", "the limit less the offset taken in 32 bits with a sign, and compared with the length",
        lambda offset, length: length <= signed(LIMIT - offset))
limited("SumRounded", "the sum of 5 and the limit kept as numbers of 32 bits with a fraction",
        lambda offset, length: rounded(offset + length) <= rounded(LIMIT))
limited("SumRoundedUp", "the sum of 5 kept as a number of 32 bits with a fraction, and the limit as it is",
        lambda offset, length: rounded(offset + length) <= LIMIT)
limited("FiveInSeconds", "5 asked of sixty times the sum", lambda offset, length: 60 * (offset + length) <= LIMIT)


class Unlimited(Reader):
    def question_5(self, offset, length):
        return True


class OfTheOldLimit(Reader):
    def question_5(self, offset, length):
        return offset + length <= OLD_LIMIT


def of_some(name, mistake, asked):
    """A reader that asks 5 of some windows only, by position, number of windows and input."""
    wrong(name, mistake, ask_window=lambda self, pairs, minimum, at, input: (
        (Reader if asked(at, len(pairs), input) else Unlimited)().ask_window(pairs, minimum, at, input)))


of_some("FiveOfTheFirst", "5 asked of window 0 alone", lambda at, windows, input: at == 0)
of_some("FiveOfTheLast", "5 asked of the last window alone, since offsets do not fall",
        lambda at, windows, input: at == windows - 1)
of_some("FiveOfTheFirstFile", "5 asked of the first file alone where there are two", lambda at, windows, input: input == 0)
in_calls("NoFiveIn", "5 is not asked", ON_A_PLAN, Unlimited)
in_calls("OldLimitIn", "the limit of revision 8 kept", ON_A_PLAN, OfTheOldLimit)
wrong("EndsHeldToTheLimit", "ends held to 4,294,967,295, for 5 and for all that follows", Unlimited,
      end=lambda self, offset, length: held(offset + length))
wrong("EndsIn32BitsThroughout", "ends kept in 32 bits, for 5 and for all that follows", Unlimited,
      end=lambda self, offset, length: (offset + length) % 2**32)

# Question 6: offsets in order.


def ordered(name, mistake, question):
    wrong(name, mistake, question_6=lambda self, offset, before: question(offset, before))


ordered("OffsetsOrderedSigned", "6 compares in 32 bits with a sign", lambda offset, before: signed(offset) >= signed(before))
ordered("OffsetsOrderedByDifference", "6 asks for the sign of the difference in 32 bits",
        lambda offset, before: signed(offset - before) >= 0)
ordered("OffsetsOrderedIn31Bits", "6 compares without the highest bits", lambda offset, before: offset % 2**31 >= before % 2**31)
ordered("OffsetsOrderedIn24Bits", "6 compares the three low bytes", lambda offset, before: offset % 2**24 >= before % 2**24)
ordered("OffsetsOrderedRounded", "6 compares numbers of 32 bits with a fraction",
        lambda offset, before: rounded(offset) >= rounded(before))

# Ends, once the plan is accepted.


def ending(name, mistake, end):
    wrong(name, mistake, end=lambda self, offset, length: end(offset + length))


ending("EndsSigned", "ends kept in 32 bits with a sign", signed)
ending("EndsIn31Bits", "ends kept without their highest bit", lambda end: end % 2**31)
ending("EndsIn24Bits", "ends kept in three bytes", lambda end: end % 2**24)
ending("EndsHeldTo31Bits", "ends held to 2,147,483,647", lambda end: min(end, 2**31 - 1))
ending("EndsHeldToTheOldLimit", "ends held to 10,000,000", lambda end: min(end, OLD_LIMIT))
ending("EndsBelowTheLimit", "ends held to 4,294,967,294", lambda end: min(end, LIMIT - 1))
ending("EndsRounded", "ends kept as numbers of 32 bits with a fraction", rounded)
ending("LimitAsNoEnd", "an end of 4,294,967,295 taken for none, or for -1", lambda end: -1 if end == LIMIT else end)
ending("NextAfterTheEnd", "an end kept with 1 added in 32 bits, and 1 taken off again where it is not 0",
       lambda end: max((end + 1) % 2**32 - 1, 0))

# Overlap: of the minimum, the earlier window and the later, each with its offset and its end.

overlapping("OverlapSigned", "offset + minimum compared with the end in 32 bits with a sign",
            lambda m, a, b, c, d: signed(c + m) <= signed(b))
overlapping("OverlapOffsetSigned", "the later offset taken with a sign where windows are compared",
            lambda m, a, b, c, d: signed(c) + m <= b)
overlapping("OverlapSumSigned", "offset + minimum formed in 32 bits with a sign, and the end without",
            lambda m, a, b, c, d: signed(c + m) <= b)
overlapping("OverlapEndSigned", "the earlier end taken with a sign where windows are compared",
            lambda m, a, b, c, d: c + m <= signed(b))
overlapping("OverlapSumHeldTo31Bits", "offset + minimum held to 2,147,483,647", lambda m, a, b, c, d: min(c + m, 2**31 - 1) <= b)
overlapping("OverlapSumIn31Bits", "offset + minimum formed without the highest bit", lambda m, a, b, c, d: (c + m) % 2**31 <= b)
overlapping("OverlapSumIn24Bits", "offset + minimum formed in three bytes", lambda m, a, b, c, d: (c + m) % 2**24 <= b)
overlapping("OverlapByDifferenceSigned", "the end less the offset taken in 32 bits with a sign",
            lambda m, a, b, c, d: signed(b - c) >= m)
overlapping("OverlapBySignsOfTheSum", "offset + minimum less the end taken in 32 bits with a sign",
            lambda m, a, b, c, d: signed(c + m - b) <= 0)
overlapping("OverlapRounded", "offset + minimum and the end compared as numbers of 32 bits with a fraction",
            lambda m, a, b, c, d: rounded(c + m) <= rounded(b))
overlapping("BoundHeldAtZero", "the bound formed as end + 1 - minimum in 32 bits and held at 0",
            lambda m, a, b, c, d: c < max((b + 1) % 2**32 - m, 0))
overlapping("BoundHeldAtTheLimit", "the bound formed as end + 1, held to 4,294,967,295, less the minimum",
            lambda m, a, b, c, d: c < held(b + 1) - m)
overlapping("BelowEndPlusOne", "offset + minimum asked to be below end + 1 in 32 bits",
            lambda m, a, b, c, d: c + m < (b + 1) % 2**32)
overlapping("BoundSigned", "end - (minimum - 1) taken in 32 bits with a sign", lambda m, a, b, c, d: c < signed(b - m + 1))
overlapping("BoundAndOffsetSigned", "end - (minimum - 1) and the offset compared in 32 bits with a sign",
            lambda m, a, b, c, d: signed(c) < signed(b - m + 1))
overlapping("PastTheSumIn32Bits", "offset + minimum + 1 formed in 32 bits and asked to be at most end + 1",
            lambda m, a, b, c, d: (c + m + 1) % 2**32 <= b + 1)
overlapping("TwiceTheMinimumFits", "windows taken as overlapping only where offset + twice the minimum fits 32 bits",
            lambda m, a, b, c, d: c + m <= b and c + 2 * m <= LIMIT)
overlapping("NothingAtTheLimit", "windows taken as overlapping only where offset + minimum is below 4,294,967,295",
            lambda m, a, b, c, d: c + m <= b and c + m < LIMIT)
overlapping("NothingPastTheOldLimit", "windows past 10,000,000 taken as not overlapping",
            lambda m, a, b, c, d: c + m <= b and c <= OLD_LIMIT)
overlapping("TouchingAtTheLimit", "windows that touch taken as overlapping where the later ends at 4,294,967,295",
            lambda m, a, b, c, d: c + m <= b or b == c and d == LIMIT)
overlapping("MoreAtTheLimit", "windows that share just the minimum taken as not overlapping at an end of 4,294,967,295",
            lambda m, a, b, c, d: c + m <= b - (b == LIMIT))


class ComparedSigned(Reader):
    """Offset + minimum compared with the end in 32 bits with a sign."""

    def overlap(self, plan, u, v):
        return signed(plan.offsets[v] + plan.minimum) <= signed(plan.ends[u])


class BoundWraps(Reader):
    """Offset + minimum asked to be below end + 1 in 32 bits."""

    def overlap(self, plan, u, v):
        return plan.offsets[v] + plan.minimum < (plan.ends[u] + 1) % 2**32


in_calls("SignedIn", "windows compared in 32 bits with a sign", BY_OVERLAP, ComparedSigned)
in_calls("WrapsIn", "windows compared by end + 1 in 32 bits", BY_OVERLAP, BoundWraps)
wrong("ParentsSigned", "parents by windows compared in 32 bits with a sign, lasts without",
      parent=lambda self, plan, v: ComparedSigned().parent(plan, v))
wrong("LastsSigned", "lasts by windows compared in 32 bits with a sign, parents without",
      last=lambda self, plan, u: ComparedSigned().last(plan, u))
wrong("ParentsWrap", "parents by end + 1 in 32 bits, lasts rightly", parent=lambda self, plan, v: BoundWraps().parent(plan, v))
wrong("LastsWrap", "lasts by end + 1 in 32 bits, parents rightly", last=lambda self, plan, u: BoundWraps().last(plan, u))

# The search for the last in a table of offsets that is filled up past the last window.


class Filled(Reader):
    """Lasts by a table of 2,048 offsets: those below end - (minimum - 1) overlap, or stand before the window."""

    FILLING = LIMIT

    def table(self, plan):
        return plan.offsets + [self.FILLING] * (2048 - len(plan.offsets))

    def below(self, offset, plan, u):
        return offset < plan.ends[u] - (plan.minimum - 1)

    def last(self, plan, u):
        table = self.table(plan)
        last = u
        while last + 1 < len(table) and self.below(table[last + 1], plan, u):
            last += 1
        return last


def filled(name, mistake, filling):
    wrong(name, mistake, Filled, FILLING=filling)


filled("FilledOneLower", "the table of offsets filled up with 4,294,967,294", LIMIT - 1)
filled("FilledWith31Bits", "the table of offsets filled up with 2,147,483,647", 2**31 - 1)
filled("FilledWithTheOldLimit", "the table of offsets filled up with 10,000,000", OLD_LIMIT)
filled("FilledPastTheOldLimit", "the table of offsets filled up with 10,000,001", OLD_LIMIT + 1)
filled("FilledWithMinusOne", "the table of offsets filled up with -1, and compared with a sign", -1)
filled("FilledWithZeros", "the table of offsets filled up with 0", 0)
wrong("FilledWithTheLast", "the table of offsets filled up with the last offset", Filled,
      table=lambda self, plan: plan.offsets + plan.offsets[-1:] * (2048 - len(plan.offsets)))
wrong("FillingPutToTheSum", "the filling put to offset + minimum in 32 bits, as if it were an offset", Filled,
      below=lambda self, offset, plan, u: (offset + plan.minimum) % 2**32 <= plan.ends[u])


def late(name, mistake, late_offset):
    """A reader that takes an offset for the filling, so that the table ends before it."""
    wrong(name, mistake, Filled, below=lambda self, offset, plan, u: (
        not late_offset(offset) and Filled.below(self, offset, plan, u)))


late("LateOffsetAsFilling", "an offset of 4,294,967,294 taken for the filling", lambda offset: offset >= LIMIT - 1)
late("LaterOffsetsAsFilling", "offsets from 4,294,880,895 on taken for the filling", lambda offset: offset >= LIMIT - 86_400)
late("SignedOffsetsAsFilling", "offsets from 2,147,483,648 on taken for the filling", lambda offset: offset >= 2**31)
late("OldLimitAsFilling", "offsets from 10,000,000 on taken for the filling", lambda offset: offset >= OLD_LIMIT)


@mistaken("in the search for a parent, the greatest end so far kept with a sign and begun at 0")
class GreatestEndSigned(Reader):
    def parent(self, plan, v):
        greatest = 0
        for u in range(v):
            greatest = max(greatest, signed(plan.ends[u]))
            if plan.offsets[v] + plan.minimum <= greatest:
                return u
        return v


# Margins.

kept("MarginIn32SignedBits", "the margin kept in 32 bits with a sign", 32, -(2**31))
kept("MarginIn33Bits", "the margin kept in 33 bits without a sign", 33)
kept("MarginIn31Bits", "the margin kept in 31 bits without a sign", 31)
altered("MarginHeldTo32SignedBits", "the margin held to what 32 bits with a sign can hold",
        lambda margin: min(max(margin, -(2**31)), 2**31 - 1))
altered("SharedHeldTo31Bits", "shared units held to 2,147,483,647", lambda margin: min(margin, 2**31 - 1))
altered("GapHeldTo31Bits", "a gap held to 2,147,483,648", lambda margin: max(margin, -(2**31)))
altered("MarginOfTheOldLimit", "the margin held to what it could be up to revision 8",
        lambda margin: min(max(margin, -9_999_998), OLD_LIMIT))
altered("SharedBelowTheLimit", "shared units held to 4,294,967,294", lambda margin: min(margin, LIMIT - 1))
altered("GapBelowTheFarthest", "a gap held to 4,294,967,292", lambda margin: max(margin, -(LIMIT - 3)))
altered("MarginRounded", "the margin kept as a number of 32 bits with a fraction", rounded)
altered("SharedSigned", "shared units kept in 32 bits with a sign, a gap in more",
        lambda margin: signed(margin) if margin > 0 else margin)
altered("GapSigned", "a gap kept in 32 bits with a sign, shared units in more",
        lambda margin: signed(margin) if margin < 0 else margin)
altered("GapIn31Bits", "a gap kept in 31 bits beside its sign", lambda margin: -(-margin % 2**31) if margin < 0 else margin)
altered("MarginInMinutes", "the margin brought from seconds to minutes", lambda margin: margin // 60)
altered("MarginInSeconds", "the margin brought from minutes to seconds", lambda margin: 60 * margin)
made("SmallerEndSigned", "the smaller end found in 32 bits with a sign", lambda a, b, c, d: min(b, d, key=signed) - max(a, c))
made("GreaterOffsetSigned", "the greater offset found in 32 bits with a sign",
     lambda a, b, c, d: min(b, d) - max(a, c, key=signed))
made("MarginOfSigned", "smaller end and greater offset found in 32 bits with a sign",
     lambda a, b, c, d: min(b, d, key=signed) - max(a, c, key=signed))
made("EndWidenedSigned", "the smaller end widened with a sign", lambda a, b, c, d: signed(min(b, d)) - max(a, c))
made("OffsetWidenedSigned", "the greater offset widened with a sign", lambda a, b, c, d: min(b, d) - signed(max(a, c)))
made("BothWidenedSigned", "smaller end and greater offset widened with a sign",
     lambda a, b, c, d: signed(min(b, d)) - signed(max(a, c)))
made("EndsAndOffsetsRounded", "the margin of numbers of 32 bits with a fraction",
     lambda a, b, c, d: rounded(min(b, d)) - rounded(max(a, c)))
made("SmallerEndByDifference", "the smaller end found by the sign of a difference in 32 bits",
     lambda a, b, c, d: (b if signed(b - d) < 0 else d) - max(a, c))
made("GreaterOffsetByDifference", "the greater offset found by the sign of a difference in 32 bits",
     lambda a, b, c, d: min(b, d) - (a if signed(a - c) > 0 else c))
made("EndPlusOneLessOffset", "the smaller end and 1 in 32 bits, less the greater offset and 1",
     lambda a, b, c, d: (min(b, d) + 1) % 2**32 - (max(a, c) + 1))
wrong("ItselfSigned", "the length of a window with itself given in 32 bits with a sign",
      margin_of=lambda self, plan, u, v: signed(plan.lengths[u]) if u == v else Reader.margin_of(self, plan, u, v))

# Evenness.


def evening(name, mistake, question):
    wrong(name, mistake, question_13=lambda self, end, before: question(end, before))


evening("EvenSigned", "13 compares in 32 bits with a sign", lambda end, before: signed(end) >= signed(before))
evening("EvenByDifference", "13 asks for the sign of the difference in 32 bits", lambda end, before: signed(end - before) >= 0)
evening("EvenIn31Bits", "13 compares without the highest bits", lambda end, before: end % 2**31 >= before % 2**31)
evening("EvenIn24Bits", "13 compares the three low bytes", lambda end, before: end % 2**24 >= before % 2**24)
evening("EvenRounded", "13 compares numbers of 32 bits with a fraction", lambda end, before: rounded(end) >= rounded(before))
evening("EvenByEndPlusOne", "13 asks that the end and 1, in 32 bits, is above the end before",
        lambda end, before: (end + 1) % 2**32 > before)
evening("EvenByBeforePlusOne", "13 asks that the end is not below the end before and 1, in 32 bits, less 1",
        lambda end, before: end >= (before + 1) % 2**32 - 1)
evening("EvenHeldTo31Bits", "13 compares ends held to 2,147,483,647",
        lambda end, before: min(end, 2**31 - 1) >= min(before, 2**31 - 1))
evening("EvenHeldToTheOldLimit", "13 compares ends held to 10,000,000",
        lambda end, before: min(end, OLD_LIMIT) >= min(before, OLD_LIMIT))
evening("EqualEndsAtTheLimit", "13 refuses equal ends of 4,294,967,295",
        lambda end, before: end > before or end == before < LIMIT)
wrong("EvenWithTheMinimum", "13 compares ends with the minimum added, in 32 bits",
      ask_even=lambda self, plan: [
          self.ask((plan.ends[v] + plan.minimum) % 2**32 >= (plan.ends[v - 1] + plan.minimum) % 2**32, 13, 0, v)
          for v in range(1, len(plan.ends))])

# Changes.

window("AddedOldLimit", "5 of the added window asks for an end of at most 10,000,000, as up to revision 8",
       five=lambda self, offset, length: offset + length <= OLD_LIMIT)
window("AddedLimitOf31Bits", "5 of the added window asks for an end of at most 2,147,483,647",
       five=lambda self, offset, length: offset + length < 2**31)
window("AddedSumSigned", "5 of the added window asks that the sum is not below 0 in 32 bits with a sign",
       five=lambda self, offset, length: signed(offset + length) >= 0)
window("AddedWrapAsZero", "5 of the added window refuses a sum that is 0 in 32 bits, and no other",
       five=lambda self, offset, length: (offset + length) % 2**32 > 0)
window("AddedWrapOfBothHighBits", "5 of the added window refuses where both numbers have their highest bit, and no others",
       five=lambda self, offset, length: offset < 2**31 or length < 2**31)
window("AddedWrapByTheHighBit", "5 of the added window refuses a sum that loses a highest bit, and no other",
       five=lambda self, offset, length: max(offset, length) < 2**31 or (offset + length) % 2**32 >= 2**31)
window("AddedFiveOfTheLength", "5 asked of the length of the added window alone",
       five=lambda self, offset, length: length <= LIMIT)
window("AddedOffsetBelowTheLimit", "5 asked of the offset of the added window alone, which must be below 4,294,967,295",
       five=lambda self, offset, length: offset < LIMIT)
window("AddedSumRounded", "the sum of 5 and the limit kept as numbers of 32 bits with a fraction, for the added window",
       five=lambda self, offset, length: rounded(offset + length) <= rounded(LIMIT))
wrong("AddedFiveWithTheMinimum", "5 asks that a handover fits behind the added window",
      ask_added=lambda self, plan, offset, length: (
          Reader.ask_added(self, plan, offset, length), self.ask(offset + length + plan.minimum - 1 <= LIMIT, 5)))
wrong("AddedHeld", "an added window that ends past 4,294,967,295 cut there, and 5 not asked of it",
      ask_added=lambda self, plan, offset, length: self.ask(self.question_4(length, plan.minimum), 4),
      with_window=lambda self, plan, offset, length: Reader.with_window(self, plan, offset, min(length, LIMIT - offset)))

placing("PlacedSigned", "the place of an added window found in 32 bits with a sign",
        lambda offsets, offset: sum(signed(other) <= signed(offset) for other in offsets))
placing("PlacedByDifference", "the place of an added window found by the signs of differences in 32 bits",
        lambda offsets, offset: sum(signed(other - offset) <= 0 for other in offsets))
placing("PlacedIn31Bits", "the place of an added window found without the highest bits",
        lambda offsets, offset: sum(other % 2**31 <= offset % 2**31 for other in offsets))
placing("PlacedIn24Bits", "the place of an added window found by the three low bytes",
        lambda offsets, offset: sum(other % 2**24 <= offset % 2**24 for other in offsets))
placing("PlacedRounded", "the place of an added window found by numbers of 32 bits with a fraction",
        lambda offsets, offset: sum(rounded(other) <= rounded(offset) for other in offsets))
placing("PlacedHeldTo31Bits", "the place of an added window found by offsets held to 2,147,483,647",
        lambda offsets, offset: sum(min(other, 2**31 - 1) <= min(offset, 2**31 - 1) for other in offsets))
placing("PlacedBeforeLateOffsets", "an added window goes before those of offset 2,147,483,648 or more, taken for a filling",
        lambda offsets, offset: sum(other <= offset and other < 2**31 for other in offsets))
placing("PlacedHeldToTheOldLimit", "the place of an added window found by offsets held to 10,000,000",
        lambda offsets, offset: sum(min(other, OLD_LIMIT) <= min(offset, OLD_LIMIT) for other in offsets))

writing("WindowsIn24Bits", "offsets and lengths of the changed file written in their three low bytes",
        lambda file, old: file[:8] + b"".join(file[at : at + 3] + bytes(1) for at in range(8, len(file), 4)))
writing("WindowsIn31Bits", "offsets and lengths of the changed file written without their highest bits",
        lambda file, old: file[:8] + b"".join(
            file[at : at + 3] + bytes([file[at + 3] % 128]) for at in range(8, len(file), 4)))


@mistaken("the changed plan asked again by the old limit")
class ChangedOfTheOldLimit(Reader):
    def change(self, old, number, pairs, *lent):
        for at, pair in enumerate(pairs):
            self.ask(sum(pair) <= OLD_LIMIT, 5, 0, at)
        return super().change(old, number, pairs, *lent)


@mistaken("ends of the changed plan kept in 32 bits with a sign, and those of the old plan without")
class ChangedEndsSigned(Reader):
    def change(self, old, number, pairs, changed, tags):
        answer = super().change(old, number, pairs, changed, tags)
        plan = self.plan_of(number, old.minimum, pairs)
        tree = self.tree(Plan(*plan[:4], [signed(end) for end in plan.ends]))
        self.fill(tags, self.tag_file(plan, tree))
        return answer
