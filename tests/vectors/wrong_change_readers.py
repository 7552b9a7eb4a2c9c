"""Wrong readers of a change, beside those of wrong_readers.py and of the same kind: the right one with one mistake each.

Mistakes that no vector can show are not here: 6 asked of the added window at its place (no window before it has a greater offset,
and none behind it a smaller one); 8 asked of the tag file first (the refusal is the same); 2 asked of the changed plan behind 15;
the tags of the components that stay taken from the old tag file, with the new plan number.
"""
from reader import Reader
from wrong_reach_readers import WRONG
from wrong_readers import mistaken, refusing, wrong

__all__ = ["WRONG"]

# The order of the questions.

PLAN = "4, 5 and 6 of the plan's windows"


class InTurn(Reader):
    """The questions behind 1, 2, 14 and 3 in another order, or not all of them."""

    ADDITION, WITHDRAWAL = (PLAN, 15, 16, 4, 5, 8), (PLAN, 16, 7, 8)

    def ask_in_turn(self, numbers, plan, yes):
        for number in numbers:
            if number == PLAN:
                self.ask_windows(self.pairs(plan), plan.minimum, 0)
            else:
                self.ask(yes[number], number)

    def unasked(self, file):
        """The plan of a file of which only 1, 2, 14 and 3 have been asked."""
        self.ask_file(file, 0)
        number, windows = self.header(file)
        return self.plan_of(number, self.minimum(file), [self.window(file, at) for at in range(windows)])

    def room(self, windows, changed, tags):
        return self.question_8(len(changed), 8 + 8 * windows) and self.question_8(len(tags), 10 * windows)

    def add(self, file, number, offset, length, *lent):
        plan = self.unasked(file)
        windows = len(plan.offsets)
        yes = {15: self.question_15(windows), 16: self.question_16(number, plan.number), 8: self.room(windows + 1, *lent)}
        yes.update({4: self.question_4(length, plan.minimum), 5: self.question_5(offset, length)})
        self.ask_in_turn(self.ADDITION, plan, yes)
        return self.change(plan, number, self.with_window(plan, offset, length), *lent)

    def withdraw(self, file, number, at, *lent):
        plan = self.unasked(file)
        windows = len(plan.offsets)
        yes = {15: self.question_15(windows), 16: self.question_16(number, plan.number), 8: self.room(windows - 1, *lent)}
        self.ask_in_turn(self.WITHDRAWAL, plan, {7: self.question_7(at, windows), **yes})
        return self.change(plan, number, self.without_window(plan, at), *lent)


def adding(name, mistake, *order):
    wrong(name, mistake, InTurn, ADDITION=order)


def withdrawing(name, mistake, *order):
    wrong(name, mistake, InTurn, WITHDRAWAL=order)


wrong("NoSixteen", "16 is not asked", InTurn, ADDITION=(PLAN, 15, 4, 5, 8), WITHDRAWAL=(PLAN, 7, 8))
adding("NoFifteen", "15 is not asked", PLAN, 16, 4, 5, 8)
adding("NoSixteenToAdd", "16 is not asked where a window is added", PLAN, 15, 4, 5, 8)
adding("NoFourOfTheAdded", "4 is not asked of the added window", PLAN, 15, 16, 5, 8)
adding("NoFiveOfTheAdded", "5 is not asked of the added window", PLAN, 15, 16, 4, 8)
adding("FifteenFirst", "15 before 4, 5 and 6 of the plan's windows", 15, PLAN, 16, 4, 5, 8)
adding("SixteenFirst", "16 before 4, 5 and 6 of the plan's windows, where a window is added", 16, PLAN, 15, 4, 5, 8)
adding("AddedFirst", "4 and 5 of the added window before those of the plan's windows", 15, 16, 4, 5, PLAN, 8)
adding("AddedEightFirst", "8 before 4, 5 and 6 of the plan's windows, where a window is added", 8, PLAN, 15, 16, 4, 5)
adding("FifteenAfterSixteen", "15 after 16", PLAN, 16, 15, 4, 5, 8)
adding("FifteenAtLast", "15 after all others", PLAN, 16, 4, 5, 8, 15)
adding("SixteenAfterFour", "16 after 4 of the added window", PLAN, 15, 4, 16, 5, 8)
adding("SixteenAfterFive", "16 after 4 and 5 of the added window", PLAN, 15, 4, 5, 16, 8)
adding("SixteenAtLast", "16 after all others, where a window is added", PLAN, 15, 4, 5, 8, 16)
adding("AddedFiveBeforeFour", "5 of the added window before its 4", PLAN, 15, 16, 5, 4, 8)
adding("EightBeforeSixteen", "8 before 16, where a window is added", PLAN, 15, 8, 16, 4, 5)
adding("EightBeforeFour", "8 before 4 and 5 of the added window", PLAN, 15, 16, 8, 4, 5)
adding("EightBeforeFive", "8 before 5 of the added window", PLAN, 15, 16, 4, 8, 5)
withdrawing("NoSixteenToWithdraw", "16 is not asked where a window is withdrawn", PLAN, 7, 8)
withdrawing("FifteenToWithdraw", "15 asked where a window is withdrawn too", PLAN, 15, 16, 7, 8)
withdrawing("WithdrawnSixteenFirst", "16 before 4, 5 and 6 of the plan's windows, where a window is withdrawn", 16, PLAN, 7, 8)
withdrawing("WithdrawnFirst", "16 and 7 before 4, 5 and 6 of the plan's windows", 16, 7, PLAN, 8)
withdrawing("WithdrawnEightFirst", "8 before 4, 5 and 6 of the plan's windows, where a window is withdrawn", 8, PLAN, 16, 7)
withdrawing("SevenBeforeSixteen", "7 before 16", PLAN, 7, 16, 8)
withdrawing("WithdrawnSixteenAtLast", "16 after all others, where a window is withdrawn", PLAN, 7, 8, 16)
withdrawing("WithdrawnEightBeforeSixteen", "8 before 16, where a window is withdrawn", PLAN, 8, 16, 7)
withdrawing("WithdrawnEightBeforeSeven", "8 before 7, where a window is withdrawn", PLAN, 16, 8, 7)


@mistaken("4, 5 and 6 asked of the changed plan's windows, and not of the old one's")
class ChangedPlanAsked(InTurn):
    ADDITION, WITHDRAWAL = (15, 16), (16, 7)

    def change(self, old, number, pairs, *lent):
        self.ask_windows(pairs, old.minimum, 0)
        return super().change(old, number, pairs, *lent)


# Questions 15 and 16, and 4, 5 and 7 of a change.

wrong("FewerThan2047", "15 asks for fewer than 2,047 windows", question_15=lambda self, windows: windows < 2047)
wrong("UpTo2049WithTheAdded", "15 lets the 2,049th window pass", question_15=lambda self, windows: windows <= 2048)


def numbering(name, mistake, question):
    wrong(name, mistake, question_16=lambda self, number, old: question(number, old))


numbering("GreaterNumber", "16 asks for a greater number", lambda number, old: number > old)
numbering("NextNumber", "16 asks for the next number", lambda number, old: number == old + 1)
numbering("NumberInOneByte", "16 compares in one byte", lambda number, old: number % 256 != old % 256)
numbering("NoNumberZero", "16 refuses 0 too", lambda number, old: number not in (0, old))

refusing("FifteenAsTwo", "an addition to 2,048 windows refused by 2",
         lambda number, input, at: (2 if number == 15 else number, input, at))
refusing("FifteenAsEight", "an addition to 2,048 windows refused by 8",
         lambda number, input, at: (8 if number == 15 else number, input, at))
refusing("FifteenAtTheEnd", "15 names the position that the plan has no room for",
         lambda number, input, at: (number, input, 2048 if number == 15 else at))
refusing("SixteenAsEleven", "an old plan number refused by 11",
         lambda number, input, at: (11 if number == 16 else number, input, at))
refusing("SixteenOfInputOne", "16 has input 1", lambda number, input, at: (number, 1 if number == 16 else input, at))
refusing("FifteenOfInputOne", "15 has input 1", lambda number, input, at: (number, 1 if number == 15 else input, at))


def nowhere(self, plan, offset):
    return 0


def window(name, mistake, four=Reader.question_4, five=Reader.question_5, input=0, at_four=nowhere, at_five=nowhere):
    """A reader that asks 4 and 5 of the added window otherwise, or names another input or position."""

    def ask_added(self, plan, offset, length):
        self.ask(four(self, length, plan.minimum), 4, input, at_four(self, plan, offset))
        self.ask(five(self, offset, length), 5, input, at_five(self, plan, offset))

    wrong(name, mistake, ask_added=ask_added)


window("AddedFourAgainstOne", "4 of the added window asks for a length of at least 1", lambda self, length, minimum: length >= 1)
window("AddedLongerThanTheMinimum", "4 of the added window asks for more than the minimum",
       lambda self, length, minimum: length > minimum)
window("AddedOneShorter", "4 lets an added window pass that is one shorter than the minimum",
       lambda self, length, minimum: length + 1 >= minimum and length > 0)
window("AddedFourIn16Bits", "4 of the added window compares in 16 bits",
       lambda self, length, minimum: length > 0 and length % 2**16 >= minimum % 2**16)
window("AddedEndBelowLimit", "5 of the added window asks for an end below 4,294,967,295",
       five=lambda self, offset, length: offset + length < 4_294_967_295)
window("AddedEndPastLimit", "5 lets an added window pass that ends at 4,294,967,296",
       five=lambda self, offset, length: offset + length <= 4_294_967_296)
window("AddedSumIn32Bits", "the sum of 5 in 32 bits, for the added window",
       five=lambda self, offset, length: (offset + length) % 2**32 <= 4_294_967_295)
window("AddedFiveOfTheOffset", "5 asked of the offset of the added window alone",
       five=lambda self, offset, length: offset <= 4_294_967_295)
window("AddedFiveOfEachNumber", "5 asked of the offset and of the length of the added window, not of their sum",
       five=lambda self, offset, length: max(offset, length) <= 4_294_967_295)
window("AddedOfInputOne", "4 and 5 of the added window have input 1", input=1)
window("AddedFourAtItsPlace", "4 of the added window has the position where it would stand", at_four=Reader.place)
window("AddedFiveAtItsPlace", "5 of the added window has the position where it would stand", at_five=Reader.place)
window("AddedFourBehindAll", "4 of the added window has the position behind all others",
       at_four=lambda self, plan, offset: len(plan.offsets))
window("AddedFiveBehindAll", "5 of the added window has the position behind all others",
       at_five=lambda self, plan, offset: len(plan.offsets))


def position(name, mistake, question, input=0):
    """A reader that asks 7 of the withdrawn position otherwise, or names another input."""

    def ask_withdrawal(self, plan, number, at):
        self.ask(self.question_16(number, plan.number), 16)
        self.ask(question(at, len(plan.offsets)), 7, input)

    wrong(name, mistake, ask_withdrawal=ask_withdrawal)


position("WithdrawnPastTheLast", "7 lets the number of windows pass as a position to withdraw", lambda at, windows: at <= windows)
position("LastNotWithdrawn", "7 compares with the number of windows of the changed plan", lambda at, windows: at < windows - 1)
position("OneWindowStays", "7 refuses to withdraw the only window", lambda at, windows: at < windows and windows > 1)
position("FirstNotWithdrawn", "7 refuses to withdraw window 0, as if positions were counted from 1",
         lambda at, windows: 0 < at < windows)
position("WithdrawnIn16Bits", "the position to withdraw kept in 16 bits", lambda at, windows: at % 2**16 < windows)
position("WithdrawnEightTimesIn32Bits", "eight times the position to withdraw in 32 bits",
         lambda at, windows: at * 8 % 2**32 < windows * 8)
position("WithdrawnOfInputOne", "7 of the position to withdraw has input 1", lambda at, windows: at < windows, 1)


@mistaken("an addition to a plan without windows refused by 7")
class NothingToAddTo(Reader):
    def ask_addition(self, plan, number, offset, length):
        super().ask_addition(plan, number, offset, length)
        self.ask(plan.offsets, 7)


# Where a window is added.


def placing(name, mistake, place):
    wrong(name, mistake, place=lambda self, plan, offset: place(plan.offsets, offset))


def by_halves(offsets, offset):
    """A search that is content with any window of the same offset."""
    low, high = 0, len(offsets)
    while low < high:
        middle = (low + high) // 2
        if offsets[middle] == offset:
            return middle + 1
        low, high = (middle + 1, high) if offsets[middle] < offset else (low, middle)
    return low


placing("BeforeEqualOffsets", "an added window goes before those of the same offset",
        lambda offsets, offset: sum(other < offset for other in offsets))
placing("BehindTheFirstEqual", "an added window goes behind the first of the same offset, before the others",
        lambda offsets, offset: sum(other < offset for other in offsets) + (offset in offsets))
placing("BehindSomeEqual", "an added window goes behind the one of the same offset that a search by halves finds", by_halves)
placing("AddedAtTheEnd", "an added window goes behind all others", lambda offsets, offset: len(offsets))
placing("AddedAtTheFront", "an added window goes before all others", lambda offsets, offset: 0)
placing("LastNotCompared", "an added window goes before the last, whose offset is not compared",
        lambda offsets, offset: sum(other <= offset for other in offsets[:-1]))
placing("FirstNotCompared", "an added window goes behind window 0, whose offset is not compared",
        lambda offsets, offset: max(sum(other <= offset for other in offsets), min(1, len(offsets))))
placing("PlaceInOneByte", "the place of an added window kept in one byte",
        lambda offsets, offset: sum(other <= offset for other in offsets) % 256)


def added(name, mistake, windows):
    """A reader that makes other windows of the old ones, the added one and its place."""
    wrong(name, mistake, with_window=lambda self, plan, offset, length: windows(
        self.pairs(plan), (offset, length), self.place(plan, offset)))


added("AddedByLength", "an added window goes among those of the same offset by its length",
      lambda pairs, new, at: sorted([*pairs, new]))
added("AddedByItsEnd", "an added window goes behind all that end no later",
      lambda pairs, new, at: sorted([*pairs, new], key=sum))
added("WrittenOver", "an added window is written over the one at its place",
      lambda pairs, new, at: pairs[:at] + [new] + pairs[at + 1 :])
added("CopiedForwards", "the windows behind an added one are moved from the first on, each over the next",
      lambda pairs, new, at: pairs[:at] + [new] + pairs[at : at + 1] * (len(pairs) - at))
added("AddedWithItsEnd", "an added window is written with its end in the place of its length",
      lambda pairs, new, at: pairs[:at] + [(new[0], sum(new))] + pairs[at:])
added("AddedTurnedRound", "an added window is written with its length before its offset",
      lambda pairs, new, at: pairs[:at] + [new[::-1]] + pairs[at:])
added("AddedMovesTheOthers", "the windows behind an added one are moved in time by its length",
      lambda pairs, new, at: pairs[:at] + [new] + [(offset + new[1], length) for offset, length in pairs[at:]])

# Which window is withdrawn.


def withdrawn(name, mistake, windows):
    """A reader that makes other windows of the old ones and the withdrawn position."""
    wrong(name, mistake, without_window=lambda self, plan, at: windows(self.pairs(plan), at))


withdrawn("ShiftsOneTooFew", "of the windows behind the withdrawn one the last is not moved",
          lambda pairs, at: pairs[:at] + pairs[at + 1 : -1] + pairs[max(at, len(pairs) - 2) : -1])
withdrawn("WithdrawsTheLast", "the last window is withdrawn, whichever is named", lambda pairs, at: pairs[:-1])
withdrawn("WithdrawsTheFirst", "window 0 is withdrawn, whichever is named", lambda pairs, at: pairs[1:])
withdrawn("WithdrawsFromOne", "positions to withdraw counted from 1", lambda pairs, at: pairs[: max(at - 1, 0)] + pairs[max(at, 1) :])
withdrawn("WithdrawsFromTheEnd", "positions to withdraw counted from the end",
          lambda pairs, at: pairs[: len(pairs) - 1 - at] + pairs[len(pairs) - at :])
withdrawn("WithdrawsAllBehind", "the windows behind the withdrawn one are withdrawn with it", lambda pairs, at: pairs[:at])
withdrawn("WithdrawsInOneByte", "the position to withdraw kept in one byte",
          lambda pairs, at: pairs[: at % 256] + pairs[at % 256 + 1 :])
withdrawn("WithdrawsAllOfTheOffset", "all windows of the withdrawn one's offset are withdrawn",
          lambda pairs, at: [pair for pair in pairs if pair[0] != pairs[at][0]])
withdrawn("WithdrawsAllEqual", "all windows equal to the withdrawn one are withdrawn",
          lambda pairs, at: [pair for pair in pairs if pair != pairs[at]])
withdrawn("WithdrawsTheFirstOfTheOffset", "the first window of the withdrawn one's offset is withdrawn",
          lambda pairs, at: [pair for v, pair in enumerate(pairs) if v != [o for o, _ in pairs].index(pairs[at][0])])
withdrawn("WithdrawnEmptied", "the withdrawn window stays with offset and length 0",
          lambda pairs, at: pairs[:at] + [(0, 0)] + pairs[at + 1 :])
withdrawn("WithdrawnCloses", "the windows behind the withdrawn one are moved in time by its length",
          lambda pairs, at: pairs[:at] + [(offset - pairs[at][1], length) for offset, length in pairs[at + 1 :]])

# The changed plan file.


def writing(name, mistake, file):
    """A reader that writes another changed file, given the right one and the old plan."""

    def change(self, old, number, pairs, changed, tags):
        answer = Reader.change(self, old, number, pairs, changed, tags)
        self.fill(changed, file(bytes(changed[: 8 + 8 * len(pairs)]), old))
        return answer

    wrong(name, mistake, change=change)


writing("OldNumberInTheFile", "the changed file has the old plan number, and its tags the new one",
        lambda file, old: old.number.to_bytes(2, "little") + file[2:])
writing("OldCountInTheFile", "the changed file has the old number of windows",
        lambda file, old: file[:2] + len(old.offsets).to_bytes(2, "little") + file[4:])
writing("MinimumOfOneInTheFile", "the changed file has a minimum of 1, and its tags follow the old one",
        lambda file, old: file[:4] + b"\1\0\0\0" + file[8:])
writing("NoMinimumInTheFile", "the changed file has a minimum of 0", lambda file, old: file[:4] + bytes(4) + file[8:])
writing("MinimumWrittenInTwoBytes", "the minimum written in its two low bytes", lambda file, old: file[:6] + bytes(2) + file[8:])
writing("MinimumWrittenInOneByte", "the minimum written in its low byte", lambda file, old: file[:5] + bytes(3) + file[8:])
writing("MinimumWrittenHighestFirst", "the minimum written highest byte first",
        lambda file, old: file[:4] + file[7:3:-1] + file[8:])
writing("FileWithoutMinimum", "the changed file written without a minimum, as before revision 4",
        lambda file, old: file[:4] + file[8:])
writing("NumbersTurnedRound", "the number of windows written before the plan number",
        lambda file, old: file[2:4] + file[:2] + file[4:])
writing("WindowsHighestFirst", "offsets and lengths of the changed file written highest byte first",
        lambda file, old: file[:8] + b"".join(file[at : at + 4][::-1] for at in range(8, len(file), 4)))
writing("WindowsIn16Bits", "offsets and lengths of the changed file written in their two low bytes",
        lambda file, old: file[:8] + b"".join(file[at : at + 2] + bytes(2) for at in range(8, len(file), 4)))
wrong("LengthsBeforeOffsets", "the changed file written with each length before its offset",
      plan_file=lambda self, plan: Reader.plan_file(self, plan._replace(offsets=plan.lengths, lengths=plan.offsets)))
wrong("EndsForLengths", "the changed file written with ends in the place of lengths",
      plan_file=lambda self, plan: Reader.plan_file(self, plan._replace(lengths=plan.ends)))
wrong("NoChangedFile", "the changed file is not written, and its tags are", plan_file=lambda self, plan: b"")
wrong("OldNumberKept", "the changed plan keeps the old number",
      change=lambda self, old, number, *rest: Reader.change(self, old, old.number, *rest))
wrong("MinimumNotCarriedOver", "the changed plan has a minimum of 1",
      change=lambda self, old, *rest: Reader.change(self, old._replace(minimum=1), *rest))
wrong("MinimumOfTheShortest", "the changed plan has the length of its shortest window for its minimum",
      change=lambda self, old, number, pairs, *lent: Reader.change(
          self, old._replace(minimum=min([length for _, length in pairs], default=old.minimum)), number, pairs, *lent))

# The tags of the changed plan.


def rows_of(tags):
    return [tags[at : at + 10] for at in range(0, len(tags), 10)]


def tagging(name, mistake, rows):
    """A reader that writes other tags: given the right ones, those of the old plan in their new places and with the new plan number
    (the right one for an added window), and the first position at which the windows differ."""

    def change(self, old, number, pairs, changed, tags):
        answer = Reader.change(self, old, number, pairs, changed, tags)
        right, was = rows_of(bytes(tags[: 10 * len(pairs)])), rows_of(self.tag_file(old._replace(number=number), self.tree(old)))
        at = next((v for v, (a, b) in enumerate(zip(self.pairs(old), pairs)) if a != b), min(len(was), len(pairs)))
        kept = was[:at] + right[at : at + 1] + was[at:] if len(pairs) > len(was) else was[:at] + was[at + 1 :]
        self.fill(tags, b"".join(rows(right, kept, at)))
        return answer

    wrong(name, mistake, change=change)


tagging("TagsKept", "the windows that stay keep their tags but for the plan number", lambda right, kept, at: kept)
tagging("TagsBeforeKept", "all windows before the added or withdrawn one keep their tags but for the plan number",
        lambda right, kept, at: kept[:at] + right[at:])
tagging("TagsBehindKept", "all windows behind the added or withdrawn one keep their tags but for the plan number",
        lambda right, kept, at: right[: at + 1] + kept[at + 1 :])
tagging("ComponentsKept", "windows keep the numbers of their components",
        lambda right, kept, at: [new[:2] + old[2:4] + new[4:] for new, old in zip(right, kept)])
tagging("DepthsKept", "windows keep their depths",
        lambda right, kept, at: [new[:4] + old[4:6] + new[6:] for new, old in zip(right, kept)])
tagging("RanksKept", "windows keep their ranks",
        lambda right, kept, at: [new[:6] + old[6:8] + new[8:] for new, old in zip(right, kept)])
tagging("LastsKept", "windows keep the ranks of their lasts",
        lambda right, kept, at: [new[:8] + old[8:] for new, old in zip(right, kept)])
tagging("OtherComponentsKept", "the windows outside the first component that changed keep their tags but for the plan number",
        lambda right, kept, at: [old if old[2:4] != right[min(at, len(right) - 1)][2:4] else new for new, old in zip(right, kept)])
tagging("TagOfTheAddedLast", "the tag at the place of the change stands behind all others",
        lambda right, kept, at: right[:at] + right[at + 1 :] + right[at : at + 1])


def with_tags_of(name, mistake, tagged):
    """A reader that writes the tags of another plan than the changed one, as far as they go."""

    def change(self, old, number, pairs, changed, tags):
        answer = Reader.change(self, old, number, pairs, changed, tags)
        plan = tagged(old, number)
        self.fill(tags, self.tag_file(plan, self.tree(plan))[: 10 * len(pairs)])
        return answer

    wrong(name, mistake, change=change)


with_tags_of("OldTags", "the tags of the old plan are written", lambda old, number: old)
with_tags_of("OldTagsWithTheNewNumber", "the tags of the old plan are written, with the new plan number",
             lambda old, number: old._replace(number=number))


@mistaken("the tags of the changed plan have the old plan number")
class OldNumberInTheTags(Reader):
    def change(self, old, number, pairs, changed, tags):
        answer = super().change(old, number, pairs, changed, tags)
        rows = rows_of(bytes(tags[: 10 * len(pairs)]))
        self.fill(tags, b"".join(self.two_bytes(old.number) + row[2:] for row in rows))
        return answer


@mistaken("the tags are not written, and the changed file is")
class NoChangedTags(Reader):
    def change(self, old, number, pairs, changed, tags):
        return super().change(old, number, pairs, changed, tags[:])


# The answer.


def answering(name, mistake, answer):
    """A reader that answers something else, given the right answer, the old plan's number, its windows and its components."""

    def change(self, old, *rest):
        right = Reader.change(self, old, *rest)
        return answer(right, old.number, len(old.offsets), self.components(self.tree(old)))

    wrong(name, mistake, change=change)


answering("OldNumberInTheAnswer", "the answer has the old plan number", lambda right, number, windows, count: (number, *right[1:]))
answering("OldCountInTheAnswer", "the answer has the old number of windows",
          lambda right, number, windows, count: (right[0], windows, right[2]))
answering("OldComponentsInTheAnswer", "the answer has the old number of components",
          lambda right, number, windows, count: (*right[:2], count))
answering("OldAnswer", "the answer is that of the old plan", lambda right, *old: old)

# Room.


class Unasked(Reader):
    """8 is not asked in its turn."""

    def ask_change_room(self, windows, changed, tags):
        pass


def roomy(name, mistake, wanted):
    """A reader that asks for other room, given the windows of the old plan and of the changed one."""

    def change(self, old, number, pairs, *lent):
        for table, room in zip(lent, wanted(len(old.offsets), len(pairs))):
            self.ask_room(table, room)
        return Unasked.change(self, old, number, pairs, *lent)

    wrong(name, mistake, Unasked, change=change)


roomy("RoomOfTheOldPlan", "8 asks for the room that the old plan and its tags have", lambda old, new: (8 + 8 * old, 10 * old))
roomy("RoomOfTheOldFile", "8 of the changed file asks for the room that the old one has", lambda old, new: (8 + 8 * old, 10 * new))
roomy("RoomOfTheOldTags", "8 of the tag file asks for the room that the old one has", lambda old, new: (8 + 8 * new, 10 * old))
roomy("RoomOfTheLarger", "8 asks for the room of the old plan too, where a window is withdrawn",
      lambda old, new: (8 + 8 * max(old, new), 10 * max(old, new)))
roomy("FileAloneAsked", "8 is asked of the changed file alone", lambda old, new: (8 + 8 * new, 0))
roomy("TagsAloneAsked", "8 is asked of the tag file alone", lambda old, new: (0, 10 * new))
roomy("RoomWithoutTheHeader", "8 of the changed file asks for 8 n bytes", lambda old, new: (8 * new, 10 * new))
roomy("RoomForTheOldHeader", "8 of the changed file asks for 4 + 8 n bytes", lambda old, new: (4 + 8 * new, 10 * new))
roomy("RoomForShortTags", "8 of the tag file asks for 8 n bytes", lambda old, new: (8 + 8 * new, 8 * new))
roomy("RoomForAnyChange", "8 asks for room for 2,048 windows", lambda old, new: (16392, 20480))
roomy("RoomTurnedRound", "8 asks for the room of each in the place of the other", lambda old, new: (10 * new, 8 + 8 * new))


@mistaken("8 asked of the room of both tables together")
class RoomOfBoth(Unasked):
    def change(self, old, number, pairs, changed, tags):
        self.ask_room(bytes(len(changed) + len(tags)), 8 + 18 * len(pairs))
        return super().change(old, number, pairs, changed, tags)


@mistaken("the changed file written before 8 is asked of the tag file")
class FileWrittenFirst(Unasked):
    def change(self, old, number, pairs, changed, tags):
        self.ask_room(changed, 8 + 8 * len(pairs))
        self.fill(changed, self.plan_file(self.plan_of(number, old.minimum, pairs)))
        self.ask_room(tags, 10 * len(pairs))
        return super().change(old, number, pairs, changed, tags)


@mistaken("the tag file written before 8 is asked of the changed file")
class TagsWrittenFirst(Unasked):
    def change(self, old, number, pairs, changed, tags):
        plan = self.plan_of(number, old.minimum, pairs)
        self.ask_room(tags, 10 * len(pairs))
        self.fill(tags, self.tag_file(plan, self.tree(plan)))
        self.ask_room(changed, 8 + 8 * len(pairs))
        return super().change(old, number, pairs, changed, tags)


@mistaken("the old file copied into the room of the changed one before anything is asked behind the plan's questions")
class CopiedFirst(Reader):
    def add(self, file, number, offset, length, changed, tags):
        self.read_plan(file)
        self.fill(changed, file[: len(changed)])
        return super().add(file, number, offset, length, changed, tags)

    def withdraw(self, file, number, at, changed, tags):
        self.read_plan(file)
        self.fill(changed, file[: len(changed)])
        return super().withdraw(file, number, at, changed, tags)


# Short tags.

wrong("ShortTagsOfTheChanged", "short tags written for the changed plan",
      change=lambda self, old, number, pairs, changed, tags: (
          Reader.change(self, old, number, pairs, changed, tags),
          self.fill(tags, b"".join(row[:8] for row in rows_of(bytes(tags[: 10 * len(pairs)])))))[0])
wrong("ChangeAsksThirteen", "13 asked of the changed plan",
      change=lambda self, old, number, pairs, *lent: (
          self.ask_even(self.plan_of(number, old.minimum, pairs)), Reader.change(self, old, number, pairs, *lent))[1])
