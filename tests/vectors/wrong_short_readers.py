"""Wrong readers of short tags, beside those of wrong_readers.py and of the same kind: the right one with one mistake each.

Mistakes that no vector can show are not here: ≤ for < in the rule, and equal tags put to it (equal ranks of one component are
equal tags or refused by 12); 12 asked of the depth alone (nothing else can then differ); the greatest end so far in the place of
the end before, or 13 asked of windows that overlap only, or only within a component (the first end that falls is the same).
"""
from reader import Reader, ShortTag
from wrong_readers import WRONG, mistaken, wrong

__all__ = ["WRONG"]

# Question 13.

wrong("NoThirteen", "13 is not asked", question_13=lambda self, end, before: True)
wrong("EqualEndsRefused", "13 asks for a greater end", question_13=lambda self, end, before: end > before)
wrong("OneUnitLess", "13 lets an end pass that falls by one unit", question_13=lambda self, end, before: end + 1 >= before)
wrong("EndsTurnedRound", "13 asks for ends that do not rise", question_13=lambda self, end, before: end <= before)
wrong("EndsIn16Bits", "13 compares ends in 16 bits", question_13=lambda self, end, before: end % 2**16 >= before % 2**16)
wrong("TagsAskThirteen", "13 asked where tags are wanted that are not short",
      tags=lambda self, file, tags: (self.ask_even(self.read_plan(file)), Reader.tags(self, file, tags))[1])


def evening(name, mistake, falls, position=lambda v: v, rounds=lambda n: range(1, n)):
    """A reader that looks for something else than an end before that of the window ahead, or names another window."""

    def ask_even(self, plan):
        for v in rounds(len(plan.ends)):
            self.ask(not falls(self, plan, v), 13, 0, position(v))

    wrong(name, mistake, ask_even=ask_even)


def end_falls(self, plan, v):
    return plan.ends[v] < plan.ends[v - 1]


evening("ThirteenAtTheEarlier", "13 names the earlier of the two windows", end_falls, lambda v: v - 1)
evening("ThirteenWithoutPosition", "13 has position 0", end_falls, lambda v: 0)
evening("LastFall", "13 names the last window where an end falls", end_falls, rounds=lambda n: range(n - 1, 0, -1))
evening("ThirteenSkipsTheFirst", "13 is not asked of window 1", end_falls, rounds=lambda n: range(2, n))
evening("ThirteenSkipsTheLast", "13 is not asked of the last window", end_falls, rounds=lambda n: range(1, n - 1))
evening("LastsFall", "13 asked of lasts, not of ends", lambda self, plan, v: self.last(plan, v) < self.last(plan, v - 1))
evening("LengthsFall", "13 asked of lengths", lambda self, plan, v: plan.lengths[v] < plan.lengths[v - 1])
evening("FirstEnd", "13 compares with the end of window 0", lambda self, plan, v: plan.ends[v] < plan.ends[0])
evening("WindowInside", "13 refuses a window that lies within another, with equal ends too",
        lambda self, plan, v: any(plan.ends[v] <= plan.ends[u] for u in range(v)))
evening("NoOverlap", "13 asks that neighbouring windows overlap", lambda self, plan, v: plan.ends[v - 1] <= plan.offsets[v])

wrong("ThirteenOfInputOne", "13 has input 1",
      ask_even=lambda self, plan: [self.ask(not end_falls(self, plan, v), 13, 1, v) for v in range(1, len(plan.ends))])


class AskedBefore(Reader):
    """Something asked by short_tags before its turn."""

    def short_tags(self, file, tags):
        self.ask_before(file, tags)
        return super().short_tags(file, tags)


class InTurn(AskedBefore):
    """13 asked window by window, before or behind 4, 5 and 6 of the same window."""

    def ask_before(self, file, tags):
        self.ask_file(file, 0)
        pairs = [self.window(file, at) for at in range(self.header(file)[1])]
        for at in range(len(pairs)):
            self.turn(pairs, self.minimum(file), at)

    def thirteen(self, pairs, minimum, at):
        if at > 0:
            self.ask(self.question_13(sum(pairs[at]), sum(pairs[at - 1])), 13, 0, at)


wrong("ThirteenOfEachWindow", "13 of a window before 4, 5 and 6 of the next", InTurn,
      turn=lambda self, pairs, minimum, at: (self.ask_window(pairs, minimum, at, 0), self.thirteen(pairs, minimum, at)))
wrong("ThirteenBeforeSix", "13 of a window before its own 4, 5 and 6", InTurn,
      turn=lambda self, pairs, minimum, at: (self.thirteen(pairs, minimum, at), self.ask_window(pairs, minimum, at, 0)))
wrong("ThirteenOfAllFirst", "13 of all windows before 4, 5 and 6 of any", InTurn, turn=InTurn.thirteen)

# Writing.

wrong("ShortRoomOfTen", "8 of a short tag file asks for 10 n bytes", AskedBefore,
      ask_before=lambda self, file, tags: (
          self.ask_even(self.read_plan(file)), self.ask_room(tags, 10 * self.header(file)[1])))
wrong("ShortRoomForAnyPlan", "8 of a short tag file asks for room for 2,048 windows", AskedBefore,
      ask_before=lambda self, file, tags: (self.ask_even(self.read_plan(file)), self.ask_room(tags, 8 * 2048)))
wrong("ThirteenAfterEight", "8 before 13", AskedBefore,
      ask_before=lambda self, file, tags: (self.read_plan(file), self.ask_room(tags, 8 * self.header(file)[1])))
wrong("EightBeforeTheWindows", "8 of a short tag file before 4, 5 and 6", AskedBefore,
      ask_before=lambda self, file, tags: (self.ask_file(file, 0), self.ask_room(tags, 8 * self.header(file)[1])))
wrong("LongTagsWritten", "a short tag file written with tags of ten bytes",
      short_tag_file=lambda self, plan, tree: self.tag_file(plan, tree)[: 8 * len(plan.ends)])
wrong("LastForRank", "a short tag written with the rank of the last in the place of the rank",
      short_tag_file=lambda self, plan, tree: Reader.short_tag_file(self, plan, tree._replace(ranks=tree.last_ranks)))
wrong("LastForDepth", "a short tag written without its depth, and with the rank of the last behind its rank",
      short_tag_file=lambda self, plan, tree: Reader.short_tag_file(
          self, plan, tree._replace(depths=tree.ranks, ranks=tree.last_ranks)))
wrong("ShortDepthAfterRank", "a short tag written with the rank before the depth",
      short_bytes=lambda self, tag: Reader.short_bytes(self, (tag.plan, tag.component, tag.rank, tag.depth)))
wrong("ShortWithoutPlanNumber", "short tags written without the plan number",
      short_tag_file=lambda self, plan, tree: Reader.short_tag_file(self, plan._replace(number=0), tree))
wrong("ShortInColumns", "a short tag file written number by number, not window by window",
      short_tag_file=lambda self, plan, tree: b"".join(map(self.two_bytes, sum(tree[1:4], [plan.number] * len(plan.ends)))))
wrong("ShortPadded", "a short tag written with two bytes of 0 behind it",
      short_bytes=lambda self, tag: Reader.short_bytes(self, tag) + b"\0\0")
wrong("ShortWriteRoomOfTen", "8 asks for 10 bytes where a short tag is written",
      short_write=lambda self, *arguments: (self.ask_room(arguments[-1], 10), Reader.short_write(self, *arguments))[-1])
wrong("ShortTenBeforeEight", "10 before 8 in writing a short tag",
      short_write=lambda self, *arguments: (self.ask(self.short_question_10(ShortTag(*arguments[:-1])), 10),
                                            Reader.short_write(self, *arguments))[-1])

# Reading.

wrong("TenBytesWanted", "9 asks for 10 bytes of a short tag too", short_question_9=lambda self, tag: len(tag) == 10)
wrong("TenBytesTaken", "9 lets a tag of ten bytes pass for a short one", short_question_9=lambda self, tag: len(tag) in (8, 10))
wrong("ShortLonger", "9 lets a short tag pass that is longer", short_question_9=lambda self, tag: len(tag) >= 8)
wrong("ShortShorter", "9 lets a short tag pass that is shorter; a byte past the end is 0",
      short_question_9=lambda self, tag: len(tag) <= 8)
wrong("ShortTenOfThePlan", "10 asked of the plan number of a short tag too",
      short_question_10=lambda self, tag: all(field <= 2047 for field in tag))
wrong("ShortUpTo2048", "10 lets 2,048 pass in a short tag", short_question_10=lambda self, tag: max(tag[1:]) <= 2048)
wrong("ShortBelow2047", "10 asks for less than 2,047 in a short tag", short_question_10=lambda self, tag: max(tag[1:]) < 2047)
for _field in ("component", "depth", "rank"):
    wrong("ShortTenNotOfThe" + _field.title(), f"10 not asked of the {_field} of a short tag",
          short_question_10=lambda self, tag, field=_field: Reader.short_question_10(self, tag._replace(**{field: 0})))
wrong("ShortRankBeforeDepth", "a short tag read with the rank before the depth",
      short_fields=lambda self, tag: Reader.short_fields(self, tag[:4] + tag[6:8] + tag[4:6]))
wrong("ShortLowBytes", "fields of a short tag read from their low bytes", short_fields=lambda self, tag: ShortTag(*tag[0:8:2]))
wrong("ShortFieldsHighestFirst", "fields of a short tag read highest byte first",
      short_fields=lambda self, tag: ShortTag(*(int.from_bytes(tag[at : at + 2], "big") for at in range(0, 8, 2))))
wrong("ShortSecondFirst", "the second short tag read first",
      short_read_two=lambda self, first, second: (self.short_read_tag(second, 1), self.short_read_tag(first, 0))[::-1])


@mistaken("9 for both short tags before 10")
class ShortNineOfBothFirst(Reader):
    def short_read_two(self, first, second):
        self.ask(self.short_question_9(first), 9, 0)
        self.ask(self.short_question_9(second), 9, 1)
        return super().short_read_two(first, second)


@mistaken("10 before 9 of a short tag, with a byte past the end as 0")
class ShortTenBeforeNine(Reader):
    def short_read_tag(self, tag, input):
        self.ask(self.short_question_10(self.short_fields(tag)), 10, input)
        return super().short_read_tag(tag, input)


@mistaken("10 asked of the first short tag only")
class ShortTenOfOne(Reader):
    def short_read_two(self, first, second):
        first = self.short_read_tag(first, 0)
        self.ask(self.short_question_9(second), 9, 1)
        return first, self.short_fields(second)


# Two short tags.

wrong("ShortNoEleven", "11 is not asked of short tags",
      short_ask_two=lambda self, first, second: self.ask(self.short_question_12(first, second), 12, 1))
wrong("ShortNoTwelve", "12 is not asked of short tags, or of the plan number, component and rank alone",
      short_question_12=lambda self, first, second: True)
wrong("ShortTwelveOfAnyComponent", "12 asked of short tags of equal rank before their components are compared",
      short_question_12=lambda self, first, second: first == second or first.rank != second.rank)
wrong("ShortTwelveOfTheDepth", "12 asked of short tags of equal component and depth, where it is the rank",
      short_question_12=lambda self, first, second: first == second or (
          (first.component, first.depth) != (second.component, second.depth)))
wrong("ShortNoChainFirst", "different components of short tags answered before 11 is asked",
      short_ask_two=lambda self, first, second: first.component != second.component or Reader.short_ask_two(self, first, second))
wrong("ShortComponentsNotCompared", "components of short tags are not compared",
      short_least=lambda self, first, second: Reader.short_least(self, first, second._replace(component=first.component)))
wrong("ShortComponentsLast", "components of short tags compared only where the depths are equal",
      short_least=lambda self, first, second: Reader.short_least(
          self, first, second if first.depth == second.depth else second._replace(component=first.component)))
wrong("ShortOneRankOneWindow", "short tags of equal component and rank answered with 0, and 12 not asked",
      short_question_12=lambda self, first, second: True,
      short_least=lambda self, first, second: 0 if (first.component, first.rank) == (second.component, second.rank)
      else Reader.short_least(self, first, second))


@mistaken("12 before 11 of short tags")
class ShortTwelveBeforeEleven(Reader):
    def short_ask_two(self, first, second):
        self.ask(self.short_question_12(first, second), 12, 1)
        self.ask(self.question_11(first, second), 11, 1)


def short_ordering(name, mistake, key):
    wrong(name, mistake, short_in_order=lambda self, first, second: sorted((first, second), key=key))


short_ordering("ShortFirstNamedIsU", "u is the first short tag named", lambda tag: 0)
short_ordering("ShortFirstNamedAtEqualDepth", "u is the first short tag named at equal depth", lambda tag: tag.depth)
short_ordering("ShortGreaterRankAtEqualDepth", "u is the short tag of greater rank at equal depth",
               lambda tag: (tag.depth, -tag.rank))
short_ordering("ShortGreaterDepthIsU", "u is the short tag of greater depth", lambda tag: (-tag.depth, tag.rank))
short_ordering("ShortSmallerRankIsU", "u is the short tag of smaller rank", lambda tag: tag.rank)
short_ordering("ShortGreaterRankIsU", "u is the short tag of greater rank", lambda tag: -tag.rank)


def short_ruling(name, mistake, rule):
    wrong(name, mistake, short_rule=rule)


short_ruling("ShortRanksTurned", "D + 1 if the rank of u is the greater, in the short rule",
             lambda self, u, v, d: d + 1 if u.rank > v.rank else d)
short_ruling("ShortAlwaysD", "D always in the short rule", lambda self, u, v, d: d)
short_ruling("ShortAlwaysOneMore", "D + 1 always in the short rule", lambda self, u, v, d: d + 1)
short_ruling("ShortTwoMore", "D + 2 in the short rule, as in the first half of the other",
             lambda self, u, v, d: d + 2 if u.rank < v.rank else d)
short_ruling("ShortOneAndTwo", "D + 1 and D + 2 in the short rule", lambda self, u, v, d: d + 2 if u.rank < v.rank else d + 1)
short_ruling("ShortAtLeastOne", "D + 1 at equal depth alone in the short rule", lambda self, u, v, d: max(d, 1))
short_ruling("LongRuleWithoutLast", "the rule for tags with 0 for the rank of the last",
             lambda self, u, v, d: self.rule(self.tag_fields(self.short_bytes(u) + b"\0\0"), v, d))
short_ruling("LongRuleWithOwnRank", "the rule for tags with the rank for the rank of the last",
             lambda self, u, v, d: self.rule(self.tag_fields(self.short_bytes(u) + self.two_bytes(u.rank)), v, d))
short_ruling("ShortCountInOneByte", "the count of short tags kept in one byte",
             lambda self, u, v, d: Reader.short_rule(self, u, v, d) % 256)
short_ruling("ShortCountUpTo2047", "the count of short tags held to 2,047",
             lambda self, u, v, d: min(Reader.short_rule(self, u, v, d), 2047))
wrong("ShortRuleForTags", "the short rule used for tags", rule=lambda self, u, v, d: self.short_rule(u, v, d))
wrong("EqualShortTagsByAtMost", "equal short tags put to the rule, with ≤ for <",
      short_least=lambda self, first, second: 1 if first == second else Reader.short_least(self, first, second))

# Short tag files.

wrong("ShortFileOfTens", "9 asks for a multiple of 10 of a short tag file",
      short_question_9_of_file=lambda self, tags: len(tags) % 10 == 0)
wrong("ShortFileOfEither", "9 lets a tag file pass for a short one",
      short_question_9_of_file=lambda self, tags: len(tags) % 8 == 0 or len(tags) % 10 == 0)
wrong("ShortFileOfPairs", "9 asks for an even number of bytes of a short tag file",
      short_question_9_of_file=lambda self, tags: len(tags) % 2 == 0)
wrong("TornShortFile", "9 is not asked of a short tag file", short_question_9_of_file=lambda self, tags: True)
wrong("ShortFileNotOfForties", "9 refuses a short tag file that could be a tag file",
      short_question_9_of_file=lambda self, tags: len(tags) % 8 == 0 and (len(tags) % 10 > 0 or not tags))
wrong("EmptyShortFile", "9 refuses an empty short tag file",
      short_question_9_of_file=lambda self, tags: len(tags) > 0 and len(tags) % 8 == 0)
wrong("TensInAShortFile", "short tags found at ten times their position",
      short_part=lambda self, tags, at: bytes(tags[10 * at : 10 * at + 8]))
wrong("ShortPositionsFromOne", "positions in a short tag file counted from 1",
      short_part=lambda self, tags, at: bytes(tags[8 * at - 8 : 8 * at]))
wrong("ShortPairAtByPosition", "short_pair_at names the smaller position first",
      short_pair_at=lambda self, tags, first, second: Reader.short_pair_at(self, tags, *sorted((first, second))))
wrong("ShortPairAtOneInput", "short_pair_at names input 0 for either position",
      short_ask_position=lambda self, tags, at, input: Reader.short_ask_position(self, tags, at, 0))
for _bits in (16, 32):
    wrong(f"EightTimesIn{_bits}Bits", f"eight times the position in {_bits} bits",
          short_ask_position=lambda self, tags, at, input, bits=_bits: Reader.short_ask_position(
              self, tags, at * 8 % 2**bits // 8, input),
          short_part=lambda self, tags, at, bits=_bits: Reader.short_part(self, tags, at * 8 % 2**bits // 8))


@mistaken("7 before 9 of a short tag file")
class ShortSevenBeforeNine(Reader):
    def short_ask_position(self, tags, at, input):
        self.ask(self.question_7(at, len(tags) // 8), 7, input)
        super().short_ask_position(tags, at, input)


@mistaken("7 compares with the number of tags of ten bytes in a short tag file")
class ShortSevenOfTens(Reader):
    def short_ask_position(self, tags, at, input):
        super().short_ask_position(tags, at, input)
        self.ask(self.question_7(at, len(tags) // 10), 7, input)


@mistaken("short_pair_at asks 7 of the second position first")
class ShortPairAtSecondFirst(Reader):
    def short_pair_at(self, tags, first, second):
        self.short_ask_position(tags, second, 1)
        return super().short_pair_at(tags, first, second)


@mistaken("short_pair_at reads the first tag before it asks 7 of the second position")
class ShortPairAtOneByOne(Reader):
    def short_pair_at(self, tags, first, second):
        self.short_ask_position(tags, first, 0)
        self.short_read_tag(self.short_part(tags, first), 0)
        return super().short_pair_at(tags, first, second)


@mistaken("short_pair_at answers 0 for one position named twice without reading its tag")
class ShortPairAtOnePosition(Reader):
    def short_pair_at(self, tags, first, second):
        self.short_ask_position(tags, first, 0)
        return 0 if first == second else super().short_pair_at(tags, first, second)


@mistaken("short_pair_at asks 10 of every tag in the file")
class ShortPairAtReadsAll(Reader):
    def short_pair_at(self, tags, first, second):
        self.short_ask_position(tags, first, 0)
        self.short_ask_position(tags, second, 1)
        for at in range(len(tags) // 8):
            self.short_read_tag(self.short_part(tags, at), 0)
        return super().short_pair_at(tags, first, second)
