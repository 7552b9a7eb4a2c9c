"""Wrong readers: the right one with one mistake each, of the kind that is made by someone who reads docs/FORMAT.md in haste or
trusts a habit. Each has a name, the mistake in words, and methods in the place of the right reader's. Each must fail some vector
of docs/vectors/.

Mistakes that no vector can show, since the answer is the same for every input, are not here: "no chain" said before 12 is asked
(12 is about tags of one component), equal tags answered before 11 and 12 (they pass both), the earliest window taken at each step
from the earlier end of a shortest chain (one chain has the earliest at all steps).
"""
from reader import Reader, Refused, Tag

WRONG = []


def wrong(name, mistake, base=Reader, **methods):
    WRONG.append(type(name, (base,), {"mistake": mistake, **methods}))


def mistaken(mistake):
    """For a mistake that needs more than an expression."""

    def named(reader):
        reader.mistake = mistake
        WRONG.append(reader)
        return reader

    return named


# Numbers in bytes.

wrong("HighestByteFirst", "numbers read highest byte first", number=lambda self, part: int.from_bytes(part, "big"))
wrong("WrittenHighestByteFirst", "tags written highest byte first", two_bytes=lambda self, number: number.to_bytes(2, "big"))
wrong("HalvesSwapped", "four-byte numbers read as two halves, the high one first",
      number=lambda self, part: int.from_bytes(part[2:] + part[:2] if len(part) == 4 else part, "little"))
wrong("SixteenBitNumbers", "offsets and lengths read from their two low bytes",
      number=lambda self, part: int.from_bytes(part[:2], "little"))
wrong("SignedNumbers", "offsets and lengths read as signed numbers",
      number=lambda self, part: int.from_bytes(part, "little", signed=len(part) == 4))
wrong("SignedFields", "fields of a tag read as signed numbers",
      tag_fields=lambda self, tag: Tag(*(int.from_bytes(tag[at : at + 2], "little", signed=True) for at in range(0, 10, 2))))
wrong("LowBytesOfFields", "fields of a tag read from their low bytes", tag_fields=lambda self, tag: Tag(*tag[0:10:2]))
wrong("PlanNumberInOneByte", "the plan number of a tag read from its low byte",
      tag_fields=lambda self, tag: Reader.tag_fields(self, tag)._replace(plan=tag[0]))
wrong("WindowCountInOneByte", "the number of windows read from its low byte",
      header=lambda self, file: (self.number(file[:2]), file[2]))
wrong("HeaderSwapped", "the number of windows taken for the plan number, and the other way round",
      header=lambda self, file: Reader.header(self, file)[::-1])
wrong("LengthBeforeOffset", "the length of a window read before its offset",
      window=lambda self, file, position: Reader.window(self, file, position)[::-1])
wrong("EndForLength", "the second number of a window taken for its end", end=lambda self, offset, length: length)

# Questions 1 to 6.

wrong("NineBytesForOne", "1 asks for more than 8 bytes", question_1=lambda self, file: len(file) > 8)
wrong("SevenBytesForOne", "1 asks for 7 bytes", question_1=lambda self, file: len(file) >= 7)
wrong("FewerThan2048", "2 asks for fewer than 2,048 windows", question_2=lambda self, windows: windows < 2048)
wrong("UpTo2049", "2 lets 2,049 windows pass", question_2=lambda self, windows: windows <= 2049)
wrong("NoTwo", "2 is not asked", question_2=lambda self, windows: True)
wrong("LongerFile", "3 lets a file pass that is longer than its windows",
      question_3=lambda self, file, windows: len(file) >= 8 + 8 * windows)
wrong("ShorterFile", "3 lets a file pass that is shorter than its windows",
      question_3=lambda self, file, windows: len(file) <= 8 + 8 * windows)
wrong("WholeWindows", "3 asks only for whole windows", question_3=lambda self, file, windows: len(file) % 8 == 0)
wrong("NoFour", "4 is not asked", question_4=lambda self, length, minimum: True)
wrong("LongerThanTheMinimum", "4 asks for more than the minimum", question_4=lambda self, length, minimum: length > minimum)
wrong("SumIn32Bits", "the sum of 5 in 32 bits",
      question_5=lambda self, offset, length: (offset + length) % 2**32 <= 4_294_967_295)
wrong("EndBelowLimit", "5 asks for an end below 4,294,967,295",
      question_5=lambda self, offset, length: offset + length < 4_294_967_295)
wrong("LastUnitForEnd", "5 asked of the last unit that a window covers",
      question_5=lambda self, offset, length: offset + length - 1 <= 4_294_967_295)
wrong("FiveOfTheOffset", "5 asked of the offset alone", question_5=lambda self, offset, length: offset <= 4_294_967_295)
wrong("FiveOfEachNumber", "5 asked of the offset and of the length, not of their sum",
      question_5=lambda self, offset, length: max(offset, length) <= 4_294_967_295)
wrong("EqualOffsetsRefused", "6 asks for a greater offset", question_6=lambda self, offset, before: offset > before)
wrong("NoSix", "6 is not asked; windows are sorted by offset instead",
      ask_windows=lambda self, pairs, minimum, input: (pairs.sort(), Reader.ask_windows(self, pairs, minimum, input)))
wrong("SixOfTheFirst", "6 compares with the offset of window 0",
      ask_window=lambda self, pairs, minimum, at, input: Reader.ask_window(
          self, [pairs[0]] * at + [pairs[at]], minimum, at, input))
wrong("SixOfTheEnd", "6 compares with the end of the window before",
      ask_window=lambda self, pairs, minimum, at, input: Reader.ask_window(
          self, [(sum(pair), 0) for pair in pairs[:at]] + pairs[at:], minimum, at, input))
wrong("FirstWindowSkipped", "4 and 5 are not asked of window 0",
      ask_windows=lambda self, pairs, minimum, input: [
          self.ask_window(pairs, minimum, at, input) for at in range(1, len(pairs))])
wrong("LastWindowSkipped", "4, 5 and 6 are not asked of the last window",
      ask_windows=lambda self, pairs, minimum, input: Reader.ask_windows(self, pairs[:-1], minimum, input))
wrong("LastRefusal", "the last window that is refused is reported, not the first",
      ask_windows=lambda self, pairs, minimum, input: [
          self.ask_window(pairs, minimum, at, input) for at in reversed(range(len(pairs)))])


@mistaken("3 before 2")
class ThreeBeforeTwo(Reader):
    def ask_file(self, file, input):
        self.ask(self.question_1(file), 1, input)
        windows = self.header(file)[1]
        self.ask(self.question_3(file, windows), 3, input)
        super().ask_file(file, input)


class InRounds(Reader):
    """The windows gone through in rounds, with some of the questions each time."""

    ROUNDS = ((4, 5, 6),)

    def ask_windows(self, pairs, minimum, input):
        for numbers in self.ROUNDS:
            for at, (offset, length) in enumerate(pairs):
                before = pairs[at - 1][0] if at > 0 else 0
                yes = {4: self.question_4(length, minimum), 5: self.question_5(offset, length)}
                yes[6] = self.question_6(offset, before)
                for number in numbers:
                    self.ask(yes[number], number, input, at)


wrong("FiveBeforeFour", "5 before 4", InRounds, ROUNDS=((5, 4, 6),))
wrong("SixBeforeFive", "6 before 5", InRounds, ROUNDS=((4, 6, 5),))
wrong("SixBeforeFour", "6 before 4 and 5", InRounds, ROUNDS=((6, 4, 5),))
wrong("FourOfAllFirst", "4 of all windows before 5 and 6 of any", InRounds, ROUNDS=((4,), (5, 6)))
wrong("FiveOfAllLast", "4 and 6 of all windows before 5 of any", InRounds, ROUNDS=((4, 6), (5,)))
wrong("SixOfAllLast", "4 and 5 of all windows before 6 of any", InRounds, ROUNDS=((4, 5), (6,)))
wrong("SixOfAllFirst", "6 of all windows before 4 and 5 of any", InRounds, ROUNDS=((6,), (4, 5)))

# The refusal.


def refusing(name, mistake, refusal):
    """A reader whose refusals are the right ones, altered."""

    def ask(self, yes, number, input=0, position=0):
        if not yes:
            raise Refused(*refusal(number, input, position))

    wrong(name, mistake, ask=ask)


refusing("NoPosition", "every refusal has position 0", lambda number, input, at: (number, input, 0))
refusing("PositionFromOne", "the position of a refused window counted from 1",
         lambda number, input, at: (number, input, at + (number in (4, 5, 6))))
refusing("WindowBefore", "6 names the window before the one that falls behind",
         lambda number, input, at: (number, input, at - (number == 6)))
refusing("PositionInOneByte", "the position of a refused window kept in one byte",
         lambda number, input, at: (number, input, at % 256))
refusing("InputAlwaysZero", "every refusal has input 0", lambda number, input, at: (number, 0, at))
refusing("InputFromOne", "the input counted from 1", lambda number, input, at: (number, input + 1, at))
refusing("InputSwapped", "input 1 for the first and 0 for the second", lambda number, input, at: (number, 1 - input, at))
refusing("InputZeroForEleven", "input 0 for 11", lambda number, input, at: (number, 0 if number == 11 else input, at))
refusing("InputZeroForTwelve", "input 0 for 12", lambda number, input, at: (number, 0 if number == 12 else input, at))
refusing("NumberOfTheList", "questions numbered from 0", lambda number, input, at: (number - 1, input, at))

# Overlap and the tree.

wrong("Touching", "windows that touch taken as overlapping",
      overlap=lambda self, plan, u, v: plan.ends[u] == plan.offsets[v] or Reader.overlap(self, plan, u, v))
wrong("StrictOffsets", "windows of equal offset taken as not overlapping",
      overlap=lambda self, plan, u, v: plan.offsets[u] < plan.offsets[v] and Reader.overlap(self, plan, u, v))
wrong("TwoUnits", "one shared unit is not enough, though the minimum is 1",
      overlap=lambda self, plan, u, v: Reader.overlap(self, plan._replace(minimum=max(plan.minimum, 2)), u, v))
wrong("Contained", "a window inside another taken as not overlapping it",
      overlap=lambda self, plan, u, v: plan.ends[u] < plan.ends[v] and Reader.overlap(self, plan, u, v))
wrong("NearestParent", "the parent is the nearest window before that overlaps, not the smallest position",
      parent=lambda self, plan, v: next((u for u in reversed(range(v)) if self.overlap(plan, u, v)), v))
wrong("LongestParent", "the parent is the window before that overlaps and ends last",
      parent=lambda self, plan, v: max((u for u in range(v) if self.overlap(plan, u, v)), key=lambda u: plan.ends[u], default=v))
wrong("ComponentsFromOne", "components counted from 1",
      component_table=lambda self, parents: [component + 1 for component in Reader.component_table(self, parents)],
      components=lambda self, tree: max(tree.components, default=0))
wrong("ComponentInOneByte", "the component kept in one byte",
      component_table=lambda self, parents: [component % 256 for component in Reader.component_table(self, parents)])
wrong("ComponentsLessOne", "the number of components is the greatest component",
      components=lambda self, tree: max(tree.components, default=0))
wrong("DepthFromOne", "depths counted from 1",
      depth_table=lambda self, parents: [depth + 1 for depth in Reader.depth_table(self, parents)])
wrong("DepthInOneByte", "the depth kept in one byte",
      depth_table=lambda self, parents: [depth % 256 for depth in Reader.depth_table(self, parents)])
wrong("RankFromOne", "ranks counted from 1",
      rank_table=lambda self, parents: [rank + 1 for rank in Reader.rank_table(self, parents)])
wrong("RankInOneByte", "the rank kept in one byte",
      rank_table=lambda self, parents: [rank % 256 for rank in Reader.rank_table(self, parents)])
wrong("PreOrder", "the parent before its children",
      post_order=lambda self, children, root: [root] + [v for child in children[root] for v in self.post_order(children, child)])
wrong("ChildrenBackwards", "children in falling order of position",
      post_order=lambda self, children, root: Reader.post_order(self, [below[::-1] for below in children], root))
wrong("LevelOrder", "the rank is the place by position in the component",
      post_order=lambda self, children, root: sorted(Reader.post_order(self, children, root)))
wrong("LastTooFar", "the last is the first window that no longer overlaps",
      last=lambda self, plan, u: min(Reader.last(self, plan, u) + 1, len(plan.offsets) - 1))
wrong("LatestEnd", "the last is the overlapping window that ends last",
      last=lambda self, plan, u: max(range(u, Reader.last(self, plan, u) + 1), key=lambda v: (plan.ends[v], v)))
wrong("PositionOfTheLast", "the tag holds the last itself, not its rank",
      tree=lambda self, plan: Reader.tree(self, plan)._replace(last_ranks=self.last_table(plan)))


def rooted(name, mistake, held):
    """A reader whose parent table holds something else for a root."""

    def tree(self, plan):
        right = Reader.tree(self, plan)
        return right._replace(parents=[held if u == v else u for v, u in enumerate(right.parents)])

    wrong(name, mistake, tree=tree)


rooted("RootOfZero", "the parent table holds 0 for every root", 0)
rooted("RootOfNone", "the parent table holds 65,535 for a root", 65535)


@mistaken("the component named by the position of its root")
class RootForComponent(Reader):
    def component_table(self, parents):
        table = []
        for v, u in enumerate(parents):
            table.append(v if u == v else table[u])
        return table

    def components(self, tree):
        return len(set(tree.components))


@mistaken("ranks that run on from component to component")
class RanksRunOn(Reader):
    def rank_table(self, parents):
        roots = [v for v, u in enumerate(parents) if u == v]
        components = self.component_table(parents)
        return [rank + roots[component] for rank, component in zip(super().rank_table(parents), components)]


@mistaken("the ranks of the first component copied onward")
class FirstComponentCopied(Reader):
    def rank_table(self, parents):
        size = next((v for v, u in enumerate(parents) if u == v and v > 0), len(parents))
        first = super().rank_table(parents[:size])
        return [first[v % size] for v in range(len(parents))]


@mistaken("post-order by a recursion for which a deep plan has no stack")
class RecursivePostOrder(Reader):
    def post_order(self, children, root, depth=0):
        if depth > 255:
            raise OverflowError("the stack is full")
        return [v for child in children[root] for v in self.post_order(children, child, depth + 1)] + [root]


@mistaken("the last taken from windows of one depth only")
class LastOfOneDepth(Reader):
    def tree(self, plan):
        tree = super().tree(plan)
        reached = [range(u, last + 1) for u, last in enumerate(self.last_table(plan))]
        lasts = [max(v for v in beside if tree.depths[v] == tree.depths[beside[0]]) for beside in reached]
        return tree._replace(last_ranks=[tree.ranks[v] for v in lasts])


@mistaken("the last taken from the children only")
class LastChild(Reader):
    def last_table(self, plan):
        parents = self.parent_table(plan)
        return [max((v for v in range(u, len(parents)) if parents[v] == u), default=u) for u in range(len(parents))]


@mistaken("the last of a window that no later one overlaps is a window before it")
class LastAlsoBefore(Reader):
    def last(self, plan, u):
        later = super().last(plan, u)
        return max((v for v in range(u) if self.overlap(plan, v, u)), default=u) if later == u else later


# Writing.

wrong("ClearsTheRest", "what lies past the written entries is cleared",
      fill=lambda self, table, entries: Reader.fill(self, table, [*entries, *[0] * (len(table) - len(entries))]))
wrong("WritesNothing", "answers and writes nothing", fill=lambda self, table, entries: None)
wrong("ExactRoom", "8 asks for a table that is just large enough", question_8=lambda self, room, wanted: room == wanted)
wrong("MoreRoom", "8 asks for more room than is written", question_8=lambda self, room, wanted: room > wanted)
wrong("OneTooFew", "8 lets a table pass that is one entry too short", question_8=lambda self, room, wanted: room + 1 >= wanted)
wrong("NoRoomAsked", "8 is not asked; what fits is written", question_8=lambda self, room, wanted: True,
      fill=lambda self, table, entries: Reader.fill(self, table, entries[: len(table)]))
wrong("RoomInTags", "8 of the tag file asks for n bytes",
      ask_room=lambda self, lent, wanted: Reader.ask_room(self, lent, wanted // 10 if isinstance(lent, bytearray) else wanted))
wrong("TagFileNotAsked", "8 is asked of build's tables and not of its tag file",
      ask_room=lambda self, lent, wanted: Reader.ask_room(self, lent, 0 if isinstance(lent, bytearray) else wanted),
      fill=lambda self, table, entries: Reader.fill(self, table, entries[: len(table)]))
wrong("NoPlanNumberInTags", "tags written without the plan number",
      tag_file=lambda self, plan, tree: Reader.tag_file(self, plan._replace(number=0), tree))
wrong("DepthAfterRank", "a tag written with the rank before the depth",
      tag_bytes=lambda self, tag: Reader.tag_bytes(self, (tag.plan, tag.component, tag.rank, tag.depth, tag.last)))
wrong("RankBeforeDepth", "a tag read with the rank before the depth",
      tag_fields=lambda self, tag: Reader.tag_fields(self, tag[:4] + tag[6:8] + tag[4:6] + tag[8:]))
wrong("LastBeforeRank", "a tag read with the rank of the last before the rank",
      tag_fields=lambda self, tag: Reader.tag_fields(self, tag[:6] + tag[8:] + tag[6:8]))
wrong("FourNumbers", "a tag written without its fifth number",
      tag_bytes=lambda self, tag: Reader.tag_bytes(self, tag[:4]) + b"\0\0")
wrong("InColumns", "a tag file written number by number, not window by window",
      tag_file=lambda self, plan, tree: b"".join(map(self.two_bytes, sum(tree[1:], [plan.number] * len(plan.offsets)))))


@mistaken("8 is asked when a table is written, of which as much is written as fits")
class WritesAndRefuses(Reader):
    def question_8(self, room, wanted):
        return True

    def fill(self, table, entries):
        super().fill(table, entries[: len(table)])
        self.ask(len(entries) <= len(table), 8)


@mistaken("8 before 4, 5 and 6 in build")
class RoomFirst(Reader):
    def build(self, file, *lent):
        self.ask_file(file, 0)
        windows = self.header(file)[1]
        for table in lent:
            self.ask_room(table, 10 * windows if isinstance(table, bytearray) else windows)
        return super().build(file, *lent)


@mistaken("8 asks for room for 2,048 windows in build")
class RoomForAnyPlan(Reader):
    def build(self, file, *lent):
        self.read_plan(file)
        for table in lent:
            self.ask_room(table, 20480 if isinstance(table, bytearray) else 2048)
        return super().build(file, *lent)


@mistaken("10 before 8 in writing a tag")
class TenBeforeEight(Reader):
    def write(self, plan, component, depth, rank, last, out):
        self.ask(self.question_10(Tag(plan, component, depth, rank, last)), 10)
        super().write(plan, component, depth, rank, last, out)


# Reading a tag.

wrong("LongerTag", "9 lets a tag pass that is longer", question_9=lambda self, tag: len(tag) >= 10)
wrong("ShorterTag", "9 lets a tag pass that is shorter; a byte past the end is 0", question_9=lambda self, tag: len(tag) <= 10)
wrong("TenOfThePlan", "10 asked of the plan number too", question_10=lambda self, tag: all(field <= 2047 for field in tag))
wrong("FieldsUpTo2048", "10 lets 2,048 pass", question_10=lambda self, tag: all(field <= 2048 for field in tag[1:]))
wrong("FieldsBelow2047", "10 asks for less than 2,047", question_10=lambda self, tag: all(field < 2047 for field in tag[1:]))
for _field in ("component", "depth", "rank", "last"):
    wrong("TenNotOfThe" + _field.title(), f"10 not asked of the {_field}",
          question_10=lambda self, tag, field=_field: Reader.question_10(self, tag._replace(**{field: 0})))
wrong("SecondTagFirst", "the second tag read first",
      read_two=lambda self, first, second: (self.read_tag(second, 1), self.read_tag(first, 0))[::-1])


@mistaken("10 asked of the first tag only")
class TenOfOneTag(Reader):
    def read_two(self, first, second):
        first = self.read_tag(first, 0)
        self.ask(self.question_9(second), 9, 1)
        return first, self.tag_fields(second)


@mistaken("9 for both tags before 10")
class NineOfBothFirst(Reader):
    def read_two(self, first, second):
        self.ask(self.question_9(first), 9, 0)
        self.ask(self.question_9(second), 9, 1)
        return super().read_two(first, second)


@mistaken("10 before 9, with a byte past the end as 0")
class TenBeforeNine(Reader):
    def read_tag(self, tag, input):
        self.ask(self.question_10(self.tag_fields(tag)), 10, input)
        return super().read_tag(tag, input)


# Two tags.

wrong("NoEleven", "11 is not asked", question_11=lambda self, first, second: True)
wrong("NoTwelve", "12 is not asked", question_12=lambda self, first, second: True)
wrong("TwelveOfTheDepth", "12 asked of the depth alone",
      question_12=lambda self, first, second: Reader.question_12(self, first, second._replace(last=first.last)))
wrong("TwelveOfTheLast", "12 asked of the rank of the last alone",
      question_12=lambda self, first, second: Reader.question_12(self, first, second._replace(depth=first.depth)))
wrong("TwelveOfAnyComponent", "12 asked of tags of equal rank in different components too",
      question_12=lambda self, first, second: first == second or first.rank != second.rank)
wrong("TwelveOfAnyRank", "12 asked of tags of equal component and depth",
      question_12=lambda self, first, second: Reader.question_12(self, first, second) and (
          first == second or (first.component, first.depth) != (second.component, second.depth)))
wrong("ComponentsNotCompared", "components are not compared",
      least=lambda self, first, second: Reader.least(self, first, second._replace(component=first.component)))
wrong("EqualTagsByTheRule", "equal tags put to the rule",
      least=lambda self, first, second: self.rule(first, second, 0) if first == second else Reader.least(self, first, second))
wrong("AlwaysNoChain", "no chain for every two tags that differ",
      least=lambda self, first, second: 0 if first == second else None)
wrong("NoChainBeforeEleven", "different components answered before 11 is asked",
      ask_two=lambda self, first, second: first.component != second.component or Reader.ask_two(self, first, second))


@mistaken("12 before 11")
class TwelveBeforeEleven(Reader):
    def ask_two(self, first, second):
        self.ask(self.question_12(first, second), 12, 1)
        self.ask(self.question_11(first, second), 11, 1)


@mistaken("tags of equal component and rank answered with 0, and 12 not asked")
class OneRankOneWindow(Reader):
    def question_12(self, first, second):
        return True

    def least(self, first, second):
        one = (first.component, first.rank) == (second.component, second.rank)
        return 0 if one else super().least(first, second)


def ordering(name, mistake, key):
    wrong(name, mistake, in_order=lambda self, first, second: sorted((first, second), key=key))


ordering("FirstNamedIsU", "u is the first tag named", lambda tag: 0)
ordering("FirstNamedAtEqualDepth", "u is the first tag named at equal depth", lambda tag: tag.depth)
ordering("GreaterRankAtEqualDepth", "u is the tag of greater rank at equal depth", lambda tag: (tag.depth, -tag.rank))
ordering("GreaterDepthIsU", "u is the tag of greater depth", lambda tag: (-tag.depth, tag.rank))
ordering("SmallerRankIsU", "u is the tag of smaller rank", lambda tag: tag.rank)


def halves(name, mistake, first=Reader.first_half, second=Reader.second_half):
    wrong(name, mistake, first_half=first, second_half=second)


halves("LessInTheFirstHalf", "< for ≤ in the first half",
       first=lambda self, u, v, d: d + 1 if v.rank < u.last or u.last < u.rank else d + 2)
halves("FirstHalfWithoutRankU", "'or last u < rank u' dropped in the first half",
       first=lambda self, u, v, d: d + 1 if v.rank <= u.last else d + 2)
halves("FirstHalfWithoutRankV", "'rank v ≤ last u or' dropped in the first half",
       first=lambda self, u, v, d: d + 1 if u.last < u.rank else d + 2)
halves("FirstHalfAtMostRankU", "last u ≤ rank u for last u < rank u in the first half",
       first=lambda self, u, v, d: d + 1 if v.rank <= u.last or u.last <= u.rank else d + 2)
halves("FirstHalfAlwaysOne", "D + 1 always in the first half", first=lambda self, u, v, d: d + 1)
halves("LessInTheSecondHalf", "< for ≤ in the second half, as the publication prints it",
       second=lambda self, u, v, d: d if v.rank < u.last and u.last < u.rank else d + 1)
halves("SecondHalfWithoutRankV", "'rank v ≤ last u and' dropped in the second half",
       second=lambda self, u, v, d: d if u.last < u.rank else d + 1)
halves("SecondHalfWithoutRankU", "'and last u < rank u' dropped in the second half",
       second=lambda self, u, v, d: d if v.rank <= u.last else d + 1)
halves("SecondHalfAtMostRankU", "last u ≤ rank u for last u < rank u in the second half",
       second=lambda self, u, v, d: d if v.rank <= u.last and u.last <= u.rank else d + 1)
halves("OrInTheSecondHalf", "'or' for 'and' in the second half",
       second=lambda self, u, v, d: d if v.rank <= u.last or u.last < u.rank else d + 1)
halves("SecondHalfAlwaysOneMore", "D + 1 always in the second half", second=lambda self, u, v, d: d + 1)
halves("FirstHalfForBoth", "the first half used whatever the ranks are", second=Reader.first_half)
halves("SecondHalfForBoth", "the second half used whatever the ranks are", first=Reader.second_half)
halves("HalvesExchanged", "the halves of the rule exchanged", Reader.second_half, Reader.first_half)
wrong("LastOfV", "the last taken from v's tag", rule=lambda self, u, v, d: Reader.rule(self, u._replace(last=v.last), v, d))
wrong("DepthDifference", "the difference of the depths taken as the count", rule=lambda self, u, v, d: d)
wrong("AlwaysTwo", "2 handovers for every two windows of a component", rule=lambda self, u, v, d: 2)
wrong("ThroughTheRoot", "the sum of the depths taken as the count", rule=lambda self, u, v, d: u.depth + v.depth)
wrong("CountInOneByte", "the count kept in one byte", rule=lambda self, u, v, d: Reader.rule(self, u, v, d) % 256)
wrong("CountUpTo2047", "the count held to 2,047, as if it were a field",
      rule=lambda self, u, v, d: min(Reader.rule(self, u, v, d), 2047))

# Tag files.

wrong("TornTagFile", "9 is not asked of a tag file", question_9_of_file=lambda self, tags: True)
wrong("EmptyTagFile", "9 refuses an empty tag file", question_9_of_file=lambda self, tags: len(tags) > 0 and len(tags) % 10 == 0)
wrong("PositionsFromOne", "positions counted from 1", part=lambda self, tags, at: bytes(tags[10 * at - 10 : 10 * at]))
wrong("OnePositionTooMany", "7 lets the position pass that is the number of windows",
      question_7=lambda self, position, windows: position <= windows)
wrong("TenTimesIn16Bits", "ten times the position in 16 bits",
      question_7=lambda self, position, windows: position * 10 % 2**16 < windows * 10)
wrong("TenTimesIn32Bits", "ten times the position in 32 bits",
      question_7=lambda self, position, windows: position * 10 % 2**32 < windows * 10)
wrong("PositionIn16Bits", "a named position kept in 16 bits",
      question_7=lambda self, position, windows: position % 2**16 < windows)
wrong("TagFileOf2048", "a tag file has at most 2,048 tags",
      question_7=lambda self, position, windows: position < min(windows, 2048))
wrong("LookupReads", "a lookup asks 10 of the tag that it finds",
      lookup=lambda self, tags, at: self.tag_bytes(self.read_tag(Reader.lookup(self, tags, at), 0)))
wrong("PairAtAsLookups", "pair_at is two lookups, each with input 0",
      pair_at=lambda self, tags, first, second: self.pair(self.lookup(tags, first), self.lookup(tags, second)))
wrong("PairAtByPosition", "pair_at names the smaller position first",
      pair_at=lambda self, tags, first, second: Reader.pair_at(self, tags, *sorted((first, second))))


@mistaken("7 before 9 in a lookup")
class SevenBeforeNine(Reader):
    def ask_lookup(self, tags, at, input=0):
        self.ask(self.question_7(at, len(tags) // 10), 7, input)
        self.ask(self.question_9_of_file(tags), 9)


@mistaken("7 compares the position with the length of the tag file")
class SevenOfTheBytes(Reader):
    def ask_lookup(self, tags, at, input=0):
        self.ask(self.question_9_of_file(tags), 9)
        self.ask(self.question_7(at, len(tags)), 7, input)


@mistaken("7 names the position asked for")
class PositionOfSeven(Reader):
    def question_7(self, position, windows):
        if position >= windows:
            raise Refused(7, 0, position)
        return True


@mistaken("pair_at asks 7 of the second position first")
class PairAtSecondFirst(Reader):
    def pair_at(self, tags, first, second):
        self.ask_lookup(tags, second, 1)
        return super().pair_at(tags, first, second)


@mistaken("pair_at reads the first tag before it asks 7 of the second position")
class PairAtOneByOne(Reader):
    def pair_at(self, tags, first, second):
        self.ask_lookup(tags, first, 0)
        self.read_tag(self.part(tags, first), 0)
        return super().pair_at(tags, first, second)


@mistaken("pair_at answers 0 for one position named twice without reading its tag")
class PairAtOnePosition(Reader):
    def pair_at(self, tags, first, second):
        self.ask_lookup(tags, first, 0)
        return 0 if first == second else super().pair_at(tags, first, second)


@mistaken("pair_at asks 10 of every tag in the file")
class PairAtReadsAll(Reader):
    def pair_at(self, tags, first, second):
        self.ask_lookup(tags, first, 0)
        self.ask_lookup(tags, second, 1)
        for at in range(len(tags) // 10):
            self.read_tag(self.part(tags, at), 0)
        return super().pair_at(tags, first, second)


# Chains.

wrong("EarlierFirst", "a chain written from the earlier window to the later",
      shortest=lambda self, plan, earlier, later: (Reader.shortest(self, plan, earlier, later) or [])[::-1] or None)
wrong("LatestAtEachStep", "a shortest chain with the latest window at each step",
      nearer=lambda self, plan, away, u: Reader.nearer(self, plan, away, u)[-1:])
wrong("TwiceIsNoChain", "no chain for one window named twice",
      shortest=lambda self, plan, earlier, later: None if earlier == later else Reader.shortest(self, plan, earlier, later))
wrong("TwiceIsTwo", "two entries for one window named twice",
      shortest=lambda self, plan, earlier, later: (
          [later, later] if earlier == later else Reader.shortest(self, plan, earlier, later)))


@mistaken("a chain written from the first window named")
class FirstNamedFirst(Reader):
    def chain(self, file, first, second, out):
        entries = super().chain(file, first, second, out)
        if entries and first < second:
            out[:entries] = out[:entries][::-1]
        return entries


@mistaken("a chain that goes from the earlier window each time to the neighbour that ends last")
class GreedyFromTheEarlier(Reader):
    def shortest(self, plan, earlier, later):
        if super().shortest(plan, earlier, later) is None:
            return None
        chain = [earlier]
        while chain[-1] != later:
            beside = [v for v in range(len(plan.offsets)) if self.overlapping(plan, chain[-1], v)]
            chain.append(later if later in beside else max(beside, key=lambda v: plan.ends[v]))
        return chain[::-1]


@mistaken("a chain up to the common ancestor and down again")
class AlongTheTree(Reader):
    def shortest(self, plan, earlier, later):
        parents = self.parent_table(plan)
        up, down = [later], [earlier]
        while up[-1] != down[-1]:
            longer = up if up[-1] > down[-1] else down
            if parents[longer[-1]] == longer[-1]:
                return None
            longer.append(parents[longer[-1]])
        return up + down[-2::-1]


@mistaken("a chain by parents down to the earlier window, though that may be no ancestor")
class ParentsOnly(Reader):
    def shortest(self, plan, earlier, later):
        parents, chain = self.parent_table(plan), [later]
        while chain[-1] > earlier and parents[chain[-1]] != chain[-1]:
            chain.append(max(earlier, parents[chain[-1]]))
        return chain if chain[-1] == earlier else None


class RoomForSome(Reader):
    """Room asked for, in chain, before the chain is known."""

    def chain(self, file, first, second, out):
        plan = self.read_plan(file)
        self.ask_positions(first, second, len(plan.offsets))
        self.ask_room(out, self.least_room(plan))
        return super().chain(file, first, second, out)


wrong("RoomWithoutChain", "8 asks for room even where there is no chain", RoomForSome, least_room=lambda self, plan: 1)
wrong("RoomForAllWindows", "8 asks for n entries in chain", RoomForSome, least_room=lambda self, plan: len(plan.offsets))


@mistaken("8 before 7 in chain, as far as an empty table tells")
class EightBeforeSeven(Reader):
    def chain(self, file, first, second, out):
        self.read_plan(file)
        self.ask_room(out, 1)
        return super().chain(file, first, second, out)


@mistaken("7 asked of the second position first")
class SecondPositionFirst(Reader):
    def ask_positions(self, first, second, windows):
        self.ask(self.question_7(second, windows), 7, 1)
        self.ask(self.question_7(first, windows), 7, 0)


wrong("SevenOfTheGreater", "7 asked of the greater position only, with input 0",
      ask_positions=lambda self, first, second, windows: self.ask(self.question_7(max(first, second), windows), 7))


@mistaken("7 before 4, 5 and 6 in chain")
class SevenBeforeThePlan(Reader):
    def chain(self, file, first, second, out):
        self.ask_file(file, 0)
        self.ask_positions(first, second, self.header(file)[1])
        return super().chain(file, first, second, out)


# Neighbours and sameness.

wrong("WithItself", "a window among its own neighbours",
      overlapping=lambda self, plan, u, v: u == v or Reader.overlapping(self, plan, u, v))
wrong("ParentToLast", "all windows from the parent to the last taken as neighbours",
      overlapping=lambda self, plan, u, v: u != v and self.parent(plan, u) <= v <= self.last(plan, u))
wrong("LaterOnly", "neighbours behind the window only", overlapping=lambda self, plan, u, v: u < v and self.overlap(plan, u, v))


@mistaken("neighbours in falling order")
class FallingNeighbours(Reader):
    def neighbours(self, file, at, out):
        count = super().neighbours(file, at, out)
        out[:count] = out[:count][::-1]
        return count


def comparing(name, mistake, same):
    """A reader that compares two plans by something else."""
    wrong(name, mistake, same=lambda self, *files: same(self, *(self.read_plan(file, input) for input, file in enumerate(files))))


def next_to_each_other(self, plan):
    return [self.overlap(plan, v - 1, v) for v in range(1, len(plan.offsets))] + [len(plan.offsets)]


comparing("SameWindows", "sameness by offsets and lengths", lambda self, a, b: (a.offsets, a.lengths) == (b.offsets, b.lengths))
comparing("SameLengths", "sameness by lengths", lambda self, a, b: a.lengths == b.lengths)
comparing("SameNumbers", "sameness by the number of windows", lambda self, a, b: len(a.offsets) == len(b.offsets))
comparing("SameTrees", "sameness by parents", lambda self, a, b: self.parent_table(a) == self.parent_table(b))
comparing("SameComponents", "sameness by components",
          lambda self, a, b: self.component_table(self.parent_table(a)) == self.component_table(self.parent_table(b)))
comparing("SameNeighbouring", "sameness by overlaps of windows that stand next to each other",
          lambda self, a, b: next_to_each_other(self, a) == next_to_each_other(self, b))
comparing("SameAsFarAsBothGo", "sameness without the number of windows",
          lambda self, a, b: all(x == y for x, y in zip(self.last_table(a), self.last_table(b))))
comparing("SameTagFiles", "sameness by tag files, the plan number among them",
          lambda self, a, b: self.tag_file(a, self.tree(a)) == self.tag_file(b, self.tree(b)))
wrong("SameFileFirst", "two files of equal bytes called the same before they are asked about",
      same=lambda self, first, second: first == second or Reader.same(self, first, second))
wrong("SecondFileFirst", "the second file read first",
      same=lambda self, first, second: self.read_plan(second, 1) and Reader.same(self, first, second))


@mistaken("1, 2, 14 and 3 for both files before 4, 5 and 6 for the first")
class QuestionByQuestion(Reader):
    def same(self, first, second):
        self.ask_file(first, 0)
        self.ask_file(second, 1)
        return super().same(first, second)
