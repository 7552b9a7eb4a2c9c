"""A reader made from the words of docs/FORMAT.md alone: every call, in the plainest way, with no regard to speed.

Each question, each number of the tree and each half of the rule is a method of its own, so that a wrong reader
(wrong_readers.py) can get one of them wrong. Tables and tag files that a call writes to are lists and bytearrays that the
caller lends, and the place for a margin is a list of one. A refusal is raised; "no chain" is None.
"""
from collections import namedtuple

Plan = namedtuple("Plan", "number minimum offsets lengths ends")
Tree = namedtuple("Tree", "parents components depths ranks last_ranks")
Tag = namedtuple("Tag", "plan component depth rank last")
ShortTag = namedtuple("ShortTag", "plan component depth rank")


class Refused(Exception):
    def __init__(self, number, input=0, position=0):
        super().__init__(number, input, position)
        self.number, self.input, self.position = number, input, position


class Reader:
    # Numbers in bytes.

    def number(self, part):
        return int.from_bytes(part, "little")

    def two_bytes(self, number):
        return number.to_bytes(2, "little")

    def four_bytes(self, number):
        return number.to_bytes(4, "little")

    # The questions, each with its yes or no, and the refusal that a "no" gives.

    def question_1(self, file):
        return len(file) >= 8

    def question_2(self, windows):
        return windows <= 2048

    def question_3(self, file, windows):
        return len(file) == 8 + 8 * windows

    def question_4(self, length, minimum):
        return length >= minimum

    def question_5(self, offset, length):
        return offset + length <= 4_294_967_295

    def question_6(self, offset, before):
        return offset >= before

    def question_7(self, position, windows):
        return position < windows

    def question_8(self, room, wanted):
        return room >= wanted

    def question_9(self, tag):
        return len(tag) == 10

    def question_9_of_file(self, tags):
        return len(tags) % 10 == 0

    def question_10(self, tag):
        return all(field <= 2047 for field in (tag.component, tag.depth, tag.rank, tag.last))

    def question_11(self, first, second):
        return first.plan == second.plan

    def question_12(self, first, second):
        return first == second or (first.component, first.rank) != (second.component, second.rank)

    def question_13(self, end, before):
        return end >= before

    def question_14(self, minimum):
        return 1 <= minimum <= 86_400

    def question_15(self, windows):
        return windows < 2048

    def question_16(self, number, old):
        return number != old

    def ask(self, yes, number, input=0, position=0):
        if not yes:
            raise Refused(number, input, position)

    # The plan file.

    def header(self, file):
        return self.number(file[0:2]), self.number(file[2:4])

    def minimum(self, file):
        return self.number(file[4:8])

    def window(self, file, position):
        part = file[8 + 8 * position : 16 + 8 * position]
        return self.number(part[:4]), self.number(part[4:])

    def end(self, offset, length):
        return offset + length

    def read_plan(self, file, input=0):
        self.ask_file(file, input)
        (number, windows), minimum = self.header(file), self.minimum(file)
        pairs = [self.window(file, position) for position in range(windows)]
        self.ask_windows(pairs, minimum, input)
        return self.plan_of(number, minimum, pairs)

    def plan_of(self, number, minimum, pairs):
        return Plan(number, minimum, [o for o, _ in pairs], [l for _, l in pairs], [self.end(o, l) for o, l in pairs])

    def ask_file(self, file, input):
        self.ask(self.question_1(file), 1, input)
        windows = self.header(file)[1]
        self.ask(self.question_2(windows), 2, input)
        self.ask(self.question_14(self.minimum(file)), 14, input)
        self.ask(self.question_3(file, windows), 3, input)

    def ask_windows(self, pairs, minimum, input):
        for position in range(len(pairs)):
            self.ask_window(pairs, minimum, position, input)

    def ask_window(self, pairs, minimum, position, input):
        self.ask(self.question_4(pairs[position][1], minimum), 4, input, position)
        self.ask(self.question_5(*pairs[position]), 5, input, position)
        if position > 0:
            self.ask(self.question_6(pairs[position][0], pairs[position - 1][0]), 6, input, position)

    # The tree.

    def overlap(self, plan, u, v):
        """Of u before v."""
        return plan.offsets[v] + plan.minimum <= plan.ends[u]

    def overlapping(self, plan, u, v):
        if u == v:
            return False
        return self.overlap(plan, u, v) if u < v else self.overlap(plan, v, u)

    def parent(self, plan, v):
        for u in range(v):
            if self.overlap(plan, u, v):
                return u
        return v

    def last(self, plan, u):
        v = u  # Offsets do not fall, so the later windows that overlap u stand right behind it.
        while v + 1 < len(plan.offsets) and self.overlap(plan, u, v + 1):
            v += 1
        return v

    def parent_table(self, plan):
        return [self.parent(plan, v) for v in range(len(plan.offsets))]

    def last_table(self, plan):
        return [self.last(plan, u) for u in range(len(plan.offsets))]

    def component_table(self, parents):
        table, count = [], 0
        for v, u in enumerate(parents):
            table.append(count if u == v else table[u])
            count += u == v
        return table

    def depth_table(self, parents):
        table = []
        for v, u in enumerate(parents):
            table.append(0 if u == v else table[u] + 1)
        return table

    def post_order(self, children, root):
        order, waiting = [], [root]
        while waiting:  # The parent, then its children from the last to the first; the post-order is this reversed.
            v = waiting.pop()
            order.append(v)
            waiting.extend(children[v])
        return order[::-1]

    def rank_table(self, parents):
        children = [[] for _ in parents]
        for v, u in enumerate(parents):
            if u != v:
                children[u].append(v)
        table = [0] * len(parents)
        for root in range(len(parents)):
            if parents[root] == root:
                for rank, v in enumerate(self.post_order(children, root)):
                    table[v] = rank
        return table

    def tree(self, plan):
        parents = self.parent_table(plan)
        ranks = self.rank_table(parents)
        last_ranks = [ranks[v] for v in self.last_table(plan)]
        return Tree(parents, self.component_table(parents), self.depth_table(parents), ranks, last_ranks)

    def components(self, tree):
        return max(tree.components, default=-1) + 1

    def tag_file(self, plan, tree):
        rows = zip(tree.components, tree.depths, tree.ranks, tree.last_ranks)
        return b"".join(self.tag_bytes(Tag(plan.number, *row)) for row in rows)

    # Tags.

    def tag_bytes(self, tag):
        return b"".join(map(self.two_bytes, tag))

    def tag_fields(self, tag):
        return Tag(*(self.number(tag[at : at + 2]) for at in range(0, 10, 2)))

    def read_tag(self, tag, input):
        self.ask(self.question_9(tag), 9, input)
        fields = self.tag_fields(tag)
        self.ask(self.question_10(fields), 10, input)
        return fields

    def read_two(self, first, second):
        return self.read_tag(first, 0), self.read_tag(second, 1)

    def ask_two(self, first, second):
        self.ask(self.question_11(first, second), 11, 1)
        self.ask(self.question_12(first, second), 12, 1)

    def least(self, first, second):
        if first == second:
            return 0
        if first.component != second.component:
            return None
        u, v = self.in_order(first, second)
        return self.rule(u, v, v.depth - u.depth)

    def in_order(self, first, second):
        return sorted((first, second), key=lambda tag: (tag.depth, tag.rank))

    def rule(self, u, v, d):
        return self.first_half(u, v, d) if u.rank < v.rank else self.second_half(u, v, d)

    def first_half(self, u, v, d):
        return d + 1 if v.rank <= u.last or u.last < u.rank else d + 2

    def second_half(self, u, v, d):
        return d if v.rank <= u.last and u.last < u.rank else d + 1

    def ask_lookup(self, tags, at, input=0):
        self.ask(self.question_9_of_file(tags), 9)
        self.ask(self.question_7(at, len(tags) // 10), 7, input)

    def part(self, tags, at):
        return bytes(tags[10 * at : 10 * at + 10])

    # Short tags. What is asked of them and how they answer stands apart from tags, so that a mistake in one is none in the other.

    def short_question_9(self, tag):
        return len(tag) == 8

    def short_question_9_of_file(self, tags):
        return len(tags) % 8 == 0

    def short_question_10(self, tag):
        return all(field <= 2047 for field in (tag.component, tag.depth, tag.rank))

    def short_question_12(self, first, second):
        return first == second or (first.component, first.rank) != (second.component, second.rank)

    def ask_even(self, plan):
        for v in range(1, len(plan.ends)):
            self.ask(self.question_13(plan.ends[v], plan.ends[v - 1]), 13, 0, v)

    def short_bytes(self, tag):
        return b"".join(map(self.two_bytes, tag))

    def short_fields(self, tag):
        return ShortTag(*(self.number(tag[at : at + 2]) for at in range(0, 8, 2)))

    def short_tag_file(self, plan, tree):
        rows = zip(tree.components, tree.depths, tree.ranks)
        return b"".join(self.short_bytes(ShortTag(plan.number, *row)) for row in rows)

    def short_read_tag(self, tag, input):
        self.ask(self.short_question_9(tag), 9, input)
        fields = self.short_fields(tag)
        self.ask(self.short_question_10(fields), 10, input)
        return fields

    def short_read_two(self, first, second):
        return self.short_read_tag(first, 0), self.short_read_tag(second, 1)

    def short_ask_two(self, first, second):
        self.ask(self.question_11(first, second), 11, 1)
        self.ask(self.short_question_12(first, second), 12, 1)

    def short_least(self, first, second):
        if first == second:
            return 0
        if first.component != second.component:
            return None
        u, v = self.short_in_order(first, second)
        return self.short_rule(u, v, v.depth - u.depth)

    def short_in_order(self, first, second):
        return sorted((first, second), key=lambda tag: (tag.depth, tag.rank))

    def short_rule(self, u, v, d):
        return d + 1 if u.rank < v.rank else d

    def short_ask_position(self, tags, at, input):
        self.ask(self.short_question_9_of_file(tags), 9)
        self.ask(self.question_7(at, len(tags) // 8), 7, input)

    def short_part(self, tags, at):
        return bytes(tags[8 * at : 8 * at + 8])

    # Chains and reach.

    def beside(self, plan):
        """For each window those that overlap it."""
        windows = range(len(plan.offsets))
        return [[v for v in windows if self.overlapping(plan, u, v)] for u in windows]

    def handovers_to(self, beside, target):
        """For each window the least number of handovers to the target, or None."""
        away = [None] * len(beside)
        away[target], reached = 0, [target]
        for u in reached:
            for v in beside[u]:
                if away[v] is None:
                    away[v] = away[u] + 1
                    reached.append(v)
        return away

    def nearer(self, plan, away, u):
        """The windows to which a shortest chain can go from u."""
        return [v for v in range(len(away)) if away[v] == away[u] - 1 and self.overlapping(plan, u, v)]

    def shortest(self, plan, earlier, later):
        away = self.handovers_to(self.beside(plan), earlier)
        if away[later] is None:
            return None
        chain = [later]
        while chain[-1] != earlier:
            chain.append(min(self.nearer(plan, away, chain[-1])))
        return chain

    def members(self, beside, at):
        """The windows of the component: those that a chain joins to the window."""
        return [v for v, away in enumerate(self.handovers_to(beside, at)) if away is not None]

    def counts(self, beside, members):
        """The handovers between every two windows of a component, and these, by smaller position and then by larger."""
        for u in members:
            away = self.handovers_to(beside, u)
            yield from ((away[v], u, v) for v in members if u <= v)

    def greatest(self, counts):
        return max(counts, key=lambda found: found[0])  # The first of those that have it.

    def farthest(self, plan, at):
        beside = self.beside(plan)
        return self.greatest(self.counts(beside, self.members(beside, at)))

    # Margins, by units that are counted, in whole runs.

    def covers(self, plan, v, unit):
        return plan.offsets[v] <= unit < plan.ends[v]

    def runs(self, plan, u, v):
        """The units from the first that one of two windows covers to the last, in runs that each of them covers whole or not at
        all: how long a run is, and how many of the two cover it."""
        cuts = sorted({plan.offsets[u], plan.ends[u], plan.offsets[v], plan.ends[v]})
        return [(stop - start, self.covers(plan, u, start) + self.covers(plan, v, start)) for start, stop in zip(cuts, cuts[1:])]

    def margin_of(self, plan, u, v):
        """The units that both cover, or, below 0, those between them, which neither does. There are not both."""
        runs = self.runs(plan, u, v)
        shared, between = (sum(units for units, covering in runs if covering == count) for count in (2, 0))
        return shared - between

    # A change.

    def ask_addition(self, plan, number, offset, length):
        self.ask(self.question_15(len(plan.offsets)), 15)
        self.ask(self.question_16(number, plan.number), 16)
        self.ask_added(plan, offset, length)

    def ask_added(self, plan, offset, length):
        """The questions of the window to be added, which has no position yet."""
        self.ask(self.question_4(length, plan.minimum), 4)
        self.ask(self.question_5(offset, length), 5)

    def ask_withdrawal(self, plan, number, at):
        self.ask(self.question_16(number, plan.number), 16)
        self.ask(self.question_7(at, len(plan.offsets)), 7)

    def place(self, plan, offset):
        """Behind all windows with the same or a smaller offset."""
        return sum(other <= offset for other in plan.offsets)

    def with_window(self, plan, offset, length):
        at, pairs = self.place(plan, offset), self.pairs(plan)
        return pairs[:at] + [(offset, length)] + pairs[at:]

    def without_window(self, plan, at):
        pairs = self.pairs(plan)
        return pairs[:at] + pairs[at + 1 :]

    def pairs(self, plan):
        return list(zip(plan.offsets, plan.lengths))

    def plan_file(self, plan):
        header = self.two_bytes(plan.number) + self.two_bytes(len(plan.offsets)) + self.four_bytes(plan.minimum)
        return header + b"".join(self.four_bytes(number) for pair in self.pairs(plan) for number in pair)

    def ask_change_room(self, windows, changed, tags):
        self.ask_room(changed, 8 + 8 * windows)
        self.ask_room(tags, 10 * windows)

    def change(self, old, number, pairs, changed, tags):
        """The plan of these windows with the new number, and the minimum of the old one, written with its tags."""
        self.ask_change_room(len(pairs), changed, tags)
        plan = self.plan_of(number, old.minimum, pairs)
        tree = self.tree(plan)
        self.fill(changed, self.plan_file(plan))
        self.fill(tags, self.tag_file(plan, tree))
        return plan.number, len(pairs), self.components(tree)

    # The calls.

    def fill(self, table, entries):
        table[: len(entries)] = entries

    def ask_room(self, lent, wanted):
        self.ask(self.question_8(len(lent), wanted), 8)

    def ask_positions(self, first, second, windows):
        self.ask(self.question_7(first, windows), 7, 0)
        self.ask(self.question_7(second, windows), 7, 1)

    def validate(self, file):
        plan = self.read_plan(file)
        return plan.number, len(plan.offsets)

    def build(self, file, parents, components, depths, ranks, last_ranks, tags):
        plan = self.read_plan(file)
        windows = len(plan.offsets)
        tables = (parents, components, depths, ranks, last_ranks)
        for table in tables:
            self.ask_room(table, windows)
        self.ask_room(tags, 10 * windows)
        tree = self.tree(plan)
        for table, entries in zip(tables, tree):
            self.fill(table, entries)
        self.fill(tags, self.tag_file(plan, tree))
        return plan.number, windows, self.components(tree)

    def tags(self, file, tags):
        plan = self.read_plan(file)
        self.ask_room(tags, 10 * len(plan.offsets))
        tree = self.tree(plan)
        self.fill(tags, self.tag_file(plan, tree))
        return plan.number, len(plan.offsets), self.components(tree)

    def parents(self, file, table):
        plan = self.read_plan(file)
        self.ask_room(table, len(plan.offsets))
        self.fill(table, self.parent_table(plan))
        return len(plan.offsets)

    def lasts(self, file, table):
        plan = self.read_plan(file)
        self.ask_room(table, len(plan.offsets))
        self.fill(table, self.last_table(plan))
        return len(plan.offsets)

    def read(self, tag):
        return tuple(self.read_tag(tag, 0))

    def write(self, plan, component, depth, rank, last, out):
        tag = Tag(plan, component, depth, rank, last)
        self.ask_room(out, 10)
        self.ask(self.question_10(tag), 10)
        self.fill(out, self.tag_bytes(tag))

    def lookup(self, tags, at):
        self.ask_lookup(tags, at)
        return self.part(tags, at)

    def pair(self, first, second):
        first, second = self.read_two(first, second)
        self.ask_two(first, second)
        return self.least(first, second)

    def pair_at(self, tags, first, second):
        self.ask_lookup(tags, first, 0)
        self.ask_lookup(tags, second, 1)
        return self.pair(self.part(tags, first), self.part(tags, second))

    def chain(self, file, first, second, out):
        plan = self.read_plan(file)
        self.ask_positions(first, second, len(plan.offsets))
        chain = self.shortest(plan, min(first, second), max(first, second))
        if chain is None:
            return None
        self.ask_room(out, len(chain))
        self.fill(out, chain)
        return len(chain)

    def neighbours(self, file, at, out):
        plan = self.read_plan(file)
        self.ask(self.question_7(at, len(plan.offsets)), 7)
        found = [v for v in range(len(plan.offsets)) if self.overlapping(plan, at, v)]
        self.ask_room(out, len(found))
        self.fill(out, found)
        return len(found)

    def reach(self, file, at):
        plan = self.read_plan(file)
        self.ask(self.question_7(at, len(plan.offsets)), 7)
        return self.farthest(plan, at)

    def margin(self, file, first, second, place):
        plan = self.read_plan(file)
        self.ask_positions(first, second, len(plan.offsets))
        self.fill(place, [self.margin_of(plan, first, second)])

    def same(self, first, second):
        first, second = self.read_plan(first, 0), self.read_plan(second, 1)
        windows = len(first.offsets)
        if windows != len(second.offsets):
            return False
        pairs = ((u, v) for v in range(windows) for u in range(v))
        return all(self.overlap(first, u, v) == self.overlap(second, u, v) for u, v in pairs)

    def add(self, file, number, offset, length, changed, tags):
        plan = self.read_plan(file)
        self.ask_addition(plan, number, offset, length)
        return self.change(plan, number, self.with_window(plan, offset, length), changed, tags)

    def withdraw(self, file, number, at, changed, tags):
        plan = self.read_plan(file)
        self.ask_withdrawal(plan, number, at)
        return self.change(plan, number, self.without_window(plan, at), changed, tags)

    def short_tags(self, file, tags):
        plan = self.read_plan(file)
        self.ask_even(plan)
        self.ask_room(tags, 8 * len(plan.offsets))
        tree = self.tree(plan)
        self.fill(tags, self.short_tag_file(plan, tree))
        return plan.number, len(plan.offsets), self.components(tree)

    def short_read(self, tag):
        return tuple(self.short_read_tag(tag, 0))

    def short_write(self, plan, component, depth, rank, out):
        tag = ShortTag(plan, component, depth, rank)
        self.ask_room(out, 8)
        self.ask(self.short_question_10(tag), 10)
        self.fill(out, self.short_bytes(tag))

    def short_pair(self, first, second):
        first, second = self.short_read_two(first, second)
        self.short_ask_two(first, second)
        return self.short_least(first, second)

    def short_pair_at(self, tags, first, second):
        self.short_ask_position(tags, first, 0)
        self.short_ask_position(tags, second, 1)
        return self.short_pair(self.short_part(tags, first), self.short_part(tags, second))
