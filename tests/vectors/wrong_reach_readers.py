"""Wrong readers of reach, beside those of wrong_readers.py and of the same kind: the right one with one mistake each.

Mistakes that no vector can show are not here: the handovers counted to the component's last window alone (some window is as far
from that one as any two are apart), where the pair is then looked for among all; a window and itself left out of the pairs where
a component has more than one (two different windows have more handovers).
"""
from reader import Reader
from wrong_minimum_readers import WRONG, heedless
from wrong_readers import mistaken, wrong

__all__ = ["WRONG"]


def altered(name, mistake, change):
    """A reader whose reach is the right one, altered: the number and the pair, beside the component's first window and last."""

    def greatest(self, counts):
        counts = list(counts)
        return change(*Reader.greatest(self, counts), counts[0][1], counts[-1][2])

    wrong(name, mistake, greatest=greatest)


# The number.

altered("ReachInWindows", "the windows of the chain counted, not its handovers",
        lambda count, u, v, first, last: (count + 1, u, v))
altered("ReachBetween", "the windows between the two counted", lambda count, u, v, first, last: (max(count - 1, 0), u, v))
altered("ReachInOneByte", "reach kept in one byte", lambda count, u, v, first, last: (count % 256, u, v))
altered("OneWindowReachesOne", "a component of one window has reach 1", lambda count, u, v, first, last: (max(count, 1), u, v))
altered("ReachOfAllWindows", "the windows of the component less one taken as its reach",
        lambda count, u, v, first, last: (last - first, u, v))


@mistaken("reach as it was before: the depth of the component's last window plus 1")
class ReachOfBefore(Reader):
    def farthest(self, plan, at):
        _, *pair = super().farthest(plan, at)
        last = self.members(self.beside(plan), at)[-1]
        return self.tree(plan).depths[last] + 1, *pair


def between_some(name, mistake, kept):
    """A reader that counts between some pairs only."""
    wrong(name, mistake, counts=lambda self, beside, members: [
        found for found in Reader.counts(self, beside, members) if kept(*found[1:], members)])


between_some("FromTheFirst", "handovers counted from the component's first window only", lambda u, v, members: u == members[0])
between_some("ToTheLast", "handovers counted to the component's last window only", lambda u, v, members: v == members[-1])
between_some("FirstToLast", "handovers counted from the component's first window to its last",
             lambda u, v, members: (u, v) == (members[0], members[-1]))
between_some("NextToEachOther", "handovers counted between windows that stand next to each other",
             lambda u, v, members: v - u == (len(members) > 1))


@mistaken("handovers counted from the named window only")
class FromTheNamed(Reader):
    def farthest(self, plan, at):
        beside = self.beside(plan)
        away = self.handovers_to(beside, at)
        return self.greatest((away[v], *sorted((at, v))) for v in self.members(beside, at))


class ByTheLatestEnd(Reader):
    """Of a component's windows, the one that ends last taken for the last."""

    def farthest(self, plan, at):
        beside = self.beside(plan)
        members = self.members(beside, at)
        return self.by_latest(beside, members, max(members, key=lambda v: plan.ends[v]))


wrong("ToTheLatestEnd", "handovers counted from the component's first window to the one that ends last", ByTheLatestEnd,
      by_latest=lambda self, beside, members, latest: (
          self.handovers_to(beside, members[0])[latest], members[0], latest))


class OfSomeTwo(Reader):
    """Pairs between which there is no chain are passed over."""

    def counts(self, beside, members):
        return (found for found in super().counts(beside, members) if found[0] is not None)


def stepping(name, mistake, kept):
    """A reader whose chains, in reach, go on from u to some of the windows beside it only."""
    wrong(name, mistake, OfSomeTwo, counts=lambda self, beside, members: OfSomeTwo.counts(
        self, [[v for v in near if kept(u, v, near)] for u, near in enumerate(beside)], members))


stepping("ForwardOnly", "chains that go on to later windows only", lambda u, v, near: v > u)
stepping("NotToTheLast", "chains that pass over the last of the windows beside each", lambda u, v, near: v < max(near))


class ByTheTree(Reader):
    """Handovers counted by the tree, from the ways of two windows to the root."""

    def count(self, up, down):
        return len(set(up) ^ set(down))

    def farthest(self, plan, at):
        parents, members = self.parent_table(plan), self.members(self.beside(plan), at)
        ways = {v: [v] for v in members}
        for v in members[1:]:
            ways[v] += ways[parents[v]]
        return self.greatest((self.count(ways[u], ways[v]), u, v) for u in members for v in members if u <= v)


wrong("ReachByTheTree", "handovers counted up to the common ancestor and down again", ByTheTree)
wrong("ReachThroughTheRoot", "handovers counted up to the root and down again", ByTheTree,
      count=lambda self, up, down: 0 if up == down else len(up) + len(down) - 2)


@mistaken("handovers counted by the rule for short tags, also where ends fall")
class ReachByShortTags(Reader):
    def farthest(self, plan, at):
        file, members = self.short_tag_file(plan, self.tree(plan)), self.members(self.beside(plan), at)
        tags = {v: self.short_fields(self.short_part(file, v)) for v in members}
        return self.greatest((self.short_least(tags[u], tags[v]), u, v) for u in members for v in members if u <= v)


# The pair.


def choosing(name, mistake, key):
    """A reader that takes another of the pairs that have the greatest number."""
    wrong(name, mistake, greatest=lambda self, counts: min(counts, key=lambda found: (-found[0], *key(*found[1:]))))


choosing("ByTheLarger", "the first pair by larger position and then by smaller", lambda u, v: (v, u))
choosing("LastPair", "the last pair that has it", lambda u, v: (-u, -v))
choosing("LastLarger", "the first smaller position with the last larger", lambda u, v: (u, -v))
choosing("LastSmaller", "the last smaller position with the first larger", lambda u, v: (-u, v))
choosing("NearestPair", "the two whose positions lie nearest to each other", lambda u, v: (v - u, u))
choosing("WidestPair", "the two whose positions lie farthest from each other", lambda u, v: (u - v, u))
altered("LargerBeforeSmaller", "the larger position before the smaller", lambda count, u, v, first, last: (count, v, u))
altered("PairBeforeReach", "the two positions before the number", lambda count, u, v, first, last: (u, v, count))
altered("PairFromTheFirst", "the component's first window named as the smaller, whichever has it",
        lambda count, u, v, first, last: (count, first, v))
altered("PairToTheLast", "the component's last window named as the larger, whichever has it",
        lambda count, u, v, first, last: (count, u, last))
altered("PairOfTheEnds", "the component's first and last window named, whichever have it",
        lambda count, u, v, first, last: (count, first, last))
altered("PairFromOne", "the two positions counted from 1", lambda count, u, v, first, last: (count, u + 1, v + 1))
altered("PairInTheComponent", "the two positions counted from the component's first window",
        lambda count, u, v, first, last: (count, u - first, v - first))
altered("PairInOneByte", "the two positions kept in one byte", lambda count, u, v, first, last: (count, u % 256, v % 256))
altered("NoPairOfOne", "no pair of a component of one window: 0 and 0 stand in its place",
        lambda count, u, v, first, last: (count, u, v) if first < last else (0, 0, 0))
altered("NoPair", "no pair: 0 and 0 stand in its place", lambda count, u, v, first, last: (count, 0, 0))


@mistaken("the ranks of the two windows in the place of their positions")
class PairOfRanks(Reader):
    def farthest(self, plan, at):
        count, *pair = super().farthest(plan, at)
        ranks = self.tree(plan).ranks
        return count, *(ranks[v] for v in pair)


@mistaken("the named window in the place of the smaller position, or of the larger where it stands behind that")
class PairWithTheNamed(Reader):
    def farthest(self, plan, at):
        count, u, v = super().farthest(plan, at)
        return (count, u, at) if at > v else (count, at, v)


# The component.


def component(name, mistake, change):
    """A reader that takes other windows for the component, given the right ones, those beside each window, and the named one."""
    wrong(name, mistake, members=lambda self, beside, at: change(Reader.members(self, beside, at), beside, at))


component("WithoutTheLast", "the component's last window left out", lambda members, beside, at: members[:-1] or members)
component("WithoutTheFirst", "the component's first window left out", lambda members, beside, at: members[1:] or members)
component("FromTheNamedOn", "the windows from the named one on", lambda members, beside, at: [v for v in members if v >= at])
component("UpToTheNamed", "the windows up to the named one", lambda members, beside, at: [v for v in members if v <= at])
component("TheNamedAndBeside", "the named window and those that overlap it",
          lambda members, beside, at: sorted([at, *beside[at]]))
component("RootAndBeside", "a root and the windows that overlap it",
          lambda members, beside, at: sorted([members[0], *beside[members[0]]]))
wrong("ComponentOfTheLast", "the component of the plan's last window, whichever is named",
      members=lambda self, beside, at: Reader.members(self, beside, len(beside) - 1))
wrong("ComponentOfTheFirst", "the component of window 0, whichever is named",
      members=lambda self, beside, at: Reader.members(self, beside, 0))
wrong("ComponentOfTheNext", "the component of the window behind the named one",
      members=lambda self, beside, at: Reader.members(self, beside, min(at + 1, len(beside) - 1)))
wrong("ReachOfThePlan", "the greatest number between two windows of the plan, whichever component is named", OfSomeTwo,
      members=lambda self, beside, at: range(len(beside)))
wrong("ComponentToTheEnd", "the component taken to go on to the plan's last window", OfSomeTwo,
      members=lambda self, beside, at: range(Reader.members(self, beside, at)[0], len(beside)))
wrong("ComponentFromTheStart", "the component taken to begin with window 0", OfSomeTwo,
      members=lambda self, beside, at: range(Reader.members(self, beside, at)[-1] + 1))
wrong("UpToTheLatestEnd", "the component taken to end with the window that ends last", ByTheLatestEnd,
      by_latest=lambda self, beside, members, latest: self.greatest(
          self.counts(beside, [v for v in members if v <= latest])))

# The minimum.


@mistaken("in reach, windows that share just the minimum taken as not overlapping")
class MoreThanTheMinimumInReach(Reader):
    def farthest(self, plan, at):
        return super().farthest(plan._replace(minimum=plan.minimum + 1), at)


@mistaken("components by shared units, and handovers by the minimum")
class MembersByAUnit(OfSomeTwo):
    def farthest(self, plan, at):
        return self.greatest(self.counts(self.beside(plan), self.members(self.beside(heedless(plan)), at)))


@mistaken("components by the minimum, and handovers by shared units")
class CountsByAUnit(Reader):
    def farthest(self, plan, at):
        return self.greatest(self.counts(self.beside(heedless(plan)), self.members(self.beside(plan), at)))


# Questions.


@mistaken("7 before 4, 5 and 6 in reach")
class ReachAsksSevenFirst(Reader):
    def reach(self, file, at):
        self.ask_file(file, 0)
        self.ask(self.question_7(at, self.header(file)[1]), 7)
        return super().reach(file, at)


@mistaken("a component of one window refused by 7, for want of a second")
class OneWindowRefused(Reader):
    def farthest(self, plan, at):
        count, u, v = super().farthest(plan, at)
        self.ask(u < v, 7)
        return count, u, v


@mistaken("13 asked in reach too")
class ReachAsksThirteen(Reader):
    def reach(self, file, at):
        self.ask_even(self.read_plan(file))
        return super().reach(file, at)
