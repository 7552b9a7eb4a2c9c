"""A plan as a picture: a bar for each window, panels of some rows with a time axis each, and a chain that is marked.

Nothing is judged here, only placed: which windows overlap, a window's parent and the chain come from the library.
"""
import itertools
from typing import Dict, FrozenSet, List, NamedTuple, Optional, Sequence, Tuple

from .axes import LABEL, Axis, apart, label_width, marks
from .calls import Tree
from .figures import END_LIMIT
from .given import Given, shared_time
from .svg import Drawing, width
from .times import Clock
from .wording import counted

COLOURS = ("#0072b2", "#d55e00", "#009e73", "#cc79a7", "#8a6d00", "#56b4e9", "#5b3a9e", "#7f7f7f")
INK, GREY, FAINT, BAND = "#111111", "#555555", "#dcdcd6", "#f4f4f1"
MARGIN, AXIS, BELOW = 16, 40, 14
BAR_LEAST = 4
ROWS = ((64, 22, 32), (256, 16, 40), (None, 12, 48))  # up to so many windows: height of a row, rows of a panel


class Scene(NamedTuple):
    """What is drawn."""

    plan: Given
    tree: Tree
    shown: Sequence[int]
    ends: Optional[Tuple[int, int]] = None
    chain: Optional[Sequence[int]] = None
    span: Tuple[int, int] = (0, END_LIMIT)  # to which the picture is cut
    chart: float = 1000  # width of the bars' part
    reach: bool = False  # the ends are the farthest two windows of their component


class Panel(NamedTuple):
    """Rows of windows with an axis of their own."""

    rows: Dict[int, int]  # position to row
    axis: Axis
    top: float
    row: float
    shown: FrozenSet[int]  # in all panels
    marked: FrozenSet[int]  # which stand out

    @property
    def bottom(self) -> float:
        return self.top + self.row * len(self.rows)

    def middle(self, position: int) -> float:
        return self.top + self.row * (self.rows[position] + 0.5)


def title(scene: Scene) -> str:
    plan = f"Plan {scene.plan.number}, {scene.plan.minimum_words}"
    if scene.ends is None:
        return f"{plan}: {counted(scene.tree.windows, 'window')}, {counted(scene.tree.components, 'component')}"
    between = " and ".join(scene.plan.names.label(end) for end in scene.ends)
    if scene.chain is None:
        return f"{plan}: no chain between {between}"
    handovers = len(scene.chain) - 1
    return f"{plan}: {f'reach {handovers},' if scene.reach else counted(handovers, 'handover')} between {between}"


def description(scene: Scene) -> str:
    """All of the chain, also where the picture is cut."""
    if not scene.plan.windows:
        return "The plan has no windows."
    if scene.chain is None:
        return f"{counted(len(scene.shown), 'window')} of {len(scene.plan.windows):,} are shown."
    steps = "; ".join(f"{scene.plan.names.label(at)}, {scene.plan.interval(at)}" for at in scene.chain)
    return f"The chain, from the later window to the earlier: {steps}."


def draw(scene: Scene) -> str:
    """The picture as SVG."""
    row, rows = next((row, rows) for limit, row, rows in ROWS if limit is None or len(scene.shown) <= limit)
    # Room for names up to a point.
    longest = max([_before_axis(scene), *(width(_label(scene, at), _font(row)) for at in scene.shown)])
    left = MARGIN + min(longest, 220) + 10
    right = left + scene.chart
    wide = right + 150 + MARGIN
    drawing, top = Drawing(), 60
    drawing.text(MARGIN, 30, title(scene), 20, INK, wide - 2 * MARGIN)
    drawing.text(MARGIN, 52, _subtitle(scene), 13, GREY, wide - 2 * MARGIN)
    shown, marked = frozenset(scene.shown), frozenset((*(scene.ends or ()), *(scene.chain or ())))
    for positions in _panels(scene, rows):
        axis = Axis([scene.plan.windows[at] for at in positions], *scene.span, left, right)
        panel = Panel({position: at for at, position in enumerate(positions)}, axis, top + AXIS, row, shown, marked)
        _bands(drawing, scene, panel, wide)
        _axis(drawing, scene, panel)
        _parents(drawing, scene, panel)
        for position in positions:
            _bar(drawing, scene, panel, position)
        _handovers(drawing, scene, panel)
        top = panel.bottom + BELOW
    return drawing.finish(wide, top + MARGIN, title(scene), description(scene))


def _before_axis(scene: Scene) -> float:
    """Room for positions, and for the unit in the corner, so that half of the axis's first label can stand behind it."""
    end, corner = max((scene.plan.windows[at].end for at in scene.shown), default=0), width(_corner(scene.plan.clock)[1], LABEL)
    return max(64, corner + label_width(end, scene.plan.clock) / 2 - 6 if corner else 0)


def _label(scene: Scene, position: int) -> str:
    return f"{scene.plan.names[position]}  {position}".strip()


def _font(row: float) -> float:
    return 12 if row >= 20 else 10.5 if row >= 16 else 9


def _panels(scene: Scene, rows: int) -> List[List[int]]:
    """Rows in panels of about equal height, which begin with a component where one begins near enough."""
    if not scene.shown:
        return []
    count = -(-len(scene.shown) // rows)
    wanted = -(-len(scene.shown) // count)
    panels: List[List[int]] = [[]]
    for position in scene.shown:
        begins = scene.tree.parents[position] == position
        if len(panels[-1]) >= rows or (begins and len(panels[-1]) >= 0.7 * wanted and count > 1):
            panels.append([])
        panels[-1].append(position)
    return panels


def _subtitle(scene: Scene) -> str:
    if not scene.shown:
        return "no window to show"
    if scene.ends is None:
        return "a line leads from a window up to its parent"
    if scene.chain is None:
        return "the two windows are outlined"
    return f"chain {' '.join(map(str, scene.chain))} (from the later window to the earlier)"


def _bands(drawing: Drawing, scene: Scene, panel: Panel, wide: float) -> None:
    """Components are contiguous, so each is a band of rows; every second one is shaded."""
    for component, positions in itertools.groupby(panel.rows, key=lambda position: scene.tree.component_of[position]):
        positions = list(positions)
        top = panel.top + panel.row * panel.rows[positions[0]]
        if component % 2 == 0:
            drawing.element("rect", x=0, y=top, width=wide, height=panel.row * len(positions), fill=BAND)
        size, beside = min(_font(panel.row), 11), panel.axis.right + 12
        drawing.text(beside, top + panel.row / 2 + size / 3, f"component {component}", size, GREY, wide - beside - MARGIN)


def _corner(clock: Clock) -> Tuple[str, str]:
    """What the marks of an axis are: words before the dates, and words before the labels."""
    return ("date", "time") if clock.origin else ("", str(clock.unit or ""))


def _axis(drawing: Drawing, scene: Scene, panel: Panel) -> None:
    axis, clock = panel.axis, scene.plan.clock
    for words, above in zip(_corner(clock), (22, 9)):
        drawing.text(MARGIN, panel.top - above, words, LABEL, GREY, axis.left - MARGIN)
    room = apart(axis, clock)
    for mark in marks(axis, clock):
        x = axis.place(mark.number)
        drawing.line(x, panel.top - 4, x, panel.bottom + 4, FAINT)
        drawing.text(x, panel.top - 9, mark.label, LABEL, GREY, room, "middle")
        drawing.text(x, panel.top - 22, mark.date, LABEL, GREY, room, "middle")
    for stretch in axis.stretches:
        if stretch.cut:
            _cut(drawing, scene, panel, stretch)


def _cut(drawing: Drawing, scene: Scene, panel: Panel, stretch) -> None:
    """A stretch in which no window is: a white band, with two strokes on the axis."""
    drawing.element(
        "rect",
        title=f"no window for {scene.plan.clock.tell_length(stretch.end - stretch.start)}",
        x=stretch.left + 5,
        y=panel.top - 4,
        width=stretch.right - stretch.left - 10,
        height=panel.bottom - panel.top + 8,
        fill="#ffffff",
    )
    middle = (stretch.left + stretch.right) / 2
    for x in (middle - 3, middle + 3):
        drawing.line(x - 3, panel.top + 11, x + 3, panel.top, GREY, 1.2)


def _parents(drawing: Drawing, scene: Scene, panel: Panel) -> None:
    """The parent covers the time at which the window begins, so the line stands there. To a parent in an earlier panel it leads
    up out of this one."""
    opacity = 0.3 if scene.ends is not None else 0.75
    for position in panel.rows:
        parent, offset = scene.tree.parents[position], scene.plan.windows[position].offset
        if parent == position or parent not in panel.shown or not panel.axis.start <= offset <= panel.axis.end:
            continue
        above = panel.middle(parent) if parent in panel.rows else panel.top - 4
        x, colour = panel.axis.place(offset), _colour(scene, position)
        drawing.line(x, above, x, panel.middle(position), colour, 1 if panel.row > 16 else 0.7, stroke_opacity=opacity)


def _colour(scene: Scene, position: int) -> str:
    return COLOURS[scene.tree.component_of[position] % len(COLOURS)]


def _bar(drawing: Drawing, scene: Scene, panel: Panel, position: int) -> None:
    window, parent, middle = scene.plan.windows[position], scene.tree.parents[position], panel.middle(position)
    marked = position in panel.marked
    strong = marked or scene.ends is None
    left, right = panel.axis.place(window.offset), panel.axis.place(window.end)
    wide, high = max(right - left, BAR_LEAST), panel.row * 0.62
    told = (
        f"{scene.plan.names.label(position)}: {scene.plan.interval(position)}, component {scene.tree.component_of[position]}, "
        f"depth {scene.tree.depths[position]}, {'a root' if parent == position else f'parent {parent}'}"
    )
    outline = {"stroke": INK, "stroke_width": 1.5} if marked else {}
    drawing.element(
        "rect",
        title=told,
        x=min(left, panel.axis.right - wide),
        y=middle - high / 2,
        width=wide,
        height=high,
        rx=2 if panel.row > 16 else 1,
        fill=_colour(scene, position),
        fill_opacity=1 if strong else 0.35,
        **outline,
    )
    size, room = _font(panel.row), panel.axis.left - 10 - MARGIN
    colour = INK if strong else GREY
    drawing.text(MARGIN + room, middle + size / 3, _label(scene, position), size, colour, room, "end", bold=marked)


def _handovers(drawing: Drawing, scene: Scene, panel: Panel) -> None:
    """A handover stands in the middle of the time that its two windows share. One that leads to another panel goes to the edge of
    this one."""
    chain = scene.chain or ()
    for later, earlier in zip(chain, chain[1:]):
        middle = sum(shared_time(scene.plan.windows[later], scene.plan.windows[earlier])) / 2
        if not panel.axis.start <= middle <= panel.axis.end:
            continue
        here = [at for at in (later, earlier) if at in panel.rows]
        ends = [panel.middle(at) for at in here]
        if len(here) == 1:
            ends.append(panel.top - 4 if here[0] > min(later, earlier) else panel.bottom + 4)
        x = panel.axis.place(middle)
        if here:
            drawing.line(x, ends[0], x, ends[1], INK, 2)
        for at in here:
            ring = {"r": 3.4 if panel.row > 16 else 2.6, "fill": "#ffffff", "stroke": INK, "stroke_width": 1.5}
            drawing.element("circle", cx=x, cy=panel.middle(at), **ring)
