"""Refusals in words. WORDS is the one table of them, by the number of the question; docs/FORMAT.md has the same."""
from typing import Dict, NamedTuple, Optional, Sequence

from . import figures, oldplans
from .plans import Window
from .tagforms import LONG, TagForm
from .wording import bytes_of, counted, ordinal

WORDS: Dict[int, str] = {
    1: "{the_plan} has {bytes}; a plan has at least {HEADER_LENGTH}",
    2: "{the_plan} is said to have {windows}; a plan has at most {WINDOWS_LIMIT:,}",
    3: "{the_plan} has {bytes}; with {windows} it has exactly {wanted:,}",
    4: "{the_window} has length {length:,}; a length is at least the minimum handover, {minimum:,}",
    5: "{the_window} ends at {end:,}; an end is at most {END_LIMIT:,}",
    6: "{the_window} begins at {offset:,}, earlier than the window before it, at {before:,}",
    7: "there is no window {at}: {holder}",
    8: "a table has too little room for what is to be written",
    9: "{the_tag} has {bytes}; {wanted}",
    10: "{the_tag} has {fields}; each is at most {FIELD_LIMIT:,}",
    11: "the first tag is of plan {plan} and the second of plan {other_plan}",
    12: "the two tags have component {component} and rank {rank} alike and differ elsewhere, so they are not both of one plan",
    13: "{the_window} ends at {end:,} and the one before it at {end_before:,}; short tags need ends that never fall",
    14: "{the_plan} has a minimum handover of {minimum:,}; a minimum is {MINIMUM_LEAST} to {MINIMUM_LIMIT:,}",
    15: "{the_plan} has {windows}, and no plan has more; none can be added",
    16: "{the_plan} has number {plan} already; a changed plan has another",
}


class Asked(NamedTuple):
    """The inputs of a call, from which its refusal is worded."""

    plans: Sequence[bytes] = ()
    tags: Sequence[bytes] = ()
    tag_file: Optional[bytes] = None
    positions: Sequence[int] = ()
    form: TagForm = LONG  # of the tags
    added: Optional[Window] = None  # the window that a change adds


class Refused(Exception):
    """A "no" to one of the questions: its number, the input at fault (0 or 1), the position of a window or 0, and words."""

    def __init__(self, number: int, input: int = 0, position: int = 0, words: str = ""):
        self.number, self.input, self.position = number, input, position
        self.words = words or "the formats' document has the question"
        super().__init__(number, input, position, self.words)

    def __str__(self) -> str:
        return f"refused by question {self.number}: {self.words}"


def refusal(number: int, input: int, position: int, asked: Asked) -> Refused:
    """A refusal with words that say what is wrong in the inputs of the call, where they can tell, and the question is known."""
    try:
        facts = _facts(input, position, asked)
        words = WORDS[number].format_map(facts) + (f" ({oldplans.HINT})" if number in (1, 3, 14) and facts["old"] else "")
    except KeyError:
        words = ""
    return Refused(number, input, position, words)


def _facts(input: int, position: int, asked: Asked) -> dict:
    """All that can be told of the inputs of a call; a question's words take what they need."""
    facts = dict(vars(figures), position=position)
    if asked.plans:
        facts.update(_plan_facts(asked, input, position))
    if asked.tag_file is not None:
        facts.update(_tag_file_facts(asked.tag_file, asked.form))
    if input < len(asked.tags):
        facts.update(_tag_facts(asked.tags, input, asked.form))
    if input < len(asked.positions):
        facts["at"] = f"{asked.positions[input]:,}"
    if asked.added is not None:
        facts.update(the_window="the added window", length=asked.added.length, end=asked.added.end)
    return facts


def _which(thing: str, inputs: Sequence[bytes], input: int) -> str:
    return f"the {thing}" if len(inputs) == 1 else f"the {ordinal(input)} {thing}"


def _holder(holder: str, count: int, thing: str) -> str:
    positions = f", 0 to {count - 1:,}" if count > 1 else ", window 0" if count else ""
    return f"{holder} has {counted(count, thing)}{positions}"


def _plan_facts(asked: Asked, input: int, position: int) -> dict:
    input = min(input, len(asked.plans) - 1)  # where the second of two positions is at fault there is one plan
    file = bytes(asked.plans[input])  # a view may lie in pieces
    the_plan = _which("plan", asked.plans, input)
    facts = {"the_plan": the_plan, "the_window": f"window {position} of {the_plan}", "bytes": bytes_of(file, figures.PLAN_LIMIT)}
    facts["old"] = not oldplans.unlike(file)
    if len(file) >= figures.HEADER_LENGTH:
        facts["plan"], windows, facts["minimum"] = figures.HEADER.unpack_from(file)
        facts["windows"], facts["holder"] = counted(windows, "window"), _holder("the plan", windows, "window")
        facts["wanted"] = figures.HEADER_LENGTH + figures.WINDOW_LENGTH * windows
    start = figures.HEADER_LENGTH + figures.WINDOW_LENGTH * position
    if start + figures.WINDOW_LENGTH <= len(file):
        offset, length = figures.WINDOW.unpack_from(file, start)
        facts.update(offset=offset, length=length, end=offset + length)
        if position:
            before, length_before = figures.WINDOW.unpack_from(file, start - figures.WINDOW_LENGTH)
            facts.update(before=before, end_before=before + length_before)
    return facts


def _tag_file_facts(tags: bytes, form: TagForm) -> dict:
    return {
        "the_tag": "the tag file",
        "bytes": counted(len(tags), "byte"),
        "wanted": f"a {form.thing} file has a multiple of {form.length}",
        "holder": _holder("the tag file", len(tags) // form.length, form.thing),
    }


def _tag_facts(tags: Sequence[bytes], input: int, form: TagForm) -> dict:
    facts = {
        "the_tag": _which("tag", tags, input),
        "bytes": bytes_of(tags[input], LONG.length),  # of either form, so that one is seen to be given for the other
        "wanted": f"a {form.thing} has {form.length}",
    }
    read = [form.layout.unpack(bytes(tag)) if len(tag) == form.length else None for tag in tags]
    if read[input] is not None:
        fields = dict(zip(form.fields, read[input]))
        above = [f"{name} {field:,}" for name, field in fields.items() if field > figures.FIELD_LIMIT and name != "plan number"]
        facts.update(fields=" and ".join(above), component=fields["component"], rank=fields["rank"])
    if len(read) == 2 and None not in read:
        facts["plan"], facts["other_plan"] = (tag[0] for tag in read)
    return facts
