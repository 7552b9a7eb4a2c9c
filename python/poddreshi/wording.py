"""Numbers in words, the same in every locale."""
from typing import List, Sequence


def counted(number: int, thing: str) -> str:
    """`1 window`, `2,048 windows`, `no windows`."""
    return f"{number:,} {thing}" + ("" if number == 1 else "s") if number else f"no {thing}s"


def bytes_of(data: bytes, limit: int) -> str:
    """A length; of what is too long only that, since no more of it need have been read."""
    return f"more than {counted(limit, 'byte')}" if len(data) > limit else counted(len(data), "byte")


def ranges(numbers: Sequence[int]) -> str:
    """Rising numbers, of which three or more in a row are shortened: `0, 3 to 7`."""
    rows: List[List[int]] = []
    for number in numbers:
        if rows and number == rows[-1][-1] + 1:
            rows[-1].append(number)
        else:
            rows.append([number])
    shown = ([f"{row[0]} to {row[-1]}"] if len(row) > 2 else map(str, row) for row in rows)
    return ", ".join(words for each in shown for words in each)


def cited(words: str) -> str:
    """Words of an input in quotes; of long ones the beginning."""
    return f'"{words}"' if len(words) <= 48 else f'"{words[:48]}…"'


def ordinal(place: int) -> str:
    """The first or the second of two inputs."""
    return "first" if place == 0 else "second"
