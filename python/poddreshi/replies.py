"""What a subcommand answers, and its forms: text, CSV and JSON."""
import csv
import io
import json
from typing import NamedTuple, Optional, Sequence, Tuple


class Reply(NamedTuple):
    """An answer in words, as a table and as data. What has one form alone has it as bytes."""

    text: str = ""
    header: Sequence[str] = ()
    rows: Sequence[Sequence] = ()
    data: object = None
    content: bytes = b""
    otherwise: bool = False  # it is "no chain" or "different"
    refused: bool = False  # it is itself a refusal
    faults: Sequence[str] = ()  # the words of parts that were refused
    files: Sequence[Tuple[Optional[str], bytes]] = ()  # other outputs, which are there with the answer or not at all
    aside: Sequence[str] = ()  # lines for standard error, where standard output has one of those

    def encoded(self, form: str) -> bytes:
        if self.content:
            return self.content
        return {"text": self._lines, "csv": self._csv, "json": self._json}[form]().encode("utf-8", "backslashreplace")

    def _lines(self) -> str:
        return self.text if self.text.endswith("\n") or not self.text else self.text + "\n"

    def _csv(self) -> str:
        return csv_lines([self.header, *self.rows])

    def _json(self) -> str:
        return json.dumps(self.data, ensure_ascii=False, indent=2) + "\n"


def csv_lines(rows: Sequence[Sequence]) -> str:
    out = io.StringIO()
    csv.writer(out, lineterminator="\n").writerows(rows)
    return out.getvalue()


def aligned(rows: Sequence[Sequence[str]], right: Sequence[int] = (), between: str = "  ") -> str:
    """Lines of cells that stand below one another; the columns named in `right` are set to the right."""
    widths = [max(map(len, column)) for column in zip(*rows)]
    lines = (
        between.join(cell.rjust(width) if at in right else cell.ljust(width) for at, (cell, width) in enumerate(zip(row, widths)))
        for row in rows
    )
    return "".join(line.rstrip() + "\n" for line in lines)
