"""The commands ]csv and ]print: they write an array with labels, into a file or on the screen."""

from __future__ import annotations

import csv
import io
from typing import TYPE_CHECKING, Any, List, NamedTuple, Optional, Sequence

from . import files, storing
from .commands import command, counted
from .dates import date_of, dates_of
from .errors import Mistake
from .numerals import decimals_of, with_decimals
from .pager import Frozen
from .tables import separator_of

if TYPE_CHECKING:
    from .session import Session

GAP = "  "  # between columns of ]print


class Layout(NamedTuple):
    """The options of both commands: names of labels, and the format of numbers."""

    rows: Optional[str]
    titles: Optional[str]
    decimals: Optional[str]
    comma: bool
    dates: Optional[str]

    def texts(self, items: Sequence[str], own_decimals: int) -> List[str]:
        """Returns numbers of the program as texts, with `own_decimals` unless --decimals is given."""
        if self.dates is None:
            decimals = own_decimals if self.decimals is None else decimals_of(self.decimals)
            return with_decimals(items, decimals, "," if self.comma else ".")
        if self.decimals is not None:
            raise Mistake("--dates and --decimals do not go together: a day is a whole number")
        return [date_of(number, dates_of(self.dates)) for number in with_decimals(items, 0, "")]


@command(
    "]csv FILE NAME [--rows LABELS] [--titles LABELS] [--separator ;] [--decimals 2] [--comma] [--dates DD.MM.YYYY] [--replace]",
    "writes numbers to a table file, optionally with labels of its rows and columns; --replace overwrites a file",
)
def write_table(session: Session, file: str, name: str, separator: Optional[str], replace: bool, **options: Any) -> None:
    sign = separator_of(separator) or ","
    records = records_of(session, name, Layout(**options))
    text = io.StringIO(newline="")
    csv.writer(text, delimiter=sign, lineterminator="\n").writerows(records)
    if not session.is_check:
        files.export(file, text.getvalue().encode(), replace)
        session.tell(f"{counted(len(records), 'record')} written to {file}")


@command(
    "]print NAME [--rows LABELS] [--titles LABELS] [--decimals 2] [--comma] [--dates DD.MM.YYYY]",
    "prints numbers in columns, optionally with labels of its rows and columns",
)
def print_table(session: Session, name: str, **options: Any) -> None:
    layout = Layout(**options)
    records = records_of(session, name, layout)
    widths = [max(map(len, column)) for column in zip(*records)]
    lines = []
    for record in records:
        fields = [field.rjust(width) for field, width in zip(record, widths)]
        if layout.rows:
            fields[0] = record[0].ljust(widths[0])
        lines.append(GAP.join(fields).rstrip())
    label_columns = widths[0] + len(GAP) if layout.rows and widths else 0
    session.show_value(lines, frozen=Frozen(int(bool(layout.titles)), label_columns))


def records_of(session: Session, name: str, layout: Layout) -> List[List[str]]:
    """Returns the numbers of a name as records of texts, with the labels of rows and columns."""
    array = array_of(session, name)
    if array.is_text:
        raise Mistake(f"{name} is characters; --rows and --titles take those")
    if len(array.shape) > 2:
        raise Mistake(f"{name} has {len(array.shape)} axes, and a table has two")
    height, width = [1, 1, *array.shape][-2:]
    numbers = layout.texts(array.items, session.binding(name).decimals)
    records = [numbers[at * width : (at + 1) * width] for at in range(height)]
    if layout.rows:
        labels = labels_of(session, layout.rows, height, "records")
        records = [[label, *record] for label, record in zip(labels, records)]
    if layout.titles:
        records = [[""] * bool(layout.rows) + labels_of(session, layout.titles, width, "columns"), *records]
    return records


def array_of(session: Session, name: str) -> storing.Array:
    """Returns the array of a name; a Mistake if the name is absent or shows an error."""
    session.binding(name)
    array = storing.Array(session.program, name)
    if array.error:
        raise Mistake(f"{name} shows {array.error}, and no array")
    return array


def labels_of(session: Session, name: str, count: int, noun: str) -> List[str]:
    """Returns `count` labels: the rows of a character matrix without trailing blanks, or the numbers of a vector."""
    array = array_of(session, name)
    width = array.shape[-1] if array.is_text and array.shape else 1
    items: Sequence[str] = array.items
    if array.is_text:
        labels = [str(items[at : at + width]).rstrip(" ") for at in range(0, len(items), width)]
    else:
        labels = with_decimals(items, 0, "")
    if len(array.shape) > 1 + array.is_text or len(labels) != count:
        raise Mistake(f"{name} has {counted(len(labels), 'label')}, and there are {count} {noun}")
    return labels
