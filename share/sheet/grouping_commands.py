"""The commands that group and sort: ]pivot totals a long list by its labels, and ]sort makes an order. They are tested, and not proved."""

from __future__ import annotations

import re
from typing import TYPE_CHECKING, Any, Dict, List, Optional, Sequence, Tuple

from . import storing
from .arrays import lines_of_array
from .commands import command, counted
from .errors import Mistake
from .numerals import is_within
from .table_commands import FileKind, check_name, check_size, columns_of, memory_for, not_taken_in, numerals_of, remark_on_units, table_of
from .tables import Table, shortened
from .units import with_units

if TYPE_CHECKING:
    from .session import Session

WHOLE = re.compile("-?[0-9]+")
SUFFIXES = ("_ROWS", "_COLUMNS")  # of the names of labels


@command(
    "]pivot NAME FILE [--rows CUSTOMER] [--columns MONTH] [--sum AMOUNT] [--count] [--sorted] [--separator ;] [--decimals 2] [--comma] [--point] [--thousands] [--empty 0] [--encoding cp1252] [--sheet PRICES] [--range B2:F40]",
    "puts totals of a long list with titles under a name, by the labels of a column, or of two; the labels go under NAME_ROWS and NAME_COLUMNS",
)
def pivot(
    session: Session,
    name: str,
    file: str,
    rows: Optional[str],
    columns: Optional[str],
    sum: Optional[str],
    count: bool,
    sorted: bool,
    **options: Any,
) -> None:
    check_name(name)
    if rows is None or (sum is None) != count:
        raise Mistake("]pivot takes --rows with a title, and either --sum with one or --count")
    kind = FileKind.taken_from(options)
    numerals = numerals_of(**options)
    with memory_for(file):
        table = table_of(session, file, True, kind)
        keys = [labels_of(table, title) for title in (rows, columns) if title is not None]
        amounts = ["1"] * table.height if sum is None else table.numbers([column_of(table, sum)], numerals)[0]
        axes = [ordered([*dict.fromkeys(labels)], sorted) for labels in keys]
        check_size(session, shape := [len(labels) for labels in axes] + [1] * (len(axes) == 1))
        totals = totals_of(axes, keys, amounts)
        decimals = 0 if sum is None else numerals.decimals
        put(session, file, name, shape[: len(axes)], totals, axes, decimals)
    if sum is not None:
        remark_on_units(session, name, numerals)


def column_of(table: Table, text: str) -> int:
    """Returns a single column by its title or number."""
    if len(wanted := columns_of(table, text)) != 1:
        raise Mistake(f"'{shortened(text)}' names {len(wanted)} columns, and one is wanted")
    return wanted[0]


def labels_of(table: Table, text: str) -> List[str]:
    return table.labels(column_of(table, text))


def ordered(labels: List[str], is_sorted: bool) -> List[str]:
    """Returns labels in order of appearance, or sorted: numerically if all are whole numbers."""
    if not is_sorted:
        return labels
    return sorted(labels, key=int) if all(map(WHOLE.fullmatch, labels)) else sorted(labels)


def totals_of(axes: Sequence[Sequence[str]], keys: Sequence[Sequence[str]], amounts: Sequence[str]) -> List[str]:
    """Returns the exact total for each combination of labels in row-major order; a Mistake beyond 64 bits."""
    places: Dict[Tuple[str, ...], int] = {}
    for label in axes[0]:
        for other in axes[1] if len(axes) == 2 else [""]:
            places[(label, other)[: len(axes)]] = len(places)
    totals = [0] * len(places)
    for key, amount in zip(zip(*keys), amounts):
        totals[places[key]] += int(amount)
    for key, total in zip(places, totals):
        if not is_within(str(total)):
            raise Mistake(f"the total of {' and '.join(map(shortened, key))} is beyond 64 bits: {total}")
    return [*map(str, totals)]


def put(
    session: Session, file: str, name: str, shape: List[int], totals: List[str], axes: Sequence[Sequence[str]], decimals: int
) -> None:
    """Binds a name to totals, and NAME_ROWS and NAME_COLUMNS to their labels."""
    lines = with_units(lines_of_array(name, shape, totals, session.journal.spare_name(name)), name, decimals)
    for labels, suffix in zip(axes, SUFFIXES):
        width = max(map(len, labels), default=0)
        check_size(session, [len(labels), width])
        items = "".join(label.ljust(width) for label in labels)
        lines += lines_of_array(f"{name}{suffix}", [len(labels), width], items, session.journal.spare_name(name + suffix))
    try:
        session.change(f"]pivot {name} {file}", lines, file)
    except Mistake as refused:
        raise not_taken_in(str(refused), [*shape, 1][:2]) from None
    session.inform(" by ".join(f"{counted(len(labels), 'label')} in {name}{suffix}" for labels, suffix in zip(axes, SUFFIXES)))


@command(
    "]sort ORDER NAME [COLUMN] [--down]",
    "puts a sort order of the rows of NAME under ORDER: by a column, or by whole rows; T[ORDER;] is sorted, --down in descending order",
)
def sort(session: Session, order: str, name: str, column: Optional[str], down: bool) -> None:
    check_name(order)
    session.binding(name)
    array = storing.Array(session.program, name)
    if array.error or not 1 <= len(array.shape) <= 2:
        raise Mistake(f"{name} shows {array.error}" if array.error else f"{name} has {len(array.shape)} axes, and no rows")
    keys = keys_of(array, column)
    places = sorted(range(len(keys)), key=keys.__getitem__, reverse=down)  # equal rows keep their order
    lines = lines_of_array(order, [len(places)], [str(place + 1) for place in places], session.journal.spare_name(order))
    session.change(f"]sort {order} {name}", lines)


def keys_of(array: storing.Array, column: Optional[str]) -> List[Any]:
    """Returns the sort keys of the rows: the items of a column, or whole rows."""
    width = array.shape[1] if len(array.shape) == 2 else 1
    items = array.items if array.is_text else [int(item.replace("¯", "-")) for item in array.items]
    rows = [items[at * width : (at + 1) * width] for at in range(array.shape[0])]
    if column is None:
        return rows
    if not column.isdecimal() or not 1 <= int(column[:9]) <= width:
        raise Mistake(f"{array.name} has {counted(width, 'column')}, and '{shortened(column)}' is none of them")
    return [row[int(column) - 1] for row in rows]
