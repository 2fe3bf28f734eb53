"""Workbooks for tests, made by openpyxl."""

from __future__ import annotations

import io
from importlib import import_module
from typing import Any, Callable, Sequence

FORMULA = "=1+1"  # openpyxl writes it without a value
Rows = Sequence[Sequence[Any]]


def workbook_of(rows: Rows, change: Callable[[Any], object] = lambda sheet: None) -> bytes:
    """Returns a workbook of one sheet. Texts that look like a formula or an error become one."""
    book = import_module("openpyxl").Workbook()
    for row in rows:
        book.active.append(row)
    change(book.active)
    raw = io.BytesIO()
    book.save(raw)
    return raw.getvalue()
