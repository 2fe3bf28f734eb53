"""Writes orders.csv, the 50,000 order lines of March 2026 that month.apl reads:  python3 make_orders.py [FOLDER]

The file is as a German spreadsheet saves it: semicolons, decimal commas, points between thousands, dates as 31.03.2026, Windows-1252.
The lines are the same at each call.
"""

from __future__ import annotations

import random
import sys
from pathlib import Path
from typing import List

LINES = 50000
CUSTOMERS = ["Müller GmbH", "Schäfer & Söhne", "Kant KG", "Hegel AG", "Groß Bau", "Lüders", "Weiß", "Östermann"]
ITEMS = {"Tischlampe": 2990, "Wandlampe": 5450, "Spot": 1205, "Klemmlampe": 895, "Außenleuchte": 12300}  # cents a piece
DAYS = [day for day in range(1, 32) if (day - 1) % 7 not in (0, 6)]  # 1 March 2026 is a Sunday


def pick(chosen: random.Random, count: int) -> int:
    """Returns a number below `count`; small ones come more often."""
    return int(chosen.random() * chosen.random() * count)  # random() gives the same numbers in each version of Python


def german(number: int) -> str:
    """Returns a whole number with points between thousands."""
    return f"{number:,}".replace(",", ".")


def order(chosen: random.Random, number: int) -> str:
    """Returns an order line."""
    customer, item = CUSTOMERS[pick(chosen, len(CUSTOMERS))], [*ITEMS][pick(chosen, len(ITEMS))]
    day, pieces = DAYS[int(chosen.random() * len(DAYS))], 1 + pick(chosen, 1500)
    cents = pieces * ITEMS[item] * (100 - pick(chosen, 20)) // 100
    return f"{number};{day:02}.03.2026;{customer};{item};{german(pieces)};{german(cents // 100)},{cents % 100:02}"


def main(words: List[str]) -> None:
    chosen = random.Random(2026)
    lines = ["Auftrag;Datum;Kunde;Artikel;Menge;Betrag", *(order(chosen, 100000 + number) for number in range(LINES))]
    text = "".join(f"{line}\r\n" for line in lines)
    Path(*words[:1], "orders.csv").write_bytes(text.encode("cp1252"))


if __name__ == "__main__":
    main(sys.argv[1:])
