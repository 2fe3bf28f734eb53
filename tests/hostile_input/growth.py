"""One long line, many lines, many names with long formulas, and a sheet that has used up the memory that there is."""

from __future__ import annotations

import resource
from typing import Iterator

from .program_calls import Call, called, limiting, needs, watched

SLACK = 512  # kB by which two calls may differ that are to hold as much


def try_long_line(program: str, is_long: bool) -> str:
    """Tries lines that are too long. None is kept."""
    mebibytes = 100 if is_long else 20
    for byte in (b"1", b" ", b"\xff"):
        chunks = (byte * (1 << 20) for _ in range(mebibytes))
        output, held, seconds = watched(program, [*chunks, b"\n1+1\n"])
        _, usual, _ = watched(program, [b" " * 4096, b"\n1+1\n"])
        needs(output == b"LINE TOO LONG\n2\n", f"{output[:300]!r}")
        needs(held <= usual + SLACK, f"{held} kB, where a line of 4,096 bytes takes {usual} kB")
    return f"{mebibytes} MiB: at most {held} kB, of a line of 4,096 bytes {usual} kB; {seconds:.2f} s"


def many_lines(count: int) -> Iterator[bytes]:
    """Yields lines, most of them edits and refused ones."""
    for number in range(count // 10):
        data = f"A←{number}+⍳3\n)DATA D←{number} 2 3\nD[2]←¯{number}\nB←A+D\nB\n"
        yield f"{data})ERASE B\n)ERASE B\nD[4]←1\nA+1 2\n'é\n".encode()


def answers_of_many_lines(count: int) -> Iterator[bytes]:
    """Yields the answers to these lines."""
    for number in range(count // 10):
        yield f"{number + number + 1} 2 {number + 6}\nNOT FOUND\nINDEX ERROR\nLENGTH ERROR\nSYNTAX ERROR\n".encode()


def try_many_lines(program: str, is_long: bool) -> str:
    """Tries few and many lines. The memory held does not grow with their number, nor does the time that each takes."""
    few, many = 10000, 1000000 if is_long else 100000
    _, usual, first = watched(program, many_lines(few))
    output, held, seconds = watched(program, many_lines(many))
    needs(output == b"".join(answers_of_many_lines(many)), "other answers")
    needs(held <= usual + SLACK, f"{held} kB, and {usual} kB for {few} lines")
    return f"{many} lines: {held} kB, {seconds / many * 1e6:.1f} µs a line; {few} lines: {usual} kB, {first / few * 1e6:.1f} µs a line"


def long_formula(*names: str) -> str:
    """Returns an expression of 512 nodes."""
    operands = "⌈".join((list(names) * 128)[:128])
    return f"+({operands})⌈{operands}"


def costs_among_names(program: str, count: int) -> list[float]:
    """Returns four costs in microseconds, in a sheet of this number of names.

    The first is the definition of a name with a long formula that refers to the previous name. The others are an edit, divided by the
    number of names that it reaches, an edit that reaches one name, and a new definition of that name.
    """
    formulas = (f"N{number}←{long_formula(f'N{number - 1}' if number > 1 else 'D', 'D')}\n" for number in range(1, count - 2))
    with Call(program) as call:
        call.answers([")DATA D←5 7\n)DATA F←5 7\nZ←F⌈2\n".encode()])
        costs = [call.seconds_for("".join(formulas).encode()) / count]
        for line, times, reached in [("D[1]←%d\n", 5, count), ("F[1]←%d\n", 5000, 1), ("Z←F⌈%d\n", 5000, 1)]:
            costs.append(call.seconds_for(*((line % number).encode() for number in range(times))) / times / reached)
        answers = call.answers([f"D[1]←9\n)COST\nN{count - 3}\n".encode()])
    needs(answers == f"{256 * (count - 3)}\n9 7\n".encode(), f"{answers!r}")
    return [1e6 * seconds for seconds in costs]


def least_costs_among_names(program: str, count: int) -> list[float]:
    """Returns the least of each cost in three calls."""
    return [min(costs) for costs in zip(*(costs_among_names(program, count) for _ in range(3)))]


def try_many_names(program: str) -> str:
    """Tries few and many names. The costs of a name and of an edit do not grow with their number."""
    few, more, most = (least_costs_among_names(program, count) for count in (256, 512, 1024))
    titles = ["a name defined", "a name that an edit reaches", "an edit that reaches one name", "that name defined again"]
    costs = "; ".join("{}: {:.2f}, {:.2f}, {:.2f} µs".format(*row) for row in zip(titles, few, more, most))
    needs(all(last <= 2 * first + 1 for first, last in zip(few, most)), costs)
    return f"among 256, 512 and 1,024 names: {costs}"


def try_end_of_memory(program: str) -> str:
    """Tries a sheet that has used up the memory. It goes on with the names that it has, and takes more when some is given back."""
    numbers = range(100, 130)
    lines = "".join(f"'{number}'\n)DATA N{number}←1048576⍴{number}\n" for number in numbers)
    lines += "'names'\n)NAMES\n'totals'\n" + "".join(f"+/N{number}\n" for number in numbers)
    lines += "'less'\n)ERASE N100\n)ERASE N101\n)DATA Q←1000000⍴1\n+/Q\n)COST\n"
    status, output, errors = called(program, lines.encode(), prepare=limiting(resource.RLIMIT_AS, 100 << 20))
    needs((status, errors) == (0, b""), f"status {status}, {errors!r}")
    text, _, rest = output.decode().partition("names\n")
    present = [number for number in numbers if f"{number}\nNO MEMORY\n" not in text]
    totals = "".join(f"{1048576 * number}\n" if number in present else "VALUE ERROR\n" for number in numbers)
    due = "".join(f"N{number}\n" for number in present) + "totals\n" + totals + "less\n1000000\n1000000\n"
    needs(2 <= len(present) < 30 and rest == due, f"{present} present, then {rest[:300]}")
    return f"{len(present)} of 30 arrays of a million numbers in 100 MiB"
