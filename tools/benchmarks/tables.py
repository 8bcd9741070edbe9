"""Tables in Markdown, and how their figures are written."""
import statistics
import sys
import typing


class Ratio(typing.NamedTuple):
    """How many times better one is than another, by a group and a name of its own."""

    group: str
    name: str
    times: float


class Table(typing.NamedTuple):
    """A part of a section: its title, its text, and what the chart shows of it."""

    title: str
    text: str
    ratios: list = []


def say(text):
    """Tells on standard error what is being measured."""
    print(f"bench: {text}", file=sys.stderr, flush=True)


def figure(number):
    """A number with about three digits that count."""
    if number >= 100:
        return f"{number:,.0f}"
    return f"{number:.{1 if number >= 10 else 2 if number >= 0.1 else 3}f}"


def without_repeats(rows):
    """Rows of which those that begin as the row above have an empty first cell."""
    above = [None, *(row[0] for row in rows)]
    return [["", *row[1:]] if row[0] == before else row for row, before in zip(rows, above)]


def table(head, rows, words=1):
    """A table, whose first columns have words and whose others have figures."""
    first, *others = [f"| {' | '.join(row)} |\n" for row in (head, *(without_repeats(rows) if words > 1 else rows))]
    return first + "|---" * words + "|---:" * (len(head) - words) + "|\n" + "".join(others)


def reason(columns, names, why):
    """The row of what can't be measured, by the words of its first columns."""
    return [*names, f"not measured: {why}", *[""] * (columns - len(names) - 1)]


def spread(numbers):
    """The middle of some ratios, and the least and the greatest of them."""
    if len(numbers) == 1:
        return figure(numbers[0])
    return f"{figure(statistics.median(numbers))} ({figure(min(numbers))}–{figure(max(numbers))})"
