"""A model of cellrun: it reads a sheet and prints the answer that docs/SHEETS.md and docs/PLAYING.md give it.

    python3 model/cellrun.py < SHEET
"""

import io
import sys
from collections import namedtuple

import book as books
from book import Answer, Call, Declined

MOST_BYTES = 16384
MOST_CALLS = 1024
LARGEST_NUMBER = 4294967295

ENGINE_NAMES = {"m": "pessimistic", "t": "serial"}

# How many numbers stand behind the letter of each call.
CALL_NUMBERS = {"r": 1, "w": 1, "g": 2, "p": 3, "e": 1, "s": 1}

Sheet = namedtuple("Sheet", "letter version cells calls")


class Unreadable(Declined):
    """A line of the sheet is not the text of a heading or of a call."""

    def __init__(self, line_number):
        super().__init__(books.UNREADABLE_LINE)
        self.line_number = line_number


# Reading a sheet.


def read_sheet(text):
    if len(text) > MOST_BYTES:
        raise Declined(books.SHEET_TOO_LONG)
    # Iteration parts the text at line feeds only, and leaves them on the lines.
    lines = io.BytesIO(text)
    letter, version, cells = read_heading(next(lines, b""))
    calls = []
    for line_number, line in enumerate(lines, 2):
        if len(calls) == MOST_CALLS:
            raise Declined(books.SHEET_TOO_LONG)
        calls.append(read_call(line, line_number))
    return Sheet(letter, version, cells, calls)


def read_heading(line):
    letter, numbers = read_line(line, 1)
    if letter not in ENGINE_NAMES or not numbers:
        raise Unreadable(1)
    return letter, numbers[0], numbers[1:]


def read_call(line, line_number):
    letter, numbers = read_line(line, line_number)
    if letter not in CALL_NUMBERS or len(numbers) != CALL_NUMBERS[letter]:
        raise Unreadable(line_number)
    return Call(letter, *numbers)


def read_line(line, line_number):
    """The first field as text, and all other fields as numbers."""
    if not line.endswith(b"\n"):
        raise Unreadable(line_number)
    # A space too many leaves an empty field, which is no letter and no number.
    first, *others = line[:-1].split(b" ")
    numbers = [read_number(field) for field in others]
    if None in numbers:
        raise Unreadable(line_number)
    return first.decode("latin-1"), numbers


def read_number(field):
    """The number that a field holds, or None."""
    # For bytes, isdigit knows the ten digits only.
    if not field.isdigit() or len(field) > 10:
        return None
    if field.startswith(b"0") and field != b"0":
        return None
    number = int(field)
    return number if number <= LARGEST_NUMBER else None


# The serial replay: from the history of the whole run, each transaction alone.


class PastTransaction:
    """A transaction as it is read off the history."""

    def __init__(self):
        self.asked = None   # its last request
        self.opened = None  # the number that it opened with
        self.made = None    # the number that it committed
        self.answered = []  # its answered gets and puts, with their places in the run


def hear(answer):
    """What the replay may hear of an answer: never the value that was told."""
    return Answer(answer.word, answer.number if answer.word in ("opened", "made") else None)


def history_of(calls, answers):
    return [(call, hear(answer)) for call, answer in zip(calls, answers)]


def transactions_of(history):
    found = []
    at = {}  # the open transaction of each seat
    for place, (call, heard) in enumerate(history):
        if heard.word == "ok":
            if call.letter in ("r", "w"):
                at[call.seat] = PastTransaction()
                found.append(at[call.seat])
            at[call.seat].asked = call
        elif heard.word == "opened":
            at[call.seat].opened = heard.number
        elif heard.word in ("told", "put"):
            at[call.seat].answered.append((place, at[call.seat].asked))
        elif heard.word == "made":
            at[call.seat].made = heard.number
        elif heard.word == "ended":
            del at[call.seat]
    return found


def snapshots_of(start_number, start_cells, transactions):
    """The snapshots by their numbers."""
    writers = {one.made: one for one in transactions if one.made is not None}
    snapshots = {start_number: list(start_cells)}
    for number in sorted(writers):
        cells = list(snapshots[number - 1])
        for _, request in writers[number].answered:
            if request.letter == "p":
                cells[request.cell] = request.value
        snapshots[number] = cells
    return snapshots


def run_alone(transaction, snapshots):
    """What the transaction's gets come to, with the places of their answers."""
    if not transaction.answered:
        return  # a transaction that never opened has no snapshot either
    if transaction.made is not None:
        snapshot = snapshots[transaction.made - 1]
    else:
        snapshot = snapshots[transaction.opened]
    own = {}
    for place, request in transaction.answered:
        if request.letter == "p":
            own[request.cell] = request.value
        else:
            yield place, own.get(request.cell, snapshot[request.cell])


def replay(start_number, start_cells, history):
    """One value for each call, the number of the last commit, and its snapshot."""
    transactions = transactions_of(history)
    snapshots = snapshots_of(start_number, start_cells, transactions)
    values = [0] * len(history)
    for transaction in transactions:
        for place, value in run_alone(transaction, snapshots):
            values[place] = value
    last = max(snapshots)
    return values, last, snapshots[last]


# What is printed.


def rows(lines):
    return "".join(line + "\n" for line in lines).encode("ascii")


def row(*fields):
    return " ".join(str(field) for field in fields)


def account_of(sheet):
    book = books.ENGINES[sheet.letter](sheet.version, sheet.cells)
    start_number = book.number
    answers = books.play(book, books.HOUSE, sheet.calls)
    replayed, _, _ = replay(start_number, sheet.cells, history_of(sheet.calls, answers))
    lines = []
    for count, (answer, value) in enumerate(zip(answers, replayed), 1):
        told = (value,) if answer.word == "told" else ()
        lines.append(row(count, answer.word, answer.number, *told))
    lines.append(row("end", book.number, *book.cells))
    return rows(lines)


def summary_of(sheet):
    letters = [call.letter for call in sheet.calls]
    return rows([
        row("engine", ENGINE_NAMES[sheet.letter]),
        row("version", sheet.version),
        row("cells", len(sheet.cells)),
        row("calls", len(letters)),
        row("openings of readers", letters.count("r")),
        row("openings of writers", letters.count("w")),
        row("gets", letters.count("g")),
        row("puts", letters.count("p")),
        row("ends", letters.count("e")),
        row("steps", letters.count("s")),
    ])


def answer(sheet):
    """The text that answers a sheet. Both are bytes."""
    try:
        readable = read_sheet(sheet)
        # An engine that cannot be played yet gets the summary.
        if readable.letter in books.ENGINES:
            return account_of(readable)
        return summary_of(readable)
    except Unreadable as unreadable:
        return rows([row("no", unreadable.refusal, unreadable.line_number)])
    except Declined as declined:
        return rows([row("no", declined.refusal)])


def main():
    try:
        sys.stdout.buffer.write(answer(sys.stdin.buffer.read()))
        sys.stdout.buffer.flush()
    except (OSError, MemoryError) as error:
        print("cellrun: %s" % error, file=sys.stderr)
        return 1
    return 0


if __name__ == "__main__":
    sys.exit(main())
