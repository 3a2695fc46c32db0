"""Random sheets, the same ones for the same seed.

    python3 model/generate.py --seed N --count K

counts what the model answers to them. Other programs take the sheets from `sheets`.
"""

import argparse
import random
from collections import Counter

import book as books
import cellrun
from book import Call

HUGE = [10, 255, 256, 65535, 65536, 2147483647, 2147483648, 4294967294, 4294967295]
VERSIONS = [1, 3, 5, 65533, 65535, 65537, 131071, 2147483647, 2147483649]
TOP_VERSIONS = [4294967289, 4294967291, 4294967293, 4294967293, 4294967295]


# Numbers.


def some_number(rng):
    pick = rng.random()
    if pick < 0.6:
        return rng.randrange(100)
    if pick < 0.8:
        return rng.choice(HUGE)
    return rng.randrange(2**32)


def some_version(rng):
    pick = rng.random()
    if pick < 0.7:
        return rng.choice(VERSIONS)
    if pick < 0.8:
        return rng.choice(TOP_VERSIONS)
    return 2 * rng.randrange(2**31) + 1


def some_cells(rng, least=1, most=6):
    return [some_number(rng) for _ in range(rng.randint(least, most))]


# A sheet in the making.


class Draft:
    """A sheet that grows by calls, and a book that has taken the same calls."""

    def __init__(self, version, cells, letter="t"):
        self.lines = [line_of(letter, version, *cells)]
        # A letter without an engine borrows the serial one to look sensible.
        engine = books.ENGINES.get(letter, books.SerialBook)
        self.book = engine(version, cells)

    def add(self, call):
        self.lines.append(text_of(call))
        return books.make_in_house(self.book, books.HOUSE, call)

    def request_and_steps(self, call):
        """A request, and steps until it is answered or waits."""
        answer = self.add(call)
        while answer.word in ("ok", "moved", "made"):
            answer = self.add(Call("s", call.seat))

    def text(self):
        return b"".join(self.lines)


def line_of(*fields):
    return (" ".join(str(field) for field in fields) + "\n").encode("ascii")


def text_of(call):
    numbers = [call.seat, call.cell, call.value]
    return line_of(call.letter, *numbers[: cellrun.CALL_NUMBERS[call.letter]])


# Calls.


def random_call(rng, seats, cell_count):
    """Any call at all, often one that is declined."""
    letter = rng.choice("rwggppesss")
    seat = rng.choice(seats)
    # Now and then a cell that the book does not have.
    cell = rng.randrange(cell_count + 2) if rng.random() < 0.9 else rng.choice(HUGE)
    return Call(letter, seat, cell, some_number(rng))


def noisy_call(rng, seats, cell_count):
    if rng.random() < 0.1:
        return random_call(rng, range(8, 10), cell_count)
    return random_call(rng, seats, cell_count)


def sensible_call(rng, book, seats):
    """A call that will be accepted, unless the numbers are used up."""
    # Most of the time some seat goes on, or few transactions would ever end.
    going = [seat for seat in seats if not book.would_wait(seat)]
    seat = rng.choice(going if going and rng.random() < 0.85 else seats)
    standing = book.standing(seat)
    if standing == books.BUSY:
        return Call("s", seat)
    if standing == books.FREE:
        writes = not books.bars(books.HOUSE, Call("w", seat)) and rng.random() < 0.75
        return Call("w" if writes else "r", seat)
    if rng.random() < 0.3:
        return Call("e", seat)
    cell = rng.randrange(book.cell_count())
    if book.kind(seat) == books.WRITER and rng.random() < 0.55:
        return Call("p", seat, cell, some_number(rng))
    return Call("g", seat, cell)


def some_seats(rng):
    """One to three seats that may write, and up to two more of any sort."""
    seats = rng.sample(range(4), rng.randint(1, 3))
    others = [seat for seat in range(books.SEATS) if seat not in seats]
    return seats + rng.sample(others, rng.randint(0, 2))


def add_sensible_calls(rng, draft, count, noise=0.12):
    seats = some_seats(rng)
    for _ in range(count):
        if rng.random() < noise:
            draft.add(noisy_call(rng, seats, draft.book.cell_count()))
        else:
            draft.add(sensible_call(rng, draft.book, seats))


def call_count(rng):
    # Short ones and long ones, with more of the long.
    return max(rng.randint(10, 80), rng.randint(10, 80))


# Runs.


def sensible_run(rng):
    draft = Draft(some_version(rng), some_cells(rng))
    add_sensible_calls(rng, draft, call_count(rng), rng.choice([0, 0.05, 0.15, 0.3]))
    return draft.text()


def run_at_the_top(rng):
    """Several writers on a book that soon has no number left."""
    draft = Draft(rng.choice(TOP_VERSIONS), some_cells(rng))
    add_sensible_calls(rng, draft, call_count(rng), 0.2)
    return draft.text()


def random_run(rng):
    pools = [range(2), range(3), range(5), range(8), range(10), list(range(8)) + HUGE]
    seats = rng.choice(pools)
    cells = some_cells(rng, 1, 20)
    draft = Draft(some_version(rng), cells)
    for _ in range(call_count(rng)):
        draft.add(random_call(rng, seats, len(cells)))
    return draft.text()


def run_with_a_full_write_set(rng):
    """16 cells in a write set, a 17th, and the first ones again."""
    cells = some_cells(rng, 16, 24)
    draft = Draft(some_version(rng), cells)
    seat = rng.randrange(4)
    others = [other for other in range(books.SEATS) if other != seat]
    order = rng.sample(range(len(cells)), len(cells))
    draft.request_and_steps(Call("w", seat))
    for cell in order[:16]:
        draft.request_and_steps(Call("p", seat, cell, some_number(rng)))
    for _ in range(rng.randint(3, 9)):
        cell = rng.choice([order[0], rng.choice(order[:16]), order[-1], len(cells)])
        letter = rng.choice("ppg")
        draft.request_and_steps(Call(letter, seat, cell, some_number(rng)))
        if rng.random() < 0.3:
            draft.add(random_call(rng, others, len(cells)))
    draft.request_and_steps(Call("e", seat))
    add_sensible_calls(rng, draft, rng.randint(0, 12))
    return draft.text()


# Starts.


def some_start(rng):
    """A heading at or beyond the limits of a start, and a few calls."""
    count = rng.choice([0, 0, 1, 63, 64, 64, 64, 65, 65, 66, 128, 200])
    cells = [rng.randrange(100) for _ in range(count)]
    even = [0, 2, 65534, 65536, 4294967292, 4294967294]
    version = rng.choice(even) if rng.random() < 0.5 else some_version(rng)
    if 1 <= count <= books.MOST_CELLS and version % 2 == 1:
        draft = Draft(version, cells)
        add_sensible_calls(rng, draft, rng.randint(0, 30))
        return draft.text()
    calls = [text_of(random_call(rng, range(9), 3)) for _ in range(rng.randint(0, 8))]
    if rng.random() < 0.1:
        calls.append(b"?\n")  # found before the start is tried
    return line_of("t", version, *cells) + b"".join(calls)


# Damaged text.


def split_sheet(sheet):
    return sheet[:-1].split(b"\n")


def change_line(rng, sheet, change):
    """The sheet with one line changed, often the first."""
    lines = split_sheet(sheet)
    index = 0 if rng.random() < 0.4 else rng.randrange(len(lines))
    lines[index] = change(lines[index])
    return b"\n".join(lines) + b"\n"


def change_field(rng, sheet, change):
    """The sheet with one number changed."""
    def changed(line):
        fields = line.split(b" ")
        index = rng.randrange(1, len(fields))
        fields[index] = change(fields[index])
        return b" ".join(fields)
    return change_line(rng, sheet, changed)


def truncate(rng, sheet):
    return sheet[: rng.randrange(len(sheet))]


def no_last_line_feed(rng, sheet):
    return sheet[:-1]


def space_too_many(rng, sheet):
    spaced = [
        lambda line: line.replace(b" ", b"  ", 1),
        lambda line: line + b" ",
        lambda line: b" " + line,
    ]
    return change_line(rng, sheet, rng.choice(spaced))


def other_blank(rng, sheet):
    blank = rng.choice([b"\t", b"\r", b"\v", b"\f", b"\0", b"\xa0", b",", b""])
    return change_line(rng, sheet, lambda line: line.replace(b" ", blank, 1))


def carriage_returns(rng, sheet):
    if rng.random() < 0.5:
        return sheet.replace(b"\n", b"\r\n")
    return change_line(rng, sheet, lambda line: line + b"\r")


def empty_line(rng, sheet):
    lines = split_sheet(sheet)
    lines.insert(rng.randint(0, len(lines)), b"")
    return b"\n".join(lines) + b"\n"


def odd_zero(rng, sheet):
    zeros = [lambda field: b"0" + field, lambda field: b"00", lambda field: b"-0"]
    return change_field(rng, sheet, rng.choice(zeros))


def odd_number(rng, sheet):
    number = rng.choice([
        b"4294967295", b"4294967296", b"4294967299", b"9999999999", b"04294967295",
        b"42949672950", b"10000000000", b"00000000001", b"18446744073709551615",
        b"18446744073709551616", b"18446744073709551617", b"1" + b"0" * 40,
        b"+1", b"-1", b"1.0", b"1e3", b"0x1", b"1_0", b"\xb2", b"\xd9\xa1", b"x", b"",
    ])
    return change_field(rng, sheet, lambda field: number)


def other_letter(rng, sheet):
    letter = rng.choice([
        b"a", b"x", b"T", b"M", b"W", b"S", b"t", b"m", b"s", b"r", b"g", b"p", b"0",
        b"tt", b"ss", b"#", b"", b"\x00", b"\xff", b"\xc3\xa9", b"\xef\xbb\xbft",
    ])
    return change_line(rng, sheet, lambda line: b" ".join([letter] + line.split(b" ")[1:]))


def field_too_few(rng, sheet):
    return change_line(rng, sheet, lambda line: line[: line.rfind(b" ")])


def field_too_many(rng, sheet):
    return change_line(rng, sheet, lambda line: line + b" %d" % some_number(rng))


def other_byte(rng, sheet):
    place = rng.randrange(len(sheet))
    keep = rng.randrange(2)  # insert a byte, or put it in the place of another
    byte = rng.choice([rng.randrange(256), rng.randrange(128, 256), 0, 10, 32])
    return sheet[:place] + bytes([byte]) + sheet[place + 1 - keep:]


def lines_swapped(rng, sheet):
    lines = split_sheet(sheet)
    first, second = rng.randrange(len(lines)), rng.randrange(len(lines))
    lines[first], lines[second] = lines[second], lines[first]
    return b"\n".join(lines) + b"\n"


def random_bytes(rng, sheet):
    alphabet = rng.choice([bytes(range(256)), b"tmrwgpes0123456789 \n", b"\n ", b"t 1\n"])
    return bytes(rng.choice(alphabet) for _ in range(rng.randrange(40)))


def nothing_left(rng, sheet):
    return rng.choice([b"", b"\n", b" ", b"t", b"t\n", b"t \n", b"t 1", b"\n\n", b"\0"])


DAMAGES = [
    truncate, no_last_line_feed, space_too_many, other_blank, carriage_returns,
    empty_line, odd_zero, odd_number, odd_number, other_letter, other_letter,
    field_too_few, field_too_many, other_byte, other_byte, lines_swapped,
    random_bytes, nothing_left,
]


def damaged(rng):
    letter = "m" if rng.random() < 0.15 else "t"
    draft = Draft(some_version(rng), some_cells(rng), letter)
    add_sensible_calls(rng, draft, rng.randint(1, 25))
    return rng.choice(DAMAGES)(rng, draft.text())


# Limits.


def number_with_digits(rng, digits):
    least = 0 if digits == 1 else 10 ** (digits - 1)
    return rng.randrange(least, min(10**digits, 2**32))


def put_of_length(rng, length):
    """A put whose line, with its line feed, has 8 to 35 bytes."""
    digits = [1, 1, 1]
    while sum(digits) + 5 < length:
        index = rng.randrange(3)
        digits[index] = min(10, digits[index] + 1)
    return Call("p", *[number_with_digits(rng, count) for count in digits])


def sheet_of_bytes(rng, size):
    """A readable sheet of so many bytes, with fewer than 1024 calls."""
    draft = Draft(some_version(rng), some_cells(rng, 1, 64))
    add_sensible_calls(rng, draft, 150)
    left = size - len(draft.text())
    while left:
        # Never leave less than the shortest put needs.
        length = left if left <= 35 else rng.randint(20, min(35, left - 8))
        draft.add(put_of_length(rng, length))
        left -= length
    return draft.text()


def heading_of_bytes(rng, size):
    """A sheet that is one heading of so many bytes; the size is even."""
    return b"t 1" + b" 7" * ((size - 4) // 2) + b"\n"


def sheet_of_calls(rng, count):
    draft = Draft(some_version(rng), some_cells(rng))
    add_sensible_calls(rng, draft, count, 0.05)
    return draft.text()


def bytes_16384(rng):
    return sheet_of_bytes(rng, cellrun.MOST_BYTES)


def bytes_16385(rng):
    return sheet_of_bytes(rng, cellrun.MOST_BYTES + 1)


def calls_1024(rng):
    return sheet_of_calls(rng, cellrun.MOST_CALLS)


def calls_1025(rng):
    return sheet_of_calls(rng, cellrun.MOST_CALLS + 1)


def calls_and_garbage(rng):
    """Garbage behind as many calls as a sheet may have, or one call fewer."""
    count = cellrun.MOST_CALLS - rng.randrange(2)
    garbage = [b"\n", b" ", b"?", b"\0", b"s", b"s 0", b"s 0 \n", b"\xff\n", b"s 0\ns 0\n?"]
    return sheet_of_calls(rng, count) + rng.choice(garbage)


def no_line_feed_at_the_limit(rng):
    return sheet_of_calls(rng, cellrun.MOST_CALLS)[:-1]


def fault_in_many_calls(rng):
    """A fault in a sheet that has too many calls as well."""
    return change_line(rng, calls_1025(rng), lambda line: line + b" ")


def heading_at_the_limit(rng):
    return heading_of_bytes(rng, cellrun.MOST_BYTES + rng.choice([0, 2]))


def too_many_bad_bytes(rng):
    return rng.choice([b"\0", b"\n", b"t", b"\xff"]) * (cellrun.MOST_BYTES + rng.randrange(2))


LIMITS = [
    bytes_16384, bytes_16385, calls_1024, calls_1025, calls_and_garbage, calls_and_garbage,
    no_line_feed_at_the_limit, fault_in_many_calls, heading_at_the_limit, too_many_bad_bytes,
]


def limit(rng):
    return rng.choice(LIMITS)(rng)


# Sheets for the pessimistic engine.


def pessimistic(rng):
    if rng.random() < 0.2:
        # Nothing is started, so versions and counts of cells are free.
        heading = line_of("m", some_number(rng), *some_cells(rng, 0, 70))
        return heading + b"".join(
            text_of(random_call(rng, range(10), 4)) for _ in range(rng.randint(0, 20))
        )
    draft = Draft(some_version(rng), some_cells(rng), "m")
    add_sensible_calls(rng, draft, call_count(rng))
    return draft.text()


# All kinds together.


KINDS = [
    # name, maker, share in a hundred
    ("run", sensible_run, 40),
    ("top", run_at_the_top, 7),
    ("random", random_run, 14),
    ("full", run_with_a_full_write_set, 6),
    ("start", some_start, 8),
    ("damaged", damaged, 19),
    ("limit", limit, 3),
    ("pessimistic", pessimistic, 3),
]


def is_readable_m(sheet):
    try:
        return cellrun.read_sheet(sheet).letter == "m"
    except books.Declined:
        return False


def sheets(seed, count, with_m=True):
    """Names and bytes of `count` sheets, on demand without the readable ones of letter m."""
    made = index = 0
    while made < count:
        # Each sheet has a source of its own, so it does not depend on those before it.
        rng = random.Random("%d/%d" % (seed, index))
        name, maker, _ = rng.choices(KINDS, [share for _, _, share in KINDS])[0]
        sheet = maker(rng)
        if with_m or not is_readable_m(sheet):
            yield "%s-%d" % (name, index), sheet
            made += 1
        index += 1


# Counting what comes of the sheets.


def tally(some_sheets):
    """How often each word and each refusal is answered, and what became of the sheets."""
    words, refusals, fates = Counter(), Counter(), Counter()
    for _, sheet in some_sheets:
        lines = [line.split() for line in cellrun.answer(sheet).decode("ascii").splitlines()]
        if lines[0][0] == "engine":
            fates["summary"] += 1
            continue
        if lines[0][0] == "no":
            fates["declined"] += 1
            refusals[int(lines[0][1])] += 1
            continue
        fates["played"] += 1
        said = Counter(line[1] for line in lines[:-1])
        words.update(said)
        refusals.update(int(line[2]) for line in lines[:-1] if line[1] == "no")
        if said["made"] >= 2:
            fates["played with two commits or more"] += 1
    return words, refusals, fates


def print_counts(title, names, counts):
    print(title)
    for name in names:
        print("  %-32s %d" % (name, counts[name]))


def main():
    parser = argparse.ArgumentParser(description=__doc__.splitlines()[0])
    parser.add_argument("--seed", type=int, default=1)
    parser.add_argument("--count", type=int, default=2000)
    options = parser.parse_args()
    words, refusals, fates = tally(sheets(options.seed, options.count))
    print_counts(
        "sheets", ["played", "played with two commits or more", "declined", "summary"], fates)
    print_counts("refusals", range(1, 15), refusals)
    print_counts(
        "words", ["ok", "wait", "moved", "opened", "told", "put", "made", "ended", "no"], words)


if __name__ == "__main__":
    main()
