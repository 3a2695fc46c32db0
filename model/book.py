"""A model of the book: its calls and refusals, the serial engine, the table of the house.

It follows docs/BOOK.md and docs/ENGINES.md. `Book` holds what is the same for every
engine. An engine is a class below it that says who waits (`would_wait`) and what a step
does next (`advance`).
"""

from collections import namedtuple

SEATS = 8
MOST_CELLS = 64
MOST_WRITES = 16
LARGEST_NUMBER = 2147483647

READER = "reader"
WRITER = "writer"

FREE = "free"
READY = "ready"
BUSY = "busy"

# The refusals, without those about lists that are lent: the model lends none.
CELL_COUNT = 1
EVEN_VERSION = 2
NO_SUCH_SEAT = 3
READ_ONLY_SEAT = 4
SEAT_NOT_FREE = 5
NUMBERS_USED_UP = 6
SEAT_FREE = 7
SEAT_BUSY = 8
NO_SUCH_CELL = 9
PUT_BY_READER = 10
WRITE_SET_FULL = 11
SEAT_READY = 12
UNREADABLE_LINE = 13
SHEET_TOO_LONG = 14

# A call has the letter that it has in a sheet: r, w, g, p, e or s.
Call = namedtuple("Call", "letter seat cell value", defaults=(0, 0))
Answer = namedtuple("Answer", "word number")
View = namedtuple("View", "number cells")

ACCEPTED = Answer("ok", 0)
WAIT = Answer("wait", 0)


class Declined(Exception):
    """A call or a start was declined, by the refusal with this number."""

    def __init__(self, refusal):
        super().__init__(refusal)
        self.refusal = refusal


class Transaction:
    """What stands at a seat that is not free."""

    def __init__(self, kind, request):
        self.kind = kind
        self.request = request  # the request that is not answered yet, or None
        self.view = None        # what it sees; nothing until it is opened
        self.commit = None      # the number of its commit
        self.writes = {}        # the write set; a dict keeps the order of the first puts


class Book:
    """The calls and questions that every engine has.

    All checks of a call come before its first change, in the order of the refusals'
    numbers: so the smallest is given, and a declined call leaves no trace.
    """

    bound = None  # the most steps that a request may owe

    def __init__(self, version, cells):
        if not 1 <= len(cells) <= MOST_CELLS:
            raise Declined(CELL_COUNT)
        if version % 2 == 0:
            raise Declined(EVEN_VERSION)
        self.number = version // 2
        self.cells = list(cells)
        self.seats = [None] * SEATS

    # What an engine says.

    def would_wait(self, seat):
        """Whether a step of the seat would say that it waits; never, if the seat is not busy."""
        raise NotImplementedError

    def advance(self, seat):
        """The answer to a step of a busy seat that does not wait."""
        raise NotImplementedError

    # Questions.

    def cell_count(self):
        return len(self.cells)

    def latest(self, cell):
        self._check_cell(cell)
        return self.cells[cell]

    def kind(self, seat):
        transaction = self._at(seat)
        return None if transaction is None else transaction.kind

    def standing(self, seat):
        transaction = self._at(seat)
        if transaction is None:
            return FREE
        return READY if transaction.request is None else BUSY

    # Requests.

    def open(self, kind, seat):
        if self._at(seat) is not None:
            raise Declined(SEAT_NOT_FREE)
        if kind == WRITER and self.number + self._promised() >= LARGEST_NUMBER:
            raise Declined(NUMBERS_USED_UP)
        request = Call("w" if kind == WRITER else "r", seat)
        self.seats[seat] = Transaction(kind, request)

    def get(self, seat, cell):
        transaction = self._ready(seat)
        self._check_cell(cell)
        transaction.request = Call("g", seat, cell)

    def put(self, seat, cell, value):
        transaction = self._ready(seat)
        self._check_cell(cell)
        if transaction.kind == READER:
            raise Declined(PUT_BY_READER)
        # A cell that is in the write set already needs no further place in it.
        if cell not in transaction.writes and len(transaction.writes) >= MOST_WRITES:
            raise Declined(WRITE_SET_FULL)
        transaction.request = Call("p", seat, cell, value)

    def end(self, seat):
        self._ready(seat).request = Call("e", seat)

    def step(self, seat):
        if self._open_at(seat).request is None:
            raise Declined(SEAT_READY)
        if self.would_wait(seat):
            return WAIT
        return self.advance(seat)

    def make(self, call):
        """Makes a call and turns whatever comes of it into an answer."""
        try:
            if call.letter == "s":
                return self.step(call.seat)
            self._request(call)
            return ACCEPTED
        except Declined as declined:
            return Answer("no", declined.refusal)

    # The words of a step, each with what it does. Engines choose among them.

    def say_opened(self, seat):
        transaction = self.seats[seat]
        if transaction.view is None:
            self.give_view(seat)
        transaction.request = None
        return Answer("opened", transaction.view.number)

    def say_told(self, seat):
        transaction = self.seats[seat]
        cell = transaction.request.cell
        transaction.request = None
        return Answer("told", transaction.writes.get(cell, transaction.view.cells[cell]))

    def say_put(self, seat):
        transaction = self.seats[seat]
        transaction.writes[transaction.request.cell] = transaction.request.value
        transaction.request = None
        return Answer("put", 0)

    def say_made(self, seat):
        transaction = self.seats[seat]
        assert transaction.view.number == self.number, "a commit on an old view"
        for cell, value in transaction.writes.items():
            self.cells[cell] = value
        self.number += 1
        transaction.commit = self.number
        transaction.view = None
        return Answer("made", self.number)

    def say_ended(self, seat):
        transaction = self.seats[seat]
        self.seats[seat] = None
        if transaction.kind == WRITER:
            return Answer("ended", transaction.commit)
        return Answer("ended", transaction.view.number)

    def give_view(self, seat):
        self.seats[seat].view = View(self.number, tuple(self.cells))

    # What the calls above have in common.

    def _at(self, seat):
        if seat >= SEATS:
            raise Declined(NO_SUCH_SEAT)
        return self.seats[seat]

    def _open_at(self, seat):
        transaction = self._at(seat)
        if transaction is None:
            raise Declined(SEAT_FREE)
        return transaction

    def _ready(self, seat):
        transaction = self._open_at(seat)
        if transaction.request is not None:
            raise Declined(SEAT_BUSY)
        return transaction

    def _check_cell(self, cell):
        if cell >= len(self.cells):
            raise Declined(NO_SUCH_CELL)

    def _promised(self):
        """How many open writers have yet to commit."""
        return sum(
            1
            for transaction in self.seats
            if transaction is not None
            and transaction.kind == WRITER
            and transaction.commit is None
        )

    def _request(self, call):
        if call.letter == "r":
            self.open(READER, call.seat)
        elif call.letter == "w":
            self.open(WRITER, call.seat)
        elif call.letter == "g":
            self.get(call.seat, call.cell)
        elif call.letter == "p":
            self.put(call.seat, call.cell, call.value)
        elif call.letter == "e":
            self.end(call.seat)
        else:
            raise ValueError("no such call: %r" % (call,))


class SerialBook(Book):
    """The serial engine: one transaction has the turn, and other openings wait for it."""

    bound = 2

    def __init__(self, version, cells):
        super().__init__(version, cells)
        self.turn = None

    def would_wait(self, seat):
        # A seat that is busy without having the turn can only be opening.
        return self.standing(seat) == BUSY and self.turn not in (None, seat)

    def advance(self, seat):
        transaction = self.seats[seat]
        letter = transaction.request.letter
        if letter in ("r", "w"):
            self.turn = seat
            return self.say_opened(seat)
        if letter == "g":
            return self.say_told(seat)
        if letter == "p":
            return self.say_put(seat)
        if transaction.kind == WRITER and transaction.commit is None:
            return self.say_made(seat)
        self.turn = None
        return self.say_ended(seat)


# The engines that can be played, by the letter of a sheet's heading.
ENGINES = {"t": SerialBook}

# The table of the house: a row has a seat and whether it may write.
HOUSE = [(seat, seat <= 3) for seat in range(SEATS)]


def bars(house, call):
    """Whether the table keeps a call from the engine."""
    may_write = dict(house)  # of several rows for a seat, the last one counts
    return call.letter == "w" and not may_write.get(call.seat, True)


def make_in_house(book, house, call):
    if bars(house, call):
        return Answer("no", READ_ONLY_SEAT)
    return book.make(call)


def play(book, house, calls):
    """The answers to all calls, made in order, whatever the answers are."""
    return [make_in_house(book, house, call) for call in calls]
