"""Tests of the model.

    python3 model/test_model.py
"""

import unittest

import book as books
import cellrun
import corpus
import generate
from book import Answer, Call, Declined, SerialBook


def sheet(*lines):
    return "".join(line + "\n" for line in lines).encode("ascii")


def answer(*lines):
    """The lines that answer the sheet with these lines."""
    return cellrun.answer(sheet(*lines)).decode("ascii").splitlines()


def last_answer(*lines):
    """What the last call of a sheet is answered, without its count."""
    return answer(*lines)[-2].split(" ", 1)[1]


def finished(*requests):
    """The requests, each with a step behind it."""
    lines = []
    for request in requests:
        lines += [request, "s " + request.split(" ")[1]]
    return lines


class WorkedExamples(unittest.TestCase):
    def test_the_sheet_of_the_pages(self):
        self.assertEqual(
            answer("t 1 5 7", "w 0", "s 0", "g 0 1", "s 0", "s 0"),
            ["1 ok 0", "2 opened 0", "3 ok 0", "4 told 7 7", "5 no 12", "end 0 5 7"],
        )

    def test_two_writers_and_a_reader(self):
        run = [
            ("w 0", "ok 0"), ("r 1", "ok 0"), ("w 2", "ok 0"),
            ("s 0", "opened 1"), ("s 1", "wait 0"),
            ("p 0 0 6", "ok 0"), ("s 0", "put 0"),
            ("e 0", "ok 0"), ("s 0", "made 2"), ("s 1", "wait 0"), ("s 0", "ended 2"),
            ("s 1", "opened 2"), ("g 1 0", "ok 0"), ("s 1", "told 6 6"),
            ("s 2", "wait 0"), ("e 1", "ok 0"), ("s 1", "ended 2"),
            ("s 2", "opened 2"), ("p 2 1 8", "ok 0"), ("s 2", "put 0"),
            ("g 2 1", "ok 0"), ("s 2", "told 8 8"),
            ("e 2", "ok 0"), ("s 2", "made 3"), ("s 2", "ended 3"),
        ]
        expected = ["%d %s" % (count, said) for count, (_, said) in enumerate(run, 1)]
        self.assertEqual(
            answer("t 3 5 7", *[call for call, _ in run]), expected + ["end 3 6 8"])

    def test_a_summary(self):
        self.assertEqual(
            answer("m 65534", "r 9", "w 0", "w 1", "g 0 0", "p 0 0 0", "e 0", "s 0", "s 0"),
            [
                "engine pessimistic", "version 65534", "cells 0", "calls 8",
                "openings of readers 1", "openings of writers 2", "gets 1", "puts 1",
                "ends 1", "steps 2",
            ],
        )


class Refusals(unittest.TestCase):
    def declined_by(self, number, *lines):
        self.assertEqual(last_answer(*lines), "no %d" % number)

    def test_starts(self):
        cells = ["7"] * 65
        self.assertEqual(answer("t 1"), ["no 1"])
        self.assertEqual(answer("t 2"), ["no 1"])
        self.assertEqual(answer(" ".join(["t 1"] + cells)), ["no 1"])
        self.assertEqual(answer("t 0 7"), ["no 2"])
        self.assertEqual(answer(" ".join(["t 1"] + cells[1:])), [" ".join(["end 0"] + cells[1:])])
        self.assertEqual(answer("t 2", "?"), ["no 13 2"])

    def test_no_such_seat(self):
        for call in ["r 8", "w 8", "g 8 9", "p 8 9 9", "e 4294967295", "s 8"]:
            self.declined_by(3, "t 1 5", call)

    def test_seats_that_only_read(self):
        self.declined_by(4, "t 1 5", "w 4")
        self.declined_by(4, "t 1 5", "r 7", "w 7")
        self.declined_by(4, "t 4294967295 5", "w 5")
        self.assertEqual(last_answer("t 1 5", "r 4"), "ok 0")
        self.assertEqual(last_answer("t 1 5", "w 3"), "ok 0")

    def test_rows_of_the_table(self):
        self.assertFalse(books.bars([(1, False), (1, True)], Call("w", 1)))
        self.assertTrue(books.bars([(1, True), (1, False)], Call("w", 1)))
        self.assertFalse(books.bars([(1, False)], Call("w", 2)))
        self.assertFalse(books.bars([(1, False)], Call("r", 1)))

    def test_seat_not_free(self):
        self.declined_by(5, "t 1 5", "r 0", "r 0")
        self.declined_by(5, "t 4294967293 5", "w 0", "w 0")

    def test_numbers_used_up(self):
        self.declined_by(6, "t 4294967295 5", "w 0")
        self.declined_by(6, "t 4294967293 5", "w 0", "w 1")
        self.assertEqual(last_answer("t 4294967295 5", "r 0"), "ok 0")
        # Between the commit and the end the number is used and no longer promised.
        self.declined_by(6, "t 4294967293 5", *finished("w 0", "e 0"), "w 1")
        self.assertEqual(last_answer("t 4294967291 5", *finished("w 0", "e 0"), "w 1"), "ok 0")
        self.declined_by(6, "t 4294967291 5", *finished("w 0", "e 0"), "w 1", "w 2")

    def test_seat_free(self):
        for call in ["g 0 9", "p 0 9 9", "e 0", "s 0"]:
            self.declined_by(7, "t 1 5", call)

    def test_seat_busy(self):
        for call in ["g 0 9", "p 0 9 9", "e 0"]:
            self.declined_by(8, "t 1 5", "r 0", call)

    def test_no_such_cell(self):
        for call in ["g 0 1", "p 0 1 9", "p 0 4294967295 9"]:
            self.declined_by(9, "t 1 5", *finished("r 0"), call)

    def test_put_by_reader(self):
        self.declined_by(10, "t 1 5", *finished("r 0"), "p 0 0 9")

    def test_write_set_full(self):
        heading = " ".join(["t 1"] + ["5"] * 18)
        puts = finished("w 0", *["p 0 %d 9" % cell for cell in range(16)])
        self.declined_by(11, heading, *puts, "p 0 16 9")
        self.declined_by(9, heading, *puts, "p 0 18 9")
        self.assertEqual(last_answer(heading, *puts, "p 0 0 8"), "ok 0")
        self.assertEqual(last_answer(heading, *puts, *finished("p 0 0 8", "g 0 0")), "told 8 8")
        self.declined_by(11, heading, *puts, *finished("p 0 15 8"), "p 0 17 9")

    def test_seat_ready(self):
        self.declined_by(12, "t 1 5", *finished("r 0"), "s 0")

    def test_declined_calls_leave_no_trace(self):
        run = ["t 1 5", "w 0", "s 0", "p 0 0 6", "s 0", "g 0 0", "s 0", "e 0", "s 0", "s 0"]
        declined = ["w 4", "w 8", "p 9 0 7", "g 7 0", "s 6"]
        spread = [line for call in run[1:] for line in [call] + declined]
        said = [line.split(" ")[1:] for line in answer(*run)]
        among_declined = answer(run[0], *spread)
        kept = [line.split(" ")[1:] for line in among_declined[::1 + len(declined)]]
        self.assertEqual(kept, said)

    def test_questions(self):
        book = SerialBook(3, [5, 7])
        self.assertEqual((book.number, book.cell_count(), book.latest(1)), (1, 2, 7))
        self.assertEqual((book.kind(7), book.standing(7)), (None, books.FREE))
        book.open(books.READER, 7)
        self.assertEqual((book.kind(7), book.standing(7)), (books.READER, books.BUSY))
        book.step(7)
        self.assertEqual(book.standing(7), books.READY)
        for question, refusal in [
            (lambda: book.latest(2), 9), (lambda: book.kind(8), 3), (lambda: book.standing(8), 3),
        ]:
            with self.assertRaises(Declined) as caught:
                question()
            self.assertEqual(caught.exception.refusal, refusal)


class SerialEngine(unittest.TestCase):
    def test_a_writer_without_puts_commits(self):
        lines = answer("t 3 5", *finished("w 0", "e 0"), "s 0")
        self.assertEqual(lines[3:], ["4 made 2", "5 ended 2", "end 2 5"])

    def test_whoever_steps_first_gets_the_turn(self):
        lines = answer("t 1 5", "r 0", "r 1", "s 1", "s 0", "e 1", "s 0", "s 1", "s 0")
        self.assertEqual(
            [line.split(" ")[1] for line in lines[2:-1]],
            ["opened", "wait", "ok", "wait", "ended", "opened"],
        )

    def test_puts_are_seen_by_others_after_the_commit_only(self):
        lines = ["t 1 5", *finished("w 0", "p 0 0 6", "p 0 0 7")]
        self.assertEqual(answer(*lines)[-1], "end 0 5")
        self.assertEqual(answer(*lines, *finished("e 0"))[-1], "end 1 7")


class Replays(unittest.TestCase):
    def test_a_told_value_is_not_heard(self):
        calls = [Call("r", 0), Call("s", 0), Call("g", 0, 0), Call("s", 0)]
        answers = [Answer("ok", 0), Answer("opened", 4), Answer("ok", 0), Answer("told", 99)]
        history = cellrun.history_of(calls, answers)
        self.assertEqual(cellrun.replay(4, [5], history), ([0, 0, 0, 5], 4, [5]))

    def test_an_old_snapshot_is_read_after_a_newer_commit(self):
        # No serial run looks like this, but the replay takes any history.
        said = [
            (Call("r", 1), Answer("ok", 0)), (Call("s", 1), Answer("opened", 0)),
            (Call("w", 0), Answer("ok", 0)), (Call("s", 0), Answer("opened", 0)),
            (Call("p", 0, 0, 6), Answer("ok", 0)), (Call("s", 0), Answer("put", 0)),
            (Call("e", 0), Answer("ok", 0)), (Call("s", 0), Answer("made", 1)),
            (Call("g", 1, 0), Answer("ok", 0)), (Call("s", 1), Answer("told", 5)),
        ]
        history = cellrun.history_of(*zip(*said))
        self.assertEqual(cellrun.replay(0, [5], history), ([0] * 9 + [5], 1, [6]))

    def test_a_put_without_its_answer_is_not_replayed(self):
        said = [
            (Call("w", 0), Answer("ok", 0)), (Call("s", 0), Answer("opened", 0)),
            (Call("p", 0, 0, 6), Answer("ok", 0)),
        ]
        history = cellrun.history_of(*zip(*said))
        self.assertEqual(cellrun.replay(0, [5], history), ([0] * 3, 0, [5]))


class Limits(unittest.TestCase):
    def test_faults_of_the_pages(self):
        for text, expected in [
            (b"", b"no 13 1\n"),
            (b"t 1 5", b"no 13 1\n"),
            (b"t 01 5\n", b"no 13 1\n"),
            (b"t 4294967296\n", b"no 13 1\n"),
            (b"t 1 5\nw 0 \n", b"no 13 2\n"),
            (b"t 1 5\nw 0\np 0 0\n", b"no 13 3\n"),
        ]:
            self.assertEqual(cellrun.answer(text), expected)

    def test_other_faults(self):
        for line in [
            b"", b" s 0", b"s  0", b"s\t0", b"s 0\r", b"s", b"s ", b"s 0 0", b"S 0", b"ss 0",
            b"s +0", b"s -0", b"s 00", b"s 10000000000", b"s 4294967296", b"s \xb2", b"s 0\0",
            b"t 1 5", b"\xff 0", b"#",
        ]:
            self.assertEqual(cellrun.answer(b"t 1 5\n" + line + b"\n"), b"no 13 2\n", line)
        self.assertEqual(cellrun.answer(b"t 1 5\ns 0\ns 0"), b"no 13 3\n")
        self.assertEqual(cellrun.answer(b"t 1 5\rs 0\n"), b"no 13 1\n")
        self.assertEqual(cellrun.answer(b"t 1 5\ns 4294967295\n"), b"1 no 3\nend 0 5\n")

    def test_bytes(self):
        most = cellrun.MOST_BYTES
        readable = b"t 1" + b" 7" * ((most - 4) // 2) + b"\n"
        self.assertEqual(len(readable), most)
        self.assertEqual(cellrun.answer(readable), b"no 1\n")
        self.assertEqual(cellrun.answer(readable + b"?"), b"no 14\n")
        self.assertEqual(cellrun.answer(b"?" * most), b"no 13 1\n")
        self.assertEqual(cellrun.answer(b"?" * (most + 1)), b"no 14\n")

    def test_calls(self):
        full = b"t 1 5\n" + b"s 0\n" * cellrun.MOST_CALLS
        self.assertTrue(cellrun.answer(full).endswith(b"1024 no 7\nend 0 5\n"))
        for more in [b"s 0\n", b"\n", b"?", b"\0"]:
            self.assertEqual(cellrun.answer(full + more), b"no 14\n")
        self.assertEqual(cellrun.answer(full[:-1]), b"no 13 1025\n")
        self.assertEqual(cellrun.answer(full[:-4] + b"?\ns 0\n"), b"no 13 1025\n")
        self.assertEqual(cellrun.answer(b"?" + full + b"s 0\n"), b"no 13 1\n")


class RandomSheets(unittest.TestCase):
    def test_they_are_the_same_for_the_same_seed(self):
        self.assertEqual(list(generate.sheets(5, 40)), list(generate.sheets(5, 40)))
        self.assertNotEqual(list(generate.sheets(5, 40)), list(generate.sheets(6, 40)))

    def test_every_refusal_and_word_occurs(self):
        words, refusals, fates = generate.tally(generate.sheets(1, 600))
        self.assertEqual(sorted(refusals), list(range(1, 15)))
        self.assertEqual(
            sorted(words), ["ended", "made", "no", "ok", "opened", "put", "told", "wait"])
        self.assertGreater(fates["played with two commits or more"], 100)

    def test_limit_sheets_have_the_sizes_of_their_names(self):
        sizes = [(len(text), text.count(b"\n") - 1) for text in corpus.long_sheets(1)]
        self.assertEqual([sizes[0][0], sizes[1][0]], [16384, 16385])
        self.assertLess(max(sizes[0][1], sizes[1][1]), 1024)
        self.assertEqual([sizes[2][1], sizes[3][1]], [1024, 1025])
        self.assertLess(max(sizes[2][0], sizes[3][0]), 16384)

    def test_the_law_of_runs(self):
        for name, text in generate.sheets(2, 300, with_m=False):
            try:
                drawn = cellrun.read_sheet(text)
                book = books.ENGINES[drawn.letter](drawn.version, drawn.cells)
            except Declined:
                continue
            with self.subTest(name):
                self.check_law(drawn, book)

    def check_law(self, drawn, book):
        start = book.number
        answers = books.play(book, books.HOUSE, drawn.calls)
        history = cellrun.history_of(drawn.calls, answers)
        told = [said.number if said.word == "told" else 0 for said in answers]
        self.assertEqual(
            cellrun.replay(start, drawn.cells, history), (told, book.number, book.cells))
        made = [said.number for said in answers if said.word == "made"]
        self.assertEqual(made, list(range(start + 1, start + 1 + len(made))))
        for past in cellrun.transactions_of(history):
            if past.made is not None:
                self.assertEqual(past.made, past.opened + 1)
        standings = [book.standing(seat) for seat in range(books.SEATS)]
        busy = [seat for seat in range(books.SEATS) if standings[seat] == books.BUSY]
        if busy and books.READY not in standings:
            self.assertFalse(all(book.would_wait(seat) for seat in busy))
        self.check_views(drawn.calls, answers, start)
        self.check_bound(drawn.calls, answers, book.bound)

    def check_views(self, calls, answers, start):
        latest = start
        at_opening = {}
        for call, said in zip(calls, answers):
            if said.word == "ok" and call.letter in ("r", "w"):
                at_opening[call.seat] = latest
            elif said.word == "opened":
                self.assertLessEqual(at_opening[call.seat], said.number)
                self.assertLessEqual(said.number, latest)
            elif said.word == "made":
                latest = said.number

    def check_bound(self, calls, answers, bound):
        steps = {}
        for call, said in zip(calls, answers):
            if said.word == "ok":
                steps[call.seat] = 0
            elif said.word not in ("no", "wait"):
                steps[call.seat] += 1
                self.assertLessEqual(steps[call.seat], bound)


class Corpus(unittest.TestCase):
    def test_what_is_packed_can_be_unpacked(self):
        drawn = list(corpus.cases(3, 60))
        self.assertEqual(list(corpus.unpack(corpus.pack(drawn))), drawn)

    def test_it_stays_small(self):
        drawn = list(corpus.cases(1, 400))
        self.assertEqual(len(drawn), 400)
        self.assertLess(len(corpus.pack(drawn)), 400000)

    def test_it_can_do_without_m(self):
        drawn = list(corpus.cases(1, 200, with_m=False))
        self.assertEqual(len(drawn), 200)
        self.assertFalse(any(text.startswith(b"engine") for _, text in drawn))


if __name__ == "__main__":
    unittest.main()
