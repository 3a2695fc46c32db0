"""Packs sheets and the model's answers into one corpus, on standard output.

    python3 model/corpus.py --seed N --count K [--without-m] > FILE

For each case there is a line `c SHEETBYTES TEXTBYTES`, then the bytes of the sheet, then
the bytes of the answer. The lengths tell the parts from each other, so a sheet may hold
any bytes.
"""

import argparse
import itertools
import random
import sys

import cellrun
import generate

# The long sheets that are worth their room. All others have to be short.
LONG = [
    generate.bytes_16384,
    generate.bytes_16385,
    generate.calls_1024,
    generate.calls_1025,
]
MOST_BYTES_OF_A_CASE = 1500


def long_sheets(seed):
    for maker in LONG:
        yield maker(random.Random("%d/%s" % (seed, maker.__name__)))


def short_sheets(seed, with_m):
    # More are drawn than are asked for, as long ones fall out; the stream is lazy.
    for _, sheet in generate.sheets(seed, sys.maxsize, with_m):
        if len(sheet) + len(cellrun.answer(sheet)) <= MOST_BYTES_OF_A_CASE:
            yield sheet


def cases(seed, count, with_m=True):
    """Sheets with their answers."""
    drawn = itertools.chain(long_sheets(seed), short_sheets(seed, with_m))
    for sheet in itertools.islice(drawn, count):
        yield sheet, cellrun.answer(sheet)


def pack(some_cases):
    return b"".join(
        b"c %d %d\n%b%b" % (len(sheet), len(text), sheet, text) for sheet, text in some_cases
    )


def unpack(corpus):
    """The cases of a packed corpus."""
    place = 0
    while place < len(corpus):
        head_end = corpus.index(b"\n", place)
        mark, sheet_size, text_size = corpus[place:head_end].split(b" ")
        if mark != b"c":
            raise ValueError("no case at byte %d" % place)
        sheet_end = head_end + 1 + int(sheet_size)
        place = sheet_end + int(text_size)
        yield corpus[head_end + 1:sheet_end], corpus[sheet_end:place]


def main():
    parser = argparse.ArgumentParser(description=__doc__.splitlines()[0])
    parser.add_argument("--seed", type=int, default=1)
    parser.add_argument("--count", type=int, default=400)
    parser.add_argument(
        "--without-m", action="store_true", help="leave out readable sheets of letter m")
    options = parser.parse_args()
    drawn = cases(options.seed, options.count, not options.without_m)
    sys.stdout.buffer.write(pack(drawn))


if __name__ == "__main__":
    main()
