#!/usr/bin/env python3
"""Prints a script of noise for the replay program: forms with a token wrong, spaces, tabs and carriage returns between tokens and
at the ends of lines, bytes at random, lines and lists about as long as they may be, and a last line without its newline.
`replay_noise.py SEED`"""
import random
import sys

TOKENS = (
    b"lend poke fill head tally show table journal bytes used oldest checkpoint tip depth held issued ends committed rolled_back "
    b"flushed clear load load_sheet load_file load_sheet_file write_image write_sheet restart commit roll_back flush look_up "
    b"issue forward with release desk foyer price_batch all / # "
    b"0 1 7 8 63 64 00000000000000000001 18446744073709551615 18446744073709551616 99999999999999999999 000000000000000000001 "
    b"4294967295 4294967296 80000005000004B0 80000005000004b0 0000000500000000 FF fF G0 8192 8193 4608 147456 147457 +5 -1 "
    b"Lend . /dev/null"
).split() + [b"", b"\t", b"\r", b"\xff", b"\xc3\xa9", b"\0", b"\\", b"x" * 70]

SPACES = (b" ", b"  ", b"\t", b" \t ", b"\r")
ENDS = (b"\n", b"\r\n", b"\r\r\n", b"\t\r\n")


def forms(draw, out):
    for _ in range(3000):
        tokens = draw.choices(TOKENS, k=draw.randrange(1, 7))
        out.write(draw.choices(SPACES, weights=(6, 6, 6, 6, 1))[0].join(tokens) + draw.choices(ENDS, weights=(6, 6, 1, 3))[0])
    for _ in range(200):
        out.write(draw.randbytes(draw.choice([3, 30, 300])) + b"\n")
    out.write(draw.randbytes(100000) + b"\n")


def lengths(out):
    for length in (4095, 4096, 4097, 4098, 69632, 131072):
        for line in (b"show all".ljust(length), b"show tally".ljust(length, b"\t"), b" " * length, b"#" * length):
            for end in ENDS:
                out.write(line + end)


def lists(count, out):
    kept = b" ".join(b"%016X" % ((i + 1) << 32) for i in range(count))
    puts = b" ".join(b"%016X" % ((1 << 63) + ((i + 1) << 32) + i) for i in range(count))
    some = b" ".join(b"%02x" % i for i in range(count))
    out.write(b"lend table 200\nlend journal 200\nlend bytes 200\nclear\n")
    out.write(b"commit %b\nissue 1 %b\nforward 1 1\nissue 2 %b\nforward 2 1 with %b\n" % (puts, kept, kept, kept))
    out.write(b"price_batch %b / %b / %b\npoke bytes 3 %b\n" % (kept, kept, kept, some))
    out.write(b"poke table 3 %b\nshow bytes 0 %d\nshow table 0 %d\nshow all\n" % (puts, count, count))


def main():
    draw, out = random.Random(int(sys.argv[1])), sys.stdout.buffer
    forms(draw, out)
    lengths(out)
    for count in (0, 1, 64, 79, 80, 81):
        lists(count, out)
    out.write(b"show all  ")


if __name__ == "__main__":
    main()
