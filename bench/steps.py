"""Measures how many steps the command run takes in a second, on three loops of three machines: one of arithmetic with a
store and a load, one of calls, and one of stores and loads; and on a loop of 16,000 instructions, which stand at more
addresses than instructions are kept for.

Run by hand, once the program is built (`rt run` in crates/quick): python3 bench/steps.py [OLD]. OLD is another build of
the program quick, which is then measured beside the first in the same run, each loop by turns. Times are those of the
whole process, user and system, as the least of three runs; the steps of a shorter run of the same loop are taken away, so
that the reading of the texts doesn't count.
"""

import os
import struct
import subprocess
import sys
import tempfile
from pathlib import Path

from bench import QUICK, ROOT, immediate, register, store_word, branch_unequal, upper

RUNS = 3
ROUNDS = 2_000_000
HALF = 65_536


def rv32im(words):
    return b"".join(struct.pack("<I", word) for word in words)


def jump(rd, distance):
    bits = distance & 0x1FFFFF
    return (bits >> 20) << 31 | (bits >> 1 & 0x3FF) << 21 | (bits >> 11 & 1) << 20 | (bits >> 12 & 0xFF) << 12 | rd << 7 | 0x6F


def store(funct3, rs1, rs2):
    return rs2 << 20 | rs1 << 15 | funct3 << 12 | 0x23


def load(funct3, rd, rs1):
    return immediate(funct3, rd, rs1, 0, 0x03)


def rv32im_loops(rounds):
    """x5 counts up to x6, x8 is the address of some data."""
    begin = [upper(6, rounds >> 12), immediate(0, 6, 6, rounds & 0x7FF), upper(8, 0x800)]
    halt = immediate(2, 0, 0, 0, 0x0B)
    count = immediate(0, 5, 5, 1)
    yield "arithmetic", 6, begin + [
        count, register(4, 7, 7, 5), store_word(8, 7, 0), load(2, 9, 8), register(0, 10, 10, 9), branch_unequal(5, 6, -20), halt,
    ]
    yield "calls", 5, begin + [
        jump(1, 16), count, branch_unequal(5, 6, -8), halt, register(0, 7, 7, 5), immediate(0, 0, 1, 0, 0x67),
    ]
    yield "stores and loads", 8, begin + [
        store(2, 8, 5), load(2, 7, 8), store(1, 8, 7), load(5, 9, 8), store(0, 8, 9), load(0, 10, 8), count, branch_unequal(5, 6, -28), halt,
    ]


FAR = 15_996


def rv32im_far(rounds):
    """FAR additions to x5, and then four instructions that count the rounds, the steps of all of them in a round."""
    count = [immediate(0, 6, 6, 1), immediate(0, 8, 0, rounds), branch_unequal(6, 8, 8) & ~(1 << 12), jump(0, -4 * (FAR + 3))]
    return FAR + len(count), [immediate(0, 5, 5, 1)] * FAR + count + [immediate(2, 0, 0, 0, 0x0B)]


def tin32(op, a=0, b=0, c=0, constant=0):
    return struct.pack("<II", op | a << 8 | b << 12 | c << 16, constant)


def tin32_loops(rounds):
    """r0 counts up to r1 by r2, r3 is the address of some data, r7 is 0."""
    begin = [tin32(2, 1, constant=rounds), tin32(2, 2, constant=1), tin32(2, 3, constant=0x800000)]
    count, branch, halt = tin32(3, 0, 0, 2), tin32(18, 0, 1, constant=24), tin32(39, 7)
    yield "arithmetic", 6, begin + [count, tin32(8, 4, 4, 0), tin32(28, 3, 4), tin32(25, 5, 3), tin32(3, 6, 6, 5), branch, halt]
    yield "calls", 5, begin + [tin32(30, constant=56), count, branch, halt, tin32(3, 4, 4, 0), tin32(31)]
    yield "stores and loads", 8, begin + [
        tin32(28, 3, 0), tin32(25, 4, 3), tin32(27, 3, 4), tin32(24, 5, 3), tin32(26, 3, 5), tin32(23, 6, 3), count, branch, halt,
    ]


def cc16(op, a=0, b=0, constant=None):
    first = struct.pack(">H", op << 10 | a << 7 | b << 4)
    return first if constant is None else first + struct.pack(">H", constant & 0xFFFF)


def cc16_loop(body, tail=b""):
    """r0 counts by r2 until it is r1, which is 0, and that as often as r7 tells; r3 and r5 are addresses of some data."""
    count = cc16(3, 0, 2) + cc16(12, 0, 1)
    inner = body + count
    inner += cc16(14, constant=-len(inner))
    inner += cc16(4, 7, 2) + cc16(12, 7, 1)
    return inner + cc16(14, constant=-len(inner)) + cc16(35, 1) + tail


def cc16_loops(rounds):
    begin = b"".join([cc16(2, 2, constant=1), cc16(2, 3, constant=0x6000), cc16(2, 5, constant=0x6003), cc16(2, 7, constant=rounds // HALF)])
    yield "arithmetic", 6, [begin, cc16_loop(cc16(7, 4, 0) + cc16(26, 4, 3) + cc16(24, 4, 3))]
    called = cc16(3, 4, 0) + cc16(32)
    front = begin + cc16_loop(cc16(31, constant=0))
    yield "calls", 6, [begin, cc16_loop(cc16(31, constant=len(front)), called)]
    yield "stores and loads", 7, [begin, cc16_loop(cc16(26, 0, 3) + cc16(24, 4, 3) + cc16(25, 4, 5) + cc16(23, 4, 5))]


MACHINES = [
    ("rv32im", bytes([32, 0, 0, 0]), rv32im_loops, rv32im),
    ("cc16", bytes([16, 1, 0, 0]), cc16_loops, b"".join),
    ("tin32", bytes([32, 0, 0, 0]), tin32_loops, b"".join),
]


def seconds(program, machine, image, none):
    words = [program, "run", "--steps=1000000000", ROOT / "machines" / f"{machine}.lrtl", ROOT / "machines" / f"{machine}.sled", image, none]
    with tempfile.TemporaryFile() as told:
        process = subprocess.Popen([str(word) for word in words], stdout=told)
        _, status, usage = os.wait4(process.pid, 0)
        process.returncode = os.waitstatus_to_exitcode(status)
        told.seek(0)
        output = told.read().decode()
    if process.returncode != 0 or output != "ended 0\n":
        sys.exit(f"{program} ended with {process.returncode} and {output!r}")
    return usage.ru_utime + usage.ru_stime


def speed(program, machine, images, steps, none):
    """Steps a second: those that the longer run takes more, by the time that it takes more."""
    shorter, longer = [min(seconds(program, machine, image, none) for _ in range(RUNS)) for image in images]
    return steps / max(longer - shorter, 1e-6)


def written(folder, head, codes):
    images = []
    for number, code in enumerate(codes):
        images.append(folder / f"image{number}")
        images[-1].write_bytes(b"QCI1" + head + struct.pack("<II", len(code), 0) + code)
    return images


def tell(programs, machine, what, images, steps, none):
    found = [speed(program, machine, images, steps, none) for program in programs]
    beside = "".join(f", beside {other / 1e6:.1f} of {program}: {found[0] / other:.1f} times" for other, program in zip(found[1:], programs[1:]))
    print(f"{machine}, {what}: {found[0] / 1e6:.1f} million steps a second{beside}", flush=True)


def main():
    programs = [QUICK] + [Path(word) for word in sys.argv[1:]]
    missing = [program for program in programs if not program.exists()]
    if missing:
        print(f"{missing[0]} is not built: skipped")
        return
    with tempfile.TemporaryDirectory() as name:
        none = Path(name) / "none"
        none.write_bytes(b"")
        for machine, head, loops, joined in MACHINES:
            few, many = 2 * HALF, ROUNDS // HALF * HALF
            for (what, length, short), (_, _, long) in zip(loops(few), loops(many)):
                images = written(Path(name), head, [joined(short), joined(long)])
                tell(programs, machine, what, images, (many - few) * length, none)

        (length, short), (_, long) = rv32im_far(10), rv32im_far(1010)
        images = written(Path(name), MACHINES[0][1], [rv32im(short), rv32im(long)])
        tell(programs, "rv32im", "many addresses", images, 1000 * length, none)


if __name__ == "__main__":
    main()
