"""Measures the program quick: the steps that `run` takes in a second, and the time and memory of `check`.

Run by hand, once the program is built (`rt run` in crates/quick): python3 bench/bench.py. The steps are those of a loop
of six instructions of rv32im. The same loop is run by qemu-riscv32 where that is installed; else this part is skipped.
Times are those of the whole process, user and system, as the least and the most of three runs.
"""

import os
import shutil
import struct
import subprocess
import sys
import tempfile
from pathlib import Path

ROOT = Path(__file__).resolve().parent.parent
QUICK = ROOT / "crates" / "quick" / "out" / "quick"
RV32IM = [ROOT / "machines" / "rv32im.lrtl", ROOT / "machines" / "rv32im.sled"]
RUNS = 3
ROUNDS = 500 * 4096
ROUND_STEPS = 6
CODE_AT = 0x10000
DATA_AT = 0x800000
FILE_LIMIT = 4_194_304


def upper(rd, value):
    return value << 12 | rd << 7 | 0x37


def immediate(funct3, rd, rs1, value, opcode=0x13):
    return (value & 0xFFF) << 20 | rs1 << 15 | funct3 << 12 | rd << 7 | opcode


def register(funct3, rd, rs1, rs2):
    return rs2 << 20 | rs1 << 15 | funct3 << 12 | rd << 7 | 0x33


def store_word(rs1, rs2, value):
    return (value >> 5 & 0x7F) << 25 | rs2 << 20 | rs1 << 15 | 2 << 12 | (value & 0x1F) << 7 | 0x23


def branch_unequal(rs1, rs2, distance):
    bits = distance & 0x1FFF
    return (bits >> 12) << 31 | (bits >> 5 & 0x3F) << 25 | rs2 << 20 | rs1 << 15 | 1 << 12 | (bits >> 1 & 0xF) << 8 | (bits >> 11 & 1) << 7 | 0x63


def loop(last):
    """The loop, and then the instructions of its end."""
    code = [
        upper(6, ROUNDS >> 12),
        upper(8, DATA_AT >> 12),
        immediate(0, 5, 5, 1),
        register(4, 7, 7, 5),
        store_word(8, 7, 0),
        immediate(2, 9, 8, 0, 0x03),
        register(0, 10, 10, 9),
        branch_unequal(5, 6, -20),
    ] + last
    return b"".join(struct.pack("<I", word) for word in code)


def image():
    """The image of the loop, which halts with 0."""
    code = loop([immediate(2, 0, 0, 0, 0x0B)])
    return b"QCI1" + bytes([32, 0, 0, 0]) + struct.pack("<II", len(code), 0) + code


def executable():
    """The loop as a program of Linux, which exits with 0: one segment for the code, and one for a page of data."""
    code = loop([immediate(0, 10, 0, 0), immediate(0, 17, 0, 93), 0x73])
    offset = 0x1000
    head = b"\x7fELF" + bytes([1, 1, 1]) + bytes(9)
    head += struct.pack("<HHIIIIIHHHHHH", 2, 243, 1, CODE_AT, 52, 0, 0, 52, 32, 2, 40, 0, 0)
    head += struct.pack("<IIIIIIII", 1, offset, CODE_AT, CODE_AT, len(code), len(code), 5, 0x1000)
    head += struct.pack("<IIIIIIII", 1, offset, DATA_AT, DATA_AT, 0, 0x1000, 6, 0x1000)
    return head.ljust(offset, b"\0") + code


def measured(words, wanted):
    """The time of a process and its memory at most, in seconds and MB, once its output is what is wanted."""
    with tempfile.TemporaryFile() as told:
        process = subprocess.Popen([str(word) for word in words], stdout=told)
        _, status, usage = os.wait4(process.pid, 0)
        process.returncode = os.waitstatus_to_exitcode(status)
        told.seek(0)
        output = told.read().decode()
    if process.returncode != 0 or output != wanted:
        sys.exit(f"{words[0]} ended with {process.returncode} and {output!r}")
    return usage.ru_utime + usage.ru_stime, usage.ru_maxrss * 1024 / 1e6


def several(words, wanted):
    runs = [measured(words, wanted) for _ in range(RUNS)]
    return min(it[0] for it in runs), max(it[0] for it in runs), max(it[1] for it in runs)


def compare_runs(folder):
    (folder / "loop.img").write_bytes(image())
    (folder / "none").write_bytes(b"")
    steps = ROUNDS * ROUND_STEPS
    words = [QUICK, "run", f"--steps={2 * steps}", *RV32IM, folder / "loop.img", folder / "none"]
    least, most, memory = several(words, "ended 0\n")
    print(f"run: {steps:,} steps in {least:.2f} to {most:.2f} s, {steps / most / 1e6:.1f} to {steps / least / 1e6:.1f} million a second, {memory:.0f} MB")
    qemu = shutil.which("qemu-riscv32") or shutil.which("qemu-riscv32-static")
    if not qemu:
        print("qemu-riscv32 is not installed: skipped")
        return
    (folder / "loop").write_bytes(executable())
    (folder / "loop").chmod(0o755)
    least, most, memory = several([qemu, folder / "loop"], "")
    print(f"qemu-riscv32: the same in {least:.2f} to {most:.2f} s, {steps / most / 1e6:.0f} to {steps / least / 1e6:.0f} million a second, {memory:.0f} MB")


SMALL_MACHINE = """machine m; word 16; byteorder little; align 1; slotbits 16; memory 0x10000; code 0x6000; data 0xC000;
space r 8 cells 16 bits; frame r 7; link r 6; allocatable r 0 .. 5;
instr i(a: r) = out := a;
"""
SMALL_CODING = """coding m
fields token 8 ( high 7:3, low 2:0 )
constructor i(a) is high = 1 & low = a
"""


def filled(front, part, between, back):
    """A text of as many of these parts as a file has room for."""
    count = (FILE_LIMIT - len(front) - len(back) + len(between)) // (len(part) + len(between))
    return front + between.join([part] * count) + back


def numbered(front, form):
    """A text with as many of these lines, of a number each, as a file has room for."""
    lines, size = [], len(front)
    while size + len(line := form.format(len(lines))) <= FILE_LIMIT:
        lines.append(line)
        size += len(line)
    return front + "".join(lines)


def texts():
    """Names, machine texts and coding texts, of 4 MB for one of the two."""
    uses = SMALL_CODING + "fields w 32 ( all 31:0 )\npattern p is all = 0 ; all = 0 ; all = 0 ; all = 0\npattern c is "
    yield "patterns of one field", SMALL_MACHINE, numbered(SMALL_CODING, "pattern q{} is high = 1\n")
    yield "uses of a pattern of 128 claims", SMALL_MACHINE, filled(uses, "p", "&", "\n")
    yield "a choice of parts", SMALL_MACHINE, filled(uses, "p", "|", "\n")
    yield "groups", SMALL_MACHINE, filled(uses, "(p&p)", "&", "\n")
    yield "equal fields", SMALL_MACHINE, filled(SMALL_CODING + "pattern c is ", "low=1", "&", "\n")
    yield "functions", numbered(SMALL_MACHINE, "fun f{}(a) = add(a, 1'16);\n"), SMALL_CODING


def measure_checks(folder):
    for name, machine, coding in texts():
        (folder / "lrtl").write_text(machine)
        (folder / "sled").write_text(coding)
        words = [QUICK, "check", folder / "lrtl", folder / "sled"]
        size = len(machine) + len(coding)
        process = subprocess.run([str(word) for word in words], capture_output=True, text=True)
        if process.returncode not in (0, 1):
            sys.exit(f"check of {name} ended with {process.returncode}")
        times = []
        for _ in range(RUNS):
            child = subprocess.Popen([str(word) for word in words], stdout=subprocess.DEVNULL)
            _, _, usage = os.wait4(child.pid, 0)
            child.returncode = process.returncode
            times.append((usage.ru_utime + usage.ru_stime, usage.ru_maxrss * 1024 / 1e6))
        least, most = min(times)[0], max(times)[0]
        memory = max(it[1] for it in times)
        print(f"check: {name}, {size:,} bytes: {least:.2f} to {most:.2f} s, {memory:.0f} MB, {process.stdout.strip()}")


def main():
    if not QUICK.exists():
        print(f"{QUICK.relative_to(ROOT)} is not built: skipped")
        return
    with tempfile.TemporaryDirectory() as name:
        folder = Path(name)
        compare_runs(folder)
        measure_checks(folder)


if __name__ == "__main__":
    main()
