"""Compares the codes that machines/rv32im and machines/rv32i give to instructions with those of an assembler.

Run by hand: python3 compare/encodings.py. It uses the first of riscv64-unknown-elf-as, riscv64-linux-gnu-as, llvm-mc
and clang that is installed and assembles RISC-V, and says that it skips where there is none. It encodes each
instruction but the four that are no part of RISC-V, at the edges of its operands and at numbers of a fixed sequence.
The exit status is 1 where bytes differ.
"""

import shutil
import struct
import subprocess
import sys
import tempfile
from pathlib import Path

sys.path.insert(0, str(Path(__file__).resolve().parent.parent / "tools"))
from lexer import tokens

MACHINES = Path(__file__).resolve().parent.parent / "machines"
OURS = {"op_out", "in", "op_halt", "op_trap"}
AT = 0x40000

ASSEMBLERS = [
    ("gnu", "riscv64-unknown-elf-as", ["-march=rv32im", "-mabi=ilp32", "-mno-relax"]),
    ("gnu", "riscv64-linux-gnu-as", ["-march=rv32im", "-mabi=ilp32", "-mno-relax"]),
    ("llvm", "llvm-mc", ["--triple=riscv32", "-mattr=+m", "--filetype=obj"]),
    ("llvm", "clang", ["--target=riscv32", "-march=rv32im", "-mno-relax", "-c"]),
]


class Reader:
    """The words of a text, one after another."""

    def __init__(self, text):
        self.words = [word for _, word in tokens(text)[:-1]]
        self.next = 0

    def ended(self):
        return self.next == len(self.words)

    def is_next(self, word):
        return not self.ended() and self.words[self.next] == word

    def take(self):
        self.next += 1
        return self.words[self.next - 1]

    def skip(self, word):
        """Takes this word if it is next, and tells whether it was."""
        found = self.is_next(word)
        self.next += found
        return found

    def want(self, word):
        if not self.skip(word):
            raise SystemExit(f"{word!r} is wanted before {' '.join(self.words[self.next:self.next + 5])!r}")

    def number(self):
        return int(self.take(), 0)

    def listed(self, item):
        """The items between parentheses, separated by commas."""
        self.want("(")
        items = []
        while not self.skip(")"):
            items.append(item())
            self.skip(",")
        return items


def read_instructions(text):
    """The operands of each instruction of a machine's text, as (name, kind, bits)."""
    reader, registers, instructions = Reader(text), {}, {}

    def operand():
        name = reader.take()
        reader.want(":")
        kind = reader.take()
        if kind == "imm":
            return name, "constant", reader.number()
        return (name, "target", None) if kind == "addr" else (name, "register", registers[kind])

    while not reader.ended():
        word = reader.take()
        if word == "space":
            space = reader.take()
            registers[space] = reader.number().bit_length() - 1
        elif word == "instr":
            instruction = reader.take()
            instructions[instruction] = reader.listed(operand)
        while not reader.skip(";"):
            reader.take()
    return instructions


class Coding:
    """The fields, patterns and constructors of a coding's text."""

    def __init__(self, text):
        self.fields, self.patterns, self.constructors = {}, {}, {}
        self.reader = Reader(text)
        self.reader.want("coding")
        self.reader.take()
        while not self.reader.ended():
            self.item(self.reader.take())

    def item(self, word):
        name = self.reader.take()
        if word == "fields":
            bits = self.reader.number()
            for field, high, low in self.reader.listed(self.field):
                self.fields[field] = (bits, high, low)
        elif word == "pattern":
            self.reader.want("is")
            self.patterns[name] = self.pattern()
        else:
            params = self.reader.listed(self.param)
            self.reader.want("is")
            self.constructors[name] = (params, self.pattern())

    def field(self):
        name, high = self.reader.take(), self.reader.number()
        self.reader.want(":")
        return name, high, self.reader.number()

    def param(self):
        name = self.reader.take()
        if self.reader.skip(":"):
            return name, self.reader.take(), self.reader.number()
        return name, None, None

    def pattern(self):
        """The tokens of a pattern, each a list of conjuncts; a text with alternatives isn't read."""
        tokens = [self.conjunction()]
        while self.reader.skip(";"):
            tokens.append(self.conjunction())
        return tokens

    def conjunction(self):
        conjuncts = [self.conjunct()]
        while self.reader.skip("&"):
            conjuncts.append(self.conjunct())
        return conjuncts

    def conjunct(self):
        name = self.reader.take()
        if not self.reader.skip("="):
            return name, None, None
        if self.reader.words[self.reader.next].isidentifier():
            operand, piece = self.reader.take(), None
            if self.reader.skip("{"):
                high = self.reader.number()
                self.reader.want("..")
                piece = (high, self.reader.number())
                self.reader.want("}")
            return name, operand, piece
        return name, None, self.reader.number()

    def token(self, conjuncts, values):
        """The bits and the value of a token."""
        bits = value = 0
        for name, operand, given in conjuncts:
            if operand is None and given is None:
                bits, part = self.token(self.patterns[name][0], {})
                value |= part
                continue
            bits, high, low = self.fields[name]
            part = given if operand is None else values[operand]
            if operand is not None and given is not None:
                part = part >> given[1] & (1 << given[0] - given[1] + 1) - 1
            assert 0 <= part < 1 << high - low + 1, (name, part)
            value |= part << low
        return bits, value

    def encode(self, instruction, operands, at):
        """The bytes of an instruction at an address, lowest byte of a token first."""
        params, tokens = self.constructors[instruction]
        values = {}
        for (name, reach, bits), operand in zip(params, operands, strict=True):
            if reach == "rel":
                assert -(1 << bits - 1) <= operand - at < 1 << bits - 1
                operand = operand - at & (1 << bits) - 1
            values[name] = operand
        pieces = (self.token(conjuncts, values) for conjuncts in tokens)
        return b"".join(value.to_bytes(bits // 8, "little") for bits, value in pieces)


def edges(kind, bits):
    """Values of an operand that has so many bits; for a target, distances from the instruction."""
    if kind == "target":
        powers = [1 << i for i in range(1, bits - 1)]
        end = 1 << bits - 1
        return [0, end - 2, 2 - end, -end] + powers + [-power for power in powers]
    top = (1 << bits) - 1
    powers = [1 << i for i in range(bits)]
    return [0, top, top // 3, top - top // 3] + powers + [top - power for power in powers]


def cases(operands):
    """Lists of operands: each operand at its edges while the others are at others of theirs, and a fixed sequence."""
    lists = [edges(kind, bits) for _, kind, bits in operands]
    rows, number = [], 1
    for place, values in enumerate(lists):
        for value in values:
            row = []
            for others in lists:
                number = (1103515245 * number + 12345) % (1 << 31)
                row.append(others[(number >> 16) % len(others)])
            row[place] = value
            rows.append(row)
    for _ in range(40):
        row = []
        for _, kind, bits in operands:
            number = (1103515245 * number + 12345) % (1 << 31)
            value = (number >> 4) % (1 << bits)
            row.append((value & ~1) - (1 << bits - 1) if kind == "target" else value)
        rows.append(row)
    return rows


def line(style, instruction, operands, row):
    """The assembler's line of an instruction."""
    words = []
    for (_, kind, bits), value in zip(operands, row, strict=True):
        if kind == "register":
            words.append(f"x{value}")
        elif kind == "target":
            words.append(f". + {value}" if style == "gnu" else str(value))
        else:
            is_signed = bits == 12 and value >= 1 << 11
            words.append(str(value - (1 << bits) if is_signed else value))
    if instruction in ("sb", "sh", "sw"):
        return f"{instruction} {words[1]}, {words[2]}({words[0]})"
    if instruction in ("lb", "lh", "lw", "lbu", "lhu", "jalr"):
        return f"{instruction} {words[0]}, {words[2]}({words[1]})"
    return f"{instruction} {', '.join(words)}"


def text_section(elf):
    """The bytes of the section .text of an ELF file of 32 bits, lowest byte first."""
    assert elf[:6] == b"\x7fELF\x01\x01"
    (headers,) = struct.unpack_from("<I", elf, 32)
    size, count, names = struct.unpack_from("<HHH", elf, 46)
    sections = [struct.unpack_from("<10I", elf, headers + size * i) for i in range(count)]
    start = sections[names][4]
    for section in sections:
        if elf[start + section[0] :].startswith(b".text\0"):
            return elf[section[4] : section[4] + section[5]]
    raise SystemExit("the assembler's file has no section .text")


def assemble(command, options, source):
    """The bytes of a source text, or None where the assembler refuses it."""
    with tempfile.TemporaryDirectory() as folder:
        text, result = Path(folder, "text.s"), Path(folder, "text.o")
        text.write_text(source)
        run = subprocess.run([command, *options, "-o", str(result), str(text)], capture_output=True, text=True)
        if run.returncode != 0:
            print(run.stderr[:2000], end="")
            return None
        return text_section(result.read_bytes())


def installed():
    """The first assembler that is installed and assembles RISC-V."""
    for style, command, options in ASSEMBLERS:
        if shutil.which(command) and assemble(command, options, "addi x0, x0, 0\n") == b"\x13\0\0\0":
            return style, command, options
    return None


def compare(machine, style, command, options):
    """Compares one machine, and answers how many codes differ."""
    instructions = read_instructions((MACHINES / f"{machine}.lrtl").read_text())
    coding = Coding((MACHINES / f"{machine}.sled").read_text())
    lines, codes = [], []
    for instruction, operands in instructions.items():
        if instruction in OURS:
            continue
        reaches = [bits for _, _, bits in coding.constructors[instruction][0]]
        operands = [(name, kind, reach or bits) for (name, kind, bits), reach in zip(operands, reaches)]
        for row in cases(operands):
            lines.append(line(style, instruction, operands, row))
            values = [AT + v if kind == "target" else v for (_, kind, _), v in zip(operands, row)]
            codes.append(coding.encode(instruction, values, AT))
    assembled = assemble(command, options, "\n".join([".option norvc"] + lines) + "\n")
    if assembled is None:
        raise SystemExit(f"{machine}: {command} refuses the lines")
    if len(assembled) != sum(map(len, codes)):
        raise SystemExit(f"{machine}: {command} gives {len(assembled)} bytes for {len(lines)} instructions")
    differing, at = 0, 0
    for text, code in zip(lines, codes):
        other = assembled[at : at + len(code)]
        at += len(code)
        if other != code:
            differing += 1
            print(f"{machine}: {text}: {code.hex(' ')}, but {command} gives {other.hex(' ')}")
    count = len(instructions.keys() - OURS)
    print(f"{machine}: {count} instructions, {len(lines)} codes, {differing} differ from {command}")
    return differing


def main():
    found = installed()
    if found is None:
        print("skipped: no assembler for RISC-V is installed")
        return 0
    return 1 if sum([compare(machine, *found) for machine in ("rv32im", "rv32i")]) else 0


if __name__ == "__main__":
    sys.exit(main())
