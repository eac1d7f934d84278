#!/usr/bin/env python3
"""Shows the place of which a refusal of `quick` speaks: file, line and column, the line itself, and what is wrong.

    quick check X.lrtl X.sled | python3 tools/where.py X.lrtl X.sled

The files are those of the command, in its order. Lines that are no refusal are passed on as they are. A refusal for a name
doesn't tell its file. To find it, `check` is run with an empty coding: it comes to that file where the machine's text has
no fault. That is done with the program `quick`, or with the one that `--quick=PROGRAM` names.
"""

import subprocess
import sys
from pathlib import Path

sys.path.insert(0, str(Path(__file__).resolve().parent))
from lexer import tokens

TEXT_FAULTS = {
    "BadByte": "no token begins here: no such character, or a comment or a string that isn't closed",
    "Syntax": "the text can't go on with this: it is wrong itself, or something before it is wrong or missing",
    "TooDeep": "with this bracket more than 200 are open",
    "TooLong": "the file has more than 4,194,304 bytes",
}
# The words that are no names, of each text.
RESERVED = [
    "machine word byteorder little big align slotbits memory code data space cells bits flags zero frame link allocatable "
    "fun eff instr imm addr when pc out halt trap mem input after zx sx slice",
    "coding fields pattern is constructor rel abs",
]
NAME_FAULTS = {
    "TwiceNamed": "a second declaration, or a second one of what may stand once",
    "TooMany": "too many: the limit is {0}",
    "WidthClash": "",
}
CODE_FAULTS = {
    "Uncovered": "its code leaves something open: no constructor of its name with the names of its operands in order, a "
    "choice, an address without rel or abs, rel or abs at what is no address, a bit of a token of which nothing is said, a bit "
    "of an operand that stands nowhere or twice",
    "FieldRange": "something in its code doesn't fit: a number in its field, a field and the bits of an operand that aren't as "
    "many, a field beyond its token, bits beyond the operand (an address has as many as rel or abs says), a lower bit before a "
    "higher one, a token that hasn't 8, 16 or 32 bits, a fifth token, & between different tokens, two things of one bit, rel or "
    "abs of no bit or of more than a word, a register of a space whose size is no power of 2",
    "Overlap": "some bytes begin with this code and with the other one: no bit that both fix differs",
}
LAYOUT = {
    "Word": "it is 16 or 32, and byteorder stands beside it",
    "Memory": "it is at most 2^word bytes, and 67,108,864, and whole words",
    "Code": "it is 16 to 1,048,576 bytes, and less than data",
    "Data": "it is at least 8 above code, and less than memory",
    "Align": "it is 1, 2, 4, 8 or 16, and each instruction has a multiple of it in bytes",
    "SlotBits": "it is 4 to the word's width",
    "Frame": "it is a cell of the word's width",
    "Link": "it is a cell of the word's width, and not the frame",
    "Zero": "it is a cell of the word's width, and neither frame nor link",
    "Allocatable": "it is a range of cells of the word's width in the space of frame and link, without these and the zero cell",
    "Flags": "a space of flags has cells of 1 bit",
}
BYTE_FAULTS = {
    "BadImage": (2, "from this byte on it is no image for the machine"),
    "BadInput": (3, "no word of the machine"),
}


def text_of(name):
    return Path(name).read_bytes().decode("latin-1")


def shown(name, text, at, note):
    """A place in a text: file, line and column, what is wrong, the line, and a caret below the place."""
    line, start = text.count("\n", 0, at) + 1, text.rfind("\n", 0, at) + 1
    end = text.find("\n", at)
    source = text[start : end if end >= 0 else len(text)].rstrip("\r")
    # Columns count bytes; what is shown is the text of these bytes.
    before, source = (it.encode("latin-1").decode("utf-8", "replace") for it in (text[start:at], source))
    # A tab is as wide below the line as in it.
    below = "".join("\t" if it == "\t" else " " for it in before)
    return f"{name}:{line}:{at - start + 1}: {note}\n    {source}\n    {below}^"


def token_shown(name, number, note):
    text = text_of(name)
    found = tokens(text)
    return shown(name, text, found[min(number, len(found) - 1)][0], note)


def words_around(name, number):
    """The word of a token, those of the four before it, and that of the next one."""
    words = [""] * 4 + [word for _, word in tokens(text_of(name))] + [""]
    return words[number + 4], words[number : number + 4], words[number + 5]


def syntax_note(name, file, number):
    word = words_around(name, number)[0]
    if word in RESERVED[file].split():
        return f"the text can't go on with this: {word} is reserved and no name, or something before it is wrong or missing"
    return TEXT_FAULTS["Syntax"]


def unknown_note(name, file, number):
    """What is wanted in the place of a name that is unknown there, by the words around it."""
    word, before, after = words_around(name, number)
    if file == 1:
        if before[-1] == "coding":
            return "the machine has another name"
        if before[-1] == "constructor":
            return "no instruction has this name"
        if before[-1] == "=":
            return "the constructor has no operand of this name; a pattern has none at all"
        if after == "=":
            return "no field has this name"
        return "no pattern before this has this name; behind a field stand = and what is in it"
    if word.isdigit() or word.startswith("0x"):
        return "the space has no such cell: they are counted from 0"
    if before[-1] == ":" or before[-1] in ("zero", "frame", "link", "allocatable") or after == "[":
        return "no space before this has this name" if before[-1] != ":" else "no space has this name; the other operands are imm N and addr"
    if after == ":=":
        return "a target is a cell, an operand that is a register, or a parameter for which such an operand stands"
    if after == "(":
        return (
            "no function or named effects of this name have so many arguments here: they stand before a function or named "
            "effects that use them; an effect d := e is no expression, and an expression no effect"
        )
    return "no operand or parameter has this name; in the place of a function of k arguments (f / k) stands its bare name"


def width_note(name, number, found, wanted):
    _, before, _ = words_around(name, number)
    if before[-1] == "mem":
        return "a load or a store has 8, 16, 32 or 64 bits, and no more than a word"
    if before[-4] == "slice" and before[-1] == "(":
        return f"the slice ends behind bit {wanted - 1}, and this has {found} bits"
    if before[-1] in ("zx", "sx", "imm", "'") or before[-2] == "slice":
        return "a width is 1 to 64; slice has the lowest bit first, and then how many"
    return f"found {found} bits, wanted {wanted}"


def layout_shown(name, part):
    """A part of the layout where it stands, or that it is missing."""
    found = tokens(text_of(name))
    item = part.lower()
    at = [after[0] for before, after in zip(found, found[1:]) if before[1] == ";" and after[1] == item]
    if part == "Flags":
        return f"{name}: {LAYOUT[part]}"
    if not at:
        return f"{name}: the layout's part {part} is missing: {LAYOUT[part]}"
    return shown(name, text_of(name), at[0], f"the layout's part {part} doesn't fit: {LAYOUT[part]}")


def bytes_of_patterns(name):
    """How many bytes each pattern and each constructor of a coding's text has, with the place of its name."""
    found = tokens(text_of(name))
    words = [word for _, word in found]
    sizes, constructed = {}, []
    field_bits = None
    for at, word in enumerate(words):
        if word == "fields":
            field_bits = number_in(words[at + 2])
        elif word == ":" and field_bits and number_in(words[at - 1]) is not None:
            sizes.setdefault(words[at - 2], field_bits // 8)
        if word not in ("pattern", "constructor"):
            continue
        begin = words.index("is", at) + 1
        ends = [it for it in range(begin, len(words)) if words[it] in ("pattern", "constructor", "fields", "")]
        # What is joined by & is of the same tokens, so the first word between two semicolons tells their bytes.
        parts = "\n".join(words[begin : ends[0]]).split("\n;\n")
        firsts = [next((it for it in part.split("\n") if it in sizes), None) for part in parts]
        size = sum(sizes[it] for it in firsts if it)
        if word == "pattern":
            sizes.setdefault(words[at + 1], size)
        else:
            constructed.append((found[at + 1][0], words[at + 1], size))
    return constructed


def unaligned(files):
    """The constructors whose bytes are no multiple of the machine's align."""
    words = [word for _, word in tokens(text_of(files[0]))]
    aligned = [number_in(after) for before, after in zip(words, words[1:]) if before == "align"]
    for at, name, size in bytes_of_patterns(files[1]):
        if aligned and aligned[0] and size % aligned[0]:
            yield shown(files[1], text_of(files[1]), at, f"{name} has {size} bytes, which is no multiple of {aligned[0]}")


def uses_of_target(name, number):
    """Where named effects are used, in whose body a target stands for no register."""
    found = tokens(text_of(name))
    words = [word for _, word in found]
    before = [it for it in range(number) if words[it] in ("eff", "instr", "fun")]
    if not before or words[before[-1]] != "eff" or words[number + 1 : number + 2] != [":="]:
        return
    effects = words[before[-1] + 1]
    for at, (place, word) in enumerate(found):
        if at > number and word == effects and words[at + 1] == "(":
            yield shown(name, text_of(name), place, f"a use of {effects}: is its argument a register operand, by its bare name?")


def is_in_coding(quick, machine):
    """Whether a name that is refused is one of the coding's text: that of the machine has no fault then."""
    try:
        alone = subprocess.run([quick, "check", machine, "/dev/null"], capture_output=True, text=True, check=False)
    except FileNotFoundError:
        raise SystemExit(f"{quick} isn't on the path, so the file of the name isn't known: add --quick=PROGRAM") from None
    return alone.stdout.split()[:4] == ["refused:", "Syntax", "2", "0"]


def instructions(name):
    """The names of a machine's instructions, in order, each with its place."""
    found = tokens(text_of(name))
    return [after for before, after in zip(found, found[1:]) if before[1] == "instr"]


def constructors(name):
    """The places of a coding's constructors, by their names."""
    found = tokens(text_of(name))
    places = {}
    for before, (at, word) in zip(found, found[1:]):
        if before[1] == "constructor":
            places.setdefault(word, at)
    return places


def number_in(word):
    return int(word, 0) if word[:1].isdigit() else None


def odd_fields(name):
    """What is wrong with fields, wherever they are used: the bits of a token, and of a field in it."""
    found = tokens(text_of(name))
    size = None
    for at, (place, word) in enumerate(found[:-4]):
        words = [it for _, it in found[at : at + 5]]
        if word == "fields":
            size = number_in(words[2])
            if size not in (8, 16, 32):
                yield found[at + 2][0], "a token has 8, 16 or 32 bits"
        high, low = number_in(words[1]), number_in(words[3])
        if words[2] == ":" and high is not None and low is not None:
            if high < low:
                yield place, "the highest bit of a field stands first"
            elif size is not None and high >= size:
                yield place, f"the field goes beyond the {size} bits of its token"


def code_shown(files, numbers, note):
    """An instruction where its machine's text has it, and where its coding's text has it; and fields that never fit."""
    declared, coded = instructions(files[0]), constructors(files[1])
    for number in numbers:
        at, name = declared[number]
        yield shown(files[0], text_of(files[0]), at, f"instruction {number}, {name}: {note}")
        if name in coded:
            yield shown(files[1], text_of(files[1]), coded[name], f"the code of {name}")
    for at, odd in odd_fields(files[1]):
        yield shown(files[1], text_of(files[1]), at, odd)


def byte_shown(files, fault, at):
    file, note = BYTE_FAULTS[fault]
    if len(files) < 4:
        raise SystemExit("give all files of the command: X.lrtl X.sled IMAGE INPUT")
    if fault == "BadInput":
        yield shown(files[file], text_of(files[file]), at, note)
    else:
        yield f"{files[file]}: byte {at}: {note}"


def explained(line, files, quick):
    """What is to be shown of a line of `quick`."""
    words = line.split()
    if words[:1] != ["refused:"] or len(words) < 2:
        return
    fault, numbers = words[1], [int(it) for it in words[2:] if it.isdigit()]
    if fault in ("Syntax", "TooDeep"):
        file = files[numbers[0] - 1]
        note = syntax_note(file, numbers[0] - 1, numbers[1]) if fault == "Syntax" else TEXT_FAULTS[fault]
        yield token_shown(file, numbers[1], note)
    elif fault == "BadByte":
        yield shown(files[numbers[0] - 1], text_of(files[numbers[0] - 1]), numbers[1], TEXT_FAULTS[fault])
    elif fault == "TooLong":
        yield f"{files[numbers[0] - 1]}: {TEXT_FAULTS[fault]}"
    elif fault == "UnknownName" or fault in NAME_FAULTS:
        is_name = fault in ("UnknownName", "TwiceNamed")
        file = 1 if is_name and is_in_coding(quick, files[0]) else 0
        if fault == "UnknownName":
            note = unknown_note(files[file], file, numbers[0])
        elif fault == "WidthClash":
            note = width_note(files[file], *numbers)
        else:
            note = NAME_FAULTS[fault].format(*numbers[1:])
        yield token_shown(files[file], numbers[0], note)
        if fault == "UnknownName" and file == 0:
            yield from uses_of_target(files[0], numbers[0])
    elif fault in CODE_FAULTS:
        yield from code_shown(files, numbers, CODE_FAULTS[fault])
    elif fault == "BadLayout":
        yield layout_shown(files[0], words[2])
        if words[2] == "Align":
            yield from unaligned(files)
    elif fault in BYTE_FAULTS:
        yield from byte_shown(files, fault, numbers[0])


def main():
    options = [it for it in sys.argv[1:] if it.startswith("--quick=")]
    files = [it for it in sys.argv[1:] if it not in options]
    quick = options[-1].partition("=")[2] if options else "quick"
    if len(files) < 2:
        print(__doc__, file=sys.stderr)
        return 2
    is_silent = True
    for line in sys.stdin:
        is_silent = False
        sys.stdout.write(line)
        for text in explained(line, files, quick):
            print(text)
    if is_silent:
        print("quick printed nothing: give its command alone, and then `echo $?` for its status", file=sys.stderr)
    return 1 if is_silent else 0


if __name__ == "__main__":
    sys.exit(main())
