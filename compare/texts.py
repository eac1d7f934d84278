"""Compares the constants of crates/qc_shipped/src with the files of the folder machines, and those of
crates/qc_shipped_tables/src with the files of the folder tables, byte for byte.

A constant X_LRTL, X_SLED or X_TAB has the bytes of x.lrtl, x.sled or x.tab. The data of the program's stored run has copies
of some of the machines' files. nib16 is the machine of docs/GUIDE.md, and no constant: its texts are the blocks of the
guide. The exit status is 1, with a message, where a constant, a copy or a block and its file differ, or where one of the
two is missing.
"""

import re
import sys
from pathlib import Path

ROOT = Path(__file__).resolve().parent.parent
CONSTANT = re.compile(rb'pub const ([A-Z0-9_]+): &\[u8\] =\s+b"((?:[^"\\]|\\.)*)";', re.DOTALL)
ESCAPE = re.compile(rb"\\(x[0-9a-fA-F]{2}|\n[ \t\n]*|.)", re.DOTALL)
ESCAPED = {b"n": b"\n", b"r": b"\r", b"t": b"\t", b"0": b"\0", b"\\": b"\\", b'"': b'"', b"'": b"'"}


def escaped(match):
    """The bytes that an escape in a byte string stands for."""
    text = match.group(1)
    if text.startswith(b"x"):
        return bytes([int(text[1:], 16)])
    return b"" if text.startswith(b"\n") else ESCAPED[text]


def constants():
    """The bytes of each constant, by the name of its file; and what is wrong with the constants."""
    texts, wrong = {}, []
    for path in sorted([*(ROOT / "crates/qc_shipped/src").glob("*.rt"), *(ROOT / "crates/qc_shipped_tables/src").glob("*.rt")]):
        source = path.read_bytes()
        if re.search(rb"\bpub const\b", CONSTANT.sub(b"", source)):
            wrong.append(f"{path.name}: a public constant in a form that is not understood")
        for name, literal in CONSTANT.findall(source):
            machine, _, kind = name.decode().lower().rpartition("_")
            file = f"{machine}.{kind}"
            if file in texts:
                wrong.append(f"{path.name}: a second constant for {file}")
            texts[file] = ESCAPE.sub(escaped, literal)
    return texts, wrong


def guide_blocks(begin, end):
    """The indented blocks of docs/GUIDE.md between two headings, one after another, as one text."""
    guide = (ROOT / "docs/GUIDE.md").read_text(encoding="utf-8")
    lines = guide[guide.index(begin) : guide.index(end)].splitlines()
    kept = [line[4:] if line.startswith("    ") else "" if not line else None for line in lines]
    blocks = "\n".join("\n" if line is None else line for line in kept)
    return re.sub(r"\n{2,}", "\n\n", blocks).strip().encode() + b"\n"


def difference(file, constant, text):
    """The first place at which the bytes of a constant and of its file differ, or None."""
    if constant == text:
        return None
    at = next((i for i, (a, b) in enumerate(zip(constant, text)) if a != b), min(len(constant), len(text)))
    line = text[:at].count(b"\n") + 1
    return f"{file}: differs from its constant at byte {at}, in line {line}"


def main():
    shipped = [*(ROOT / "machines").iterdir(), *(ROOT / "tables").iterdir()]
    files = {path.name: path.read_bytes() for path in shipped if path.suffix in (".lrtl", ".sled", ".tab")}
    texts, wrong = constants()
    texts["nib16.lrtl"] = guide_blocks("## The machine's text", "## The coding's text")
    texts["nib16.sled"] = guide_blocks("## The coding's text", "## What is refused")
    wrong += [f"{file}: a file without a constant" for file in sorted(files.keys() - texts.keys())]
    wrong += [f"{file}: a constant without a file" for file in sorted(texts.keys() - files.keys())]
    for file in sorted(files.keys() & texts.keys()):
        wrong += filter(None, [difference(file, texts[file], files[file])])
    copies = [path for path in (ROOT / "crates/quick/data").iterdir() if path.suffix in (".lrtl", ".sled")]
    wrong += [f"{path.name}: the copy in crates/quick/data differs" for path in copies if path.read_bytes() != files.get(path.name)]
    if not files:
        wrong.append("machines, tables: no files")
    for message in wrong:
        print(message)
    if not wrong:
        print(f"{len(files)} files equal their constants, and {len(copies)} copies their files")
    return 1 if wrong else 0


if __name__ == "__main__":
    sys.exit(main())
