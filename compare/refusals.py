"""Runs the built program on descriptions with a mistake each, and looks for the place of each with tools/where.py.

Each file of machines/refused is one of the two texts of nib16 with one mistake, of a sort that people make; the other text
is that of machines/nib16. Its first comment has the line that `quick check` must print. Where the refusal speaks of a
place, the comment /*here*/ stands right before it, and where.py has to show just that place. nib16 itself is accepted,
and its image runs. The exit status is 1, with a message, where anything is otherwise.
"""

import re
import subprocess
import sys
from pathlib import Path

ROOT = Path(__file__).resolve().parent.parent
QUICK = ROOT / "crates/quick/out/quick"
WHERE = ROOT / "tools/where.py"
MACHINES = ROOT / "machines"
HERE = "/*here*/"


def run(words, given=""):
    return subprocess.run([str(it) for it in words], input=given, capture_output=True, text=True, check=False, timeout=60)


def expected_place(text):
    """The line and the column, from 1, of what stands behind the mark, if there is one."""
    before, mark, _ = text.partition(HERE)
    before += mark
    return (before.count("\n") + 1, len(before) - before.rfind("\n")) if mark else None


def difference(path):
    """What is otherwise than a file with a mistake says, or None."""
    text = path.read_bytes().decode("ascii")
    wanted = re.match(r"// (refused: .*)\n", text)
    if not wanted:
        return "its first comment doesn't say how it is refused"
    files = [path if path.suffix == kind else MACHINES / f"nib16{kind}" for kind in (".lrtl", ".sled")]
    answer = run([QUICK, "check", *files])
    if (answer.stdout, answer.returncode) != (f"{wanted.group(1)}\n", 1):
        return f"{answer.stdout.strip()!r} and status {answer.returncode} in the place of {wanted.group(1)!r}"
    shown = run([sys.executable, WHERE, f"--quick={QUICK}", *files], answer.stdout)
    place = expected_place(text)
    places = [(int(line), int(column)) for line, column in re.findall(rf"^{re.escape(str(path))}:(\d+):(\d+):", shown.stdout, re.MULTILINE)]
    if shown.returncode or not shown.stdout.startswith(answer.stdout) or shown.stdout == answer.stdout:
        return f"where.py shows nothing, or fails: {shown.stderr.strip()[-200:]}"
    if place and place not in places:
        return f"where.py shows {places} in the place of {place}"
    return None


def nib16_differences():
    """What is otherwise than the guide says of nib16."""
    files = [MACHINES / "nib16.lrtl", MACHINES / "nib16.sled"]
    checked, ended = run([QUICK, "check", *files]), run([QUICK, "run", *files, MACHINES / "nib16.img", "/dev/null"])
    if (checked.stdout, checked.returncode) != ("nib16: 11 instructions\n", 0):
        yield f"nib16: {checked.stdout.strip()!r} and status {checked.returncode}"
    if (ended.stdout, ended.returncode) != ("ended 7\n", 0):
        yield f"nib16.img: {ended.stdout.strip()!r} and status {ended.returncode}"


def main():
    if not QUICK.is_file():
        print(f"{QUICK} is not there: build the program first, by rt ci or by rt run in crates/quick")
        return 1
    mistakes = sorted(path for path in (MACHINES / "refused").iterdir() if path.suffix in (".lrtl", ".sled"))
    wrong = [f"{path.name}: {it}" for path in mistakes if (it := difference(path))] + [f"nib16: {it}" for it in nib16_differences()]
    if len(mistakes) < 40:
        wrong.append("machines/refused: files are missing")
    for message in wrong:
        print(message)
    if not wrong:
        print(f"{len(mistakes)} mistakes are refused as they say, and shown where they are")
    return 1 if wrong else 0


if __name__ == "__main__":
    sys.exit(main())
