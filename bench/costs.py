"""Measures what checking costs: the processor seconds of each crate's proof, of its tests and of its edits.

    python3 bench/costs.py [--data FILE] [--write] [CRATE ..]

runs `rt ci` (of these crates, where some are named), looks at its processes while it runs, and prints a table. What an
earlier run kept is not proved again, so costs nothing in this one: with --data the numbers of several runs are joined in a
file, the newest of each crate and part. --write puts the table into docs/COSTS.md. A process is seen four times a second,
so each number is too small by at most that much for each process.
"""

import json
import os
import subprocess
import sys
import time
from collections import defaultdict
from pathlib import Path

ROOT = Path(__file__).resolve().parent.parent
COSTS = ROOT / "docs/COSTS.md"
BEGIN, END = "<!-- costs: made by bench/costs.py -->", "<!-- end of costs -->"
PARTS = ("proof", "tests", "edits")
TICKS = os.sysconf("SC_CLK_TCK")


def read(path):
    try:
        return Path(path).read_text(encoding="utf-8", errors="replace")
    except OSError:
        return ""


def processes():
    """Each process: its parent, when it began, and its processor seconds."""
    for name in os.listdir("/proc"):
        if name.isdigit():
            fields = read(f"/proc/{name}/stat").rpartition(")")[2].split()
            if len(fields) > 20:
                yield int(name), int(fields[1]), fields[19], (int(fields[11]) + int(fields[12])) / TICKS


def part_of(pid):
    """The crate and the part that a process of the prover works on, or None."""
    words = read(f"/proc/{pid}/cmdline").split("\0")
    if len(words) < 2 or Path(words[0]).name != "rattle" or "--crate-name" not in words:
        return None
    crate = words[words.index("--crate-name") + 1]
    try:
        folder = os.readlink(f"/proc/{pid}/cwd")
    except OSError:
        folder = ""
    if "rt-edit-" in folder:
        return crate, "edits"
    return crate, "tests" if "--test" in words else "proof"


def measured(words):
    """Runs a command, and gives its exit status and the processor seconds of each crate's parts."""
    run = subprocess.Popen(words, cwd=ROOT)
    seen, of = {}, {}
    while run.poll() is None:
        found = list(processes())
        parents = {pid: parent for pid, parent, _, _ in found}
        for pid, _, began, seconds in found:
            at = pid
            while at not in (run.pid, 0, 1) and at in parents:
                at = parents[at]
            if at != run.pid:
                continue
            key = pid, began
            # A process that is only just begun doesn't show yet what it works on.
            if not of.get(key):
                of[key] = part_of(pid)
            if of[key]:
                seen[key] = seconds
        time.sleep(0.25)
    sums = defaultdict(float)
    for key, seconds in seen.items():
        sums[of[key]] += seconds
    return run.returncode, sums


def table(costs):
    lines = ["| crate | proof | tests | edits |", "|---|---|---|---|"]
    order = [line.split(":")[0].split()[0] for line in read(ROOT / "crates.txt").splitlines() if line.split("#")[0].strip()]
    rows = [(crate, [costs.get(crate, {}).get(part, 0) for part in PARTS]) for crate in order]
    lines += [f"| `{crate}` | " + " | ".join(f"{round(it)}" if it else "" for it in row) + " |" for crate, row in rows]
    sums = [sum(row[at] for _, row in rows) for at in range(len(PARTS))]
    lines.append("| all, in minutes | " + " | ".join(f"{it / 60:.1f}" for it in sums) + " |")
    return "\n".join([*lines, "", f"In all {sum(sums) / 60:.0f} processor minutes."])


def main():
    words = sys.argv[1:]
    data = Path(words[words.index("--data") + 1]) if "--data" in words else None
    names = [it for at, it in enumerate(words) if not it.startswith("--") and (at == 0 or words[at - 1] != "--data")]
    status, sums = measured(["rt", "ci", *names])
    costs = json.loads(read(data) or "{}") if data else {}
    for (crate, part), seconds in sums.items():
        costs.setdefault(crate, {})[part] = round(seconds, 1)
    if data:
        data.write_text(json.dumps(costs, indent=1, sort_keys=True) + "\n", encoding="utf-8")
    made = table(costs)
    print(made)
    if "--write" in words:
        before, begin, rest = read(COSTS).partition(BEGIN)
        _, end, after = rest.partition(END)
        if begin and end:
            COSTS.write_text(f"{before}{BEGIN}\n{made}\n{END}{after}", encoding="utf-8")
    return status


if __name__ == "__main__":
    sys.exit(main())
