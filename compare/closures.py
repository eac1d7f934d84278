"""Counts the terms that at most so many steps of laws make of a term, by the table of laws in docs/FORMATS.md alone.

The rows of qc_rows_heart on closures have its counts. A term is written with its operands before their operator, as there:
`a`, `b` and `c` are registers of 32 bits, `bit` is one of 1 bit, `k` an immediate of 32 bits, and numbers have their widths.
"""

BINARY = "add sub mul divu modu quot rem and or xor shl shrl shra eq ne lt ge ltu geu".split()
COMPARISONS = "eq ne lt ge ltu geu".split()
SWAPS = "add and or xor eq ne mul".split()


def num(value, width):
    return ("num", value % 2**width, width)


def width(t):
    if t[0] in ("num", "reg", "imm", "input"):
        return t[2]
    if t[0] in ("zx", "sx"):
        return t[1]
    if t[0] == "slice":
        return t[2]
    if t[0] == "load":
        return t[1]
    return 1 if t[0] in COMPARISONS else width(t[1])


def places(t):
    """The parts of a term, each with its index in the tuple, by their numbers."""
    if t[0] in BINARY:
        return [1, 2]
    if t[0] in ("com", "neg"):
        return [1]
    return {"zx": [2], "sx": [2], "slice": [3], "load": [2]}.get(t[0], [])


def constant(t):
    return t[0] not in ("reg", "input", "load") and all(constant(t[i]) for i in places(t))


def at_root(t):
    """What each law gives for the term itself, where it matches."""
    w = width(t)
    ones, least = 2**w - 1, 2 ** (w - 1)
    yield "add-zero", ("add", t, num(0, w))
    yield "or-zero", ("or", t, num(0, w))
    if constant(t):
        for m in (8, 12, 16):
            if m < w:
                low = ("slice", 0, m, t)
                rest = ("sub", t, ("sx", w, low))
                high = lambda p: ("shl", ("zx", w, ("slice", m, w - m, p)), num(m, w))
                yield f"split{m}", ("add", high(rest), ("sx", w, low))
                yield f"part{m}", ("or", high(t), ("zx", w, low))
    op = t[0]
    if op in BINARY:
        a, b = t[1], t[2]
        v = width(a)
        for drop in ("add", "or", "xor", "shl"):
            if op == drop and b == num(0, v):
                yield drop + "-zero-drop", a
        if op == "and" and b == num(2**v - 1, v):
            yield "and-ones-drop", a
        if op in SWAPS:
            yield op + "-swap", (op, b, a)
        if op == "add" and b[0] == "add":
            yield "add-left", ("add", ("add", a, b[1]), b[2])
        if op == "add" and a[0] == "add":
            yield "add-right", ("add", a[1], ("add", a[2], b))
        turn = lambda p: ("xor", p, num(2 ** (v - 1), v))
        com = lambda p: ("com", p)
        pairs = {
            "sub": [("add", a, ("neg", b)), com(("add", com(a), b))],
            "xor": [("sub", ("or", a, b), ("and", a, b))],
            "or": [("add", ("xor", a, b), ("and", a, b)), com(("and", com(a), com(b)))],
            "and": [com(("or", com(a), com(b)))],
            "add": [("sub", a, ("neg", b))],
            "eq": [("ltu", ("xor", a, b), num(1, v)), com(("ne", a, b))],
            "ne": [("ltu", num(0, v), ("xor", a, b)), com(("eq", a, b))],
            "lt": [("ltu", turn(a), turn(b)), com(("ge", a, b))],
            "ltu": [("lt", turn(a), turn(b)), com(("geu", a, b))],
            "ge": [com(("lt", a, b))],
            "geu": [com(("ltu", a, b))],
        }
        for given in pairs.get(op, []):
            yield op, given
        if op == "and" and b[0] == "num":
            for m in range(1, v):
                if b == num(2**m - 1, v):
                    yield "and-zx", ("zx", v, ("slice", 0, m, a))
    if op == "neg":
        a = t[1]
        yield "neg-sub", ("sub", num(0, w), a)
        yield "neg-com", ("add", ("com", a), num(1, w))
    if op == "com":
        a = t[1]
        yield "com-xor", ("xor", a, num(ones, w))
        yield "com-sub", ("sub", num(ones, w), a)
        yield "com-neg", ("sub", ("neg", a), num(1, w))
    if op == "zx" and t[2][0] == "com" and width(t[2]) == 1:
        yield "zx-com", ("xor", ("zx", t[1], t[2][1]), num(1, t[1]))
    if op in ("zx", "sx") and t[2][0] == "slice":
        low, m, a = t[2][1:]
        v = width(a)
        if low == 0 and t[1] == v:
            if op == "zx":
                yield "zx-and", ("and", a, num(2**m - 1, v))
            else:
                yield "sx-shifts", ("shra", ("shl", a, num(v - m, v)), num(v - m, v))


def steps(t):
    yield from (given for _, given in at_root(t))
    for index in places(t):
        for part in steps(t[index]):
            yield t[:index] + (part,) + t[index + 1 :]


def closure(t, count):
    seen, round = {t}, {t}
    counts = [1]
    for _ in range(count):
        round = {u for s in round for u in steps(s)} - seen
        seen |= round
        counts.append(len(seen))
    return counts


def parse(text):
    stack, numbers = [], []
    for word in text.split():
        if "'" in word:
            value, bits = word.split("'")
            stack.append(("num", int(value), int(bits)))
        elif word in ("a", "b", "c"):
            stack.append(("reg", word, 32))
        elif word == "bit":
            stack.append(("reg", word, 1))
        elif word == "k":
            stack.append(("imm", word, 32))
        elif word == "input":
            stack.append(("input", word, 32))
        elif word in ("com", "neg"):
            stack.append((word, stack.pop()))
        elif word in ("zx", "sx"):
            stack.append((word, numbers.pop(), stack.pop()))
        elif word == "slice":
            to, low = numbers.pop(), numbers.pop()
            stack.append((word, low, to, stack.pop()))
        elif word == "load":
            stack.append((word, numbers.pop(), stack.pop()))
        elif word in BINARY:
            right, left = stack.pop(), stack.pop()
            stack.append((word, left, right))
        else:
            numbers.append(int(word))
    (term,) = stack
    return term


TERMS = [
    "a",
    "bit",
    "a b add",
    "a a add",
    "a b sub",
    "a 0'32 add",
    "a neg",
    "bit com 32 zx",
    "a b eq",
    "k",
    "300'9",
    "a 255'32 and",
    "a b ltu 32 zx",
    "a b add c add",
    "a 4'32 add 8 load",
]

if __name__ == "__main__":
    for text in TERMS:
        print(f'    ("{text}", {closure(parse(text), 2)}),')
