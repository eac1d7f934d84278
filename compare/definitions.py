"""Shows where each definition stands, and fails where one stands in the wrong place.

What public contracts say is said by the definitions that they reach. A file right in the folder specs of a crate has
such definitions: somebody who wants to know what is promised reads these files and no others. The folder specs/Inner has
the words of contracts of private functions, and specs/Law has lemmas. So the exit status is 1, with a message,

- where no public contract reaches a file right in specs, or one does reach a file in Inner or Law,
- where a file of specs doesn't begin with a comment that says what it holds,
- where the table in docs/DESIGN.md isn't the one that these comments make. With --write it is written anew.

Names are followed by text: from the contracts of what the root file of a crate passes on, and of the methods of such
types and traits, through the imports of each file.
"""

import re
import sys
from collections import defaultdict
from pathlib import Path

ROOT = Path(__file__).resolve().parent.parent
DESIGN = ROOT / "docs/DESIGN.md"
BEGIN, END = "<!-- definitions: made by compare/definitions.py -->", "<!-- end of definitions -->"
IMPORT = re.compile(r"use\s+Rattle\.([\w.«»-]+?)(?:\.\{([^}]*)\}|\s+as\s+(\S+?))?\s*;?\s*$")
WORD = re.compile(r"[^\s(){}\[\];,`]+")
OTHER = re.compile(r"(pub\s+)?(use|mod|module|open|mutual|ruleset|syntax)\b(?!\s*[:=])")
DECLARES = re.compile(
    r"(?:(?:abbrev|unfoldable|opaque|rule any|rule)\s+)*(?:pub\s+)?(data\s+|record\s+)?([^\s(){}:]+)"
)


def imports(text):
    """The names that lines of a text import, each with its module and its name there; and modules with other names."""
    names, modules = {}, {}
    for line in text.splitlines():
        found = IMPORT.search(line) if "use " in line else None
        if not found:
            continue
        path, listed, alias = found.groups()
        if listed is not None:
            for part in filter(None, (it.strip() for it in listed.split(","))):
                name, _, other = part.partition(" as ")
                names[(other or name).strip()] = (path, name.strip())
        else:
            modules[(alias or path.rpartition(".")[2]).strip()] = path
    return names, modules


def flattened(text):
    """The lines of a file of specs without comments, those of a module without a name as if they stood outside."""
    depth = 0
    for line in text.splitlines():
        if not line.strip() or line.lstrip().startswith("--"):
            continue
        indent = len(line) - len(line.lstrip())
        depth = min(depth, indent)
        if re.match(r"\s*module _\b", line):
            depth = indent + 2
        elif line.strip() != "where":
            yield line[depth:]


class Specs:
    """The definitions of a file of specs: the names that each one cites."""

    def __init__(self, path, module):
        self.path, self.module = path, module
        text = path.read_text(encoding="utf-8")
        self.names, self.modules = imports(text)
        self.passed_on = re.findall(r"^pub use Rattle\.([\w.]+)\s*$", text, re.MULTILINE)
        self.comment = self.first_comment(text)
        self.cites = defaultdict(set)
        name, is_type = None, False
        for line in flattened(text):
            if re.match(r"\S", line):
                found = None if OTHER.match(line) else DECLARES.match(line)
                name = found.group(2) if found else None
                is_type = bool(found and found.group(1)) or is_type and name == owner
                owner = name
            elif name and is_type and re.match(r"\s+(pub\s+)?[^\s()]+(\s+[^\s()]+)*\s*:", line):
                # A field or a constructor is cited for its type.
                for part in re.match(r"\s+(?:pub\s+)?([^:]+?)\s*:", line).group(1).split():
                    self.cites[part].add(name)
            if name:
                self.cites[name].update(WORD.findall(line))

    @staticmethod
    def first_comment(text):
        lines = []
        for line in text.splitlines():
            if not line.startswith("--"):
                break
            lines.append(line[2:].strip())
        return " ".join(lines)


def crate_names():
    lines = (ROOT / "crates.txt").read_text(encoding="utf-8").splitlines()
    return [line.split(":")[0].split()[0] for line in lines if line.split("#")[0].strip()]


def specs_of(crates):
    """The files of specs of all crates, by their modules."""
    files = {}
    for crate in crates:
        folder = ROOT / "crates" / crate / "specs"
        for path in sorted(folder.rglob("*.antt")):
            parts = path.relative_to(folder).with_suffix("").parts
            files[".".join([crate, "specs", *parts])] = Specs(path, ".".join([crate, "specs", *parts]))
    return files


def exported(crate):
    """The names that the root file of a crate passes on, and those that it makes public itself."""
    root = next((p for p in (ROOT / "crates" / crate / "src").glob("*.rt") if p.name in ("lib.rt", "main.rt")), None)
    text = root.read_text(encoding="utf-8") if root else ""
    names = set()
    for listed in re.findall(r"^pub use [\w:]+::(?:\{([^}]*)\}|(\w+));", text, re.MULTILINE):
        for part in (listed[0] or listed[1]).split(","):
            names.add(part.split(" as ")[-1].strip())
            names.add(part.split(" as ")[0].strip())
    # The items of a program are seen by nobody but the program, so all that they share counts.
    is_program = bool(root) and root.name == "main.rt"
    for path in root.parent.rglob("*.rt") if is_program else [root] if root else []:
        text = path.read_text(encoding="utf-8")
        pattern = r"^(?:pub )?(?:fn|struct|enum|trait|type|const) (\w+)" if is_program else r"^pub (?:fn|struct|enum|trait|type|const) (\w+)"
        names.update(re.findall(pattern, text, re.MULTILINE))
    return names


def items(text):
    """The items of a source file, each with its lines."""
    item = []
    for line in text.splitlines():
        if re.match(r"(pub )?(unsafe )?(fn|struct|enum|trait|impl|const|type|mod|use|static)\b|ghost use", line):
            if item:
                yield item
            item = [line]
        elif item:
            item.append(line)
    if item:
        yield item


def without_bodies(lines):
    """A function's lines up to its body."""
    kept = []
    for line in lines:
        if re.match(r"\s*\{\s*(\}\s*)?$", line) or re.match(r"\s*\{\}$", line):
            break
        kept.append(line)
    return kept


def public_lines(item, names):
    """The lines of an item that a caller in another crate sees."""
    head = item[0]
    is_function = re.match(r"(?:pub )?fn (\w+)", head)
    if is_function:
        return without_bodies(item) if is_function.group(1) in names else []
    is_type = re.match(r"pub (?:struct|enum|trait|type|const) (\w+)", head)
    if is_type:
        return item if is_type.group(1) in names else []
    if not head.startswith("impl"):
        return []
    of = re.search(r"(?:for|impl(?:<.*?>)?)\s+(?:&(?:mut )?)?(\w+)(?:<.*>)?\s*(?:where.*)?\{?$", head)
    of = of.group(1) if of else ""
    if of not in names:
        return []
    is_trait = " for " in head
    members = [[head]]
    for line in item[1:]:
        if re.match(r"    (pub(\(crate\))? )?(unsafe )?(fn|ghost|const|type)\b", line):
            members.append([])
        members[-1].append(line)
    kept = []
    for member in members:
        if not re.match(r"    (pub(\(crate\))? )?(unsafe )?fn\b", member[0]):
            kept += member
        elif is_trait or member[0].startswith("    pub fn"):
            kept += without_bodies(member)
    return kept


def resolve(files, module, name, over=()):
    """The files of specs in which a name of a module may be declared."""
    if module in files:
        found = [module] if name in files[module].cites else []
        return found or [it for on in files[module].passed_on if on not in over for it in resolve(files, on, name, (*over, on))]
    head, _, last = module.rpartition(".")
    if head.endswith(".specs") and f"{head}.Lib" in files:
        for on in files[f"{head}.Lib"].passed_on:
            if on.rpartition(".")[2] == last and on in files:
                return resolve(files, on, name)
    return []


def cited(files, words, names, modules, own=None):
    """The definitions that words stand for."""
    for word in words:
        parts = word.split(".")
        if own and parts[0] in own.cites:
            yield own.module, parts[0]
        if parts[0] in names:
            module, name = names[parts[0]]
            for it in resolve(files, module, name):
                yield it, name
        if parts[0] in modules and len(parts) > 1:
            for it in resolve(files, modules[parts[0]], parts[1]):
                yield it, parts[1]


def reached(crates, files):
    """The definitions that public contracts reach."""
    todo = []
    for crate in crates:
        names = exported(crate)
        for path in sorted((ROOT / "crates" / crate / "src").rglob("*.rt")):
            if "test" in path.name or "tests" in path.parts:
                continue
            text = path.read_text(encoding="utf-8")
            known, modules = imports(text)
            for item in items(text):
                lines = [it for it in public_lines(item, names) if not re.match(r"\s*(//|#\[|ghost use)", it)]
                todo += cited(files, WORD.findall("\n".join(lines)), known, modules)
    done = set()
    while todo:
        at = todo.pop()
        if at in done:
            continue
        done.add(at)
        file = files[at[0]]
        todo += cited(files, file.cites[at[1]], file.names, file.modules, file)
    return done


def is_list(file):
    """The kit's lists of modules have no definitions."""
    return not file.cites


def table(crates, files):
    """The table of docs/DESIGN.md: the files right in specs, by crate."""
    lines = ["| file | what it holds |", "|---|---|"]
    for crate in crates:
        for module, file in files.items():
            if module.split(".")[0] == crate and len(module.split(".")) == 3 and not is_list(file):
                lines.append(f"| `{crate}/specs/{file.path.name}` | {file.comment.replace('|', chr(92) + '|')} |")
    return "\n".join(lines)


def main():
    crates = crate_names()
    files = specs_of(crates)
    found = {module for module, _ in reached(crates, files)}
    wrong = []
    for module, file in files.items():
        if is_list(file):
            continue
        parts = module.split(".")
        place = file.path.relative_to(ROOT)
        if not file.comment:
            wrong.append(f"{place}: no comment at the head says what the file holds")
        if len(parts) == 3 and module not in found:
            wrong.append(f"{place}: no public contract reaches it, so it belongs into Inner or Law")
        if len(parts) > 3 and parts[2] == "Inner" and module in found:
            wrong.append(f"{place}: a public contract reaches it, so it belongs right into specs")
    made = table(crates, files)
    text = DESIGN.read_text(encoding="utf-8")
    before, begin, rest = text.partition(BEGIN)
    old, end, after = rest.partition(END)
    if not begin or not end:
        wrong.append("docs/DESIGN.md: no place for the table of definitions")
    elif "--write" in sys.argv[1:]:
        DESIGN.write_text(f"{before}{BEGIN}\n{made}\n{END}{after}", encoding="utf-8")
    elif old.strip() != made:
        wrong.append("docs/DESIGN.md: the table of definitions is an old one: python3 compare/definitions.py --write")
    for message in wrong:
        print(message)
    if not wrong:
        print(f"{sum(not is_list(it) for it in files.values())} files of definitions stand where they belong")
    return 1 if wrong else 0


if __name__ == "__main__":
    sys.exit(main())
