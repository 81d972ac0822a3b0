"""Counts the definitions that a reader of status 0 of `check` has to believe: those that its clause names, those that these name,
and so on, and the types that the code declares; and compares README.md's figures with that. `--print [CRATE.FILE.NAME..]` prints
the count by file, of these definitions or of others, as of cyc_top.Answers.IsHeadline. A name that a variable shares with a
definition in reach counts too, so the list is not too short."""
import collections
import glob
import os
import re
import sys

top = os.path.dirname(os.path.dirname(os.path.abspath(__file__)))
ROOTS = ["check_answers.Answers.ToldFileOf", "proof_check.Verdicts.RootHolds"]
HEAD = re.compile(r"(?:\s*(?:pub )?(?:(?:abbrev|unfoldable|pattern|data|record) )+(?:pub )?|pub (?!use |mod ))([^\s:({]+)")
CONSTRUCTOR = re.compile(r"\s+(?:pub )?([^\s:({]+) : ")
USE = re.compile(r"^(?:pub )?use Rattle\.(\w+)\.specs\.([\w.]+?)(?:\.\{(.*)\})?(?: as (\w+))?$")
WORD = re.compile(r"[^\s(){};,.:λ]+(?:\.[^\s(){};,.:λ]+)?")


def items_of(lines):
    """The items of a file: for each name, that of a constructor too, the numbers of the first line, with the comment before it,
    and of the line after the last."""
    found = {}
    heads = [number for number, line in enumerate(lines) if HEAD.match(line)]
    for head, after in zip(heads, heads[1:] + [len(lines)]):
        start = head
        while start and lines[start - 1].lstrip().startswith("--"):
            start -= 1
        end = next((number for number in range(head + 1, after) if not lines[number].strip() or lines[number].lstrip().startswith("--")), after)
        found[HEAD.match(lines[head]).group(1)] = start, end
        if "data " in lines[head]:
            found.update({part.group(1): (start, end) for line in lines[head + 1:end] if (part := CONSTRUCTOR.match(line))})
    return found


class File:
    """One file of definitions: what it names, and what it holds."""

    def __init__(self, crate, path):
        with open(path, encoding="utf-8") as it:
            self.lines = it.read().splitlines()
        self.path, self.names, self.aliases = path, {}, {}
        self.items = items_of(self.lines)
        for line in self.lines:
            found = USE.match(line)
            if not found:
                continue
            other, module, names, alias = found.groups()
            if alias:
                self.aliases[alias] = (other, module)
            for name in (names or "").split(", "):
                its, _, mine = name.partition(" as ")
                self.names[mine or its] = (other, module, its)
        self.crate = crate

    def named(self, text, module):
        """What a text of this file names."""
        for word in WORD.findall(text):
            for part in {word, *word.split(".")}:
                if part in self.names:
                    yield self.names[part]
                elif part in self.items:
                    yield self.crate, module, part
            alias, _, name = word.partition(".")
            if name and alias in self.aliases:
                yield (*self.aliases[alias], name)


def type_lines(crate, name):
    """The file that declares a type or a constant of a crate, and how many lines that takes."""
    for path in glob.glob(f"{top}/crates/{crate}/src/**/*.rt", recursive=True):
        with open(path, encoding="utf-8") as it:
            found = re.search(rf"^pub (?:struct|enum|const) {name}\b.*?(?:^\}}|;$)", it.read(), re.M | re.S)
        if found:
            return path, found.group(0).count("\n") + 1
    return None, 0


def files_of_definitions():
    """The files of definitions, by crate and module."""
    found = {}
    for path in glob.glob(f"{top}/crates/*/specs/**/*.antt", recursive=True):
        crate, module = re.match(rf"{re.escape(top)}/crates/(\w+)/specs/(.*)\.antt", path).groups()
        found[crate, module.replace("/", ".")] = File(crate, path)
    return found


def reached_from(roots):
    """The lines of each file that the roots rest on, and for each type its file and how many lines it takes."""
    files = files_of_definitions()
    waiting = [(root.split(".")[0], *root.split(".", 1)[1].rsplit(".", 1)) for root in roots]
    seen, lines, types = set(), collections.defaultdict(set), {}
    while waiting:
        item = crate, module, name = waiting.pop()
        if item in seen:
            continue
        seen.add(item)
        if module.startswith("declared"):
            kind = re.sub(r"\.The\w+$", "", module).split(".")[-1]
            its_name = name if kind == "declared" or module.endswith(".TheConstants") else kind
            types[crate, its_name] = type_lines(crate, its_name)
        elif (file := files.get((crate, module))) and name in file.items:
            start, end = file.items[name]
            lines[file.path].update(range(start, end))
            waiting.extend(file.named("\n".join(line for line in file.lines[start:end] if not line.lstrip().startswith("--")), module))
        elif file and name in file.names:
            waiting.append(file.names[name])
    return lines, types


def faults_of_readme(by_crate, total):
    """Each figure of README.md that is another."""
    with open(f"{top}/README.md", encoding="utf-8") as lines:
        text = lines.read()
    if total not in text:
        yield f"README.md does not say: {total}"
    rows = [row for row in re.findall(r"^\|.*\| ([^|]*) \| (\d+) \|$", text, re.M) if set(re.findall(r"`(\w+)`", row[0])) & set(by_crate)]
    for names, figure in rows:
        count = sum(sum(by_crate[crate].values()) for crate in re.findall(r"`(\w+)`", names) if crate in by_crate)
        if count != int(figure):
            yield f"README.md: {figure} lines in {names}; there are {count}"
    named = {crate for names, _ in rows for crate in re.findall(r"`(\w+)`", names)}
    yield from (f"README.md does not name {crate}" for crate in sorted(set(by_crate) - named))


def main():
    lines, types = reached_from(sys.argv[2:] or ROOTS)
    by_crate = collections.defaultdict(dict)
    for path, numbers in lines.items():
        by_crate[os.path.relpath(path, top).split("/")[1]][os.path.basename(path)] = len(numbers)
    counts = sum(map(len, lines.values())), len(lines), sum(count for _, count in types.values())
    if sys.argv[1:2] == ["--print"]:
        for crate, rows in sorted(by_crate.items(), key=lambda row: -sum(row[1].values())):
            print(f"{sum(rows.values()):5} {crate}: " + ", ".join(f"{name} {count}" for name, count in sorted(rows.items())))
        print("{:5} lines in {} files of definitions, and {} lines of {} types and constants in the code".format(*counts, len(types)))
        return 0
    faults = list(faults_of_readme(by_crate, "{:,} lines in {} files below `crates/`, and {} lines of types".format(*counts)))
    print("\n".join(faults) if faults else "believed: {:,} lines in {} files, and {} lines of types".format(*counts))
    return 1 if faults else 0


sys.exit(main())
