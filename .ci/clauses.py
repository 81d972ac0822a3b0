"""Looks whether docs/CONTRACTS.md lists each function without a clause, and no other, and README.md says how many; those of the crates
of tests are left out, and methods of a trait, which have the clauses of the trait."""
import glob
import os
import re
import sys

top = os.path.dirname(os.path.dirname(os.path.abspath(__file__)))
PAGE = "docs/CONTRACTS.md"
FUNCTION = re.compile(r"( *)(?:pub(?:\([a-z]+\))? )?(?:const )?fn (\w+)")


def head_of(lines, at, indent):
    """The text of a function from its name to where its body begins, or to the end of a declaration."""
    for end in range(at, len(lines)):
        if re.match(rf"{indent}\S.*[{{}}]$|{indent}{{$", lines[end]) or lines[end].endswith(";"):
            return "\n".join(lines[at:end + 1])
    return "\n".join(lines[at:])


def without_clause(path):
    """Yields the functions of a file that promise nothing."""
    with open(path, encoding="utf-8") as it:
        lines = it.read().splitlines()
    of_trait = False
    for number, line in enumerate(lines):
        if re.match(r"(pub )?(impl|trait)\b", line):
            of_trait = " for " in (line if line.endswith("{") else line + lines[number + 1])
        elif re.match(r"\S", line):
            of_trait = False
        found = FUNCTION.match(line)
        if found and not (of_trait and found.group(1)) and "ensures" not in head_of(lines, number, found.group(1)):
            yield found.group(2)


def listed():
    """The rows of the page: the paths, whether all their functions are meant, and the names."""
    with open(f"{top}/{PAGE}", encoding="utf-8") as it:
        section = it.read().split("## Functions without a clause")[1].split("\n## ")[0]
    for paths, names in re.findall(r"^\| (`crates/[^|]*) \| ([^|]*) \|", section, re.M):
        yield re.findall(r"`([^`]+)`", paths), names.startswith("all"), {name.split("::")[-1] for name in re.findall(r"`([^`]+)`", names)}


def main():
    rows, faults, met, count = list(listed()), [], set(), 0
    for path in sorted(glob.glob(f"{top}/crates/*/src/**/*.rt", recursive=True)):
        file = os.path.relpath(path, top)
        if file.split("/")[1].endswith("_tests"):
            continue
        for name in without_clause(path):
            rows_of = [at for at, (paths, all_of, names) in enumerate(rows) if any(file == one or file.startswith(f"{one}/") for one in paths) and (all_of or name in names)]
            met.update((at, name) for at in rows_of)
            count += any(not rows[at][1] for at in rows_of)
            if not rows_of:
                faults.append(f"{PAGE} does not list {name} of {file}")
    faults += [f"{PAGE} lists {name}, which has a clause or is not there" for at, (_, _, names) in enumerate(rows) for name in sorted(names) if (at, name) not in met]
    with open(f"{top}/README.md", encoding="utf-8") as page:
        if f"{count} functions in [a list]" not in page.read():
            faults.append(f"README.md does not say that {count} functions are in the list")
    print("\n".join(faults) if faults else f"clauses: each function has one but {count}, which are listed, and those of whole crates that are named")
    return 1 if faults or not rows else 0


sys.exit(main())
