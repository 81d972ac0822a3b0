"""man.py [DIR]: compares the manual pages with the programs that the gate has built, or with those in the folder DIR: the words of a
synopsis with the usage line, each status and the beginning of its line with runs that end so, each number with runs at it and past it,
and each example with what it writes. The names of the pages are those of programs.txt, and each program has one."""
import os
import re
import shutil
import subprocess
import sys
import tempfile

TOP = os.path.dirname(os.path.dirname(os.path.abspath(__file__)))
faults = []


def installed():
    """Yields each program's name where it is installed, and its file."""
    with open(f"{TOP}/programs.txt", encoding="utf-8") as table:
        for name, crate, script in (line.split() for line in table if not line.startswith("#")):
            folder = os.path.abspath(sys.argv[1]) if sys.argv[1:] else f"{TOP}/crates/{crate}/out"
            yield name, f"{TOP}/{script}" if crate == "-" else f"{folder}/{crate}"


PROGRAMS = dict(installed())


def lines(page):
    """Returns the page's lines, without the marks that keep a delimiter in its word."""
    with open(f"{TOP}/man/{page}", encoding="utf-8") as source:
        return source.read().replace("\\&", "").split("\n")


def section(page, name):
    """Returns the lines of a section."""
    whole = lines(page)
    start = whole.index(f".Sh {name}") + 1
    return whole[start : next((at for at in range(start, len(whole)) if whole[at].startswith(".Sh ")), len(whole))]


def run(program, words, text):
    """Returns the status of a run and the first line that it writes; the text may be an open file."""
    given = {"input": text.encode()} if isinstance(text, str) else {"stdin": text}
    ran = subprocess.run([PROGRAMS[program], *words], stdout=subprocess.PIPE, stderr=subprocess.STDOUT, check=False, **given)
    return ran.returncode, ran.stdout.decode(errors="replace").split("\n")[0]


def want(told, *what):
    if not told:
        faults.append(" ".join(map(str, what)))


def rendered(line, before):
    """Returns what stands before the line, and the line as a manual's reader shows it, with a space unless it ends with `Ns`."""
    if not re.match(r"\.[A-Z]", line):
        return f"{before}{line} "
    text = " ".join(word for word in line[1:].split() if word not in ("Op", "Cm", "Ar"))
    text = text.replace("Fl ", "-")
    ends = text.endswith(" Ns")
    text = text.removesuffix(" Ns").replace(" Ns ", "")
    return before + (f"[{text}]" if line.startswith(".Op") else text) + ("" if ends else " ")


def synopsis(page):
    """Returns the usage line that the page's synopsis makes."""
    shown = []
    for line in section(page, "SYNOPSIS"):
        if line == ".Nm":
            shown.append("")
        else:
            shown[-1] = rendered(line, shown[-1])
    return " | ".join(it.strip() for it in shown if it)


def check_usage(name, page):
    told = synopsis(page)
    _, line = run(name, ["--help"], "")
    own = {"cyclist": "cyclist "}.get(name, name.removeprefix("cyclist-") + (" " if told else ""))
    want(line == f"usage: {own}{told}", page, f"the synopsis says '{own}{told}', the program '{line}'")


def statuses(page):
    """Returns the beginnings of the lines of each status that the page tells."""
    told, at = {}, None
    for line in section(page, "EXIT STATUS"):
        if line.startswith(".It "):
            at = told.setdefault(int(line[4:]), set())
        elif line.startswith(".Ql "):
            at.add(re.sub(r" [.,]$", "", line[4:]))
    return told


def example(name):
    return open(f"{TOP}/examples/{name}", "rb")


UNSATISFIABLE = "cyclist problem 1; goal x != x : emp |- true : emp; end;"
LONG = "cyclist proof 1; node true : $65535 -> (nil) |- true : emp by Absurd; end;"
ENDED = "cyclist proof 3; line 1 : stop; ends 1 : true : emp; node from 1 given true : emp by Exec to 1; node true : emp |- true : emp by Done; end;"
UNKNOWN = "cyclist proof 1; node true : zz() |- true : emp by Done; end;"
RIGHT = "cyclist proof 1; node true : emp |- true : emp by Done; end; cyclist problem 1; "

# The runs of each program by which its page's statuses are seen: the words and the input.
RUNS = {
    "cyclist": [
        (["check"], "list-segments.proof"), (["check"], "list-walk.proof"), (["check"], ENDED), (["fo-check"], "first-order/even-sum.fo"), (["ring", "2"], ""),
        (["prove"], "list-segments.problem"), (["upgrade"], "first.proof"), (["fo"], "first-order/even-is-natural.foproblem"),
        (["disprove"], "acyclic-segments.problem"), (["sat"], "list-segments.problem"), (["model"], "list.model"),
        (["check"], "freed-twice.proof"), (["check"], "no-progress.proof"), (["sat"], UNSATISFIABLE), (["model"], "wrong-link.model"),
        ([], ""), (["check"], ""), (["check"], UNKNOWN), (["check"], LONG), (["prove"], "acyclic-segments.problem"),
        (["disprove", "--cells", "1"], "acyclic-segments.problem"),
    ],
    "cyclist-check": [
        ([], "list-segments.proof"), ([], "list-walk.proof"), ([], ENDED), ([], "freed-twice.proof"), ([], "no-progress.proof"), (["check"], ""),
        ([], ""), ([], UNKNOWN), ([], LONG),
    ],
    "cyclist-solve": [
        ([], "list-segments.problem"), (["solve"], ""), (["--effort", "10"], ""), ([], ""), ([], UNKNOWN.replace("proof", "problem").replace("node", "goal").replace(" by Done", "")),
        ([], "cyclist problem 1; goal true : emp |- " + " or ".join(["true : emp"] * 17) + "; end;"), ([], "acyclic-segments.problem"),
        (["--effort", "1"], "../.ci/solves/unknown/walk-and-grow.problem"),
        ([], "slcomp/one-cell-twice.smt2"), ([], "slcomp/bolognesa-10-e02.smt2"), ([], "slcomp/spaghetti-10-e01-sat.smt2"), ([], "slcomp/hand-no-base-case.smt2"), ([], "(push 1)"),
    ],
    "cyclist-draw": [
        ([], "first.proof"), (["--fold"], "first.proof"), (["draw"], ""), ([], ""), ([], UNKNOWN), ([], LONG), ([], RIGHT + "end;"),
        ([], RIGHT + "goal true : zz() |- true : emp; end;"), ([], RIGHT + "goal true : emp |- nil = nil : emp; end;"),
        ([], RIGHT + "goal true : emp |- " + " or ".join(["true : emp"] * 17) + "; end;"),
    ],
}  # fmt: skip
READS = {"cyclist": ["check"]}


def check_statuses(name, page):
    told = statuses(page)
    seen = {status: set() for status in told}
    for words, text in RUNS[name]:
        status, line = run(name, words, example(text) if "." in text and ";" not in text else text)
        begun = {it for it in told.get(status, ()) if line.startswith(it)}
        want(begun, page, f"says nothing of status {status}, '{line}', of {name} {' '.join(words)} < {text}")
        seen.setdefault(status, set()).update(begun)
    for status in set(told) - {7, 8, 9}:
        want(told[status] == seen[status], page, f"tells of status {status} {told[status] - seen[status]}, which no run here has seen")
    want(set(told) >= {7, 8, 9}, page, "does not tell of the statuses 7 to 9")
    check_failures(name, page)


def check_failures(name, page):
    """The statuses without a line: a folder in place of the input, a full device, and little memory."""
    words = READS.get(name, [])
    folder = os.open(TOP, os.O_RDONLY)
    want(run(name, words, folder) == (7, ""), page, "a folder as input does not end with 7")
    with open("/dev/full", "wb") as full, example("first.proof") as proof:
        ran = subprocess.run([PROGRAMS[name], *words], stdin=proof, stdout=full, check=False)
        want(ran.returncode == 8, page, "a full device does not end with 8")
    nodes = "cyclist proof 1;" + "node true : emp |- true : emp by Done;" * 20000 + "end;"
    text = nodes if name != "cyclist-solve" else "cyclist problem 1;" + "line 1 : stop;" * 100000
    ended = [
        subprocess.run(["sh", "-c", 'ulimit -v "$0" && exec "$@"', str(kilobytes), PROGRAMS[name], *words], input=text.encode(), capture_output=True, check=False).returncode
        for kilobytes in (3000, 3500, 4000, 5000, 6000)
    ]
    want(9 in ended, page, f"too little memory ends with {ended}")


def check_ranges():
    """The numbers of a command's words in cyclist(1), at and past their ends, and where they are left out."""
    told = re.findall(r"\.It Cm (\w+) (?:Op Fl (-\w+) )?Ar (\w)((?:\n(?!\.It).*)*?)\nis from (\d+) to ([0-9,]+)(?:, by default (\d+))?\.", "\n".join(lines("cyclist.1")))
    want(len(told) == 4, f"cyclist.1: tells of {len(told)} ranges, not 4")
    inputs = {"prove": "acyclic-segments.problem", "disprove": "list-segments.problem", "fo": None, "ring": None}
    for command, option, _, _, least, most, usual in told:
        words = [command] + ([f"-{option}"] if option else [])
        numbers = (int(least) - 1, int(least), int(most.replace(",", "")), int(most.replace(",", "")) + 1)
        for number, right in zip(numbers, (False, True, True, False)):
            status, _ = run("cyclist", [*words, str(number)], "")
            want((status != 2) == right, f"cyclist.1: {words} {number} ends with {status}")
        if usual:
            text = inputs[command]
            given = example(text) if text else "cyclist foproblem 1; con z 0; goal true |- false; end;"
            want(run("cyclist", [command], given)[1].endswith(f" {usual}"), f"cyclist.1: {command} is not {usual} by default")


def several(text, count, between=" "):
    return between.join(text.replace("&", str(number)) for number in range(1, count + 1))


# A file that has so many of what a limit is of, and nothing else past a limit: by the limit's name.
DONE = "node true : emp |- true : emp by Done;"
ABSURD = "node nil != nil : emp |- true : emp by Absurd;"
OF_LIMIT = {
    "predicates": lambda n: several("pred p&(0) { true : emp };", n) + DONE,
    "arguments": lambda n: f"pred p({n}) {{ true : emp }};" + DONE,
    "cases": lambda n: "pred p(0) { " + several("true : emp", n, " | ") + " };" + DONE,
    "locals": lambda n: f"pred p(0) {{ true : q(?{n - 1}) }}; pred q(1) {{ true : emp }};" + DONE,
    "pure": lambda n: f"node {several('nil = nil', n, ', ')} : emp |- true : emp by Done;",
    "spatial": lambda n: f"node nil != nil : {several('$& -> (nil)', n, ' * ')} |- true : emp by Absurd;",
    "disjuncts": lambda n: f"node nil != nil : emp |- {several('true : emp', n, ' or ')} by Absurd;",
    "lines": lambda n: several("line & : stop;", n) + DONE,
    "program-variables": lambda n: f"line 1 : if ${n - 1} = nil goto 2; line 2 : stop;" + DONE,
    "nodes": lambda n: several(DONE, n),
    "stack": lambda n: f"stack {several('&', n, ', ')}; heap; ask true : emp;",
    "cells": lambda n: f"stack; heap {several('& -> (0)', n, ', ')}; ask true : emp;",
}


def check_limit(page, name, number, kind, version):
    """A file with so many is within the limit, and with one more is past it."""
    command = {"proof": "check", "model": "model"}[kind]
    for count, wanted in ((number, False), (number + 1, True)):
        status, line = run("cyclist", [command], f"cyclist {kind} {version};\n{OF_LIMIT[name](count)}\nend;\n")
        past = status == 5 and line.startswith(f"limit {name} ")
        want(past == wanted and (past or status in (0, 1)), page, f"{count} {name} in version {version}: status {status}, '{line}'")


def check_limits(page, kind):
    told = re.findall(r"^\.It ([a-z-]+)\n([0-9,]+)\b(.*(?:\n(?!\.).*)*)", "\n".join(section(page, "LIMITS")), re.M)
    want(len(told) == {"proof": 10, "model": 2}[kind], page, f"tells of {len(told)} limits")
    for name, number, rest in told:
        check_limit(page, name, int(number.rstrip(",").replace(",", "")), kind, 1)
        second = re.search(r"version\s2\s(\d+)", rest)
        if second:
            check_limit(page, name, int(second[1]), kind, 2)


def check_input_limit():
    """The greatest input of cyclist(1)."""
    told = re.search(r"at most ([0-9,]+) bytes", "\n".join(lines("cyclist.1")))
    most = int(told[1].replace(",", "")) if told else 0
    want(run("cyclist", ["check"], " " * most)[0] == 3, f"cyclist.1: {most} bytes are too many")
    want(run("cyclist", ["check"], " " * (most + 1)) == (5, "limit input"), f"cyclist.1: {most + 1} bytes are not too many")


def transcripts(page):
    """Yields the command and what it is to write, of each example."""
    for block in re.findall(r"^\.Bd -literal\n(.*?)^\.Ed", "\n".join(section(page, "EXAMPLES")), re.M | re.S):
        shown = block.rstrip("\n").split("\n")
        count = 1 + next((at for at, line in enumerate(shown[1:]) if not line.startswith("> ")), len(shown) - 1)
        yield "\n".join(line[2:] for line in shown[:count]), "\n".join(shown[count:])


def check_examples(page, folder):
    found = list(transcripts(page))
    want(found, page, "has no example")
    for command, wanted in found:
        ran = subprocess.run(["bash", "-c", command], cwd=f"{TOP}/examples", env={**os.environ, "PATH": f"{folder}:{os.environ['PATH']}"}, capture_output=True, text=True, check=False)
        want(ran.stdout.rstrip("\n") == wanted, page, f"'{command}' writes '{ran.stdout}{ran.stderr}', not '{wanted}'")


def main():
    pages = sorted(os.listdir(f"{TOP}/man"))
    for name in PROGRAMS:
        want(f"{name}.1" in pages, f"{name} has no page")
        check_usage(name, f"{name}.1")
        if name in RUNS:
            check_statuses(name, f"{name}.1")
    check_ranges()
    check_input_limit()
    check_limits("cyclist-proof.5", "proof")
    check_limits("cyclist-model.5", "model")
    with tempfile.TemporaryDirectory() as folder:
        for name, program in PROGRAMS.items():
            os.symlink(program, f"{folder}/{name}")
        for page in pages:
            if page != "cyclist-many.1" or all(map(shutil.which, ("parallel", "time"))):
                check_examples(page, folder)
            else:
                print(f"man: skipped: the examples of {page}, since there is no GNU parallel or GNU time here")
    print("\n".join(faults) if faults else f"man: the {len(pages)} pages say what the programs do")
    sys.exit(1 if faults else 0)


if __name__ == "__main__":
    main()
