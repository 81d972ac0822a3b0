"""edges.py PROGRAM CHECKER SOLVER DRAW [--each]: runs the four built programs where the host gives them nothing: with an allocation
refused, with a limit on memory, with a read or a write that fails, with standard input or output closed, with words that are not
UTF-8, and with one word too many. Each run has to end with the status that README.md lists for that, and to write what goes with it.
Of a run's allocations the first, the last and some between them are refused, each in a run of its own; with --each all of them, up
to 2,000.
Wants a C compiler, for the calls that fail."""
from concurrent.futures import ThreadPoolExecutor
import os
import subprocess
import sys
import tempfile

sys.dont_write_bytecode = True
sys.path.insert(0, os.path.join(os.path.dirname(os.path.abspath(__file__)), "texts"))
from calls import LONGEST, Counts, beginning, library, name_of, opened, ran
from searches import USAGE

program, checker, solver, draw = map(os.path.abspath, sys.argv[1:5])
each = "--each" in sys.argv[5:]

# How many of a run's allocations are refused, at the most.
FEW = 2000 if each else 24

SMALL = "examples/first.proof"
PROOF = "examples/list-segments.proof"
PROBLEM = "examples/list-segments.problem"
EVEN = "examples/first-order/even-is-natural"

# The proof, and its problem behind it.
BOTH = tempfile.NamedTemporaryFile()
for it in PROOF, PROBLEM:
    with opened(it) as part:
        BOTH.write(part.read())
BOTH.flush()

# Runs that end with 0: the program, its words, and the file that it reads.
RIGHT = [
    (program, ["check"], SMALL), (program, ["check"], PROOF), (program, ["check"], "examples/two-lists.proof"),
    (program, ["prove", "--depth", "5"], PROBLEM), (program, ["prove"], "examples/list-walk.problem"),
    (program, ["ring", "1"], None), (program, ["upgrade"], PROOF), (program, ["sat"], PROBLEM),
    (program, ["model"], "examples/ring.model"), (program, ["disprove"], "examples/acyclic-segments.problem"),
    (program, ["disprove", "--cells", "2"], "examples/acyclic-segments.problem"), (program, ["fo", "--depth", "5"], EVEN + ".foproblem"),
    (program, ["fo-check"], EVEN + ".fo"), (checker, [], PROOF), (solver, [], PROBLEM), (solver, ["--effort", "1"], "examples/odd-and-even.problem"), (draw, [], PROOF),
    (draw, ["--fold"], PROOF), (draw, [], BOTH.name),
]

# Runs with another answer, and its status.
OTHER = [
    (program, ["check"], "examples/no-progress.proof", 1),
    (program, ["prove", "--depth", "4"], PROBLEM, 6), (program, ["check"], PROBLEM, 3), (program, ["sat"], "examples/odd-and-even.problem", 1),
    (program, ["model"], "examples/wrong-link.model", 1), (program, ["disprove", "--cells", "1"], PROBLEM, 6),
    (program, ["fo", "--depth", "2"], EVEN + ".foproblem", 6), (program, ["fo-check"], "examples/first-order/copied-for-ever.fo", 1),
    (program, ["help"], None, 2), (program, [], None, 2), (checker, [], PROBLEM, 3), (checker, ["x"], None, 2),
    (solver, [], "examples/acyclic-segments.problem", 1), (solver, ["--effort", "1"], "examples/endless-choice.problem", 1),
    (solver, ["--effort", "1"], ".ci/solves/unknown/walk-and-grow.problem", 6), (solver, [], PROOF, 3), (solver, ["x"], None, 2), (draw, [], PROBLEM, 3), (draw, ["x"], None, 2),
]

LINES = {program: USAGE, checker: b"usage: check\n", solver: b"usage: solve [--effort N]\n", draw: b"usage: draw [--fold]\n"}


def chosen(count):
    """Returns the numbers of the allocations that are refused, from 1 on."""
    if count <= FEW:
        return list(range(1, count + 1))
    return sorted({1 + (count - 1) * i // (FEW - 1) for i in range(FEW)})


def refused_allocations(calls, command, file, status):
    """Yields what goes wrong where an allocation is refused: 9 with nothing written is right, and so is the whole answer. The answer
    is written by one call."""
    counts = Counts(calls, command, file)
    right, count = counts.answer, counts.allocations
    if right[0] != status:
        yield f"{name_of(command)}: status {right[0]}, wanted {status}"
    if counts.writes != 1:
        yield f"{name_of(command)}: {counts.writes} writes"
    ended = [(it, ran(command, file, LD_PRELOAD=calls, REFUSED_CALL=str(it))) for it in chosen(count)]
    for number, got in ended:
        if got not in ((9, b""), right):
            yield f"{name_of(command)}: with allocation {number} of {count} refused: status {got[0]}, {got[1][:100]!r}"
    nothing = sum(got == (9, b"") for _, got in ended)
    if not nothing:
        yield f"{name_of(command)}: none of its {count} allocations was missed"
    if each:
        print(f"{name_of(command)}: of {count} allocations {len(ended)} refused in turn: {nothing} times status 9 and nothing written, else the right answer")


def failing_calls(calls, command, file):
    """Yields what goes wrong where a read or a write fails, or a write takes less than it was given."""
    counts = Counts(calls, command, file)
    right, reads, writes = counts.answer, counts.reads, counts.writes
    for error in (4, 5, 9, 11):
        for number in range(1, reads + 1):
            got = ran(command, file, LD_PRELOAD=calls, FAILED_READ=str(number), FAILED_WITH=str(error))
            if got != (7, b""):
                yield f"{name_of(command)}: read {number} of {reads} fails with error {error}: status {got[0]}, {got[1][:100]!r}"
        for number in range(1, writes + 1):
            got = ran(command, file, LD_PRELOAD=calls, FAILED_WRITE=str(number), FAILED_WITH=str(error))
            if got != (8, b""):
                yield f"{name_of(command)}: write {number} of {writes} fails with error {error}: status {got[0]}, {got[1][:100]!r}"
        got = ran(command, file, LD_PRELOAD=calls, SHORT_WRITES="1", FAILED_WRITE="3", FAILED_WITH=str(error))
        if got != (8, right[1][:2]):
            yield f"{name_of(command)}: the third write fails with error {error}, after two bytes: status {got[0]}, {got[1][:100]!r}"
    got = ran(command, file, LD_PRELOAD=calls, SHORT_WRITES="1")
    if got != right:
        yield f"{name_of(command)}: with writes of one byte: status {got[0]}, {got[1][:100]!r}"


def with_calls(calls):
    """Runs with calls that fail, as functions without arguments."""
    for command, words, file in RIGHT:
        yield lambda it=[command, *words], file=file: refused_allocations(calls, it, file, 0)
    for command, words, file, status in OTHER:
        yield lambda it=[command, *words], file=file, status=status: refused_allocations(calls, it, file, status)
    if not each:
        for command, words, file in [RIGHT[0], RIGHT[3], *RIGHT[5:10], *RIGHT[11:]]:
            yield lambda it=[command, *words], file=file: failing_calls(calls, it, file)


def closed_streams(command, words, file):
    """Yields what goes wrong where standard input, standard output or a pipe's other end is closed."""
    it = [command, *words]
    right = ran(it, file)
    got = ran(it, file, "exec <&-")
    if got != ((7, b"") if file else right):
        yield f"{name_of(it)}: with no standard input: status {got[0]}, {got[1][:100]!r}"
    got = ran(it, file, "exec >&-")
    if got != (8, b""):
        yield f"{name_of(it)}: with no standard output: status {got[0]}, {got[1][:100]!r}"
    got = ran(it, file, "exec 2>&-")
    if got != right:
        yield f"{name_of(it)}: with no standard error: status {got[0]}, {got[1][:100]!r}"
    with opened(file) as source, beginning:
        inward, outward = os.pipe()
        os.close(inward)
        begun = subprocess.Popen(it, stdin=source, stdout=outward)
        os.close(outward)
    status = begun.wait(LONGEST)
    if status != 8:
        yield f"{name_of(it)}: with nobody at the pipe that it writes to: status {status}"


def other_words(command, words, file):
    """Yields what goes wrong with one word more, or with a word that is not UTF-8 in place of each of its words, or as one more."""
    bad = [b"\xff", b"\xc3", b"ch\x80eck"]
    tried = [[*words, more] for more in ["x", "", "--", "check", "5", "--help", "-h", "-V", "--version", *bad]]
    tried += [[*words[:at], one, *words[at + 1 :]] for at in range(len(words)) for one in [*bad, ""]]
    tried += [[it, *words] for it in ["", "--", "--help", *bad]]
    for these in tried:
        # (clap takes two hyphens as the end of the words that begin with hyphens)
        if these == [*words, "--"]:
            continue
        got = ran([command, *these], file)
        if got != (2, LINES[command]):
            yield f"{name_of([command, *these])}: status {got[0]}, {got[1][:100]!r}"


def limited(kilobytes):
    """Gives the program so much memory."""
    return f"ulimit -v {kilobytes}"


def little_memory(command, words, file):
    """Yields what goes wrong in little memory, from the least with which wrong words are answered, for an input that a long comment ends: a
    comment waits for its end, and there is no room for it. What reads nothing needs none."""
    it = [command, *words]
    right = ran(it, file)
    with opened(file) as source:
        text = source.read() + b"#" * (4 << 20)
    least = next(room for room in range(1024, 1 << 20, 64) if ran([command, "x"], None, limited(room)) == (2, LINES[command]))
    for room in (0, 256, 1024, 2048):
        got = ran(it, text, limited(least + room))
        if got != ((9, b"") if file else right):
            yield f"{name_of(it)}: with {least + room} kilobytes of memory: status {got[0]}, {got[1][:100]!r}"


def without_calls():
    """Runs that need no calls of ours, as functions without arguments."""
    for run in RIGHT:
        yield lambda run=run: closed_streams(*run)
        yield lambda run=run: other_words(*run)
        yield lambda run=run: little_memory(*run)


def main():
    with library() as calls:
        tried = [*with_calls(calls), *([] if each else without_calls())]
        with ThreadPoolExecutor(os.cpu_count()) as pool:
            faults = [fault for found in pool.map(lambda it: list(it()), tried) for fault in found]
    print("\n".join(faults) if faults else "edges: each run ends as it should where the host fails it")
    sys.exit(1 if faults else 0)


main()
