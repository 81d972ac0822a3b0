"""texts.py PROGRAM CHECKER: runs the built program on the texts of texts/, and the checker alone on those for `check`, and compares
their status and what they write. Each short text comes whole, and then a byte at a time."""
from concurrent.futures import ProcessPoolExecutor
import array
import fcntl
import os
import re
import subprocess
import sys
import termios

sys.path.insert(0, os.path.join(os.path.dirname(os.path.abspath(__file__)), "texts"))
sys.dont_write_bytecode = True
import checks
import ends
import first_order
import limits
import models
import parts
import pieces
import problems
import rules
import searches
import versions
import words

program = os.path.abspath(sys.argv[1])
checker = os.path.abspath(sys.argv[2])

# The length up to which a text comes a byte at a time too.
SHORT = 2000


def rows():
    """Yields the words, the input, the status and what is to be written; a line without its end."""
    for table in [*checks.TABLES, parts.ROWS, rules.ROWS]:
        for text, status, line in table:
            yield "check", text, status, line
    for text, status, line in pieces.FIRST + pieces.BYTES:
        yield "check", text, status, line
    for text in checks.IN_WRITTEN_FORM:
        yield "upgrade", text, 0, text.replace(b"proof 1;", b"proof 2;", 1)
    for text, status, written in checks.WRITTEN:
        yield "upgrade", text, status, written
    for text, status, line in problems.FAULTY + problems.DEAD_TOKENS:
        yield "prove", text, status, line
    yield "prove --depth 1", problems.ALL_FORMS, 6, b"not found depth 1"
    for text, status, written in problems.NUMBERED + problems.KEPT:
        yield "prove --depth 1", text, status, written
    for text, status, line in models.ANSWERS + models.FLAWS + models.SATISFIED + [models.GREATEST_PLACE]:
        yield "model", text, status, line
    for cells, text, status, written in models.REFUTED:
        yield f"disprove --cells {cells}", text, status, written
    for text, status, line in first_order.FLAWS + first_order.DEAD_TOKENS + first_order.DEEP:
        yield "fo-check", text, status, line
    for text, status, line in first_order.DEAD_TOKENS_OF_PROBLEMS:
        yield "fo", text, status, line
    yield from limits.rows()
    yield from versions.rows()
    yield from ends.rows()
    for theory, status, line in first_order.NINTH:
        yield "fo-check", first_order.proof(theory), status, line
        yield "fo", first_order.problem(theory), status, line
    for theory in first_order.EIGHTH:
        yield "fo-check", first_order.proof(theory), 0, b"accepted first-order nodes 1 links 0"
        yield "fo", first_order.problem(theory), 0, first_order.proof(theory)
    yield from searches.RUNS
    yield from words.ROWS


def waiting(pipe):
    """Returns how many bytes of the pipe are not read yet."""
    count = array.array("i", [0])
    fcntl.ioctl(pipe, termios.FIONREAD, count)
    return count[0]


def feed(ran, text, size):
    """Gives a running program so many bytes a read: the next ones come when it has read those before."""
    pipe = ran.stdin.fileno()
    for at in range(0, len(text), size):
        os.write(pipe, text[at : at + size])
        while waiting(pipe):
            if ran.poll() is not None:
                return
            os.sched_yield()


def answer(command, text, size=None):
    """Returns the status of a run and what it writes, to either stream; the text comes whole, or in pieces of that size."""
    with subprocess.Popen(command, stdin=subprocess.PIPE, stdout=subprocess.PIPE, stderr=subprocess.STDOUT) as ran:
        if size:
            try:
                feed(ran, text, size)
            except BrokenPipeError:
                pass
        written, _ = ran.communicate(None if size else text, timeout=120)
        return ran.returncode, written


def is_said(wanted, written):
    """Returns whether this was to be written: a text, whose end may lack its line feed, or what a pattern says."""
    if isinstance(wanted, re.Pattern):
        return bool(wanted.fullmatch(written))
    return written == (wanted if wanted.endswith(b"\n") else wanted + b"\n")


def fault(row):
    """Returns how the program, or for a check the checker too, answers otherwise, or None."""
    said, text, status, written, sizes = row
    line = said.split() if isinstance(said, str) else said
    for command in [[program, *line]] + [[checker]] * (line == ["check"]):
        for size in sizes:
            got = answer(command, text, size)
            if got[0] != status or not is_said(written, got[1]):
                shown = f"{' '.join([os.path.basename(command[0]), *command[1:]])} < {text[:60]!r}, {size or 'all'} at a time"
                return f"{shown}: status {got[0]}, {got[1][:200]!r}; wanted status {status}, {str(written)[:200]}"
    return None


def sized(row):
    return *row, (None, 1) if len(row[1]) <= SHORT else (None,)


if __name__ == "__main__":
    tried = list(map(sized, rows()))
    tried += [sized((second, answer([program, *first.split()], text)[1], status, line)) for first, text, second, status, line in searches.AGAIN]
    tried += limits.greatest_rows()
    in_pieces = [("check", text, status, line, (size,)) for size, text, status, line in pieces.rows()]
    with ProcessPoolExecutor() as pool:
        faults = [it for it in pool.map(fault, tried + in_pieces, chunksize=4) if it]
    done = f"texts: each of the {len(tried)} is answered as it should be, and of the {len(in_pieces)} in pieces"
    print("\n".join(faults) if faults else done)
    sys.exit(1 if faults else 0)
