"""costs.py PROGRAM CHECKER SOLVER DRAW: what runs of the built programs take. Nothing is timed: allocations, reads and bytes are counted,
which come out the same on each machine but for what the C library rounds up. A bound is far above what a right program takes, and
far below what a program takes that does the work again and again, or keeps what it should give up, or does not do it at all."""
from concurrent.futures import ThreadPoolExecutor
import os
import subprocess
import sys
import tempfile

sys.dont_write_bytecode = True
sys.path.insert(0, os.path.join(os.path.dirname(os.path.abspath(__file__)), "texts"))
from calls import Counts, library, name_of, ran, top
import limits

program, checker, solver, draw = map(os.path.abspath, sys.argv[1:5])

# The greatest number of bytes that one read gives.
PIECE = 65_536


def written_ring(size):
    """The ring's proof in its written form, by a script that knows nothing of the program."""
    script = f". '{top}/bench/common.sh'; ring {size}"
    return subprocess.run(["bash", "-c", script, "ring", "/bin/sh"], stdout=subprocess.PIPE, check=True).stdout


def levels(count):
    """A problem without a proof: each predicate has two cases that are the next one, and the last holds of nothing. From depth
    `count` + 1 on all depths have the same derivations."""
    cases = "".join(f"pred p{i}() {{ true : p{i + 1}() | true : p{i + 1}() }};\n" for i in range(count))
    return f"cyclist problem 1;\n{cases}pred p{count}() {{ nil != nil : emp }};\ngoal true : emp |- true : p0();\nend;\n".encode()


def chain(count, step):
    """Predicates of which each is a cell before the next, the last one empty; in the order of the multiples of a step. What is known
    of one comes from the next alone."""
    lines = [f"pred p{i}(a) {{ true : a -> (b) * p{i + 1}(b) }};\n" for i in range(count - 1)]
    lines.append(f"pred p{count - 1}(a) {{ a = nil : emp }};\n")
    mixed = "".join(lines[i * step % count] for i in range(count))
    return f"cyclist problem 1;\n{mixed}goal true : p0(x) |- true : emp;\nend;\n".encode()


class Takes:
    """Runs whose counts are told apart."""

    def __init__(self, calls):
        self.calls = calls

    def counts(self, command, source, answer, wrong):
        """Returns the counts of a run; what is wrong with its answer goes to a list."""
        if isinstance(source, bytes) and len(source) > PIECE:
            # (a file gives as many bytes as are asked for, a pipe as many as there are)
            with tempfile.NamedTemporaryFile() as file:
                file.write(source)
                file.flush()
                found = Counts(self.calls, command, file.name)
        else:
            found = Counts(self.calls, command, source)
        if found.answer != (answer[0], answer[1] + b"\n"):
            wrong.append(f"{name_of(command)}: status {found.answer[0]}, {found.answer[1][:100]!r}; wanted {answer[0]}, {answer[1]!r}")
        return found

    def ring(self):
        """The ring is made, written, read and checked: reading and checking alone take two thirds of that."""
        wrong, size, text = [], 250, written_ring(250)
        nodes = 8 * size + 1
        all_of_it = self.counts([program, "ring", str(size)], None, (0, b"ring %d accepted nodes %d links 1" % (size, nodes)), wrong)
        part = self.counts([program, "check"], text, (0, b"accepted entailment nodes %d links 1" % nodes), wrong)
        if all_of_it.allocations * 10 < part.allocations * 14:
            wrong.append(f"ring {size}: {all_of_it.allocations} allocations, and {part.allocations} to check its proof")
        if all_of_it.most < 2 * len(text):
            wrong.append(f"ring {size}: {all_of_it.most} bytes at the most, and its proof has {len(text)}")
        if self.counts([checker], written_ring(2000), (0, b"accepted entailment nodes 16001 links 1"), wrong).allocations < 16001:
            wrong.append("check of the ring of 2,000: fewer allocations than nodes")
        got = ran([program, "ring", "2000"], None, "ulimit -v 24000")
        if got != (9, b""):
            wrong.append(f"ring 2000 with 24,000 kilobytes of memory: status {got[0]}, {got[1]!r}")
        return wrong

    def arenas(self):
        """A search holds no more at all depths together than at the dearest one."""
        wrong, text, held = [], levels(10), {}
        for depth in (12, 40):
            held[depth] = self.counts([program, "prove", "--depth", str(depth)], text, (6, b"not found depth %d" % depth), wrong).most
        if held[40] * 10 > held[12] * 11:
            wrong.append(f"prove: {held[40]} bytes at the most over 40 depths, and {held[12]} over 12")
        return wrong

    def base_pairs(self):
        """The work of `sat` grows with the definitions, in whichever order they stand."""
        wrong = []
        for step in (1, 97, 255):
            taken = self.counts([program, "sat"], chain(256, step), (0, b"satisfiable"), wrong).allocations
            if taken > 256 * 400:
                wrong.append(f"sat of 256 definitions, in the order of the multiples of {step}: {taken} allocations")
        return wrong

    def inclusion(self):
        """Each product state is looked at once for a class of events."""
        wrong, text, states = [], limits.turns(4, 0, 7), limits.states_of_turns(4, 7)
        taken = self.counts([program, "check"], text, (0, b"accepted entailment nodes 9 links 2"), wrong).allocations
        if taken > 4 * states:
            wrong.append(f"check of {states} product states: {taken} allocations")
        return wrong

    def reading(self):
        """A text is read in large pieces, each byte a few times, and of what is not part of a file nothing is kept."""
        wrong, text = [], limits.greatest()
        for command in ([program, "check"], [checker]):
            taken = self.counts(command, text, (0, b"accepted entailment nodes 20000 links 19999"), wrong)
            if taken.reads > 2 * len(text) // PIECE or taken.most > 4 * len(text) or taken.asked > 20 * len(text):
                wrong.append(f"{name_of(command)} of 16 MB: {taken.reads} reads, {taken.most} bytes at once, {taken.asked} in all")
        return wrong

    def unending(self):
        """The same of a statement that does not end, and of nodes after a flaw."""
        wrong = []
        count = 350_000
        atoms = b"cyclist proof 1;\nnode true : emp |- true : emp by Done;\nnode true : " + b"p() * " * count
        dead = b"unreadable syntax token %d line 3 column %d" % (4 + 11 + 3 + 4 * count, 13 + 6 * count)
        nodes = b"cyclist proof 1;\npred a(0) { true : b() };\n" + b"node true : emp |- true : emp by Done;\n" * 50_000 + b"end;\n"
        for command in ([program, "check"], [checker]):
            taken = self.counts(command, atoms, (3, dead), wrong)
            if taken.reads > 2 * len(atoms) // PIECE + 2 or taken.most > 4 * len(atoms) or taken.asked > 30 * len(atoms):
                wrong.append(f"{name_of(command)} of a long statement: {taken.reads} reads, {taken.most} bytes at once, {taken.asked} in all")
            taken = self.counts(command, nodes, (4, b"ill-formed unknown token 12 line 2 column 20"), wrong)
            if taken.most > len(nodes) // 2:
                wrong.append(f"{name_of(command)} of {len(nodes)} bytes with a flaw: {taken.most} bytes at once")
        return wrong

    def whole_inputs(self):
        """A command that keeps its input reads it in large pieces too."""
        wrong, comment = [], b"#" * (1 << 20)
        tasks = [
            ([program, "sat"], b"cyclist problem 1; goal true : emp |- true : emp; end;", (0, b"satisfiable")),
            ([program, "model"], b"cyclist model 1; stack; heap; ask true : emp; end;", (0, b"holds")),
            ([program, "prove", "--depth", "1"], b"cyclist problem 1; goal true : emp |- nil != nil : emp; end;", (6, b"not found depth 1")),
            ([program, "disprove"], b"cyclist problem 1; goal true : emp |- true : emp; end;", (6, b"not found cells 2")),
            ([program, "fo", "--depth", "1"], b"cyclist foproblem 1; con z 0; goal true |- false; end;", (6, b"not found depth 1")),
            ([program, "fo-check"], b"cyclist fo 1; con z 0; node true |- z() = z() by Refl 0; end;", (0, b"accepted first-order nodes 1 links 0")),
            ([solver], b"cyclist run 1; line 1 : goto 1; from 1 given true : emp; stack; heap; picks; repeats step 0 step 1; end;", (0, b"holds")),
            ([draw], b"cyclist proof 1;", (3, b"unreadable syntax token 4 line 1 column %d" % (17 + len(comment)))),
        ]
        for command, text, answer in tasks:
            taken = self.counts(command, text + comment, answer, wrong)
            if taken.reads > 2 * len(comment) // PIECE or taken.most > 6 * len(comment):
                wrong.append(f"{name_of(command)} of 1 MB: {taken.reads} reads, {taken.most} bytes at once")
        return wrong


def main():
    with library() as calls, ThreadPoolExecutor(os.cpu_count()) as pool:
        takes = Takes(calls)
        looks = [takes.ring, takes.arenas, takes.base_pairs, takes.inclusion, takes.reading, takes.unending, takes.whole_inputs]
        wrong = [fault for found in pool.map(lambda look: look(), looks) for fault in found]
    print("\n".join(wrong) if wrong else "costs: each run takes as much as it should")
    sys.exit(1 if wrong else 0)


main()
