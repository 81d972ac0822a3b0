#!/usr/bin/env python3
""".ci/frames.py SOLVER PROGRAM: asks the built `solve` for frames, and compares what it finds with what the meaning says is left. Each row has
the pure atoms and the heap of an antecedent, what is asked for, and the frame: its heap, or more than one with their pure atoms, of which one is
left. Names of new variables do not count, nor does the order of atoms. Of what is written the problem is read again by `solve`, and the proof is
checked by `check`."""
import itertools
import os
import re
import subprocess
import sys
import tempfile
import time

DEFINITIONS = """pred ls(a, b) { a = b : emp | true : a -> (c) * ls(c, b) };
pred als(a, b) { a = b : emp | a != b : a -> (c) * als(c, b) };
pred list(a) { a = nil : emp | true : a -> (b) * list(b) };
pred tree(a) { a = nil : emp | true : a -> (l, r) * tree(l) * tree(r) };
pred dll(a, b, c, d) { a = c, d = b : emp | true : a -> (n, b) * dll(n, a, c, d) };
pred lists(a) { a = nil : emp | true : a -> (n, h) * list(h) * lists(n) };
"""

FOUND = [
    # a read or write of a cell needs it out of a list, a segment, a tree
    ("x != nil : list(x)", "true : x -> (y')", ["list(y')"]),
    ("x != nil : ls(x, nil)", "true : x -> (y')", ["ls(y', nil)"]),
    ("x != y : als(x, y)", "true : x -> (z')", ["als(z', y)"]),
    ("x != y : ls(x, y)", "true : x -> (z')", ["ls(z', y)"]),
    ("x != nil : tree(x)", "true : x -> (l', r')", ["tree(l') * tree(r')"]),
    ("y != nil : tree(x) * tree(y)", "true : y -> (l', r')", ["tree(x) * tree(l') * tree(r')"]),
    ("x = y, y != nil : list(x)", "true : y -> (z')", ["list(z')"]),
    ("x != nil, y != nil : list(x) * list(y)", "true : x -> (a') * y -> (b')", ["list(a') * list(b')"]),
    ("y != nil : x -> (y) * list(y)", "true : x -> (y) * y -> (z')", ["list(z')"]),
    ("true : x -> (y') * list(y')", "true : x -> (z')", ["list(z')"]),
    ("true : x -> (u') * list(u') * list(y)", "true : list(y)", ["x -> (u') * list(u')"]),
    ("x != nil : lists(x)", "true : x -> (n', h')", ["list(h') * lists(n')"]),
    ("x != nil : lists(x)", "true : x -> (n', h') * list(h')", ["lists(n')"]),
    # the first cell of a doubly linked list, and the last one of a segment
    ("x != z : dll(x, w, z, v)", "true : x -> (n', w)", ["dll(n', x, z, v)"]),
    ("x != y : ls(x, y)", "true : w' -> (y)", ["ls(x, w')"]),
    # at a pointer into a structure
    ("true : ls(x, y) * y -> (z) * ls(z, nil)", "true : y -> (z)", ["ls(x, y) * ls(z, nil)"]),
    ("y != nil : ls(x, y) * ls(y, nil)", "true : y -> (z')", ["ls(x, y) * ls(z', nil)"]),
    ("true : ls(x, y) * ls(y, nil)", "true : ls(x, y)", ["ls(y, nil)"]),
    ("true : ls(x, y) * ls(y, nil)", "true : ls(y, nil)", ["ls(x, y)"]),
    ("y != z : dll(x, w, y, u) * dll(y, u, z, v)", "true : y -> (n', u)", ["dll(x, w, y, u) * dll(n', y, z, v)"]),
    # what a callee asks for, among several structures
    ("true : list(x) * list(y) * list(z)", "true : list(y)", ["list(x) * list(z)"]),
    ("true : list(x) * list(y) * list(z)", "true : list(x) * list(z)", ["list(y)"]),
    ("true : x -> (y) * list(y) * list(z)", "true : list(x)", ["list(z)"]),
    ("true : x -> (y) * y -> (z) * list(z) * tree(t)", "true : list(x)", ["tree(t)"]),
    ("true : x -> (l, r) * tree(l) * tree(r)", "true : tree(r) * x -> (l, r)", ["tree(l)"]),
    ("true : x -> (y, z) * y -> (nil, nil) * tree(z) * list(u)", "true : tree(x)", ["list(u)"]),
    ("true : ls(x, y) * ls(y, z) * ls(z, nil)", "true : ls(x, z)", ["ls(z, nil)"]),
    ("true : ls(x, y) * list(y) * tree(t)", "true : list(x)", ["tree(t)"]),
    ("true : x -> (l, r) * tree(l) * tree(r) * list(y)", "true : tree(x)", ["list(y)"]),
    # nothing is left
    ("true : list(x)", "true : list(x)", ["emp"]),
    ("true : x -> (y)", "true : x -> (y)", ["emp"]),
    ("true : x -> (y) * list(y)", "true : list(x)", ["emp"]),
    ("true : x -> (y) * y -> (nil)", "true : x -> (y') * y' -> (z')", ["emp"]),
    ("true : x -> (y, w) * dll(y, x, z, v)", "true : dll(x, w, z, v)", ["emp"]),
    # all is left
    ("true : list(x)", "true", ["list(x)"]),
    ("x != nil : list(x)", "x != nil", ["list(x)"]),
    ("true : list(x)", "true : emp", ["list(x)"]),
    # one of two heaps is left
    ("true : ls(x, y) * y -> (z)", "true : x -> (w')", ["x = y : emp", "ls(w', y) * y -> (z)"]),
]

# questions without a frame: some heap of the antecedent has no part that is what is asked for
FAILS = [
    # the list, segment or tree may be empty
    ("true : list(x)", "true : x -> (y')"),
    ("true : ls(x, y)", "true : x -> (z')"),
    ("true : emp", "true : x -> (y)"),
    ("true : list(x) * list(y)", "true : x -> (z') * y -> (w')"),
    ("true : ls(x, y) * ls(y, nil)", "true : y -> (z')"),
    ("y != nil : tree(x) * tree(y)", "true : x -> (l', r')"),
    # another address, or another field
    ("true : x -> (y)", "true : y -> (z')"),
    ("true : list(x)", "true : list(y)"),
    ("true : x -> (y)", "true : x -> (z)"),
    # cells of another shape
    ("true : tree(x)", "true : list(x)"),
    ("x != nil : list(x)", "true : x -> (y', z')"),
    # the segment goes the other way
    ("x != y : ls(x, y)", "true : ls(y, x)"),
    # a list may lead round in a circle, so that it ends nowhere
    ("true : ls(x, y) * y -> (x)", "true : list(x)"),
    # one cell is asked for twice, or a second one that may not be there
    ("true : x -> (y)", "true : x -> (y) * x -> (y)"),
    ("x != nil : list(x)", "true : x -> (y') * y' -> (z')"),
    # the first cell of a doubly linked list has another one behind it
    ("x != z : dll(x, w, z, v)", "true : x -> (n', v)"),
    # a pure atom that need not hold
    ("true : x -> (y)", "x != y : x -> (y)"),
    ("true : list(x)", "x = nil"),
    # a nested list may be empty, and a pointer need not lead into the list
    ("x != nil : lists(x)", "true : x -> (n', h') * h' -> (a')"),
    ("y != nil : ls(x, nil)", "true : y -> (z')"),
]

# questions of which nothing is said
UNKNOWN = [
    # each heap of the antecedent has a part that is what is asked for, but no frame is found
    ("x != z : dll(x, w, z, v)", "true : v -> (z, p')"),
    ("true : als(x, y) * als(y, z)", "true : als(x, z)"),
    ("x != y : als(x, y) * y -> (z)", "true : als(x, z)"),
    ("true : als(x, y) * ls(y, z)", "true : als(x, z)"),
    ("true : ls(x, y) * ls(y, z)", "true : als(x, y)"),
    ("true : ls(x, y)", "true : als(x, y)"),
    # a cell is asked for at an address that nothing names: models are not looked for
    ("x != nil : list(x)", "true : y' -> (nil)"),
    ("x != nil : tree(x)", "true : l' -> (nil, nil)"),
    ("true : list(x)", "true : y' -> (z')"),
    ("true : emp", "true : y' -> (z')"),
]

# texts that are no question, with the first line of their answer
FAULTS = [
    ("cyclist problem 2;\ngoal true : x -> (y) |- true : x -> (y) * ?;\nend;\n", "unreadable syntax token 21 line 2 column 43"),
    ("cyclist problem 3;\ngoal true : x -> (y) |- x -> (y) * ?;\nend;\n", "unreadable syntax token 14 line 2 column 27"),
    ("cyclist problem 3;\ngoal true : x -> (y) |- true : list(x) * ?;\nend;\n", "ill-formed unknown token 15 line 2 column 32"),
    ("cyclist problem 3;\ngoal true : x -> (y) |- true : ? * x -> (y);\nend;\n", "unreadable syntax token 15 line 2 column 32"),
]


def atoms_of(text):
    """Returns the atoms of a comma or star separated text."""
    return [re.sub(r"\s+", "", it) for it in re.split(r",(?![^(]*\))|\*", text) if it.strip() not in ("", "true", "emp")]


def frame_of(text):
    """Returns the pure atoms and the spatial atoms of a frame."""
    pure, _, heap = text.rpartition(":")
    return sorted(atoms_of(pure)), atoms_of(heap)


def is_same(frame, wanted, asked):
    """Whether two frames are one up to the names of new variables."""
    names = [sorted({n for a in it[1] for n in re.findall(r"(\w+)'", a)} - asked) for it in (frame, wanted)]
    if frame[0] != wanted[0] or len(names[0]) != len(names[1]):
        return False
    for order in itertools.permutations(names[1]):
        change = dict(zip(names[0], order))
        renamed = [re.sub(r"(\w+)'", lambda m: change.get(m.group(1), m.group(1)) + "'", a) for a in frame[1]]
        if sorted(renamed) == sorted(wanted[1]):
            return True
    return False


def frames_in(goal, asked):
    """Returns the frames of a framed goal's disjuncts: what each has beside the atoms that were asked for."""
    pures, heaps = (frame_of(asked if ":" in asked else asked + " : emp"))
    for disjunct in re.split(r"\bor\b", goal.split("|-")[1]):
        pure, heap = frame_of(disjunct)
        yield sorted(pure[len(pures):] if pures == pure[:len(pures)] else set(pure) - set(pures)), heap[len(heaps):]


def answer(solver, text):
    """Returns the lines that `solve` writes."""
    start = time.monotonic()
    done = subprocess.run([solver], input=text.encode(), capture_output=True, check=False, timeout=60)
    return done.stdout.decode().splitlines(), time.monotonic() - start


def question(left, asked):
    """Returns the text of a question."""
    end = f"{asked} * ?" if ":" in asked and not asked.endswith("emp") else f"{asked.split(':')[0]} : ?"
    return f"cyclist problem 3;\n{DEFINITIONS}goal {left} |- {end};\nend;\n"


def proof_is_right(program, text):
    """Whether `check` accepts the proof at the end of an answer."""
    with tempfile.TemporaryFile() as file:
        file.write(text.encode())
        file.seek(0)
        return subprocess.run([program, "check"], stdin=file, capture_output=True, check=False).stdout.startswith(b"accepted")


def check_found(solver, program, left, asked, wanted):
    """Returns what is wrong with the answer to a question that has a frame, and how long it took."""
    lines, seconds = answer(solver, question(left, asked))
    if not lines or lines[0] != "holds":
        return f"answered {lines[:1]}", seconds
    text = "\n".join(it for it in lines[1:] if not it.startswith("#")) + "\n"
    problem, _, proof = text.partition("cyclist proof")
    goal = re.search(r"goal (.*?);\nend;", problem, re.S).group(1)
    names = set(re.findall(r"(\w+)'", asked))
    found = list(frames_in(goal, asked))
    if len(found) != len(wanted) or not all(is_same(f, frame_of(w), names) for f, w in zip(found, wanted)):
        return f"found {goal}", seconds
    again = answer(solver, problem)[0]
    if again[:1] != ["holds"] or not proof_is_right(program, "cyclist proof" + proof):
        return "the problem or the proof is not right", seconds
    return None, seconds


def models(program, text):
    """Returns what `model` answers."""
    return subprocess.run([program, "model"], input=text.encode(), capture_output=True, check=False).stdout.decode().strip()


def in_numbers(asked, names):
    """Returns a formula of a question as a model file has it."""
    formula = asked if ":" in asked else asked + " : emp"
    primed = list(dict.fromkeys(re.findall(r"(\w+)'", formula)))
    formula = re.sub(r"(\w+)'", lambda m: f"?{primed.index(m.group(1))}", formula)
    return re.sub(r"(?<![?\w])([a-z]\w*)(?!\w*\()", lambda m: f"${names.index(m.group(1))}" if m.group(1) in names else m.group(0), formula)


def check_fails(solver, program, left, asked):
    """Returns what is wrong with the answer to a question that has no frame, and how long it took."""
    lines, seconds = answer(solver, question(left, asked))
    if lines[:1] != ["fails"]:
        return f"answered {lines[:1]}; wanted fails", seconds
    names = [it.split(" = ")[0] for it in re.findall(r"\w+'? = \w+", " ".join(it for it in lines if it.startswith("#")))]
    text = "\n".join(it for it in lines if not it.startswith("#")).removeprefix("fails") + "\n"
    if models(program, text) != "holds":
        return "what is written is no model of the antecedent", seconds
    before, cells, _ = re.fullmatch(r"(.*\nheap)(.*?);(\nask .*)", text, re.S).groups()
    cells = re.findall(r"\d+ -> \([^)]*\)", cells)
    for count in range(len(cells) + 1):
        for part in itertools.combinations(cells, count):
            found = models(program, f"{before} {', '.join(part)};\nask {in_numbers(asked, names)};\nend;\n")
            if found != "fails":
                return f"a part satisfies what is asked for, or is not read: {part}: {found}", seconds
    return None, seconds


def main():
    """Goes through the tables."""
    solver, program = map(os.path.abspath, sys.argv[1:3])
    wrong, slowest = 0, 0.0
    for left, asked, wanted in FOUND:
        what, seconds = check_found(solver, program, left, asked, wanted)
        slowest = max(slowest, seconds)
        if what:
            print(f"{left} |- {asked} * ?: {what}; wanted {' or '.join(wanted)} ({seconds:.2f} s)")
            wrong += 1
    for left, asked in FAILS:
        what, seconds = check_fails(solver, program, left, asked)
        slowest = max(slowest, seconds)
        if what:
            print(f"{left} |- {asked} * ?: {what} ({seconds:.2f} s)")
            wrong += 1
    for left, asked in UNKNOWN:
        lines, seconds = answer(solver, question(left, asked))
        slowest = max(slowest, seconds)
        if lines[:1] != ["unknown"]:
            print(f"{left} |- {asked} * ?: answered {lines[:1]}; wanted unknown")
            wrong += 1
    for text, wanted in FAULTS:
        lines, _ = answer(solver, text)
        if lines[:1] != [wanted]:
            print(f"{text}: answered {lines[:1]}; wanted {wanted}")
            wrong += 1
    lines, _ = answer(solver, question("x = nil : x -> (y)", "true : list(x)"))
    if lines[:1] != ["holds antecedent unsatisfiable"]:
        print(f"an antecedent that nothing satisfies: answered {lines[:1]}")
        wrong += 1
    lines, _ = answer(solver, question("true : list(x)", "true : list(x)") + "# a comment in a line without an end")
    if "cyclist proof 3;" not in lines:
        print("a question that ends in a comment: no line begins the proof")
        wrong += 1
    count = len(FOUND) + len(FAILS) + len(UNKNOWN) + len(FAULTS) + 2
    print(f"frames: {count - wrong} of {count}, the slowest in {slowest:.2f} s")
    sys.exit(wrong > 0)


main()
