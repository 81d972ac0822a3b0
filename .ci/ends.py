#!/usr/bin/env python3
""".ci/ends.py SOLVER PROGRAM [NAME..]: asks the built `solve` of programs that say what they leave. Each row has the definitions that it uses, the
lines, the ends (the line of a `stop` with what holds there), the state before, and what is known of the claim by hand: it holds, and then a proof
is wanted that `check` accepts as one of correctness; or it fails, and then a run is wanted that `solve` runs again. UNKNOWN are claims that hold
and are not found yet; that one of them is found is no fault."""
import os
import re
import subprocess
import sys
import time

DEFINITIONS = {
    "list": "pred list(a) { a = nil : emp | true : a -> (b) * list(b) };",
    "ls": "pred ls(a, b) { a = b : emp | true : a -> (c) * ls(c, b) };",
    "als": "pred als(a, b) { a = b : emp | a != b : a -> (c) * als(c, b) };",
    "tree": "pred tree(a) { a = nil : emp | true : a -> (b, c) * tree(b) * tree(c) };",
    "trees": "pred trees(a) { a = nil : emp | true : a -> (b, c) * tree(b) * trees(c) };",
    "path": "pred path(a, d) { a = d : emp | true : a -> (b, c) * path(b, d) * tree(c) };",
    "dll": "pred dll(a, p) { a = nil : emp | true : a -> (n, p) * dll(n, a) };",
}

# name, definitions, lines, ends, the state before
HOLDS = [
    ("nothing is done", "ls", ["stop"], {1: "true : ls(x, y)"}, "true : ls(x, y)"),
    ("a list is given back", "list",
     ["if x = nil goto 6", "t := x.1", "free x", "x := t", "goto 1", "stop"],
     {6: "true : emp"}, "true : list(x)"),
    ("a list is turned round", "list",
     ["if x = nil goto 7", "t := x.1", "x.1 := y", "y := x", "x := t", "goto 1", "stop"],
     {7: "true : list(y)"}, "true : list(x) * list(y)"),
    ("a list is turned round from nothing", "list",
     ["y := nil", "if x = nil goto 8", "t := x.1", "x.1 := y", "y := x", "x := t", "goto 2", "stop"],
     {8: "true : list(y)"}, "true : list(x)"),
    ("a list is walked and kept", "list ls",
     ["if x = nil goto 4", "x := x.1", "goto 1", "stop"],
     {4: "true : list(h)"}, "x = h : list(h)"),
    ("a list is put behind another", "list ls",
     ["if h = nil goto 9", "x := h", "t := x.1", "if t = nil goto 7", "x := t", "goto 3", "x.1 := y", "goto 10", "h := y", "stop"],
     {10: "true : list(h)"}, "true : list(h) * list(y)"),
    ("a list is copied, the copy the other way round", "list ls",
     ["y := nil", "x := h", "if x = nil goto 9", "t := new 1", "t.1 := y", "y := t", "x := x.1", "goto 3", "stop"],
     {9: "true : list(h) * list(y)"}, "true : list(h)"),
    ("a cell is put in front", "list",
     ["t := new 1", "t.1 := x", "x := t", "stop"],
     {4: "x != nil : list(x)"}, "true : list(x)"),
    ("the first cell is taken out", "list",
     ["if x = nil goto 5", "t := x.1", "free x", "x := t", "stop"],
     {5: "true : list(x)"}, "true : list(x)"),
    ("cells are chosen, the others given back", "list",
     ["y := nil", "if x = nil goto 11", "t := x.1", "if * goto 7", "free x", "goto 9", "x.1 := y", "y := x", "x := t", "goto 2", "stop"],
     {11: "true : list(y)"}, "true : list(x)"),
    ("a list is split in two", "list",
     ["y := nil", "z := nil", "if x = nil goto 13", "t := x.1", "x.1 := y", "y := x", "x := t",
      "if x = nil goto 13", "t := x.1", "x.1 := z", "z := x", "goto 14", "stop", "x := t", "goto 3"],
     {13: "true : list(y) * list(z)"}, "true : list(x)"),
    ("two lists are merged", "list",
     ["z := nil", "if x = nil goto 8", "t := x.1", "x.1 := z", "z := x", "x := t", "goto 2",
      "if y = nil goto 14", "t := y.1", "y.1 := z", "z := y", "y := t", "goto 8", "stop"],
     {14: "true : list(z)"}, "true : list(x) * list(y)"),
    ("a doubly linked list is given back", "dll",
     ["if x = nil goto 6", "t := x.1", "free x", "x := t", "goto 1", "stop"],
     {6: "true : emp"}, "true : dll(x, p)"),
    ("a cell is put in front of a doubly linked list", "dll",
     ["t := new 2", "t.1 := x", "t.2 := nil", "if x = nil goto 6", "x.2 := t", "x := t", "stop"],
     {7: "true : dll(x, nil)"}, "true : dll(x, nil)"),
    ("a tree is given back by a stack of trees", "tree trees",
     ["s := new 2", "s.1 := x", "s.2 := nil", "if s = nil goto 17", "x := s.1", "t := s.2", "free s", "s := t", "if x = nil goto 4",
      "l := x.1", "r := x.2", "free x", "u := new 2", "u.1 := l", "u.2 := s", "goto 18", "stop",
      "s := new 2", "s.1 := r", "s.2 := u", "goto 4"],
     {17: "true : emp"}, "true : tree(x)"),
    ("a tree is walked down to the left and kept", "tree path",
     ["if x = nil goto 4", "x := x.1", "goto 1", "stop"],
     {4: "true : tree(h)"}, "x = h : tree(h)"),
    ("a tree is taken apart to the left, its right parts on a stack", "tree trees",
     ["if x = nil goto 9", "l := x.1", "r := x.2", "x.1 := r", "x.2 := s", "s := x", "x := l", "goto 1", "stop"],
     {9: "true : trees(s)"}, "true : tree(x) * trees(s)"),
    ("the parts of a tree are swapped", "tree",
     ["if x = nil goto 6", "l := x.1", "r := x.2", "x.1 := r", "x.2 := l", "stop"],
     {6: "true : tree(x)"}, "true : tree(x)"),
    ("a cell joins a queue", "ls",
     ["n := new 1", "n.1 := nil", "t.1 := n", "t := n", "stop"],
     {5: "true : ls(h, t) * t -> (nil)"}, "true : ls(h, t) * t -> (nil)"),
    ("a cell leaves a queue", "ls",
     ["n := h.1", "free h", "h := n", "stop"],
     {4: "true : ls(h, t) * t -> (nil)"}, "h != t : ls(h, t) * t -> (nil)"),
    ("a ring is turned", "ls",
     ["x := y", "y := y.1", "stop"],
     {3: "true : x -> (y) * ls(y, x)"}, "x != y : x -> (y) * ls(y, x)"),
    ("a ring is given back", "als",
     ["if y = x goto 6", "t := y.1", "free y", "y := t", "goto 1", "free x", "stop"],
     {7: "true : emp"}, "true : x -> (y) * als(y, x)"),
    ("the last cell is found", "list ls",
     ["x := h", "t := x.1", "if t = nil goto 6", "x := t", "goto 2", "stop"],
     {6: "true : ls(h, x) * x -> (nil)"}, "h != nil : list(h)"),
    ("two cells are swapped", "list",
     ["t := x.1", "u := y.1", "x.1 := u", "y.1 := t", "stop"],
     {5: "true : x -> (b) * y -> (a)"}, "true : x -> (a) * y -> (b)"),
]

FAILS = [
    ("every second cell leaks", "list",
     ["if x = nil goto 8", "t := x.1", "free x", "x := t", "if x = nil goto 8", "x := x.1", "goto 1", "stop"],
     {8: "true : emp"}, "true : list(x)"),
    ("nothing is given back", "list",
     ["if x = nil goto 4", "x := x.1", "goto 1", "stop"],
     {4: "true : emp"}, "true : list(x)"),
    ("a cell is lost", "list",
     ["if x = nil goto 3", "x := x.1", "stop"],
     {3: "true : list(x)"}, "true : list(x)"),
    ("the end names the wrong list", "list",
     ["y := nil", "if x = nil goto 8", "t := x.1", "x.1 := y", "y := x", "x := t", "goto 2", "stop"],
     {8: "true : list(x)"}, "true : list(x)"),
    ("a cell of the caller's is given back", "list",
     ["if x = nil goto 6", "t := x.1", "free x", "x := t", "goto 1", "free y", "stop"],
     {7: "true : y -> (nil)"}, "true : list(x) * y -> (nil)"),
    ("a cell is left", "", ["stop"], {1: "true : emp"}, "true : x -> (nil)"),
    ("the second list is lost", "list",
     ["if x = nil goto 3", "goto 3", "stop"],
     {3: "true : list(x)"}, "true : list(x) * list(y)"),
    ("those not chosen leak", "list",
     ["y := nil", "if x = nil goto 9", "t := x.1", "if * goto 7", "x := t", "goto 2", "x.1 := y", "goto 10", "stop", "y := x", "x := t", "goto 2"],
     {9: "true : list(y)"}, "true : list(x)"),
    ("the left parts of a tree leak", "tree",
     ["if x = nil goto 6", "t := x.2", "free x", "x := t", "goto 1", "stop"],
     {6: "true : emp"}, "true : tree(x)"),
    ("the queue has no last cell", "ls",
     ["n := new 1", "t.1 := n", "t := n", "stop"],
     {4: "true : ls(h, t) * t -> (nil)"}, "true : ls(h, t) * t -> (nil)"),
    ("the swap goes half the way", "",
     ["t := x.1", "u := y.1", "x.1 := u", "stop"],
     {4: "true : x -> (b) * y -> (a)"}, "true : x -> (a) * y -> (b)"),
    ("the list may be empty", "list",
     ["stop"], {1: "x != nil : list(x)"}, "true : list(x)"),
]

UNKNOWN = ["a tree is given back by a stack of trees"]


def problem(row):
    """Returns the text of a row."""
    _, used, lines, ends, before = row
    text = ["cyclist problem 3;"] + [DEFINITIONS[name] for name in used.split()]
    text += [f"line {number} : {line};" for number, line in enumerate(lines, 1)]
    text += [f"ends {number} : {end};" for number, end in ends.items()]
    return "\n".join(text + [f"goal from 1 given {before};", "end;", ""])


def run(words, text, seconds=60):
    """Returns the status, and what was written."""
    done = subprocess.run(words, input=text, capture_output=True, text=True, timeout=seconds)
    return done.returncode, done.stdout


def wrong_of(row, wanted, solver, program):
    """Returns what is wrong with the answer, if anything, and how long it took."""
    began = time.monotonic()
    try:
        status, answer = run([solver], problem(row))
    except subprocess.TimeoutExpired:
        return "no answer in a minute", 60.0
    took = time.monotonic() - began
    first, _, certificate = answer.partition("\n")
    if (status, first) != wanted:
        return f"status {status}, '{first}'; wanted status {wanted[0]}, '{wanted[1]}'", took
    if first == "holds":
        told = run([program, "check"], certificate)
        if told[0] != 0 or not told[1].startswith("accepted correctness nodes "):
            return f"the proof: status {told[0]}, '{told[1].strip()}'", took
    if first == "fails":
        told = run([solver], certificate)
        if told != (0, "holds\n"):
            return f"the run: status {told[0]}, '{told[1].strip()}'", took
    return None, took


def main():
    solver, program, *names = sys.argv[1:]
    failed = 0
    for rows, wanted in ((HOLDS, (0, "holds")), (FAILS, (1, "fails"))):
        for row in rows:
            if names and row[0] not in names:
                continue
            if row[0] in UNKNOWN:
                wrong = wrong_of(row, (6, "unknown"), solver, program)[0]
                if wrong and "'holds'" not in wrong:
                    print(f"ends: {row[0]}: {wrong}")
                    failed = 1
                continue
            wrong, took = wrong_of(row, wanted, solver, program)
            if names:
                print(f"{row[0]}: {wrong or 'as wanted'}, {took:.2f} s")
            if wrong:
                print(f"ends: {row[0]}: {wrong}")
                failed = 1
    return failed


if __name__ == "__main__":
    sys.exit(main())
