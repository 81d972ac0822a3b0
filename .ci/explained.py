#!/usr/bin/env python3
""".ci/explained.py SOLVER: runs the built `solve` on mistakes that are often made, and compares the lines that explain them, and those
that note a slip in a name. Ends with 1 where other lines are written."""
import subprocess
import sys

# Texts that are no problems, by what they lack or have too much: the text, and the lines behind that of its fault.
UNREADABLE = [
    # Nothing at all.
    (
        b'',
        b'the text ends here; "cyclist" was expected\n',
    ),
    # A semicolon.
    (
        b'cyclist problem 1;\n'
        b'pred ls(a, b) { a = b : emp | true : a -> (c) * ls(c, b) }\n'
        b'goal true : ls(x, y) |- true : ls(x, y);\n'
        b'end;\n',
        b'  goal true : ls(x, y) |- true : ls(x, y);\n'
        b'  ^\n'
        b'"goal" was found; ";" was expected behind "}" in line 2\n',
    ),
    # The last statement.
    (
        b'cyclist problem 1;\n'
        b'goal true : emp |- true : emp;\n',
        b'  goal true : emp |- true : emp;\n'
        b'                                ^\n'
        b'the text ends here; "end" was expected behind ";" in line 2\n',
    ),
    # A version that there is not.
    (
        b'cyclist problem 4;',
        b'  cyclist problem 4;\n'
        b'                  ^\n'
        b'"4" was found; "1", "2" or "3" was expected\n',
    ),
    # A reserved word as a name.
    (
        b'cyclist problem 1;\n'
        b'pred node(a) { true : emp };\n',
        b'  pred node(a) { true : emp };\n'
        b'       ^\n'
        b'"node" is a reserved word; a name was expected\n',
    ),
    # A prime in a definition.
    (
        b'cyclist problem 1;\n'
        b"pred ls(a, b) { a = b : emp | true : a -> (c') * ls(c', b) };\n",
        b"  pred ls(a, b) { a = b : emp | true : a -> (c') * ls(c', b) };\n"
        b'                                              ^\n'
        b'"\'" was found; "," or ")" was expected; a name in a definition has no prime: one that is no parameter is a local\n',
    ),
    # The parentheses of a cell.
    (
        b'cyclist problem 1;\n'
        b'goal true : x -> y |- true : emp;\n',
        b'  goal true : x -> y |- true : emp;\n'
        b'                   ^\n'
        b'"y" was found; "(" was expected; the fields of a cell stand in parentheses, as in x -> (y)\n',
    ),
    # The pure atoms.
    (
        b'cyclist problem 1;\n'
        b'goal ls(x, y) |- true : emp;\n',
        b'  goal ls(x, y) |- true : emp;\n'
        b'         ^\n'
        b'"(" was found; "=", "!=" or "\'" was expected; pure atoms or "true" and then ":" stand before the spatial atoms, as in true : ls(x, y)\n',
    ),
    # The arrow of other notations.
    (
        b'goal true : x |-> y',
        b'  goal true : x |-> y\n'
        b'                  ^\n'
        b'">" begins no token; a cell is written with "->", as in x -> (y)\n',
    ),
    # The conjunction of other notations.
    (
        b'x = y & y = z',
        b'  x = y & y = z\n'
        b'        ^\n'
        b'"&" begins no token; pure atoms are parted by ",", spatial atoms by "*"\n',
    ),
    # Latin-1.
    (
        b'# caf\xe9\n',
        b'  # caf?\n'
        b'       ^\n'
        b'the byte 0xe9 begins no character; the text has to be UTF-8\n',
    ),
    # A statement behind the last one.
    (
        b'cyclist problem 1;\n'
        b'goal true : emp |- true : emp;\n'
        b'end;\n'
        b'end;\n',
        b'  end;\n'
        b'  ^\n'
        b'"end" was found; the end of the text was expected behind ";" in line 3\n',
    ),
    # A free branch in a version that has none.
    (
        b'cyclist problem 1;\n'
        b'line 1 : if * goto 1;\n',
        b'  line 1 : if * goto 1;\n'
        b'              ^\n'
        b'"*" was found; a name or "nil" was expected; version 1 has no "if *"\n',
    ),
    # The pure atoms of an end.
    (
        b'cyclist problem 3;\n'
        b'line 1 : stop;\n'
        b'ends 1 : ls(x, y);\n',
        b'  ends 1 : ls(x, y);\n'
        b'             ^\n'
        b'"(" was found; "=", "!=" or "\'" was expected; pure atoms or "true" and then ":" stand before the spatial atoms, as in true : ls(x, y)\n',
    ),
    # An end in a version that has none.
    (
        b'cyclist problem 2;\n'
        b'line 1 : stop;\n'
        b'ends 1 : true : emp;\n',
        b'  ends 1 : true : emp;\n'
        b'  ^\n'
        b'"ends" was found; "line" or "goal" was expected behind ";" in line 2; only version 3 has ends of programs\n',
    ),
]

# Texts that use a name, a number or a line wrongly, or pass a limit.
ILL_FORMED = [
    (
        b'cyclist problem 1;\n'
        b'pred ls(a, b) { a = b : emp | true : a -> (c) * ls(c, b) };\n'
        b'goal true : ls(x, y, z) |- true : emp;\n'
        b'end;\n',
        b'  goal true : ls(x, y, z) |- true : emp;\n'
        b'              ^\n'
        b'"ls" takes 2 arguments, 3 are given\n',
    ),
    (
        b'cyclist problem 1;\n'
        b'pred ls(a, b) { a = b : emp | true : a -> (c) * ls(c, b) };\n'
        b'goal true : lst(x, y) |- true : emp;\n'
        b'end;\n',
        b'  goal true : lst(x, y) |- true : emp;\n'
        b'              ^\n'
        b'no definition has the name "lst"; "ls" is defined\n',
    ),
    (
        b'cyclist problem 1;\n'
        b'pred ls(a, b) { a = b : emp };\n'
        b'pred list(a) { a = nil : emp };\n'
        b'goal true : tree(x) |- true : emp;\n'
        b'end;\n',
        b'  goal true : tree(x) |- true : emp;\n'
        b'              ^\n'
        b'no definition has the name "tree"; "ls" and "list" are defined\n',
    ),
    (
        b'cyclist problem 1;\n'
        b'pred ls(a, a) { true : emp };\n'
        b'goal true : emp |- true : emp;\n'
        b'end;\n',
        b'  pred ls(a, a) { true : emp };\n'
        b'             ^\n'
        b'"a" is a parameter of this definition already\n',
    ),
    (
        b'cyclist problem 1;\n'
        b'pred p() { true : emp };\n'
        b'pred p() { true : emp };\n'
        b'goal true : emp |- true : emp;\n'
        b'end;\n',
        b'  pred p() { true : emp };\n'
        b'       ^\n'
        b'"p" is defined in line 2 already\n',
    ),
    (
        b'cyclist problem 1;\n'
        b'line 1 : goto 3;\n'
        b'line 2 : stop;\n'
        b'goal from 1 given true : emp;\n'
        b'end;\n',
        b'  line 1 : goto 3;\n'
        b'                ^\n'
        b'the program has lines 1 to 2\n',
    ),
    (
        b'cyclist problem 1;\n'
        b'line 1 : goto 1;\n'
        b'line 3 : stop;\n'
        b'goal from 1 given true : emp;\n'
        b'end;\n',
        b'  line 3 : stop;\n'
        b'       ^\n'
        b'line 2 was expected\n',
    ),
    (
        b'cyclist problem 1;\n'
        b'line 1 : x := nil;\n'
        b'goal from 1 given true : emp;\n'
        b'end;\n',
        b'  line 1 : x := nil;\n'
        b'  ^\n'
        b'the last line has to be "stop" or "goto"\n',
    ),
    (
        b'cyclist problem 3;\n'
        b'line 1 : goto 2;\n'
        b'line 2 : stop;\n'
        b'ends 1 : true : emp;\n'
        b'goal from 1 given true : emp;\n'
        b'end;\n',
        b'  ends 1 : true : emp;\n'
        b'       ^\n'
        b'an end has the number of a line with "stop"\n',
    ),
    (
        b'cyclist problem 3;\n'
        b'line 1 : stop;\n'
        b'line 2 : stop;\n'
        b'ends 2 : true : emp;\n'
        b'ends 1 : true : emp;\n'
        b'goal from 1 given true : emp;\n'
        b'end;\n',
        b'  ends 1 : true : emp;\n'
        b'       ^\n'
        b'ends stand in the order of their lines, one at each\n',
    ),
    (
        b'cyclist problem 1;\n'
        b'line 1 : x := new 9;\n'
        b'line 2 : stop;\n'
        b'goal from 1 given true : emp;\n'
        b'end;\n',
        b'  line 1 : x := new 9;\n'
        b'                    ^\n'
        b'a cell has 1 to 8 fields, the first with number 1\n',
    ),
]

# A goal with slips in its names, and the notes on them, which stand among those before the certificate.
SLIPS = (
    b'cyclist problem 1;\n'
    b'pred ls(a, b) { a = b : emp | true : a -> (c) * ls(c, b) };\n'
    b'goal true : ls(xs1, xs2) * ls(xs2, Y) * ls(ls, y) |- true : ls(xs2, y);\n'
    b'end;\n'
)
NOTES = (
    b'# "xs1" occurs once in the goal; "xs2" is meant?\n'
    b'# "Y" occurs once in the goal; "y" is meant?\n'
    b'# "ls" occurs once as a variable of the goal; it is the name of a predicate\n'
)

faults = []


def told(text):
    """Returns the lines behind the first that are written for a text."""
    return subprocess.run([sys.argv[1]], input=text, capture_output=True, timeout=100, check=False).stdout.partition(b"\n")[2]


for text, wanted in UNREADABLE + ILL_FORMED:
    found = told(text)
    if found != wanted:
        faults.append(f"{text!r}: {found!r}, not {wanted!r}")
found = told(SLIPS)
faults += [f"{SLIPS!r}: no line {line!r}" for line in NOTES.splitlines(keepends=True) if line not in found.splitlines(keepends=True)]
for fault in faults:
    print("explained:", fault)
if not faults:
    print(f"explained: {len(UNREADABLE) + len(ILL_FORMED)} mistakes and {len(NOTES.splitlines())} slips are told as they should be")
sys.exit(1 if faults else 0)
