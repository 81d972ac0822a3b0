"""What `check` says of a node by a rule: a fault, or nothing, where its premises are the nodes after it. Premises and faults were
worked out by hand."""

# Lists, programs, and parts of judgements.
LIST = "pred list(1) { $0 = nil : emp | true : $0 -> (?0) * list(?0) };\n"
STOPS = "line 1 : stop;\nline 2 : stop;\nline 3 : stop;\nline 4 : stop;\n"
ONE_VARIABLE = "line 1 : free $0;\nline 2 : stop;\n"
TWO_VARIABLES = "line 1 : if $0 = $1 goto 4;\nline 2 : stop;\nline 3 : stop;\nline 4 : stop;\n"
COMMANDS = (
    "line 1 : $0 := $0;\n"
    "line 2 : $0 := $1.1;\n"
    "line 3 : $0 := $0.1;\n"
    "line 4 : $1.2 := nil;\n"
    "line 5 : $0 := new 2;\n"
    "line 6 : free $1;\n"
    "line 7 : if $0 = $1 goto 2;\n"
    "line 8 : if $0 != $1 goto 3;\n"
    "line 9 : goto 11;\n"
    "line 10 : $0 := nil;\n"
    "line 11 : stop;\n"
)
FREE_BRANCH = "line 12 : if * goto 2;\nline 13 : stop;\n"
CELL_AND_LIST = "$0 -> ($1) * list($1)"
LISTS = " * ".join(["list($0)"] * 16)
LATER_LISTS = " * ".join(["list($2)"] * 16)
FULL = ", ".join(["$1 = $1"] * 64)
STATE = "$0 = $2 : $1 -> ($0, $2) * list($0)"
LATER_STATE = "$3 = $2, $0 = $3 : $1 -> ($3, $2) * list($3)"
TWO_CELLS = "$0 -> ($1) * list($0) * $1 -> ($1)"

# A judgement, a rule, and its fault; `PremiseCount` says that the rule has none, and has premises.
RUNS = "from 1 given true : emp"
SEVERAL = "true : $0 -> ($1) |- true : emp or true : emp"
RIGHT_SIDE = "true : list($0) |- ?0 = ?0, $0 = $1 : list(?0) * list($1)"
MATCHING = [
    (RUNS, "Done", "WrongJudgement"),
    (RUNS, "Choose 2", "WrongJudgement"),
    (RUNS, "PureRight 0", "WrongJudgement"),
    (RUNS, "PureRight 2", "WrongJudgement"),
    (RUNS, "Instantiate ?0 $0", "WrongJudgement"),
    (RUNS, "Frame 0 0", "WrongJudgement"),
    (RUNS, "Frame 0 2", "WrongJudgement"),
    (SEVERAL, "Done", "NotSingle"),
    (SEVERAL, "Choose 2", "NoSuchAtom"),
    (SEVERAL, "PureRight 0", "NotSingle"),
    (SEVERAL, "PureRight 2", "NotSingle"),
    (SEVERAL, "Instantiate ?0 $0", "NotSingle"),
    (SEVERAL, "Frame 0 0", "NotSingle"),
    (SEVERAL, "Frame 1 0", "NotSingle"),
    (RIGHT_SIDE, "Done", "NotEmpty"),
    (RIGHT_SIDE, "Choose 2", "NoSuchAtom"),
    (RIGHT_SIDE, "PureRight 0", "HasExistential"),
    (RIGHT_SIDE, "PureRight 1", "NotFollowing"),
    (RIGHT_SIDE, "PureRight 2", "NoSuchAtom"),
    (RIGHT_SIDE, "Instantiate ?0 $0", "PremiseCount"),
    (RIGHT_SIDE, "Frame 0 0", "HasExistential"),
    (RIGHT_SIDE, "Frame 0 1", "AtomsDiffer"),
    (RIGHT_SIDE, "Frame 0 2", "NoSuchAtom"),
    (RIGHT_SIDE, "Frame 1 0", "NoSuchAtom"),
]

CELLS = "$0 != $1, nil = $0 : $0 -> ($1) * $1 -> ($0) * list($0) |- true : emp"
NO_ROOM = f"from 1 given {FULL} : $0 -> ($1)"
NORMAL = [
    (CELLS, "Absurd", "NotAbsurd"),
    (CELLS, "Rewrite 0 left", "NotEquation"),
    (CELLS, "Rewrite 1 left", "NotEquation"),
    (CELLS, "Rewrite 64 left", "NoSuchAtom"),
    (CELLS, "Distinct 0 0", "PremiseCount"),
    (CELLS, "Distinct 2 0", "NoCell"),
    (CELLS, "Weaken 2", "NoSuchAtom"),
    (CELLS, "Drop 1", "WrongJudgement"),
    (NO_ROOM, "Absurd", "NotAbsurd"),
    (NO_ROOM, "Rewrite 0 left", "PremiseCount"),
    (NO_ROOM, "Rewrite 63 left", "PremiseCount"),
    (NO_ROOM, "Rewrite 64 left", "NoSuchAtom"),
    (NO_ROOM, "Split $0 $65534", "TooManyAtoms"),
    (NO_ROOM, "Distinct 0 0", "TooManyAtoms"),
    (NO_ROOM, "Distinct 2 0", "NoSuchAtom"),
    (NO_ROOM, "Weaken 2", "PremiseCount"),
    (NO_ROOM, "Drop 1", "NoSuchAtom"),
]

RUNS_FAR = "from 1 given true : $0 -> ($1) * list($65534)"
SIXTEEN_LEFT = f"true : {LISTS} |- true : $0 -> ($1) * list(?65534)"
SIXTEEN_RIGHT = f"true : list($0) |- true : {LISTS}"
TWO_DISJUNCTS = "true : list($0) * list($1) |- true : emp or true : list($0)"
FORMULA = "true : list($0) * list(?0)"
UNFOLDING = [
    (RUNS_FAR, "Unfold 0", "NoSuchAtom"),
    (RUNS_FAR, "Unfold 1", "NoFreshVariable"),
    (RUNS_FAR, "Unfold 17", "NoSuchAtom"),
    (RUNS_FAR, "UnfoldRight 0 0", "WrongJudgement"),
    (RUNS_FAR, "UnfoldRight 1 1", "WrongJudgement"),
    (RUNS_FAR, "UnfoldRight 1 2", "WrongJudgement"),
    (RUNS_FAR, f"Cut [1 0] {FORMULA}", "NoSuchAtom"),
    (RUNS_FAR, f"Cut [0 1] {FORMULA}", "NoFreshVariable"),
    (RUNS_FAR, f"Cut [0 17] {FORMULA}", "NoSuchAtom"),
    (SIXTEEN_LEFT, "Unfold 0", "TooManyAtoms"),
    (SIXTEEN_LEFT, "Unfold 1", "TooManyAtoms"),
    (SIXTEEN_LEFT, "Unfold 17", "NoSuchAtom"),
    (SIXTEEN_LEFT, "UnfoldRight 0 0", "NoSuchAtom"),
    (SIXTEEN_LEFT, "UnfoldRight 1 1", "NoFreshVariable"),
    (SIXTEEN_LEFT, "UnfoldRight 1 2", "NoSuchCase"),
    (SIXTEEN_LEFT, f"Cut [1 0] {FORMULA}", "NoSuchAtom"),
    (SIXTEEN_LEFT, f"Cut [0 1] {FORMULA}", "PremiseCount"),
    (SIXTEEN_LEFT, f"Cut [0 17] {FORMULA}", "NoSuchAtom"),
    (SIXTEEN_LEFT, "Cut [] true : list($0)", "TooManyAtoms"),
    (SIXTEEN_RIGHT, "UnfoldRight 0 0", "PremiseCount"),
    (SIXTEEN_RIGHT, "UnfoldRight 0 1", "TooManyAtoms"),
    (TWO_DISJUNCTS, "Unfold 17", "NoSuchAtom"),
    (TWO_DISJUNCTS, "UnfoldRight 0 0", "NotSingle"),
    (TWO_DISJUNCTS, "UnfoldRight 1 2", "NotSingle"),
    (TWO_DISJUNCTS, f"Cut [1 0] {FORMULA}", "NoSuchAtom"),
]

EXECUTED = [
    ("true : emp |- true : emp", "Exec", "WrongJudgement"),
    # no cell; a field past the end; a longer cell after one that is too short; two equations
    (f"from 6 given {FULL} : list($1)", "Exec", "NoCell"),
    (f"from 4 given {FULL} : $1 -> ($0)", "Exec", "NoCell"),
    ("from 4 given $1 = $2 : $2 -> ($0) * $1 -> ($0, $0)", "Exec", "NoCell"),
    ("from 2 given $1 = $2, $3 = $2 : $3 -> ($0)", "Exec", "NoCell"),
    # no room
    (f"from 1 given {FULL} : emp", "Exec", "TooManyAtoms"),
    (f"from 7 given {FULL} : emp", "Exec", "TooManyAtoms"),
    (f"from 5 given $65534 = $0 : {LISTS}", "Exec", "TooManyAtoms"),
    # no number
    ("from 1 given $65534 = $1 : emp", "Exec", "NoFreshVariable"),
    ("from 5 given $65534 = $1 : emp", "Exec", "NoFreshVariable"),
    ("from 10 given $65534 = $0 : emp", "Exec", "NoFreshVariable"),
]

# A program, a judgement, a rule, and its premises.
WHOLE = "$0 = $0, $0 = $1 : list($0) |- true : list($0)"
EQUATIONS = "$0 = $1 : list($0) |- $0 != ?0, $1 = $0 : list($0)"
PREMISES = [
    ("", "$0 = $1 : emp |- true : emp", "Done", []),
    (
        "", f"true : {CELL_AND_LIST} |- true : emp or true : list($0)", "Choose 1",
        [f"true : {CELL_AND_LIST} |- true : list($0)"],
    ),
    ("", EQUATIONS, "PureRight 1", ["$0 = $1 : list($0) |- $0 != ?0 : list($0)"]),
    ("", EQUATIONS, "Instantiate ?0 $1", ["$0 = $1 : list($0) |- $0 != $1, $1 = $0 : list($0)"]),
    (
        "", f"true : list($1) * $0 -> ($1) * list($0) |- true : {CELL_AND_LIST}", "Frame 1 0",
        ["true : list($1) * list($0) |- true : list($1)"],
    ),
    (STOPS, "from 3 given $0 != $0 : emp", "Absurd", []),
    (STOPS, "from 3 given true : list($0) * nil -> ($0)", "Absurd", []),
    (STOPS, f"from 3 given true : {CELL_AND_LIST} * $0 -> ($0)", "Absurd", []),
    ("", WHOLE, "Rewrite 0 right", ["$0 = $1 : list($0) |- true : list($0)"]),
    ("", WHOLE, "Weaken 0", ["$0 = $1 : list($0) |- true : list($0)"]),
    ("", WHOLE, "Rewrite 1 left", ["$1 = $1 : list($1) |- true : list($1)"]),
    # the equation of a program variable stays
    (
        ONE_VARIABLE, "from 1 given $0 = $1, $0 != nil : list($0)", "Rewrite 0 left",
        ["from 1 given $0 = $1, $1 != nil : list($1)"],
    ),
    (
        ONE_VARIABLE, "from 1 given $0 = $1, $0 != nil : list($0)", "Rewrite 0 right",
        ["from 1 given $0 != nil : list($0)"],
    ),
    (TWO_VARIABLES, "from 1 given $0 = $1 : emp", "Rewrite 0 left", ["from 1 given $0 = $1 : emp"]),
    (TWO_VARIABLES, "$0 = $1 : emp |- true : emp", "Rewrite 0 left", ["true : emp |- true : emp"]),
    (
        STOPS, f"from 2 given true : {TWO_CELLS}", "Split $0 $1",
        [f"from 2 given $0 = $1 : {TWO_CELLS}", f"from 2 given $0 != $1 : {TWO_CELLS}"],
    ),
    (
        "", "true : emp |- $0 = $1 : emp or $0 != $1 : emp", "Split $0 $1",
        ["$0 = $1 : emp |- $0 = $1 : emp or $0 != $1 : emp", "$0 != $1 : emp |- $0 = $1 : emp or $0 != $1 : emp"],
    ),
    (STOPS, f"from 2 given true : {TWO_CELLS}", "Distinct 0 2", [f"from 2 given $0 != $1 : {TWO_CELLS}"]),
    (STOPS, f"from 2 given true : {TWO_CELLS}", "Distinct 2 2", [f"from 2 given $1 != nil : {TWO_CELLS}"]),
    (STOPS, f"from 2 given true : {TWO_CELLS}", "Drop 0", ["from 2 given true : list($0) * $1 -> ($1)"]),
    (
        "", "true : $1 -> ($0) * list($0) * list($1) |- true : list($5)", "Unfold 1",
        [
            "$0 = nil : $1 -> ($0) * list($1) |- true : list($5)",
            "true : $1 -> ($0) * list($1) * $0 -> ($6) * list($6) |- true : list($5)",
        ],
    ),
    (
        "", "true : list($0) |- true : list($0) * list(?2)", "UnfoldRight 0 1",
        ["true : list($0) |- true : list(?2) * $0 -> (?3) * list(?3)"],
    ),
    (
        TWO_VARIABLES, "from 4 given $0 != nil : list($1) * $0 -> ($1) * list($0)",
        "Cut [0 1] ?0 != $0 : list($7) * list(?0)",
        [
            "$0 != nil : list($1) * $0 -> ($1) |- ?0 != $0 : list($7) * list(?0)",
            "from 4 given $0 != nil, $8 != $0 : list($0) * list($7) * list($8)",
        ],
    ),
    (COMMANDS, f"from 1 given {STATE}", "Exec", [f"from 2 given {LATER_STATE}"]),
    (COMMANDS, f"from 2 given {STATE}", "Exec", [f"from 3 given {LATER_STATE}"]),
    (
        COMMANDS, f"from 3 given $0 != nil : {CELL_AND_LIST}", "Exec",
        ["from 4 given $2 != nil, $0 = $1 : $2 -> ($1) * list($1)"],
    ),
    # the cell's address is equal to the one that is named
    (
        COMMANDS, "from 4 given $0 = $1 : list($1) * $0 -> ($1, $1) * $1 -> ($2)", "Exec",
        ["from 5 given $0 = $1 : list($1) * $0 -> ($1, nil) * $1 -> ($2)"],
    ),
    (
        COMMANDS, f"from 5 given {STATE}", "Exec",
        ["from 6 given $3 = $2 : $1 -> ($3, $2) * list($3) * $0 -> ($4, $5)"],
    ),
    # nothing stands in the state
    (COMMANDS, "from 5 given true : emp", "Exec", ["from 6 given true : $0 -> ($3, $4)"]),
    (COMMANDS, f"from 6 given {STATE}", "Exec", ["from 7 given $0 = $2 : list($0)"]),
    (
        COMMANDS, "from 7 given true : $1 -> ($0, $2) * list($0)", "Exec",
        [
            "from 2 given $0 = $1 : $1 -> ($0, $2) * list($0)",
            "from 8 given $0 != $1 : $1 -> ($0, $2) * list($0)",
        ],
    ),
    (
        COMMANDS, "from 8 given true : $1 -> ($0, $2) * list($0)", "Exec",
        [
            "from 3 given $0 != $1 : $1 -> ($0, $2) * list($0)",
            "from 9 given $0 = $1 : $1 -> ($0, $2) * list($0)",
        ],
    ),
    (COMMANDS, f"from 9 given {STATE}", "Exec", [f"from 11 given {STATE}"]),
    # the variable after the last one stands nowhere
    (COMMANDS, "from 10 given $65534 = $1 : emp", "Exec", ["from 11 given $65534 = $1, $0 = nil : emp"]),
    (COMMANDS, f"from 11 given {STATE}", "Exec", []),
]

# The same in version 2, which has a free branch and more atoms.
IN_VERSION_2 = [
    (COMMANDS + FREE_BRANCH, f"from 12 given {STATE}", "Exec", [f"from 2 given {STATE}", f"from 13 given {STATE}"]),
    (COMMANDS, f"from 5 given true : {LISTS}", "Exec", [f"from 6 given true : {LATER_LISTS} * $0 -> ($3, $4)"]),
    (COMMANDS, f"from 9 given true : {LISTS} * list($1)", "Exec", [f"from 11 given true : {LISTS} * list($1)"]),
]

# A judgement, a rule, and how many premises it has: each rule once, where it can be followed and where it cannot.
ENTAILS = "$0 = $1 : $0 -> ($1) * list($1) |- $1 = $0 : list($1) * list(?0)"
CLAIM = f"from 1 given true : {CELL_AND_LIST}"
COUNTED = [
    (ENTAILS, "Rewrite 0 left", 1),
    (ENTAILS, "Split $0 $1", 2),
    (ENTAILS, "Distinct 0 0", 1),
    (ENTAILS, "Weaken 0", 1),
    (ENTAILS, "Unfold 1", 2),
    (ENTAILS, "Cut [] true : list(?0)", 2),
    (ENTAILS, "Choose 0", 1),
    (ENTAILS, "PureRight 0", 1),
    (ENTAILS, "Instantiate ?0 $0", 1),
    (ENTAILS, "Frame 1 0", 1),
    (ENTAILS, "UnfoldRight 1 1", 1),
    (CLAIM, "Drop 1", 1),
    (CLAIM, "Exec", 2),
    (CLAIM, "Unfold 1", 2),
]
IMPOSSIBLE = [
    (ENTAILS, "Absurd", "NotAbsurd"),
    (ENTAILS, "Done", "NotEmpty"),
    (ENTAILS, "Exec", "WrongJudgement"),
    (ENTAILS, "Drop 0", "WrongJudgement"),
    (CLAIM, "Done", "WrongJudgement"),
]


# A bud, its companion, a link, and its fault, or nothing; `$0` is a variable of the program.
MIXED_BUD = (
    "$2 != $3, $3 = $4 : p($2) * $4 -> (nil) |- $3 = $2 : p($2) or true : p($2) * p($2) or $2 = nil : p($2) or nil = nil : p($2)"
)
MIXED = "$0 != $1 : p($0) * $1 -> (nil) |- $0 = $1 : p($0)"
TWICE = "true : p($0) * p($0) |- true : emp"
ONCE = "true : p($0) |- true : emp"
FROM_1 = "from 1 given true : p($0)"
FROM_2 = "from 2 given true : p($0)"
LINKS = [
    # pure and spatial atoms
    (MIXED_BUD, MIXED, "{ $0 := $2, $1 := $3 } [0 1] [0]", None),
    (MIXED_BUD, MIXED, "{ $0 := $2, $1 := $3, $1 := nil } [0 1] [0]", None),
    (MIXED_BUD, MIXED, "{ $0 := $2, $1 := nil, $1 := $3 } [0 1] [0]", "LinkPure 0"),
    (MIXED_BUD, MIXED, "{ $0 := $2, $1 := $2 } [0 1] [0]", "LinkPure 0"),
    (MIXED_BUD, MIXED, "{ $0 := $2, $1 := $3 } [] [0]", "LinkSpatial 0"),
    (MIXED_BUD, MIXED, "{ $0 := $2, $1 := $3 } [0] [0]", "LinkSpatial 1"),
    (MIXED_BUD, MIXED, "{ $0 := $2, $1 := $3 } [0 2] [0]", "LinkSpatial 1"),
    (MIXED_BUD, MIXED, "{ $0 := $2, $1 := $3 } [1 0] [0]", "LinkSpatial 0"),
    (MIXED_BUD, MIXED, "{ $0 := $2, $1 := $3 } [0 1 1] [0]", "LinkSpatial 2"),
    # disjuncts
    (MIXED_BUD, MIXED, "{ $0 := $2, $1 := $3 } [0 1] [3]", None),
    (MIXED_BUD, MIXED, "{ $0 := $2, $1 := $3 } [0 1] []", "LinkDisjunct 0"),
    (MIXED_BUD, MIXED, "{ $0 := $2, $1 := $3 } [0 1] [4]", "LinkDisjunct 0"),
    (MIXED_BUD, MIXED, "{ $0 := $2, $1 := $3 } [0 1] [1]", "LinkDisjunct 0"),
    (MIXED_BUD, MIXED, "{ $0 := $2, $1 := $3 } [0 1] [2]", "LinkDisjunct 0"),
    (MIXED_BUD, MIXED, "{ $0 := $2, $1 := $3 } [0 1] [0 0]", "LinkDisjunct 1"),
    # an atom that is left
    (TWICE, TWICE, "{ $0 := $0 } [0 0] [0]", "LinkSpatial 1"),
    (TWICE, ONCE, "{ $0 := $0 } [0] [0]", "LinkSpatial 1"),
    # claims of termination
    (ONCE, FROM_1, "{ $0 := $0 } [0] []", "WrongJudgement"),
    (FROM_1, ONCE, "{ $0 := $0 } [0] [0]", "WrongJudgement"),
    (FROM_1, FROM_2, "{ $0 := $0 } [0] []", "LineDiffers"),
    (FROM_1, FROM_1, "{ $0 := nil } [0] []", "LinkProgramVariable"),
    (FROM_1, FROM_1, "{ $0 := $0 } [0] [0]", "LinkDisjunct 0"),
    (FROM_1, FROM_1, "{ $0 := $0 } [0] []", None),
]

def text(version, definition, program, nodes):
    """Returns a proof file with the definition, the program, and nodes with their reasons."""
    lines = "".join(f"node {judgement} by {reason};\n" for judgement, reason in nodes)
    return f"cyclist proof {version};\n{definition}{program}{lines}end;\n".encode()


def with_numbers(rule, count):
    """Returns the rule with the numbers of so many premises, the nodes from 1 on."""
    return " ".join([rule, *["to"] * (count > 0), *[str(i + 1) for i in range(count)]])


def at_premises(version, program, judgement, rule, premises):
    """A node whose premises are the nodes after it. They are linked to a node that is not there, so that the first of them is told, and
    only where the node before them is right."""
    after = [(it, "Link 99 { } [] []") for it in premises]
    answer = b"refused node 1 NoSuchNode"
    if not premises:
        kind = "termination" if judgement.startswith("from") else "entailment"
        answer = f"accepted {kind} nodes 1 links 0".encode()
    nodes = [(judgement, with_numbers(rule, len(premises))), *after]
    return text(version, LIST, program, nodes), int(bool(premises)), answer


def at_fault(program, judgement, rule, fault):
    """A node without numbers of premises."""
    return text(1, LIST, program, [(judgement, rule)]), 1, f"refused node 0 {fault}".encode()


def at_count(judgement, rule, count):
    """A node with so many numbers of premises, of which the first is another judgement; one number more is one too many."""
    other = [("true : nil -> (nil, nil) |- true : emp", "Done")] * (count + 1)
    yield text(1, LIST, TWO_VARIABLES, [(judgement, with_numbers(rule, count)), *other]), 1, b"refused node 0 PremiseDiffers 0"
    yield text(1, LIST, TWO_VARIABLES, [(judgement, with_numbers(rule, count + 1)), *other]), 1, b"refused node 0 PremiseCount"


def at_link(bud, companion, link, fault):
    """A link to the node after it, which is linked to none."""
    definition = "pred p(1) { true : emp };\n"
    nodes = [(bud, f"Link 1 {link}"), (companion, "Link 99 { } [] []")]
    answer = f"refused node 0 {fault}" if fault else "refused node 1 NoSuchNode"
    return text(1, definition, ONE_VARIABLE, nodes), 1, answer.encode()


ROWS = [at_fault(TWO_VARIABLES, *row) for row in MATCHING + NORMAL + UNFOLDING + IMPOSSIBLE]
ROWS += [at_fault(COMMANDS, *row) for row in EXECUTED]
ROWS += [at_premises(1, *row) for row in PREMISES] + [at_premises(2, *row) for row in IN_VERSION_2]
ROWS += [row for counted in COUNTED for row in at_count(*counted)]
ROWS += [at_link(*row) for row in LINKS]
