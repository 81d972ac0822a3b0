"""Texts of programs that say what they leave: proofs that are right, and proofs that forget something. Answers, tokens and proofs were worked
out by hand."""
from parts import at_token

DONE = "node true : emp |- true : emp by Done;\n"


def proof(text, version=3):
    return f"cyclist proof {version};\n{text}end;\n".encode()


def problem(text, version=3):
    return f"cyclist problem {version};\n{text}end;\n".encode()


# One line, and what it leaves; the end begins at token 9, after the header and `line 1 : stop;`.
STOP = "line 1 : stop;\n"
NOTHING = STOP + "ends 1 : true : emp;\n"
STARTS = "node from 1 given true : emp by Exec to 1;\n"
CELL = "node from 1 given true : $0 -> (nil)"

# A loop that turns until its free branch leaves it, and a list for it.
LIST = "pred list(1) { $0 = nil : emp | true : $0 -> (?0) * list(?0) };\n"
TURNS = "line 1 : if * goto 3;\nline 2 : goto 1;\nline 3 : stop;\n"

# A list is given back: one cell at each turn, whose tail the trace follows.
DISPOSAL = (
    "line 1 : if $0 = nil goto 6;\n"
    "line 2 : $1 := $0.1;\n"
    "line 3 : free $0;\n"
    "line 4 : $0 := $1;\n"
    "line 5 : goto 1;\n"
    "line 6 : stop;\n"
)

CHECKED = [
    # the end holds; and with more than one disjunct
    (proof(NOTHING + STARTS + DONE), 0, b"accepted correctness nodes 2 links 0"),
    (
        proof(
            STOP + "ends 1 : true : emp or $0 = nil : $0 -> (?0);\n" + STARTS
            + "node true : emp |- true : emp or $0 = nil : $0 -> (?0) by Choose 0 to 2;\n" + DONE
        ),
        0, b"accepted correctness nodes 3 links 0",
    ),
    # a claim of another kind in a file whose program has an end
    (proof(NOTHING + DONE), 0, b"accepted entailment nodes 1 links 0"),
    # without an end nothing is left to show, with one its entailment
    (proof(STOP + "node from 1 given true : emp by Exec;\n"), 0, b"accepted termination nodes 1 links 0"),
    (proof(NOTHING + "node from 1 given true : emp by Exec;\n"), 1, b"refused node 0 PremiseCount"),
    (proof(STOP + STARTS + DONE), 1, b"refused node 0 PremiseCount"),
    (
        proof(NOTHING + STARTS + "node true : emp |- true : emp or true : emp by Choose 0 to 2;\n" + DONE),
        1, b"refused node 0 PremiseDiffers 0",
    ),
    (
        proof(STOP + "ends 1 : true : $0 -> (nil);\n" + STARTS + DONE),
        1, b"refused node 0 PremiseDiffers 0",
    ),
    # a leak: the cell is not in the end, and may not be dropped before it
    (proof(NOTHING + CELL + " by Exec to 1;\nnode true : $0 -> (nil) |- true : emp by Done;\n"), 1, b"refused node 1 NotEmpty"),
    (proof(NOTHING + CELL + " by Drop 0 to 1;\nnode from 1 given true : emp by Exec to 2;\n" + DONE), 1, b"refused node 0 WrongJudgement"),
    (proof(STOP + CELL + " by Drop 0 to 1;\nnode from 1 given true : emp by Exec;\n"), 0, b"accepted termination nodes 2 links 0"),
    # a link that leaves a list over, which the end would miss; where the program has no end it may
    (
        proof(
            LIST + TURNS + "ends 3 : true : emp;\n"
            "node from 3 given true : emp by Exec to 1;\n" + DONE
            + "node from 1 given true : list($0) * list($1) by Link 3 { $0 := $0 } [0] [];\n"
            "node from 1 given true : list($0) by Link 3 { $0 := $0 } [0] [];\n"
        ),
        1, b"refused node 2 LinkSpatial 1",
    ),
    (
        proof(
            LIST + TURNS + "node from 3 given true : emp by Exec;\n"
            "node from 1 given true : list($0) * list($1) by Link 2 { $0 := $0 } [0] [];\n"
            "node from 1 given true : list($0) by Link 2 { $0 := $0 } [0] [];\n"
        ),
        0, b"accepted termination nodes 3 links 2",
    ),
    # a list is given back, and nothing is left
    (
        proof(
            LIST + DISPOSAL + "ends 6 : true : emp;\n"
            "node from 1 given true : list($0) by Exec to 1 2;\n"
            "node from 6 given $0 = nil : list($0) by Exec to 11;\n"
            "node from 2 given $0 != nil : list($0) by Unfold 0 to 3 5;\n"
            "node from 2 given $0 != nil, $0 = nil : emp by Rewrite 1 left to 4;\n"
            "node from 2 given nil != nil, $0 = nil : emp by Absurd;\n"
            "node from 2 given $0 != nil : $0 -> ($2) * list($2) by Exec to 6;\n"
            "node from 3 given $0 != nil, $1 = $2 : $0 -> ($2) * list($2) by Rewrite 1 right to 7;\n"
            "node from 3 given $0 != nil : $0 -> ($1) * list($1) by Exec to 8;\n"
            "node from 4 given $0 != nil : list($1) by Exec to 9;\n"
            "node from 5 given $2 != nil, $0 = $1 : list($1) by Exec to 10;\n"
            "node from 1 given $2 != nil, $0 = $1 : list($1) by Link 0 { $0 := $0 } [0] [];\n"
            "node $0 = nil : list($0) |- true : emp by Unfold 0 to 12 13;\n"
            "node $0 = nil, $0 = nil : emp |- true : emp by Done;\n"
            "node $0 = nil : $0 -> ($1) * list($1) |- true : emp by Rewrite 0 left to 14;\n"
            "node true : nil -> ($1) * list($1) |- true : emp by Absurd;\n"
        ),
        0, b"accepted correctness nodes 15 links 1",
    ),
]

FLAWS = [
    # no such line, a line that is no `stop`, an order that is not that of the lines
    at_token(proof(STOP + "ends 2 : true : emp;\n" + DONE), 4, "ill-formed no-line", 10),
    at_token(proof(STOP + "ends 0 : true : emp;\n" + DONE), 4, "ill-formed no-line", 10),
    at_token(proof("line 1 : goto 1;\nends 1 : true : emp;\n" + DONE), 4, "ill-formed no-line", 11),
    at_token(proof("ends 1 : true : emp;\n" + DONE), 4, "ill-formed no-line", 5),
    at_token(proof(NOTHING + "ends 1 : true : emp;\n" + DONE), 4, "ill-formed numbering", 17),
    at_token(proof(STOP + "line 2 : stop;\nends 2 : true : emp;\nends 1 : true : emp;\n" + DONE), 4, "ill-formed numbering", 22),
    # uses in an end
    at_token(proof(STOP + "ends 1 : true : p();\n" + DONE), 4, "ill-formed unknown", 14),
    at_token(proof(LIST + STOP + "ends 1 : true : list(nil, nil);\n" + DONE), 4, "ill-formed arity", 4 + 30 + 5 + 5),
    # limits of an end
    at_token(proof(STOP + "ends 1 : $64 = nil : emp;\n" + DONE), 5, "limit program-variables", 13),
    (proof(STOP + "ends 1 : $63 = ?65534 : emp;\n" + DONE), 0, b"accepted entailment nodes 1 links 0"),
    at_token(proof(STOP + "ends 1 : ?65535 = nil : emp;\n" + DONE), 5, "limit variable", 13),
    at_token(proof(STOP + "ends 1 : " + " or ".join(["true : emp"] * 17) + ";\n" + DONE), 5, "limit disjuncts", 12 + 4 * 16),
    (proof(STOP + "ends 1 : " + " or ".join(["true : emp"] * 16) + ";\n" + DONE), 0, b"accepted entailment nodes 1 links 0"),
    at_token(proof(STOP + "ends 1 : true : " + " * ".join(["nil -> (nil)"] * 65) + ";\n" + DONE), 5, "limit spatial", 14 + 6 * 64),
    # no end in versions 1 and 2, none without a heap, none before the lines
    at_token(proof(NOTHING + DONE, 1), 3, "unreadable syntax", 9),
    at_token(proof(NOTHING + DONE, 2), 3, "unreadable syntax", 9),
    at_token(proof(STOP + "ends 1 : ;\n" + DONE), 3, "unreadable syntax", 12),
    at_token(proof(STOP + "ends 1 : true : emp | true : emp;\n" + DONE), 3, "unreadable syntax", 15),
    at_token(proof("ends 1 : true : emp;\n" + STOP + DONE), 3, "unreadable syntax", 11),
]

# An end is written as it was read.
UPGRADED = [(proof(NOTHING + STARTS + DONE), 0, proof(NOTHING + STARTS + DONE))]

# A name in an end is the program's, and one with a prime some value.
PROVED = [
    (problem(NOTHING + "goal from 1 given true : emp;\n"), 0, proof(NOTHING + STARTS + DONE)),
    (
        problem("line 1 : free x;\nline 2 : stop;\nends 2 : x = y' : emp;\ngoal from 1 given true : x -> (z);\n"), 6,
        b"not found depth 2",
    ),
    at_token(problem(STOP + "ends 2 : true : emp;\ngoal from 1 given true : emp;\n"), 4, "ill-formed no-line", 10),
    at_token(problem(NOTHING + "goal from 1 given true : emp;\n", 2), 3, "unreadable syntax", 9),
]


def rows():
    """Yields the words, the input, the status and what is to be written."""
    for text, status, line in CHECKED + FLAWS:
        yield "check", text, status, line
    for text, status, written in UPGRADED:
        yield "upgrade", text, status, written
    for text, status, written in PROVED:
        yield "prove --depth 2", text, status, written
