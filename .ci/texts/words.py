"""Command lines, each with an input, and how a run on it ends. Where a line is a task, what is written tells its number."""
from searches import USAGE

PROOF = b"cyclist proof 1;\nnode true : emp |- true : emp by Done;\nend;\n"

ACCEPTED = b"accepted entailment nodes 1 links 0"

# No proof and no counter-model is ever found.
PROBLEM = b"cyclist problem 1; goal true : emp |- nil != nil : emp or true : emp; end;"

LOST = b"cyclist problem 1; goal true : emp |- nil != nil : emp; end;"

FALSE = b"cyclist foproblem 1; con z 0; goal true |- false; end;"

# Words that are a task, an input, the status and what is written.
TASKS = [
    (["check"], PROOF, 0, ACCEPTED),
    (["check", "--"], PROOF, 0, ACCEPTED),
    (["prove", "--depth", "5"], LOST, 6, b"not found depth 5"),
    (["prove", "--depth=5"], LOST, 6, b"not found depth 5"),
    (["prove", "--depth", "40"], LOST, 6, b"not found depth 40"),
    (["prove", "--depth", "+4"], LOST, 6, b"not found depth 4"),
    (["prove", "--depth", "04"], LOST, 6, b"not found depth 4"),
    (["prove"], LOST, 6, b"not found depth 16"),
    (["ring", "1"], b"", 0, b"ring 1 accepted nodes 9 links 1"),
    (["ring", "007"], b"", 0, b"ring 7 accepted nodes 57 links 1"),
    (["ring", "--", "7"], b"", 0, b"ring 7 accepted nodes 57 links 1"),
    (["upgrade"], PROOF, 0, PROOF.replace(b"proof 1", b"proof 2")),
    (["upgrade", "--"], PROOF, 0, PROOF.replace(b"proof 1", b"proof 2")),
    (["sat"], PROBLEM, 0, b"satisfiable"),
    (["model"], b"cyclist model 1; stack; heap; ask true : emp; end;", 0, b"holds"),
    (["disprove"], PROBLEM, 6, b"not found cells 2"),
    (["disprove", "--cells", "4"], PROBLEM, 6, b"not found cells 4"),
    (["disprove", "--cells=1"], PROBLEM, 6, b"not found cells 1"),
    (["fo-check"], b"cyclist fo 1; con z 0; node true |- z() = z() by Refl 0; end;", 0, b"accepted first-order nodes 1 links 0"),
    (["fo-check", "--"], b"cyclist fo 1; con z 0; node true |- z() = z() by Refl 0; end;", 0, b"accepted first-order nodes 1 links 0"),
    (["fo"], FALSE, 6, b"not found depth 16"),
    (["fo", "--depth", "5"], FALSE, 6, b"not found depth 5"),
]

# Words that are no task, with an input that each task reads.
NO_TASKS = [
    ["check", "x"], ["Check"], ["chec"], [], ["help"], ["--help"], ["-h"], ["prove", "--depth", "41"], ["prove", "--depth", "0"],
    ["prove", "--depth"], ["prove", "--depth", " 4"], ["prove", "--depth=4x"], ["prove", "--depth=1", "--depth=2"], ["prove", "x"],
    ["prove", "-h"], ["prove", "--help"], ["ring", "2001"], ["ring", "0"], ["ring"], ["ring", "1", "2"], ["upgrade", "2"], ["Upgrade"],
    ["upgrade", "--depth", "4"], ["model", "x"], ["disprove", "--cells", "5"], ["disprove", "--cells", "0"], ["fo-check", "x"],
    ["fo", "--depth", "41"], ["fo-"],
]

ROWS = TASKS + [(words, PROOF, 2, USAGE) for words in NO_TASKS]
