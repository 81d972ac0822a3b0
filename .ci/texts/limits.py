"""Texts at a limit and just past it, for the limits that no other table here has. Tokens were counted by hand; the line and the
column of a token are counted by `parts`. `limits.py` alone prints the number of product states of `turns(4)`, by the definition of an
age forest with sets as they stand there, which takes a minute or two."""
from parts import at_token

NODE = "node true : emp |- true : emp by Done;\nend;\n"
ACCEPTED = b"accepted entailment nodes 1 links 0"
FIRST_ORDER = b"accepted first-order nodes 1 links 0"
REFL = "node true |- z() = z() by Refl 0;\nend;\n"
EVERY = "c0() = c0()"


def repeated(count, text, between):
    return between.join([text] * count)


# First-order files. `cyclist fo 1;` has four tokens, and so has each constructor.
def constructors(count, heading="fo"):
    return f"cyclist {heading} 1;\n" + "".join(f"con c{i} 0;\n" for i in range(count))


def fo(text):
    """A file whose first constructor is z, which has eight tokens up to the text."""
    return f"cyclist fo 1;\ncon z 0;\n{text}".encode()


def foproblem(text):
    return f"cyclist foproblem 1;\ncon z 0;\n{text}".encode()


# A definition without parameters has nine tokens where its one case is `true`.
def empty_definitions(count):
    return "".join(f"pred p{i}(0) {{ true }};\n" for i in range(count))


def numeral(successors):
    """A term of so many constructors and one more: three tokens, and three for each."""
    return "s(" * successors + "z()" + ")" * successors


def with_terms(text, heading="fo"):
    """A file with the constructors z and s, which has twelve tokens up to the text."""
    return f"cyclist {heading} 1;\ncon z 0;\ncon s 1;\n{text}".encode()


EQUATION = "$0 = $0"
CASE_OF_16 = repeated(16, EQUATION, ", ")
CHECKED = [
    # constructors
    (f"{constructors(64)}node true |- {EVERY} by Refl 0;\nend;\n".encode(), 0, FIRST_ORDER),
    at_token(f"{constructors(65)}node true |- {EVERY} by Refl 0;\nend;\n".encode(), 5, "limit constructors", 4 + 4 * 64),
    # predicates
    (fo(empty_definitions(4096) + REFL), 0, FIRST_ORDER),
    at_token(fo(empty_definitions(4097) + REFL), 5, "limit predicates", 8 + 9 * 4096),
    # cases, and their atoms and locals
    (fo(f"pred p(0) {{ {repeated(16, 'true', ' | ')} }};\n{REFL}"), 0, FIRST_ORDER),
    at_token(fo(f"pred p(0) {{ {repeated(17, 'true', ' | ')} }};\n{REFL}"), 5, "limit cases", 8 + 6 + 2 * 16),
    (fo(f"pred p(1) {{ {CASE_OF_16} }};\n{REFL}"), 0, FIRST_ORDER),
    at_token(fo(f"pred p(1) {{ {CASE_OF_16}, {EQUATION} }};\n{REFL}"), 5, "limit atoms", 8 + 6 + 6 * 16),
    (fo(f"pred p(1) {{ $0 = ?15 }};\n{REFL}"), 0, FIRST_ORDER),
    at_token(fo(f"pred p(1) {{ $0 = ?16 }};\n{REFL}"), 5, "limit locals", 8 + 6 + 4),
    # atoms of a sequent
    (fo(f"node {repeated(32, EQUATION, ', ')} |- z() = z() by Refl 0;\nend;\n"), 0, FIRST_ORDER),
    at_token(fo(f"node {repeated(33, EQUATION, ', ')} |- z() = z() by Refl 0;\nend;\n"), 5, "limit atoms", 8 + 1 + 6 * 32),
    (fo(f"node true |- {CASE_OF_16} by Refl 0;\nend;\n"), 0, FIRST_ORDER),
    at_token(fo(f"node true |- {CASE_OF_16}, {EQUATION} by Refl 0;\nend;\n"), 5, "limit atoms", 8 + 3 + 6 * 16),
    # nodes of fourteen tokens
    (fo("node true |- z() = z() by Refl 0;\n" * 20000 + "end;\n"), 0, b"accepted first-order nodes 20000 links 0"),
    at_token(fo("node true |- z() = z() by Refl 0;\n" * 20001 + "end;\n"), 5, "limit nodes", 8 + 14 * 20000),
    # terms of a node: of the left side of an equation with 2,047 successors 2,048, in 3 * 2048 tokens
    (with_terms(f"node true |- {numeral(2047)} = {numeral(2047)} by Refl 0;\nend;\n"), 0, FIRST_ORDER),
    at_token(
        with_terms(f"node true |- {numeral(2047)} = {numeral(2048)} by Refl 0;\nend;\n"), 5, "limit terms", 12 + 3 + 3 * 2048 + 1 + 2 * 2048,
    ),
    # terms of a reason count with those of its node; of a link the values, but not what they are put for
    at_token(
        with_terms(f"node true |- {numeral(2047)} = {numeral(2047)} by Cut $0 = $0 to 0 0;\nend;\n"),
        5, "limit terms", 12 + 3 + 3 * 2048 + 1 + 3 * 2048 + 2,
    ),
    (
        with_terms(f"node $0 = {numeral(2047)} |- false by Link 0 {{ $0 := {numeral(2046)} }} [] [];\nend;\n"),
        1, b"refused node 0 LinkLeft 0",
    ),
    at_token(
        with_terms(f"node $0 = {numeral(2047)} |- false by Link 0 {{ $0 := {numeral(2047)} }} [] [];\nend;\n"),
        5, "limit terms", 12 + 1 + 3 + 3 * 2048 + 2 + 4 + 3 + 2 * 2047,
    ),
    # terms of a case
    (with_terms(f"pred p(0) {{ {numeral(2047)} = {numeral(2047)} }};\n{REFL}"), 0, FIRST_ORDER),
    at_token(
        with_terms(f"pred p(0) {{ {numeral(2047)} = {numeral(2048)} }};\n{REFL}"), 5, "limit terms", 12 + 6 + 3 * 2048 + 1 + 2 * 2048,
    ),
]

SEARCHED = [
    at_token(f"{constructors(65, 'foproblem')}goal true |- false;\nend;\n".encode(), 5, "limit constructors", 4 + 4 * 64),
    at_token(foproblem(empty_definitions(4097) + "goal true |- false;\nend;\n"), 5, "limit predicates", 8 + 9 * 4096),
    at_token(foproblem(f"goal {repeated(33, EQUATION, ', ')} |- false;\nend;\n"), 5, "limit atoms", 8 + 1 + 6 * 32),
    at_token(foproblem(f"goal true |- {CASE_OF_16}, {EQUATION};\nend;\n"), 5, "limit atoms", 8 + 3 + 6 * 16),
    at_token(
        with_terms(f"goal true |- {numeral(2047)} = {numeral(2048)};\nend;\n", "foproblem"),
        5, "limit terms", 12 + 3 + 3 * 2048 + 1 + 2 * 2048,
    ),
]
WIDEST = f"{repeated(32, EQUATION, ', ')} |- {repeated(16, '$1 = $1', ', ')}"
FOUND = [(foproblem(f"goal {WIDEST};\nend;\n"), 0, f"cyclist fo 1;\ncon z 0;\nnode {WIDEST} by Refl 0;\nend;\n".encode())]


# Problems of `prove`, and models: what proof files are told of, at the names and lines of these.
def heaps(count):
    return "".join(f"pred p{i}() {{ true : emp }};\n" for i in range(count))


def stops(count):
    return "".join(f"line {i + 1} : stop;\n" for i in range(count))


GOAL = "goal true : emp |- true : emp;\nend;\n"
MODEL = "stack;\nheap;\nask true : emp;\nend;\n"
PROBLEMS = [
    at_token(f"cyclist problem 1;\n{heaps(4097)}{GOAL}".encode(), 5, "limit predicates", 4 + 10 * 4096),
    at_token(f"cyclist problem 1;\n{stops(4097)}{GOAL}".encode(), 5, "limit lines", 4 + 5 * 4096),
    (
        f"cyclist problem 1;\n{stops(4096)}{GOAL}".encode(), 0, f"cyclist proof 1;\n{stops(4096)}{NODE}".encode(),
    ),
    (
        f"cyclist problem 1;\n{heaps(4096)}{GOAL}".encode(), 0,
        f"cyclist proof 1;\n{heaps(4096)}{NODE}".replace("()", "(0)").encode(),
    ),
]
NUMBERED = "".join(f"pred p{i}(0) {{ true : emp }};\n" for i in range(4097))
MODELS = [
    at_token(f"cyclist model 1;\n{NUMBERED}{MODEL}".encode(), 5, "limit predicates", 4 + 11 * 4096),
    at_token(f"cyclist model 1;\npred p(0) {{ {repeated(17, 'true : emp', ' | ')} }};\n{MODEL}".encode(), 5, "limit cases", 4 + 6 + 4 * 16),
    at_token(f"cyclist model 1;\npred p(1) {{ $0 = ?16 : emp }};\n{MODEL}".encode(), 5, "limit locals", 4 + 6 + 4),
]

# Base pairs. `q` has three, of a parameter that is nil, one that is a cell, and one that is not nil; `p0` and its like three for each of
# their eight parameters, so 6,561, since no two choices give the same; and each of the others one.
PARAMETERS = "abcdefgh"


def base_pairs(single):
    """A problem of 3 + 15 * 6561 = 98,418 base pairs, and so many more."""
    apart = " * ".join(f"q({it})" for it in PARAMETERS)
    wide = "".join(f"pred p{i}({', '.join(PARAMETERS)}) {{ true : {apart} }};\n" for i in range(15))
    one = "".join(f"pred o{i}() {{ true : emp }};\n" for i in range(single))
    text = f"pred q(a) {{ a = nil : emp | true : a -> (nil) | a != nil : emp }};\n{wide}{one}"
    return f"cyclist problem 1;\n{text}goal true : p0(a, b, c, d, e, f, g, h) |- true : emp;\nend;\n".encode()


PAIRS = [(base_pairs(1582), 0, b"satisfiable"), (base_pairs(1583), 5, b"limit pairs")]

# As many atoms as a heap may have, each of which may be told apart in several ways: what is known of terms that no atom after needs is
# forgotten. A value for each that is nil satisfies the first two; the third has two cells with one address.
QS = "pred q(a) { a = nil : emp | true : a -> (nil) | a != nil : emp };\n"
RS = "pred r(a, b) { a = b : emp | true : a -> (b) | a != b : emp };\n"
ALL = [f"x{i}" for i in range(33)]


def problem(definitions, atoms, right="emp"):
    return f"cyclist problem 2;\n{definitions}goal true : {' * '.join(atoms)} |- true : {right};\nend;\n".encode()


MANY_ATOMS = [
    (problem(QS, [f"q({it})" for it in ALL[:32]]), 0, b"satisfiable"),
    (problem(RS, [f"r({it}, {after})" for it, after in zip(ALL[:32], ALL[1:])]), 0, b"satisfiable"),
    (problem("", [f"{it} -> ({after})" for it, after in zip(ALL[:31], ALL[1:])] + ["x0 -> (nil)"]), 1, b"unsatisfiable"),
]

# Atoms that leave two base pairs each, and wide ones that keep their terms, each term in two that share few others: as many states as
# there are choices, in whatever order. Those of a goal have a limit, and so have those of a case; but where an atom has no base pair,
# there is no state.
WIDE = f"pred is(a) {{ a = nil : emp | a != nil : emp }};\npred wide({', '.join(PARAMETERS)}) {{ true : emp }};\n"


def told_apart(names):
    rows = [names[i:i + 8] for i in range(0, len(names), 8)]
    columns = [names[i::len(rows)] for i in range(len(rows))]
    return [f"is({it})" for it in names] + [f"wide({', '.join(them)})" for them in rows + columns]


LARGE = told_apart(ALL[:24])
LARGE_CASE = f"pred large({', '.join(PARAMETERS)}) {{ true : {' * '.join(told_apart(list(PARAMETERS) + ALL[:16]))} }};\n"
MANY_STATES = [
    (problem(WIDE, told_apart(ALL[:8])), 0, b"satisfiable"),
    (problem(WIDE, LARGE), 5, b"limit states"),
    (problem(f"{WIDE}pred none(a) {{ a != a : emp }};\n", [*LARGE, "none(x0)"]), 1, b"unsatisfiable"),
    (problem(WIDE + LARGE_CASE, ["emp"]), 5, b"limit pairs"),
]

# Sixteen cells, for each of which two atoms stand that take it or nothing; and the same with a cell at an address that no atom has.
ATOMS_OF_16 = " * ".join(f"p(${i})" for i in range(32))
STACK_OF_16 = ", ".join(str(i % 16 + 1) for i in range(32))
TAKE = "pred p(1) { true : emp | true : $0 -> (nil) };\n"


def cells_at(last):
    cells = ", ".join(f"{it} -> (0)" for it in [*range(1, 16), last])
    return f"cyclist model 1;\n{TAKE}stack {STACK_OF_16};\nheap {cells};\nask true : {ATOMS_OF_16};\nend;\n".encode()


MODELS += [(cells_at(16), 0, b"holds"), (cells_at(17), 1, b"fails")]

# What holds has no counter-model, whatever the size.
SEGMENTS = "pred ls(a, b) { a = b : emp | true : a -> (c) * ls(c, b) };\n"
TREES = "pred tree(a) { a = nil : emp | true : a -> (l, r) * tree(l) * tree(r) };\n"
HOLDING = [
    (problem(SEGMENTS, ["ls(x, y)", "ls(y, z)", "ls(z, u)"], "ls(x, u)"), 6, b"not found cells 4"),
    (problem(TREES, ["tree(x)", "tree(y)"], "tree(y) * tree(x)"), 6, b"not found cells 4"),
]

# Product states. The loops of `turns` have STATES_OF_TURNS from the start at the node that both ways lead back to; each node that links to
# the next before it has one state more, since a link whose traces stay has no event, and leaves the forest of the start as it is.
ATOMS = 12
STATES_OF_TURNS = 198_667


def turns(before, links, atoms=ATOMS):
    """A right proof: so many nodes that link to the next one, then so many that drop an equation, and two ways back to the first of those,
    each of which unfolds the first atom; the second turns the order of the atoms round."""
    heap = repeated(atoms, "e()", " * ")
    same = " ".join(str(i) for i in range(atoms))
    back = " ".join(str(atoms - 1 - i) for i in range(atoms))
    start, parting = links, links + before

    def node(count, more, reason):
        pures = ", ".join(["nil = nil"] * count + more) or "true"
        return f"node {pures} : {heap} |- true : emp by {reason};\n"

    nodes = [node(before, [], f"Link {i + 1} {{ }} [{same}] [0]") for i in range(links)]
    nodes += [node(before - i, [], f"Weaken 0 to {start + i + 1}") for i in range(before)]
    nodes += [node(0, [], f"Split $0 $1 to {parting + 1} {parting + 3}")]
    for at, test, order in ((parting + 1, "$0 = $1", same), (parting + 3, "$0 != $1", back)):
        nodes += [node(0, [test], f"Unfold 0 to {at + 1}"), node(0, [test], f"Link {start} {{ }} [{order}] [0]")]
    return f"cyclist proof 1;\npred e(0) {{ true : e() }};\n{''.join(nodes)}end;\n".encode()


# Sixteen premises, of which case i and so premise i has i equations, in both orders; and sixteen ways back, each of which progresses.
def sixteen(atom, reason, order):
    """A right proof whose first node has sixteen premises, in this order of nodes."""
    pures = [", ".join(["nil = nil"] * i) or "true" for i in range(16)]
    places = [order.index(i) + 1 for i in range(16)]
    cases = " | ".join(f"{it} : {atom}" for it in pures)
    nodes = "".join(f"node {pures[i]} : {atom} |- true : emp by {reason};\n" for i in order)
    first = f"node true : p() |- true : emp by Unfold 0 to {' '.join(map(str, places))};\n"
    return f"cyclist proof 1;\npred p(0) {{ {cases} }};\n{first}{nodes}end;\n".encode()


def sixteen_of_first_order():
    """The same of first-order logic, where the case that comes round has its atom in its own place."""
    lefts = [", ".join(["z() = z()"] * i + ["p()"]) for i in range(16)]
    nodes = "".join(f"node {left} |- false by Link 0 {{ }} [{i}] [];\n" for i, left in enumerate(lefts))
    numbers = " ".join(str(i + 1) for i in range(16))
    first = f"node p() |- false by Unfold 0 to {numbers};\n"
    return f"cyclist fo 1;\ncon z 0;\npred p(0) {{ {' | '.join(lefts)} }};\n{first}{nodes}end;\n".encode()


UP, DOWN = list(range(16)), list(range(15, -1, -1))
WIDE = [
    ("check", sixteen("emp", "Done", UP), 0, b"accepted entailment nodes 17 links 0"),
    ("check", sixteen("emp", "Done", DOWN), 0, b"accepted entailment nodes 17 links 0"),
    ("check", sixteen("p()", "Link 0 { } [0] [0]", UP), 0, b"accepted entailment nodes 17 links 16"),
    ("check", sixteen("p()", "Link 0 { } [0] [0]", DOWN), 0, b"accepted entailment nodes 17 links 16"),
    ("check", sixteen("emp", "Done", [*UP[:8], 9, 8, *UP[10:]]), 0, b"accepted entailment nodes 17 links 0"),
    ("fo-check", sixteen_of_first_order(), 0, b"accepted first-order nodes 17 links 16"),
]
# Two premises that have changed places, beyond the eighth.
MIXED = sixteen("emp", "Done", UP).replace(b" 12 13 ", b" 13 12 ", 1)
WIDE += [("check", MIXED, 1, b"refused node 0 PremiseDiffers 11")]

# The greatest right file: nodes that lead each to the next, all round once, where the last but one unfolds. Of its 16,777,216 bytes a
# comment at the end takes what is left over.
GREATEST = 16_777_216


def greatest():
    """A right proof of 20,000 nodes, and of as many bytes as an input may have."""
    cell = "{} -> ({})"
    cells = " * ".join(cell.format(f"${10 + i}", ", ".join(f"${20 + 8 * i + k}" for k in range(8))) for i in range(14))
    judgement, turned = f"true : e() * {cells} |- true : emp", f"true : {cells} * e() |- true : emp"
    same, back = " ".join(map(str, range(15))), " ".join(map(str, [14, *range(14)]))
    nodes = [f"node {judgement} by Link {i + 1} {{ }} [{same}] [0];\n" for i in range(19_998)]
    nodes += [f"node {judgement} by Unfold 0 to 19999;\n", f"node {turned} by Link 0 {{ }} [{back}] [0];\n"]
    text = f"cyclist proof 1;\npred e(0) {{ true : e() }};\n{''.join(nodes)}end;\n".encode()
    return text + b"#" * (GREATEST - len(text))


LAST = 200_000 - STATES_OF_TURNS
STATES = [
    (turns(4, LAST), 0, f"accepted entailment nodes {LAST + 9} links {LAST + 2}".encode()),
    (turns(4, LAST + 1), 5, b"limit states"),
]


def rows():
    """Yields words, a text, the status and what is written."""
    tables = [
        ("check", STATES), ("fo-check", CHECKED), ("fo", SEARCHED), ("fo --depth 1", FOUND), ("prove --depth 1", PROBLEMS),
        ("model", MODELS), ("sat", PAIRS), ("sat", MANY_ATOMS), ("sat", MANY_STATES), ("disprove --cells 4", HOLDING),
    ]
    for words, table in tables:
        for text, status, line in table:
            yield words, text, status, line
    yield from WIDE


def greatest_rows():
    """Yields words, the greatest right file, the status and what is written, and the sizes of the pieces."""
    text = greatest()
    yield "check", text, 0, b"accepted entailment nodes 20000 links 19999", (None, 65_536)
    yield "check", text[:-1] + b"\xc3", 3, f"unreadable utf8 offset {GREATEST - 1} line 20004 column {text.count(b'#')}".encode(), (65_536,)
    written = text[: text.index(b"#")]
    yield "upgrade", text, 0, written.replace(b"proof 1", b"proof 2", 1), (None,)


def next_forest(forest, pairs, positions):
    """One step of an age forest: entries are pairs of the place of a parent, or None, and a set; the oldest stands first."""
    def led(of, kept):
        return frozenset(to for source, to, progress in pairs if source in of and (progress or not kept))

    grown = [(parent, led(of, False)) for parent, of in forest]
    grown += [(place, led(of, True)) for place, (_, of) in enumerate(forest)]
    grown.append((None, frozenset(positions)))
    ancestors = []
    for place, (parent, _) in enumerate(grown):
        ancestors.append([] if parent is None else [parent, *ancestors[parent]])
    trimmed = []
    for place, (parent, of) in enumerate(grown):
        for above in [place, *ancestors[place]]:
            for older in range(above):
                if grown[older][0] == grown[above][0]:
                    of = of - trimmed[older]
        trimmed.append(of if parent is None else of & trimmed[parent])
    full = set()
    for place, of in enumerate(trimmed):
        below = [trimmed[it] for it in range(len(grown)) if grown[it][0] == place]
        if of and of == frozenset().union(*below):
            full.add(place)
    kept = [it for it in range(len(grown)) if trimmed[it] and not full.intersection(ancestors[it])]
    return tuple((None if grown[it][0] is None else kept.index(grown[it][0]), trimmed[it]) for it in kept)


def states_of_turns(before, atoms=ATOMS):
    """Returns how many states are reached from the first of the nodes that drop an equation, with its start."""
    stay = [(i, i, False) for i in range(atoms)]
    unfold = [(0, atoms - 1, True)] + [(i, i - 1, False) for i in range(1, atoms)]
    back = [(i, atoms - 1 - i, False) for i in range(atoms)]
    edges = {i: [(i + 1, stay)] for i in range(before)}
    edges[before] = [(before + 1, stay), (before + 3, stay)]
    edges[before + 1], edges[before + 2] = [(before + 2, unfold)], [(0, stay)]
    edges[before + 3], edges[before + 4] = [(before + 4, unfold)], [(0, back)]
    start = (0, ((None, frozenset(range(atoms))),))
    seen, waiting = {start}, [start]
    while waiting:
        node, forest = waiting.pop()
        for target, pairs in edges[node]:
            state = (target, next_forest(forest, pairs, range(atoms)))
            if state not in seen:
                seen.add(state)
                waiting.append(state)
    return len(seen)


if __name__ == "__main__":
    print(states_of_turns(4))
