"""First-order proofs and problems with a fault, and how `fo-check` and `fo` answer them. Places were counted by hand."""

# Each flaw stands at its token.
FLAWS = [
    (
        b"cyclist fo 1;\n"
        b"con z 1;\n"
        b"node true |- false by Refl 0;\n"
        b"end;\n",
        4, b"ill-formed constant token 6 line 2 column 7",
    ),
    (
        b"cyclist fo 1;\n"
        b"con z 0;\n"
        b"pred z(0) { true };\n"
        b"node true |- false by Refl 0;\n"
        b"end;\n",
        4, b"ill-formed duplicate token 9 line 3 column 6",
    ),
    (
        b"cyclist fo 1;\n"
        b"con z 0;\n"
        b"pred p(1) { $1 = z() };\n"
        b"node true |- false by Refl 0;\n"
        b"end;\n",
        4, b"ill-formed parameter token 15 line 3 column 14",
    ),
    (
        b"cyclist fo 1;\n"
        b"con z 0;\n"
        b"node p(z()) |- false by Refl 0;\n"
        b"end;\n",
        4, b"ill-formed unknown token 9 line 3 column 6",
    ),
    (
        b"cyclist fo 1;\n"
        b"con z 0;\n"
        b"node z($0) = z() |- false by Refl 0;\n"
        b"end;\n",
        4, b"ill-formed arity token 9 line 3 column 6",
    ),
]

# Proofs with their first dead token. The first two statements have eight tokens.
DEAD_TOKENS = [
    (b"", 3, b"unreadable syntax token 0 line 1 column 1"),
    (b"cyclist fo 2;", 3, b"unreadable syntax token 2 line 1 column 12"),
    (b"cyclist fo 01;", 3, b"unreadable syntax token 2 line 1 column 12"),
    (b"cyclist proof 1;", 3, b"unreadable syntax token 1 line 1 column 9"),
    (b"cyclist fo 1;", 3, b"unreadable syntax token 4 line 1 column 14"),
    (
        b"cyclist fo 1;\n"
        b"pred p(0) { true };",
        3, b"unreadable syntax token 4 line 2 column 1",
    ),
    (
        b"cyclist fo 1;\n"
        b"con z 0;\n",
        3, b"unreadable syntax token 8 line 3 column 1",
    ),
    (
        b"cyclist fo 1;\n"
        b"con con 0;",
        3, b"unreadable syntax token 5 line 2 column 5",
    ),
    (
        b"cyclist fo 1;\n"
        b"con false 0;",
        3, b"unreadable syntax token 5 line 2 column 5",
    ),
    (
        b"cyclist fo 1;\n"
        b"con true 0;",
        3, b"unreadable syntax token 5 line 2 column 5",
    ),
    (
        b"cyclist fo 1;\n"
        b"con z 0;\n"
        b"pred p(1) { };",
        3, b"unreadable syntax token 14 line 3 column 13",
    ),
    (
        b"cyclist fo 1;\n"
        b"con z 0;\n"
        b"pred p(1) { true | };",
        3, b"unreadable syntax token 16 line 3 column 20",
    ),
    (
        b"cyclist fo 1;\n"
        b"con z 0;\n"
        b"pred p(1) { false };",
        3, b"unreadable syntax token 14 line 3 column 13",
    ),
    (
        b"cyclist fo 1;\n"
        b"con z 0;\n"
        b"node p(z(),) |- false by Refl 0;",
        3, b"unreadable syntax token 15 line 3 column 12",
    ),
    (
        b"cyclist fo 1;\n"
        b"con z 0;\n"
        b"node p(,z()) |- false by Refl 0;",
        3, b"unreadable syntax token 11 line 3 column 8",
    ),
    (
        b"cyclist fo 1;\n"
        b"con z 0;\n"
        b"node p(z()",
        3, b"unreadable syntax token 14 line 3 column 11",
    ),
    (
        b"cyclist fo 1;\n"
        b"con z 0;\n"
        b"node p(z())) |- false by Refl 0;",
        3, b"unreadable syntax token 15 line 3 column 12",
    ),
    (
        b"cyclist fo 1;\n"
        b"con z 0;\n"
        b"node p(z() z()) |- false by Refl 0;",
        3, b"unreadable syntax token 14 line 3 column 12",
    ),
    (
        b"cyclist fo 1;\n"
        b"con z 0;\n"
        b"node p(z) |- false by Refl 0;",
        3, b"unreadable syntax token 12 line 3 column 9",
    ),
    (
        b"cyclist fo 1;\n"
        b"con z 0;\n"
        b"node p(?0) |- false by Refl 0;",
        3, b"unreadable syntax token 11 line 3 column 8",
    ),
    (
        b"cyclist fo 1;\n"
        b"con z 0;\n"
        b"node p($00) |- false by Refl 0;",
        3, b"unreadable syntax token 12 line 3 column 9",
    ),
    (
        b"cyclist fo 1;\n"
        b"con z 0;\n"
        b"node $0 |- false by Refl 0;",
        3, b"unreadable syntax token 11 line 3 column 9",
    ),
    (
        b"cyclist fo 1;\n"
        b"con z 0;\n"
        b"node p |- false by Refl 0;",
        3, b"unreadable syntax token 10 line 3 column 8",
    ),
    (
        b"cyclist fo 1;\n"
        b"con z 0;\n"
        b"node p(z()), true |- false by Refl 0;",
        3, b"unreadable syntax token 16 line 3 column 14",
    ),
    (
        b"cyclist fo 1;\n"
        b"con z 0;\n"
        b"node false |- false by Refl 0;",
        3, b"unreadable syntax token 9 line 3 column 6",
    ),
    (
        b"cyclist fo 1;\n"
        b"con z 0;\n"
        b"node true |- true by Refl 0;",
        3, b"unreadable syntax token 11 line 3 column 14",
    ),
    (
        b"cyclist fo 1;\n"
        b"con z 0;\n"
        b"node $0 = $1 = $2 |- false by Refl 0;",
        3, b"unreadable syntax token 14 line 3 column 14",
    ),
    (
        b"cyclist fo 1;\n"
        b"con z 0;\n"
        b"node p(z()) |- false by refl 0;",
        3, b"unreadable syntax token 18 line 3 column 25",
    ),
    (
        b"cyclist fo 1;\n"
        b"con z 0;\n"
        b"node p(z()) |- p(z()) by Right 0 0 z();",
        3, b"unreadable syntax token 26 line 3 column 36",
    ),
    (
        b"cyclist fo 1;\n"
        b"con z 0;\n"
        b"node p(z()) |- false by Refl 0;\n"
        b"end; end;",
        3, b"unreadable syntax token 23 line 4 column 6",
    ),
    (
        b"cyclist fo 1;\n"
        b"con z 0;\n"
        b"node p(z()) |- false by Refl 0;\n"
        b"end",
        3, b"unreadable syntax token 22 line 4 column 4",
    ),
]

# Terms 20,000 deep, whose predicate is not defined.
DEEP = [
    (
        b"cyclist fo 1;\n"
        b"con z 0;\n"
        b"con s 1;\n"
        b"node p("
        + b"s(" * 20000
        + b"z()"
        + b")" * 20000
        + b") |- false by WeakenLeft 0;\n"
        b"end;\n",
        4, b"ill-formed unknown token 13 line 4 column 6",
    ),
]

# Problems with their first dead token.
DEAD_TOKENS_OF_PROBLEMS = [
    (b"cyclist foproblem 2;", 3, b"unreadable syntax token 2 line 1 column 19"),
    (b"cyclist fo 1;", 3, b"unreadable syntax token 1 line 1 column 9"),
    (
        b"cyclist foproblem 1;\n"
        b"goal true |- false;",
        3, b"unreadable syntax token 4 line 2 column 1",
    ),
    (
        b"cyclist foproblem 1;\n"
        b"con z 0;\n"
        b"node true |- false by Refl 0;",
        3, b"unreadable syntax token 8 line 3 column 1",
    ),
    (
        b"cyclist foproblem 1;\n"
        b"con z 0;\n"
        b"goal p(?0) |- false;",
        3, b"unreadable syntax token 11 line 3 column 8",
    ),
    (
        b"cyclist foproblem 1;\n"
        b"con z 0;\n"
        b"goal true |- false",
        3, b"unreadable syntax token 12 line 3 column 19",
    ),
    (
        b"cyclist foproblem 1;\n"
        b"con z 0;\n"
        b"goal true |- false;\n"
        b"goal true |- false;",
        3, b"unreadable syntax token 13 line 4 column 1",
    ),
]


def proof(theory):
    """Returns a proof over this theory, which has the constructor z; the header has four tokens and one line."""
    return b"cyclist fo 1;\n" + theory + b"node true |- z() = z() by Refl 0;\nend;\n"


def problem(theory):
    """Returns the problem that such a proof is for; its header is as long, counted in tokens and in lines."""
    return b"cyclist foproblem 1;\n" + theory + b"goal true |- z() = z();\nend;\n"


# Theories that use a predicate with nine terms in a case before its definition, and others like them. A constructor or a head has four
# tokens or six, `z(), ` has four tokens and five columns, and the first argument of q begins at token 16, or 20 behind two
# constructors, and column 15: so the ninth begins at token 16 + 8 * 4 and column 15 + 8 * 5.
NINTH = [
    (
        b"con z 0;\n"
        b"pred p(0) { q(z(), z(), z(), z(), z(), z(), z(), z(), z()) };\n"
        b"pred q(9) { true };\n",
        5, b"limit arguments token 48 line 3 column 55",
    ),
    (
        b"con z 0;\n"
        b"pred p(0) { q(z(), z(), z(), z(), z(), z(), z(), z(), z(), z()) };\n"
        b"pred q(10) { true };\n",
        5, b"limit arguments token 48 line 3 column 55",
    ),
    # The parameter's fault would stand at its number, a token later.
    (
        b"con z 0;\n"
        b"pred p(0) { q(z(), z(), z(), z(), z(), z(), z(), z(), $0) };\n"
        b"pred q(9) { true };\n",
        5, b"limit arguments token 48 line 3 column 55",
    ),
    # The first argument has eight of its own, 36 tokens and 43 columns with the comma in place of 4 and 5.
    (
        b"con z 0;\n"
        b"con c 8;\n"
        b"pred p(0) { q(c(z(), z(), z(), z(), z(), z(), z(), z()), z(), z(), z(), z(), z(), z(), z(), z()) };\n"
        b"pred q(9) { true };\n",
        5, b"limit arguments token 83 line 4 column 93",
    ),
    # So does the eighth, of which nothing stands at the ninth place but the ninth argument of q.
    (
        b"con z 0;\n"
        b"con c 8;\n"
        b"pred p(0) { q(z(), z(), z(), z(), z(), z(), z(), c(z(), z(), z(), z(), z(), z(), z(), z()), z()) };\n"
        b"pred q(9) { true };\n",
        5, b"limit arguments token 83 line 4 column 93",
    ),
    # At one token what is ill-formed goes first.
    (
        b"con z 0;\n"
        b"pred p(0) { q(z(), z(), z(), z(), z(), z(), z(), z(), w()) };\n"
        b"pred q(9) { true };\n",
        4, b"ill-formed unknown token 48 line 3 column 55",
    ),
    (
        b"con z 0;\n"
        b"pred p(0) { q(z(), z(), z(), z(), z(), z(), z(), z(), z(z())) };\n"
        b"pred q(9) { true };\n",
        4, b"ill-formed arity token 48 line 3 column 55",
    ),
    # What stands before the ninth argument goes first, as what is wrong with the name does.
    (
        b"con z 0;\n"
        b"pred p(0) { q(z(), z(), w(), z(), z(), z(), z(), z(), z()) };\n"
        b"pred q(9) { true };\n",
        4, b"ill-formed unknown token 24 line 3 column 25",
    ),
    (
        b"con z 0;\n"
        b"pred p(0) { q(z(), z(), z(), z(), z(), z(), z(), z(), z()) };\n"
        b"pred q(8) { true };\n",
        4, b"ill-formed arity token 14 line 3 column 13",
    ),
    (
        b"con z 0;\n"
        b"pred p(0) { q(z(), z(), z(), z(), z(), z(), z(), z(), z()) };\n",
        4, b"ill-formed unknown token 14 line 3 column 13",
    ),
    # A constructor or predicate that is used after its definition has a number before its ninth argument.
    (
        b"con z 0;\n"
        b"con c 9;\n"
        b"pred p(0) { z() = c(z(), z(), z(), z(), z(), z(), z(), z(), z()) };\n",
        5, b"limit arguments token 10 line 3 column 7",
    ),
    (
        b"con z 0;\n"
        b"pred q(9) { true };\n"
        b"pred p(0) { q(z(), z(), z(), z(), z(), z(), z(), z(), z()) };\n",
        5, b"limit arguments token 11 line 3 column 8",
    ),
    # The eighth argument, at token 48 and column 50, ends with the 4,096th term: `arguments` goes before `terms` at the ninth, which
    # begins after 3 * 4088 + 3 tokens of one column each, the comma, and a space.
    (
        b"con z 0;\n"
        b"con s 1;\n"
        b"pred p(0) { q(z(), z(), z(), z(), z(), z(), z(), "
        + b"s(" * 4088
        + b"z()"
        + b")" * 4088
        + b", z()) };\n"
        b"pred q(9) { true };\n",
        5, b"limit arguments token 12316 line 4 column 12319",
    ),
    # With one term more its last one is the 4,097th.
    (
        b"con z 0;\n"
        b"con s 1;\n"
        b"pred p(0) { q(z(), z(), z(), z(), z(), z(), z(), "
        + b"s(" * 4089
        + b"z()"
        + b")" * 4089
        + b", z()) };\n"
        b"pred q(9) { true };\n",
        5, b"limit terms token 8226 line 4 column 8228",
    ),
]

# Eight arguments are within the limit, also where each has eight.
EIGHTH = [
    b"con z 0;\n"
    b"pred p(0) { q(z(), z(), z(), z(), z(), z(), z(), z()) };\n"
    b"pred q(8) { true };\n",
    b"con z 0;\n"
    b"con c 8;\n"
    b"pred p(0) { q("
    + b", ".join([b"c(z(), z(), z(), z(), z(), z(), z(), z())"] * 8)
    + b") };\n"
    b"pred q(8) { true };\n",
]
