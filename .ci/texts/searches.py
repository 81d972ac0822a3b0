"""Words and inputs of `prove`, `sat`, `fo`, `ring` and `upgrade`, and how a run on each ends; proofs as written by hand."""

USAGE = (
    b"usage: cyclist check | prove [--depth N] | ring K | upgrade | sat | model | disprove [--cells "
    b"N] | fo [--depth N] | fo-check\n"
)

COMPOSE = (
    b"cyclist problem 1;\n"
    b"pred ls(a, b) { a = b : emp | true : a -> (c) * ls(c, b) };\n"
    b"goal true : ls(x, y) * ls(y, z) |- true : ls(x, z);\n"
    b"end;\n"
)

COMPOSED = (
    b"cyclist proof 1;\n"
    b"pred ls(2) { $0 = $1 : emp | true : $0 -> (?0) * ls(?0, $1) };\n"
    b"node true : ls($0, $1) * ls($1, $2) |- true : ls($0, $2) by Unfold 0 to 1 4;\n"
    b"node $0 = $1 : ls($1, $2) |- true : ls($0, $2) by Rewrite 0 left to 2;\n"
    b"node true : ls($1, $2) |- true : ls($1, $2) by Frame 0 0 to 3;\n"
    b"node true : emp |- true : emp by Done;\n"
    b"node true : ls($1, $2) * $0 -> ($3) * ls($3, $1) |- true : ls($0, $2) by UnfoldRight 0 1 to 5;\n"
    b"node true : ls($1, $2) * $0 -> ($3) * ls($3, $1) |- true : $0 -> (?0) * ls(?0, $2) by "
    b"Instantiate ?0 $3 to 6;\n"
    b"node true : ls($1, $2) * $0 -> ($3) * ls($3, $1) |- true : $0 -> ($3) * ls($3, $2) by Frame 1 0 to 7;\n"
    b"node true : ls($1, $2) * ls($3, $1) |- true : ls($3, $2) by Link 0 { $0 := $3, $1 := $1, $2 := "
    b"$2 } [1 0] [0];\n"
    b"end;\n"
)

ACYCLIC = (
    b"cyclist problem 1;\n"
    b"pred ls(a, b) { a = b : emp | a != b : a -> (c) * ls(c, b) };\n"
    b"goal true : ls(x, y) * ls(y, z) |- true : ls(x, z);\n"
    b"end;\n"
)

WALK = (
    b"cyclist problem 1;\n"
    b"pred list(a) { a = nil : emp | true : a -> (b) * list(b) };\n"
    b"line 1 : if x = nil goto 4;\n"
    b"line 2 : x := x.1;\n"
    b"line 3 : goto 1;\n"
    b"line 4 : stop;\n"
    b"goal from 1 given true : list(x);\n"
    b"end;\n"
)

WALKED = (
    b"cyclist proof 1;\n"
    b"pred list(1) { $0 = nil : emp | true : $0 -> (?0) * list(?0) };\n"
    b"line 1 : if $0 = nil goto 4;\n"
    b"line 2 : $0 := $0.1;\n"
    b"line 3 : goto 1;\n"
    b"line 4 : stop;\n"
    b"node from 1 given true : list($0) by Exec to 1 2;\n"
    b"node from 4 given $0 = nil : list($0) by Exec;\n"
    b"node from 2 given $0 != nil : list($0) by Unfold 0 to 3 5;\n"
    b"node from 2 given $0 != nil, $0 = nil : emp by Rewrite 1 left to 4;\n"
    b"node from 2 given nil != nil, $0 = nil : emp by Absurd;\n"
    b"node from 2 given $0 != nil : $0 -> ($1) * list($1) by Exec to 6;\n"
    b"node from 3 given $2 != nil, $0 = $1 : $2 -> ($1) * list($1) by Rewrite 1 right to 7;\n"
    b"node from 3 given $2 != nil : $2 -> ($0) * list($0) by Exec to 8;\n"
    b"node from 1 given $2 != nil : $2 -> ($0) * list($0) by Link 0 { $0 := $0 } [1] [];\n"
    b"end;\n"
)

REVERSE = (
    b"cyclist problem 1;\n"
    b"pred list(a) { a = nil : emp | true : a -> (b) * list(b) };\n"
    b"line 1 : if x = nil goto 7;\n"
    b"line 2 : t := x.1;\n"
    b"line 3 : x.1 := y;\n"
    b"line 4 : y := x;\n"
    b"line 5 : x := t;\n"
    b"line 6 : goto 1;\n"
    b"line 7 : stop;\n"
    b"goal from 1 given true : list(x);\n"
    b"end;\n"
)

SEVENTEEN = (
    b"cyclist problem 2;\n"
    b"goal true : x -> (nil) * a -> (nil) * b -> (nil) * c -> (nil) * d -> (nil) * e -> (nil) * f -> "
    b"(nil) * g -> (nil) * h -> (nil) * i -> (nil) * j -> (nil) * k -> (nil) * l -> (nil) * m -> "
    b"(nil) * n -> (nil) * o -> (nil) * x -> (a) |- true : emp;\n"
    b"end;\n"
)

ABSURD = (
    b"cyclist proof 2;\n"
    b"node true : $0 -> (nil) * $1 -> (nil) * $2 -> (nil) * $3 -> (nil) * $4 -> (nil) * $5 -> (nil) * "
    b"$6 -> (nil) * $7 -> (nil) * $8 -> (nil) * $9 -> (nil) * $10 -> (nil) * $11 -> (nil) * $12 -> "
    b"(nil) * $13 -> (nil) * $14 -> (nil) * $15 -> (nil) * $0 -> ($1) |- true : emp by Absurd;\n"
    b"end;\n"
)

FOR_EVER = (
    b"cyclist problem 2;\n"
    b"line 1 : if * goto 1;\n"
    b"line 2 : stop;\n"
    b"goal from 1 given true : emp;\n"
    b"end;\n"
)

REFUSED = b"cyclist proof 1; line 1:free $0; line 2 : stop; node from 1 given true:emp by Exec; end;"

REFUSED_AGAIN = (
    b"cyclist proof 2;\n"
    b"line 1 : free $0;\n"
    b"line 2 : stop;\n"
    b"node from 1 given true : emp by Exec;\n"
    b"end;\n"
)

UNKNOWN = (
    b"cyclist problem 1;\n"
    b"goal true : ls(x, y) |- true : emp;\n"
    b"end;\n"
)

EVEN = (
    b"cyclist foproblem 1;\n"
    b"con z 0;\n"
    b"con s 1;\n"
    b"pred nat(1) { $0 = z() | $0 = s(?0), nat(?0) };\n"
    b"pred even(1) { $0 = z() | $0 = s(s(?0)), even(?0) };\n"
    b"goal even($0) |- nat($0);\n"
    b"end;\n"
)

NATURAL = (
    b"cyclist fo 1;\n"
    b"con z 0;\n"
    b"con s 1;\n"
    b"pred nat(1) { $0 = z() | $0 = s(?0), nat(?0) };\n"
    b"pred even(1) { $0 = z() | $0 = s(s(?0)), even(?0) };\n"
    b"node even($0) |- nat($0) by Unfold 0 to 1 4;\n"
    b"node $0 = z() |- nat($0) by Replace 0 left to 2;\n"
    b"node true |- nat(z()) by Right 0 0 [] to 3;\n"
    b"node true |- z() = z() by Refl 0;\n"
    b"node $0 = s(s($1)), even($1) |- nat($0) by Replace 0 left to 5;\n"
    b"node even($1) |- nat(s(s($1))) by Right 0 1 [s($1)] to 6 7;\n"
    b"node even($1) |- s(s($1)) = s(s($1)) by Refl 0;\n"
    b"node even($1) |- nat(s($1)) by Right 0 1 [$1] to 8 9;\n"
    b"node even($1) |- s($1) = s($1) by Refl 0;\n"
    b"node even($1) |- nat($1) by Link 0 { $0 := $1 } [0] [0];\n"
    b"end;\n"
)

REFLEXIVE = b"cyclist foproblem 1; con z 0; goal true |- $3 = $2, z() = z(), z() = z(); end;"

REFLEXIVELY = (
    b"cyclist fo 1;\n"
    b"con z 0;\n"
    b"node true |- $3 = $2, z() = z(), z() = z() by Refl 1;\n"
    b"end;\n"
)

# A term 2,000 deep.
DEEP = b"s(" * 2000 + b"z()" + b")" * 2000

CLASHING = b"cyclist foproblem 1; con z 0; con s 1; goal $0 = z(), z() = s($1) |- false; end;"

CLASHED = (
    b"cyclist fo 1;\n"
    b"con z 0;\n"
    b"con s 1;\n"
    b"node $0 = z(), z() = s($1) |- false by Clash 1;\n"
    b"end;\n"
)

# Words, an input, a status, and what is written.
RUNS = [
    ("prove", COMPOSE, 0, COMPOSED),
    ("prove --depth 5", COMPOSE, 0, COMPOSED),
    ("prove --depth 4", COMPOSE, 6, b"not found depth 4"),
    ("prove --depth 6", ACYCLIC, 6, b"not found depth 6"),
    ("prove --depth 41", COMPOSE, 2, USAGE),
    ("prove --depth 0", COMPOSE, 2, USAGE),
    ("prove --help", COMPOSE, 2, USAGE),
    ("prove", WALK, 0, WALKED),
    ("prove", FOR_EVER, 6, b"not found depth 16"),
    ("prove --depth 1", SEVENTEEN, 0, ABSURD),
    ("upgrade", ABSURD, 0, ABSURD),
    ("upgrade", REFUSED, 0, REFUSED_AGAIN),
    ("upgrade 2", ABSURD, 2, USAGE),
    ("upgrade", SEVENTEEN, 3, b"unreadable syntax token 1 line 1 column 9"),
    (
        "upgrade",
        b"cyclist proof 1; node true : l() |- true : emp by Done; end;",
        4, b"ill-formed unknown token 7 line 1 column 30",
    ),
    ("prove", UNKNOWN, 4, b"ill-formed unknown token 7 line 2 column 13"),
    ("prove", b"", 3, b"unreadable syntax token 0 line 1 column 1"),
    ("prove", b"cyclist proof 1;", 3, b"unreadable syntax token 1 line 1 column 9"),
    ("fo", EVEN, 0, NATURAL),
    ("fo --depth 5", EVEN, 0, NATURAL),
    ("fo --depth 4", EVEN, 6, b"not found depth 4"),
    ("fo --depth 1", REFLEXIVE, 0, REFLEXIVELY),
    (
        "fo --depth 1", b"cyclist foproblem 1; con z 0; con s 1; goal true |- " + DEEP + b" = " + DEEP + b"; end;",
        0, b"cyclist fo 1;\ncon z 0;\ncon s 1;\nnode true |- " + DEEP + b" = " + DEEP + b" by Refl 0;\nend;\n",
    ),
    ("fo --depth 1", CLASHING, 0, CLASHED),
    ("fo --depth 0", EVEN, 2, USAGE),
    ("fo-check", NATURAL, 0, b"accepted first-order nodes 10 links 1"),
    ("fo", b"cyclist foproblem 1; con z 0; goal true |- false; end;", 6, b"not found depth 16"),
    (
        "fo",
        b"cyclist foproblem 1; con z 0; goal true |- p(z()); end;",
        4, b"ill-formed unknown token 11 line 1 column 44",
    ),
    # the number of a variable is at most 65,534
    (
        "fo",
        b"cyclist foproblem 1;\ncon z 0;\ngoal $65535 = z() |- false;\nend;\n",
        5, b"limit variable token 10 line 3 column 7",
    ),
    ("fo", NATURAL, 3, b"unreadable syntax token 1 line 1 column 9"),
    # two cells have two addresses, and none is at nil
    ("sat", b"cyclist problem 1; goal true : x -> (nil) |- true : emp; end;", 0, b"satisfiable"),
    ("sat", b"cyclist problem 1; goal true : x -> (nil) * y -> (nil) |- true : emp; end;", 0, b"satisfiable"),
    ("sat", b"cyclist problem 1; goal true : x -> (nil) * x -> (nil) |- true : emp; end;", 1, b"unsatisfiable"),
    ("sat", b"cyclist problem 1; goal true : x -> (nil) * nil -> (nil) |- true : emp; end;", 1, b"unsatisfiable"),
    ("ring 1", b"", 0, b"ring 1 accepted nodes 9 links 1"),
    ("ring 2", b"", 0, b"ring 2 accepted nodes 17 links 1"),
    ("ring 11", b"", 0, b"ring 11 accepted nodes 89 links 1"),
    ("ring 25", b"", 0, b"ring 25 accepted nodes 201 links 1"),
    ("ring 2000", b"", 0, b"ring 2000 accepted nodes 16001 links 1"),
    ("ring 0", b"", 2, USAGE),
    ("ring 2001", b"", 2, USAGE),
    ("ring", b"", 2, USAGE),
]

# What the first words write of an input, and how the second answer to that.
AGAIN = [
    ("prove", REVERSE, "check", 0, b"accepted termination nodes 13 links 1"),
    ("upgrade", COMPOSED, "check", 0, b"accepted entailment nodes 8 links 1"),
    ("disprove", ACYCLIC, "model", 0, b"holds"),
]
