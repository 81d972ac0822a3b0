"""Proof files, and how `check` and `upgrade` answer them. Most places of flaws were counted by hand."""

# The plainest texts, and a fault of each kind.
FIRST = [
    (
        b"cyclist proof 1;\n"
        b"node true : emp |- true : emp by Done;\n"
        b"end;\n",
        0, b"accepted entailment nodes 1 links 0",
    ),
    (b"", 3, b"unreadable syntax token 0 line 1 column 1"),
    (b"a!\n", 3, b"unreadable byte offset 1 line 1 column 2"),
    (b"\xff\n", 3, b"unreadable utf8 offset 0 line 1 column 1"),
    (b"1234567890\n", 3, b"unreadable number offset 0 line 1 column 1"),
    (
        b"aaaa" * 16
        + b"a\n",
        3, b"unreadable name offset 0 line 1 column 1",
    ),
    (
        b"cyclist proof 1;\n"
        b"node true : $0 -> (nil) |- true : emp by Done;\n"
        b"end;\n",
        1, b"refused node 0 NotEmpty",
    ),
    (
        b"cyclist proof 1;\n"
        b"node true : emp |- true : emp by Done to 0;\n"
        b"end;\n",
        1, b"refused node 0 PremiseCount",
    ),
    (
        b"cyclist proof 1;\n"
        b"node true : emp |- true : emp by Done to 0;\n"
        b"end\n",
        3, b"unreadable syntax token 18 line 4 column 1",
    ),
    (
        b"cyclist proof 1;\n"
        b"node true : emp |- true : emp by Done to 0;\n"
        b"end",
        3, b"unreadable syntax token 18 line 3 column 4",
    ),
    (
        b"cyclist proof 1;\n"
        b"node true : emp |- true : emp by Done to 007;\n"
        b"end;\n",
        3, b"unreadable syntax token 15 line 2 column 42",
    ),
    (
        b"cyclist proof 1;\n"
        b"node true : emp |- true : emp by Done to 0;\n"
        b"end; end;\n",
        3, b"unreadable syntax token 19 line 3 column 6",
    ),
]

# Several atoms, disjuncts, fields, nodes and definitions, with and without blanks.
RIGHT = [
    (
        b"cyclist proof 1;\n"
        b"node $0 = nil, $0 != $1, nil = nil : emp |- true : emp by Done;\n"
        b"end;\n",
        0, b"accepted entailment nodes 1 links 0",
    ),
    (
        b"cyclist proof 1;\n"
        b"node nil = nil : emp |- true : emp by Weaken 0 to 1;\n"
        b"node true : emp |- true : emp by Done;\n"
        b"end;\n",
        0, b"accepted entailment nodes 2 links 0",
    ),
    (
        b"cyclist proof 1;\n"
        b"node true : emp |- nil != nil : emp or true : emp by Choose 1 to 1;\n"
        b"node true : emp |- true : emp by Done;\n"
        b"end;\n",
        0, b"accepted entailment nodes 2 links 0",
    ),
    (
        b"cyclist proof 1;\n"
        b"node true : $0 -> (nil, $1, $2) |- true : $0 -> (nil, $1, $2) by Frame 0 0 to 1;\n"
        b"node true : emp |- true : emp by Done;\n"
        b"end;\n",
        0, b"accepted entailment nodes 2 links 0",
    ),
    (
        b"cyclist proof 1;\n"
        b"node true : emp |- true : emp by Done;\n"
        b"node true : emp |- true : emp by Done;\n"
        b"end;\n",
        0, b"accepted entailment nodes 2 links 0",
    ),
    (
        b"cyclist proof 1; # a comment\r\n"
        b"\tnode true:emp|-true:emp by Done;end;# the end",
        0, b"accepted entailment nodes 1 links 0",
    ),
    (b"cyclist proof 1;node true:emp|-true:emp by Done;end;", 0, b"accepted entailment nodes 1 links 0"),
    (
        b"cyclist proof 1;\n"
        b"pred Done(0) { true : emp };\n"
        b"node true : Done() |- true : emp by Unfold 0 to 1;\n"
        b"node true : emp |- true : emp by Done;\n"
        b"end;\n",
        0, b"accepted entailment nodes 2 links 0",
    ),
    (
        b"cyclist proof 1;\n"
        b"pred a(0) { true : b() };\n"
        b"pred b(0) { true : emp };\n"
        b"node true : emp |- true : emp by Done;\n"
        b"end;\n",
        0, b"accepted entailment nodes 1 links 0",
    ),
    (
        b"cyclist proof 1;\n"
        b"pred \xc3\xa9t\xc3\xa9(0) { true : emp | true : \xc3\xa9t\xc3\xa9() };\n"
        b"node true : emp |- true : emp by Done;\n"
        b"end;\n",
        0, b"accepted entailment nodes 1 links 0",
    ),
    (
        b"cyclist proof 1;\n"
        b"node true : nil -> (nil) |- nil != nil : emp by Absurd;\n"
        b"end;\n",
        0, b"accepted entailment nodes 1 links 0",
    ),
    (
        b"cyclist proof 1;\n"
        b"node $3 != $3 : emp |- nil != nil : emp by Absurd;\n"
        b"end;\n",
        0, b"accepted entailment nodes 1 links 0",
    ),
    (
        b"cyclist proof 1;\n"
        b"node true : $0 -> ($1) * $2 -> (nil) * $0 -> (nil) |- nil != nil : emp by Absurd;\n"
        b"end;\n",
        0, b"accepted entailment nodes 1 links 0",
    ),
]

# The first bad place, though the grammar may fail before it.
TOKENS = [
    (
        b"cyclist proof 1;\n"
        b"node ! true",
        3, b"unreadable byte offset 22 line 2 column 6",
    ),
    (
        b"cyclist proof 1;\n"
        b"node \xc3\xa9 \xe2\x82\xac",
        3, b"unreadable byte offset 25 line 2 column 8",
    ),
    (
        b"cyclist proof 1;\n"
        b"node true \xff",
        3, b"unreadable utf8 offset 27 line 2 column 11",
    ),
    (b"# \xc3(\n", 3, b"unreadable utf8 offset 2 line 1 column 3"),
    (b"cyclist proof 1234567890;", 3, b"unreadable number offset 14 line 1 column 15"),
    (b"proof cyclist @", 3, b"unreadable byte offset 14 line 1 column 15"),
    (b"a - b", 3, b"unreadable byte offset 2 line 1 column 3"),
    (
        b"a\n"
        b"\r\n"
        b"b "
        + b"xxxx" * 16
        + b"x",
        3, b"unreadable name offset 6 line 3 column 3",
    ),
]

# The first token with which no text begins.
GRAMMAR = [
    (b"cyclist", 3, b"unreadable syntax token 1 line 1 column 8"),
    (
        b"cyclist proof 4;\n"
        b"node true : emp |- true : emp by Done;\n"
        b"end;\n",
        3, b"unreadable syntax token 2 line 1 column 15",
    ),
    (
        b"cyclist proof 01;\n"
        b"node true : emp |- true : emp by Done;\n"
        b"end;\n",
        3, b"unreadable syntax token 2 line 1 column 15",
    ),
    (
        b"cyclist proof 1;\n"
        b"end;\n",
        3, b"unreadable syntax token 4 line 2 column 1",
    ),
    (
        b"cyclist proof 1;\n"
        b"node true, nil = nil : emp |- true : emp by Done;\n"
        b"end;\n",
        3, b"unreadable syntax token 6 line 2 column 10",
    ),
    (
        b"cyclist proof 1;\n"
        b"node nil = : emp |- true : emp by Done;\n"
        b"end;\n",
        3, b"unreadable syntax token 7 line 2 column 12",
    ),
    (
        b"cyclist proof 1;\n"
        b"node $0 = ?0 : emp |- true : emp by Done;\n"
        b"end;\n",
        3, b"unreadable syntax token 8 line 2 column 11",
    ),
    (
        b"cyclist proof 1;\n"
        b"node true : emp true |- true : emp by Done;\n"
        b"end;\n",
        3, b"unreadable syntax token 8 line 2 column 17",
    ),
    (
        b"cyclist proof 1;\n"
        b"node true : $0 -> () |- true : emp by Done;\n"
        b"end;\n",
        3, b"unreadable syntax token 11 line 2 column 20",
    ),
    (
        b"cyclist proof 1;\n"
        b"node true : emp |- true : emp or by Done;\n"
        b"end;\n",
        3, b"unreadable syntax token 13 line 2 column 34",
    ),
    (
        b"cyclist proof 1;\n"
        b"node true : emp |- true : emp by done;\n"
        b"end;\n",
        3, b"unreadable syntax token 13 line 2 column 34",
    ),
    (
        b"cyclist proof 1;\n"
        b"node true : emp |- true : emp by Done to;\n"
        b"end;\n",
        3, b"unreadable syntax token 15 line 2 column 41",
    ),
    (
        b"cyclist proof 1;\n"
        b"node true : emp |- true : emp by Weaken;\n"
        b"end;\n",
        3, b"unreadable syntax token 14 line 2 column 40",
    ),
    (
        b"cyclist proof 1;\n"
        b"node true : emp |- true : emp by Done\n"
        b"end;\n",
        3, b"unreadable syntax token 14 line 3 column 1",
    ),
    (
        b"cyclist proof 1;\n"
        b"pred from(0) { true : emp };\n"
        b"node true : emp |- true : emp by Done;\n"
        b"end;\n",
        3, b"unreadable syntax token 5 line 2 column 6",
    ),
    (
        b"cyclist proof 1;\n"
        b"pred p(0) { };\n"
        b"node true : emp |- true : emp by Done;\n"
        b"end;\n",
        3, b"unreadable syntax token 10 line 2 column 13",
    ),
    (
        b"cyclist proof 1;\n"
        b"node true : emp |- true : emp by Done;\n"
        b"pred p(0) { true : emp };\n"
        b"end;\n",
        3, b"unreadable syntax token 15 line 3 column 1",
    ),
    (
        b"cyclist proof 1;\n"
        b"pred p(9) { true : emp };\n"
        b"node true : emp |- true : emp by Done;\n"
        b"end",
        3, b"unreadable syntax token 27 line 4 column 4",
    ),
]

# What is ill-formed, and what passes a limit, at its token.
SAID = [
    (
        b"cyclist proof 1;\n"
        b"pred p(1) { $1 = nil : emp };\n"
        b"node true : emp |- true : emp by Done;\n"
        b"end;\n",
        4, b"ill-formed parameter token 11 line 2 column 14",
    ),
    (
        b"cyclist proof 1;\n"
        b"node true : q() |- true : emp by Done;\n"
        b"end;\n",
        4, b"ill-formed unknown token 7 line 2 column 13",
    ),
    (
        b"cyclist proof 1;\n"
        b"node true:zz()|-true:emp by Done;\n"
        b"end;",
        4, b"ill-formed unknown token 7 line 2 column 11",
    ),
    (
        b"cyclist proof 1;\n"
        b"pred p(1) { true : emp };\n"
        b"node true : p() |- true : emp by Done;\n"
        b"end;\n",
        4, b"ill-formed arity token 18 line 3 column 13",
    ),
    (
        b"cyclist proof 1;\n"
        b"pred p(0) { true : q() };\n"
        b"pred p(0) { true : emp };\n"
        b"node true : emp |- true : emp by Done;\n"
        b"end;\n",
        4, b"ill-formed unknown token 12 line 2 column 20",
    ),
    (
        b"cyclist proof 1;\n"
        b"pred p(0) { true : emp };\n"
        b"pred p(0) { true : q() };\n"
        b"node true : emp |- true : emp by Done;\n"
        b"end;\n",
        4, b"ill-formed duplicate token 16 line 3 column 6",
    ),
    (
        b"cyclist proof 1;\n"
        b"node true : emp |- true : emp by Cut [] true : q() to 0 0;\n"
        b"end;\n",
        4, b"ill-formed unknown token 18 line 2 column 48",
    ),
    (
        b"cyclist proof 1;\n"
        b"pred p(9) { true : emp };\n"
        b"node true : emp |- true : emp by Done;\n"
        b"end;\n",
        5, b"limit arguments token 7 line 2 column 8",
    ),
    (
        b"cyclist proof 1;\n"
        b"pred p(0) { true : ?16 -> (nil) };\n"
        b"node true : emp |- true : emp by Done;\n"
        b"end;\n",
        5, b"limit locals token 13 line 2 column 21",
    ),
    (
        b"cyclist proof 1;\n"
        b"node $65535 = nil : emp |- true : emp by Done;\n"
        b"end;\n",
        5, b"limit variable token 6 line 2 column 7",
    ),
    (
        b"cyclist proof 1;\n"
        b"node true : emp |- true : emp by Instantiate ?65535 nil to 0;\n"
        b"end;\n",
        5, b"limit variable token 15 line 2 column 47",
    ),
    (
        b"cyclist proof 1;\n"
        b"node true : $0 -> ("
        + b"nil, " * 8
        + b"nil) |- true : emp by Done;\n"
        b"end;\n",
        5, b"limit arguments token 27 line 2 column 60",
    ),
    (
        b"cyclist proof 1;\n"
        b"node true : emp |- true : emp by Link 0 { $65535 := nil } [] [0];\n"
        b"end;\n",
        5, b"limit variable token 17 line 2 column 44",
    ),
]

# The least node that is not right, with its first fault.
NODES = [
    (
        b"cyclist proof 1;\n"
        b"node true : $0 -> (nil) |- true : emp by Done;\n"
        b"node true : emp |- true : $0 -> (nil) by Done to 1;\n"
        b"end;\n",
        1, b"refused node 0 NotEmpty",
    ),
    (
        b"cyclist proof 1;\n"
        b"node true : emp |- true : emp by Done;\n"
        b"node true : emp |- true : $0 -> (nil) by Done;\n"
        b"node nil != nil : emp |- true : emp by Frame 0 0;\n"
        b"end;\n",
        1, b"refused node 1 NotEmpty",
    ),
    (
        b"cyclist proof 1;\n"
        b"node nil = nil : emp |- true : emp by Weaken 0 to 0;\n"
        b"end;\n",
        1, b"refused node 0 NoSuchNode",
    ),
    (
        b"cyclist proof 1;\n"
        b"node nil = nil : emp |- true : emp by Weaken 0 to 2;\n"
        b"node true : emp |- true : emp by Done;\n"
        b"end;\n",
        1, b"refused node 0 NoSuchNode",
    ),
    (
        b"cyclist proof 1;\n"
        b"node nil = nil : emp |- true : emp by Weaken 0 to 1;\n"
        b"node nil = nil : emp |- true : emp by Done;\n"
        b"end;\n",
        1, b"refused node 0 PremiseDiffers 0",
    ),
    (
        b"cyclist proof 1;\n"
        b"node nil = nil : emp |- true : emp by Weaken 1 to 1;\n"
        b"node true : emp |- true : emp by Done;\n"
        b"end;\n",
        1, b"refused node 0 NoSuchAtom",
    ),
    (
        b"cyclist proof 1;\n"
        b"node true : emp |- true : emp or true : emp by Choose 2 to 1;\n"
        b"node true : emp |- true : emp by Done;\n"
        b"end;\n",
        1, b"refused node 0 NoSuchAtom",
    ),
    (
        b"cyclist proof 1;\n"
        b"node true : emp |- true : emp or true : emp by Done;\n"
        b"end;\n",
        1, b"refused node 0 NotSingle",
    ),
]

# Accepted files, each in the written form.
ACCEPTED = [
    (
        b"cyclist proof 1;\n"
        b"node true : $0 -> (nil) |- $0 != nil : $0 -> (nil) or true : emp by Choose 0 to 1;\n"
        b"node true : $0 -> (nil) |- $0 != nil : $0 -> (nil) by Distinct 0 0 to 2;\n"
        b"node $0 != nil : $0 -> (nil) |- $0 != nil : $0 -> (nil) by PureRight 0 to 3;\n"
        b"node $0 != nil : $0 -> (nil) |- true : $0 -> (nil) by Frame 0 0 to 4;\n"
        b"node $0 != nil : emp |- true : emp by Done;\n"
        b"end;\n",
        0, b"accepted entailment nodes 5 links 0",
    ),
    (
        b"cyclist proof 1;\n"
        b"node true : $0 -> ($1) |- true : $0 -> ($1) by Frame 0 0 to 1;\n"
        b"node true : emp |- true : emp by Done;\n"
        b"end;\n",
        0, b"accepted entailment nodes 2 links 0",
    ),
    (
        b"cyclist proof 1;\n"
        b"node $0 = $1 : $0 -> ($1) |- true : $1 -> (?0) by Rewrite 0 left to 1;\n"
        b"node true : $1 -> ($1) |- true : $1 -> (?0) by Instantiate ?0 $1 to 2;\n"
        b"node true : $1 -> ($1) |- true : $1 -> ($1) by Frame 0 0 to 3;\n"
        b"node true : emp |- true : emp by Done;\n"
        b"end;\n",
        0, b"accepted entailment nodes 4 links 0",
    ),
    (
        b"cyclist proof 1;\n"
        b"node true :"
        + b" nil -> (nil) *" * 15
        + b" nil -> (nil) |- true : emp by Absurd;\n"
        b"end;\n",
        0, b"accepted entailment nodes 1 links 0",
    ),
    (
        b"cyclist proof 1;\n"
        b"node nil != nil : emp |-"
        + b" true : emp or" * 15
        + b" true : emp by Absurd;\n"
        b"end;\n",
        0, b"accepted entailment nodes 1 links 0",
    ),
    (
        b"cyclist proof 1;\n"
        b"node"
        + b" nil = nil," * 63
        + b" nil = nil : emp |- true : emp by Done;\n"
        b"end;\n",
        0, b"accepted entailment nodes 1 links 0",
    ),
    (
        b"cyclist proof 1;\n"
        b"pred e(1) { $0 = nil : emp };\n"
        b"node true : e($0) |- $0 = nil : emp by Unfold 0 to 1;\n"
        b"node $0 = nil : emp |- $0 = nil : emp by Rewrite 0 left to 2;\n"
        b"node true : emp |- nil = nil : emp by PureRight 0 to 3;\n"
        b"node true : emp |- true : emp by Done;\n"
        b"end;\n",
        0, b"accepted entailment nodes 4 links 0",
    ),
    (
        b"cyclist proof 1;\n"
        b"node true : $0 -> (nil) |- true : $0 -> (nil) by Cut [0] true : $0 -> (nil) to 1 1;\n"
        b"node true : $0 -> (nil) |- true : $0 -> (nil) by Frame 0 0 to 2;\n"
        b"node true : emp |- true : emp by Done;\n"
        b"end;\n",
        0, b"accepted entailment nodes 3 links 0",
    ),
    (
        b"cyclist proof 1;\n"
        b"node true : emp |- true : emp by Done;\n"
        b"node true : emp |- true : emp by Link 1 { } [] [0];\n"
        b"end;\n",
        0, b"accepted entailment nodes 2 links 1",
    ),
    (
        b"cyclist proof 1;\n"
        b"pred ls(2) { $0 = $1 : emp | true : $0 -> (?0) * ls(?0, $1) };\n"
        b"node true : ls($0, $1) * ls($1, $2) |- true : ls($0, $2) by Unfold 0 to 1 4;\n"
        b"node $0 = $1 : ls($1, $2) |- true : ls($0, $2) by Rewrite 0 left to 2;\n"
        b"node true : ls($1, $2) |- true : ls($1, $2) by Frame 0 0 to 3;\n"
        b"node true : emp |- true : emp by Done;\n"
        b"node true : ls($1, $2) * $0 -> ($3) * ls($3, $1) |- true : ls($0, $2) by UnfoldRight 0 1 to 5;\n"
        b"node true : ls($1, $2) * $0 -> ($3) * ls($3, $1) |- true : $0 -> (?0) * ls(?0, $2) by "
        b"Instantiate ?0 $3 to 6;\n"
        b"node true : ls($1, $2) * $0 -> ($3) * ls($3, $1) |- true : $0 -> ($3) * ls($3, $2) by Frame 1 0 to 7;\n"
        b"node true : ls($1, $2) * ls($3, $1) |- true : ls($3, $2) by Link 0 { $0 := $3, $1 := $1, $2 "
        b":= $2 } [1 0] [0];\n"
        b"end;\n",
        0, b"accepted entailment nodes 8 links 1",
    ),
    (
        b"cyclist proof 1;\n"
        b"pred p(1) { true : $0 -> (?0) * p(?0) };\n"
        b"node true : p($0) |- nil != nil : emp by Unfold 0 to 1;\n"
        b"node true : $0 -> ($1) * p($1) |- nil != nil : emp by Cut [1] nil != nil : emp to 2 3;\n"
        b"node true : p($1) |- nil != nil : emp by Link 0 { $0 := $1 } [0] [0];\n"
        b"node nil != nil : $0 -> ($1) |- nil != nil : emp by Absurd;\n"
        b"end;\n",
        0, b"accepted entailment nodes 4 links 1",
    ),
]

# Claims that programs halt: two that hold, and two with a faulty node.
PROGRAMS = [
    (
        b"cyclist proof 1;\n"
        b"pred list(1) { $0 = nil : emp | true : $0 -> (?0) * list(?0) };\n"
        b"line 1 : if $0 = nil goto 4;\n"
        b"line 2 : $0 := $0.1;\n"
        b"line 3 : goto 1;\n"
        b"line 4 : stop;\n"
        b"node from 1 given true : list($0) by Exec to 1 2;\n"
        b"node from 4 given $0 = nil : list($0) by Exec;\n"
        b"node from 2 given $0 != nil : list($0) by Unfold 0 to 3 5;\n"
        b"node from 2 given $0 != nil, $0 = nil : emp by Rewrite 1 left to 4;\n"
        b"node from 2 given nil != nil, $0 = nil : emp by Absurd;\n"
        b"node from 2 given $0 != nil : $0 -> ($1) * list($1) by Exec to 6;\n"
        b"node from 3 given $2 != nil, $0 = $1 : $2 -> ($1) * list($1) by Rewrite 1 right to 7;\n"
        b"node from 3 given $2 != nil : $2 -> ($0) * list($0) by Exec to 8;\n"
        b"node from 1 given $2 != nil : $2 -> ($0) * list($0) by Link 0 { $0 := $0 } [1] [];\n"
        b"end;\n",
        0, b"accepted termination nodes 9 links 1",
    ),
    (
        b"cyclist proof 1;\n"
        b"line 1 : stop;\n"
        b"node from 1 given true : $0 -> (nil) by Drop 0 to 1;\n"
        b"node from 1 given true : emp by Exec;\n"
        b"end;\n",
        0, b"accepted termination nodes 2 links 0",
    ),
    (
        b"cyclist proof 1;\n"
        b"line 1 : free $0;\n"
        b"line 2 : $1 := new 1;\n"
        b"line 3 : if $0 = $1 goto 5;\n"
        b"line 4 : stop;\n"
        b"line 5 : free nil;\n"
        b"line 6 : stop;\n"
        b"node from 1 given true : $0 -> ($2) by Exec to 1;\n"
        b"node from 2 given true : emp by Exec to 2;\n"
        b"node from 3 given $0 != $1 : $1 -> ($3) by Exec to 3 4;\n"
        b"node from 5 given $0 != $1, $0 = $1 : $1 -> ($3) by Rewrite 1 left to 5;\n"
        b"node from 4 given $0 != $1, $0 != $1 : $1 -> ($3) by Exec;\n"
        b"node from 5 given $1 != $1, $0 = $1 : $1 -> ($3) by Absurd;\n"
        b"end;\n",
        1, b"refused node 1 PremiseDiffers 0",
    ),
    (
        b"cyclist proof 1;\n"
        b"line 1 : free $0;\n"
        b"line 2 : free $0;\n"
        b"line 3 : stop;\n"
        b"node from 1 given true : $0 -> ($1) by Exec to 1;\n"
        b"node from 2 given true : emp by Exec to 2;\n"
        b"node from 3 given true : emp by Exec;\n"
        b"end;\n",
        1, b"refused node 1 NoCell",
    ),
    (
        b"cyclist proof 2;\n"
        b"pred list(1) { $0 = nil : emp | true : $0 -> (?0) * list(?0) };\n"
        b"line 1 : if $0 = nil goto 5;\n"
        b"line 2 : if * goto 5;\n"
        b"line 3 : $0 := $0.1;\n"
        b"line 4 : goto 1;\n"
        b"line 5 : stop;\n"
        b"node from 1 given true : list($0) by Exec to 1 2;\n"
        b"node from 5 given $0 = nil : list($0) by Exec;\n"
        b"node from 2 given $0 != nil : list($0) by Exec to 3 4;\n"
        b"node from 5 given $0 != nil : list($0) by Exec;\n"
        b"node from 3 given $0 != nil : list($0) by Unfold 0 to 5 7;\n"
        b"node from 3 given $0 != nil, $0 = nil : emp by Rewrite 1 left to 6;\n"
        b"node from 3 given nil != nil, $0 = nil : emp by Absurd;\n"
        b"node from 3 given $0 != nil : $0 -> ($1) * list($1) by Exec to 8;\n"
        b"node from 4 given $2 != nil, $0 = $1 : $2 -> ($1) * list($1) by Rewrite 1 right to 9;\n"
        b"node from 4 given $2 != nil : $2 -> ($0) * list($0) by Exec to 10;\n"
        b"node from 1 given $2 != nil : $2 -> ($0) * list($0) by Link 0 { $0 := $0 } [1] [];\n"
        b"end;\n",
        0, b"accepted termination nodes 11 links 1",
    ),
    (
        b"cyclist proof 2;\n"
        b"line 1 : if * goto 1;\n"
        b"line 2 : stop;\n"
        b"node from 1 given true : emp by Exec to 1 2;\n"
        b"node from 1 given true : emp by Link 0 { } [] [];\n"
        b"node from 2 given true : emp by Exec;\n"
        b"end;\n",
        1, b"refused path stem cycle 0.0 1.0",
    ),
    (
        b"cyclist proof 2;\n"
        b"line 1 : if * goto 2;\n"
        b"line 2 : stop;\n"
        b"node from 1 given true : emp by Exec to 1;\n"
        b"node from 2 given true : emp by Exec;\n"
        b"end;\n",
        1, b"refused node 0 PremiseCount",
    ),
]

# Programs that are no programs.
ILL_PROGRAMS = [
    (
        b"cyclist proof 1;\n"
        b"line 1 : goto 2;\n"
        b"node true : emp |- true : emp by Done;\n"
        b"end;\n",
        4, b"ill-formed jump token 8 line 2 column 15",
    ),
    (
        b"cyclist proof 1;\n"
        b"line 1 : free nil;\n"
        b"node true : emp |- true : emp by Done;\n"
        b"end;\n",
        4, b"ill-formed falls-off token 4 line 2 column 1",
    ),
    (
        b"cyclist proof 1;\n"
        b"line 2 : stop;\n"
        b"node true : emp |- true : emp by Done;\n"
        b"end;\n",
        4, b"ill-formed numbering token 5 line 2 column 6",
    ),
    (
        b"cyclist proof 2;\n"
        b"line 1 : if * goto 0;\n"
        b"line 2 : stop;\n"
        b"node true : emp |- true : emp by Done;\n"
        b"end;\n",
        4, b"ill-formed jump token 10 line 2 column 20",
    ),
    (
        b"cyclist proof 2;\n"
        b"line 1 : if * goto 1;\n"
        b"node true : emp |- true : emp by Done;\n"
        b"end;\n",
        4, b"ill-formed falls-off token 4 line 2 column 1",
    ),
    (
        b"cyclist proof 1;\n"
        b"line 1 : if * goto 1;\n"
        b"line 2 : stop;\n"
        b"node true : emp |- true : emp by Done;\n"
        b"end;\n",
        3, b"unreadable syntax token 8 line 2 column 13",
    ),
]

# As many spatial atoms as a version has, and one more; also in a Cut; and what is no version.
VERSIONS = [
    (
        b"cyclist proof 2;\n"
        b"node true :"
        + b" nil -> (nil) *" * 31
        + b" nil -> (nil) |- true : emp by Absurd;\n"
        b"end;\n",
        0, b"accepted entailment nodes 1 links 0",
    ),
    (
        b"cyclist proof 2;\n"
        b"node true :"
        + b" nil -> (nil) *" * 32
        + b" nil -> (nil) |- true : emp by Absurd;\n"
        b"end;\n",
        5, b"limit spatial token 199 line 2 column 493",
    ),
    (
        b"cyclist proof 1;\n"
        b"node true :"
        + b" nil -> (nil) *" * 15
        + b" nil -> (nil) |- true : emp by Absurd;\n"
        b"end;\n",
        0, b"accepted entailment nodes 1 links 0",
    ),
    (
        b"cyclist proof 1;\n"
        b"node true :"
        + b" nil -> (nil) *" * 16
        + b" nil -> (nil) |- true : emp by Absurd;\n"
        b"end;\n",
        5, b"limit spatial token 103 line 2 column 253",
    ),
    (
        b"cyclist proof 2;\n"
        b"node true :"
        + b" nil -> (nil) *" * 16
        + b" nil -> (nil) |- true : emp by Absurd;\n"
        b"end;\n",
        0, b"accepted entailment nodes 1 links 0",
    ),
    (
        b"cyclist proof 2;\n"
        b"node true : nil -> (nil) |- true : emp by Cut [0] true :"
        + b" nil -> (nil) *" * 16
        + b" nil -> (nil) to 1 2;\n"
        b"node true : nil -> (nil) |- true :"
        + b" nil -> (nil) *" * 16
        + b" nil -> (nil) by Absurd;\n"
        b"node true :"
        + b" nil -> (nil) *" * 16
        + b" nil -> (nil) |- true : emp by Absurd;\n"
        b"end;\n",
        0, b"accepted entailment nodes 3 links 0",
    ),
    (
        b"cyclist proof 4;\n"
        b"node true : emp |- true : emp by Done;\n"
        b"end;\n",
        3, b"unreadable syntax token 2 line 1 column 15",
    ),
    (
        b"cyclist proof 01;\n"
        b"node true : emp |- true : emp by Done;\n"
        b"end;\n",
        3, b"unreadable syntax token 2 line 1 column 15",
    ),
]

# Numbers of atoms and nodes that are not there, a node without end, and a loop that node 0 does not reach.
NUMBERS = [
    (
        b"cyclist proof 1;\n"
        b"node true : emp |- true : emp by Done to 007;\n"
        b"end;\n",
        3, b"unreadable syntax token 15 line 2 column 42",
    ),
    (
        b"cyclist proof 1;\n"
        b"node true : emp |- true : emp by Unfold 999999999 to 1;\n"
        b"end;\n",
        1, b"refused node 0 NoSuchAtom",
    ),
    (
        b"cyclist proof 1;\n"
        b"node true : emp |- true : emp by Link 999999999 { } [] [0];\n"
        b"end;\n",
        1, b"refused node 0 NoSuchNode",
    ),
    (
        b"cyclist proof 1;\n"
        b"node true : $0 -> (nil) |- true : $0 -> (nil) by Frame 0 0 to 0;\n"
        b"end;\n",
        1, b"refused node 0 NoSuchNode",
    ),
    (
        b"cyclist proof 1;\n"
        b"node true : emp |- true : emp by Done;\n"
        b"node true : emp |- true : emp by Link 1 { } [] [0];\n"
        b"end;\n",
        0, b"accepted entailment nodes 2 links 1",
    ),
]

# Links whose lists name a thing twice, too few or too many.
LINKS = [
    (
        b"cyclist proof 1;\n"
        b"pred p(1) { true : p($0) };\n"
        b"node true : p($0) * p($0) |- true : emp by Link 0 { $0 := $0 } [0 0] [0];\n"
        b"end;\n",
        1, b"refused node 0 LinkSpatial 1",
    ),
    (
        b"cyclist proof 1;\n"
        b"pred p(1) { true : p($0) };\n"
        b"node true : p($0) * p($0) |- true : emp by Link 0 { $0 := $0 } [0] [0];\n"
        b"end;\n",
        1, b"refused node 0 LinkSpatial 1",
    ),
    (
        b"cyclist proof 1;\n"
        b"pred p(1) { true : p($0) };\n"
        b"node true : p($0) * p($0) |- true : emp by Link 0 { $0 := $0 } [0 1 1] [0];\n"
        b"end;\n",
        1, b"refused node 0 LinkSpatial 2",
    ),
    (
        b"cyclist proof 1;\n"
        b"pred p(1) { true : p($0) };\n"
        b"node true : p($0) * p($0) |- true : emp by Link 0 { $0 := $0 } [1 0] [0 0];\n"
        b"end;\n",
        1, b"refused node 0 LinkDisjunct 1",
    ),
    (
        b"cyclist proof 1;\n"
        b"pred p(1) { true : p($0) };\n"
        b"node true : p($0) * p($0) |- true : emp by Link 0 { $0 := $0 } [1 0] [7];\n"
        b"end;\n",
        1, b"refused node 0 LinkDisjunct 0",
    ),
    (
        b"cyclist proof 1;\n"
        b"pred p(1) { true : p($0) };\n"
        b"node true : p($0) * p($0) |- true : emp by Link 0 { $0 := $0 } [1 0] [0];\n"
        b"end;\n",
        1, b"refused path stem cycle 0.0",
    ),
    (
        b"cyclist proof 1;\n"
        b"pred p(1) { true : p($0) };\n"
        b"node true : p($0) * p($0) |- true : emp by Link 0 { $0 := $0, $0 := nil } [1 0] [0];\n"
        b"end;\n",
        1, b"refused path stem cycle 0.0",
    ),
]

# Counts at their limits, and one above.
COUNTS = [
    (
        b"cyclist proof 1;\n"
        b"node nil != nil : emp |-"
        + b" true : emp or" * 15
        + b" true : emp by Absurd;\n"
        b"end;\n",
        0, b"accepted entailment nodes 1 links 0",
    ),
    (
        b"cyclist proof 1;\n"
        b"node nil != nil : emp |-"
        + b" true : emp or" * 16
        + b" true : emp by Absurd;\n"
        b"end;\n",
        5, b"limit disjuncts token 75 line 2 column 250",
    ),
    (
        b"cyclist proof 1;\n"
        b"node true : nil -> ("
        + b"nil, " * 8
        + b"nil) |- true : emp by Absurd;\n"
        b"end;\n",
        5, b"limit arguments token 26 line 2 column 61",
    ),
    (
        b"cyclist proof 1;\n"
        b"node true : $65535 -> (nil) |- true : emp by Absurd;\n"
        b"end;\n",
        5, b"limit variable token 8 line 2 column 14",
    ),
    (
        b"cyclist proof 1;\n"
        b"node"
        + b" nil = nil," * 63
        + b" nil = nil : emp |- true : emp by Done;\n"
        b"end;\n",
        0, b"accepted entailment nodes 1 links 0",
    ),
    (
        b"cyclist proof 1;\n"
        b"node"
        + b" nil = nil," * 64
        + b" nil = nil : emp |- true : emp by Done;\n"
        b"end;\n",
        5, b"limit pure token 261 line 2 column 710",
    ),
]

# What is said of each: the least node that is not right, before any path is looked at.
VERDICTS = [
    # The predicate is unfolded on the cycle, so its trace progresses.
    (
        b"cyclist proof 1;\n"
        b"pred p(1) { true : $0 -> (?0) * p(?0) };\n"
        b"node true : p($0) |- nil != nil : emp by Unfold 0 to 1;\n"
        b"node true : $0 -> ($1) * p($1) |- nil != nil : emp by Cut [1] nil != nil : emp to 2 3;\n"
        b"node true : p($1) |- nil != nil : emp by Link 0 { $0 := $1 } [0] [0];\n"
        b"node nil != nil : $0 -> ($1) |- nil != nil : emp by Absurd;\n"
        b"end;",
        0, b"accepted entailment nodes 4 links 1",
    ),
    # A walk along a list halts.
    (
        b"cyclist proof 1;\n"
        b"pred list(1) { $0 = nil : emp | true : $0 -> (?0) * list(?0) };\n"
        b"line 1 : if $0 = nil goto 4;\n"
        b"line 2 : $0 := $0.1;\n"
        b"line 3 : goto 1;\n"
        b"line 4 : stop;\n"
        b"node from 1 given true : list($0) by Exec to 1 2;\n"
        b"node from 4 given $0 = nil : list($0) by Exec;\n"
        b"node from 2 given $0 != nil : list($0) by Unfold 0 to 3 5;\n"
        b"node from 2 given $0 != nil, $0 = nil : emp by Rewrite 1 left to 4;\n"
        b"node from 2 given nil != nil, $0 = nil : emp by Absurd;\n"
        b"node from 2 given $0 != nil : $0 -> ($1) * list($1) by Exec to 6;\n"
        b"node from 3 given $2 != nil, $0 = $1 : $2 -> ($1) * list($1) by Rewrite 1 right to 7;\n"
        b"node from 3 given $2 != nil : $2 -> ($0) * list($0) by Exec to 8;\n"
        b"node from 1 given $2 != nil : $2 -> ($0) * list($0) by Link 0 { $0 := $0 } [1] [];\n"
        b"end;",
        0, b"accepted termination nodes 9 links 1",
    ),
    # The second free finds no cell. The node after it is wrong too, but not the least.
    (
        b"cyclist proof 1;\n"
        b"line 1 : free $0;\n"
        b"line 2 : free $0;\n"
        b"line 3 : stop;\n"
        b"node from 1 given true : $0 -> ($1) by Exec to 1;\n"
        b"node from 2 given true : emp by Exec to 2;\n"
        b"node from 3 given true : emp by Drop 0 to 3;\n"
        b"node from 3 given true : emp by Exec;\n"
        b"end;",
        1, b"refused node 1 NoCell",
    ),
    # A node that is no premise of another has to be right too.
    (
        b"cyclist proof 1;\n"
        b"node true : emp |- true : emp by Done;\n"
        b"node true : $0 -> (nil) |- true : emp by Done;\n"
        b"end;",
        1, b"refused node 1 NotEmpty",
    ),
    # Both premises are one node, which is the first of the two.
    (
        b"cyclist proof 1;\n"
        b"node true : emp |- true : emp by Split $0 $1 to 1 1;\n"
        b"node $0 = $1 : emp |- true : emp by Done;\n"
        b"end;",
        1, b"refused node 0 PremiseDiffers 1",
    ),
    # A premise has to come after its node, and a link has none.
    (b"cyclist proof 1; node nil = nil : emp |- true : emp by Weaken 0 to 0; end;", 1, b"refused node 0 NoSuchNode"),
    (
        b"cyclist proof 1; node true : emp |- true : emp by Link 0 { } [] [0] to 0; end;",
        1, b"refused node 0 PremiseCount",
    ),
    # Nothing is unfolded on the cycle; what is unfolded at node 1 is off it.
    (
        b"cyclist proof 1;\n"
        b"pred list(1) { $0 = nil : emp | true : $0 -> (?0) * list(?0) };\n"
        b"node true : list($0) |- true : emp by Split $0 nil to 1 5;\n"
        b"node $0 = nil : list($0) |- true : emp by Unfold 0 to 2 3;\n"
        b"node $0 = nil, $0 = nil : emp |- true : emp by Done;\n"
        b"node $0 = nil : $0 -> ($1) * list($1) |- true : emp by Rewrite 0 left to 4;\n"
        b"node true : nil -> ($1) * list($1) |- true : emp by Absurd;\n"
        b"node $0 != nil : list($0) |- true : emp by Weaken 0 to 6;\n"
        b"node true : list($0) |- true : emp by Link 0 { $0 := $0 } [0] [0];\n"
        b"end;",
        1, b"refused path stem cycle 0.1 5.0 6.0",
    ),
    # A link to its own node.
    (
        b"cyclist proof 1;\n"
        b"node nil = nil : emp |- true : emp by Weaken 0 to 1;\n"
        b"node true : emp |- true : emp by Link 1 { } [] [0];\n"
        b"end;",
        1, b"refused path stem 0.0 cycle 1.0",
    ),
]

# The first flaw of lines, of judgements that start from a line, and of definitions and nodes.
FLAWS = [
    (
        b"cyclist proof 1;\n"
        b"line 2 : stop;\n"
        b"node true : emp |- true : emp by Done;\n"
        b"end;",
        4, b"ill-formed numbering token 5 line 2 column 6",
    ),
    (
        b"cyclist proof 1;\n"
        b"line 1 : goto 2;\n"
        b"line 1 : stop;\n"
        b"node true : emp |- true : emp by Done;\n"
        b"end;",
        4, b"ill-formed numbering token 11 line 3 column 6",
    ),
    (
        b"cyclist proof 1;\n"
        b"line 1 : goto 0;\n"
        b"node true : emp |- true : emp by Done;\n"
        b"end;",
        4, b"ill-formed jump token 8 line 2 column 15",
    ),
    (
        b"cyclist proof 1;\n"
        b"line 1 : goto 2;\n"
        b"node true : emp |- true : emp by Done;\n"
        b"end;",
        4, b"ill-formed jump token 8 line 2 column 15",
    ),
    (
        b"cyclist proof 1;\n"
        b"line 1 : if $0 = nil goto 3;\n"
        b"line 2 : stop;\n"
        b"node true : emp |- true : emp by Done;\n"
        b"end;",
        4, b"ill-formed jump token 13 line 2 column 27",
    ),
    (
        b"cyclist proof 1;\n"
        b"line 1 : $0 := nil;\n"
        b"node true : emp |- true : emp by Done;\n"
        b"end;",
        4, b"ill-formed falls-off token 4 line 2 column 1",
    ),
    (
        b"cyclist proof 1;\n"
        b"line 7 : free $64;\n"
        b"node true : emp |- true : emp by Done;\n"
        b"end;",
        4, b"ill-formed falls-off token 4 line 2 column 1",
    ),
    (
        b"cyclist proof 1;\n"
        b"line 1 : free $64;\n"
        b"line 2 : stop;\n"
        b"node true : emp |- true : emp by Done;\n"
        b"end;",
        5, b"limit program-variables token 9 line 2 column 16",
    ),
    (
        b"cyclist proof 1;\n"
        b"line 1 : $63.8 := $64;\n"
        b"line 2 : stop;\n"
        b"node true : emp |- true : emp by Done;\n"
        b"end;",
        5, b"limit program-variables token 13 line 2 column 20",
    ),
    (
        b"cyclist proof 1;\n"
        b"line 1 : $0 := new 0;\n"
        b"line 2 : stop;\n"
        b"node true : emp |- true : emp by Done;\n"
        b"end;",
        5, b"limit fields token 11 line 2 column 20",
    ),
    (
        b"cyclist proof 1;\n"
        b"line 1 : $0 := $1.9;\n"
        b"line 2 : stop;\n"
        b"node true : emp |- true : emp by Done;\n"
        b"end;",
        5, b"limit fields token 13 line 2 column 19",
    ),
    (
        b"cyclist proof 1;\n"
        b"line 1 : nil.9 := $64;\n"
        b"line 2 : stop;\n"
        b"node true : emp |- true : emp by Done;\n"
        b"end;",
        5, b"limit fields token 9 line 2 column 14",
    ),
    (
        b"cyclist proof 1;\n"
        b"node from 0 given true : emp by Exec;\n"
        b"end;",
        4, b"ill-formed no-line token 6 line 2 column 11",
    ),
    (
        b"cyclist proof 1;\n"
        b"line 1 : stop;\n"
        b"node from 2 given true : p() by Exec;\n"
        b"end;",
        4, b"ill-formed no-line token 11 line 3 column 11",
    ),
    (
        b"cyclist proof 1;\n"
        b"line 1 : stop;\n"
        b"node from 1 given true : p() by Exec;\n"
        b"end;",
        4, b"ill-formed unknown token 15 line 3 column 26",
    ),
    (
        b"cyclist proof 1;\n"
        b"line 1 : stop;\n"
        b"node from 1 given $65535 = nil : emp by Exec;\n"
        b"end;",
        5, b"limit variable token 14 line 3 column 20",
    ),
    # definitions, and what nodes say
    (
        b"cyclist proof 1;\n"
        b"pred p(1){$1=nil:emp};node true:emp|-true:emp by Done;\n"
        b"end;\n",
        4, b"ill-formed parameter token 11 line 2 column 12",
    ),
    (
        b"cyclist proof 1;\n"
        b"pred p(1){?16=nil:emp};node true:emp|-true:emp by Done;\n"
        b"end;\n",
        5, b"limit locals token 11 line 2 column 12",
    ),
    (
        b"cyclist proof 1;\n"
        b"pred p(9){true:emp};node true:emp|-true:emp by Done;\n"
        b"end;\n",
        5, b"limit arguments token 7 line 2 column 8",
    ),
    (
        b"cyclist proof 1;\n"
        b"pred p(1){true:emp};node true:p()|-true:emp by Done;\n"
        b"end;\n",
        4, b"ill-formed arity token 18 line 2 column 31",
    ),
    (
        b"cyclist proof 1;\n"
        b"node $65535=nil:emp|-true:emp by Done;\n"
        b"end;\n",
        5, b"limit variable token 6 line 2 column 7",
    ),
    (
        b"cyclist proof 1;\n"
        b"node true:emp|-true:emp by Link 0{$65535:=nil}[][];\n"
        b"end;\n",
        5, b"limit variable token 17 line 2 column 36",
    ),
    (
        b"cyclist proof 1;\n"
        b"node true:emp|-true:emp by Instantiate ?65535 nil;\n"
        b"end;\n",
        5, b"limit variable token 15 line 2 column 41",
    ),
]

# A part so many times: as often as a limit allows, and once more.
REPEATED = [
    (
        b"cyclist proof 1;\n"
        b"node "
        + b"$0=$0," * 64
        + b"$0=$0:emp|-true:emp by Done;\n"
        b"end;\n",
        5, b"limit pure token 389 line 2 column 390",
    ),
    (
        b"cyclist proof 1;\n"
        b"node true:"
        + b"nil->(nil)*" * 16
        + b"nil->(nil)|-true:emp by Done;\n"
        b"end;\n",
        5, b"limit spatial token 103 line 2 column 187",
    ),
    (
        b"cyclist proof 2;\n"
        b"node true:"
        + b"nil->(nil)*" * 32
        + b"nil->(nil)|-true:emp by Done;\n"
        b"end;\n",
        5, b"limit spatial token 199 line 2 column 363",
    ),
    (
        b"cyclist proof 2;\n"
        b"pred p(0){true:"
        + b"nil->(nil)*" * 32
        + b"nil->(nil)};node true:emp|-true:emp by Done;\n"
        b"end;\n",
        5, b"limit spatial token 204 line 2 column 368",
    ),
    (
        b"cyclist proof 1;\n"
        b"node true:emp|-true:emp by Cut[]true:"
        + b"nil->(nil)*" * 16
        + b"nil->(nil);\n"
        b"end;\n",
        5, b"limit spatial token 114 line 2 column 214",
    ),
    (
        b"cyclist proof 1;\n"
        b"node true:"
        + b"nil->(nil)*" * 16
        + b"p()|-true:emp by Done;\n"
        b"end;\n",
        4, b"ill-formed unknown token 103 line 2 column 187",
    ),
    (
        b"cyclist proof 1;\n"
        b"node true:nil->("
        + b"nil," * 8
        + b"nil)|-true:emp by Done;\n"
        b"end;\n",
        5, b"limit arguments token 26 line 2 column 49",
    ),
    (
        b"cyclist proof 1;\n"
        b"node true:emp|-"
        + b"true:emp or " * 16
        + b"true:emp by Done;\n"
        b"end;\n",
        5, b"limit disjuncts token 73 line 2 column 208",
    ),
    (
        b"cyclist proof 1;\n"
        b"pred p(0){"
        + b"true:emp|" * 16
        + b"true:emp};node true:emp|-true:emp by Done;\n"
        b"end;\n",
        5, b"limit cases token 74 line 2 column 155",
    ),
    (
        b"cyclist proof 1;\n"
        b"pred p(0){true:emp};pred p(0){true:emp};node true:emp|-true:emp by Done;\n"
        b"end;\n",
        4, b"ill-formed duplicate token 16 line 2 column 26",
    ),
    # as many spatial atoms as the version allows
    (
        b"cyclist proof 1;\n"
        b"node true:"
        + b"nil->(nil)*" * 15
        + b"nil->(nil)|-true:emp by Done;\n"
        b"end;\n",
        1, b"refused node 0 NotEmpty",
    ),
    (
        b"cyclist proof 2;\n"
        b"node true:"
        + b"nil->(nil)*" * 15
        + b"nil->(nil)|-true:emp by Done;\n"
        b"end;\n",
        1, b"refused node 0 NotEmpty",
    ),
    (
        b"cyclist proof 2;\n"
        b"node true:"
        + b"nil->(nil)*" * 31
        + b"nil->(nil)|-true:emp by Done;\n"
        b"end;\n",
        1, b"refused node 0 NotEmpty",
    ),
]

# Lists with many more members than a limit allows: the first beyond it is told, whatever stands behind it, unless the text is
# none of the format.
BEYOND = [
    (
        b"cyclist proof 1;\n"
        b"node true:emp|-true:emp by Done;\n"
        b"node "
        + b"nil=nil," * 149
        + b"$65535=nil,"
        + b"nil=nil," * 50
        + b"nil=nil:emp|-true:emp by Done;\n"
        b"end;\n",
        5, b"limit pure token 272 line 3 column 518",
    ),
    (
        b"cyclist proof 1;\n"
        b"node true:emp|-true:emp by Done;\n"
        b"node true:"
        + b"nil->(nil)*" * 99
        + b"p()|-true:emp by Done;\n"
        b"node true:q()|-true:emp by Done;\n"
        b"end;\n",
        5, b"limit spatial token 114 line 3 column 187",
    ),
    (
        b"cyclist proof 1;\n"
        b"node true:emp|-true:emp by Done;\n"
        b"node true:emp|-"
        + b"true:emp or " * 99
        + b"true:emp by Done;\n"
        b"end;\n",
        5, b"limit disjuncts token 84 line 3 column 208",
    ),
    (
        b"cyclist proof 1;\n"
        b"node true:emp|-true:emp by Done;\n"
        b"node true:emp|-true:emp by Cut[]true:"
        + b"nil->(nil)*" * 99
        + b"nil->(nil);\n"
        b"end;\n",
        5, b"limit spatial token 125 line 3 column 214",
    ),
    (
        b"cyclist proof 1;\n"
        b"line 1:stop;\n"
        b"node from 1 given true:"
        + b"nil->(nil)*" * 99
        + b"nil->(nil) by Exec;\n"
        b"end;\n",
        5, b"limit spatial token 111 line 3 column 200",
    ),
    (
        b"cyclist proof 1;\n"
        b"pred p(0){"
        + b"true:emp|" * 99
        + b"true:emp};pred p(0){true:emp};node true:q()|-true:emp by Done;\n"
        b"end;\n",
        5, b"limit cases token 74 line 2 column 155",
    ),
    (
        b"cyclist proof 1;\n"
        b"pred p(0){"
        + b"nil=nil," * 199
        + b"nil=nil:emp};node true:emp|-true:emp by Done;\n"
        b"end;\n",
        5, b"limit pure token 266 line 2 column 523",
    ),
    (
        b"cyclist proof 1;\n"
        b"node "
        + b"nil=nil," * 199
        + b"nil=nil:emp|-true:emp by Done;\n"
        b"end\n",
        3, b"unreadable syntax token 814 line 4 column 1",
    ),
]

# Small texts with their first dead token.
DEAD_TOKENS = [
    # no version's number
    (b"cyclist proof 01;", 3, b"unreadable syntax token 2 line 1 column 15"),
    (b"cyclist proof 02;", 3, b"unreadable syntax token 2 line 1 column 15"),
    (b"cyclist proof 4;", 3, b"unreadable syntax token 2 line 1 column 15"),
    (b"cyclist proof 0;", 3, b"unreadable syntax token 2 line 1 column 15"),
    (b"cyclist proof 12;", 3, b"unreadable syntax token 2 line 1 column 15"),
    (b"cyclist proof two;", 3, b"unreadable syntax token 2 line 1 column 15"),
    (b"cyclist proof ;", 3, b"unreadable syntax token 2 line 1 column 15"),
    # no text of the grammar
    (b"", 3, b"unreadable syntax token 0 line 1 column 1"),
    (b"cyclist proof 1;", 3, b"unreadable syntax token 4 line 1 column 17"),
    (b"cyclist proof 2;", 3, b"unreadable syntax token 4 line 1 column 17"),
    (
        b"cyclist proof 1;\n"
        b"node true : emp |- true : emp by Done to 0;\n"
        b"end; end;\n",
        3, b"unreadable syntax token 19 line 3 column 6",
    ),
    (
        b"cyclist proof 1;\n"
        b"node true : emp |- true : emp by Done to 0;\n"
        b"end",
        3, b"unreadable syntax token 18 line 3 column 4",
    ),
    (
        b"cyclist proof 1;\n"
        b"node $0 = $01 : emp |- true : emp by Done;\n"
        b"end;",
        3, b"unreadable syntax token 9 line 2 column 12",
    ),
    (
        b"cyclist proof 1;\n"
        b"node true : ?0 -> (nil) |- true : emp by Done;\n"
        b"end;",
        3, b"unreadable syntax token 7 line 2 column 13",
    ),
    (
        b"cyclist proof 1;\n"
        b"pred node(1) { true : emp };",
        3, b"unreadable syntax token 5 line 2 column 6",
    ),
    (
        b"cyclist proof 1;\n"
        b"pred p(1) { true : $0 -> () };",
        3, b"unreadable syntax token 16 line 2 column 27",
    ),
    (
        b"cyclist proof 1;\n"
        b"node true : emp |- true : emp by done;",
        3, b"unreadable syntax token 13 line 2 column 34",
    ),
    (
        b"cyclist proof 1;\n"
        b"node true : emp |- true : emp by Done to;",
        3, b"unreadable syntax token 15 line 2 column 41",
    ),
    # lines, and judgements that start from a line
    (
        b"cyclist proof 1;\n"
        b"line 1 : $0 := new;",
        3, b"unreadable syntax token 11 line 2 column 19",
    ),
    (
        b"cyclist proof 1;\n"
        b"line 1 : if $0 goto 2;",
        3, b"unreadable syntax token 10 line 2 column 16",
    ),
    (
        b"cyclist proof 1;\n"
        b"line 1 : ?0 := nil;",
        3, b"unreadable syntax token 7 line 2 column 10",
    ),
    (
        b"cyclist proof 1;\n"
        b"node true : emp |- true : emp by Done;\n"
        b"line 1 : stop;\n"
        b"end;",
        3, b"unreadable syntax token 15 line 3 column 1",
    ),
    (
        b"cyclist proof 1;\n"
        b"node from 1 true : emp by Exec;\n"
        b"end;",
        3, b"unreadable syntax token 7 line 2 column 13",
    ),
    (
        b"cyclist proof 1;\n"
        b"node from 1 given ?0 = nil : emp by Exec;\n"
        b"end;",
        3, b"unreadable syntax token 8 line 2 column 19",
    ),
    (
        b"cyclist proof 1;\n"
        b"node from 1 given true : emp |- true : emp by Exec;\n"
        b"end;",
        3, b"unreadable syntax token 11 line 2 column 30",
    ),
    (
        b"cyclist proof 1;\n"
        b"node from 1 given true : emp by Drop;\n"
        b"end;",
        3, b"unreadable syntax token 13 line 2 column 37",
    ),
    # a free branch
    (
        b"cyclist proof 1;\n"
        b"line 1 : if * goto 1;",
        3, b"unreadable syntax token 8 line 2 column 13",
    ),
    (
        b"cyclist proof 2;\n"
        b"line 1 : if * goto 1;",
        3, b"unreadable syntax token 12 line 2 column 22",
    ),
]

# Every kind of atom, every command and every reason, in the written form.
ALL_REASONS = (
    b"cyclist proof 1;\n"
    b"pred ls(2) { $0 = $1 : emp | true : $0 -> (?0) * ls(?0, $1) };\n"
    b"pred flag(0) { true : emp };\n"
    b"line 1 : if $0 = nil goto 9;\n"
    b"line 2 : if nil != $1 goto 1;\n"
    b"line 3 : $1 := new 3;\n"
    b"line 4 : $1 := nil;\n"
    b"line 5 : $1 := $0.2;\n"
    b"line 6 : $1.1 := $0;\n"
    b"line 7 : nil.2 := nil;\n"
    b"line 8 : free $1;\n"
    b"line 9 : goto 10;\n"
    b"line 10 : stop;\n"
    b"node $0 != nil, $1 = $2 : ls($0, $1) * flag() |- true : emp or ?0 = nil : ?0 -> (nil, $7) by "
    b"Unfold 0 to 1 14;\n"
    b"node true : emp |- true : emp by Absurd;\n"
    b"node true : emp |- true : emp by Rewrite 3 left to 2;\n"
    b"node true : emp |- true : emp by Rewrite 0 right;\n"
    b"node true : emp |- true : emp by Split $1 nil;\n"
    b"node true : emp |- true : emp by Distinct 0 999999999;\n"
    b"node true : emp |- true : emp by Weaken 1;\n"
    b"node true : emp |- true : emp by Cut [] nil = nil : ls(nil, nil) * flag() to 8 9;\n"
    b"node true : emp |- true : emp by Cut [0 2] true : emp;\n"
    b"node true : emp |- true : emp by Done;\n"
    b"node true : emp |- true : emp by Choose 1;\n"
    b"node true : emp |- true : emp by PureRight 0;\n"
    b"node true : emp |- true : emp by Instantiate ?4 $2;\n"
    b"node true : emp |- true : emp by Frame 0 1;\n"
    b"node true : emp |- true : emp by UnfoldRight 1 0;\n"
    b"node from 1 given $0 != nil, $1 = nil : ls($0, nil) * $1 -> ($2) by Exec to 2 3;\n"
    b"node from 10 given true : emp by Drop 2 to 4;\n"
    b"node true : emp |- true : emp by Link 0 { } [] [];\n"
    b"node true : emp |- true : emp by Link 12 { $0 := nil, $3 := $1 } [1 0] [0 0 3];\n"
    b"end;\n"
)

# What `upgrade` writes: other spaces and comments are not kept, and the version is 2.
WRITTEN = [
    (
        b"cyclist proof 1;\n"
        b"node true : emp |- true : emp by Done;\n"
        b"end;\n",
        0,
        b"cyclist proof 2;\n"
        b"node true : emp |- true : emp by Done;\n"
        b"end;\n",
    ),
    (
        b"cyclist proof 1;\n"
        b"pred even(1) { $0 = nil : emp | true : odd($0) * flag() };\n"
        b"pred odd(1) { $0 != nil, ?0 = ?0 : $0 -> (?0, nil) * even(?0) };\n"
        b"pred flag(0) { true : emp };\n"
        b"node $0 != nil, $1 = $2 : odd($0) * flag() |- true : emp or ?1 = nil : ?1 -> (nil, $7) * "
        b"even($0) by Unfold 0 to 1 2;\n"
        b"node true : flag() |- true : flag() by Frame 0 0 to 2;\n"
        b"node true : emp |- true : emp by Done;\n"
        b"end;\n",
        0,
        b"cyclist proof 2;\n"
        b"pred even(1) { $0 = nil : emp | true : odd($0) * flag() };\n"
        b"pred odd(1) { $0 != nil, ?0 = ?0 : $0 -> (?0, nil) * even(?0) };\n"
        b"pred flag(0) { true : emp };\n"
        b"node $0 != nil, $1 = $2 : odd($0) * flag() |- true : emp or ?1 = nil : ?1 -> (nil, $7) * "
        b"even($0) by Unfold 0 to 1 2;\n"
        b"node true : flag() |- true : flag() by Frame 0 0 to 2;\n"
        b"node true : emp |- true : emp by Done;\n"
        b"end;\n",
    ),
    (
        b"cyclist proof 1;\n"
        b"pred ls(2) { $0 = $1 : emp | true : $0 -> (?0) * ls(?0, $1) };\n"
        b"node true : emp |- true : emp by Absurd;\n"
        b"node true : emp |- true : emp by Rewrite 3 left to 2;\n"
        b"node true : emp |- true : emp by Rewrite 0 right;\n"
        b"node true : emp |- true : emp by Split $1 nil to 1 2;\n"
        b"node true : emp |- true : emp by Distinct 0 1;\n"
        b"node true : emp |- true : emp by Weaken 1;\n"
        b"node true : emp |- true : emp by Cut [] nil = ?0 : ls(nil, ?0) to 8 9;\n"
        b"node true : emp |- true : emp by Cut [0 2] true : emp;\n"
        b"node true : emp |- true : emp by Choose 1;\n"
        b"node true : emp |- true : emp by PureRight 0;\n"
        b"node true : emp |- true : emp by Instantiate ?4 $2;\n"
        b"node true : emp |- true : emp by UnfoldRight 1 0;\n"
        b"node true : emp |- true : emp by Link 0 { } [] [];\n"
        b"node true : emp |- true : emp by Link 12 { $0 := nil, $3 := $1 } [1 0] [0 0 3];\n"
        b"end;\n",
        0,
        b"cyclist proof 2;\n"
        b"pred ls(2) { $0 = $1 : emp | true : $0 -> (?0) * ls(?0, $1) };\n"
        b"node true : emp |- true : emp by Absurd;\n"
        b"node true : emp |- true : emp by Rewrite 3 left to 2;\n"
        b"node true : emp |- true : emp by Rewrite 0 right;\n"
        b"node true : emp |- true : emp by Split $1 nil to 1 2;\n"
        b"node true : emp |- true : emp by Distinct 0 1;\n"
        b"node true : emp |- true : emp by Weaken 1;\n"
        b"node true : emp |- true : emp by Cut [] nil = ?0 : ls(nil, ?0) to 8 9;\n"
        b"node true : emp |- true : emp by Cut [0 2] true : emp;\n"
        b"node true : emp |- true : emp by Choose 1;\n"
        b"node true : emp |- true : emp by PureRight 0;\n"
        b"node true : emp |- true : emp by Instantiate ?4 $2;\n"
        b"node true : emp |- true : emp by UnfoldRight 1 0;\n"
        b"node true : emp |- true : emp by Link 0 { } [] [];\n"
        b"node true : emp |- true : emp by Link 12 { $0 := nil, $3 := $1 } [1 0] [0 0 3];\n"
        b"end;\n",
    ),
    (
        b"cyclist proof 1;\n"
        b"pred list(1) { $0 = nil : emp | true : $0 -> (?0) * list(?0) };\n"
        b"line 1 : if $0 = nil goto 4;\n"
        b"line 2 : $0 := $0.1;\n"
        b"line 3 : goto 1;\n"
        b"line 4 : stop;\n"
        b"node from 1 given true : list($0) by Exec to 1 2;\n"
        b"node from 4 given $0 = nil : list($0) by Exec;\n"
        b"node from 2 given $0 != nil : list($0) by Unfold 0 to 3 5;\n"
        b"node from 2 given $0 != nil, $0 = nil : emp by Rewrite 1 left to 4;\n"
        b"node from 2 given nil != nil, $0 = nil : emp by Absurd;\n"
        b"node from 2 given $0 != nil : $0 -> ($1) * list($1) by Exec to 6;\n"
        b"node from 3 given $2 != nil, $0 = $1 : $2 -> ($1) * list($1) by Rewrite 1 right to 7;\n"
        b"node from 3 given $2 != nil : $2 -> ($0) * list($0) by Exec to 8;\n"
        b"node from 1 given $2 != nil : $2 -> ($0) * list($0) by Link 0 { $0 := $0 } [1] [];\n"
        b"end;\n",
        0,
        b"cyclist proof 2;\n"
        b"pred list(1) { $0 = nil : emp | true : $0 -> (?0) * list(?0) };\n"
        b"line 1 : if $0 = nil goto 4;\n"
        b"line 2 : $0 := $0.1;\n"
        b"line 3 : goto 1;\n"
        b"line 4 : stop;\n"
        b"node from 1 given true : list($0) by Exec to 1 2;\n"
        b"node from 4 given $0 = nil : list($0) by Exec;\n"
        b"node from 2 given $0 != nil : list($0) by Unfold 0 to 3 5;\n"
        b"node from 2 given $0 != nil, $0 = nil : emp by Rewrite 1 left to 4;\n"
        b"node from 2 given nil != nil, $0 = nil : emp by Absurd;\n"
        b"node from 2 given $0 != nil : $0 -> ($1) * list($1) by Exec to 6;\n"
        b"node from 3 given $2 != nil, $0 = $1 : $2 -> ($1) * list($1) by Rewrite 1 right to 7;\n"
        b"node from 3 given $2 != nil : $2 -> ($0) * list($0) by Exec to 8;\n"
        b"node from 1 given $2 != nil : $2 -> ($0) * list($0) by Link 0 { $0 := $0 } [1] [];\n"
        b"end;\n",
    ),
    (
        b"cyclist proof 1;\n"
        b"line 1 : $63 := new 8;\n"
        b"line 2 : $0 := nil;\n"
        b"line 3 : $1 := $0;\n"
        b"line 4 : $1 := nil.1;\n"
        b"line 5 : $63.8 := $0;\n"
        b"line 6 : nil.1 := nil;\n"
        b"line 7 : free $63;\n"
        b"line 8 : free nil;\n"
        b"line 9 : if $0 != $1 goto 10;\n"
        b"line 10 : goto 10;\n"
        b"node from 10 given true : emp by Drop 0 to 1;\n"
        b"node true : emp |- true : emp by Done;\n"
        b"end;\n",
        0,
        b"cyclist proof 2;\n"
        b"line 1 : $63 := new 8;\n"
        b"line 2 : $0 := nil;\n"
        b"line 3 : $1 := $0;\n"
        b"line 4 : $1 := nil.1;\n"
        b"line 5 : $63.8 := $0;\n"
        b"line 6 : nil.1 := nil;\n"
        b"line 7 : free $63;\n"
        b"line 8 : free nil;\n"
        b"line 9 : if $0 != $1 goto 10;\n"
        b"line 10 : goto 10;\n"
        b"node from 10 given true : emp by Drop 0 to 1;\n"
        b"node true : emp |- true : emp by Done;\n"
        b"end;\n",
    ),
    (
        b"cyclist proof 2;\n"
        b"pred list(1) { $0 = nil : emp | true : $0 -> (?0) * list(?0) };\n"
        b"line 1 : stop;\n"
        b"node from 1 given true : list($0) by Exec;\n"
        b"end;\n",
        0,
        b"cyclist proof 2;\n"
        b"pred list(1) { $0 = nil : emp | true : $0 -> (?0) * list(?0) };\n"
        b"line 1 : stop;\n"
        b"node from 1 given true : list($0) by Exec;\n"
        b"end;\n",
    ),
    (
        b"# a proof\n"
        b"cyclist   proof 1 ;pred flag ( 0 ){true:emp};\n"
        b"\n"
        b"node  $ 0=nil :flag( ) *$0->( nil ,$1 )\t|-true : emp   or true:flag()by Cut[0  1 ]true : emp "
        b"to 0 1;# two premises\n"
        b"node true:emp|-true:emp by Link 0{$0:=nil,$1:=$ 0}[ 0 ][0]; node true : emp |- true : emp by "
        b"Instantiate ? 3 $ 2 ;\n"
        b"end # no more\n"
        b";",
        0,
        b"cyclist proof 2;\n"
        b"pred flag(0) { true : emp };\n"
        b"node $0 = nil : flag() * $0 -> (nil, $1) |- true : emp or true : flag() by Cut [0 1] true : "
        b"emp to 0 1;\n"
        b"node true : emp |- true : emp by Link 0 { $0 := nil, $1 := $0 } [0] [0];\n"
        b"node true : emp |- true : emp by Instantiate ?3 $2;\n"
        b"end;\n",
    ),
    (
        b"cyclist proof 1;\n"
        b"pred list(1) { $0 = nil : emp | true : $0 -> (?0) * list(?0) };\n"
        b"line 1 : stop;\n"
        b"node from 1 given true : list($0) by Exec;\n"
        b"end;\n",
        0,
        b"cyclist proof 2;\n"
        b"pred list(1) { $0 = nil : emp | true : $0 -> (?0) * list(?0) };\n"
        b"line 1 : stop;\n"
        b"node from 1 given true : list($0) by Exec;\n"
        b"end;\n",
    ),
    (
        b"cyclist proof 2;\n"
        b"pred list(1) { $0 = nil : emp | true : $0 -> (?0) * list(?0) };\n"
        b"line 1 : stop;\n"
        b"node from 1 given true : list($0) by Exec;\n"
        b"end;\n",
        0,
        b"cyclist proof 2;\n"
        b"pred list(1) { $0 = nil : emp | true : $0 -> (?0) * list(?0) };\n"
        b"line 1 : stop;\n"
        b"node from 1 given true : list($0) by Exec;\n"
        b"end;\n",
    ),
]



def many_lines(last):
    """A file of 4,097 lines, the last of which is this command, and a node at a line that is not there."""
    lines = b"".join(b"line %d : goto 4097;\n" % number for number in range(1, 4097))
    return b"cyclist proof 1;\n" + lines + b"line 4097 : " + last + b";\nnode from 4098 given true : emp by Exec;\nend;"


# The line that is one too many; where it falls off too, that goes first. Jumps count it.
LINES = [
    (many_lines(b"stop"), 5, b"limit lines token 24580 line 4098 column 1"),
    (many_lines(b"free nil"), 4, b"ill-formed falls-off token 24580 line 4098 column 1"),
]


def nodes_by_done(count):
    return b"cyclist proof 1;\n" + b"node true : emp |- true : emp by Done;\n" * count + b"end;\n"


# As many nodes as a file has, and one more.
NODES_AT_THEIR_LIMIT = [
    (nodes_by_done(20000), 0, b"accepted entailment nodes 20000 links 0"),
    (nodes_by_done(20001), 5, b"limit nodes token 220004 line 20002 column 1"),
]

TABLES = [
    FIRST, RIGHT, TOKENS, GRAMMAR, SAID, NODES, ACCEPTED, PROGRAMS, ILL_PROGRAMS, VERSIONS, NUMBERS, LINKS, COUNTS,
    VERDICTS, FLAWS, REPEATED, BEYOND, DEAD_TOKENS, LINES, NODES_AT_THEIR_LIMIT,
]

# These are in the written form.
IN_WRITTEN_FORM = [text for text, _, _ in ACCEPTED + PROGRAMS] + [ALL_REASONS]
