"""Problems, and how `prove` answers them."""

# The first flaw of faulty texts, and its place.
FAULTY = [
    (
        b"cyclist problem 1;\n"
        b"goal true : p(x) |- true : emp;\n"
        b"end;",
        4, b"ill-formed unknown token 7 line 2 column 13",
    ),
    (
        b"cyclist problem 1;\n"
        b"goal x' = y : p(x) |- true : emp;\n"
        b"end;",
        4, b"ill-formed unknown token 10 line 2 column 15",
    ),
    (
        b"cyclist problem 1;\n"
        b"goal true : emp |- true : q(x);\n"
        b"end;",
        4, b"ill-formed unknown token 11 line 2 column 27",
    ),
    (
        b"cyclist problem 1;\n"
        b"pred p() { true : q() };\n"
        b"pred p() { true : emp };\n"
        b"goal true : emp |- true : emp;\n"
        b"end;",
        4, b"ill-formed unknown token 11 line 2 column 19",
    ),
    (
        b"cyclist problem 1;\n"
        b"pred p() { true : emp };\n"
        b"pred p() { true : emp };\n"
        b"goal true : emp |- true : emp;\n"
        b"end;",
        4, b"ill-formed duplicate token 15 line 3 column 6",
    ),
    (
        b"cyclist problem 1;\n"
        b"pred p(x, y, x) { true : emp };\n"
        b"goal true : emp |- true : emp;\n"
        b"end;",
        4, b"ill-formed duplicate token 11 line 2 column 14",
    ),
    (
        b"cyclist problem 1;\n"
        b"pred p(a, b, c, d, e, f, g, h, a) { true : emp };\n"
        b"goal true : emp |- true : emp;\n"
        b"end;",
        4, b"ill-formed duplicate token 23 line 2 column 32",
    ),
    (
        b"cyclist problem 1;\n"
        b"pred p(a, b, c, d, e, f, g, h, i) { true : emp };\n"
        b"goal true : emp |- true : emp;\n"
        b"end;",
        5, b"limit arguments token 23 line 2 column 32",
    ),
    (
        b"cyclist problem 1;\n"
        b"pred p(x) { true : emp };\n"
        b"goal true : p(x, y) |- true : emp;\n"
        b"end;",
        4, b"ill-formed arity token 18 line 3 column 13",
    ),
    (
        b"cyclist problem 1;\n"
        b"pred p() { a = b, c = d, e = f, g = h, i = j, k = l, m = n, o = p, q = nil : emp };\n"
        b"goal true : emp |- true : emp;\n"
        b"end;",
        5, b"limit locals token 41 line 2 column 68",
    ),
    (
        b"cyclist problem 1;\n"
        b"line 1 : n0 := n1;\n"
        b"line 2 : n2 := n3;\n"
        b"line 3 : n4 := n5;\n"
        b"line 4 : n6 := n7;\n"
        b"line 5 : n8 := n9;\n"
        b"line 6 : n10 := n11;\n"
        b"line 7 : n12 := n13;\n"
        b"line 8 : n14 := n15;\n"
        b"line 9 : n16 := n17;\n"
        b"line 10 : n18 := n19;\n"
        b"line 11 : n20 := n21;\n"
        b"line 12 : n22 := n23;\n"
        b"line 13 : n24 := n25;\n"
        b"line 14 : n26 := n27;\n"
        b"line 15 : n28 := n29;\n"
        b"line 16 : n30 := n31;\n"
        b"line 17 : n32 := n33;\n"
        b"line 18 : n34 := n35;\n"
        b"line 19 : n36 := n37;\n"
        b"line 20 : n38 := n39;\n"
        b"line 21 : n40 := n41;\n"
        b"line 22 : n42 := n43;\n"
        b"line 23 : n44 := n45;\n"
        b"line 24 : n46 := n47;\n"
        b"line 25 : n48 := n49;\n"
        b"line 26 : n50 := n51;\n"
        b"line 27 : n52 := n53;\n"
        b"line 28 : n54 := n55;\n"
        b"line 29 : n56 := n57;\n"
        b"line 30 : n58 := n59;\n"
        b"line 31 : n60 := n61;\n"
        b"line 32 : n62 := n63;\n"
        b"line 33 : free n64;\n"
        b"line 34 : stop;\n"
        b"goal true : emp |- true : emp;\n"
        b"end;",
        5, b"limit program-variables token 232 line 34 column 16",
    ),
    (
        b"cyclist problem 1;\n"
        b"line 1 : stop;\n"
        b"goal from 2 given true : emp;\n"
        b"end;",
        4, b"ill-formed no-line token 11 line 3 column 11",
    ),
    (
        b"cyclist problem 1;\n"
        b"goal from 0 given true : emp;\n"
        b"end;",
        4, b"ill-formed no-line token 6 line 2 column 11",
    ),
    (
        b"cyclist problem 1;\n"
        b"line 2 : stop;\n"
        b"goal true : emp |- true : emp;\n"
        b"end;",
        4, b"ill-formed numbering token 5 line 2 column 6",
    ),
    (
        b"cyclist problem 1;\n"
        b"line 1 : goto 2;\n"
        b"goal true : emp |- true : emp;\n"
        b"end;",
        4, b"ill-formed jump token 8 line 2 column 15",
    ),
    (
        b"cyclist problem 1;\n"
        b"line 1 : x := nil;\n"
        b"goal true : emp |- true : emp;\n"
        b"end;",
        4, b"ill-formed falls-off token 4 line 2 column 1",
    ),
    (
        b"cyclist problem 1;\n"
        b"line 1 : x := new 9;\n"
        b"line 2 : stop;\n"
        b"goal true : emp |- true : emp;\n"
        b"end;",
        5, b"limit fields token 10 line 2 column 19",
    ),
    (
        b"cyclist problem 1;\n"
        b"line 1 : x := y.0;\n"
        b"line 2 : stop;\n"
        b"goal true : emp |- true : emp;\n"
        b"end;",
        5, b"limit fields token 11 line 2 column 17",
    ),
    (
        b"cyclist problem 1;\n"
        b"goal true : emp |-"
        + b" true : emp or" * 16
        + b" true : emp;\n"
        b"end;",
        5, b"limit disjuncts token 73 line 2 column 244",
    ),
    (
        b"cyclist problem 1;\n"
        b"pred p() {"
        + b" true : emp |" * 16
        + b" true : emp };\n"
        b"goal true : emp |- true : emp;\n"
        b"end;",
        5, b"limit cases token 73 line 2 column 220",
    ),
    (
        b"cyclist problem 1;\n"
        b"goal"
        + b" x = y," * 64
        + b" x = y : emp |- true : emp;\n"
        b"end;",
        5, b"limit pure token 261 line 2 column 454",
    ),
    (
        b"cyclist problem 1;\n"
        b"goal true :"
        + b" x -> (y) *" * 16
        + b" x -> (y) |- true : emp;\n"
        b"end;",
        5, b"limit spatial token 103 line 2 column 189",
    ),
    (
        b"cyclist problem 2;\n"
        b"goal true :"
        + b" x -> (y) *" * 32
        + b" x -> (y) |- true : emp;\n"
        b"end;",
        5, b"limit spatial token 199 line 2 column 365",
    ),
    (
        b"cyclist problem 1;\n"
        b"goal true :"
        + b" x -> (y) *" * 16
        + b" q(x) |- true : emp;\n"
        b"end;",
        4, b"ill-formed unknown token 103 line 2 column 189",
    ),
    (
        b"cyclist problem 1;\n"
        b"goal true : x -> (a, b, c, d, e, f, g, h, i) |- true : emp;\n"
        b"end;",
        5, b"limit arguments token 26 line 2 column 43",
    ),
    (
        b"cyclist problem 1;\n"
        b"goal true : emp |- true : emp;",
        3, b"unreadable syntax token 13 line 2 column 31",
    ),
    (
        b"cyclist problem 1;\n"
        b"goal true : p(x) |- true : emp;\n"
        b"end",
        3, b"unreadable syntax token 17 line 3 column 4",
    ),
]

# Small texts with their first dead token.
DEAD_TOKENS = [
    (b"cyclist proof 1;", 3, b"unreadable syntax token 1 line 1 column 9"),
    (b"cyclist problem 2;", 3, b"unreadable syntax token 4 line 1 column 19"),
    (b"cyclist problem 4;", 3, b"unreadable syntax token 2 line 1 column 17"),
    (b"cyclist problem 02;", 3, b"unreadable syntax token 2 line 1 column 17"),
    (
        b"cyclist problem 1;\n"
        b"pred p(x,) {",
        3, b"unreadable syntax token 9 line 2 column 10",
    ),
    (
        b"cyclist problem 1;\n"
        b"pred p() { true : x' -> (x) };",
        3, b"unreadable syntax token 12 line 2 column 20",
    ),
    (
        b"cyclist problem 1;\n"
        b"line 1 : x' := y;",
        3, b"unreadable syntax token 8 line 2 column 11",
    ),
    (
        b"cyclist problem 1;\n"
        b"line 1 : nil := y;",
        3, b"unreadable syntax token 8 line 2 column 14",
    ),
    (
        b"cyclist problem 1;\n"
        b"goal true : x |- true : emp;\n"
        b"end;",
        3, b"unreadable syntax token 8 line 2 column 15",
    ),
    (
        b"cyclist problem 1;\n"
        b"goal x' = y : emp |- true : p(x') or true : emp;\n"
        b"end; end",
        3, b"unreadable syntax token 26 line 3 column 6",
    ),
    (
        b"cyclist problem 1;\n"
        b"line 1 : if * goto 1;",
        3, b"unreadable syntax token 8 line 2 column 13",
    ),
    (
        b"cyclist problem 2;\n"
        b"line 1 : if * goto 1;",
        3, b"unreadable syntax token 12 line 2 column 22",
    ),
]

# Every form of line and atom.
ALL_FORMS = (
    b"cyclist problem 1;\n"
    b"pred ls(x, y) { x = y : emp | true : x -> (z) * ls(z, y) };\n"
    b"pred flag() { nil != a, a = nil : nil -> (a, nil) * flag() };\n"
    b"line 1 : if x = nil goto 9;\n"
    b"line 2 : y := new 2;\n"
    b"line 3 : y := x;\n"
    b"line 4 : y := nil . 1;\n"
    b"line 5 : y . 2 := nil;\n"
    b"line 6 : nil . 1 := y;\n"
    b"line 7 : free y;\n"
    b"line 8 : goto 1;\n"
    b"line 9 : if nil != y goto 3;\n"
    b"line 10 : stop;\n"
    b"goal from 1 given x' = y : ls(x, x') * x' -> (y', y);\n"
    b"end;\n"
)

# Names are numbered by first occurrence in their scopes. At depth 1 there is only a proof by Absurd, or by Done.
NUMBERED = [
    (
        b"cyclist problem 1;\n"
        b"pred ls(a, b) { a = b : emp | true : a -> (c) * ls(c, b) };\n"
        b"goal nil != nil : ls(x, y') |- true : ls(x, y') or true : ls(z', x);\n"
        b"end;",
        0,
        b"cyclist proof 1;\n"
        b"pred ls(2) { $0 = $1 : emp | true : $0 -> (?0) * ls(?0, $1) };\n"
        b"node nil != nil : ls($0, $1) |- true : ls($0, ?0) or true : ls(?0, $0) by Absurd;\n"
        b"end;\n",
    ),
    (
        b"cyclist problem 1;\n"
        b"line 1 : if x = nil goto 4;\n"
        b"line 2 : x := x.1;\n"
        b"line 3 : goto 1;\n"
        b"line 4 : stop;\n"
        b"goal from 1 given nil != nil, y = x : emp;\n"
        b"end;",
        0,
        b"cyclist proof 1;\n"
        b"line 1 : if $0 = nil goto 4;\n"
        b"line 2 : $0 := $0.1;\n"
        b"line 3 : goto 1;\n"
        b"line 4 : stop;\n"
        b"node from 1 given nil != nil, $1 = $0 : emp by Absurd;\n"
        b"end;\n",
    ),
    (
        b"cyclist problem 1;\n"
        b"line 1 : y := x;\n"
        b"line 2 : stop;\n"
        b"goal nil != nil, z = x : emp |- true : emp;\n"
        b"end;",
        0,
        b"cyclist proof 1;\n"
        b"line 1 : $0 := $1;\n"
        b"line 2 : stop;\n"
        b"node nil != nil, $2 = $1 : emp |- true : emp by Absurd;\n"
        b"end;\n",
    ),
    (
        b"cyclist problem 1;\n"
        b"line 1 : y := nil;\n"
        b"line 2 : stop;\n"
        b"goal nil != nil, y' = y : emp |- y' = y : emp;\n"
        b"end;",
        0,
        b"cyclist proof 1;\n"
        b"line 1 : $0 := nil;\n"
        b"line 2 : stop;\n"
        b"node nil != nil, $1 = $0 : emp |- ?0 = $0 : emp by Absurd;\n"
        b"end;\n",
    ),
    (
        b"cyclist problem 1;\n"
        b"line 1 : if b != a goto 5;\n"
        b"line 2 : a.2 := c;\n"
        b"line 3 : nil.1 := b;\n"
        b"line 4 : d := new 8;\n"
        b"line 5 : free c;\n"
        b"line 6 : stop;\n"
        b"goal nil != nil : d -> (e) |- true : emp;\n"
        b"end;",
        0,
        b"cyclist proof 1;\n"
        b"line 1 : if $0 != $1 goto 5;\n"
        b"line 2 : $1.2 := $2;\n"
        b"line 3 : nil.1 := $0;\n"
        b"line 4 : $3 := new 8;\n"
        b"line 5 : free $2;\n"
        b"line 6 : stop;\n"
        b"node nil != nil : $3 -> ($4) |- true : emp by Absurd;\n"
        b"end;\n",
    ),
    (
        b"cyclist problem 1;\n"
        b"goal nil != nil : emp |- a = b' : emp or b = a : emp;\n"
        b"end;",
        0,
        b"cyclist proof 1;\n"
        b"node nil != nil : emp |- $0 = ?0 : emp or $1 = $0 : emp by Absurd;\n"
        b"end;\n",
    ),
    (
        b"cyclist problem 1;\n"
        b"goal nil != nil, c = nil : emp |- a = c : emp or b = a : emp;\n"
        b"end;",
        0,
        b"cyclist proof 1;\n"
        b"node nil != nil, $0 = nil : emp |- $1 = $0 : emp or $2 = $1 : emp by Absurd;\n"
        b"end;\n",
    ),
    (
        b"cyclist problem 1;\n"
        b"pred p(x) { y = z : emp | z = y : x -> (y) };\n"
        b"goal true : emp |- true : emp;\n"
        b"end;",
        0,
        b"cyclist proof 1;\n"
        b"pred p(1) { ?0 = ?1 : emp | ?0 = ?1 : $0 -> (?1) };\n"
        b"node true : emp |- true : emp by Done;\n"
        b"end;\n",
    ),
    (
        b"cyclist problem 1;\n"
        b"pred p(x, y) { y = x : emp };\n"
        b"goal true : emp |- true : emp;\n"
        b"end;",
        0,
        b"cyclist proof 1;\n"
        b"pred p(2) { $1 = $0 : emp };\n"
        b"node true : emp |- true : emp by Done;\n"
        b"end;\n",
    ),
    (
        b"cyclist problem 1;\n"
        b"goal nil != nil, z = w : x -> (z) |- true : emp;\n"
        b"end;",
        0,
        b"cyclist proof 1;\n"
        b"node nil != nil, $0 = $1 : $2 -> ($0) |- true : emp by Absurd;\n"
        b"end;\n",
    ),
    (
        b"cyclist problem 1;\n"
        b"goal nil != nil : x -> (y, x) |- true : emp;\n"
        b"end;",
        0,
        b"cyclist proof 1;\n"
        b"node nil != nil : $0 -> ($1, $0) |- true : emp by Absurd;\n"
        b"end;\n",
    ),
    (
        b"cyclist problem 1;\n"
        b"goal nil != nil : emp |- a' = b' : emp or b' = a' : emp;\n"
        b"end;",
        0,
        b"cyclist proof 1;\n"
        b"node nil != nil : emp |- ?0 = ?1 : emp or ?0 = ?1 : emp by Absurd;\n"
        b"end;\n",
    ),
    (
        b"cyclist problem 1;\n"
        b"goal nil != nil : nil -> (nil) |- true : emp;\n"
        b"end;",
        0,
        b"cyclist proof 1;\n"
        b"node nil != nil : nil -> (nil) |- true : emp by Absurd;\n"
        b"end;\n",
    ),
    (
        b"cyclist problem 1;\n"
        b"pred p(a) { true : emp };\n"
        b"pred q(b) { a = b : p(a) };\n"
        b"goal true : emp |- true : emp;\n"
        b"end;",
        0,
        b"cyclist proof 1;\n"
        b"pred p(1) { true : emp };\n"
        b"pred q(1) { ?0 = $0 : p(?0) };\n"
        b"node true : emp |- true : emp by Done;\n"
        b"end;\n",
    ),
    (
        b"cyclist problem 1;\n"
        b"pred p() { true : q() };\n"
        b"pred q() { true : emp };\n"
        b"goal nil != nil : p() |- true : q();\n"
        b"end;",
        0,
        b"cyclist proof 1;\n"
        b"pred p(0) { true : q() };\n"
        b"pred q(0) { true : emp };\n"
        b"node nil != nil : p() |- true : q() by Absurd;\n"
        b"end;\n",
    ),
    (
        b"cyclist problem 1;\n"
        b"pred x(x) { true : x(x) };\n"
        b"goal nil != nil : x(y) |- true : x(y);\n"
        b"end;",
        0,
        b"cyclist proof 1;\n"
        b"pred x(1) { true : x($0) };\n"
        b"node nil != nil : x($0) |- true : x($0) by Absurd;\n"
        b"end;\n",
    ),
    (
        b"cyclist problem 1;\n"
        b"goal nil != nil, x' = x : emp |- true : emp;\n"
        b"end;",
        0,
        b"cyclist proof 1;\n"
        b"node nil != nil, $0 = $1 : emp |- true : emp by Absurd;\n"
        b"end;\n",
    ),
    (
        b"cyclist problem 1;\n"
        b"goal nil != nil, x' = x' : x' -> (y) |- x = y : emp;\n"
        b"end;",
        0,
        b"cyclist proof 1;\n"
        b"node nil != nil, $0 = $0 : $0 -> ($1) |- $2 = $1 : emp by Absurd;\n"
        b"end;\n",
    ),
    (
        b"cyclist problem 1;\n"
        b"line 1 : stop;\n"
        b"goal from 1 given nil != nil, x' = x : x' -> (x, y');\n"
        b"end;",
        0,
        b"cyclist proof 1;\n"
        b"line 1 : stop;\n"
        b"node from 1 given nil != nil, $0 = $1 : $0 -> ($1, $2) by Absurd;\n"
        b"end;\n",
    ),
    (
        b"cyclist problem 1;\n"
        b"goal nil != nil, b = a : emp |- a = b : emp;\n"
        b"end;",
        0,
        b"cyclist proof 1;\n"
        b"node nil != nil, $0 = $1 : emp |- $1 = $0 : emp by Absurd;\n"
        b"end;\n",
    ),
    (
        b"cyclist problem 2;\n"
        b"line 1 : if * goto 2;\n"
        b"line 2 : stop;\n"
        b"goal from 1 given nil != nil : emp;\n"
        b"end;",
        0,
        b"cyclist proof 2;\n"
        b"line 1 : if * goto 2;\n"
        b"line 2 : stop;\n"
        b"node from 1 given nil != nil : emp by Absurd;\n"
        b"end;\n",
    ),
]

# A proof has the definitions, the program and the version of its problem.
KEPT = [
    (
        b"cyclist problem 1;\n"
        b"pred list(x) { x = nil : emp | true : x -> (y) * list(y) };\n"
        b"line 1 : if head = nil goto 3;\n"
        b"line 2 : free head;\n"
        b"line 3 : stop;\n"
        b"goal true : emp |- true : emp;\n"
        b"end;\n",
        0,
        b"cyclist proof 1;\n"
        b"pred list(1) { $0 = nil : emp | true : $0 -> (?0) * list(?0) };\n"
        b"line 1 : if $0 = nil goto 3;\n"
        b"line 2 : free $0;\n"
        b"line 3 : stop;\n"
        b"node true : emp |- true : emp by Done;\n"
        b"end;\n",
    ),
    (
        b"cyclist problem 2;\n"
        b"goal true : emp |- true : emp;\n"
        b"end;\n",
        0,
        b"cyclist proof 2;\n"
        b"node true : emp |- true : emp by Done;\n"
        b"end;\n",
    ),
]

