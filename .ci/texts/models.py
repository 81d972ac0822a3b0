"""Models and problems, and how `model` and `disprove` answer them."""

# Definitions, a model and a question.
ANSWERS = [
    (
        b"cyclist model 1;\n"
        b"pred ls(2) { $0 = $1 : emp | true : $0 -> (?0) * ls(?0, $1) };\n"
        b"stack 1, 1;heap 1 -> (2), 2 -> (1);ask true : ls($0, $1);end;\n",
        0, b"holds",
    ),
    (
        b"cyclist model 1;\n"
        b"pred ls(2) { $0 = $1 : emp | $0 != $1 : $0 -> (?0) * ls(?0, $1) };\n"
        b"stack 1, 1;heap 1 -> (2), 2 -> (1);ask true : ls($0, $1);end;\n",
        1, b"fails",
    ),
    (
        b"cyclist model 1;\n"
        b"pred q(1) { true : q($0) };\n"
        b"stack;heap;ask true : q($0);end;\n",
        1, b"fails",
    ),
    (
        b"cyclist model 1;\n"
        b"pred r(1) { true : emp | true : r(?0) };\n"
        b"stack;heap;ask true : r($0);end;\n",
        4, b"ill-formed constructive case 0 1",
    ),
    (
        b"cyclist model 1;\n"
        b"pred ls(2) { $0 = $1 : emp | true : $0 -> (?0) * ls(?0, $1) };\n"
        b"stack;heap;ask true : ls(nil, ?0);end;\n",
        4, b"ill-formed constructive ask 0",
    ),
    (
        b"cyclist model 1;\n"
        b"pred ls(2) { $0 = $1 : emp | true : $0 -> (?0) * ls(?0, $1) };\n"
        b"stack 3;heap 3 -> (0);ask ?0 = nil : ls($0, ?0);end;\n",
        0, b"holds",
    ),
    (
        b"cyclist model 1;\n"
        b"pred ls(2) { $0 = $1 : emp | true : $0 -> (?0) * ls(?0, $1) };\n"
        b"stack 3;heap 3 -> (0), 4 -> (0);ask true : ls($0, nil);end;\n",
        1, b"fails",
    ),
    (
        b"cyclist model 1;\n"
        b"pred ls(2) { $0 = $1 : emp | true : $0 -> (?0) * ls(?0, $1) };\n"
        b"stack;heap 0 -> (1);ask true : emp;end;\n",
        4, b"ill-formed address token 41 line 3 column 12",
    ),
    (
        b"cyclist model 1;\n"
        b"pred ls(2) { $0 = $1 : emp | true : $0 -> (?0) * ls(?0, $1) };\n"
        b"stack;heap;ask emp;end;\n",
        3, b"unreadable syntax token 43 line 3 column 16",
    ),
]

SIXTEEN_CELLS = b",".join(b"%d->(1)" % address for address in range(1, 17))

# Each flaw stands at its token, and what is within the limits has none.
FLAWS = [
    (
        b"cyclist model 1;\n"
        b"stack;heap;ask true:emp;end;",
        0, b"holds",
    ),
    # syntax
    (
        b"cyclist model 1;\n"
        b"heap;",
        3, b"unreadable syntax token 4 line 2 column 1",
    ),
    (
        b"cyclist model 1;\n"
        b"stack 7,;heap;ask true:emp;end;",
        3, b"unreadable syntax token 7 line 2 column 9",
    ),
    (
        b"cyclist model 1;\n"
        b"stack 007;heap;ask true:emp;end;",
        3, b"unreadable syntax token 5 line 2 column 7",
    ),
    (
        b"cyclist model 1;\n"
        b"stack $0;heap;ask true:emp;end;",
        3, b"unreadable syntax token 5 line 2 column 7",
    ),
    (
        b"cyclist model 1;\n"
        b"stack;heap 1->();ask true:emp;end;",
        3, b"unreadable syntax token 10 line 2 column 16",
    ),
    (
        b"cyclist model 1;\n"
        b"stack;heap nil->(1);ask true:emp;end;",
        3, b"unreadable syntax token 7 line 2 column 12",
    ),
    (
        b"cyclist model 1;\n"
        b"stack;heap;ask emp;end;",
        3, b"unreadable syntax token 9 line 2 column 16",
    ),
    (
        b"cyclist model 1;\n"
        b"stack;heap;ask true:emp;end;end;",
        3, b"unreadable syntax token 15 line 2 column 29",
    ),
    # addresses
    (
        b"cyclist model 1;\n"
        b"stack;heap 0->(1);ask true:emp;end;",
        4, b"ill-formed address token 7 line 2 column 12",
    ),
    (
        b"cyclist model 1;\n"
        b"stack;heap 1->(1),1->(2);ask true:emp;end;",
        4, b"ill-formed address token 13 line 2 column 19",
    ),
    (
        b"cyclist model 1;\n"
        b"stack;heap 1->(2),2->(1),1->(2),0->(1);ask true:p();end;",
        4, b"ill-formed address token 19 line 2 column 26",
    ),
    # sixteen cells, and one more: a wrong address goes first at its token
    (
        b"cyclist model 1;\n"
        b"stack;heap "
        + SIXTEEN_CELLS
        + b";ask true:emp;end;",
        1, b"fails",
    ),
    (
        b"cyclist model 1;\n"
        b"stack;heap "
        + SIXTEEN_CELLS
        + b",17->(1);ask true:emp;end;",
        5, b"limit cells token 103 line 2 column 131",
    ),
    (
        b"cyclist model 1;\n"
        b"stack;heap "
        + SIXTEEN_CELLS
        + b",16->(1);ask true:emp;end;",
        4, b"ill-formed address token 103 line 2 column 131",
    ),
    # fields
    (
        b"cyclist model 1;\n"
        b"stack;heap 1->(1,1,1,1,1,1,1,1);ask true:emp;end;",
        1, b"fails",
    ),
    (
        b"cyclist model 1;\n"
        b"stack;heap 1->(1,1,1,1,1,1,1,1,1),0->(1);ask true:emp;end;",
        5, b"limit arguments token 26 line 2 column 32",
    ),
    # values
    (
        b"cyclist model 1;\n"
        b"stack "
        + b"0,0," * 32767
        + b"0;heap;ask true:emp;end;",
        0, b"holds",
    ),
    (
        b"cyclist model 1;\n"
        b"stack "
        + b"0,0," * 32767
        + b"0,0;heap 0->(1);ask true:emp;end;",
        5, b"limit stack token 131075 line 2 column 131077",
    ),
    # definitions and the formula
    (
        b"cyclist model 1;\n"
        b"pred p(0){true:emp};pred p(0){true:emp};stack;heap;ask true:emp;end;",
        4, b"ill-formed duplicate token 16 line 2 column 26",
    ),
    (
        b"cyclist model 1;\n"
        b"pred p(1){true:p($1)};stack;heap;ask true:emp;end;",
        4, b"ill-formed parameter token 15 line 2 column 19",
    ),
    (
        b"cyclist model 1;\n"
        b"stack;heap;ask true:p();end;",
        4, b"ill-formed unknown token 11 line 2 column 21",
    ),
    (
        b"cyclist model 1;\n"
        b"pred p(1){true:emp};stack;heap;ask true:p();end;",
        4, b"ill-formed arity token 22 line 2 column 41",
    ),
    (
        b"cyclist model 1;\n"
        b"pred p(9){true:emp};stack;heap;ask true:emp;end;",
        5, b"limit arguments token 7 line 2 column 8",
    ),
    (
        b"cyclist model 1;\n"
        b"stack;heap;ask $65535=nil:emp;end;",
        5, b"limit variable token 10 line 2 column 17",
    ),
    (
        b"cyclist model 1;\n"
        b"stack;heap;ask "
        + b"nil=nil," * 64
        + b"nil=nil:emp;end;",
        5, b"limit pure token 265 line 2 column 528",
    ),
    (
        b"cyclist model 1;\n"
        b"stack;heap;ask true:"
        + b"nil->(nil)*" * 31
        + b"nil->(nil);end;",
        1, b"fails",
    ),
    (
        b"cyclist model 1;\n"
        b"stack;heap;ask true:"
        + b"nil->(nil)*" * 32
        + b"nil->(nil);end;",
        5, b"limit spatial token 203 line 2 column 373",
    ),
    (
        b"cyclist model 1;\n"
        b"pred p(0){true:"
        + b"nil->(nil)*" * 32
        + b"nil->(nil)};stack;heap;ask true:emp;end;",
        5, b"limit spatial token 204 line 2 column 368",
    ),
    # a syntax fault goes first, wherever it stands
    (
        b"cyclist model 1;\n"
        b"stack;heap 0->(1);ask true:p();end",
        3, b"unreadable syntax token 21 line 2 column 35",
    ),
    (
        b"cyclist model 1;\n"
        b"stack;heap 0->(1);ask true:emp;end; @",
        3, b"unreadable byte offset 53 line 2 column 37",
    ),
    (b"cyclist model 2;stack;heap;ask true:emp;end;", 3, b"unreadable syntax token 2 line 1 column 15"),
]

# Formulas in given heaps.
SATISFIED = [
    # a ring of two cells
    (
        b"cyclist model 1;\n"
        b"pred ls(2) { $0 = $1 : emp | true : $0 -> (?0) * ls(?0, $1) };\n"
        b"stack 1, 1;\n"
        b"heap 1 -> (2), 2 -> (1);\n"
        b"ask true : ls($0, $1);\n"
        b"end;\n",
        0, b"holds",
    ),
    (
        b"cyclist model 1;\n"
        b"pred ls(2) { $0 = $1 : emp | $0 != $1 : $0 -> (?0) * ls(?0, $1) };\n"
        b"stack 1, 1;\n"
        b"heap 1 -> (2), 2 -> (1);\n"
        b"ask true : ls($0, $1);\n"
        b"end;\n",
        1, b"fails",
    ),
    (
        b"cyclist model 1;\n"
        b"pred ls(2) { $0 = $1 : emp | true : $0 -> (?0) * ls(?0, $1) };\n"
        b"stack 1, 2;\n"
        b"heap 1 -> (2), 2 -> (1);\n"
        b"ask true : ls($0, $1);\n"
        b"end;\n",
        1, b"fails",
    ),
    (
        b"cyclist model 1;\n"
        b"pred ls(2) { $0 = $1 : emp | true : $0 -> (?0) * ls(?0, $1) };\n"
        b"stack;\n"
        b"heap 1 -> (2), 2 -> (1);\n"
        b"ask true : ls($0, $1);\n"
        b"end;\n",
        1, b"fails",
    ),
    (
        b"cyclist model 1;\n"
        b"pred ls(2) { $0 = $1 : emp | $0 != $1 : $0 -> (?0) * ls(?0, $1) };\n"
        b"stack 1, 2, 1;\n"
        b"heap 1 -> (2), 2 -> (1);\n"
        b"ask true : ls($0, $1) * ls($1, $2);\n"
        b"end;\n",
        0, b"holds",
    ),
    (
        b"cyclist model 1;\n"
        b"pred ls(2) { $0 = $1 : emp | $0 != $1 : $0 -> (?0) * ls(?0, $1) };\n"
        b"stack 1, 1, 2;\n"
        b"heap 1 -> (2), 2 -> (1);\n"
        b"ask true : ls($0, $1) * ls($1, $2);\n"
        b"end;\n",
        1, b"fails",
    ),
    # an existential that is known through an equation, or not
    (
        b"cyclist model 1;\n"
        b"stack 5;\n"
        b"heap 5 -> (0);\n"
        b"ask ?0 = $0 : ?0 -> (nil);\n"
        b"end;\n",
        0, b"holds",
    ),
    (
        b"cyclist model 1;\n"
        b"stack 5;\n"
        b"heap 5 -> (0);\n"
        b"ask true : ?0 -> (nil);\n"
        b"end;\n",
        4, b"ill-formed constructive ask 0",
    ),
    # trees: whole, with a shared part, with one cell more, with a hole
    (
        b"cyclist model 1;\n"
        b"pred tree(1) { $0 = nil : emp | true : $0 -> (?0, ?1) * tree(?0) * tree(?1) };\n"
        b"stack 1;\n"
        b"heap 1 -> (2, 3), 2 -> (0, 0), 3 -> (0, 4), 4 -> (0, 0);\n"
        b"ask true : tree($0);\n"
        b"end;\n",
        0, b"holds",
    ),
    (
        b"cyclist model 1;\n"
        b"pred tree(1) { $0 = nil : emp | true : $0 -> (?0, ?1) * tree(?0) * tree(?1) };\n"
        b"stack 1;\n"
        b"heap 1 -> (2, 2), 2 -> (0, 0);\n"
        b"ask true : tree($0);\n"
        b"end;\n",
        1, b"fails",
    ),
    (
        b"cyclist model 1;\n"
        b"pred tree(1) { $0 = nil : emp | true : $0 -> (?0, ?1) * tree(?0) * tree(?1) };\n"
        b"stack 1;\n"
        b"heap 1 -> (0, 0), 7 -> (0, 0);\n"
        b"ask true : tree($0);\n"
        b"end;\n",
        1, b"fails",
    ),
    (
        b"cyclist model 1;\n"
        b"pred tree(1) { $0 = nil : emp | true : $0 -> (?0, ?1) * tree(?0) * tree(?1) };\n"
        b"stack 1;\n"
        b"heap 1 -> (2, 0);\n"
        b"ask true : tree($0);\n"
        b"end;\n",
        1, b"fails",
    ),
    # doubly linked lists: right, with a wrong link, with a field more
    (
        b"cyclist model 1;\n"
        b"pred dll(3) { $0 = $1 : emp | true : $0 -> (?0, $2) * dll(?0, $1, $0) };\n"
        b"stack 1;\n"
        b"heap 1 -> (2, 0), 2 -> (3, 1), 3 -> (0, 2);\n"
        b"ask true : dll($0, nil, nil);\n"
        b"end;\n",
        0, b"holds",
    ),
    (
        b"cyclist model 1;\n"
        b"pred dll(3) { $0 = $1 : emp | true : $0 -> (?0, $2) * dll(?0, $1, $0) };\n"
        b"stack 1;\n"
        b"heap 1 -> (2, 0), 2 -> (3, 1), 3 -> (0, 1);\n"
        b"ask true : dll($0, nil, nil);\n"
        b"end;\n",
        1, b"fails",
    ),
    (
        b"cyclist model 1;\n"
        b"pred dll(3) { $0 = $1 : emp | true : $0 -> (?0, $2) * dll(?0, $1, $0) };\n"
        b"stack 1;\n"
        b"heap 1 -> (2, 0), 2 -> (0, 1, 0);\n"
        b"ask true : dll($0, nil, nil);\n"
        b"end;\n",
        1, b"fails",
    ),
    # many ways to fit: it may stop anywhere
    (
        b"cyclist model 1;\n"
        b"pred p(1) { true : emp | true : $0 -> (?0, ?1, ?2, ?3, ?4, ?5, ?6, ?7) * p(?0) * p(?1) * "
        b"p(?2) * p(?3) * p(?4) * p(?5) * p(?6) * p(?7) };\n"
        b"stack 1, 2;\n"
        b"heap 1 -> (2, 3, 4, 5, 6, 7, 8, 9), 2 -> (10, 11, 12, 13, 14, 15, 16, 0), 3 -> (0, 0, 0, 0, "
        b"0, 0, 0, 0), 4 -> (0, 0, 0, 0, 0, 0, 0, 0), 5 -> (0, 0, 0, 0, 0, 0, 0, 0), 6 -> (0, 0, 0, 0, "
        b"0, 0, 0, 0), 7 -> (0, 0, 0, 0, 0, 0, 0, 0), 8 -> (0, 0, 0, 0, 0, 0, 0, 0), 9 -> (0, 0, 0, 0, "
        b"0, 0, 0, 0), 10 -> (0, 0, 0, 0, 0, 0, 0, 0), 11 -> (0, 0, 0, 0, 0, 0, 0, 0), 12 -> (0, 0, 0, "
        b"0, 0, 0, 0, 0), 13 -> (0, 0, 0, 0, 0, 0, 0, 0), 14 -> (0, 0, 0, 0, 0, 0, 0, 0), 15 -> (0, 0, "
        b"0, 0, 0, 0, 0, 0), 16 -> (0, 0, 0, 0, 0, 0, 0, 0);\n"
        b"ask true : p($0);\n"
        b"end;\n",
        0, b"holds",
    ),
    (
        b"cyclist model 1;\n"
        b"pred p(1) { true : emp | true : $0 -> (?0, ?1, ?2, ?3, ?4, ?5, ?6, ?7) * p(?0) * p(?1) * "
        b"p(?2) * p(?3) * p(?4) * p(?5) * p(?6) * p(?7) };\n"
        b"stack 1, 2;\n"
        b"heap 1 -> (2, 3, 4, 5, 6, 7, 8, 9), 2 -> (10, 11, 12, 13, 14, 15, 16, 0), 3 -> (0, 0, 0, 0, "
        b"0, 0, 0, 0), 4 -> (0, 0, 0, 0, 0, 0, 0, 0), 5 -> (0, 0, 0, 0, 0, 0, 0, 0), 6 -> (0, 0, 0, 0, "
        b"0, 0, 0, 0), 7 -> (0, 0, 0, 0, 0, 0, 0, 0), 8 -> (0, 0, 0, 0, 0, 0, 0, 0), 9 -> (0, 0, 0, 0, "
        b"0, 0, 0, 0), 10 -> (0, 0, 0, 0, 0, 0, 0, 0), 11 -> (0, 0, 0, 0, 0, 0, 0, 0), 12 -> (0, 0, 0, "
        b"0, 0, 0, 0, 0), 13 -> (0, 0, 0, 0, 0, 0, 0, 0), 14 -> (0, 0, 0, 0, 0, 0, 0, 0), 15 -> (0, 0, "
        b"0, 0, 0, 0, 0, 0), 16 -> (0, 0, 0, 0, 0, 0, 0, 0);\n"
        b"ask true : p($1);\n"
        b"end;\n",
        1, b"fails",
    ),
    (
        b"cyclist model 1;\n"
        b"pred p(1) { true : emp | true : $0 -> (?0, ?1, ?2, ?3, ?4, ?5, ?6, ?7) * p(?0) * p(?1) * "
        b"p(?2) * p(?3) * p(?4) * p(?5) * p(?6) * p(?7) };\n"
        b"stack 1, 2;\n"
        b"heap 1 -> (2, 3, 4, 5, 6, 7, 8, 9), 2 -> (10, 11, 12, 13, 14, 15, 16, 0), 3 -> (0, 0, 0, 0, "
        b"0, 0, 0, 0), 4 -> (0, 0, 0, 0, 0, 0, 0, 0), 5 -> (0, 0, 0, 0, 0, 0, 0, 0), 6 -> (0, 0, 0, 0, "
        b"0, 0, 0, 0), 7 -> (0, 0, 0, 0, 0, 0, 0, 0), 8 -> (0, 0, 0, 0, 0, 0, 0, 0), 9 -> (0, 0, 0, 0, "
        b"0, 0, 0, 0), 10 -> (0, 0, 0, 0, 0, 0, 0, 0), 11 -> (0, 0, 0, 0, 0, 0, 0, 0), 12 -> (0, 0, 0, "
        b"0, 0, 0, 0, 0), 13 -> (0, 0, 0, 0, 0, 0, 0, 0), 14 -> (0, 0, 0, 0, 0, 0, 0, 0), 15 -> (0, 0, "
        b"0, 0, 0, 0, 0, 0), 16 -> (0, 0, 0, 0, 0, 0, 0, 0);\n"
        b"ask true : p($0) * p($1);\n"
        b"end;\n",
        0, b"holds",
    ),
]

# The greatest number of addresses, a problem, and its answer.
REFUTED = [
    (
        2,
        b"cyclist problem 1;\n"
        b"pred ls(a, b) { a = b : emp | a != b : a -> (c) * ls(c, b) };\n"
        b"goal true : ls(x, y) * ls(y, z) |- true : ls(x, z);\n"
        b"end;\n",
        0,
        b"cyclist model 1;\n"
        b"pred ls(2) { $0 = $1 : emp | $0 != $1 : $0 -> (?0) * ls(?0, $1) };\n"
        b"stack 1, 2, 1;\n"
        b"heap 1 -> (2), 2 -> (1);\n"
        b"ask true : ls($0, $1) * ls($1, $2);\n"
        b"end;\n",
    ),
    (
        1,
        b"cyclist problem 1;\n"
        b"pred ls(a, b) { a = b : emp | a != b : a -> (c) * ls(c, b) };\n"
        b"goal true : ls(x, y) * ls(y, z) |- true : ls(x, z);\n"
        b"end;\n",
        6, b"not found cells 1",
    ),
    (
        4,
        b"cyclist problem 1;\n"
        b"pred ls(a, b) { a = b : emp | true : a -> (c) * ls(c, b) };\n"
        b"goal true : ls(x, y) * ls(y, z) |- true : ls(x, z);\n"
        b"end;\n",
        6, b"not found cells 4",
    ),
    (
        2,
        b"cyclist problem 1;\n"
        b"pred r(a) { true : emp | true : r(b) };\n"
        b"goal true : r(x) |- true : emp;\n"
        b"end;\n",
        4, b"ill-formed constructive case 0 1",
    ),
    (
        2,
        b"cyclist problem 1;\n"
        b"goal true : a -> (b) * c -> (d) * e -> (f) * g -> (h) * i -> (nil) |- true : emp;\n"
        b"end;\n",
        5, b"limit universals",
    ),
    (
        2,
        b"cyclist problem 1;\n"
        b"line 1 : stop;\n"
        b"goal from 1 given true : emp;\n"
        b"end;\n",
        4, b"ill-formed judgement from",
    ),
    # entailments without predicates
    (
        1,
        b"cyclist problem 1;\n"
        b"goal true : x -> (y) |- true : emp;\n"
        b"end;\n",
        0,
        b"cyclist model 1;\n"
        b"stack 1, 0;\n"
        b"heap 1 -> (0);\n"
        b"ask true : $0 -> ($1);\n"
        b"end;\n",
    ),
    (
        2,
        b"cyclist problem 1;\n"
        b"goal true : emp |- true : x -> (y);\n"
        b"end;\n",
        0,
        b"cyclist model 1;\n"
        b"stack 0, 0;\n"
        b"heap;\n"
        b"ask true : emp;\n"
        b"end;\n",
    ),
    (
        3,
        b"cyclist problem 1;\n"
        b"goal true : x -> (y) |- true : x -> (y);\n"
        b"end;\n",
        6, b"not found cells 3",
    ),
    (
        2,
        b"cyclist problem 1;\n"
        b"goal true : x -> (y) |- y = nil : x -> (y);\n"
        b"end;\n",
        0,
        b"cyclist model 1;\n"
        b"stack 1, 1;\n"
        b"heap 1 -> (1);\n"
        b"ask true : $0 -> ($1);\n"
        b"end;\n",
    ),
    (
        1,
        b"cyclist problem 1;\n"
        b"goal x != y : x -> (y) * y -> (x) |- true : x -> (y) or true : emp;\n"
        b"end;\n",
        6, b"not found cells 1",
    ),
    (
        2,
        b"cyclist problem 1;\n"
        b"goal x != y : x -> (y) * y -> (x) |- true : x -> (y) or true : emp;\n"
        b"end;\n",
        0,
        b"cyclist model 1;\n"
        b"stack 1, 2;\n"
        b"heap 1 -> (2), 2 -> (1);\n"
        b"ask $0 != $1 : $0 -> ($1) * $1 -> ($0);\n"
        b"end;\n",
    ),
    # eight variables, and nine, which goes before a disjunct with a local that nothing makes known
    (
        1,
        b"cyclist problem 1;\n"
        b"goal a = b, c = d, e = f, g = h : emp |- true : emp;\n"
        b"end;\n",
        6, b"not found cells 1",
    ),
    (
        1,
        b"cyclist problem 1;\n"
        b"goal a = b, c = d, e = f, g = h, i = nil : emp |- true : z' -> (a);\n"
        b"end;\n",
        5, b"limit universals",
    ),
    # the first of several disjuncts that is not constructive; a case goes before
    (
        1,
        b"cyclist problem 1;\n"
        b"goal true : x -> (y) |- true : x -> (y) or true : z' -> (x);\n"
        b"end;\n",
        4, b"ill-formed constructive ask 1",
    ),
    (
        1,
        b"cyclist problem 1;\n"
        b"goal true : emp |- true : x -> (y') or true : z' -> (y') or true : z' -> (y');\n"
        b"end;\n",
        4, b"ill-formed constructive ask 1",
    ),
    (
        1,
        b"cyclist problem 1;\n"
        b"goal true : emp |- true : emp or true : emp or true : emp or true : z' -> (x);\n"
        b"end;\n",
        4, b"ill-formed constructive ask 3",
    ),
    (
        1,
        b"cyclist problem 1;\n"
        b"pred r(a) { true : emp | true : r(b) };\n"
        b"goal true : r(x) |- true : z' -> (x);\n"
        b"end;\n",
        4, b"ill-formed constructive case 0 1",
    ),
]


def many_definitions(last):
    """A model with 4,096 definitions of sixteen cases each, of which the last is this."""
    cases = [b" | ".join([b"true : emp"] * 16)] * 4095 + [b" | ".join([b"true : emp"] * 15 + [last])]
    definitions = b"".join(b"pred p%d(0) { %s };\n" % it for it in enumerate(cases))
    return b"cyclist model 1;\n" + definitions + b"stack;\nheap;\nask true : emp;\nend;\n"


# The last case has a local that nothing makes known.
GREATEST_PLACE = (many_definitions(b"true : ?0 -> (nil)"), 4, b"ill-formed constructive case 4095 15")
