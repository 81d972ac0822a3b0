"""Texts for `check` and the sizes of the pieces in which they come, besides one byte each: some end within a token, some are larger
than what a reader keeps. Tokens, offsets, lines and columns were counted by hand."""
from searches import COMPOSED

NODE = b"node true : emp |- true : emp by Done;\n"

HEAD = b"cyclist proof 1;\n"

# What stands before and after 400 nodes, the status, and what is written.
LONG = [
    (HEAD, b"end;\n", 0, b"accepted entailment nodes 400 links 0"),
    (HEAD, b"node true : a() |- true : emp by Done;\nend;\n", 4, b"ill-formed unknown token 4407 line 402 column 13"),
    (HEAD, b"end;\nend;\n", 3, b"unreadable syntax token 4406 line 403 column 1"),
    (HEAD, b"", 3, b"unreadable syntax token 4404 line 402 column 1"),
    (HEAD, b"node true : emp |- true emp by Done;\nend;\n", 3, b"unreadable syntax token 4410 line 402 column 25"),
    (HEAD + b"pred a(0) { true : b() };\n", b"end;\n", 4, b"ill-formed unknown token 12 line 2 column 20"),
    (
        HEAD + b"node true : a() |- true : emp by Done;\n", b"end;\n@",
        3, b"unreadable byte offset 15661 line 404 column 1",
    ),
]

# What stands after a node of 80,014 tokens, more than a reader keeps, the status, and what is written.
AFTER = [
    (b"nil) |- true : emp by Done;\nend;\n", 4, b"ill-formed unknown token 7 line 2 column 13"),
    (b"nil) |- true : emp by Done;\nnode true emp;\n", 3, b"unreadable syntax token 80020 line 3 column 11"),
]

# Texts whose faults go before their flaws, and the first of many flaws.
FIRST = [
    (HEAD + b"node true : ;\nend;\n!", 3, b"unreadable byte offset 36 line 4 column 1"),
    (HEAD + b"node true : ;\nend;\n\xe2\x82", 3, b"unreadable utf8 offset 36 line 4 column 1"),
    (HEAD + b"pred a(0) { true : b() };\n" + NODE + b"end\n", 3, b"unreadable syntax token 29 line 5 column 1"),
    (
        HEAD + b"pred a(0) { true : b() };\n" + NODE + b"end;\n123456789012",
        3, b"unreadable number offset 87 line 5 column 1",
    ),
    (
        HEAD + b"node true : a() |- true : emp by Done;\nnode true : emp |- true emp by Done;\nend;\n",
        3, b"unreadable syntax token 23 line 3 column 25",
    ),
    (HEAD + b"node true : a() |- true : emp by Done;\nend;\n@", 3, b"unreadable byte offset 61 line 4 column 1"),
    (
        HEAD + b"pred a(0) { true : emp };\npred b(1) { true : a($0) };\npred b(1) { true : c() };\n"
        b"node true : d() |- true : emp by Done;\nend;\n",
        4, b"ill-formed arity token 23 line 3 column 20",
    ),
    (
        HEAD + b"pred a(0) { true : emp };\nline 2 : stop;\nnode true : d() |- true : emp by Done;\nend;\n",
        4, b"ill-formed numbering token 16 line 3 column 6",
    ),
    (HEAD + NODE + NODE + b"node from 1 given true : emp by Done;\nend;\n", 4, b"ill-formed no-line token 28 line 4 column 11"),
    (
        HEAD + NODE + b"node $65535 = nil : emp |- true : a() by Done;\nnode true : a() |- true : emp by Done;\nend;\n",
        5, b"limit variable token 17 line 3 column 7",
    ),
    (b"a\n 1234567890 \xff", 3, b"unreadable number offset 3 line 2 column 2"),
    (b"abcdefghijklmnopqrstuvwxyzabcdefghijklmnopqrstuvwxyzabcdefghijklmnopqr ", 3, b"unreadable name offset 0 line 1 column 1"),
    (b"# \xe2\x82\xac\nb ", 3, b"unreadable syntax token 0 line 2 column 1"),
    (b"x\xc3\xa9;", 3, b"unreadable syntax token 0 line 1 column 1"),
    (b"cyclist x\xc3\xa9!", 3, b"unreadable byte offset 11 line 1 column 11"),
    (HEAD + b"node true : ;\nend;\n", 3, b"unreadable syntax token 7 line 2 column 13"),
    (HEAD + b"((((", 3, b"unreadable syntax token 4 line 2 column 1"),
    (HEAD + b"node true", 3, b"unreadable syntax token 6 line 2 column 10"),
    (HEAD + NODE + b"pred a(0) { true : emp };\nend;\n", 3, b"unreadable syntax token 15 line 3 column 1"),
    (HEAD + NODE + b"end;\nend;\n", 3, b"unreadable syntax token 17 line 4 column 1"),
    (HEAD + b"pred a(0) { true : b() };\n" + NODE + b"end;\n", 4, b"ill-formed unknown token 12 line 2 column 20"),
    (
        HEAD + b"pred a(0) { true : emp };\nnode true : a(nil) |- true : emp by Done;\nend;\n",
        4, b"ill-formed arity token 18 line 3 column 13",
    ),
]

# Names of 64 and of 65 characters, blanks, comments, and characters of two to four bytes.
BYTES = [
    (b"12ab", 3, b"unreadable syntax token 0 line 1 column 1"),
    (b"cyclist 12ab", 3, b"unreadable syntax token 1 line 1 column 9"),
    (b"cyclist proof1 12", 3, b"unreadable syntax token 1 line 1 column 9"),
    (b"cyclist proof 1a;", 3, b"unreadable syntax token 3 line 1 column 16"),
    (b"cyclist proof 1 |-", 3, b"unreadable syntax token 3 line 1 column 17"),
    (b"cyclist proof 1;->:= # !", 3, b"unreadable syntax token 4 line 1 column 17"),
    (b"a" * 64, 3, b"unreadable syntax token 0 line 1 column 1"),
    (b"a" * 65, 3, b"unreadable name offset 0 line 1 column 1"),
    (b"a" * 64 + b"\xff", 3, b"unreadable utf8 offset 64 line 1 column 65"),
    (b"a" * 65 + b"\xff", 3, b"unreadable name offset 0 line 1 column 1"),
    (b"\xef\xbb\xbfa", 3, b"unreadable byte offset 0 line 1 column 1"),
    (b"a \0", 3, b"unreadable byte offset 2 line 1 column 3"),
    (b"\r\n\x0b", 3, b"unreadable byte offset 2 line 2 column 1"),
    (b"\r-", 3, b"unreadable byte offset 1 line 1 column 2"),
    (b"# \xc3\xa9\n\xc3\xa9 ! =", 3, b"unreadable byte offset 8 line 2 column 3"),
    (b"# \xc3", 3, b"unreadable utf8 offset 2 line 1 column 3"),
    (b"# \xe2\x82\xac \xf0\x90\x90\x80\n|", 3, b"unreadable syntax token 0 line 2 column 1"),
    (b"\xe2\x82\xac", 3, b"unreadable byte offset 0 line 1 column 1"),
    (b"a\xe2\x82(b", 3, b"unreadable utf8 offset 1 line 1 column 2"),
    (b"cyclist proof -", 3, b"unreadable byte offset 14 line 1 column 15"),
    (b"cyclist proof - ", 3, b"unreadable byte offset 14 line 1 column 15"),
    (b"cyclist proof !=", 3, b"unreadable syntax token 2 line 1 column 15"),
]

SIZES = [7, 4096, 5000, 65536]


def rows():
    """Yields the size of the pieces, a text, the status and what is written."""
    for size in SIZES:
        for start, end, status, line in LONG:
            yield size, start + NODE * 400 + end, status, line
        for end, status, line in AFTER:
            yield size, HEAD + b"node true : a(" + b"nil, " * 40000 + end, status, line
    for text, status, line in FIRST + BYTES:
        for size in (2, 3, 7):
            yield size, text, status, line
    for spaces in (65_533, 65_527, 65_500, 65_001, 64_900):
        yield 65_536, b" " * spaces + COMPOSED, 0, b"accepted entailment nodes 8 links 1"
