"""Parts of proof files, and the token at which something is wrong with them. Tokens were counted by hand; the line and the column
of a token are counted here."""
import re

# A space, a comment, or a token; a name, a number or a symbol.
PIECE = re.compile(rb"\s+|#[^\n]*|[A-Za-z_][A-Za-z_0-9]*|[0-9]+|\|-|->|:=|!=|.", re.DOTALL)


def place(text, token):
    """Returns the line and the column at which a token of the text begins, or the text ends."""
    starts = [it.start() for it in PIECE.finditer(text) if not it[0][:1].isspace() and it[0][:1] != b"#"]
    at = starts[token] if token < len(starts) else len(text)
    return text.count(b"\n", 0, at) + 1, at - (text.rfind(b"\n", 0, at) + 1) + 1


def at_token(text, status, words, token):
    """A text, and what is said of it at one of its tokens."""
    line, column = place(text, token)
    return text, status, f"{words} token {token} line {line} column {column}".encode()


NODE = "node true : emp |- true : emp by Done;\nend;\n"


def of_lines(lines):
    """A file with these commands, numbered from 1. Its first line begins at token 4."""
    numbered = "".join(f"line {i + 1} : {it};\n" for i, it in enumerate(lines))
    return f"cyclist proof 1;\n{numbered}{NODE}".encode()


# A line before `line 2 : stop;`, and what passes a limit at which token.
LIMITS = [
    ("free $64", "limit program-variables", 9),
    ("$64 := new 9", "limit program-variables", 8),
    ("$63 := new 9", "limit fields", 11),
    ("$63 := new 0", "limit fields", 11),
    ("$0 := $64", "limit program-variables", 11),
    ("$0 := $64.9", "limit program-variables", 11),
    ("$0 := $0.9", "limit fields", 13),
    ("$0 := nil.0", "limit fields", 12),
    ("$0.9 := $64", "limit fields", 10),
    ("$0.8 := $64", "limit program-variables", 13),
    ("nil.0 := $64", "limit fields", 9),
    ("nil.1 := $64", "limit program-variables", 12),
    ("if nil = $64 goto 9", "limit program-variables", 11),
    ("if $64 != $64 goto 9", "limit program-variables", 9),
]

# Commands within every limit.
WITHIN = ["free $63", "$63 := new 8", "if $0 = nil goto 2", "nil.8 := $63", "$63.8 := nil", "$0 := $63.8"]

# Lines with their numbers, and what is ill-formed at which token.
PROGRAMS = [
    ("line 2 : stop;", "numbering", 5),
    ("line 0 : stop;", "numbering", 5),
    ("line 1 : stop; line 1 : stop;", "numbering", 10),
    ("line 1 : goto 0;", "jump", 8),
    ("line 1 : goto 2;", "jump", 8),
    ("line 1 : if $0 = nil goto 3; line 2 : stop;", "jump", 13),
    ("line 2 : free $64;", "falls-off", 4),
    ("line 1 : goto 1; line 2 : if $0 = nil goto 9;", "falls-off", 10),
]

# A judgement after the definitions of two predicates, and what is wrong with it at which token. Its first word is token 27.
DEFINITIONS = (
    "pred flag(0) { true : emp };\n"
    "pred wide(8) { true : emp };\n"
)
USES = [
    ("true : unknown() |- true : emp", 4, "ill-formed unknown", 29),
    ("true : wide($65535) |- true : emp", 4, "ill-formed arity", 29),
    ("true : wide($0, $1, $2, $3, $4, $5, $6, $65535) |- true : emp", 5, "limit variable", 53),
    ("true : flag() * unknown() |- true : emp", 4, "ill-formed unknown", 33),
    ("true : flag() * flag($0) |- true : emp", 4, "ill-formed arity", 33),
    ("true : flag() |- true : unknown()", 4, "ill-formed unknown", 35),
    ("true : flag() |- true : emp or true : wide()", 4, "ill-formed arity", 39),
]

# A right side, up to the text's end, and the first of its tokens with which no right side begins.
RIGHT_SIDES = [
    ("", 0),
    ("$1 : $2 : emp;", 2),
    ("$1 = $2, : emp;", 6),
    ("true : nil($1);", 3),
    ("true : emp * p();", 3),
    ("true : p() * ;", 6),
    ("true : $1 -> ();", 6),
    ("true : p($1,);", 7),
    ("true : emp | true : emp;", 3),
    ("true : emp", 3),
]

# A command up to the text's end, and the first of its tokens with which no command begins.
LINES = [
    ("$0 := new;", 4),
    ("if $0 goto 2;", 3),
    ("if $0 = nil 2;", 5),
    ("?0 := nil;", 0),
    ("nil := $0;", 1),
    ("$0.1 = $0;", 4),
    ("free;", 1),
    ("goto;", 1),
    ("stop 1;", 1),
]

ROWS = [at_token(of_lines([line, "stop"]), 5, words, token) for line, words, token in LIMITS]
ROWS += [(of_lines([line, "stop"]), 0, b"accepted entailment nodes 1 links 0") for line in WITHIN]
ROWS += [(of_lines(["stop"] * 4096), 0, b"accepted entailment nodes 1 links 0")]
ROWS += [at_token(of_lines(["stop"] * 4097), 5, "limit lines", 4 + 5 * 4096)]
ROWS += [at_token(f"cyclist proof 1;\n{it}\n{NODE}".encode(), 4, f"ill-formed {flaw}", token) for it, flaw, token in PROGRAMS]
ROWS += [
    at_token(f"cyclist proof 1;\n{DEFINITIONS}node {judgement} by Done;\nend;\n".encode(), status, words, token)
    for judgement, status, words, token in USES
]
ROWS += [at_token(f"cyclist proof 1;\nnode true : emp |- {it}".encode(), 3, "unreadable syntax", 9 + token) for it, token in RIGHT_SIDES]
ROWS += [at_token(f"cyclist proof 1;\nline 1 : {it}".encode(), 3, "unreadable syntax", 7 + token) for it, token in LINES]
