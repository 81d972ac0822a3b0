#!/usr/bin/env python3
""".ci/scripts.py SOLVER CYCLIST: runs the built `solve` on scripts of the field's competition: each kind of formula with its answer, worked
out by hand; that the problem which is written and what stands after it show the answer; each fault with its place; and bad scripts: deep
ones, large ones, names of 10,000 characters, broken ones. Ends with 1 where an answer is another."""
import subprocess
import sys

SOLVER, CYCLIST = sys.argv[1], sys.argv[2]
SECONDS = 100
SORT = "(declare-sort L 0)(declare-datatypes ((C 0)) (((c (next L)))))(declare-heap (L C))"
LS = "(define-fun-rec ls ((a L) (b L)) Bool (or (and (= a b) (_ emp L C)) (exists ((u L)) (sep (pto a (c u)) (ls u b)))))"
NAMES = "".join(f"(declare-const {x} L)" for x in "x y z w".split())
HEAD = SORT + LS + NAMES
TWO = ("(declare-sort A 0)(declare-sort B 0)(declare-datatypes ((CA 0) (CB 0)) (((ca (na A))) ((cb (nb B)))))(declare-heap (A CA) (B CB))"
       "(declare-const a A)(declare-const b B)(declare-const d A)")


def chain(cells, mark=""):
    """So many cells, one after the other."""
    names = "".join(f"(declare-const v{i} L)" for i in range(cells + 1))
    return SORT + names + f"(assert {mark}(sep " + "".join(f"(pto v{i} (c v{i + 1}))" for i in range(cells)) + "))(check-sat)"


def ask(*asserts):
    return HEAD + "".join(f"(assert {a})" for a in asserts) + "(check-sat)"


def entails(left, right):
    return ask(left, f"(not {right})")


ANSWERS = [
    # an entailment: unsat where it holds
    (entails("(sep (ls x y) (ls y z))", "(ls x z)"), "unsat", 0),
    (entails("(ls x z)", "(sep (ls x y) (ls y z))"), "sat", 1),
    (entails("(and (distinct x z) (sep (pto x (c y)) (pto y (c z))))", "(ls x z)"), "unsat", 0),
    (entails("(and (= x y) (_ emp L C))", "(and (= y x) (_ emp L C))"), "unsat", 0),
    (entails("emp", "(_ emp L C)"), "unsat", 0),
    (entails("(pto x (c y))", "(exists ((u L)) (pto x (c u)))"), "unsat", 0),
    (entails("(pto x (c y))", "(exists ((y L)) (pto x (c y)))"), "unsat", 0),
    (entails("(pto x (c y))", "(exists ((x L)) (pto x (c x)))"), "sat", 1),
    (entails("(exists ((u L)) (sep (pto x (c u)) (pto u (c y))))", "(exists ((v L)) (sep (pto v (c y)) (pto x (c v))))"), "unsat", 0),
    (entails("(sep (pto x (c y)) (pto x (c y)))", "(pto z (c z))"), "unsat", 0),
    (entails("(pto (as nil L) (c y))", "(ls z z)"), "unsat", 0),
    (entails("(ls x (as nil L))", "(or (and (= x nil) emp) (exists ((u L)) (sep (pto x (c u)) (ls u nil))))"), "unsat", 0),
    (entails("(or (and (= x y) emp) (pto x (c y)))", "(ls x y)"), "unsat", 0),
    (entails("(or (pto y (c x)) (pto x (c y)))", "(ls x y)"), "sat", 1),
    (entails("(and (distinct x y z) (sep (pto x (c y)) (pto y (c z))))", "(ls x z)"), "unsat", 0),
    (entails("(and (distinct x y) (distinct x z) (pto x (c y)))", "(and (distinct y z) (pto x (c y)))"), "sat", 1),
    (entails("(and (= x y z) (pto x (c z)))", "(pto z (c x))"), "unsat", 0),
    (entails("(pto x (c y))", "(let ((u x) (v y)) (pto u (c v)))"), "unsat", 0),
    (entails("(pto x (c y))", "(let ((x y) (y x)) (pto y (c x)))"), "unsat", 0),
    (entails("(pto x (c y))", "(let ((f (pto x (c y)))) f)"), "unsat", 0),
    (entails("(pto x (c y))", "(let ((f (pto x (c y)))) (let ((x y)) f))"), "unsat", 0),
    (entails("(pto x (c y))", "(! (pto x (c y)) :named here)"), "unsat", 0),
    (entails("(pto x (c y))", "(ite (= x y) (pto x (c x)) (pto x (c y)))"), "unsat", 0),
    (entails("(and (=> (= x y) (= y z)) (pto x (c y)))", "(pto x (c y))"), "unsat", 0),
    (entails("(and (not (= x y)) (not (distinct y z)) (pto x (c y)))", "(and (distinct x z) (pto x (c z)))"), "unsat", 0),
    (ask("(pto x (c y))", "(= y z)", "(not (pto x (c z)))"), "unsat", 0),
    (ask("(and (pto x (c y)) (not (pto x (c y))) (= y z))"), "unsat", 0),
    (ask("(ls x y)", "(not (and (= x y) emp))", "(not (exists ((u L)) (sep (pto x (c u)) (ls u y))))"), "unsat", 0),
    (ask("(ls x y)", "(not (and (= x y) emp))"), "sat", 1),
    (HEAD + "(define-fun cell ((p L)) Bool (exists ((u L)) (pto p (c u))))(assert (pto x (c y)))(assert (not (cell x)))(check-sat)", "unsat", 0),
    (HEAD + "(define-fun two ((p L) (q L)) Bool (exists ((u L)) (sep (pto p (c u)) (pto u (c q)))))"
     "(assert (two x y))(assert (not (exists ((u L)) (sep (pto u (c y)) (pto x (c u))))))(check-sat)", "unsat", 0),
    (HEAD + "(define-fun here () Bool (pto x (c y)))(assert here)(assert (not (pto x (c y))))(check-sat)", "unsat", 0),
    (HEAD + "(define-funs-rec ((ev ((a L) (b L)) Bool) (od ((a L) (b L)) Bool)) ((or (and (= a b) emp) (exists ((u L)) (sep (pto a (c u)) (od u b))))"
     "(exists ((u L)) (sep (pto a (c u)) (ev u b)))))(assert (sep (od x y) (od y z)))(assert (not (ev x z)))(check-sat)", "unsat", 0),
    # quoted names and names that a problem does not have
    (SORT + LS + "(declare-const |x 1| L)(declare-const |goal| L)(declare-const goal! L)(declare-const |1| L)"
     "(assert (sep (ls |x 1| goal) (ls |goal| goal!)))(assert (not (ls |x 1| |goal!|)))(check-sat)", "unsat", 0),
    (SORT + "(define-fun-rec |a list| ((|to| L)) Bool (or (and (= to nil) emp) (exists ((|u u| L)) (sep (pto to (c |u u|)) (|a list| |u u|)))))"
     "(declare-fun new () L)(assert (pto new (c nil)))(assert (not (|a list| new)))(check-sat)", "unsat", 0),
    # sorts side by side
    (TWO + "(assert (sep (pto a (ca a)) (pto b (cb b))))(assert (not (sep (pto b (cb b)) (pto a (ca a)))))(check-sat)", "unsat", 0),
    (TWO + "(assert (pto a (ca d)))(assert (not (exists ((u B) (v B)) (pto u (cb v)))))(check-sat)", "sat", 1),
    # satisfiability: sat where it can be satisfied
    (ask("(sep (ls x y) (pto y (c x)))"), "sat", 0),
    (ask("(sep (pto x (c y)) (pto x (c z)))"), "unsat", 1),
    (ask("(and (= x y) (distinct x y) emp)"), "unsat", 1),
    (ask("(and (distinct x y) (ls x y))"), "sat", 0),
    (ask("false"), "unsat", 1),
    (ask("emp"), "sat", 0),
    (ask("(pto x (c y))", "(not (= x y))"), "sat", 0),
    (ask("(pto x (c y))", "(not (= y y))"), "unsat", 1),
    (ask("(= x y)"), "sat", 0),
    (ask("(ls x y)", "(not (or (pto x (c y)) (= x y)))"), "sat", 1),
    (ask("(or (and (= x y) (sep (pto x (c y)) (pto y (c x)))) (pto nil (c x)))"), "unsat", 1),
    # older forms, asides, comments
    ("; a comment (with (parentheses\n(set-logic QF_SHLS)(set-info :source |a; (b|)(set-info :x \"a \"\"b\"\" (\")(declare-sort L)"
     "(declare-datatypes () ((C (c (next L)))))(declare-heap (L C))(declare-fun x () L)(assert (pto x (c x)))(check-sat)(get-model)(exit)(nothing", None, None),
    ("; a comment (with (parentheses\n(set-logic QF_SHLS)(set-info :source |a; (b|)(set-info :x \"a \"\"b\"\" (\")(declare-sort L)"
     "(declare-datatypes () ((C (c (next L)))))(declare-heap (L C))(declare-fun x () L)(assert (pto x (c x)))(check-sat)(get-model)(exit)(nothing)", "sat", 0),
]

# each fault: a script with `@` before the token at which it stands
FAULTS = [
    ("ill-formed question", 4, HEAD + "@"),
    ("ill-formed duplicate", 4, "(declare-sort L 0)(declare-sort @L 0)"),
    ("ill-formed duplicate", 4, "(declare-sort @Int 0)"),
    ("ill-formed duplicate", 4, HEAD + "(declare-const @x L)"),
    ("ill-formed duplicate", 4, HEAD + "(declare-const @and L)"),
    ("ill-formed duplicate", 4, HEAD + "(define-fun @ls ((a L)) Bool true)"),
    ("ill-formed unknown", 4, "(declare-const x @L)"),
    ("ill-formed unknown", 4, ask("(ls x @v)")),
    ("ill-formed unknown", 4, ask("(@lt x y)")),
    ("ill-formed unknown", 4, HEAD + "(define-fun f () Bool (and emp @f))"),
    ("ill-formed unknown", 4, HEAD + "(define-fun f () Bool @g)(define-fun g () Bool f)"),
    ("ill-formed unknown", 4, HEAD + "(define-fun-rec f () Bool (or emp @g))(define-fun-rec g () Bool f)"),
    ("ill-formed unknown", 4, ask("(exists ((u @M)) emp)")),
    ("ill-formed unknown", 4, ask("(pto x (@d y))")),
    ("ill-formed arity", 4, ask("(@ls x)")),
    ("ill-formed arity", 4, ask("(@ls x y z)")),
    ("ill-formed arity", 4, ask("(pto x (@c))")),
    ("ill-formed arity", 4, ask("@and")),
    ("ill-formed sort", 4, TWO + "(assert (= a @b))"),
    ("ill-formed sort", 4, TWO + "(assert (pto a (ca @b)))"),
    ("ill-formed sort", 4, TWO + "(assert (pto @b (ca a)))"),
    ("ill-formed sort", 4, ask("@x")),
    ("ill-formed sort", 4, ask("(let ((f emp)) (= @f x))")),
    ("unsupported command", 4, HEAD + "(@push 1)"),
    ("unsupported command", 4, HEAD + "(@define-sort M () L)"),
    ("unsupported question", 4, ask("emp") + "(@check-sat)"),
    ("unsupported question", 4, ask("emp") + "(@assert emp)"),
    ("unsupported sort", 4, "(declare-sort M @1)"),
    ("unsupported sort", 4, "(declare-const x @(Set L))"),
    ("unsupported sort", 4, "(declare-datatypes ((D @1)) ((par (T) ((d)))))"),
    ("unsupported theory", 4, "(declare-const x @Int)"),
    ("unsupported theory", 4, ask("(= x @1)")),
    ("unsupported theory", 4, ask("(@< x y)")),
    ("unsupported function", 4, HEAD + "(declare-fun @f (L) L)"),
    ("unsupported function", 4, HEAD + "(define-fun f () @L x)"),
    ("unsupported cell", 4, "(declare-sort L 0)(declare-heap (L @L))"),
    ("unsupported cell", 4, SORT + "(declare-sort M 0)(declare-heap (M @C))"),
    ("unsupported cell", 4, SORT + "(declare-datatype D ((d (to L))))(declare-const x L)(assert (pto x (@d x)))"),
    ("unsupported nested", 4, SORT + "(declare-const x @C)"),
    ("unsupported nested", 4, "(declare-sort L 0)(declare-datatypes ((D 0)) (((d (e @D)))))"),
    ("unsupported nested", 4, ask("(= x (@c y))")),
    ("unsupported nested", 4, ask("(exists ((u L)) (pto x @u))")),
    ("unsupported term", 4, ask("(= x (@next y))")),
    ("unsupported term", 4, ask("(= x (@ite (= x y) y z))")),
    ("unsupported connective", 4, ask("(@xor emp emp)")),
    ("unsupported connective", 4, ask("(= (@= x y) (= y z))")),
    ("unsupported quantifier", 4, ask("(@forall ((u L)) emp)")),
    ("unsupported wand", 4, ask("(@wand emp emp)")),
    ("unsupported constant", 4, HEAD + "(define-fun-rec p ((a L)) Bool (pto a (c @x)))"),
    ("unsupported open-heap", 4, HEAD + "(assert (or (pto x (c y)) (= x y)))(assert (not (ls x y)))(check-sat)@"),
    ("unsupported quantifier", 4, HEAD + "(assert (ls x y))(assert @(not (or (pto x (c y)) (exists ((u L)) (= u x)))))(check-sat)"),
    ("unsupported open-heap", 4, SORT + "(define-fun-rec @p ((a L)) Bool (= a nil))(declare-const x L)(assert (p x))(check-sat)"),
    ("unsupported open-part", 4, HEAD + "(assert @(sep (= x y) (pto x (c y))))(check-sat)"),
    ("unsupported conjunction", 4, HEAD + "(assert @(or (and (ls x y) (ls y x)) emp))(check-sat)"),
    ("unsupported negation", 4, HEAD + "(assert @(or (not emp) (pto x (c y))))(check-sat)"),
    ("limit arguments", 5, HEAD + "(define-fun-rec p @(" + "".join(f"(a{i} L)" for i in range(9)) + ") Bool emp)"),
    ("limit spatial", 5, chain(65, "@")),
    ("unreadable syntax", 3, "(declare-sort L 0)@)"),
    ("unreadable syntax", 3, "(declare-sort L 0@"),
    ("unreadable syntax", 3, "(@(declare-sort) L 0)"),
    ("unreadable syntax", 3, "(@)"),
    ("unreadable syntax", 3, "(exit) @x"),
    ("unreadable syntax", 3, "(@nonsense)"),
    ("unreadable syntax", 3, "(assert@)"),
    ("unreadable syntax", 3, "(assert emp @emp)"),
    ("unreadable syntax", 3, "(assert (and@))"),
    ("unreadable syntax", 3, "(assert (not emp @emp))"),
    ("unreadable syntax", 3, "(declare-sort @2 0)"),
    ("unreadable syntax", 3, "(assert (exists @x emp))"),
    ("unreadable syntax", 3, "(assert (exists (@) emp))"),
]

# bad bytes: a text with its line
BYTES = [
    (b"(assert [", "unreadable byte offset 8 line 1 column 9"),
    (b"(a\n |b", "unreadable byte offset 4 line 2 column 2"),
    (b'(a "b""', "unreadable byte offset 3 line 1 column 4"),
    ("(é".encode(), "unreadable byte offset 1 line 1 column 2"),
    ("(a |é| é".encode(), "unreadable byte offset 8 line 1 column 8"),
    (b"(a |\xff| [", "unreadable utf8 offset 4 line 1 column 5"),
    (b"(a [ \xff", "unreadable byte offset 3 line 1 column 4"),
    ("; é\n(".encode(), "unreadable syntax token 1 line 2 column 2"),
]

failed = False


def fail(message):
    global failed
    print("scripts:", message)
    failed = True


def run(program, text, *words):
    data = text if isinstance(text, bytes) else text.encode()
    done = subprocess.run([program, *words], input=data, capture_output=True, timeout=SECONDS)
    return done.returncode, done.stdout.decode(errors="replace")


def parted(answer):
    """The problem that stands after the first line, and what stands after that."""
    body = answer.split("\n", 1)[1]
    lines = body.split("\n")
    begin = next((i for i, line in enumerate(lines) if line.startswith("cyclist problem")), None)
    if begin is None:
        return None, None
    end = next(i for i in range(begin, len(lines)) if lines[i] == "end;")
    return "\n".join(lines[begin:end + 1]) + "\n", "\n".join(lines[end + 1:])


def shows(text, line, status):
    """The answer, and that what is written shows it."""
    code, answer = run(SOLVER, text)
    first = answer.split("\n", 1)[0]
    if (first, code) != (line, status):
        return fail(f"{text[-120:]!r}: status {code}, '{first}'; wanted status {status}, '{line}'")
    problem, certificate = parted(answer)
    if problem is None:
        return fail(f"{text[-120:]!r}: no problem stands after the first line")
    asked, said = run(CYCLIST, problem, "sat")
    if certificate.startswith("cyclist proof"):
        good = line == "unsat" and run(CYCLIST, certificate, "check")[0] == 0
    elif certificate.startswith("cyclist model"):
        good = line == "sat" and run(CYCLIST, certificate, "model")[0] in (0, 4)
    else:
        good = certificate == "" and asked == (1 if line == "unsat" else 0)
    if not good:
        fail(f"{text[-120:]!r}: what follows does not show that it is {line}: {said!r}")


def place(text, at):
    """The number, the line and the column of the token that begins at an offset, by a reader of this file's own."""
    token, i, quote = 0, 0, None
    while i < at:
        c = text[i]
        if c in "()":
            token, i = token + 1, i + 1
        elif c == ";":
            while i < len(text) and text[i] != "\n":
                i += 1
        elif c in "|\"":
            i = text.index(c, i + 1) + 1
            while c == "\"" and text[i:i + 1] == c:
                i = text.index(c, i + 1) + 1
            token += 1
        elif c.isspace():
            i += 1
        else:
            while i < len(text) and text[i] not in "()|\";" and not text[i].isspace():
                i += 1
            token += 1
    before = text[:at]
    return token, before.count("\n") + 1, at - (before.rfind("\n") + 1) + 1


def refused(text, line, status):
    code, answer = run(SOLVER, text)
    first = answer.split("\n", 1)[0]
    if (first, code) != (line, status):
        shown = text if len(text) < 400 else text[:60] + ".." + text[-60:]
        fail(f"{shown!r}: status {code}, '{first}'; wanted status {status}, '{line}'")


for text, line, status in ANSWERS:
    if line is None:
        at = len(text)
        token, row, column = place(text, at)
        refused(text, f"unreadable syntax token {token} line {row} column {column}", 3)
    else:
        shows(text, line, status)
for what, status, marked in FAULTS:
    at = marked.index("@")
    text = marked[:at] + marked[at + 1:]
    token, row, column = place(text, at)
    refused(text, f"{what} token {token} line {row} column {column}", status)
for text, line in BYTES:
    refused(text, line, 3)

# deep ones
refused("(" * (1 << 24), "unreadable syntax token 1 line 1 column 2", 3)
refused("(a " + "(" * 5_000_000, "unreadable syntax token 5000002 line 1 column 5000004", 3)
deep = "(assert " + "(not " * 100_000 + "emp" + ")" * 100_000 + ")"
code, answer = run(SOLVER, deep)
if code != 5 or not answer.startswith("limit depth token "):
    fail(f"a formula 100,000 deep: status {code}, {answer[:60]!r}")
shallow = HEAD + "(assert " + "(and emp " * 190 + "true" + ")" * 190 + ")(check-sat)"
code, answer = run(SOLVER, shallow)
if answer.startswith("limit depth"):
    fail("a formula 190 deep is refused")
# large ones
doubling = "emp"
lets = "".join(f"(let ((f{i} (and {'emp' if i == 0 else f'f{i - 1}'} {'true' if i == 0 else f'f{i - 1}'})))" for i in range(60))
code, answer = run(SOLVER, HEAD + "(assert " + lets + "f59" + ")" * 60 + ")(check-sat)")
if code != 5 or not answer.startswith("limit size token "):
    fail(f"a `let` that doubles 60 times: status {code}, {answer[:60]!r}")
defines = "".join(f"(define-fun f{i} () Bool (and {'true' if i == 0 else f'f{i - 1}'} {'true' if i == 0 else f'f{i - 1}'}))" for i in range(60))
code, answer = run(SOLVER, HEAD + defines + "(assert f59)(check-sat)")
if code != 5 or not answer.startswith("limit size token "):
    fail(f"a definition that doubles 60 times: status {code}, {answer[:60]!r}")
wide = HEAD + "(assert (distinct " + "x " * 3_000 + "))(check-sat)"
code, answer = run(SOLVER, wide)
if code != 5 or not answer.startswith("limit size token "):
    fail(f"`distinct` of 3,000 terms: status {code}, {answer[:60]!r}")
# long names
long, other = "n" * 10_000, "n" * 9_999 + "m"
shows(SORT + LS + f"(declare-const {long} L)(declare-const {other} L)(assert (pto {long} (c {other})))(assert (not (ls {long} {other})))(check-sat)", "unsat", 0)
shows(SORT + f"(define-fun-rec {long} ((|{other}| L)) Bool (pto {other} (c nil)))(declare-const x L)(assert ({long} x))(check-sat)", "sat", 0)
many = "".join(f"(declare-const {'n' * 60}{i} L)" for i in range(2_000))
shows(SORT + many + f"(assert (pto {'n' * 60}7 (c {'n' * 60}1999)))(check-sat)", "sat", 0)
# a problem is of version 2, and of version 3 where that has no room
for cells, version in ((32, 2), (33, 3)):
    shows(chain(cells), "sat", 0)
    problem = parted(run(SOLVER, chain(cells))[1])[0]
    if not problem.startswith(f"cyclist problem {version};"):
        fail(f"{cells} cells become a problem that begins {problem[:18]!r}")
# no script
refused("", "unreadable syntax token 0 line 1 column 1", 3)
refused("; nothing", "unreadable syntax token 0 line 1 column 1", 3)
refused("goal (", "unreadable syntax token 0 line 1 column 1", 3)
sys.exit(1 if failed else 0)
