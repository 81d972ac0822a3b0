"""Tries a program on examples that were changed at random (bench/mutate.sh calls it)."""
import collections
import glob
import os
import random
import re
import subprocess
import sys
import tempfile

PLACE = rb"line \d+ column \d+"
FAULT = rb"[A-Z][A-Za-z]+( \d+)?"
WHAT = rb"(predicates|arguments|cases|pure|spatial|locals|disjuncts|lines|program-variables|fields|nodes|variable|stack|cells|constructors|atoms|terms)"
ILL = rb"(duplicate|parameter|unknown|arity|numbering|jump|falls-off|no-line|address|constant)"
ODD = rb"ill-formed (judgement from|constructive (case \d+ \d+|ask \d+))\n"
STEPS = rb"( \d+\.\d+)*"
LINES = {
    0: rb"accepted (entailment|termination|correctness|first-order) nodes \d+ links \d+\n|satisfiable\n|holds\n",
    1: rb"refused (node \d+ " + FAULT + rb"|path stem" + STEPS + rb" cycle( \d+\.\d+)+)\n|unsatisfiable\n|fails\n",
    2: rb"usage: cyclist check \|.*\n",
    3: rb"unreadable ((byte|utf8|number|name) offset \d+|syntax token \d+) " + PLACE + rb"\n",
    4: rb"ill-formed " + ILL + rb" token \d+ " + PLACE + rb"\n|" + ODD,
    5: rb"limit (" + WHAT + rb" token \d+ " + PLACE + rb"|states|derivations|pairs|universals|input)\n",
    6: rb"not found (depth|cells) \d+\n",
}
# The commands that a file is for, and for those that write a file the one that has to take it, with its answer.
WORDS = {
    ".proof": [["check"], ["check"], ["upgrade"]],
    ".problem": [["prove", "--depth", "5"], ["prove", "--depth", "5"], ["sat"], ["disprove", "--cells", "1"]],
    ".model": [["model"]],
    ".fo": [["fo-check"]],
    ".foproblem": [["fo", "--depth", "5"]],
}
TAKEN_BY = {"prove": ("check", rb"accepted .*\n"), "upgrade": ("upgrade", None), "disprove": ("model", rb"holds\n"), "fo": ("fo-check", rb"accepted .*\n")}
# What `solve` says on its first line, beside the lines of the other programs.
SCRIPT = rb"(depth|size|sorts|constants|predicates|constructors|arguments|fields|locals|pure|spatial|variable|cases|disjunction)"
SOLVED = {
    0: rb"holds( antecedent unsatisfiable)?|unsat|sat",
    1: rb"fails|unsat|sat",
    4: rb"(ill-formed (sort|question)|unsupported [a-z-]+) token \d+ " + PLACE,
    5: rb"limit (text|" + SCRIPT + rb" token \d+ " + PLACE + rb")",
    6: rb"unknown",
}
BEGINS = re.compile(rb"^cyclist (problem|proof|model|run) \d;$", re.M)
# What stands at the token that a fault names, and right before it: names, numbers, or these words; and whether the name is one
# that the text declares.
NAME, NUMBER = rb"[A-Za-z_]\w*", rb"\d+"
ABOUT = {
    b"duplicate": (NAME, rb"pred|con|[(,]", True),
    b"unknown": (NAME, None, False),
    b"arity": (NAME, None, True),
    b"parameter": (NUMBER, rb"\$", None),
    b"numbering": (NUMBER, rb"line|ends", None),
    b"jump": (NUMBER, rb"goto", None),
    b"falls-off": (rb"line", None, None),
    b"no-line": (NUMBER, rb"from|ends", None),
    b"address": (NUMBER, None, None),
    b"constant": (NUMBER, NAME, None),
    b"constructors": (rb"con", None, None),
    b"predicates": (rb"pred", None, None),
    b"lines": (rb"line", None, None),
    b"nodes": (rb"node", None, None),
    b"variable": (NUMBER, rb"[$?]", None),
    b"fields": (NUMBER, rb"new|\.", None),
    b"locals": (rb"\w+", None, None),
    b"program-variables": (rb"\w+", None, None),
}
# What the other limits stand at: the first token of what is counted.
FIRST = rb"\w+|[$?]"
AT = re.compile(rb"(?:ill-formed|limit) ([a-z-]+) token (\d+) line (\d+) column (\d+)\n")
TOKEN = re.compile(rb"[A-Za-z_]\w*|\d+|\|-|->|:=|!=|#[^\n]*|\s+|.", re.S)
NUMBERS = [b"0", b"1", b"2", b"3", b"7", b"8", b"9", b"15", b"16", b"63", b"64", b"65534", b"65535", b"999999999", b"007"]


def change_byte(chance, text, _texts):
    at, byte = chance.randrange(len(text) + 1), bytes([chance.randrange(256)])
    return chance.choice([text[:at] + byte + text[at:], text[:at] + text[at + 1 :], text[:at] + byte + text[at + 1 :], text[:at]])


def change_token(chance, text, texts):
    tokens, others = TOKEN.findall(text) or [b" "], TOKEN.findall(chance.choice(texts))
    at, other = chance.randrange(len(tokens)), chance.choice(others)
    replaced = chance.choice([[], [other], [tokens[at], b" ", tokens[at]], [tokens[at], b" ", other], [chance.choice(tokens)]])
    return b"".join([*tokens[:at], *replaced, *tokens[at + 1 :]])


def change_number(chance, text, _texts):
    tokens = TOKEN.findall(text)
    places = [i for i, it in enumerate(tokens) if it.isdigit()]
    if not places:
        return text
    at = chance.choice(places)
    near = b"%d" % max(0, int(tokens[at]) + chance.choice([-1, 1]))
    tokens[at] = chance.choice([near, chance.choice(NUMBERS), tokens[chance.choice(places)]])
    return b"".join(tokens)


def run(words, text, seconds=5):
    """Returns the status and what the program writes, or None where it is not done within so many seconds."""
    try:
        done = subprocess.run(words, input=text, capture_output=True, timeout=seconds)
    except subprocess.TimeoutExpired:
        return None
    return done.returncode, done.stdout, done.stderr


def misplaced(text, wrote):
    """Returns what is wrong with the place of a fault of what the text says, if anything is."""
    said = AT.fullmatch(wrote)
    if not said or not text.isascii():
        return None
    fault, token, line, column = said[1], *(int(it) for it in said.groups()[1:])
    tokens = [it for it in TOKEN.finditer(text) if not re.match(rb"#|\s", it[0])]
    if token >= len(tokens):
        return f"{wrote!r}, and the text has {len(tokens)} tokens"
    found, before = tokens[token], tokens[token - 1][0]
    start = found.start()
    if (line, column) != (text.count(b"\n", 0, start) + 1, start - text.rfind(b"\n", 0, start)):
        return f"{wrote!r}, and that token stands elsewhere"
    wanted, behind, is_declared = ABOUT.get(fault, (FIRST, None, None))
    if not re.fullmatch(wanted, found[0]) or (behind and not re.fullmatch(behind, before)):
        return f"{wrote!r}, and there stands {before!r} {found[0]!r}"
    declared = {name[0] for word, name in zip(tokens, tokens[1:]) if word[0] in (b"pred", b"con")}
    if is_declared is not None and before not in (b"(", b",") and (found[0] in declared) != is_declared:
        return f"{wrote!r}, and {found[0]!r} is {'not ' * is_declared}declared"
    return None


def run_in_pieces(chance, words, text):
    with subprocess.Popen(words, stdin=subprocess.PIPE, stdout=subprocess.PIPE, stderr=subprocess.PIPE) as process:
        try:
            at = 0
            while at < len(text):
                size = chance.choice([1, 2, 3, 7, 64])
                process.stdin.write(text[at : at + size])
                process.stdin.flush()
                at += size
            process.stdin.close()
        except BrokenPipeError:
            pass
        wrote, said = process.stdout.read(), process.stderr.read()
    return process.returncode, wrote, said


def complaint(chance, program, words, text):
    """Returns the status, and what is wrong with the answer, if anything is."""
    ran = run([program, *words], text)
    if ran is None:
        # (a local with a high number makes `fo` try terms for all below it, also for those that no case has: docs/CONTRACTS.md says so)
        return None, None if words[0] == "fo" and re.search(rb"\?\s*\d*[3-9]|\?\s*1\d", text) else "no answer within 5 seconds"
    status, wrote, said = ran
    if status not in LINES or said:
        return status, f"status {status}, and on standard error {said!r}"
    if words[0] in TAKEN_BY and status == 0:
        command, wanted = TAKEN_BY[words[0]]
        taken = run([program, command], wrote)
        if taken is None or taken[0] != 0 or not (taken[1] == wrote if wanted is None else re.fullmatch(wanted, taken[1])):
            return status, f"what was written is answered by {command}: {taken}"
    elif not re.fullmatch(LINES[status], wrote):
        return status, f"status {status} with {wrote!r}"
    wrong = misplaced(text, wrote)
    if wrong:
        return status, wrong
    if chance.random() < 0.1 and run_in_pieces(chance, [program, *words], text) != ran:
        return status, "another answer where the input comes in pieces"
    return status, None


def shown(program, solver, certificate):
    """Returns what is wrong with what stands after the first line of `solve`, if anything is."""
    starts = [it.start() for it in BEGINS.finditer(certificate)]
    for start, end in zip(starts, [*starts[1:], len(certificate)]):
        part = certificate[start:end]
        kind = BEGINS.match(part)[1]
        words = {b"problem": [program, "sat"], b"proof": [program, "check"], b"model": [program, "model"], b"run": [solver]}[kind]
        wanted = {b"problem": rb"(un)?satisfiable\n|limit (pairs|states)\n", b"proof": rb"accepted .*\n", b"model": rb"holds\n|" + ODD}.get(kind, rb"holds\n")
        told = run(words, part, 30)
        if told is None or not re.fullmatch(wanted, told[1]):
            return f"the {kind.decode()} that was written is answered by {told}"
    return None


def unsolved(program, solver, text):
    """Returns the status of `solve`, and what is wrong with its answer, if anything is."""
    ran = run([solver, "--effort", "1"], text, 60)
    if ran is None:
        return None, "no answer within a minute"
    status, wrote, said = ran
    first, _, rest = wrote.partition(b"\n")
    known = [it for it in (SOLVED.get(status), LINES.get(status) if status > 2 else None) if it]
    if said or not any(re.fullmatch(it, first) or re.fullmatch(it, first + b"\n") for it in known):
        return status, f"status {status} with {first!r}, and on standard error {said!r}"
    if status in (0, 1, 6):
        return status, shown(program, solver, rest)
    return status, None


def main(count, seed, program, folder, solver=None):
    chance = random.Random(seed)
    kinds = (".problem", ".smt2") if solver else WORDS
    names = sorted(it for it in glob.glob(f"{folder}/**/*", recursive=True) if os.path.splitext(it)[1] in kinds)
    texts = []
    for name in names:
        with open(name, "rb") as it:
            texts.append(it.read())
    ended = collections.Counter()
    for number in range(count):
        at = chance.randrange(len(names))
        text = texts[at]
        for _ in range(chance.choice([1, 1, 1, 2, 3])):
            text = chance.choice([change_byte, change_token, change_number, change_number])(chance, text, texts)
        words = ["solve"] if solver else chance.choice(WORDS[os.path.splitext(names[at])[1]])
        status, wrong = unsolved(program, solver, text) if solver else complaint(chance, program, words, text)
        if wrong:
            with tempfile.NamedTemporaryFile(prefix="mutated-", delete=False) as it:
                it.write(text)
            print(f"case {number} of seed {seed}, {' '.join(words)} < {it.name}: {wrong}")
            return 1
        ended[words[0], "none" if status is None else status] += 1
    for (word, status), cases in sorted(ended.items(), key=str):
        print(f"{word} status {status}: {cases}")
    return 0


sys.exit(main(int(sys.argv[1]), int(sys.argv[2]), *sys.argv[3:]))
