#!/usr/bin/env python3
"""bench/wrong_runs.py PROGRAM CHECKER SEEKER DRAW EDIT..: tries wrong bodies of wrong-bodies/ that a script of .ci/ or examples/ refuses,
which their first line names. Each is put into a copy of the repository, the programs that rest on its crate are built without a proof,
which takes some minutes each, and the script runs on these and, for the others, on the right ones that are given. Prints what came of
each; ends with 0 where all were refused."""
import os
import subprocess
import sys
import tempfile

top = os.path.dirname(os.path.dirname(os.path.abspath(__file__)))
NAMES = ["cyclist", "cyclist_check", "cyclist_solve", "cyclist_draw"]
# The places among these four of the programs that each script takes.
TAKEN = {
    ".ci/runs.sh": [0], ".ci/solves.sh": [2, 1], ".ci/checks.sh": [1], ".ci/texts.py": [0, 1], ".ci/edges.py": [0, 1, 2, 3],
    ".ci/costs.py": [0, 1, 2, 3], ".ci/pictures.sh": [3, 0], "examples/check.sh": [0, 2],
}


def resting(crate):
    """Returns the places of the programs that rest on a crate."""
    with open(f"{top}/crates.txt", encoding="utf-8") as it:
        lines = [line.split(":", 1) for line in it if ":" in line and not line.startswith("#")]
    uses = {name.split()[0]: set(rest.split()) for name, rest in lines}

    def below(name):
        found, waiting = {name}, [name]
        while waiting:
            new = uses.get(waiting.pop(), set()) - found
            found |= new
            waiting += new
        return found

    return [place for place, name in enumerate(NAMES) if crate in below(name)]


def put(edit, crate, copy):
    """Makes the changes of an edit, and returns the script that refuses it."""
    script = path = old = None
    with open(edit, encoding="utf-8") as it:
        for line in it.read().splitlines():
            word, _, text = line.partition(" ")
            if line.startswith("refused by: "):
                script = line.removeprefix("refused by: ")
            elif word == "file:":
                path = f"{copy}/crates/{crate}/{text.strip()}"
            elif word == "old:":
                old = text
            elif word == "new:":
                with open(path, encoding="utf-8") as source:
                    changed = source.read().replace(old, text, 1)
                with open(path, "w", encoding="utf-8") as source:
                    source.write(changed)
    return script


def is_refused(edit, right, room):
    """Builds what rests on the wrong body, and says whether the script fails."""
    crate, copy, programs = os.path.basename(os.path.dirname(edit)), f"{room}/copy", list(right)
    subprocess.run(["rm", "-rf", copy], check=True)
    subprocess.run(["git", "clone", "-q", top, copy], check=True)
    script = put(edit, crate, copy)
    for place in resting(crate):
        if place in TAKEN[script]:
            programs[place] = f"{room}/{NAMES[place]}"
            subprocess.run([sys.executable, f"{top}/bench/unproved.py", copy, programs[place], NAMES[place]], stdout=subprocess.DEVNULL, check=True)
    command = [sys.executable if script.endswith(".py") else "bash", f"{top}/{script}", *[programs[place] for place in TAKEN[script]]]
    done = subprocess.run(command, stdin=subprocess.DEVNULL, stdout=subprocess.PIPE, stderr=subprocess.STDOUT, check=False)
    last = done.stdout.decode(errors="replace").strip().splitlines()[-1:]
    print(f"{edit}: {'refused' if done.returncode else 'NOT refused'} by {script}: {last}", flush=True)
    return done.returncode != 0


def main():
    right, edits = list(map(os.path.abspath, sys.argv[1:5])), list(map(os.path.abspath, sys.argv[5:]))
    with tempfile.TemporaryDirectory() as room:
        sys.exit(0 if all([is_refused(edit, right, room) for edit in edits]) else 1)


main()
