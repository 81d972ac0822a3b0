"""Looks whether each wrong body of wrong-bodies/ can still be applied to the crate that it names: each of its old texts
stands in the file once, after the changes before it. Whether the prover refuses them is for bench/wrong-bodies.sh. Some break
what no contract says, and are refused by a script that runs the built programs: its name stands in their first line, after
`refused by:`. Whether that script refuses them is for bench/wrong_runs.py."""
import glob
import os
import sys

top = os.path.dirname(os.path.dirname(os.path.abspath(__file__)))


def fault_of(path):
    """Returns why the edit cannot be applied, or None."""
    crate = os.path.basename(os.path.dirname(path))
    texts, file, old, pairs = {}, None, None, 0
    with open(path, encoding="utf-8") as it:
        for line in it.read().splitlines():
            word, _, text = line.partition(" ")
            if word == "file:":
                file = f"{top}/crates/{crate}/{text.strip()}"
                if not os.path.isfile(file):
                    return f"there is no file {text.strip()}"
                with open(file, encoding="utf-8") as source:
                    texts.setdefault(file, source.read())
            elif line.startswith("refused by: "):
                if not os.path.isfile(f"{top}/{line.removeprefix('refused by: ')}"):
                    return f"there is no script {text}"
            elif word == "old:":
                old = text
            elif word == "new:":
                found = texts[file].count(old)
                if found != 1:
                    return f"an old text stands there {found} times: {old}"
                texts[file] = texts[file].replace(old, text)
                pairs += 1
    return None if pairs else "it changes nothing"


paths = sorted(glob.glob(f"{top}/wrong-bodies/*/*.edit"))
faults = [f"{os.path.relpath(path, top)}: {fault}" for path in paths if (fault := fault_of(path))]
print("\n".join(faults) if faults else f"wrong bodies: each of the {len(paths)} can be applied")
sys.exit(1 if faults or not paths else 0)
