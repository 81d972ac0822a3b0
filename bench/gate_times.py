"""Reads the prover's processes while a gate runs, and prints what it took by crate (bench/gate.sh calls it)."""
import os
import re
import sys
import time

LINE = re.compile(r"gate: (proof|tests|edits) (\S+) (\d+\.\d) s")
TICKS = os.sysconf("SC_CLK_TCK")


def read(path):
    try:
        with open(path, "rb") as it:
            return it.read()
    except OSError:
        return b""


def processes():
    """Yields, for each process, its number, its parent's, when it began, and the seconds of processor that it has used."""
    for name in os.listdir("/proc"):
        if name.isdigit():
            fields = read(f"/proc/{name}/stat").rpartition(b")")[2].split()
            if len(fields) > 19:
                yield int(name), int(fields[1]), int(fields[19]), (int(fields[11]) + int(fields[12])) / TICKS


def kind_of(process):
    """Returns whether a process of the prover proves a crate, its tests or an edit, and the crate's name, or None."""
    words = read(f"/proc/{process}/cmdline").decode(errors="replace").split("\0")
    if "--crate-name" not in words:
        return None
    crate = words[words.index("--crate-name") + 1]
    try:
        is_edit = "/rt-edit-" in os.readlink(f"/proc/{process}/cwd")
    except OSError:
        return None
    return ("edits" if is_edit else "tests" if "--test" in words else "proof"), crate


def below(root, parents):
    """Returns the processes that the process root began, and those that they began."""
    found = {root}
    while True:
        more = {it for it, parent in parents.items() if parent in found} - found
        if not more:
            return found
        found |= more


def is_running(process):
    return read(f"/proc/{process}/stat").rpartition(b")")[2].split()[:1] not in ([], [b"Z"])


def watch(root, log):
    """Adds a line for each crate and kind to the log, once the process root has ended."""
    began, kinds, spent = time.time(), {}, {}
    while is_running(root):
        now = list(processes())
        ours = below(root, {it: parent for it, parent, _, _ in now})
        for process, _, start, seconds in now:
            key = process, start
            if process in ours and key not in kinds:
                kinds[key] = kind_of(process)
            if kinds.get(key):
                spent[key] = seconds
        time.sleep(2)
    totals = {}
    for key, seconds in spent.items():
        totals[kinds[key]] = totals.get(kinds[key], 0) + seconds
    with open(log, "a", encoding="utf-8") as it:
        for (kind, crate), seconds in sorted(totals.items()):
            it.write(f"gate: {kind} {crate} {seconds:.1f} s\n")
        it.write(f"gate: all in {(time.time() - began) / 60:.1f} minutes\n")


def show(log):
    with open(log, encoding="utf-8", errors="replace") as it:
        lines = it.read().splitlines()
    rows, tasks = {}, []
    for kind, crate, seconds in (LINE.fullmatch(it).groups() for it in lines if LINE.fullmatch(it)):
        rows.setdefault(crate, {})[kind] = float(seconds) / 60
        tasks.append((float(seconds) / 60, kind, crate))
    if not rows:
        sys.exit(f"{log} keeps no figures: bench/gate.sh writes them when it runs the gate itself")
    print(f"{'crate':20} {'proof':>7} {'tests':>7} {'edits':>7} {'all':>7}  processor minutes")
    for crate, row in sorted(rows.items(), key=lambda it: -sum(it[1].values())):
        print(f"{crate:20}" + "".join(f" {row.get(it, 0):7.1f}" for it in ("proof", "tests", "edits")) + f" {sum(row.values()):7.1f}")
    sums = [sum(row.get(it, 0) for row in rows.values()) for it in ("proof", "tests", "edits")]
    print(f"{'all':20}" + "".join(f" {it:7.1f}" for it in (*sums, sum(sums))))
    print("the slowest:", ", ".join(f"{kind} of {crate} {minutes:.1f}" for minutes, kind, crate in sorted(tasks, reverse=True)[:10]))
    print("\n".join(it for it in lines if it.startswith("gate: all in") or re.fullmatch(r"\d+ passed, \d+ failed", it)))


if sys.argv[1] == "watch":
    watch(int(sys.argv[2]), sys.argv[3])
else:
    show(sys.argv[2])
