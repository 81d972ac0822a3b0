"""Looks whether what the documents name is there: each link with its heading, each path of the repository, each file of a crate, and
each path from `src/`, `specs/` or `proofs/` on in some crate that its line names; whether each crate has a row among the contracts; and whether the first pages are short enough. Indented text is not looked at."""
import glob
import os
import re
import sys

top = os.path.dirname(os.path.dirname(os.path.abspath(__file__)))
DOCUMENTS = ["README.md", "docs/*.md", "examples/*.md"]
MOST_WORDS = {"README.md": 2000, "docs/ARCHITECTURE.md": 3000}
FOLDERS = ("crates/", "docs/", "bench/", ".ci/", "examples/", "wrong-bodies/", "man/")
LINK = re.compile(r"\[[^\]]*\]\(([^)\s]+)\)")
QUOTED = re.compile(r"`([^`]+)`")


def text_of(path):
    """The lines of a document, but for those that are indented as code."""
    with open(f"{top}/{path}", encoding="utf-8") as lines:
        return [line.rstrip("\n") for line in lines if not line.startswith("    ")]


def anchors_of(path):
    """The names by which the headings of a document are linked."""
    headings = [re.sub(r"^#+ ", "", line).lower() for line in text_of(path) if re.match(r"#+ ", line)]
    return {re.sub(r"[^\w\- ]", "", heading).replace(" ", "-") for heading in headings}


def fault_of_link(path, target):
    """Why a link of the document leads nowhere, or None."""
    if re.match(r"[a-z]+:", target):
        return None
    name, _, anchor = target.partition("#")
    file = os.path.normpath(os.path.join(os.path.dirname(path), name)) if name else path
    if not os.path.exists(f"{top}/{file}"):
        return f"no file {file}"
    if anchor and anchor not in anchors_of(file):
        return f"no heading #{anchor} in {file}"
    return None


def is_pattern(word):
    """Whether the word stands for many paths."""
    return bool(re.search(r"[*{}<>]|\b(NAME|CRATE|FILE)\b|\.\.$", word))


def fault_of_quoted(quoted, crates, names):
    """Why a path that stands in backticks leads nowhere, or None."""
    start = quoted.split(" ")[0]
    word = start.removeprefix("./")
    if is_pattern(word):
        return None
    if start.startswith("./") or word.startswith(FOLDERS):
        return None if os.path.exists(f"{top}/{word}") else f"no file {word}"
    if "/" in word and word.split("/")[0] in crates:
        return None if os.path.exists(f"{top}/crates/{word}") else f"no file crates/{word}"
    if re.fullmatch(r"\w[\w-]*\.(antt|rt|py|sh)", word):
        return None if word in names else f"no file of the name {word}"
    return None


def crates_in(quoted, crates):
    """The crates that words in backticks name, alone or before a path or a module; all, if they name none."""
    return {re.split(r"/|::", word.removeprefix("crates/"))[0] for word in quoted} & crates or crates


def fault_of_part(word, named):
    """Why a path within a crate leads nowhere in any of the crates that are named, or None."""
    if is_pattern(word) or not re.match(r"(src|specs|proofs)/\w", word):
        return None
    return None if any(glob.glob(f"{top}/crates/{crate}/{word}*") for crate in named) else f"no file {word} in a crate that is named"


def faults_of(path, crates, names):
    """What is wrong with a document."""
    for line in text_of(path):
        quoted = QUOTED.findall(line)
        named = crates_in(quoted, crates)
        found = [fault_of_link(path, target) for target in LINK.findall(line)]
        found += [fault_of_quoted(word, crates, names) or fault_of_part(word, named) for word in quoted]
        yield from (f"{path}: {fault}, in '{line[:60]}'" for fault in found if fault)
    if path in MOST_WORDS:
        with open(f"{top}/{path}", encoding="utf-8") as document:
            count = len(document.read().split())
        if count > MOST_WORDS[path]:
            yield f"{path}: {count} words, and {MOST_WORDS[path]} are allowed"


def main():
    crates = {os.path.basename(folder) for folder in glob.glob(f"{top}/crates/*")}
    names = {name for folder in ("crates", "bench", ".ci", "examples") for _, _, files in os.walk(f"{top}/{folder}") for name in files}
    paths = sorted(os.path.relpath(path, top) for pattern in DOCUMENTS for path in glob.glob(f"{top}/{pattern}"))
    faults = [fault for path in paths for fault in faults_of(path, crates, names)]
    with open(f"{top}/docs/CONTRACTS.md", encoding="utf-8") as page:
        rows = {name for line in page if line.startswith("| `") for name in QUOTED.findall(line.split(" | ")[0])}
    faults += [f"docs/CONTRACTS.md has no row for {crate}" for crate in sorted(crates - rows)]
    print("\n".join(faults) if faults else f"links: {len(paths)} documents name what is there")
    return 1 if faults or not paths else 0


sys.exit(main())
