"""Looks whether each snippet of docs/YOUR-LOGIC.md is a stretch of the file that the line before it names, as a line
`crates/NAME/..` in backticks and a colon does; and whether the document is short enough."""
import os
import re
import sys

top = os.path.dirname(os.path.dirname(os.path.abspath(__file__)))
PAGE = "docs/YOUR-LOGIC.md"
MOST_WORDS = 1500
SNIPPET = re.compile(r"^`((?:crates|examples|\.ci)/[^`]+)`[^\n]*:\n\n```\w*\n(.*?)^```$", re.M | re.S)


def main():
    with open(f"{top}/{PAGE}", encoding="utf-8") as it:
        text = it.read()
    faults = []
    found = SNIPPET.findall(text)
    if len(found) * 2 != len(re.findall(r"^```", text, re.M)):
        faults.append("a snippet has no line before it that names its file")
    for path, snippet in found:
        try:
            with open(f"{top}/{path}", encoding="utf-8") as it:
                whole = it.read()
        except OSError:
            faults.append(f"no file {path}")
            continue
        if f"\n{snippet}" not in f"\n{whole}":
            faults.append(f"{path} has no such stretch: {snippet.splitlines()[0]!r}")
    words = len(re.sub(r"^```.*?^```$", "", text, flags=re.M | re.S).split())
    if words > MOST_WORDS:
        faults.append(f"{words} words, of {MOST_WORDS}")
    for fault in faults:
        print(f"snippets: {PAGE}: {fault}")
    if not faults:
        print(f"snippets: {len(found)} snippets of {PAGE} stand in the crates, {words} words")
    return 1 if faults else 0


sys.exit(main())
