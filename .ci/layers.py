"""Draws the layers of crates.txt: a box for each of its headings, with the crates below it, and an arrow from each layer to those
that it rests on, but for those that another arrow leads to already. `.ci/layers.py` compares docs/pictures/layers.dot with that,
`.ci/layers.py --write` writes it, and `dot -Tsvg docs/pictures/layers.dot > docs/pictures/layers.svg` draws it."""
import os
import sys
import textwrap

top = os.path.dirname(os.path.dirname(os.path.abspath(__file__)))
PICTURE = f"{top}/docs/pictures/layers.dot"


def layers():
    """Returns the headings in order, each with its crates, and for each crate the names that its line has."""
    found, uses, heading = {}, {}, None
    with open(f"{top}/crates.txt", encoding="utf-8") as lines:
        for line in lines:
            if line.startswith("# "):
                heading = line[2:].strip()
            elif ":" in line:
                name, _, rest = line.partition(":")
                found.setdefault(heading, []).append(name)
                uses[name] = rest.split()
    return found, uses


def direct_uses(found, uses):
    """The layers that the crates of each layer name."""
    layer_of = {name: heading for heading, names in found.items() for name in names}
    return {heading: {layer_of[used] for name in names for used in uses[name] if used in layer_of} - {heading} for heading, names in found.items()}


def below(layer, direct):
    """All layers that one rests on, by any way."""
    reached, waiting = set(), list(direct[layer])
    while waiting:
        other = waiting.pop()
        if other not in reached:
            reached.add(other)
            waiting.extend(direct[other])
    return reached


def drawing(found, direct):
    """The text of the picture."""
    numbers = {heading: number for number, heading in enumerate(found)}
    lines = ["digraph {", '  rankdir = "TB";', '  node [shape = "box", fontname = "monospace", fontsize = 10];']
    for heading, names in found.items():
        text = "\\l".join(textwrap.wrap(" ".join(names), 46))
        lines.append(f'  layer{numbers[heading]} [label = "{heading}\\n\\n{text}\\l"];')
    for heading in found:
        ways = {other for middle in direct[heading] for other in below(middle, direct)}
        for other in sorted(direct[heading] - ways, key=numbers.get):
            lines.append(f"  layer{numbers[heading]} -> layer{numbers[other]};")
    return "\n".join(lines) + "\n}\n"


def main():
    found, uses = layers()
    direct = direct_uses(found, uses)
    faults = [f"crates.txt: '{heading}' rests on itself by way of other layers" for heading in found if heading in below(heading, direct)]
    text = drawing(found, direct)
    if sys.argv[1:] == ["--write"]:
        with open(PICTURE, "w", encoding="utf-8") as picture:
            picture.write(text)
    else:
        with open(PICTURE, encoding="utf-8") as picture:
            if picture.read() != text:
                faults.append("docs/pictures/layers.dot is not what .ci/layers.py makes of crates.txt")
    print("\n".join(faults) if faults else f"layers: {len(uses)} crates in {len(found)} layers")
    return 1 if faults else 0


sys.exit(main())
