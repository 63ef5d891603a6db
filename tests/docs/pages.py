"""Every page of the project: links resolve, with their anchors; no line outside a table is longer than 120 characters; the first program of C.md is
examples/c/first.c; no page is longer than 500 lines."""
import pathlib
import re
import sys

root = pathlib.Path(sys.argv[1]).resolve()
found = []
links = 0


def wrong(where, what):
    found.append(what)
    print(f"FAILED: {where}: {what}")


def pages():
    for path in sorted(root.rglob("*.md")):
        if not {"target", "out", ".git"} & set(path.relative_to(root).parts):
            yield path


def lines(path):
    """The lines of a page, with whether they are in a fenced block."""
    fenced = False
    for number, line in enumerate(path.read_text(encoding="utf-8").split("\n"), 1):
        mark = line.startswith("```")
        yield number, line, fenced or mark
        fenced ^= mark


def anchors(path):
    """The anchors of a page's headings."""
    names = set()
    for _, line, fenced in lines(path):
        heading = re.match(r"#+ (.*)", line)
        if heading and not fenced:
            name = re.sub(r"[^\w\- ]", "", heading[1].lower()).replace(" ", "-")
            if name in names:
                wrong(path.relative_to(root), f"two headings have the anchor #{name}")
            names.add(name)
    return names


known = {path: anchors(path) for path in pages()}
for path in known:
    for number, line, fenced in lines(path):
        where = f"{path.relative_to(root)}:{number}"
        if len(line) > 120 and not line.startswith("|"):
            wrong(where, f"{len(line)} characters")
        for target in [] if fenced else re.findall(r"\]\(([^)\s]+)\)", line):
            if re.match(r"https?:", target):
                continue
            links += 1
            file, _, anchor = target.partition("#")
            there = (path.parent / file).resolve() if file else path
            if not there.exists():
                wrong(where, f"no file {file}")
            elif anchor and anchor not in known.get(there, ()):
                wrong(where, f"no heading #{anchor} in {there.name}")
    if sum(1 for _ in lines(path)) > 500:
        wrong(path.relative_to(root), "more than 500 lines")

shown = re.findall(r"^```c\n(.*?)^```$", (root / "docs/C.md").read_text(encoding="utf-8"), re.M | re.S)
if not shown or shown[0] != (root / "examples/c/first.c").read_text(encoding="utf-8"):
    wrong("docs/C.md", "the first program is not examples/c/first.c")
print(f"docs: {len(known)} pages, {links} links, {len(found)} wrong")
sys.exit(1 if found else 0)
