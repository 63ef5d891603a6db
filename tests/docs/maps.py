"""Maps and counts against the sources: README's map of crates, the laws that PROOFS names, its counts of lines (within a twentieth), the counts of
crates, edits and C functions; and every edit still applies to its file, each in one folder only."""
import pathlib
import re
import sys

import sources

root = pathlib.Path(sys.argv[1]).resolve()
crates = sources.crates(root)
found = []


def wrong(where, what):
    found.append(what)
    print(f"FAILED: {where}: {what}")


def page(name):
    return (root / name).read_text(encoding="utf-8")


def rows(name, columns):
    """The rows of a page whose first cell is a crate, with so many columns."""
    for line in page(name).split("\n"):
        cells = [cell.strip() for cell in line.strip("|").split("|")]
        if line.startswith("|") and len(cells) == columns and cells[0] in crates:
            yield cells


listed = sources.listed(root)
readme = list(rows("README.md", 3))
if [cells[0] for cells in readme] != crates:
    wrong("README.md", "the map of crates is not that of crates.txt")
for crate, _, below in readme:
    for other in re.findall(r"\w+", below):
        if other not in listed[crate]:
            wrong("README.md", f"{crate} does not build on {other}")

laws = 0
for crate, text in rows("docs/PROOFS.md", 2):
    path = None
    for word in re.findall(r"\b[A-Z][a-z]\w*", re.sub(r"`[^`]*`|\([^()]*\)", "", text)):
        if not (root / "crates" / crate / "proofs" / f"{word}.antt").is_file():
            wrong("docs/PROOFS.md", f"{word} is no file of {crate} proofs")
    for word, name in re.findall(r"\b([A-Z]\w+)\b|`([^`]+)`", text):
        there = root / "crates" / crate / "proofs" / f"{word}.antt"
        if word and there.is_file():
            path = there
        elif name and path is not None:
            laws += 1
            if name != "pick" and name not in sources.defined(path):
                wrong("docs/PROOFS.md", f"`{name}` is not in {path.relative_to(root)}")

for what, files in [("code", "src/**/*.rt"), ("definitions", "specs/**/*.antt"), ("proofs", "proofs/**/*.antt")]:
    lines = sum(path.read_text(encoding="utf-8").count("\n") for crate in crates for path in (root / "crates" / crate).glob(files))
    said = re.findall(rf"([\d,]+) (?:lines )?of {what}\b", page("docs/PROOFS.md"))
    if len(said) != 1 or abs(int(said[0].replace(",", "")) - lines) > lines / 20:
        wrong("docs/PROOFS.md", f"there are {lines} lines of {what}")

edits = sorted((root / "crates").glob("*/*/*.edit"))
kept = sum(path.parts[-2] == "must-fail" for path in edits)
for pattern, truth in [(r"\| (\d+) crates, \d+ edits \|", len(crates)), (r"\| \d+ crates, (\d+) edits \|", kept), (r"\| (\d+) edits tried \|", kept)]:
    if re.findall(pattern, page("docs/TESTING.md")) != [str(truth)]:
        wrong("docs/TESTING.md", f"{pattern} is {truth}")
mutants = sum(path.read_text(encoding="utf-8").count("\nname: ") for path in (root / "tests/reference/mutants.d").glob("*.edits"))
if re.findall(r"applies (\d+) single edits", page("docs/TESTING.md")) != [str(mutants)]:
    wrong("docs/TESTING.md", f"tests/reference/mutants.d has {mutants} edits")
exported = len(sources.functions(root, "ssp"))
if re.findall(r"exports (\d+) C functions", page("docs/RULES.md")) != [str(exported)]:
    wrong("docs/RULES.md", f"crate ssp exports {exported} C functions")

if len({(path.parts[-3], path.name) for path in edits}) != len(edits):
    wrong("crates", "an edit is in must-fail/ and in tried/")
for path in edits:
    texts, file = {}, None
    old = None
    for line in path.read_text(encoding="utf-8").split("\n"):
        if line.startswith("file: "):
            file = path.parents[1] / line[6:].strip()
            texts.setdefault(file, file.read_text(encoding="utf-8") if file.is_file() else "")
        elif line.startswith("old: "):
            old = line[5:]
            if texts[file].count(old) != 1:
                wrong(path.relative_to(root), f"its old text occurs {texts[file].count(old)} times: {old.strip()[:60]}")
        elif line.startswith("new:") and old is not None:
            texts[file] = texts[file].replace(old, line[5:], 1)
print(f"docs: {len(crates)} crates, {laws} laws of PROOFS, {len(edits)} edits that apply, {len(found)} wrong")
sys.exit(1 if found else 0)
