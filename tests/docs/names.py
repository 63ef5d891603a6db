"""RULES, READING and T10 against the sources: every name that a row puts in a file is defined there; every public function and every edit has a row.

A cell is read from left to right. `crate` names a crate, `specs/File` (also proofs/, src/) a file of it, and each name in backquotes behind it
belongs to the last place named: a definition of that file or, with a crate alone, a public function of the crate. In the last column of RULES a
name is an edit. The first column quotes the paper and is not read, nor are the columns "meaning" and "example" of READING's signs. In READING the
first column of the reading order and the items of lists are read too."""
import pathlib
import re
import sys

import sources

root = pathlib.Path(sys.argv[1]).resolve()
crates = sources.crates(root)
edits = sources.edits(root)
found = []
seen_functions = set()
seen_edits = set()
checked = 0

TOKEN = re.compile(r"`([^`]+)`|\b(specs|proofs|src)/([\w/]+)|\b(%s)\b" % "|".join(sorted(crates, key=len, reverse=True)))


def wrong(where, what):
    found.append(what)
    print(f"FAILED: {where}: {what}")


def cell(where, text, contract):
    """One cell: its places and the names that belong to them."""
    global checked
    crate = path = None
    for name, folder, file, other in (match.groups() for match in TOKEN.finditer(text)):
        if other:
            crate, path = other, None
        elif folder:
            if crate is None:
                wrong(where, f"{folder}/{file} without a crate")
                continue
            path = root / "crates" / crate / folder / (file + sources.PLACE[folder])
            if sources.defined(path) is None:
                wrong(where, f"no file {crate} {folder}/{file}")
                path = None
        elif path is not None:
            checked += 1
            if name not in sources.defined(path):
                wrong(where, f"`{name}` is not in {path.relative_to(root)}")
        elif crate is not None:
            checked += 1
            if name not in sources.functions(root, crate):
                wrong(where, f"`{name}` is no public function of {crate}")
            elif contract:
                seen_functions.add((crate, name))
        else:
            wrong(where, f"`{name}` without a place")


def ruled_out(where, text):
    """The wrong programs of a row."""
    global checked
    for name in re.findall(r"`([^`]+)`", text):
        checked += 1
        meant = [edit for edit in edits if edit == name or edit.split("/")[1] == name]
        if len(meant) != 1:
            wrong(where, f"`{name}` names {len(meant)} edits: {' '.join(sorted(meant))}")
        seen_edits.update(meant)


for page in ["RULES", "READING", "T10"]:
    columns = []
    fenced = False
    for number, line in enumerate((root / "docs" / f"{page}.md").read_text(encoding="utf-8").split("\n"), 1):
        where = f"docs/{page}.md:{number}"
        fenced ^= line.startswith("```")
        if line.startswith("|") and not fenced:
            row = [part.strip() for part in re.split(r"(?<!\\)\|", line[1:-1])]
            if not columns:
                columns = row
            elif not re.fullmatch(r"[-: ]+", "".join(row)):
                if len(row) != len(columns):
                    wrong(where, f"{len(row)} cells under {len(columns)} headings")
                for heading, text in list(zip(columns, row))[0 if columns[0] == "read" else 1 :]:
                    if heading == "ruled out":
                        ruled_out(where, text)
                    elif heading not in ("meaning", "example"):
                        cell(where, text, "contract" in heading)
        else:
            columns = []
            if page == "READING" and not fenced and re.match(r"(\d+\.|-) ", line):
                cell(where, line, False)

for crate in crates:
    for name in sorted(sources.functions(root, crate)):
        if (crate, name) not in seen_functions:
            wrong("docs/RULES.md", f"no row has the contract of {crate} `{name}`")
for edit in sorted(edits - seen_edits):
    wrong("docs/RULES.md", f"no row names the edit {edit}")
print(f"docs: {checked} names, {len(seen_functions)} public functions, {len(seen_edits)} edits, {len(found)} wrong")
sys.exit(1 if found else 0)
