"""Alters the documents in one place at a time, in a copy, and expects names.py, pages.py, maps.py or commands.py to fail, each for its own reason.
The unaltered copy has to pass."""
import pathlib
import re
import shutil
import subprocess
import sys
import tempfile

root = pathlib.Path(sys.argv[1]).resolve()
here = pathlib.Path(__file__).parent
DEFINITION = r"^(\|[^|`\n]*\|[^|\n]*?(?:specs|src)/\w+ )`([^`|]+)`"
CONTRACT = r"\| sender `next_frame`"
FENCED = "```sh\necho one\n```\n```text\ntwo\n```\n"

# what is wrong, script, page, pattern (None: the page becomes a command block), replacement, words of the complaint (None: there is none)
cases = [
    ("a definition that is not in its file", "names", "docs/RULES.md", DEFINITION, r"\1`no_such_name`", "`no_such_name` is not in crates/"),
    ("the same in T10", "names", "docs/T10.md", DEFINITION, r"\1`no_such_name`", "`no_such_name` is not in crates/"),
    ("the same in READING", "names", "docs/READING.md", r"(specs/\w+ )`(\w+)`", r"\1`no_such_name`", "`no_such_name` is not in crates/"),
    ("a file that is not there", "names", "docs/RULES.md", r"^(\|[^|`\n]*\|[^|`\n]*specs/)\w+ ", r"\1NoSuchFile ", "no file "),
    ("a function that is not public", "names", "docs/RULES.md", CONTRACT, "| sender `no_such`", "no public function of sender"),
    ("a public function without a row", "names", "docs/RULES.md", r"`Transfer::new`", "", "no row has the contract of transfer `Transfer::new`"),
    ("an edit without a row", "names", "docs/RULES.md", r"`tag_low_byte_first`", "", "no row names the edit frame/tag_low_byte_first"),
    ("an edit that is not there", "names", "docs/RULES.md", r"`tag_low_byte_first`", "`tag_low_byte_first`, `no_such_edit`", "`no_such_edit` names 0 edits"),
    ("a name without a place", "names", "docs/RULES.md", CONTRACT, "| `next_frame`, sender `next_frame`", "`next_frame` without a place"),
    ("a cell too few", "names", "docs/RULES.md", r"^(\| \"[^|\n]*\|[^|\n]*)\|", r"\1", "cells under"),
    ("a link to no file", "pages", "README.md", r"\]\(docs/C\.md\)", "](docs/NONE.md)", "no file docs/NONE.md"),
    ("a link to no heading", "pages", "README.md", r"\]\(docs/C\.md\)", "](docs/C.md#none)", "no heading #none"),
    ("a long line", "pages", "docs/TRUST.md", r"^(\w.*)$", r"\1" + " word" * 24, "characters"),
    ("two headings alike", "pages", "docs/DECISIONS.md", r"^(### .*\n)", r"\1\n\1", "two headings"),
    ("another first program", "pages", "docs/C.md", r"#include", "# include", "the first program is not"),
    ("a page that is too long", "pages", "docs/TRUST.md", r"\Z", "\n" * 500, "more than 500 lines"),
    ("a crate that is missing in the map", "maps", "README.md", r"^\| arrival \|.*\n", "", "the map of crates is not"),
    ("a crate that is not below", "maps", "README.md", r"\| initiator, target \|", "| initiator, response |", "link does not build on response"),
    ("a law that is not in its file", "maps", "docs/PROOFS.md", r"`next_step`\), Views", "`no_such_law`), Views", "`no_such_law` is not in crates/sender"),
    ("a file of laws that is not there", "maps", "docs/PROOFS.md", r"\| status \| Choose", "| status | Chosen", "Chosen is no file of status proofs"),
    ("a count of lines", "maps", "docs/PROOFS.md", r"about (\S+) lines", r"about 1\1 lines", "lines of code"),
    ("a count of edits", "maps", "docs/TESTING.md", r"crates, (\d+) edits", r"crates, 1\1 edits", "edits"),
    ("a count of functions", "maps", "docs/RULES.md", r"exports (\d+) C", r"exports 1\1 C", "C functions"),
    ("an edit that does not apply", "maps", "crates/sender_steps/must-fail/retry_at_the_nak.edit", r"^old: ", "old: x", "occurs 0 times"),
    ("nothing", "names", "README.md", r"\Z", "\n", None),
    ("nothing", "pages", "README.md", r"\Z", "\n", None),
    ("nothing", "maps", "README.md", r"\Z", "\n", None),
    ("a command that prints something else", "commands", "README.md", None, FENCED, "in place of"),
    ("a command that fails", "commands", "README.md", None, "```sh\nfalse\ntrue\n```\n", "status 1"),
    ("no command", "commands", "README.md", None, "nothing\n", "no command block"),
]
missed = 0
for what, script, page, pattern, new, complaint in cases:
    with tempfile.TemporaryDirectory() as name:
        copy = pathlib.Path(name)
        for part in ["docs", "examples", "README.md", "CONTRIBUTING.md", "crates.txt"]:
            (shutil.copytree if (root / part).is_dir() else shutil.copy)(root / part, copy / part)
        for part in ["tests", "share", "man", "include"]:
            shutil.copytree(root / part, copy / part, ignore=shutil.ignore_patterns("target"))
        if page.startswith("crates/"):
            shutil.copytree(root / "crates", copy / "crates", ignore=shutil.ignore_patterns("out"))
        else:
            (copy / "crates").symlink_to(root / "crates")
        if pattern is None:
            for other in ["README.md", "docs/LADDER.md", "docs/C.md"]:
                (copy / other).write_text(new if other == page else "", encoding="utf-8")
        else:
            old = (copy / page).read_text(encoding="utf-8")
            altered = re.sub(pattern, new, old, count=0 if new == "" else 1, flags=re.M)
            if altered == old:
                missed += 1
                print(f"FAILED: {what}: nothing to alter in {page}")
                continue
            (copy / page).write_text(altered, encoding="utf-8")
        done = subprocess.run([sys.executable, "-B", here / f"{script}.py", copy], capture_output=True, text=True)
        if complaint is None:
            if done.returncode != 0:
                missed += 1
                print(f"FAILED: {script}.py refuses the unaltered copy\n{done.stdout[-500:]}{done.stderr[-500:]}")
        elif done.returncode != 1 or complaint not in done.stdout or done.stderr:
            missed += 1
            print(f"FAILED: {what}: status {done.returncode}, not found by {script}.py\n{done.stdout[-500:]}{done.stderr[-500:]}")
print(f"docs: {len(cases)} altered copies, {missed} missed")
sys.exit(1 if missed else 0)
