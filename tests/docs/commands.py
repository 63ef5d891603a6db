"""Runs every ```sh block of README, LADDER and C from the root of the project, as one script that stops at the first error. A ```text block right
behind it is the standard output of its last command. The block with .ci/run, which runs this test, is left out."""
import pathlib
import re
import subprocess
import sys

root = pathlib.Path(sys.argv[1]).resolve()
run = failed = 0
for page in ["README.md", "docs/LADDER.md", "docs/C.md"]:
    text = (root / page).read_text(encoding="utf-8")
    for block in re.finditer(r"^```sh\n(.*?)^```\n(?:\s*^```text\n(.*?)^```$)?", text, re.M | re.S):
        commands, shown = block[1].strip().split("\n"), block[2]
        where = f"{page}:{text.count(chr(10), 0, block.start()) + 1}"
        if any(re.match(r"\.ci/run\b", command) for command in commands):
            continue
        script = "\n".join(["set -euo pipefail", "{", ":", *commands[:-1], "} >/dev/null", commands[-1]])
        done = subprocess.run(["bash", "-c", script], cwd=root, stdin=subprocess.DEVNULL, capture_output=True, timeout=600)
        run += 1
        output = done.stdout.decode("utf-8", "replace")
        if done.returncode != 0:
            failed += 1
            print(f"FAILED: {where}: status {done.returncode}\n{done.stderr.decode('utf-8', 'replace')[-2000:]}")
        elif shown is not None and output != shown:
            failed += 1
            print(f"FAILED: {where}: printed\n{output}\nin place of\n{shown}")
if run == 0:
    failed += 1
    print("FAILED: no command block")
print(f"docs: {run} command blocks, {failed} failed")
sys.exit(1 if failed else 0)
