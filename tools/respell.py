#!/usr/bin/env python3
"""Spells this repository's own definitions and lemmas as today's Rattle does: snake case for functions, lemmas and fields of specs/ and proofs/.

usage: tools/respell.py [ROOT]    once, after the kit's port.py; it rewrites files in place and prints each name with its new spelling

Which names: those that a file of specs/, or a file right in proofs/, defines, with a capital behind a small letter or a dash inside.
Types, modules, functions of src/, exported C names, strings, inputs and outputs keep theirs. Names that a library has too stay as they are.
"""

import os
import re
import sys

# where the plain spelling would fall together with another name of the same file
TOGETHER = {
    "frameLost": "frame_lost_of",
    "confirmationLost": "confirmation_lost_of",
    "limits-hold": "limits_held",
    "iu-length": "iu_length_lem",
    "only-read": "only_read_lem",
    "timed-out": "timed_out_lem",
}
# the same, in the files below these folders only: old spelling, new spelling
LOCAL = [
    ("link/", {"ack-first": "ack_first_lem", "held_up": "held_up_lem", "read_asked": "read_asked_lem", "read-signalled": "read_signalled_lem", "write-asked": "write_asked_lem", "write-signalled": "write_signalled_lem"}),
    ("link/proofs/FaultsCounted.antt", {"first_frame": "first_frame_lem"}),
    ("frame/", {"by-kind": "by_kind_lem", "is-full": "is_full_lem"}),
    ("ladder_claim/", {"so_far": "rows_so_far", "read_asked": "read_asked_lem", "read-signalled": "read_signalled_lem", "write-asked": "write_asked_lem", "write-signalled": "write_signalled_lem"}),
    ("ladder_claim/proofs/Handing.antt", {"asked_by": "asked_by_lem"}),
    ("ladder_text/proofs/Numbers.antt", {"is_digit": "is_digit_lem"}),
    ("sender/", {"is-bad": "is_bad_lem"}),
    ("worked/", {"timed-out": "timed_out"}),
    ("initiator/proofs/WriteViews.antt", {"xfer-rdy": "xfer_rdy_lem"}),
    ("ssp/proofs/", {"is-full": "is_full_lem", "put_full": "put_full_lem", "xfer-rdy-read": "xfer_rdy_read_lem"}),
    ("worked/proofs/", {f"{n}-{w}": f"{n}_{w}_lem" for n in ("one", "two", "four", "eight") for w in ("read", "write")} | {"new-initiator": "new_initiator_lem", "new-target": "new_target_lem"}),
]

WORD = re.compile(r"[A-Za-zα-ωΑ-Ω_][\w'≔-]*")
DEFINES = re.compile(r"^(\s*)(?:abbrev |unfoldable |pub |private )*([a-z][\w'≔-]*(?: [a-z][\w'≔-]*)*) (?:[({].*)?:(?:\s|$)")
KEYWORDS = {"pub", "abbrev", "unfoldable", "record", "data", "where", "let", "in", "module", "use", "infix", "infixl", "infixr"}


def snake(name):
    return re.sub(r"(?<=[a-z0-9])([A-Z])", lambda m: "_" + m.group(1).lower(), name).replace("-", "_")


def files(root):
    for folder, dirs, names in os.walk(os.path.join(root, "crates")):
        dirs[:] = sorted(d for d in dirs if d != "out")
        for n in sorted(names):
            yield os.path.relpath(os.path.join(folder, n), os.path.join(root, "crates"))


def read(root, f):
    with open(os.path.join(root, "crates", f), encoding="utf-8") as it:
        return it.read()


def shared(f):
    """A file of definitions or of lemmas: not the proof of one function."""
    return f.endswith(".antt") and not re.search(r"/(Proof|Answers|Invariants)\.antt$", f)


def own_names(root):
    """The names to spell anew."""
    found, foreign, goals = set(), set(), set()
    crates = sorted(os.listdir(os.path.join(root, "crates")))
    for f in files(root):
        if not f.endswith((".antt", ".rt")):
            continue
        for line in read(root, f).split("\n"):
            use = re.match(r"\s*(?:ghost )?use ([\w.·-]+)", line)
            if use:
                head = use.group(1).split(".")
                if not (head[0] == "Rattle" and len(head) > 1 and head[1] in crates):
                    foreign |= set(WORD.findall(line))
                continue
            goal = re.match(r"\s*([\w'-]+)\s*:\s*(?:tie|goal|needs)\.", line)
            if goal:
                goals.add(goal.group(1))
            if shared(f) and not line.lstrip().startswith("--"):
                d = DEFINES.match(line)
                if d:
                    found |= set(d.group(2).split()) - KEYWORDS
    return {n for n in found if snake(n) != n} - foreign - goals


def respell(text, names, ghost_only):
    """The text with each name in its new spelling. ghost_only: a source file, in which comments and strings stay."""
    lines = []
    for line in text.split("\n"):
        note = re.match(r"\s*//", line) if ghost_only else None
        if note:
            lines.append(line)
            continue

        def turn(m):
            w = m.group(0)
            before, behind = line[: m.start()], line[m.end() :]
            if before.endswith("::") or behind.startswith("::") or (ghost_only and before.count('"') % 2):
                return w
            return names.get(w, w)

        lines.append(WORD.sub(turn, line))
    return "\n".join(lines)


def main(argv):
    root = argv[0] if argv else os.path.join(os.path.dirname(os.path.abspath(__file__)), "..")
    plain = {n: TOGETHER.get(n, snake(n)) for n in own_names(root)}
    for f in files(root):
        if not f.endswith((".antt", ".rt")):
            continue
        names = dict(plain)
        for folder, here in LOCAL:
            if f.startswith(folder):
                names |= here
        text = read(root, f)
        new = respell(text, names, f.endswith(".rt"))
        if new != text:
            with open(os.path.join(root, "crates", f), "w", encoding="utf-8") as it:
                it.write(new)
    for n in sorted(plain):
        print(n, plain[n])
    for folder, here in LOCAL:
        for n in sorted(here):
            print(n, here[n], "below", folder)


if __name__ == "__main__":
    main(sys.argv[1:])
