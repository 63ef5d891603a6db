"""What the sources define: names of a file, public functions of a crate, edits."""
import functools
import re

PLACE = {"specs": ".antt", "proofs": ".antt", "src": ".rt"}


def listed(root):
    """The crates of crates.txt, each with what it stands on."""
    lines = re.findall(r"^(\w+)(?: staticlib)?:(.*)$", (root / "crates.txt").read_text(encoding="utf-8"), re.M)
    return {name: below.split() for name, below in lines}


def crates(root):
    return list(listed(root))


@functools.lru_cache(maxsize=None)
def text(path):
    return path.read_text(encoding="utf-8") if path.is_file() else None


@functools.lru_cache(maxsize=None)
def defined(path):
    """Every name that a file defines: definitions, fields and constructors of specs and proofs; functions, types, variants and constants of code."""
    source = text(path)
    if source is None:
        return None
    names = set()
    for line in source.split("\n"):
        line = re.sub(r"(--|//).*", "", line)
        if path.suffix == ".antt":
            head = re.match(r"\s*(?:(?:pub|abbrev|unfoldable) )*([^:=({]+?) :", line)
            kind = re.match(r"\s*(?:pub )?(?:record|data|codata) (\S+)", line)
            names.update([kind[1]] if kind else head[1].split() if head else [])
        else:
            names.update(re.findall(r"\b(?:fn|struct|enum|const|mod|static) (\w+)", line))
            names.update(re.findall(r"^\s+(?:pub )?(\w+)(?:\(|,| \{|:)", line))
    return names


@functools.lru_cache(maxsize=None)
def functions(root, crate):
    """The public functions of a crate: what lib.rt exports, the methods of its types, and what C calls. A method has its type in front."""
    names = set()
    for path in sorted((root / "crates" / crate / "src").glob("*.rt")):
        if path.stem == "lib":
            for used in re.findall(r"^pub use \w+::(?:(\w+(?: as \w+)?);|\{([\w\s,]*)\};)", text(path), re.M):
                shown = (name.split(" as ")[-1] for name in re.findall(r"\w+(?: as \w+)?", "".join(used)))
                names.update(name for name in shown if name[0].islower())
        owner = ""
        for line in text(path).split("\n"):
            impl = re.match(r"impl(?:<[^>]*>)? (\w+)", line)
            owner = impl[1] + "::" if impl else "" if line.startswith("}") else owner
            made = re.match(r'\s*pub (extern "C" )?fn (\w+)', line)
            if made and (owner or made[1] or path.stem == "lib"):
                names.add(owner + made[2])
    return names


def edits(root):
    """Every edit that the prover must refuse, as crate/name; those of tests/alike, which span crates, as alike/name."""
    kept = {f"{path.parts[-3]}/{path.stem}" for path in (root / "crates").glob("*/*/*.edit") if path.parts[-2] in ("must-fail", "tried")}
    return kept | {f"alike/{path.stem}" for path in (root / "tests/alike").glob("*.edit")}
