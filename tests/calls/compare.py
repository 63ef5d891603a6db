"""The delivery claim's list of calls against the sources: see run."""
import pathlib
import re
import sys

root = pathlib.Path(sys.argv[1]).resolve()
ports = ["sender", "receiver", "initiator", "target", "response"]
steps = ["sender_steps", "receiver_steps"]
# Public functions that are no call on a record of the claim, and why.
apart = {
    "sender::set_up_read": "makes a record",
    "receiver::set_up_read": "makes a record",
    "initiator::set_up_write": "makes a record",
    "target::set_up_write": "makes a record",
    "initiator::sense_data": "takes no record",
    **{f"response::{name}": "a record of its own" for name in ["set_up", "next_frame", "ack_received", "nak_received", "ack_nak_timeout", "connection_lost", "nexus_lost"]},
}
found = []


def wrong(text):
    found.append(text)
    print("FAILED:", text)


def read(path):
    return (root / "crates" / path).read_text(encoding="utf-8")


def exported(crate):
    """The functions that a crate exports: name, and the module or crate where it is defined. Its lib.rt has no other kind of item."""
    out = {}
    text = re.sub(r"(?m)//.*", "", read(f"{crate}/src/lib.rt"))
    for item in filter(None, (item.strip() for item in re.split(r";|^#!\[tactic\(auto\)\]$", text, flags=re.M))):
        use = re.fullmatch(r"pub use (\w+)::(?:(\w+(?: as \w+)?)|\{([\w\s,]*)\})", item)
        if use:
            for name in re.findall(r"\w+(?: as \w+)?", use[2] or use[3]):
                defined, _, shown = name.partition(" as ")
                if defined[0].islower():
                    out[shown or defined] = (use[1], defined)
        elif not re.fullmatch(r"mod \w+", item):
            wrong(f"{crate}/src/lib.rt: not a comment, `mod x;` or `pub use a::b;`: {item}")
    return out


def contract(crate, module, name):
    """A function's text from its name to its body, without comments."""
    match = re.search(r"^pub fn %s\b(.*?)^\{" % name, read(f"{crate}/src/{module}.rt"), re.M | re.S)
    return re.sub(r"//.*", "", match[1]) if match else ""


public = {}
for crate in ports:
    for name, (module, defined) in exported(crate).items():
        if module in ports:
            if (defined, name) != (name, name) or defined not in exported(module):
                wrong(f"{crate}::{name} is not {module}::{name}")
        elif not (root / "crates" / crate / "src" / f"{module}.rt").is_file():
            wrong(f"{crate}::{name} is a function of {module}, which is no port crate")
        else:
            public[f"{crate}::{name}"] = (crate, module, defined)
for crate in ports + steps:
    for source in sorted((root / "crates" / crate / "src").glob("*.rt")):
        if re.search(r"^\s+pub fn ", source.read_text(encoding="utf-8"), re.M):
            wrong(f"{source.relative_to(root)}: a public function in an impl, which this list does not see")

lines = read("link/specs/Calls.antt").split("\n")
listed = {}
for at, line in enumerate(lines):
    label = re.fullmatch(r"-- (\w+::\w+)", line)
    if not label:
        continue
    clause = lines[at + 2] if lines[at + 1].startswith("abbrev ") else lines[at + 1]
    # The definition that the call is: behind `let x =`, or else the first one.
    meant = re.match(r"[^=]*= (?:let x = )?(?:lending )?\(?(?:[\w-]+\.)?(\w+)", clause)
    if label[1] in listed:
        wrong(f"{label[1]} stands twice in Calls.antt")
    listed[label[1]] = meant[1] if meant else None
# A clause without a label passes on to a labelled helper.
helpers = "read_signalled signalled write_signalled target_signalled".split()
for at, line in enumerate(lines):
    clause = re.match(r"(\w+) \(?(?:Signal|SenderCall|ReaderCall|WriterCall|TargetCall)\.[^=]*= (.*)", line)
    if clause and not lines[at - 1].startswith("-- ") and not re.match(r"(lending )?\(?(%s) g \w\)?( b)?$" % "|".join(helpers), clause[2]):
        wrong(f"Calls.antt, line {at + 1}: neither a label above it nor one of {helpers}")

for name, (crate, module, function) in sorted(public.items()):
    text = contract(crate, module, function)
    if "ensures" not in text:
        wrong(f"{name} has no ensures")
    if "requires" in text:
        wrong(f"{name} has a requires")
    if name in apart and name in listed:
        wrong(f"{name} is a call and no call")
    if name not in apart and name not in listed:
        wrong(f"{name} is public and not in Calls.antt")
    if name in listed and not re.search(r"\bstepped \w+ ≡ %s\b" % re.escape(str(listed[name])), text):
        wrong(f"{name}: its contract does not say that it is `{listed[name]}`, as Calls.antt has it")
for name in sorted((set(listed) | set(apart)) - set(public)):
    wrong(f"{name} is no public function")

print(f"{len(public)} public functions, {len(listed)} of them calls of the delivery claim, {len(found)} wrong")
sys.exit(1 if found else 0)
