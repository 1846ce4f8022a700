#!/usr/bin/env python3
"""Brings the repository's own definitions, fields and lemmas to snake case, once, right after the toolchain's port.py.

usage: python3 tools/respell.py [TOP]

It goes by names, token by token, through crates/: a name is turned where the repository itself gives it, at the head of a
definition, as a record's field or as a helper below a `where`. Names of src/, exported names, modules and types keep
their spelling. Where two names would fall together, FALLEN says what becomes of the one that is not a definition."""
import collections
import pathlib
import re
import sys

TOP = pathlib.Path(sys.argv[1] if len(sys.argv) > 1 else ".")
STOP = r"\s(){}\[\],;.:=|↦\"⌜⌝"
TOKEN = re.compile(rf"[A-Za-z][^{STOP}]*")
OWN = "Rattle.("  # filled below with the crates' names

# A lemma or a field that would have a definition's name: (old name, folder below crates/ or '' for all) to new name.
FALLEN = {
    ("all-below", ""): "all_below_is",
    ("as_written", "writer/proofs"): "as_written_is",
    ("axial-share", ""): "axial_share_is",
    ("axis-fits", ""): "axis_fits_is",
    ("flange-size", ""): "flange_size_is",
    ("flange-width", ""): "flange_width_is",
    ("layer-in", ""): "layer_in_is",
    ("list-of", "demands"): "list_of_is",
    ("no-first", ""): "no_first_is",
    ("load-held", ""): "load_held_is",
    ("of-record", ""): "of_record_is",
    ("rib-record", ""): "rib_record_is",
    ("rounded-up", ""): "rounded_up_is",
    ("written-record", ""): "written_record_fields",
    ("book-answer", ""): "book_answer_fields",
    ("class-answer", ""): "class_answer_fields",
    ("record-answer", ""): "record_answer_fields",
    ("strength-answer", ""): "strength_answer_fields",
    ("section-refusal", "demands"): "section_refusal_call",
    ("with-layer", "demands"): "with_layer_call",
    ("last-depth", "demands"): "last_depth_call",
    ("law-of", "demands"): "law_of_call",
    ("piece-at", "demands"): "piece_at_call",
    ("axis-at", "demands"): "axis_at_call",
    ("layers-at", "demands"): "layers_at_call",
    ("size-at", "demands"): "size_at_call",
    ("record_of", "demands"): "record_of_call",
}


def files(*endings):
    for path in sorted((TOP / "crates").rglob("*")):
        if path.suffix in endings and "out" not in path.relative_to(TOP).parts:
            yield path


def snake(name):
    if name[0].isupper():
        return name.replace("-", "_")
    return re.sub(r"(?<=[a-z0-9])([A-Z])", lambda m: "_" + m[1].lower(), name).replace("-", "_")


def given():
    """The names that the repository gives itself, but for what stands in a function's own proof."""
    names = set()
    for path in files(".antt"):
        if path.name == "Proof.antt":
            continue
        text = path.read_text()
        names |= {m[1] for m in re.finditer(rf"(?m)^(?:(?:abbrev|unfoldable|pub|record|data|ruleset) )*([A-Za-z][^{STOP}]*) (?=[:(=])", text)}
        names |= {m[1] for m in re.finditer(rf"(?m)^ +(?:pub )?([A-Za-z][^{STOP}]*) :", text)}
    return names


def turned(path, table):
    folder = path.relative_to(TOP / "crates").as_posix()
    local = {old: new for (old, where), new in FALLEN.items() if folder.startswith(where)}

    def one(m):
        return local.get(m[0]) or table.get(m[0], m[0])

    def line(text):
        if re.match(r"(ghost )?use ", text.lstrip("newoldright: ")):
            # a path keeps its spelling, and so does what another library gives
            head, brace, names = text.partition("{")
            if OWN.search(head) or "Rattle." not in head and not brace:
                return head + brace + TOKEN.sub(one, names) if brace else text
            return text
        return TOKEN.sub(one, text)

    return "\n".join(line(text) for text in path.read_text().split("\n"))


def main():
    global OWN
    crates = sorted(p.name for p in (TOP / "crates").iterdir() if (p / "src").is_dir())
    OWN = re.compile(r"Rattle\.(%s)\." % "|".join(crates))
    names = given()
    table = {name: snake(name) for name in names if snake(name) != name}
    fallen = collections.defaultdict(set)
    for old in names:
        fallen[table.get(old, old)].add(old)
    for new, olds in sorted(fallen.items()):
        free = olds - {old for old, _ in FALLEN}
        if len(free) > 1:
            print("fall together:", new, sorted(olds))
    for path in files(".antt", ".rt", ".edit"):
        path.write_text(turned(path, table))
    for path in files(".rt"):
        text = path.read_text()
        text = text.replace("#[derive(Drop)]", "#[derive(Clone, Copy)]").replace("#[no_mangle]", "#[unsafe(no_mangle)]")
        if path.name in ("lib.rt", "main.rt") and "#![tactic(auto)]" not in text:
            head = re.match(r"(?:(?://[^\n]*)?\n)*", text)[0]
            text = head + "#![tactic(auto)]\n" + text[len(head):]
        path.write_text(text)
    # Rattle makes a module `contracts` of its own: the demands' file of that name has another.
    old = TOP / "crates/demands/specs/Contracts.antt"
    if old.exists():
        old.rename(old.with_name("PublicContracts.antt"))
        for path in files(".antt", ".edit"):
            text = path.read_text().replace("demands.specs.Contracts", "demands.specs.PublicContracts")
            if path.name == "Lib.antt":
                text = text.replace("pub mod Contracts", "pub mod PublicContracts")
            path.write_text(text.replace("specs/Contracts.antt", "specs/PublicContracts.antt"))


main()
