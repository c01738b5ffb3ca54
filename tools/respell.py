#!/usr/bin/env python3
"""Brings the names of this repository's own definitions, lemmas and variables to snake case, as the kit's guide to names asks.

    tools/respell.py            at the top of the repository: crates/*/specs, crates/*/proofs, the clauses of crates/*/src, the must-fail edits that cite them
                                and the pages' names in backticks
    tools/respell.py --map      prints each name and what it becomes, and each two that would fall together in one file

Names that a library gives, and names that the check makes of the code, are left alone.
"""
import glob
import os
import re
import sys

IDENT = r"[^\s(){}\[\];,.:«»λ|`\"]+"
PATH = re.compile(rf"{IDENT}(?:\.{IDENT})*")
# A name that would fall together with another of the repository's gets one of its own: a test has the name of the function that makes it, and a lemma
# that would have its definition's name gets `_lem`. A name that begins with a number begins with a word.
CHOSEN = {
    "unknownType": "is_unknown_type",
    "impossibleLine": "is_impossible_line",
    "noRoom": "lacks_room",
    "picture-shown": "picture_shown_lem",
    "pictures-on": "pictures_on_lem",
    "second-on": "second_on_lem",
    "by-four": "by_four_lem",
    "24-by-5": "frames_24_by_5",
    "30-by-4": "frames_30_by_4",
    "120-as-24": "as_120_at_24",
    "120-as-30": "as_120_at_30",
}
# The same for lemmas that were in snake case already, in the files that cite them.
LEMMAS = {
    "goes_on": ["crates/characters/proofs/Sifts.antt", "crates/scribe/proofs/Tells.antt"],
    "in_blocks": ["crates/following/proofs/Demand3.antt", "crates/demands/proofs/Reverse.antt", "crates/demands/proofs/Demand3.antt"],
    "no_flag": ["crates/host/proofs/"],
    "frame_on": ["crates/midnight/proofs/Face.antt", "crates/midnight/proofs/Shown.antt"],
    "wrong_word": ["crates/packets/proofs/FormTests.antt", "crates/packets/proofs/form/judge/Proof.antt"],
    "left_after": ["crates/readout/proofs/Cuts.antt"],
}


def snake(name):
    if name in CHOSEN:
        return CHOSEN[name]
    m = re.fullmatch(r"(\d+(?:x\d)?)-(as|frames|mode)", name)
    if m:
        return f"{m.group(2)}_{m.group(1)}"
    if re.search(r"[a-z0-9][A-Z]", name):
        name = re.sub(r"(?<=[a-z])(?=[0-9])", "_", name) if re.search(r"[a-z][A-Z][a-zA-Z]*[0-9]", name) else name
        name = re.sub(r"(?<=[a-z0-9])([A-Z])", lambda m: "_" + m.group(1).lower(), name)
    return re.sub(r"(?<=[A-Za-z0-9'₀_])-(?=[A-Za-z0-9'])", "_", name)


def to_turn(name):
    if re.match(r"^0x", name):
        return False
    if not re.match(r"^[a-z0-9_']", name):
        return bool(re.match(r"^[A-Z][A-Za-z0-9]*-[a-z]", name))
    return bool(re.search(r"[a-z0-9][A-Z]", name)) or bool(re.search(r"[A-Za-z0-9'₀]-[A-Za-z0-9']", name))


def is_own(module):
    parts = module.split(".")
    return len(parts) > 1 and parts[0] == "Rattle" and parts[1] in CRATES


def uses(text):
    for m in re.finditer(r"(?m)^\s*(?:ghost )?use ([^{};\n]+?)(?:\.\{([^}]*)\})?(?: as (\S+?))?;?\s*$", text):
        yield m


def library_names(text):
    """The names that a file takes from a library, by their own names; what it calls them (`as`) is its own choice, but kept."""
    found = set()
    for m in uses(text):
        if is_own(m.group(1)):
            continue
        for item in (m.group(2) or "").split(","):
            for word in item.split(" as "):
                found.add(word.strip())
    return found


def turn_path(path, kept, fields, declared):
    parts = path.split(".")
    if parts[0] in ("tie", "goal"):
        return path
    if len(parts) == 1:
        name = parts[0]
        return name if name in kept or not to_turn(name) else snake(name)
    if parts[0] == "Rattle":
        return path
    first = parts[0] if parts[0] in kept or not to_turn(parts[0]) else snake(parts[0])
    rest = [snake(p) if p in fields and to_turn(p) else p for p in parts[1:]]
    return ".".join([first] + rest)


def turn_code(text, kept, fields, declared):
    return PATH.sub(lambda m: turn_path(m.group(0), kept, fields, declared), text)


def turn_comment(text, declared):
    """Own names in a comment: camel case anywhere, and others between backticks."""
    text = re.sub(r"(?<![\w-])[a-z]+(?:[A-Z][a-z0-9]*|[0-9])+(?![\w-])", lambda m: snake(m.group(0)) if m.group(0) in declared else m.group(0), text)

    def quoted(m):
        return "`" + PATH.sub(lambda k: ".".join(snake(p) if p in declared and to_turn(p) else p for p in k.group(0).split(".")), m.group(1)) + "`"

    return re.sub(r"`([^`\n]+)`", quoted, text)


def turn_antt(text, fields, declared):
    kept = library_names(text)
    out = []
    for line in text.split("\n"):
        at = re.search(r"(?:^|\s)--(?:\s|$)", line)
        code, comment = (line, "") if not at else (line[: at.start()], line[at.start() :])
        out.append(turn_code(code, kept, fields, declared) + turn_comment(comment, declared))
    return "\n".join(out)


def turn_rt(text, fields, declared):
    kept = library_names(text)
    out, clause = [], 0
    for line in text.split("\n"):
        if line.lstrip().startswith("//"):
            out.append(turn_comment(line, declared))
            continue
        if clause or re.match(r"\s*(?:ghost\b|requires\b|ensures\b)", line):
            out.append(turn_code(line, kept, fields, declared))
            clause += line.count("{") - line.count("}")
        else:
            out.append(line)
    return "\n".join(out)


def files(*patterns):
    for p in patterns:
        yield from sorted(glob.glob(p, recursive=True))


def read(path):
    with open(path, encoding="utf-8") as f:
        return f.read()


def collect():
    """The names that the repository declares, and those of them that are fields of records."""
    declared, fields = set(), set()
    for path in files("crates/*/specs/**/*.antt", "crates/*/proofs/**/*.antt"):
        text = read(path)
        inside = False
        for line in text.split("\n"):
            if line.lstrip().startswith("--"):
                continue
            m = re.match(rf"^\s*(?:abbrev |unfoldable )?(?:pub )?(?:abbrev |unfoldable |data |record )?({IDENT})\s+:", line)
            if m:
                declared.add(m.group(1))
                if inside and line.startswith("  "):
                    fields.add(m.group(1))
            m = re.match(rf"^\s*(?:pub )?(?:record|data) ({IDENT})", line)
            if m:
                declared.add(m.group(1))
                inside = "record" in line
            elif line and not line.startswith(" "):
                inside = False
    return declared, fields


def edit_text(text):
    """The text of a must-fail edit, from the older spelling (paths with a middle dot, a projection set apart) to today's."""
    text = text.replace("Rattle·", "Rattle.").replace("the-variants", "TheVariants")
    for _ in range(2):
        text = re.sub(r"([\w)']) \.(«?\w+»?)", r"\1.\2", text)
    text = re.sub(r"«(payload_type)»", r"\1", text)
    text = re.sub(r"\(([a-z]\w*(?:\.«?\w+»?)+)\)", r"\1", text)
    text = re.sub(r"getD (\w+) (\w+) 0", r"get_or \1 \2 0", text)
    text = re.sub(r"use Prim\.Native\.Nat\.\{(.*)\}$", r"use Rattle.std.specs.Prelude.{\1, ◌≡◌", text)
    text = re.sub(r"(?<!\w)_([-+*/%])_(?!\w)", r"◌\1◌", text)
    return PATH.sub(lambda m: ".".join(snake(p) if to_turn(p) else p for p in m.group(0).split(".")), text)


def turn_edit(path):
    crate = path.split("/must-fail/")[0]
    out, file, old, texts = [], None, None, {}
    for line in read(path).split("\n"):
        if line.startswith("file:"):
            file = crate + "/" + line[6:].strip()
            out.append(line)
        elif line.startswith("old:"):
            old = line[5:]
        elif line.startswith("new:"):
            new = line[5:]
            text = texts.setdefault(file, read(file))
            if text.count(old) != 1 or (file.endswith(".antt") and edit_text(old) == old):
                old, new = edit_text(old), edit_text(new)
            if text.count(old) != 1:
                print(f"{path}: stands {text.count(old)} times in {file}: {old}")
            texts[file] = text.replace(old, new)
            out += ["old: " + old, "new: " + new]
        else:
            out.append(line)
    return "\n".join(out)


def main():
    global CRATES
    CRATES = {os.path.basename(d) for d in glob.glob("crates/*")}
    declared, fields = collect()
    if "--map" in sys.argv:
        for path in files("crates/*/specs/**/*.antt", "crates/*/proofs/**/*.antt", "crates/*/src/*.rt"):
            text = read(path)
            kept = library_names(text)
            code = "\n".join(l for l in text.split("\n") if not l.lstrip().startswith(("--", "//")))
            names = {n for m in PATH.finditer(code) for n in m.group(0).split(".") if not m.group(0).startswith(("tie.", "goal."))}
            new = {}
            for n in names:
                new.setdefault(snake(n) if to_turn(n) and n not in kept else n, set()).add(n)
            for k, v in new.items():
                if len(v) > 1:
                    print(path, k, sorted(v))
        return
    for path in files("crates/*/specs/**/*.antt", "crates/*/proofs/**/*.antt"):
        text = read(path)
        for lemma, places in LEMMAS.items():
            if path.startswith(tuple(places)):
                text = re.sub(rf"(?<![\w.'-]){lemma}(?![\w'.-])", lemma + "_lem", text)
        new = turn_antt(text, fields, declared)
        if new != read(path):
            open(path, "w", encoding="utf-8").write(new)
    for path in files("crates/*/src/**/*.rt"):
        text = read(path)
        new = turn_rt(text, fields, declared)
        if new != text:
            open(path, "w", encoding="utf-8").write(new)
    for path in files("crates/*/must-fail/*.edit"):
        new = turn_edit(path)
        if new != read(path):
            open(path, "w", encoding="utf-8").write(new)
    for path in files("README.md", "docs/**/*.md", "bench/*.md", "examples/*.md"):
        text = read(path)
        new = turn_comment(text, declared)
        if new != text:
            open(path, "w", encoding="utf-8").write(new)


if __name__ == "__main__":
    main()
