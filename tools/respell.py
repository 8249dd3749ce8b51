#!/usr/bin/env python3
"""Brings the repository's own definitions and lemmas to the spelling of today's Rattle: words in snake case, types in camel case.

usage: python3 tools/respell.py [--check]      at the top of the repository, once, right after port.py

A name that specs/ or proofs/ declare, and that has a hump or a dash, is written in snake case: numberAt is number_at, groups-cut is groups_cut.
Names whose result is a type keep their capitals. Functions, fields and constants of src/, exported names, strings, inputs and outputs keep theirs, and
so do the proofs of functions where they cite what Rattle makes (c.STEP.FIELD, tie.Need-..). OTHER has the names that would fall together with another.
--check writes nothing and prints what would be renamed, and where a new name stands already.
"""

import os
import re
import sys

TOKEN = re.compile(r"[^\s(){}\[\].,;:⟦⟧`\"]+")
DECLARES = re.compile(r"^(\s*)((?:(?:abbrev|unfoldable|pub|data|record|ruleset)\s+)*)([^\s(){}\[\].,;:⟦⟧`\"]+)(\s+[({].*)?\s*(:|$)(.*)$")
OF_FUNCTION = ("Proof.antt", "Answers.antt", "Invariants.antt")
WORDS = {"use", "module", "where", "unfolding", "let", "in", "mod", "infix", "infixl", "infixr"}
# a name that the rule would give to two things, or that stands for something else already
OTHER = {
    "at-end": "at_end_lem",
    "base-p": "base_p_lem",
    "base-q": "base_q_lem",
    "by_rows": "by_rows_lem",
    "check-means": "check_means_lem",
    "claim-bytes": "claim_bytes_lem",
    "claim-means": "claim_means_lem",
    "end_after": "end_after_lem",
    "end-of": "end_of_lem",
    "field_room": "field_room_lem",
    "past_row": "past_row_lem",
    "pops-in": "pops_in_lem",
    "pushes-in": "pushes_in_lem",
    "refusal-means": "refusal_means_lem",
    "row-cell": "row_cell_lem",
    "stands-in": "stands_in_lem",
    "steps-in": "steps_in_lem",
    "w-of": "w_of_lem",
    "write-means": "write_means_lem",
    "getD-zeros": "get_or_zeros",
    "some-getD": "some_get_or",
}


def of_function(path):
    """Whether the file is the proof of a function, which cites what Rattle makes."""
    return os.path.basename(path) in OF_FUNCTION and re.search(r"/proofs/.+/", path) is not None


def files(root, endings=(".antt", ".rt")):
    for folder, dirs, names in os.walk(os.path.join(root, "crates")):
        dirs[:] = sorted(d for d in dirs if d != "out")
        for name in sorted(names):
            if name.endswith(endings):
                yield os.path.join(folder, name)


def declared(root):
    """The names that specs/ and the law files of proofs/ declare: name -> set of kinds ('def', 'field', 'constructor')."""
    names = {}
    for path in files(root, (".antt",)):
        if of_function(path):
            continue
        inside = []
        with open(path, encoding="utf-8") as f:
            lines = f.read().split("\n")
        for line in lines:
            text = line.strip()
            if not text or text.startswith("--"):
                continue
            depth = len(line) - len(line.lstrip())
            while inside and inside[-1][0] >= depth:
                inside.pop()
            m = DECLARES.match(line)
            opens = text.endswith("where")
            if m and m[3] not in WORDS and (m[5] == ":" or "ruleset" in m[2]) and not text.startswith(("use ", "pub use", "module ")):
                kind = {"record": "field", "data": "constructor"}.get(inside[-1][1], "def") if inside else "def"
                names.setdefault(m[3], set()).add(kind)
            if opens:
                head = re.match(r"(?:(?:pub|unfoldable|abbrev)\s+)*(record|data|module)\b", text)
                inside.append((depth, head[1] if head else "where"))
    return names


def spelled(name):
    if name in OTHER:
        return OTHER[name]
    new = re.sub(r"([a-z0-9])([A-Z])(?=[A-Z]?([a-z]|\b|-|\?|$))", lambda m: m[1] + "_" + m[2].lower(), name) if name[0].islower() else name
    return re.sub(r"(?<=[\w'?])-(?=[\w])", "_", new)


def renamed(root):
    out = {}
    for name, kinds in declared(root).items():
        new = spelled(name)
        if new != name:
            out[name] = new
    return out


def turn(text, path, names, kinds):
    """text with the names respelled: in a proof of a function, or behind a dot, only what is surely the repository's own."""
    source = path.endswith(".rt")
    if source:
        names = {old: new for old, new in names.items() if re.search(r"[a-z][A-Z]", old)}
    lines = text.split("\n")
    foreign = set()
    aliases = set()
    for line in lines:
        m = re.match(r"\s*(?:pub |ghost |unfoldable )*use ([^\s{;]+?)(?:\.\{([^}]*)\}| as ([^\s;]+))?;?\s*$", line)
        if m:
            own = re.match(r"Rattle\.\w+\.(specs|proofs)\.", m[1]) and not re.match(r"Rattle\.(std|core)\.", m[1])
            if own and m[3]:
                aliases.add(m[3])
            if not own and m[2]:
                foreign |= {it.split()[0] for it in m[2].split(",") if it.strip()}
    out = []
    for line in lines:
        def one(m):
            word = m[0]
            if word not in names or word in foreign:
                return word
            before = line[: m.start()]
            if source and before.count('"') % 2:
                return word
            if before.endswith("."):
                if word in OTHER and re.fullmatch(r"\w+", word):
                    return word
                chain = re.search(r"([^\s(){}\[\],;:`\"]+)\.$", before)
                head = chain[1].split(".")[0] if chain else ""
                if head == "Rattle" or head in aliases:
                    return names[word]
                if "field" in kinds[word] and "def" not in kinds[word]:
                    return names[word]
                if "field" in kinds[word] and not of_function(path):
                    return names[word]
                return word
            return names[word]

        turned = TOKEN.sub(one, line)
        if not source and re.match(r"\s*--\s{2,}\S", line):
            turned = re.sub(r"(?<=, )-(?=[a-z])", "_", turned)
        out.append(turned)
    return "\n".join(out)


def main(argv):
    check = argv == ["--check"]
    root = "."
    kinds = declared(root)
    names = renamed(root)
    news = {}
    for old, new in names.items():
        news.setdefault(new, []).append(old)
    for new, olds in sorted(news.items()):
        if len(olds) > 1 or new in kinds:
            print(f"falls together: {', '.join(olds)} -> {new}" + (" (declared)" if new in kinds else ""))
    for path in files(root):
        with open(path, encoding="utf-8") as f:
            text = f.read()
        if check:
            words = set(TOKEN.findall(text))
            for new, olds in news.items():
                if new in words and any(o in words for o in olds):
                    print(f"stands already: {path}: {new} (from {', '.join(o for o in olds if o in words)})")
        new = turn(text, path, names, kinds)
        if new != text and not check:
            with open(path, "w", encoding="utf-8") as f:
                f.write(new)
    if check:
        for old, new in sorted(names.items()):
            print(f"{old} -> {new}")
    return 0


if __name__ == "__main__":
    raise SystemExit(main(sys.argv[1:]))
