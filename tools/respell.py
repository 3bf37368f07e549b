#!/usr/bin/env python3
"""Respells the repository's own names in definitions and proofs: run once, at the top, after the toolchain's own port script.

A function, a lemma or a field is in snake case; a definition that gives a fact is spelled as a type; a dash stays only between two names of definitions.
Functions of src/, exported names, strings and outputs keep their spelling. A name that would fall together with another stays, and is printed.
"""
import collections
import glob
import os
import re
import sys

NAME = r"[^\s(){}\[\];,.@\"`]+"
DECLARED = re.compile(rf"^(?:(?:abbrev|unfoldable|pub|private)\s+)*({NAME})(?: \{{[^{{}}\n]*\}})* :(?= |$)", re.M)
FACT = re.compile(r"^(?:(?:abbrev|unfoldable|pub)\s+)*([a-z]\S*) : [^\n]*→ Type 0$", re.M)
FIELD = re.compile(rf"^ +(?:(?:abbrev|unfoldable|pub)\s+)*({NAME})(?: \{{[^{{}}\n]*\}})* :(?= |$)", re.M)
RECORD = re.compile(r"^(?:pub )?(?:record|data) (\S+)", re.M)
USE = re.compile(r"\buse ([^\s;{]+)\{([^}]*)\}", re.M)
# words of the libraries that own names join by a dash
WORDS = set(
    "length append map take drop reverse get_or set min max all any filter flat_map zip_with suc zero cond not leb ltb eqb lt_z mag pos negsuc add mul sub div mod "
    "T Mem any keep first_of up_from".split()
)
# own spellings of words that the libraries spell otherwise now
PARTS = {"getD": "get_or", "ltZ": "lt_z", "addZ": "add_z", "subZ": "sub_z", "toZ": "to_z", "ofZ": "of_z"}


# names that meet a word of another meaning
BY_HAND = {"by_rows": "along_rows", "bit-at": "bit_at_lem"}
# and ones that meet a word only of another crate
APART = {"numberRead"}


# a fact that has the name of a field and of a word of comments
EITHER = re.compile(r"(?<=\{ )(?<!record \{ )either(?= )|(?<=Cases\.\{)either(?=\})|(?<=^abbrev pub )either(?= :)|^either(?= true| false)|(?<=^    )either(?= r \()", re.M)


def snake(word):
    if word in PARTS:
        return PARTS[word]
    if not word[:1].islower():
        return word
    return re.sub(r"(?<=[a-z0-9])[A-Z]", lambda m: "_" + m[0].lower(), word)


def texts():
    out = {}
    for pattern in ("crates/*/src/*.rt", "crates/*/specs/*.antt", "crates/*/proofs/**/*.antt", "crates/*/must-fail/*.edit"):
        for path in sorted(glob.glob(pattern, recursive=True)):
            with open(path, encoding="utf-8") as f:
                out[path] = f.read()
    return out


def own(path, crates):
    steps = path.split(".")
    return steps[0] == "Rattle" and len(steps) > 1 and steps[1] in crates


def parameters(files, new):
    """Prints the functions of src/ that have a parameter of the new name of a word that their clauses cite."""
    back = {m: n for n, m in new.items()}
    for path, text in files.items():
        if not path.endswith(".rt"):
            continue
        for f in re.finditer(r"\bfn (\w+)[^(]*\(", text):
            body = text[f.end() :]
            close = body.find(")")
            names = set(re.findall(r"(\w+):", body[:close]))
            clauses = body[close : body.find("\n{", close) if "\n{" in body else close]
            for n in names & set(back):
                if re.search(rf"(?<![\w.-]){re.escape(back[n])}(?![\w-])", clauses):
                    print(f"captured: {path} {f[1]}: {n}")


def main():
    files = texts()
    crates = set(os.listdir("crates"))
    antt = {p: t for p, t in files.items() if p.endswith(".antt")}
    top, fields, facts, spec_names = set(), set(), set(), set()
    for path, text in antt.items():
        names = set(DECLARED.findall(text))
        top |= names
        fields |= set(FIELD.findall(text))
        facts |= set(FACT.findall(text))
        if "/specs/" in path:
            spec_names |= names
    foreign = set()
    for path, text in files.items():
        for module, names in USE.findall(text):
            if not own(module.rstrip("."), crates):
                for n in names.split(","):
                    foreign.add(n.split(" as ")[0].strip())
                    foreign.add(n.split(" as ")[-1].strip())
    words = WORDS

    def joined(name):
        parts = [snake(p) for p in name.split("-")]
        if name in fields:
            return "_".join(parts)
        out = parts[0]
        for a, b in zip(parts, parts[1:]):
            out += ("-" if a in words and b in words else "_") + b
        return out

    new = {}
    for n in sorted(top | fields):
        if not re.fullmatch(r"[\w'-]+", n) or n in foreign or n == "either":
            continue
        if n in facts:
            m = n[0].upper() + n[1:]
        else:
            m = joined(n)
        if m != n:
            new[n] = m
    if "byRows" in new:
        new.update({n: m for n, m in BY_HAND.items() if n in top | fields})
    # A definition has the plain name; a lemma or a field that would have it too gets an ending, whether it is respelled now or was before.
    defined = {m for n, m in new.items() if n in spec_names or re.search(r"[a-z][A-Z]", n)}
    for n in sorted(top | fields):
        m = new.get(n, n)
        if m in defined and n not in spec_names and not re.search(r"[a-z][A-Z]", n):
            new[n] = m + "_lem"
    # a new name that is some name already, or that two names would get
    used = collections.Counter()
    for text in antt.values():
        used.update(set(re.findall(rf"(?<![^\s(){{}}\[\];,@]){NAME}", text)))
    by_new = collections.defaultdict(list)
    for n, m in new.items():
        by_new[m].append(n)
    for m, ns in sorted(by_new.items()):
        if len(ns) > 1 or (m in used and m not in new and ns[0] not in APART):
            for n in ns:
                print(f"stays: {n} (would meet {m}; {ns})")
                del new[n]
    parameters(files, new)
    cut = re.compile(rf"{NAME}")

    def respelled(path, text):
        out, last = [], 0
        for m in cut.finditer(text):
            word = m[0]
            if word not in new:
                continue
            before = text[max(0, m.start() - 200) : m.start()]
            if before.endswith("."):
                head = before[:-1]
                prev = re.search(rf"({NAME})$", head)
                module = bool(prev) and prev[1][:1].isupper()
                if word not in fields and not module:
                    continue
            elif path.endswith((".rt", ".edit")) and not re.search(r"[a-z][A-Z]", word):
                continue
            out.append(text[last : m.start()])
            out.append(new[word])
            last = m.end()
        out.append(text[last:])
        return EITHER.sub("EitherBy", "".join(out))

    changed = 0
    for path, text in files.items():
        t = respelled(path, text)
        if t != text:
            changed += 1
            with open(path, "w", encoding="utf-8") as f:
                f.write(t)
    # what no script turned before: edits and pages that name definitions by their old spelling
    declared = (top | fields | set(new.values())) - set(new)
    camel = {n: snake(n) for text in files.values() for n in re.findall(r"\b[a-z][a-z0-9]*[A-Z]\w*\b", text) if snake(n) in declared and n not in foreign}
    for path in glob.glob("crates/*/must-fail/*.edit"):
        with open(path, encoding="utf-8") as f:
            text = f.read()
        t = re.sub(r"\b[a-z][a-z0-9]*[A-Z]\w*\b", lambda m: camel.get(m[0], m[0]), text)
        t = re.sub(r"\((\w+) \.(\w+)\)", r"\1.\2", t).replace("′", "'")
        if t != text:
            with open(path, "w", encoding="utf-8") as f:
                f.write(t)
    pages = ["README.md"] + sorted(glob.glob("docs/*.md"))
    for path in pages:
        if not os.path.exists(path):
            continue
        with open(path, encoding="utf-8") as f:
            text = f.read()
        t = re.sub(r"`([\w'-]+)`", lambda m: "`" + new.get(m[1], snake(m[1]) if snake(m[1]) in declared else m[1]) + "`", text)
        if t != text:
            with open(path, "w", encoding="utf-8") as f:
                f.write(t)
    with open("tools/respelled.txt", "w", encoding="utf-8") as f:
        for n in sorted(new):
            f.write(f"{n} {new[n]}\n")
    print(f"{len(new)} names, {changed} files")


if __name__ == "__main__":
    sys.exit(main())
