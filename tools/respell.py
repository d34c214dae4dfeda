#!/usr/bin/env python3
"""Respells the names that the crates declare in specs/ and proofs/, as Rattle's CONTRACT_STYLE.md asks.

usage: tools/respell.py [--list]     at the top of the repository, once, after port.py

Words are in snake case (`wordAt` is `word_at`), facts and types in camel case. A dash joins two names, as in `length-bytes_of`;
a plain word is added by `_`, as in `xor_odd`. A namespace is no middle dot: `Ctr·state` is `CtrState`.
A name of a library of the kit, and one of the sources in src/, keeps its spelling. Where two names would fall together, the lemma gets `_lem`.
--list prints the table, old and new, and writes nothing.
"""
import collections
import os
import re
import sys

CRATES = "crates"
OWN = sorted(c for c in os.listdir(CRATES) if os.path.isdir(os.path.join(CRATES, c)))
STD = """length take drop append cons nil map set get_or replicate reverse sum xor and or shl shr not true false some none fst snd lt le eq
ne mod div mul add sub pow suc zero one max min split head tail cat""".split()
# Lemmas that would have a definition's name, and names that only a field of another record has.
LEMMAS = "goes_on to_one no_pieces".split()
FIELDS = "by_answer by_mode bytes_in bytes_out came_round cbc_decrypt cbc_encrypt round_keys".split()
# Names that a `use` line gave to the library's: they go, or are spelled anew.
GIVEN = {
    "List·getD-append": "get_or-append",
    "List·getD-eq-default": "get_or-eq_default",
    "List·getD-map": "get_or-map",
    "List·isSet": "is_set",
    "List-as-Mem": "Mem",
    "List-as-Nodup": "Nodup",
    "is_found": "tells_found",
    "Let-through": "LetThrough",
    "Pairwise·cons": "PairwiseCons",
    "Pairwise·nil": "PairwiseNil",
    "Pairwise·of-cons": "PairwiseOf-cons",
    "Perm·foldr-eq": "PermFoldr-eq",
}
END = r"\s(){}\[\],;:.`\"«»"


def files(endings, folders=("specs", "proofs", "src")):
    for c in OWN:
        for folder in folders:
            for d, dirs, found in os.walk(os.path.join(CRATES, c, folder)):
                dirs.sort()
                for f in sorted(found):
                    if f.endswith(endings):
                        yield os.path.join(d, f)


def read(path):
    with open(path, encoding="utf-8") as f:
        return f.read()


def code_of(text):
    return "\n".join(l for l in text.split("\n") if not l.lstrip().startswith("--"))


def declared():
    """The names that specs/ and proofs/ declare: definitions, lemmas, fields, and other names that a `use` line gives."""
    found, in_specs = collections.Counter(), set()
    for path in files(".antt"):
        code = code_of(read(path))
        names = re.findall(r"^[ \t]*(?:(?:abbrev|unfoldable|opaque|pub)[ \t]+)*([^\s(){}:,.]+)[ \t]*(?:[{(][^=\n]*?[)}][ \t]*)*:[ \t]", code, re.M)
        names += re.findall(r"^(?:pub )?(?:record|data|ruleset) (?:pub )?([^\s(){}:,.=]+)", code, re.M)
        names += re.findall(r" as ([^\s(){},.]+·[^\s(){},.]+|[^\s(){},.]+-as-[^\s(){},.]+|[a-z]\w*[A-Z]\w*)", code)
        for n in names:
            if n not in ("use", "let", "in", "λ", "|"):
                found[n] += 1
                if "/specs/" in path:
                    in_specs.add(n)
    return found, in_specs


def of_the_kit():
    found = set()
    for path in files((".antt", ".rt")):
        for m in re.finditer(r"^(?:pub )?(?:ghost )?use ([\w.]+)\.\{([^}]*)\}", read(path), re.M):
            where = m.group(1).split(".")
            if len(where) > 1 and not (where[0] == "Rattle" and where[1] in OWN and "declared" not in where):
                found.update(it.split(" as ")[0].strip() for it in m.group(2).split(","))
    return found


def source_names():
    found = set()
    for path in files(".rt"):
        found.update(re.findall(r"\bfn (\w+)", read(path)))
    return found


def snake(piece):
    """camelCase to snake_case; a piece that begins with a capital is a fact or a type and stays."""
    if not re.match(r"[a-z]", piece):
        return piece
    return re.sub(r"(?<=[a-z0-9])([A-Z])", lambda m: "_" + m.group(1).lower(), piece.replace("getD", "get_or"))


def respelled(name, names, functions):
    if "·" in name and "-" not in name:
        parts = re.split(r"·", name)
        if parts[0][:1].islower():
            return "_".join(snake(p) for p in parts)
        return parts[0] + "".join(p[:1].upper() + p[1:] for p in parts[1:])
    if "-as-" in name:
        inner, outer = name.split("-as-")
        return inner + outer if inner[:1].isupper() and outer[:1].isupper() else name
    if name.endswith("-spec") and name[:-5].replace("-", "_") in functions:
        return name.replace("-", "_")
    pieces = [snake(p) for p in name.split("-")]
    out = pieces[0]
    for a, b in zip(pieces, pieces[1:]):
        known = lambda p: p in names or p[:1].isupper()
        out += ("-" if known(a) and known(b) else "_") + b
    return out.replace("′", "'")


def table():
    found, in_specs = declared()
    kit, functions = of_the_kit(), source_names()
    names = {snake(n) for n in in_specs if "-" not in n} | functions | set(STD)
    taken = set()
    for path in files((".antt", ".rt")):
        taken.update(re.split(f"[{END}]+", code_of(read(path))))
    out, given = {**GIVEN, **{n: n + "_lem" for n in LEMMAS}}, {}
    taken -= {*LEMMAS, *FIELDS, *GIVEN}
    # Definitions first: a lemma that would have a definition's name gets `_lem`.
    for n in sorted(found, key=lambda n: ("-" in n, n)):
        if n in out or n in kit and "·" not in n and "-as-" not in n:
            continue
        to = respelled(n, names, functions)
        if to == n:
            continue
        for to in (to, to + "_lem"):
            if to not in given and (to not in taken or to in functions and not to.endswith("_spec") or n.endswith("-spec")):
                out[n] = given[to] = to
                break
        else:
            print(f"kept, since its new name is taken: {n}", file=sys.stderr)
    return out


def turned(text, to, rust):
    token = re.compile(f"(?<![^{END}])[^{END}]+(?![^{END}])")
    lines = []
    for line in text.split("\n"):
        at = line.find("//" if rust else "--") if line.lstrip().startswith("//" if rust else "--") else -1
        if at >= 0:
            line = re.sub(r"`[^`]*`", lambda m: token.sub(lambda t: to.get(t.group(), t.group()), m.group()), line)
        else:
            line = token.sub(lambda t: to.get(t.group(), t.group()), line)
        lines.append(line)
    return "\n".join(lines)


def main(words):
    to = table()
    if words == ["--list"]:
        for a, b in to.items():
            print(f"{a}\t{b}")
        return 0
    changed = 0
    for path in files((".antt", ".rt")):
        old = read(path)
        new = turned(old, to, path.endswith(".rt"))
        new = "\n".join(re.sub(r"(?<![\w'-])([\w'-]+) as \1(?![\w'-])", r"\1", l) if re.match(r"(pub )?(ghost )?use ", l) else l for l in new.split("\n"))
        if new != old:
            with open(path, "w", encoding="utf-8") as f:
                f.write(new)
            changed += 1
    print(f"{len(to)} names respelled in {changed} files")
    return 0


if __name__ == "__main__":
    raise SystemExit(main(sys.argv[1:]))
