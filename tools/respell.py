#!/usr/bin/env python3
"""Spells the definitions and lemmas of the crates in snake case.

usage: respell.py [FOLDER]

It runs once, at the top of the repository or in FOLDER, on crates that the kit's port.py has turned.
A name in camel case gets underscores, as bigEndian becomes big_endian. A dash becomes an underscore, but a lemma
of proofs/ keeps one that joins two names, as length-zeros. Types and modules keep their names, and so does the source.
It rewrites specs/, the lemmas of proofs/, the clauses of src/, and names in camel case in the must-fail edits.
The file names.tsv beside this script gets a row for each name that changed: old, a tab, new.
A line 'meets:' names two names that would be one: the second gets the ending _lem.
"""
import collections
import glob
import os
import re
import sys

WORD = re.compile(r'[^\s(){}.;,@"«»]+')
SIGNATURE = re.compile(
    r"^([ ]*)(?:(?:abbrev|unfoldable|pub|data|record|ruleset)\s+)*([^\s:;(){}λ.,]+)(?:\s*[({][^\n]*[)}])?\s*:(?:\s|$)",
    re.M,
)
HOLDER = re.compile(r"^([ ]*)(?:pub )?(data|record)\b", re.M)
USE = re.compile(r"\buse ([^\s;{]+?)(?:\.\{([^}]*)\})?(?: as (\S+))?(?=;|\s*$)", re.M)
# A field of the source has the name that the rule would give.
GIVEN = {"stringsEnd": "trimmed_end"}
WORDS_OF_STD = set("length take drop set append cons snoc get_or replicate sum".split())
RESERVED = set("in as use open data record where module let do unfold unfolding".split())


def read(path):
    with open(path, encoding="utf-8") as f:
        return f.read()


def in_snake_case(name):
    return re.sub(r"(?<=[a-z0-9])([A-Z])", lambda m: "_" + m[1].lower(), name)


def is_small(name):
    return re.match(r"[a-zμ+]", name) is not None


def declared_in(text):
    """The names that a file declares, each with whether it is a field or a constructor."""
    found, holder = {}, None
    for line in text.split("\n"):
        head = HOLDER.match(line)
        if line.strip() and not line.startswith((" ", "--")):
            holder = head is not None
        sign = SIGNATURE.match(line)
        if sign and not line.lstrip().startswith("--"):
            found.setdefault(sign[2], bool(holder and sign[1]))
    return found


def respelled(name, keeps_dash, names):
    parts = [in_snake_case(it) for it in name.split("-")]
    out = parts[0]
    for part in parts[1:]:
        both = keeps_dash and out.split("-")[-1] in names and part in names
        out += ("-" if both else "_") + part
    return out


def table_of(files):
    declared, in_specs = collections.defaultdict(set), set()
    for path in files:
        for name, is_part in declared_in(read(path)).items():
            if is_small(name):
                declared[name].add("part" if is_part else "specs" if "/specs/" in path else "proofs")
                if "/specs/" in path:
                    in_specs.add(in_snake_case(name).replace("-", "_"))
    names = {it for it in in_specs if len(it) > 2} | WORDS_OF_STD
    table, taken = {}, {}
    is_camel = lambda it: re.search(r"[a-z0-9][A-Z]", it) is not None
    for name in sorted(declared, key=lambda it: (not is_camel(it) or "-" in it, "-" in it, it)):
        new = GIVEN.get(name) or respelled(name, declared[name] == {"proofs"}, names)
        if new in taken:
            print(f"meets: {name} and {taken[new]}: {new}_lem")
            new += "_lem"
        taken[new] = name
        if new != name:
            table[name] = new
    return table


def turn_antt(text, table, yours):
    away = set()
    for path, items, alias in USE.findall(text):
        steps = path.split(".")
        if steps[0] == "Rattle" and len(steps) > 1 and steps[1] in yours:
            continue
        away.update(WORD.findall(items))
        if not items:
            away.add(alias or steps[-1])
    def one(m):
        word = m[0]
        bare = word.rstrip("'")
        if word in away or bare in away:
            return word
        if word in table:
            return table[word]
        if bare in table:
            return table[bare] + word[len(bare):]
        if word in RESERVED:
            return word
        return word
    out = []
    for line in text.split("\n"):
        code, dash, note = line.partition("--") if re.search(r"(^|\s)--(\s|$)", line) else (line, "", "")
        if dash:
            at = re.search(r"(^|\s)--(\s|$)", line)
            at = line.index("--", at.start())
            code, note = line[:at], line[at + 2:]
        out.append(WORD.sub(one, code) + dash + (turn_prose(note, table) if dash else ""))
    return "\n".join(out)


def turn_prose(text, table):
    """Names in code spans, and names in camel case anywhere."""
    def in_span(m):
        return WORD.sub(lambda w: table.get(w[0], w[0]), m[0])
    text = re.sub(r"`[^`\n]+`", in_span, text)
    return re.sub(r"(?<![\w`-])[a-z]+(?:[A-Z][a-z0-9]*)+(?![\w`-])", lambda m: table.get(m[0], m[0]), text)


CLAUSE = re.compile(r"^\s*(?:ghost use .*|(?:requires|ensures|ghost)\b.*)$", re.M)


def turn_rt(text, table, yours):
    """The clauses of a source file: from requires, ensures or ghost on to the line of the body's brace."""
    out, inside = [], False
    for line in text.split("\n"):
        bare = line.strip()
        if re.match(r"(ghost use|requires|ensures|ghost)\b", bare):
            inside = True
        if bare.startswith("//"):
            out.append(turn_prose(line, table))
            continue
        if inside and bare != "{":
            out.append(WORD.sub(lambda m: table.get(m[0], m[0]), line))
        else:
            out.append(re.sub(r"(?<![\w.-])[a-z]+(?:[A-Z][a-z0-9]*)+(?![\w-])", lambda m: table.get(m[0], m[0]), line))
        if bare == "{" or bare.endswith(";") and bare.startswith("ghost use") or bare.endswith("},") and bare.startswith("ghost "):
            inside = False
    return "\n".join(out)


def write(path, old, new):
    if new != old:
        with open(path, "w", encoding="utf-8") as f:
            f.write(new)


def main(folder):
    os.chdir(folder)
    yours = {os.path.basename(it) for it in glob.glob("crates/*")}
    specs = [it for it in glob.glob("crates/*/specs/**/*.antt", recursive=True) if "_zz" not in it]
    lemmas = [it for it in glob.glob("crates/*/proofs/**/*.antt", recursive=True) if os.path.basename(it) != "Proof.antt"]
    here = os.path.join(os.path.dirname(os.path.realpath(__file__)), "names.tsv")
    if os.path.exists(here):
        table = dict(it.split("\t") for it in read(here).split("\n") if it)
    else:
        table = table_of(sorted(specs + lemmas))
        write(here, "", "".join(f"{a}\t{b}\n" for a, b in sorted(table.items())))
    for path in glob.glob("crates/*/**/*.antt", recursive=True):
        text = read(path)
        write(path, text, turn_antt(text, table, yours))
    for path in glob.glob("crates/*/src/**/*.rt", recursive=True):
        text = read(path)
        write(path, text, turn_rt(text, table, yours))
    for path in glob.glob("crates/*/must-fail/*.edit"):
        text = read(path)
        write(path, text, WORD.sub(lambda m: table.get(m[0], m[0]) if re.search(r"[a-z][A-Z]", m[0]) else m[0], text))


if __name__ == "__main__":
    if len(sys.argv) > 1 and sys.argv[1] in ("-h", "--help"):
        print(__doc__.strip())
    else:
        main(sys.argv[1] if len(sys.argv) > 1 else ".")
