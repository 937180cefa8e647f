#!/usr/bin/env python3
"""Brings the repository's own words to one spelling: run once, at the top, after the toolchain's own script.

A definition, lemma, field or bound variable in camel case gets snake case. In a lemma's name a dash joins two names of definitions or
constructors; a plain word is added with an underscore. Types, facts and modules keep their upper camel case; functions of src/ are in
snake case already, and strings and exported names have no word that this changes. It prints names that would fall together, and then
changes nothing.
"""
import collections
import glob
import re
import sys

TOKEN = re.compile(r"[^\s(){}\[\],;.:\"«»|`]+")
DECLARED = re.compile(r"\s*(?:(?:unfoldable|abbrev|mutual|pub|record|data|ruleset)\s+)*([^\s:(){}.;=]+(?: [^\s:(){}.;=]+)*)\s*:(?![=:])")
# Lemmas that would have the name of a definition beside them: theirs gets an ending.
BESIDE = {
    "as-statement": "as_statement_lem",
    "as-test": "as_test_lem",
    "as-value": "as_value_lem",
    "entry-bits": "entry_bits_lem",
    "equation-nodes": "equation_nodes_lem",
    "line-room": "line_room_lem",
    "node-sort": "node_sort_lem",
    "packet-in": "packet_in_lem",
    "yes_or_no": "yes_or_no_lem",
}
BESIDE_IN = {"crates/model/proofs/Completeness.antt": {"in_order": "in_order_lem"}}
# These have one name in two modules, and no file knows both.
APART = {"body_below", "goes_on", "in_order", "too_long"}
# words of the standard library that lemmas of ours name
STD = set("length append get_or set take drop map reverse true false none some zero suc eqb ltb leb add mul sub refl trans".split())


def texts():
    for pattern in ("crates/*/src/*.rt", "crates/*/specs/*.antt", "crates/*/proofs/**/*.antt", "crates/*/must-fail/*.edit"):
        yield from sorted(glob.glob(pattern, recursive=True))


def declared(files):
    found = collections.defaultdict(set)
    for path in files:
        with open(path) as f:
            for line in f:
                m = DECLARED.match(line.split("--")[0] if line.lstrip().startswith("--") else line)
                for name in m.group(1).split() if m else ():
                    found[name].add(path)
    return found


def snake(word):
    return re.sub(r"(?<=[a-z0-9])([A-Z])", lambda m: "_" + m.group(1).lower(), word)


def is_camel(part):
    return re.fullmatch(r"[a-z][A-Za-z0-9']*", part) and re.search(r"[a-z0-9][A-Z]", part) and "ℕ" not in part


def joined(name, words):
    parts = [snake(p) if is_camel(p) else p for p in name.split("-")]
    out = parts[0]
    for before, part in zip(parts, parts[1:]):
        out += ("-" if before in words and part in words else "_") + part
    return out


def main():
    files = list(texts())
    specs = declared(f for f in files if "/specs/" in f)
    lemmas = declared(f for f in files if re.fullmatch(r"crates/\w+/proofs/\w+\.antt", f))
    content = {f: open(f).read() for f in files}
    words = STD | {snake(n) for n in specs if re.match(r"[a-z]", n) and "-" not in n}
    names = {}
    for text in content.values():
        for token in TOKEN.findall(text):
            if is_camel(token):
                names[token] = snake(token)
    for name in list(specs) + list(lemmas):
        if "-" in name and re.match(r"[A-Za-z]", name):
            new = joined(name, words)
            if new != name:
                names[name] = new
    names.update(BESIDE)
    names["getD"] = "get_or"  # a library's word, in the edits
    clash = collections.defaultdict(set)
    taken = set(specs) | set(lemmas)
    for old, new in names.items():
        clash[new].add(old)
        if new in taken and old in taken and new not in names:
            clash[new].add(new)
    bad = {new: olds for new, olds in clash.items() if len(olds) > 1 and new not in APART}
    for new, olds in sorted(bad.items()):
        print("falls together:", new, sorted(olds), sorted(set().union(*(specs[o] | lemmas[o] for o in olds))))
    if bad and "--force" not in sys.argv:
        return 1
    for path, text in content.items():
        here = set(TOKEN.findall(text))
        for old in sorted(here & set(names)):
            if names[old] in here and names[old] not in BESIDE and (names[old] not in BESIDE_IN.get(path, {})):
                print("both stand in", path, ":", old, names[old])
    # a name behind a dot is a field or a goal's: only words of our own in camel case are respelled there
    for path, text in content.items():
        def turn(m):
            token = m.group()
            if "-" in token and m.start() and text[m.start() - 1] == ".":
                return token
            return BESIDE_IN.get(path, {}).get(token) or names.get(token, token)
        new = TOKEN.sub(turn, text)
        if new != text:
            with open(path, "w") as f:
                f.write(new)
    print(len(names), "names")
    return 0


if __name__ == "__main__":
    sys.exit(main())
