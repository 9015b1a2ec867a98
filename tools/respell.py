#!/usr/bin/env python3
"""Respells the definitions and lemmas of this repository: words in snake case, as `most_bytes` for `mostBytes` and `meaning_is_one` for
`meaning-is-one`. Types keep their capitals, functions of src/ and names that Rattle makes keep their spelling.

  tools/respell.py          respells every crate, edit, page and test script, once, after the kit's own script
  tools/respell.py --list   prints each old name with its new one, and those that fall together with another
"""
import glob
import os
import re
import sys

os.chdir(os.path.join(os.path.dirname(os.path.abspath(__file__)), ".."))
HEAD = re.compile(r"^\s*(?:(?:unfoldable|abbrev|mutual)\s+)*(?:pub\s+)?(?:data\s+|record\s+|ruleset\s+)?([^\s:(){}\[\]|,;]+)\s*(?:\{.*\}|\(.*\))?\s*:(?:\s|$)")
TOKEN = re.compile(r"[^\s(){}\[\].,;:|\"`@#]+")
WORD = re.compile(r"[A-Za-z_][A-Za-z0-9_]*")
MADE = re.compile(r"^(returns|loop|if|let|then|else|in|overflow|invariant|decreases|slice|shared|enum|lent|cast|add|sub|mul|shr|shl|mod|div)-\d*$|-requires(-\d+)?$|^(slice|shared)-")


def snake(name):
    name = re.sub(r"(?<=[a-z0-9])([A-Z])(?=[a-z]|$|-|[^A-Za-z])", lambda m: "_" + m[1].lower(), name)
    name = name.replace("getD", "get_or").replace("get_d", "get_or")
    return name.replace("-", "_") if not re.search(r"[A-Z]", name) else name


def antt_files():
    return sorted(glob.glob("crates/*/specs/**/*.antt", recursive=True) + glob.glob("crates/*/proofs/**/*.antt", recursive=True))


def renames():
    found = {}
    for path in antt_files():
        if path.endswith("/Proof.antt"):
            continue
        with open(path) as it:
            for line in it:
                at = HEAD.match(line)
                if not at or line.lstrip().startswith("--"):
                    continue
                name = at[1]
                if not name[0].islower() or MADE.search(name):
                    continue
                if snake(name) != name and not re.search(r"[^A-Za-z0-9_'₀-₉-]", name):
                    found[name] = snake(name)
    return found


def specs_of_functions(path, text):
    """The proof of a function f is f_spec."""
    return re.sub(r"(?<![\w-])(\+?[a-z][a-z0-9_]*(?:-[a-z0-9]+)*)-spec(?![\w-])", lambda m: m[1].replace("-", "_") + "_spec", text)


def respelled(path, text, names):
    if path.endswith(".rt"):
        return WORD.sub(lambda m: names.get(m[0], m[0]) if re.search(r"[A-Z]", m[0]) else m[0], text)
    if path.endswith(".antt"):
        text = "\n".join(TOKEN.sub(lambda m: names.get(m[0], m[0]), line) for line in text.split("\n"))
        return specs_of_functions(path, text) if path.endswith("/Proof.antt") else text
    return TOKEN.sub(lambda m: m[0] if m[0] in APART and "_" in m[0] else names.get(m[0], m[0]), text)


# Where a name would fall together with another of its files: a lemma that would have its definition's name gets `_lem`.
APART = {"fillOne": "filled_one", "goesOn": "gone_on", "oneKey": "only_key", "table-at": "table_at_lem", "read_table": "read_table_lem"}

# Parameters, and the names under which files take the variants of an enum.
INNER = {
    "notADerivation": "not_a_derivation", "becomesNothing": "becomes_nothing", "findsNothing": "finds_nothing", "findsKey": "finds_key",
    "packedNames": "packed_names", "bindingPlaces": "binding_places", "accessPlaces": "access_places", "delegationPlaces": "delegation_places",
    "keyTable": "key_table", "keyTable₀": "key_table₀", "keyRequest": "key_request", "keyAnswer": "key_answer", "keyLoaded": "key_loaded", "byKeys": "by_keys",
    "byBefore": "by_before", "sheetRoom": "room_of_sheet", "asHanded": "the_handed", "asBound": "the_bound", "asKeyRequest": "as_key_request",
    **{f"as{it}": f"as_{it.lower()}" for it in "Access Answer Binding Delegation Depth Derivation Field Given Key Made Numbers Path Read Request Section Space Target Use".split()},
}


def main():
    names = renames()
    several = {}
    for old, new in names.items():
        several.setdefault(new, []).append(old)
    for new, olds in several.items():
        if len(olds) > 1:
            names.update({old: new + "_lem" for old in olds if "-" in old})
    names.update(APART)
    names.update(INNER)
    if sys.argv[1:] == ["--list"]:
        whole = {}
        for path in antt_files() + glob.glob("crates/*/src/**/*.rt", recursive=True):
            with open(path) as it:
                whole[path] = set(TOKEN.findall(it.read()))
        for old, new in sorted(names.items()):
            clash = [p for p, t in whole.items() if new in t and old in t]
            every = [p for p, t in whole.items() if new in t]
            print(old, new, "CLASH " + " ".join(clash[:4]) if clash else "", "also " + " ".join(every[:3]) if every else "")
        return
    pages = ["README.md", "prove", "review", *glob.glob("docs/*.md"), *glob.glob("tests/run-*"), *glob.glob("crates/*/must-fail/*.edit")]
    for path in antt_files() + glob.glob("crates/*/src/**/*.rt", recursive=True) + pages:
        if path == "docs/PORT.md":
            continue
        with open(path) as it:
            text = it.read()
        new = respelled(path, text, names)
        if new != text:
            with open(path, "w") as it:
                it.write(new)


main()
