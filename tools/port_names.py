#!/usr/bin/env python3
"""Brings the definitions and lemmas of this repository to the spelling of today's Rattle; run once, after port.py, at the top.

Words are in snake case: `wholeBy` is `whole_by`, `then-stop` is `then_stop`. A dash stays behind a type's name, as in
`Closed-valid`, and takes the place of a middle dot, as in `without_min-ranked`. Names of src/, of files and of modules,
strings and outputs stay. Prints each name that changed, and each that falls together with another in a file.
"""
import glob
import os
import re
import sys

TOKEN = re.compile(r"[^\s(){}\[\].,;\"λ∷]+")
DECL = re.compile(r"^ *(?:let )?(?:(?:abbrev|unfoldable) )?(?:pub )?(?:(?:abbrev|unfoldable) )?([^\s(){}\[\].,;:]+) :(?: |$)")
ALIAS = re.compile(r"^use \S+ as (\S+)$")
# names that would fall together with a definition that is in scope beside them: everywhere, and in one file
APART = {
    "index_in": "index_in_lem", "part-at": "part_at_lem", "of-int": "of_int_lem", "metres-of": "metres_of_lem",
    "byte-of": "byte_of_lem", "sign-of": "sign_of_lem", "sups-flag": "sups_flag_lem", "turned-square": "turned_square_lem",
    "long-text": "long_text_told", "not-bounded": "named_not_bounded", "no-subs": "named_no_subs",
    "no-sups": "named_no_sups", "sub-not-back": "named_sub_not_back", "sup-not-back": "named_sup_not_back",
    "sub-missing": "named_sub_missing", "sup-missing": "named_sup_missing", "third-between": "named_third_between",
    "lone-between": "named_lone_between", "not-ascending": "named_not_ascending",
    "several-parts": "named_several_parts",
    "good-row": "good_row_lem",
    "judged-as": "judged_as_lem",
    "all-flags": "all_flags_lem",
    "dual-size": "dual_size_lem",
    "added-rank": "added_rank_lem",
    "sups-at": "sups_at_lem",
    "from-line": "from_line_lem",
    "count-line": "count_line_lem",
    "product-subs": "product_subs_lem",
    "count-bytes": "count_bytes_lem",
    "subs-bytes": "subs_bytes_lem",
    "det-in": "det_in_lem",
    "not-orientable": "not_orientable_lem",
    "pair-subs": "pair_subs_lem",
    "paired-subs": "paired_subs_lem",
    "over-pair": "over_pair_lem",
}
APART_IN = {
    "crates/dual_theory/proofs/DualProducts.antt": {"in_order": "in_order_lem"},
    "crates/listing_sups/proofs/Whole.antt": {"list_at": "list_at_lem"},
    "crates/text_theory/proofs/Alike.antt": {"bound_of": "bound_of_lem"},
    "crates/volume/proofs/VolumeBroken.antt": {"mask_fits": "mask_fits_lem"},
}
CAMEL = re.compile(r"^[a-z][A-Za-z0-9_'·-]*$")


def new_name(name):
    parts = re.split(r"([-·])", name)
    out = parts[0]
    if parts[0][:1].islower():
        out = re.sub(r"(?<=[a-z0-9'])([A-Z][a-z0-9]*)", lambda m: "_" + m.group(1).lower(), parts[0])
    for sep, part in zip(parts[1::2], parts[2::2]):
        if part[:1].islower():
            part = re.sub(r"(?<=[a-z0-9'])([A-Z][a-z0-9]*)", lambda m: "_" + m.group(1).lower(), part)
        behind_type = out[:1].isupper()
        out += ("-" if sep == "·" or behind_type else "_") + part
    return out


def declared(text):
    names = set()
    for line in text.split("\n"):
        for form in (DECL, ALIAS):
            m = form.match(line)
            if m:
                names.add(m.group(1))
    return names


def ours(name):
    return bool(re.match(r"^[A-Za-z]", name)) and bool(re.search(r"[a-z]", name)) and new_name(name) != name


def main():
    shared = set()
    for path in glob.glob("crates/*/specs/*.antt") + glob.glob("crates/*/proofs/*.antt"):
        with open(path, encoding="utf-8") as f:
            shared |= {n for n in declared(f.read()) if ours(n)}
    renamed, clashes = {}, []
    for path in sorted(glob.glob("crates/**/*", recursive=True)):
        if not path.endswith((".antt", ".rt")) or "/out/" in path:
            continue
        with open(path, encoding="utf-8") as f:
            text = f.read()
        local = set()
        if re.search(r"/proofs/.+/[^/]+\.antt$", path):
            for line in text.split("\n"):
                m = DECL.match(line)
                if m and not re.search(r" : (?:\{.*\} → statement|tie\.Need|.*\btie\.Need-\S+$)", line):
                    local.add(m.group(1))
        before = set(TOKEN.findall(text))

        def turn(m):
            word = m.group(0)
            apart = APART_IN.get(path, {}).get(word) or (path.endswith(".antt") and APART.get(word))
            if apart:
                renamed[word] = apart
                return apart
            camel = path.endswith(".antt") and CAMEL.match(word) and re.search(r"[a-z0-9'][A-Z]", word) and "-" not in word
            if not (word in shared or (word in local and ours(word)) or camel):
                return word
            if word.startswith("Need-"):
                return word
            to = new_name(word)
            if to != word:
                renamed[word] = to
            return to

        if path.endswith(".rt"):
            # strings keep their text
            parts = re.split(r'("(?:[^"\\]|\\.)*")', text)
            out = "".join(p if i % 2 else TOKEN.sub(turn, p) for i, p in enumerate(parts))
        else:
            out = TOKEN.sub(turn, text)
        for word in before:
            to = renamed.get(word)
            if to and to in before:
                clashes.append((path, word, to))
        if out != text:
            with open(path, "w", encoding="utf-8") as f:
                f.write(out)
    byto = {}
    for a, b in sorted(renamed.items()):
        byto.setdefault(b, []).append(a)
        print(f"{a} {b}")
    for b, from_ in sorted(byto.items()):
        if len(from_) > 1:
            print(f"together: {' '.join(from_)} are {b}", file=sys.stderr)
    for path, a, b in clashes:
        print(f"clash: {path}: {a} and {b}", file=sys.stderr)


main()
