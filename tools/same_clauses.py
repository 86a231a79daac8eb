#!/usr/bin/env python3
"""Whether the archive for C says what the promises speak of: each function of crates/flumedrac is exported by
crates/flumedrac_c under its name, with the same parameters, answer and clauses, and calls that function with them.
Prints what differs, and ends with 1 if anything does.
"""
import os
import re
import sys

TOP = os.path.join(os.path.dirname(os.path.abspath(__file__)), "..", "crates")


def read(crate):
    with open(os.path.join(TOP, crate, "src", "lib.rt"), encoding="utf-8") as f:
        return f.read()


def functions(text, begins):
    """For each function its name, what stands from its parameters to its body, and its body, with white space and commas folded."""
    found = {}
    for m in re.finditer(begins + r"(\w+)\((.*?)\n\{\n(.*?)\n\}\n", text, re.DOTALL):
        found[m.group(1)] = (re.sub(r"[\s,]+", " ", m.group(2)).strip().replace(" )", ")"), m.group(3))
    return found


def ghosts(text):
    return sorted(re.findall(r"^ghost use .*?;$", text, re.MULTILINE))


def main():
    library, archive = read("flumedrac"), read("flumedrac_c")
    promised = functions(library, r"\npub fn ")
    exported = functions(archive, r'\n#\[unsafe\(no_mangle\)\]\npub extern "C" fn ')
    said = []
    if len(re.findall(r"\bfn ", library)) != len(promised) or len(re.findall(r"\bfn ", archive)) != len(exported):
        said.append("a function is written in a form that is not read here")
    for name in sorted(set(promised) ^ set(exported)):
        said.append(f"{name} stands in one of the two crates only")
    for name in sorted(set(promised) & set(exported)):
        if promised[name][0] != exported[name][0]:
            said.append(f"{name} says something else in flumedrac_c")
        if not re.match(r"\s*flumedrac::" + name + r"\(", exported[name][1]):
            said.append(f"{name} of flumedrac_c does not call the function of its name")
    if ghosts(library) != ghosts(archive):
        said.append("the two crates cite different definitions")
    for line in said:
        print("flumedrac_c: " + line)
    if not promised:
        print("flumedrac_c: nothing was read")
        return 1
    return 1 if said else 0


sys.exit(main())
