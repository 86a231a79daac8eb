#!/usr/bin/env python3
"""Turns the proofs of a crate that walk the code (proofs/F/Proof.antt) into Invariants.antt and Answers.antt.

usage: turn_proofs.py CRATE NAMES.json [F ..]      at the top of the repository

NAMES.json is what `rt check --generated DIR --old-names` writes in the crate's folder. It has each goal's and each step's
old and new name. Answers that only said `search rules` go: the check finds them. What the script cannot turn it leaves,
and says so. It goes by text: the check decides.
"""
import glob
import json
import os
import re
import sys

WORD = r"[^\s(){}\[\].,;:\"λ∷]+"


def squash(name):
    return re.sub(r"[-_]", "", re.sub(r"_lem\b", "", name)).lower()


def blocks_of(text):
    """Top-level pieces: a comment, a use line, or a signature with its clauses."""
    out, cur = [], []
    for line in text.split("\n"):
        if line.strip() == "":
            if cur:
                out.append("\n".join(cur))
                cur = []
        else:
            cur.append(line)
    if cur:
        out.append("\n".join(cur))
    # a where clause or a body that goes on after a blank line
    merged = []
    for b in out:
        if merged and b.startswith(" "):
            merged[-1] += "\n\n" + b
        else:
            merged.append(b)
    return merged


def clauses_in_source(top):
    """For each function of the repository, by crate::module::name, the names of its requires and ensures, in order."""
    found = {}
    for path in glob.glob(os.path.join(top, "crates/*/src/**/*.rt"), recursive=True):
        parts = path[len(os.path.join(top, "crates/")):].split("/")
        crate, rest = parts[0], "/".join(parts[2:])[:-3]
        mod = [] if rest in ("lib", "main") else rest.split("/")
        with open(path, encoding="utf-8") as f:
            text = f.read()
        for m in re.finditer(r"\bfn (\w+)", text):
            head, depth, i = "", 0, m.end()
            asks, tells = [], []
            while i < len(text):
                c = re.compile(r"\s+(requires|ensures)\s+(\w+)?\s*\{").match(text, i)
                if c and depth == 0:
                    (asks if c.group(1) == "requires" else tells).append(c.group(2))
                    j, d = c.end(), 1
                    while d:
                        d += {"{": 1, "}": -1}.get(text[j], 0)
                        j += 1
                    i = j
                    continue
                ch = text[i]
                if ch in "([":
                    depth += 1
                elif ch in ")]":
                    depth -= 1
                elif ch in "{;" and depth == 0:
                    break
                i += 1
            found["::".join([crate] + mod + [m.group(1)])] = (asks, tells)
    return found


def by_clause(path, names):
    """The path .1.1.0 into nested pairs, with the clause's name in place of its first steps."""
    if len(names) < 2:
        return path
    steps = re.findall(r"\.(\d+)", path)
    k = 0
    while k < len(names) - 1 and steps and steps[0] == "1":
        steps.pop(0)
        k += 1
    if k < len(names) - 1:
        if not steps:
            return None
        if steps[0] != "0":
            return None
        steps.pop(0)
    return "." + names[k] + "".join("." + s for s in steps)


def split_tuple(text):
    """The parts of `(a, b)` at depth 0, or None."""
    t = text.strip()
    if not (t.startswith("(") and t.endswith(")")):
        return None
    depth, parts, cur = 0, [], ""
    for i, ch in enumerate(t):
        if ch in "([{":
            depth += 1
            if depth == 1:
                continue
        if ch in ")]}":
            depth -= 1
            if depth == 0:
                if i != len(t) - 1:
                    return None
                continue
        if ch == "," and depth == 1:
            parts.append(cur)
            cur = ""
        else:
            cur += ch
    if cur.strip():
        parts.append(cur)
    # a λ or a let takes all that follows it
    out = []
    for p in parts:
        out.append(p.strip())
    return out


def flat(text, n):
    """n parts of the right-nested pairs in text, or None."""
    parts = split_tuple(text)
    if parts is None or len(parts) < 2:
        return None
    if len(parts) == n:
        return parts
    if len(parts) == 2:
        rest = flat(parts[1], n - 1) if n > 2 else [parts[1]]
        return rest and [parts[0]] + rest
    return None


def last_term(body):
    """Splits a body into its lets and its last term."""
    i, depth = 0, 0
    last = 0
    for m in re.finditer(r"[(\[{]|[)\]}]|(?<![^\s(])in(?=\s)", body):
        t = m.group(0)
        if t in "([{":
            depth += 1
        elif t in ")]}":
            depth -= 1
        elif depth == 0:
            last = m.end()
    return body[:last], body[last:]


class Function:
    def __init__(self, names, sources, qualified, said):
        self.names = names
        self.steps = {}
        for _, _, (old, new), callee in [tuple(p[:4]) for p in names["places"]]:
            if old:
                self.steps.setdefault(squash(old), (new, callee))
        self.needs = {squash(o): n for o, n in names["needs"]}
        self.asked = {}
        for o, n in names["needs"]:
            for key in (o, n):
                if key in (names.get("asked") or {}):
                    self.asked[n] = names["asked"][key]
        self.loops = {squash(l[0][0]): (l[0][1], l[1], c) for l, c in zip(names["loops"], names["changed"])}
        self.sources = sources
        self.own = sources.get(qualified, ([], []))
        self.said = said
        self.own_requires = (names.get("pre") or {}).get("fields") or [n for n in self.own[0] if n]

    def clause_names(self, callee, which):
        asks, tells = self.sources.get(callee or "", ([], []))
        got = asks if which == "requires" else tells
        return [n for n in got if n]

    def step(self, m):
        name, rest = m.group(1), m.group(2) or ""
        if name == "pre":
            name = "requires"
        if name == "requires":
            if len(self.own_requires) > 1:
                path = by_clause(rest, self.own_requires)
                if path is None:
                    self.said(f"a part of requires: {m.group(0)}")
                    return "c.requires" + rest
                return "c.requires" + path
            return "c.requires" + rest
        if name == "good":
            name = "well_formed"
        if name in ("args", "ranges", "lifetimes", "type_inv", "utf8", "well_formed"):
            return f"c.{name}{rest}"
        got = self.steps.get(squash(name))
        if not got:
            self.said(f"no step {name}")
            return m.group(0)
        return f"c.{got[0]}{rest}"

    def turn(self, text):
        text = re.sub(r"(?<![\w'-])c\.([A-Za-z][\w'-]*)((?:\.\d+)*)", self.step, text)
        for step, callee in self.steps.values():
            names = self.clause_names(callee, "ensures")
            if len(names) > 1:
                def named(m):
                    path = by_clause(m.group(1), names)
                    if path is None:
                        if m.group(1):
                            self.said(f"a part of ensures: {m.group(0)}")
                        return m.group(0)
                    return f"c.{step}.ensures{path}"
                text = re.sub(r"(?<![\w'-])c\." + re.escape(step) + r"\.ensures((?:\.\d+)*)(?!\w)", named, text)
        for step, callee in self.steps.values():
            params = self.names["params"].get(callee or "") or []

            def after(m):
                steps = m.group(1).split(".")[1:]
                k = 0
                while steps and steps[0] == "1" and k < len(params) - 1:
                    steps.pop(0)
                    k += 1
                if k < len(params) - 1 or (steps and steps[0] == "0" and k < len(params)):
                    if steps and steps[0] == "0":
                        steps.pop(0)
                return f"c.{step}.new.{params[k]}" + "".join("." + t for t in steps) if params else m.group(0)
            text = re.sub(r"(?<![\w'-])c\." + re.escape(step) + r"\.(?:new|last)((?:\.\d+)+)(?!\w)", after, text)
        text = re.sub(r"\(not[-_](?:false|true) (?:_|c\.[\w.+-]+) (c\.[\w.+-]+)\)", r"\1", text)
        text = re.sub(r"not[-_](?:false|true) (?:_|c\.[\w.+-]+) (c\.[\w.+-]+)", r"\1", text)
        text = re.sub(r"(?<=[\w])\.type-inv(?![\w-])", ".type_inv", text)
        text = re.sub(r"(?<=[\w])\.inv(?![\w-])", ".invariant", text)
        text = re.sub(r"(c\.(?:if[\w-]*|[\w-]*-test))\.taken(?![\w-])", r"\1.true", text)
        text = re.sub(r"(c\.(?:if[\w-]*|[\w-]*-test))\.left(?![\w-])", r"\1.false", text)
        text = re.sub(r"(c\.(?:if[\w-]*|[\w-]*-test))\.right(?![\w-])", r"\1.true", text)
        return text


def plain_c(text, var, hops):
    """With every path to a place written as c."""
    text = re.sub(r"\.before(?![\w'-])", "", text)
    if var and var != "c":
        text = re.sub(r"(?<![\w'.-])" + re.escape(var) + r"(?![\w'-])", "c", text)
    while True:
        old = text
        for h in hops:
            text = re.sub(r"(?<![\w'.-])" + re.escape(h) + r"\s+c(?![\w'.-])", "c", text)
            text = re.sub(r"(?<![\w'.-])" + re.escape(h) + r"\s+\(c\)", "c", text)
        text = re.sub(r"\(c\)", "c", text)
        m = re.search(r"let (" + WORD + r")(?: : [^=]*)? = c in\s*", text)
        if m:
            name = m.group(1)
            text = text[:m.start()] + text[m.end():]
            if name != "c":
                text = re.sub(r"(?<![\w'.-])" + re.escape(name) + r"(?![\w'-])", "c", text)
        if text == old:
            return text


def inline_parts(text, fn):
    """With each let that names a part of several clauses written out where it is used."""
    while True:
        done = True
        for m in re.finditer(r"let (" + WORD + r") = (c\.[A-Za-z][\w'-]*(?:\.[A-Za-z][\w'-]*)*?(?:\.\d+)*) in\s*", text):
            path = m.group(2)
            k = re.match(r"c\.(pre|requires)((?:\.\d+)*)$", path)
            several = False
            if k:
                several = len(fn.own_requires) > 1 and (not k.group(2) or by_clause(k.group(2), fn.own_requires) is None)
            k = re.match(r"c\.([\w'-]+)\.ensures((?:\.\d+)*)$", path)
            if k:
                got = fn.steps.get(squash(k.group(1)))
                names = fn.clause_names(got[1], "ensures") if got else []
                several = len(names) > 1 and (not k.group(2) or by_clause(k.group(2), names) is None)
            if several:
                name = m.group(1)
                text = text[:m.start()] + re.sub(r"(?<![\w'.-])" + re.escape(name) + r"(?![\w'-])", path, text[m.end():])
                done = False
                break
        if done:
            return text


def main():
    crate = sys.argv[1]
    top = os.getcwd()
    listed = sys.argv[2]
    only = sys.argv[3:]
    with open(listed, encoding="utf-8") as f:
        names = json.load(f)
    sources = clauses_in_source(top)
    base = os.path.join(top, "crates", crate, "proofs")
    for path in sorted(glob.glob(base + "/**/Proof.antt", recursive=True)):
        rel = os.path.dirname(path)[len(base) + 1:]
        if only and rel not in only:
            continue
        key = f"Rattle-{crate}-proofs.{rel.replace('/', '.')}.Lts"
        if key not in names:
            print(f"{rel}: not in the list")
            continue
        said = []
        fn = Function(names[key], sources, "::".join([crate] + rel.split("/")), said.append)
        with open(path, encoding="utf-8") as f:
            text = f.read()
        if turn_file(path, rel, crate, text, fn, said):
            os.remove(path)
        for s in said:
            print(f"{rel}: {s}")


SIG = re.compile(r"(?s)^((?:--[^\n]*\n)*)((?:abbrev |unfoldable |pub )*)(" + WORD + r") : (.*)$")


def parse(block):
    """comment, marks, name, type, unfolding, clauses."""
    m = SIG.match(block)
    if not m:
        return None
    comment, marks, name, rest = m.groups()
    lines = rest.split("\n")
    sig, i = [lines[0]], 1
    while i < len(lines) and lines[i].startswith(" "):
        sig.append(lines[i])
        i += 1
    unfolding = ""
    if i < len(lines) and lines[i].startswith("unfolding"):
        unfolding = lines[i]
        i += 1
        while i < len(lines) and lines[i].startswith(" "):
            unfolding += " " + lines[i].strip()
            i += 1
    return comment, marks, name, "\n".join(sig), unfolding, "\n".join(lines[i:])


def turn_file(path, rel, crate, text, fn, said):
    # another name for a place
    for m in list(re.finditer(r"(?m)^abbrev (" + WORD + r") : Type 0\n\1 = (tie\.[^\n]*)\n", text)):
        text = text.replace(m.group(0), "")
        text = re.sub(r"(?<![\w'.-])" + re.escape(m.group(1)) + r"(?![\w'-])", m.group(2), text)
    blocks = blocks_of(text)
    uses, comments, hops, helpers, answers, invariants, others = [], [], [], {}, [], [], []
    head = None
    for b in blocks:
        if head is None and b.startswith("--"):
            lines = b.split("\n")
            head = "\n".join(l for l in lines if l.startswith("--"))
            b = "\n".join(l for l in lines if not l.startswith("--"))
            if not b.strip():
                continue
        if b.startswith("use "):
            uses += b.split("\n")
            continue
        p = parse(b)
        if not p:
            if not b.startswith("--"):
                said.append(f"not read: {b[:60]!r}")
            continue
        comment, marks, name, sig, unfolding, body = p
        flat_sig = re.sub(r"\s+", " ", sig)
        if re.search(r"→ statement M|: statement|^statement", flat_sig) and name.endswith(("spec", "spec_lem")):
            continue
        m = re.match(r"tie\.(invariant|decreases)[_-](\S*)$", flat_sig)
        if m:
            invariants.append((comment, m.group(1), m.group(2) or "loop", name, body))
            continue
        m = re.match(r"tie\.Need-(\S+)(?: .*)?$", flat_sig)
        if m:
            answers.append((comment, m.group(1), name, unfolding, body))
            continue
        m = re.match(r"tie\.[A-Z]\S*(?: [^→]*)? → tie\.[A-Z]\S*(?: [^→]*)?$", flat_sig)
        if m:
            hops.append(name)
            continue
        m = re.match(r"(?s)(?:\((\S+) : tie\.[A-Z][^()]*\)|tie\.[A-Z]\S*(?: (?:invariant|decreases)\S*)*)\s+(?:→\s+)?(.*)$", sig)
        if m:
            helpers[name] = [m.group(1), m.group(2), unfolding, body, comment]
            continue
        if "tie." in b:
            said.append(f"kept as it is: {name}")
        others.append(b)

    # helpers of a place: lets at the head of each answer that uses them
    lets = {}
    for name, (var, typ, unfolding, body, comment) in helpers.items():
        m = re.match(r"(?s)^(" + WORD + r")\s+(" + WORD + r"|\([^)]*\))((?:\s+(?:" + WORD + r"|\{[^}]*\}|\([^)]*\)))*?)\s*=\s*(.*)$", body)
        if not m or re.search(r"(?m)^" + re.escape(name) + r"\s", body[len(name):]):
            said.append(f"a helper by cases: {name}")
            others.append(body)
            continue
        args = m.group(3).split()
        term = plain_c(m.group(4), m.group(2), hops)
        if re.search(r"(?m)^\s*where$", term):
            said.append(f"a helper with a where: {name}")
        if args:
            term = "λ " + " ".join(args) + ". " + term
        lets[name] = (plain_c(typ, var, hops), unfolding, inline_parts(term, fn))

    def closed(term):
        """With each helper of c by its name alone, and the helpers that it needs."""
        need = []
        for name in lets:
            if re.search(r"(?<![\w'.-])" + re.escape(name) + r"\s+c(?![\w'.-])", term):
                need.append(name)
        for name in need:
            term = re.sub(r"\(" + re.escape(name) + r"\s+c\)", name, term)
            term = re.sub(r"(?<![\w'.-])" + re.escape(name) + r"\s+c(?![\w'.-])", name, term)
        return term, need

    def head_of(term):
        order = []

        def visit(name):
            if name in order:
                return
            typ, unf, body = lets[name]
            for part in (typ, body):
                for n in closed(part)[1]:
                    if n != name:
                        visit(n)
            order.append(name)

        term, need = closed(term)
        for n in need:
            visit(n)
        out, unfold = "", []
        for n in order:
            typ, unf, body = lets[n]
            typ, body = closed(typ)[0], closed(body)[0]
            out += f"    let {n} : {fn.turn(typ)} = {fn.turn(body)} in\n"
            unfold += unf.replace("unfolding", "").split()
        return out, unfold, term

    inv_text = ""
    for comment, kind, loop, name, body in invariants:
        m = re.match(r"(?s)^" + re.escape(name) + r"\s*(.*?)\s*=\s(.*)$", body)
        got = fn.loops.get(squash(loop))
        if not m or not got:
            said.append(f"{kind} of {loop}: not turned")
            others.append(body)
            continue
        new, variables, changed = got
        params = m.group(1).split()
        term = m.group(2)
        places = [(f"l.initial.{v}" if ch else f"l.{v}") for v, ch in zip(variables, changed)]
        places += [f"l.{v}" for v, ch in zip(variables, changed) if ch]
        if len(params) != len(places):
            said.append(f"{kind} of {loop}: {len(params)} parameters for {len(places)} values: {' '.join(params)} / {' '.join(places)}")
        for par, to in zip(params, places):
            if par == "_":
                continue
            term = re.sub(r"(?<![\w'.₀-])" + re.escape(par) + r"(?![\w'₀-])", "\0" + to, term)
        term = term.replace("\0", "")
        inv_text += f"{comment}abbrev pub {kind}-{new} : goal.{kind}-{new}\n{kind}-{new} l = {term.strip()}\n\n"

    others_by_name = {}
    for comment, old, name, unfolding, body in answers:
        m = re.match(r"(?s)^(" + WORD + r")\s*(.*?)\s*=\s(.*)$", body)
        if m:
            args, term = m.group(2).split(), m.group(3).strip()
            others_by_name[name] = "omega arith" if term == "search rules" else plain_c(term, args[0] if args else None, hops)
    ans_text = ""
    for comment, old, name, unfolding, body in answers:
        new = None
        for cand in (old, name, re.sub(r"^overflow-", "", old), re.sub(r"^nonzero-", "", old)):
            new = new or fn.needs.get(squash(cand))
        m = re.match(r"(?s)^(" + WORD + r")\s*(.*?)\s*=\s(.*)$", body)
        if not m:
            said.append(f"answer {name}: not read")
            continue
        args, term = m.group(2).split(), m.group(3).strip()
        if term == "search rules" and not unfolding:
            continue
        if new is None:
            said.append(f"no goal for {old}")
            new = "GONE-" + old
        var = args[0] if args else None
        term = plain_c(term, var, hops)
        for oname, obody in others_by_name.items():
            if oname == name:
                continue
            term = re.sub(r"\(" + re.escape(oname) + r"\s+c(?:\s+[κ_]\w*)?\)|(?<![\w'.-])" + re.escape(oname) + r"\s+c(?:\s+[κ_]\w*)?(?![\w'.-])", lambda m: "(" + obody + ")", term)
        term = inline_parts(term, fn)
        heads, unfold, term = head_of(term)
        term = fn.turn(term)
        if "enum_told" in term or "enum-told" in term:
            heads, term = "", "search rules"
        # parts of several clauses
        names = []
        if new in fn.asked:
            names = fn.asked[new]
        elif new.startswith("returns"):
            names = [n for n in fn.own[1] if n]
        if len(names) > 1:
            before, last = last_term(term)
            wrapped = re.match(r"(?s)\s*(rw .*?) (\(.*\))\s*$", last)
            parts = flat(last, len(names))
            if not parts and wrapped:
                for k in range(len(last)):
                    if last[k] == "(" and flat(last[k:].strip(), len(names)):
                        before, parts = before + " " + last[:k].strip(), flat(last[k:].strip(), len(names))
                        before += " " if parts else ""
                        break
            if parts:
                term = before + (" " if before else "") + "record {\n" + "".join(
                    f"        {n} = {p};\n" for n, p in zip(names, parts)) + "    }"
            elif last.strip() != "search rules":
                said.append(f"{new}: not split into {', '.join(names)}")
        words = unfolding.replace("unfolding", "").split()
        for u in unfold:
            if u not in words:
                words.append(u)
        line = f"unfolding {' '.join(words)}\n" if words else ""
        if heads or "\n" in term or len(term) > 90:
            eq = "=\n" + heads + "    " + term.lstrip()
        else:
            eq = "= " + term
        rest_args = [a for a in args[1:] if a != "κs" and not a.startswith("κ")]
        ans_text += f"{comment}pub {new} : goal.{new}\n{line}{new} {' '.join(['c'] + rest_args)} {eq}\n\n"

    folder = os.path.dirname(path)
    mod = rel.replace("/", ".")
    gone = re.compile(r"\.(Statement|Tie|Code)(\.| as |$)")

    def used(lines, body):
        out = []
        for line in lines:
            if gone.search(line):
                continue
            m = re.match(r"use (\S+)\.\{(.*)\}$", line)
            if m:
                keep = []
                for n in [x.strip() for x in m.group(2).split(",")]:
                    word = n.split(" as ")[-1].strip()
                    core = word.replace("◌", "")
                    if (core if "◌" in word else word) in body:
                        keep.append(n)
                if keep:
                    out.append(f"use {m.group(1)}.{{{', '.join(keep)}}}")
            else:
                a = re.match(r"use \S+ as (\S+)$", line)
                if not a or a.group(1) + "." in body:
                    out.append(line)
        return out

    if inv_text:
        with open(os.path.join(folder, "Invariants.antt"), "w", encoding="utf-8") as f:
            lines = used(uses, inv_text) + [f"use Rattle.{crate}.proofs.{mod}.Given as goal"]
            f.write((head + "\n" if head else "") + "\n".join(lines) + "\n\n" + inv_text.rstrip() + "\n")
    rest = "\n\n".join(others)
    if ans_text or rest:
        if ans_text:
            body = rest + ("\n\n" if rest else "") + ans_text
            with open(os.path.join(folder, "Answers.antt"), "w", encoding="utf-8") as f:
                lines = used(uses, body) + [f"use Rattle.{crate}.proofs.{mod}.Goals as goal"]
                f.write(("" if inv_text or not head else head + "\n") + "\n".join(lines) + "\n\n" + body.rstrip() + "\n")
    return True


main()
