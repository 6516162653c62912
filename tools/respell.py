#!/usr/bin/env python3
"""Spells the repository's own definitions and lemmas as today's Rattle does, after its port.py has run.

usage: respell.py            at the top of the repository, once

- a name that begins small is in snake case: evalOf is eval_of. A dash still joins the parts of a lemma's name, and types and modules keep their capitals;
- a lemma or field that a definition would then meet gets another name (CLASH);
- an enum or struct of plain values, to which port.py gave #[derive(Drop)], may be copied, as every such value could be before;
- the proof of a function f is f_spec;
- the root file of each crate asks for the check's tactics.
It goes by text, in crates/*/src, specs and proofs. Strings stay as they are.
"""

import glob
import os
import re
import sys

# names that would fall together: (a file's beginning, the name as port.py leaves it, the name it gets)
CLASH = [
    ("crates/fast/proofs/pairs/NumberLaws.antt", "as_floats", "as_floats_lem"),
    ("crates/ops/proofs/Closed.antt", "as_floats", "as_floats_lem"),
    ("crates/ops/proofs/arith/", "as_floats", "as_floats_lem"),
    ("crates/decode/proofs/patch/", "branch_by", "branch_by_lem"),
    ("crates/claim/proofs/fragments/", "imm_of", "imm_of_lem"),
    ("crates/float/proofs/order/Orders.antt", "is_greater", "is-greater"),
    ("crates/float/proofs/standing/Laws.antt", "stands_by", "stands_by_lem"),
    # a definition beside a record's field of that name
    ("crates/", "tempBase", "temp_base_of"),
]
# definitions with a dash
DASHED = {
    "in-kinds": "in_kinds",
    "in-payloads": "in_payloads",
    "as-kinds": "as_kinds",
    "as-payloads": "as_payloads",
    "or-else": "or_else",
    "on-lower": "on_lower",
    "below-upper": "below_upper",
    "on-upper": "on_upper",
}
STRING = re.compile(r'("(?:[^"\\\n]|\\.)*")')
WORD = re.compile(r"(?<![\w'ℤℕ])[a-z][A-Za-z0-9ℤℕ']*[A-Z][A-Za-z0-9ℤℕ'_]*")
BEHIND = r"(?<![\w'-])"
AHEAD = r"(?![\w'-])"


def snake(m):
    return re.sub(r"(?<=[a-z0-9])[A-Z]+(?=[A-Z][a-z])|(?<=[a-z0-9])[A-Z]", lambda x: "_" + x.group(0).lower(), m.group(0))


def respell(path, text):
    def part(t):
        for head, old, new in CLASH:
            if path.startswith(head):
                t = re.sub(BEHIND + re.escape(old) + AHEAD, new, t)
        for old, new in DASHED.items():
            t = re.sub(BEHIND + re.escape(old) + AHEAD, new, t)
        t = WORD.sub(snake, t)
        return re.sub(r"(?<=\w)-spec(?![\w'-])", "_spec", t) if path.endswith("/Proof.antt") else t

    return "".join(p if p.startswith('"') else part(p) for p in STRING.split(text))


ITEM = re.compile(r"#\[derive\(Drop\)\]\n((?:#\[[^\n]*\]\n)*)((?:pub(?:\([a-z]+\))? )?(?:enum|struct) (\w+)([^{;]*)(?:\{(.*?)\n\}|\(([^\n]*)\);|;))", re.S)
PLAIN = {"u8", "u16", "u32", "u64", "u128", "usize", "i8", "i16", "i32", "i64", "isize", "bool", "f32", "f64", "char"}


def items(texts):
    found = {}
    for path, text in texts.items():
        for m in ITEM.finditer(text):
            body = (m.group(5) or "") + (m.group(6) or "")
            body = re.sub(r"//[^\n]*|ghost [^\n]*", "", body)
            types = re.findall(r"[:(,]\s*(?:pub )?([&\w:<>\[\]; ']+)", " " + body)
            found[(path, m.group(3))] = ("<" in m.group(4), types, body)
    return found


def plain(found):
    """The names of the types whose fields are all plain or of such types; a name that two crates have must be plain in both."""
    names = {n for _, n in found}
    bad = set()
    while True:
        more = set()
        for (path, n), (generic, types, body) in found.items():
            if n in bad:
                continue
            if generic or "&" in body or "Vec" in body or "String" in body or "Box" in body:
                more.add(n)
                continue
            for t in types:
                last = t.strip().split("::")[-1].strip()
                last = re.sub(r"^\[(\w+); .*\]$", r"\1", last)
                if last in bad or (last not in PLAIN and last not in names and re.match(r"[A-Z]\w*$", last) and last not in HEADS[path, n]):
                    more.add(n)
        if not more:
            return names - bad
        bad |= more


HEADS = {}


def main():
    if not os.path.isdir("crates"):
        sys.exit("respell: run it at the top of the repository")
    texts = {}
    for path in sorted(glob.glob("crates/*/s*/**/*", recursive=True) + glob.glob("crates/*/proofs/**/*", recursive=True)):
        if path.endswith((".rt", ".antt")) and os.path.isfile(path):
            with open(path, encoding="utf-8") as f:
                texts[path] = f.read()
    new = {p: respell(p, t) for p, t in texts.items()}
    sources = {p: t for p, t in new.items() if p.endswith(".rt")}
    found = items(sources)
    for (p, n), (_, _, body) in found.items():
        HEADS[p, n] = set(re.findall(r"^\s*(\w+)\s*[({,]", body, re.M))
    copied = plain(found)
    for p, t in sources.items():
        t = ITEM.sub(lambda m: m.group(0).replace("#[derive(Drop)]", "#[derive(Clone, Copy)]", 1) if m.group(3) in copied else m.group(0), t)
        if p.endswith(("/src/lib.rt", "/src/main.rt")) and "#![tactic(auto)]" not in t:
            head = re.match(r"(?:(?://[^\n]*)?\n)*", t).group(0)
            t = head.rstrip("\n") + ("\n" if head.strip() else "") + "#![tactic(auto)]\n\n" + t[len(head):].lstrip("\n")
        new[p] = t
    for p in sorted(set(n for _, n in found) - copied):
        print("not copied:", p)
    count = 0
    for p, t in new.items():
        if t != texts[p]:
            count += 1
            with open(p, "w", encoding="utf-8") as f:
                f.write(t)
    print(f"respell: {count} files changed")


main()
