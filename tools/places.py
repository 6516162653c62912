#!/usr/bin/env python3
"""Counts the places in crates/*/src that newer forms of the language would write more simply; -v prints each as file:line.
1 own Options and Results, numbers for refusals and kinds   2 twins   3 counted loops   4 equality, conversion, copying by hand
5 parameters and clauses that travel together   6 parallel slices, lengths beside   7 matches that call one routine per arm"""
import collections, glob, itertools, os, re, sys

os.chdir(os.path.join(os.path.dirname(os.path.abspath(__file__)), ".."))
FOUND, crates, classes = (collections.defaultdict(list) for _ in range(3))
QUIET = re.compile(r'"(?:\\.|[^"\\])*"|b?\'(?:\\.|[^\'\\])\'|//[^\n]*', re.S)
NAY = re.compile(r"^(No|Bad|Ill|Other|Unknown|Halt|Fault|Refused|Wrong|Stopped)\b")  # a variant that says no
FIELD = r"(\w+::)*[A-Z]\w*(\(([^()]|\([^()]*\))*\))?|!?(\w+::)*\w+|[\w:]+ \{[^{}]*\}"  # what a conversion's arm gives
HAND_ON = re.compile(  # a refusal passed on where `?` would do
    r"if \(?[\w.:(), ]+ != faults::NONE|if (\w+) != 0 \{\s*return \1;"
    r"|let [\w:]+\([^)]*\) = (\w+)[^;]* else \{\s*return (\2|[A-Z]\w*::[A-Z]\w*(\([\w:]+\))?);"
    r"|(No|Wrong|Fault|NoNumber|TooLarge|TooLong)(\(\w+(, n)?\))? => (\{\s*return )?\w+::\5\b")

def blank(m):
    """Strings and comments keep their lines but not their text; a literal stays a constant."""
    return re.sub(r"[^\n]", " ", m[0][:-1]) + ("C" if m[0][-1] in "\"'" and m[0][0] != "/" else " ")

def close(s, i):
    """The place after the bracket that closes the one at i."""
    depth = 0
    for i in range(i, len(s)):
        depth += (s[i] in "([{") - (s[i] in ")]}")
        if depth == 0:
            return i + 1

def place(point, path, s, offset, what):
    FOUND[point].append(f"{path}:{s.count(chr(10), 0, offset) + 1}: {what}")

def split(s):
    cut = [i for i, c in enumerate(s) if c == "," and all(s.count(a, 0, i) == s.count(b, 0, i) for a, b in ("()", "[]", "{}"))]
    return [p for a, b in zip([-1] + cut, cut + [len(s)]) if (p := s[a + 1:b].strip())]

class Fn:
    def __init__(self, path, s, m):
        self.path, self.crate, self.text, self.name, self.start = path, path.split("/")[1], s, m[1], m.start()
        end = close(s, m.end() - 1)
        self.params = [re.sub(r"^mut ", "", " ".join(p.split())) for p in split(s[m.end():end - 1])]
        r = re.compile(r"\s*(?:->\s*((?:\[[^]]*\]|[^{;[])+?))?\s*(?:where\b[^{]*?)?(?=requires|ensures|[{;])").match(s, end)
        self.result, end, self.requires = r[1] or "", r.end(), []
        while c := re.compile(r"\s*(requires|ensures)\s*\w*\s*(?=\{)").match(s, end):
            end = close(s, c.end())
            self.requires += [" ".join(s[c.end() + 1:end - 1].split())] if c[1] == "requires" else []
        self.at = re.compile(r"\s*").match(s, end).end() + 1
        self.body = s[self.at:close(s, self.at - 1) - 1] if s[self.at - 1] == "{" else ""

    def found(self, point, what, offset=None):
        place(point, self.path, self.text, self.start if offset is None else self.at + offset, f"{self.name}: {what}")

    def matches(self):
        """Each match: where it stands and its arms."""
        for m in re.finditer(r"\bmatch [^{};]+ \{", self.body):
            arms, rest = [], self.body[m.end():close(self.body, m.end() - 1) - 1]
            while "=>" in rest:
                pattern, rest = (t.strip() for t in rest.split("=>", 1))
                n = close(rest, 0) if rest[:1] == "{" else len(split(rest + ",")[0])
                arms, rest = arms + [(pattern, rest[:n].strip())], rest[n:].lstrip(" ,\n")
            yield m.start(), arms

    def converts(self):
        return any(len(arms) > 1 and re.fullmatch(r"\s*(let \w+ = [^;{]+;)?\s*", self.body[:at]) and self.body.rstrip().endswith("}")
                   and all(re.fullmatch(FIELD, r) for _, r in arms) for at, arms in self.matches())

    def shape(self):
        """The body with its own names, types and numbers renamed."""
        names = [p.split(":")[0].strip() for p in self.params] + re.findall(r"\blet (?:mut )?(\w+)", self.body)
        new = {n: f"${i}" for i, n in enumerate(dict.fromkeys(names))} | {self.name: "self"}
        words = [new.get(t, t) for t in re.findall(r"\w+|\S", re.sub(r"\b\w+::", "", self.body))]
        return " ".join("T" if re.match(r"[A-Z0-9]|[uif](8|16|32|64|size)$", t) else t for t in words).replace(", )", " )")

def sums(path, s):
    for m in re.finditer(r"\b(enum|struct) (\w+)(?:<[^{;]*>)? \{", s):
        inner = split(s[m.end():close(s, m.end() - 1) - 1]) or [""]
        data, nay, told = [v for v in inner if "(" in v], any(map(NAY.match, inner)), re.match(r"(Is|To|Done)\b", inner[0])
        if m[1] == "struct" and any(re.search(r"\b(number|fault): u8|: bool$", v) for v in inner):
            place(1, path, s, m.start(), f"struct {m[2]}: a number or a flag beside values")
        elif m[1] == "enum" and (data and (nay or len(inner) == 2 and len(data) == 1) or told):
            place(1, path, s, m.start(), f"enum {m[2]}: like Option or Result")
    for m in re.finditer(r"(pub(\(crate\))? const \w+: [ui]\d+ = \d{1,3};\s*){2,}|const NOT_\w+: usize", s):
        place(1, path, s, m.start(), f"constants for kinds or refusals: {' '.join(re.findall('const ([A-Z0-9_]+)', m[0])[:3])} ..")

def refusals(fns):
    numbers = [f for f in fns if f.result in ("u8", "u64", "usize")]
    bad = {f.name for f in numbers if f.result == "u8" and re.search(r"faults::|\.(number|fault)\b", f.body)}
    bad |= {f.name for f in numbers if f.result != "u8" and re.search(r"(return|=>|\{) (NOT_TAKEN|[A-Z]{4,}\b(?= \}|;))", f.body)}
    for _ in range(9):
        last = re.compile(rf"(return |^|;\s*|=> |\}}\s*)(\w+::)*({'|'.join(bad) or '!'})\([^;{{}}]*(;|,|$)")
        bad |= {f.name for f in numbers if last.search(f.body.strip())}
    for f in fns:
        if f in numbers and f.name in bad:
            f.found(1, f"-> {f.result} for a refusal or a kind")
        for m in HAND_ON.finditer(f.body):
            f.found(1, "passes a refusal on by hand", m.start())
        asked = collections.Counter(re.findall(r"\b(\w+(?: % 256)?) == \d+\b", f.body))
        if max(asked.values(), default=0) > 1 or any(sum(p.isdigit() for p, _ in arms) > 1 for _, arms in f.matches()):
            f.found(1, "tells kinds apart by bare numbers")

def one(f):
    for m in re.finditer(r"\b(while [^{]+|loop) \{|for (\w+) in [^{]+ \{", f.body):
        inner = f.body[m.end():close(f.body, m.end() - 1)]
        if m[1] and re.search(r"\b(\w+) ([+-]= 1;|= \1 [+-] 1;)", inner):
            f.found(3, "counts by hand", m.start())
        elif re.search(r"\bat(: | = )(past\(|\w+;|w\.to)" if m[1] else rf"\[{m[2]}\]", inner):
            f.found(3, "walks a text by hand" if m[1] else "a for whose index only reads a slice", m.start())
    if f.converts() or re.match(r"same_|unchanged$|alike$|from_\w+$|dest_of$|imm16|imm40_?|disp(_of)?$|\w+_of_bytes", f.name):
        f.found(4, "equality or conversion by hand")
    elif len(re.findall(r"\b(\w+): \w+\.\1\b", f.body)) > 1:
        f.found(4, "copies fields by hand")
    names = [p.split(":")[0] for p in f.params if ": &" in p and "[" in p]
    pairs = [n for n in names if n.endswith("kinds") and n.replace("kinds", "payloads") in names]
    beside = re.search(r"\b(n[wkps]*|room|slots): (u64|usize), (\w*kinds|nodes|words|d): [&u]|\], [nkp]: usize, (payloads|slot|kind)", ", ".join(f.params))
    if pairs or beside:
        f.found(6, f"{len(pairs)} pair(s) of parallel slices" + (", a length beside" if beside else ""))
    for at, arms in f.matches():
        called = {m[1] for _, r in arms if (m := re.match(r"((?:\w+::)*[a-z]\w*)\(", r))}
        if len(called) >= 3:
            f.found(7, f"{len(called)} routines in {len(arms)} arms", at)

def many(crate, fns):
    sets = [(f, frozenset(f.params)) for f in fns if not f.path.endswith("forms.rt")]
    often = {c for (_, a), (_, b) in itertools.combinations(sets, 2) if len(c := a & b) >= 3 and sum(c <= s for _, s in sets) >= 3}
    for c in sorted((c for c in often if not any(c < d for d in often)), key=sorted):
        users = [f for f, s in sets if c <= s]
        users[0].found(5, f"({', '.join(p for p in users[0].params if p in c)}) in {len(users)} functions of {crate}")
    for c, n in collections.Counter(c for f in fns for c in dict.fromkeys(f.requires)).items():
        if n >= 3:
            next(f for f in fns if c in f.requires).found(5, f"requires {c} in {n} functions of {crate}")

for path in sorted(glob.glob("crates/*/src/**/*.rt", recursive=True)):
    text = QUIET.sub(blank, open(path, encoding="utf-8").read())
    sums(path, text)
    crates[path.split("/")[1]] += [Fn(path, text, m) for m in re.finditer(r"\bfn (\w+)(?:<[^>(]*>)?\(", text)]
refusals(every := [f for fns in crates.values() for f in fns])
for f in every:
    one(f)
    if len(f.shape().split()) >= 16 and not f.converts() and not f.path.endswith("forms.rt"):
        classes[f.shape()].append(f)
for name in crates:
    many(name, crates[name])
for same in classes.values():
    for i, f in enumerate(same[1:], 1):
        here = [g for g in same[:i] if g.crate == f.crate]
        f.found(2 if here else "2x", f"twin of {(here or same)[0].name} in {(here or same)[0].crate}")
for point in range(1, 8):
    print(f"point {point}: {len(FOUND[point])}" + (f" (and {len(FOUND['2x'])} across crates)" if point == 2 else ""))
    for line in (FOUND[point] + FOUND["2x"] * (point == 2)) * ("-v" in sys.argv):
        print("  " + line)
