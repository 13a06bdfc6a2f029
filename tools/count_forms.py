#!/usr/bin/env python3
"""Lists the places in src/ where an older form of code may stand, one line each, under the eight headings of docs/DESIGN-PASS.md.

usage: tools/count_forms.py [FOLDER]     FOLDER is a checkout (default: this one)

What it lists is to be read: a line here is a candidate, and the page says which of them are places."""
import difflib, itertools, os, re, sys

root = sys.argv[1] if len(sys.argv) > 1 else os.path.join(os.path.dirname(os.path.abspath(__file__)), "..")


def sources():
    for folder, _, names in os.walk(os.path.join(root, "crates")):
        if "/src" not in folder + "/" or "/out/" in folder + "/" or "/target/" in folder + "/":
            continue
        for name in sorted(names):
            if name.endswith(".rt"):
                path = os.path.join(folder, name)
                yield os.path.relpath(path, os.path.join(root, "crates")), open(path, encoding="utf-8").read().split("\n")


FILES = dict(sorted(sources()))


def show(title, rows):
    print(f"## {title}: {len(rows)}")
    for row in rows:
        print("  " + row)


def grep(pattern, skip=None):
    rows = []
    for path, lines in FILES.items():
        for i, line in enumerate(lines):
            code = line.split("//")[0]
            if "ghost use" in code or re.match(r"\s*use ", code):
                continue
            if re.search(pattern, code) and not (skip and re.search(skip, code)):
                rows.append(f"{path}:{i + 1}: {line.strip()[:150]}")
    return rows


def listed(*patterns):
    for title, pattern in patterns:
        show(title, grep(pattern))


class Fn:
    def __init__(self, path, line, name, params, clauses, body):
        self.path, self.line, self.name, self.params, self.clauses, self.body = path, line, name, params, clauses, body

    def where(self):
        return f"{self.path}:{self.line} {self.name}"


def functions():
    out = []
    for path, lines in FILES.items():
        owner = ""
        for i, line in enumerate(lines):
            m = re.match(r"(\s*)(?:pub(?:\(crate\))? )?(?:const )?fn (\w+)(.*)", line)
            if re.match(r"(pub )?(impl|trait)\b", line):
                owner = line.strip(" {")
            if not m:
                continue
            indent, head, j = m.group(1), m.group(3), i
            while j < len(lines) and not re.match(re.escape(indent) + r"[{}]", lines[j]) and not lines[j].rstrip().endswith(("{", "{}", ";")):
                j += 1
            if j >= len(lines):
                continue
            declared = lines[j].rstrip().endswith(";")
            text = lines[i:j]
            clauses = [t.strip() for t in text if re.match(r"\s*(requires|ensures)", t)]
            signature = " ".join(t.strip() for t in lines[i:j + 1] if not re.match(r"\s*(requires|ensures|\(λ|×)", t))
            inner = re.search(r"\((.*?)\)\s*(->|where|\{|;|$)", signature.replace("&'a ", "&"))
            params = []
            if inner:
                for p in re.split(r",\s*(?![^<(\[]*[>)\]])", inner.group(1)):
                    p = p.strip()
                    if ":" in p:
                        params.append(re.sub(r"\s+", " ", p))
            k = j
            while k < len(lines) and not re.match(re.escape(indent) + r"\}", lines[k]) and not (k == j and lines[k].rstrip().endswith("{}")):
                k += 1
            body = "" if declared else " ".join(lines[j:k + 1])
            out.append(Fn(path, i + 1, m.group(2), params, clauses, body))
    return out


FNS = functions()
TOKEN = re.compile(r"\w+|[^\s\w]")

print("# 1. Own Option, Result, flags with a value, numbers for kinds or refusals")
listed(
    ("enums", r"\benum \w+"),
    ("numbers for refusals or kinds", r"-> u8\b|Refused\(u8\)|\.number\(\)|Empty\(0\)|Empty\(u32\)"),
    ("functions that always say yes", r"result ≡ true\) ×"),
    ("flags in fields and variants", r"(^\s*(pub(\(crate\))? )?\w+: bool,)|\w+\(.*\bbool\)?,"),
)

print("# 2. Twins: functions whose bodies have 20 tokens or more and are nearly the same")
group = {}
fns = [(i, f, TOKEN.findall(f.body)) for i, f in enumerate(FNS)]
for (i, f, a), (j, g, b) in itertools.combinations(fns, 2):
    if min(len(a), len(b)) < 20 or abs(len(a) - len(b)) > 0.3 * max(len(a), len(b)):
        continue
    s = difflib.SequenceMatcher(None, a, b, autojunk=False)
    if s.real_quick_ratio() > 0.85 and s.quick_ratio() > 0.85 and s.ratio() > 0.85:
        one = group.setdefault(i, [i])
        other = group.setdefault(j, [j])
        if one is not other:
            one.extend(other)
            for k in other:
                group[k] = one
groups = {id(v): v for v in group.values()}.values()
show("groups", [", ".join(FNS[k].where() for k in sorted(v)) for v in groups])
listed(
    ("structs and enums", r"^\s*(pub(\(crate\))? )?(struct|enum) \w+"),
)

print("# 3. Loops")
show("loops", grep(r"^\s*(\w+ = )?('\w+: )?(for .* in |while |loop\b)", skip=r"impl|for \w+ \{"))

print("# 4. Equality, order, copying, conversion, printing by hand")
listed(
    ("comparisons joined by &&", r"==.*&&.*==|^\s*&& .*==|\.is\("),
    ("functions named as conversions", r"fn (as|to|from|into|of|in|with)_\w+\(|fn \w+_(of|at|in)\b|fn (request|number|words|refused)\b"),
    ("impls of conversions and printing", r"impl.*\b(From|TryFrom|Into|FromStr|Display|PartialEq|Ord|Clone)\b.* for "),
    ("functions that give fixed words", r"-> &'static str"),
)

print("# 5. Facts in three contracts or more, parameters that travel together")
facts = {}
for f in FNS:
    for c in f.clauses:
        if c.startswith("requires"):
            key = re.sub(r"^requires( \w+)? ", "", c)
            facts.setdefault(key, []).append(f)
show("requires in three functions or more", [f"{len(v)} x {k}: {', '.join(x.name for x in v)}" for k, v in facts.items() if len(v) > 2])
together = {}
for f in FNS:
    for n in (2, 3):
        for combo in itertools.combinations(sorted(f.params), n):
            together.setdefault(combo, []).append(f)
rows = [f"{len(v)} x ({', '.join(k)}): {', '.join(sorted(set(x.name for x in v)))[:160]}" for k, v in together.items() if len(v) > 2]
show("parameters together in three functions or more", sorted(rows, key=lambda r: -int(r.split()[0])))

print("# 6. Buffers with a length, parallel arrays, searched lists")
listed(
    ("arrays and counts", r"\[\w+; \w+\]|\bcount: usize"),
    ("lists searched", r"\.position\(|\.rposition\(|\.find\(|fn (find|position)\b"),
)

print("# 7. Switches on a step, tables of functions")
listed(
    ("matches on a chosen way", r"match \w*(placing|kind|command|call|desk|state)\b"),
    ("function pointers and dyn", r"\bfn\(|dyn "),
)
