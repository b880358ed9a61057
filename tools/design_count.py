#!/usr/bin/env python3
"""Lists the lines of crates/*/src that each point of docs/DESIGN-PASS.md looks at: `tools/design_count.py [POINT]`."""
import collections
import glob
import re
import sys

FILES = sorted(glob.glob("crates/*/src/**/*.rt", recursive=True))
TEXTS = {f: open(f, encoding="utf-8").read().split("\n") for f in FILES}
SIGNATURE = re.compile(r"\bfn ([a-z_0-9]+)(?:<[^(]*>)?\(")


def matching(pattern):
    found = re.compile(pattern)
    return [f"{f}:{i + 1}: {line.strip()}" for f, lines in TEXTS.items() for i, line in enumerate(lines)
            if found.search(line) and not line.strip().startswith("//")]


def functions():
    """Each function: its file, name, parameters and clauses."""
    for f, lines in TEXTS.items():
        i = 0
        while i < len(lines):
            m = SIGNATURE.search(lines[i])
            if not m or lines[i].strip().startswith("//"):
                i += 1
                continue
            head, clauses, j = lines[i], [], i
            while j + 1 < len(lines) and "{" not in re.sub(r"\{.*\}", "", lines[j]).split("//")[0] and not lines[j].rstrip().endswith(";"):
                j += 1
                if re.match(r"\s*(requires|ensures)", lines[j]):
                    clauses.append(lines[j].strip())
                elif not clauses:
                    head += " " + lines[j].strip()
            inside = head[head.index("fn "):]
            inside = inside[inside.index("(") + 1:]
            params = re.findall(r"(?:mut )?([a-z_]+): ([^,()]+|\([^)]*\))(?=[,)])", inside.split(") ->")[0] + ")")
            yield f, m.group(1), [(n, t.strip()) for n, t in params], clauses
            i = j + 1


def enums():
    return matching(r"^\s*(pub(\([a-z]+\))? )?enum ")


def flags():
    return matching(r"^\s+(pub(\([a-z]+\))? )?[a-z_]+: (bool|Option<.*>),$") + matching(r"&mut (bool|Option<)")


def numbers():
    return matching(r"fn (number|[a-z]+_number)\b") + matching(r"\b(header|kind): u8")


def twins():
    names = collections.defaultdict(list)
    for f, name, params, clauses in functions():
        names[name].append(f"{f}: {name}")
    consts = collections.defaultdict(list)
    for line in matching(r"^\s*(pub(\([a-z]+\))? )?const [A-Z_]+: [a-z0-9]+ = [^;]*;"):
        consts[re.sub(r".*= (.*);", r"\1", line).replace("_", "")].append(line)
    out = ["; ".join(w) for n, w in sorted(names.items()) if len(w) > 1 and n != "main"]
    return out + ["; ".join(w) for v, w in sorted(consts.items()) if len(w) > 1]


def loops():
    return matching(r"^\s*('[a-z]+: )?(for .* in .*\.\.[^.]|while |loop )") + matching(r"\.enumerate\(\)") \
        + matching(r"^\s+[a-z_.]+ \+= 1;$")


def items():
    return matching(r"^\s*('[a-z]+: )?for (?!.*\.\.[^.])")


def conversions():
    return matching(r"fn (is_same|is|is_[a-z]+|dot_inks)\(.*-> bool") + matching(r"fn [a-z_]*(_of|_in|_byte|_as|of|mark|number)\(") \
        + matching(r" as (u8|u16|i16)\b") + matching(r"b'0' \+|48 \+|87 \+|- b'0'|% 10|/ 256|\* 256")


def errors():
    return matching(r"Err\(\w+\) => Err\(|Err\(_\) => Err\(|return Err\(\w+::\w+\(\w+\)\)|Err\(failure\) =>|Err\(refusal\) =>")


def repeated():
    facts, pairs = collections.defaultdict(list), collections.defaultdict(list)
    for f, name, params, clauses in functions():
        for c in clauses:
            body = re.sub(r"^(requires|ensures)\*?\s*([a-z_]+)?\s*\{", r"\1 {", c)
            body = re.sub(r"\b(sheet|self|buffer|out|reader|slip|writer)\b", "it", body)
            facts[body].append(f"{f}: {name}")
        for i, a in enumerate(params):
            for b in params[i + 1:]:
                pairs[(a, b)].append(f"{f}: {name}")
    out = [f"{len(w)} times {c}" for c, w in sorted(facts.items(), key=lambda x: -len(x[1])) if len(w) > 2]
    out += [f"{len(w)} times ({a[0]}: {a[1]}, {b[0]}: {b[1]})" for (a, b), w in sorted(pairs.items(), key=lambda x: -len(x[1])) if len(w) > 2]
    return out


def buffers():
    return matching(r"\[[A-Za-z0-9]+; *[0-9A-Z_]+\]") + matching(r"^\s+(pub(\([a-z]+\))? )?(len|used|count|size): usize,$")


def switches():
    return matching(r"^\s*(return )?match ") + matching(r": (fn|&dyn|Box<dyn)") + matching(r"(is_[a-z_]+|has_[a-z_]+): bool")


def proofs():
    files = glob.glob("crates/*/proofs/**/*.antt", recursive=True)
    return [f"{f}: {len(open(f, encoding='utf-8').readlines())}" for f in sorted(files)]


POINTS = {"1": [enums, flags, numbers], "2": [twins], "3": [loops, items], "4": [conversions, errors], "5": [repeated], "6": [buffers], "7": [switches], "8": [proofs]}

for point in sys.argv[1:] or POINTS:
    for part in POINTS[point]:
        lines = part()
        print(f"point {point}, {part.__name__}: {len(lines)}")
        print("".join(f"  {line}\n" for line in lines) if len(sys.argv) > 1 else "", end="")
