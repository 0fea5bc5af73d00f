#!/usr/bin/env python3
"""Lists the places in src/ of which docs/DESIGN-PASS.md speaks, by its points, and counts them: places.py [CRATES_FOLDER] [POINT]."""
import re
import sys
from collections import defaultdict
from pathlib import Path

CRATES = Path(sys.argv[1] if len(sys.argv) > 1 else "crates")
ONLY = sys.argv[2] if len(sys.argv) > 2 else None
FILES = sorted(CRATES.glob("*/src/**/*.rt"))
TEXT = {path: path.read_text() for path in FILES}


def name(path):
    return f"{path.relative_to(CRATES).parts[0]}/{path.name}"


def functions(text):
    """Each function's name, head with clauses, and body."""
    for found in re.finditer(r"^(?: {4})?(?:pub )?(?:extern \"C\" )?fn (\w+)", text, re.M):
        body = text.find("\n{\n", found.start())
        inner = text.find("\n    {\n", found.start())
        if body < 0 or (0 <= inner < body and found.group(0).startswith("    ")):
            body = inner
        end = text.find("\n}\n", body)
        yield found.group(1), text[found.start():body], text[body:end if end > 0 else len(text)]


def items(kind, text):
    for found in re.finditer(rf"^(?:pub )?{kind} (\w+)[^\n]*\{{\n(.*?)^\}}", text, re.M | re.S):
        yield found.group(1), found.group(2)


def variants(body):
    depth, out, word = 0, [], ""
    for line in body.splitlines():
        line = line.split("//")[0].strip()
        if depth == 0 and re.match(r"[A-Z]\w*", line):
            out.append(line)
        depth += sum(line.count(c) for c in "{(") - sum(line.count(c) for c in "})")
    return out


def point_1():
    for path, text in TEXT.items():
        for enum, body in items("enum", text):
            all_of = variants(body)
            bare = [v for v in all_of if re.fullmatch(r"[A-Z]\w*,", v)]
            if any("(Refusal)" in v for v in all_of) or (len(all_of) > 1 and len(bare) == 1 and len(all_of) <= 6 and any(v not in bare for v in all_of)):
                yield name(path), f"enum {enum}: shaped like Option or Result"
            elif "Unknown," in all_of:
                yield name(path), f"enum {enum}: a kind that is none"
        for struct, body in items("struct", text):
            if re.search(r"^    (?:pub )?(is_\w+|ok|bad|has_\w+): bool", body, re.M):
                yield name(path), f"struct {struct}: a flag with a value beside it"
        for found in re.finditer(r"^(?:pub )?const (\w+): u(?:8|32) = (\d+);", text, re.M):
            yield name(path), f"const {found.group(1)}: a number"
        for fn, head, _ in functions(text):
            if fn in ("refusal_number", "bench_or_length"):
                yield name(path), f"fn {fn}: numbers for refusals"


def point_2():
    groups = defaultdict(list)
    for path, text in TEXT.items():
        crate = name(path).split("/")[0]
        for fn, head, body in functions(text):
            shape = re.sub(r"_?(?:32|48|64|_3|_4)$", "_N", fn)
            if shape != fn:
                groups[crate, shape].append(f"{name(path)} {fn}")
        if crate.startswith("program"):
            continue
        every = {fn: name(path) for fn, _, _ in functions(text)}
        for a, b in (("", "un"), ("forward", "back"), ("ahead", "behind"), ("encrypt", "decrypt"), ("next", "previous"), ("fa", "fb"), ("load", "unloaded"), ("Forward", "Back"), ("low", "high"), ("Encrypt", "Decrypt")):
            for fn in every:
                other = fn.replace(a, b, 1) if a else b + fn
                if other != fn and other in every and (not a or a in fn):
                    groups[crate, f"{fn} and {other}"].append(every[fn])
    for (crate, shape), all_of in sorted(groups.items()):
        yield crate, f"{shape}: {', '.join(sorted(set(all_of)))}"


def point_3():
    for path, text in TEXT.items():
        for at, line in enumerate(text.splitlines(), 1):
            if re.match(r"\s*while ", line):
                yield name(path), f"line {at}: {line.strip()}"
            elif found := re.match(r"\s*for (\w+) in (.*\.\..*) \{$", line):
                body = text.splitlines()[at:at + 8]
                if any(re.search(rf"\[[^\]]*\b{found.group(1)}\b[^\]]*\]", l) for l in body):
                    yield name(path), f"line {at}: {line.strip()} (an index into a slice)"


def point_4():
    for path, text in TEXT.items():
        for fn, head, body in functions(text):
            if fn in ("wide", "wide_at", "index_of", "same_bytes", "either", "both", "smaller", "refusal_number", "byte_number", "is_block", "position_of", "if_named", "copy", "put_key", "copy_words", "direction_of", "value_of", "digit_of", "digit") or fn.startswith("print"):
                yield name(path), f"fn {fn}"
        for at, line in enumerate(text.splitlines(), 1):
            if found := re.match(r"\s*(\w+): \1,$", line):
                yield name(path), f"line {at}: {line.strip()}"
            elif re.search(r"\bas (?:u64|u32|usize)\b", line) and "const " not in line:
                yield name(path), f"line {at}: {line.strip()}"


def point_5():
    facts, together = defaultdict(list), defaultdict(list)
    for path, text in TEXT.items():
        crate = name(path).split("/")[0]
        for fn, head, body in functions(text):
            for clause in re.findall(r"^\s*requires(?: \w+)? \{ (.*) \}$", head, re.M):
                for fact in clause.split(" × "):
                    fact = re.sub(r"\.(now|old|new)\b", "", fact.strip("() "))
                    facts[crate, fact].append(fn)
            types = tuple(re.findall(r"^\s*(\w+: &?[^,\n]*),?$", head, re.M)) or tuple(p.strip() for p in head.split("(", 1)[-1].split(")")[0].split(",") if ":" in p)
            for a in range(len(types)):
                for b in range(a + 2, min(len(types), a + 6) + 1):
                    together[crate, types[a:b]].append(fn)
    for (crate, fact), all_of in sorted(facts.items()):
        if len(set(all_of)) >= 3:
            yield crate, f"{fact}: {', '.join(sorted(set(all_of)))}"
    best = {}
    for (crate, group), all_of in together.items():
        if len(set(all_of)) >= 3:
            key = crate, frozenset(all_of)
            if key not in best or len(group) > len(best[key]):
                best[key] = group
    for (crate, all_of), group in sorted(best.items(), key=lambda it: (it[0][0], sorted(it[0][1]))):
        yield crate, f"({', '.join(group)}): {', '.join(sorted(all_of))}"


def point_6():
    for path, text in TEXT.items():
        for struct, body in items("struct", text):
            if re.search(r": \[[^\]]*;", body) and re.search(r"^    (?:pub )?(length|count|digits|len): ", body, re.M):
                yield name(path), f"struct {struct}: a buffer with a length beside it"
            if re.search(r"start: usize", body) and re.search(r"end: usize", body):
                yield name(path), f"struct {struct}: a slice as two offsets"


def point_7():
    for path, text in TEXT.items():
        for fn, head, body in functions(text):
            for found in re.finditer(r"match (direction|motion|kind|opened\.kind|fields\.kind|shape\w*) \{", body):
                yield name(path), f"fn {fn}: match {found.group(1)}"


for number, point in enumerate((point_1, point_2, point_3, point_4, point_5, point_6, point_7), 1):
    if ONLY and ONLY != str(number):
        continue
    found = sorted(set(point()))
    print(f"point {number}: {len(found)} places")
    for where, what in found:
        print(f"    {where}: {what}")
