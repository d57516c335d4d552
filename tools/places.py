#!/usr/bin/env python3
"""Lists places of src/ that may be written in an older form than today's language has, one list for each of seven points.

    python3 tools/places.py [POINT] [FOLDER]

It reads text and knows no types: a line of its output is a place to look at, and docs/DESIGN-PASS.md says of each what it is.
"""
import pathlib
import re
import sys

NUMBER = r"(?:u8|u16|u32|u64|u128|usize|i8|i16|i32|i64|i128)"


def files(top):
    return sorted(p for p in pathlib.Path(top).glob("crates/*/src/**/*.rt"))


def plain(text):
    """The text without comments, line by line."""
    return "\n".join(re.sub(r"//.*", "", line) for line in text.split("\n"))


def block(text, start):
    """The end of the braces that open at or behind `start`."""
    at = text.index("{", start)
    depth = 0
    for i in range(at, len(text)):
        if text[i] == "{":
            depth += 1
        elif text[i] == "}":
            depth -= 1
            if depth == 0:
                return at, i + 1
    return at, len(text)


def code(text):
    """The text without contract clauses and ghost items, of the same length."""
    out = text
    for word in (r"\b(?:requires|ensures)\b(?: \w+)? \{", r"\bghost \w+(?: *[:=]) *\{"):
        for m in re.finditer(word, out):
            a, b = block(out, m.start())
            out = out[: m.start()] + re.sub(r"[^\n]", " ", out[m.start() : b]) + out[b:]
    return out


def functions(text):
    """(name, signature, body, line) of every function that has a body."""
    for m in re.finditer(r"^( *)(?:pub(?:\(crate\))? )?(?:const )?fn (\w+)", text, re.M):
        end = re.compile(r"^" + m.group(1) + r"(?:\{\s*$|\{\}|\}|.*\{\s*$)", re.M).search(text, m.start())
        at = text.find("{", m.start())
        if at < 0:
            continue
        if ";" in text[m.start() : at] and re.match(r"[^{]*?;\s*$", text[m.start() : at].split("\n\n")[0]) and "->" not in text[m.start() : at].split(";")[-1]:
            head = text[m.start() : at]
            if re.search(r"\)\s*(?:->[^;{]*)?;", head):
                continue
        a, b = block(text, m.start())
        yield m.group(2), text[m.start() : a], text[a:b], text.count("\n", 0, m.start()) + 1


def line_of(text, at):
    return text.count("\n", 0, at) + 1


def point1(path, text):
    for m in re.finditer(r"\benum (\w+)[^{]*\{", text):
        a, b = block(text, m.start())
        body = re.sub(r"\([^()]*\)|\{[^{}]*\}", "=", text[a + 1 : b - 1])
        variants = [v.strip() for v in body.split(",") if v.strip()]
        bare = [v for v in variants if "=" not in v]
        if bare and len(bare) < len(variants):
            yield line_of(text, m.start()), f"enum {m.group(1)}: some variants carry a value, and {', '.join(bare)} none"
    for name, head, body, line in functions(text):
        result = head.split("->", 1)[1].split("where")[0].strip() if "->" in head else ""
        if re.fullmatch(r"\(" + NUMBER + r"(?:, .*)?\)", result):
            yield line, f"fn {name} answers {result}"
        if re.fullmatch(r"u8|i64", result) and "match" in body:
            yield line, f"fn {name} answers {result} by a match"
        for m in re.finditer(r"Some\(\w+\) => Some\(|None => None|Ok\(\w*\) => Ok\(|Err\(\w+\) => (?:return )?Err\(", body):
            yield line + head.count("\n") + body.count("\n", 0, m.start()), f"fn {name}: {m.group(0)} .., a map by hand"
        for m in re.finditer(r"let (?:Some|Ok)\([^)]*\) = [^;{]*? else \{\s*return (?:Err\(|None|Ok\(None)", body):
            yield line + head.count("\n") + body.count("\n", 0, m.start()), f"fn {name}: let .. else return {'Err' if 'Err(' in m.group(0) else 'None'}"
        for m in re.finditer(r"if let Some\((\w+)\) = [^{]*\{\s*return Err\(\1\)", body):
            yield line + head.count("\n") + body.count("\n", 0, m.start()), f"fn {name}: an Option used as an error"
        for m in re.finditer(r"let mut (\w+)(?:: usize)? = 0;", body):
            if re.search(r"\b" + m.group(1) + r" [!=]= 0\b", body):
                yield line + head.count("\n") + body.count("\n", 0, m.start()), f"fn {name}: {m.group(1)} is 0 for none"


def shape(text):
    text = re.sub(r"\b\d[\d_a-z]*\b", "0", text)
    text = re.sub(r"\b[A-Z]\w*\b", "T", text)
    return re.sub(r"\s+", " ", text)


def twins(all_files):
    seen = {}
    for path, text in all_files:
        for name, head, body, line in functions(text):
            own = re.sub(r"\b" + name + r"\b", "F", head + body)
            if len(body.split("\n")) > 2 or len(body) > 20:
                seen.setdefault(re.sub(r"\b[a-z]\w*\b(?=\()", "f", shape(own)), []).append(f"{path}:{line} fn {name}")
        for m in re.finditer(r"\bstruct (\w+)[^{;(]*\{", text):
            a, b = block(text, m.start())
            fields = re.findall(r"(\w+): ([^,\n]+),", text[a:b])
            if len(fields) > 1:
                seen.setdefault("struct " + str(fields), []).append(f"{path}:{line_of(text, m.start())} struct {m.group(1)}")
        for m in re.finditer(r"^\s*(?:pub(?:\(crate\))? )?const (\w+): " + NUMBER + r" = ([^;]+);", text, re.M):
            value = re.sub(r"_", "", m.group(2))
            if len(value) > 4:
                seen.setdefault("const " + value, []).append(f"{path}:{line_of(text, m.start())} const {m.group(1)}")
    for places in seen.values():
        if len(places) > 1:
            yield places


def point3(path, text):
    for m in re.finditer(r"for \(?\w+(?:, [^)]*\))? in [^{]*(?:\d\.\.|enumerate\(\))[^{]*\{|\bwhile [^{]*\{|^\s*\w+(?:\.\w+)? \+= 1;", text, re.M):
        yield line_of(text, m.start()), " ".join(m.group(0).split())


def point4(path, text):
    for name, head, body, line in functions(text):
        if "&'static str" in head:
            yield line, f"fn {name} gives a name as text"
    for m in re.finditer(r"^impl(?:<[^>]*>)? (From|TryFrom|PartialEq|Eq|PartialOrd|Ord|Clone|Copy|fmt::Display|Display|fmt::Debug)\b.* for (\w+)", text, re.M):
        yield line_of(text, m.start()), m.group(0)
    for m in re.finditer(r"^ *(?:pub )?fn (is_over|is_text|fitted|number_of|bare|exact|with_\w+|upper_end|trusted)\b", text, re.M):
        yield line_of(text, m.start()), m.group(0).strip() + ", a comparison, conversion or copy by hand"


def point5(all_files):
    facts, groups = {}, {}
    for path, text in all_files:
        crate = str(path).split("/")[1]
        for name, head, body, line in functions(code(text)):
            at = f"{path}:{line} fn {name}"
            names = re.findall(r"(\w+): (&?(?:mut )?[\w:<>\[\]' ]+)", head.split("->")[0])
            for i in range(len(names)):
                for j in range(i + 1, len(names)):
                    groups.setdefault((crate, names[i], names[j]), []).append(at)
        heads = list(re.finditer(r"\bfn (\w+)", text))
        for m in re.finditer(r"\b(?:requires|ensures)\b(?: \w+)? \{", text):
            a, b = block(text, m.start())
            owner = [h.group(1) for h in heads if h.start() < m.start()][-1]
            for fact in re.findall(r"\b[A-Z]\w+\b|\w+(?:\.\w+)* ≤ [\w.* ]*\w|holding|ledger_of|desk_of", text[a:b]):
                facts.setdefault((crate, re.sub(r"\b(?:result|self|[a-z])\.(?:now\.|new\.|old\.)?", "", fact)), set()).add(f"{path} fn {owner}")
    for (crate, fact), places in sorted(facts.items()):
        if len(places) > 2:
            yield f"{crate}: {fact} in the clauses of {len(places)} functions"
    for (crate, a, b), places in sorted(groups.items()):
        if len(places) > 2:
            yield f"{crate}: {a[0]}: {a[1]} and {b[0]}: {b[1]} in {len(places)} functions"


def point6(path, text):
    for m in re.finditer(r"\[[\w:]+; [\w]+\]", text):
        yield line_of(text, m.start()), m.group(0)


def point7(path, text):
    for name, head, body, line in functions(text):
        for m in re.finditer(r"match ([^{\n]+) \{", body):
            a, b = block(body, m.start())
            arms = re.findall(r"=> ([^,{]*\w\()", body[a:b])
            if len(arms) > 1 and len(arms) == len(re.findall(r"=>", body[a:b])) and not any(re.match(r"(Some|Ok|Err|[A-Z]\w*::[A-Z]\w*|write!)\(?", x) for x in arms):
                yield line + head.count("\n") + body.count("\n", 0, m.start()), f"fn {name} chooses a call by {m.group(1)}"


def main():
    point = sys.argv[1] if len(sys.argv) > 1 else "all"
    top = sys.argv[2] if len(sys.argv) > 2 else "."
    sources = [(p.relative_to(top), plain(p.read_text())) for p in files(top)]
    stripped = [(p, code(t)) for p, t in sources]
    lists = {
        "1": [f"{p}:{l} {w}" for p, t in stripped for l, w in sorted(set(point1(p, t)))],
        "2": [" = ".join(x) for x in twins(stripped)],
        "3": [f"{p}:{l} {w}" for p, t in stripped for l, w in point3(p, t)],
        "4": [f"{p}:{l} {w}" for p, t in stripped for l, w in point4(p, t)],
        "5": list(point5(sources)),
        "6": [f"{p}:{l} {w}" for p, t in stripped for l, w in point6(p, t)],
        "7": [f"{p}:{l} {w}" for p, t in stripped for l, w in point7(p, t)],
    }
    for key, rows in lists.items():
        if point in ("all", key):
            print(f"point {key}: {len(rows)}")
            for row in rows:
                print("    " + row)


main()
