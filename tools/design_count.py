#!/usr/bin/env python3
"""Counts the places of docs/DESIGN-PASS.md in crates/*/src, in the working tree or at a commit.

    python3 tools/design_count.py [--list] [COMMIT]
"""
import collections
import difflib
import re
import subprocess
import sys


def sources(commit):
    run = lambda *a: subprocess.run(a, capture_output=True, text=True, check=True).stdout
    if commit:
        names = run("git", "ls-tree", "-r", "--name-only", commit, "crates").split()
    else:
        names = run("git", "ls-files", "crates").split()
    for name in sorted(names):
        if "/src/" in name and name.endswith(".rt"):
            text = run("git", "show", f"{commit}:{name}") if commit else open(name, encoding="utf-8").read()
            yield name.split("/")[1], text.split("#[cfg(test)]")[0]


def functions(text):
    """Name, head, clauses and body of each function; the body of one that has no clause is `plain`."""
    lines = text.split("\n")
    i = 0
    while i < len(lines):
        m = re.match(r"(\s*)(?:pub(?:\(\w+\))? )?(?:extern \"C\" )?(?:final )?fn (\w+)", lines[i])
        if not m:
            i += 1
            continue
        indent, name, start = m.group(1), m.group(2), i
        while i < len(lines) and lines[i] != indent + "}":
            if re.search(r"\{.*\}\s*$", lines[i]) and i == start:
                break
            i += 1
        block = lines[start : i + 1]
        cut = next((k for k, l in enumerate(block) if l == indent + "{"), len(block))
        head = [l for l in block[:cut]]
        first = next((k for k, l in enumerate(head) if re.match(r"\s*(requires|ensures)\b", l)), len(head))
        opened = next((k for k, l in enumerate(block) if l.endswith(" {") and cut == len(block)), len(block))
        yield name, " ".join(l.strip() for l in head[:first]), " ".join(l.strip() for l in head[first:]), "\n".join(block[cut:]), "\n".join(block[opened + 1 :])
        i += 1


def parameters(head):
    inner = head[head.find("(") + 1 : head.rfind(")")] if "(" in head else ""
    inner = re.sub(r"\s+", " ", inner)
    parts, depth, part = [], 0, ""
    for c in inner:
        depth += (c in "([<") - (c in ")]>")
        if c == "," and depth == 0:
            parts.append(part.strip())
            part = ""
        else:
            part += c
    return [p for p in parts + [part.strip()] if ":" in p]


def tokens(body):
    words = re.findall(r"[A-Za-z_]\w*|\d+|[^\s\w]", re.sub(r"//.*", "", body))
    keep = {"if", "else", "while", "for", "in", "let", "mut", "return", "match", "loop", "break", "true", "false", "as"}
    return [w if w in keep or not re.match(r"[A-Za-z_\d]", w) else "x" for w in words]


def count(commit):
    found = collections.OrderedDict((k, []) for k in (
        "1 enums with a case of refusal or of none", "1 structs with a flag or a refusal beside values",
        "1 functions whose number says that there is none", "1 constants that number kinds and meanings", "1 refusals by number",
        "2 functions with like bodies", "3 loops that count an index", "4 conversions and comparisons by hand",
        "5 facts asked by three functions or more", "5 parameters that travel together in three functions or more",
        "6 a slice with its length beside it", "6 arrays side by side in a struct", "7 a match on numbers, or a flag for which step",
        "wider: 1 constants of 16 bits or more that number", "wider: 2 functions without a clause with like bodies",
        "wider: 3 a number counted inside a loop over something else", "wider: 4 widening by `as`", "wider: 5 other facts asked by three functions or more"))
    plain, bodies, facts, groups = [], [], collections.defaultdict(set), collections.defaultdict(set)
    for crate, text in sources(commit):
        at = lambda what: f"{crate}: {what}"
        for m in re.finditer(r"pub enum (\w+) \{\n(.*?)\n\}", text, re.S):
            if re.search(r"^\s+(Refused\(|NoSafeSetting|Blank)", m.group(2), re.M):
                found["1 enums with a case of refusal or of none"].append(at(m.group(1)))
        for m in re.finditer(r"struct (\w+)[^{;]*\{\n(.*?)\n\}", text, re.S):
            if re.search(r"^\s+(pub )?(refusal: (Flat)?Refusal|cause: u8|apart: bool|wrong: u16|safe: u16)", m.group(2), re.M):
                found["1 structs with a flag or a refusal beside values"].append(at(m.group(1)))
            sizes = collections.Counter(re.findall(r": \[\w+; ([^\]]+)\]", m.group(2)))
            for size, n in sizes.items():
                if n > 1:
                    found["6 arrays side by side in a struct"].append(at(f"{m.group(1)} ({n} of {size})"))
        for m in re.finditer(r"^\s*(?:pub )?const (\w+): (?:u8|bool) = (\d+|true|false);", text, re.M):
            found["1 constants that number kinds and meanings"].append(at(m.group(1)))
        for m in re.finditer(r"\bnumber: (\d+)\b|refused\((\d+)|stopped\((\d+)|return (\d+);|^\s+(\d+)$", text, re.M):
            n = int(next(g for g in m.groups() if g))
            if 1 <= n <= 21 and (m.group(1) or m.group(2) or m.group(3) or crate == "line_checks"):
                found["1 refusals by number"].append(at(f"{n}"))
        above = re.findall(r"((?:^[ ]*//[^\n]*\n)+)[ ]*(?:pub )?(?:fn|struct) (\w+)", text, re.M)
        said = {name for comment, name in above if re.search(r"\b0 where|number 0|both 0 where|which is number 0|0 for none|no number|none, one that", comment)}
        for m in re.finditer(r"^\s*(?:pub )?const (\w+): (?:u16|u32) = (\d+);", text, re.M):
            found["wider: 1 constants of 16 bits or more that number"].append(at(m.group(1)))
        for m in re.finditer(r"\b(?:sections|plain|elements|trains|\.0|state|\bt|entries|safe|proceed|\*a|\*state|line) as (?:u32|u64|usize)\b", text):
            found["wider: 4 widening by `as`"].append(at(m.group(0)))
        for name, head, clauses, body, rest in functions(text):
            plain.append((crate, name, tokens(rest)))
            for m in re.finditer(r"^( +)(?:'\w+: )?for [^\n]*\{\n(.*?)^\1\}", body + "\n" + rest, re.M | re.S):
                counted = re.findall(r"\b([\w.]+) [-+]= 1;", m.group(2))
                if counted:
                    found["wider: 3 a number counted inside a loop over something else"].append(at(f"{name} ({', '.join(counted)})"))
            if name in said or re.search(r"-> Refusal\b", head):
                found["1 functions whose number says that there is none"].append(at(name))
            bodies.append((crate, name, tokens(body)))
            for m in re.finditer(r"^\s+(?:'\w+: )?while ([^{]*)", body, re.M):
                if not re.search(r"!= 0|power <=|\.len\(\) == 0", m.group(1)) and re.search(r"[a-z_]+ [-+]= 1;|i -= 1", body):
                    found["3 loops that count an index"].append(at(name))
            if re.match(r"(flat_(?!written)|\w+_from_c$|wide$|letter_byte$|kind_number$|sort_of$|kind_of_letter$|line_of_|lower$|higher$|least$|is_s$|move_of$|element_of$|train_of$|header_of$|letter_of$|copy$)", name):
                found["4 conversions and comparisons by hand"].append(at(name))
            asked = re.findall(r"requires\s*(?:\w+\s*)?\{(.*?)\}(?=\s*(?:requires|ensures|$))", clauses)
            for clause in asked:
                for fact in re.split(r" × ", clause):
                    fact = fact.strip()
                    while fact.startswith("(") and fact.endswith(")"):
                        fact = fact[1:-1]
                    facts[re.sub(r"\s+", " ", fact)].add(at(name))
            ps = parameters(head)
            for a, b in zip(ps, ps[1:]):
                if re.search(r"&|\[|Situation|Section", a) or re.search(r"&|\[|Situation|Section", b):
                    groups[(a, b)].add(at(name))
                if re.search(r": &(mut )?\[\w+\]$", a) and re.match(r"(n|m|count|elements|size): usize$", b):
                    found["6 a slice with its length beside it"].append(at(name))
            if re.search(r"^\s+0 => ", body, re.M) or re.search(r"\ball: bool\b", head):
                found["7 a match on numbers, or a flag for which step"].append(at(name))
    for i, (c, n, a) in enumerate(bodies):
        for d, m, b in bodies[i + 1 :]:
            if min(len(a), len(b)) >= 24 and abs(len(a) - len(b)) <= 0.1 * max(len(a), len(b)):
                if difflib.SequenceMatcher(None, a, b, autojunk=False).ratio() >= 0.93:
                    found["2 functions with like bodies"].append(f"{c}: {n} ~ {d}: {m}")
    for i, (c, n, a) in enumerate(plain):
        for d, m, b in plain[i + 1 :]:
            if min(len(a), len(b)) >= 24 and abs(len(a) - len(b)) <= 0.1 * max(len(a), len(b)):
                if difflib.SequenceMatcher(None, a, b, autojunk=False).ratio() >= 0.93:
                    found["wider: 2 functions without a clause with like bodies"].append(f"{c}: {n} ~ {d}: {m}")
    for fact, who in sorted(facts.items()):
        if len(who) >= 3 and not re.search(r"length|Sound|Collected|Outdegrees|1 ≤ |IsSection|≤ 512|IsRead|Limits|Prepared", fact):
            found["wider: 5 other facts asked by three functions or more"].append(f"{fact} ({len(who)})")
        if len(who) >= 3 and re.search(r"length|Sound|Collected|Outdegrees|1 ≤ |IsSection|≤ 512|IsRead|Limits|Prepared", fact):
            found["5 facts asked by three functions or more"].append(f"{fact} ({len(who)})")
    for pair, who in sorted(groups.items()):
        if len(who) >= 3:
            found["5 parameters that travel together in three functions or more"].append(f"{', '.join(pair)} ({len(who)})")
    return found


def main():
    words = [w for w in sys.argv[1:] if w != "--list"]
    for what, places in count(words[0] if words else None).items():
        print(f"{len(places):4}  {what}")
        if "--list" in sys.argv:
            for p in places:
                print("        " + p)


if __name__ == "__main__":
    main()
