#!/usr/bin/env python3
"""Turns the repository's own names to today's spelling: snake case, and a dash only between two names.

usage: python3 tools/respell.py [--list]        at the top of the repository

It reads the declarations under crates/*/specs and crates/*/proofs, turns their names everywhere (antt code, the ghost parts of .rt files, code
spans of comments and of *.md, the quoted text of must-fail/*.edit), writes the table old, tab, new to tools/respelled.tsv, and prints what it
left ('kept:') or spelled otherwise than the rules give ('renamed apart:'). --list only prints. A second run does nothing.

The rules: camelCase becomes snake_case. A dash stays between two names, of definitions, types or usual library words; a plain word hangs on by
'_'. A name that begins with a capital stays, and so do names from Rust source, names of a function's proof folder (but for its uses of the
others, and `f_spec`) and names that a file brings in from a library.
"""

import collections
import glob
import os
import re
import sys

NAME = r"[^\s(){}\[\];,.\"`λ«»@|]+"
WORD = re.compile(NAME)
QUIET = re.compile(r'"(?:[^"\\\n]|\\.)*"|(?<![^\s(){}.;,@"«»])--[^\n]*|\{-.*?-\}', re.S)
SIGNATURE = re.compile(
    r"^( *)((?:(?:pattern|unfoldable|abbrev|pub|axiom)\s+)*)((?:let +)?" + NAME + r"(?: +" + NAME + r")*?) *(?:\{[^}\n]*\})? +:(?=\s|$)", re.M
)
TYPE = re.compile(r"^( *)((?:pub\s+)?)(?:record|data)\s+(" + NAME + ")", re.M)
USE = re.compile(r"\buse\s+([\w.]+)\.\{([^}]*)\}", re.S)
RUST = re.compile(
    r"""//[^\n]*|/\*.*?\*/|[bc]?r(#*)".*?"\1|[bc]?"(?:\\.|[^"\\])*"|b?'(?:\\u\{[0-9a-fA-F_]+\}|\\x..|\\.|[^'\\])'|'?\w+|\s+|.""", re.S
)
SPAN = re.compile(r"(`+)(?:[^\n]|\n(?!\s*\n))*?\1")
FENCE = re.compile(r"^( *)(`{3,})[^\n`]*\n.*?^\1\2 *$", re.S | re.M)
LIBRARY = (
    "length take drop append set map get_or suc zero nil cons add sub mul div mod lt le min max reverse replicate filter count sum pow bit "
    "and or xor shr shl eqb leb ltb cond not"
)
LINKS = {"and", "or", "not"}  # heads at the beginning of a name alone: further in they are plain English
KEYWORDS = {"let", "in", "record", "data", "where", "module", "use", "mod", "pub", "abbrev", "unfoldable", "pattern", "section", "open", "end"}


def read(path):
    with open(path, encoding="utf-8") as f:
        return f.read()


def code(text):
    """antt text with comments and strings blanked."""
    return QUIET.sub(lambda m: re.sub(r"[^\n]", " ", m[0]), text)


def snake(piece):
    """A dash-free piece in snake case: an underscore before each capital, which becomes small."""
    piece = re.sub(r"(?<=[^\W_A-Z])(?=[A-Z])", "_", piece)
    piece = re.sub(r"(?<=[A-Z])(?=[A-Z][a-z])", "_", piece)
    return re.sub(r"[A-Z]", lambda m: m[0].lower(), piece)


def own_folder(path):
    """Whether the file is in the proof folder of a function."""
    return re.match(r"crates/[^/]+/proofs/[^/]+/", path) is not None


def declarations(files):
    """For each file its declarations: name and kind. Kinds: def (public), own (a definition), type, lemma, part (of a record or data type), let."""
    out = {}
    for path, text in files.items():
        rows = []
        body = None
        spots = [(m.start(), len(m[1]), "type", [m[3]]) for m in TYPE.finditer(text)]
        for m in SIGNATURE.finditer(text):
            names = m[3].split()
            if names[0] == "let":
                rows += [(n, "let") for n in names[1:]]
            elif not KEYWORDS.intersection(names) and "=" not in names and "→" not in names:
                marks = m[2].split()
                kind = "lemma" if "abbrev" not in marks and "unfoldable" not in marks else "def" if "pub" in marks else "own"
                spots.append((m.start(), len(m[1]), kind, names))
        for _, depth, kind, names in sorted(spots):
            if body is not None and depth <= body:
                body = None
            if kind == "type":
                body = depth
            rows += [(n, "part" if body is not None and kind != "type" else kind) for n in names]
        out[path] = rows
    return out


def tokens_of(text):
    return set(WORD.findall(text))


# ---- the new spelling
def dashed(name, heads):
    """Which dashes stay: those between two names. A longer name of `heads` is not cut."""
    parts = re.split(r"([-_])", name)
    words, joins = parts[0::2], parts[1::2]
    n = len(words)
    inside = set()
    i = 0
    while i < n:
        for j in range(n, i, -1):
            if "_".join(words[i:j]) in heads:
                inside.update(range(i, j - 1))
                i = j
                break
        else:
            i += 1
    new = words[0]
    for k in range(n - 1):
        join = joins[k]
        if join == "-":
            left = any("_".join(words[a : k + 1]) in heads for a in range(k + 1) if a == 0 or words[a] not in LINKS)
            right = any("_".join(words[k + 1 : b]) in heads for b in range(k + 2, n + 1)) and words[k + 1] not in LINKS
            if k in inside or not (left and right):
                join = "_"
        new += join + words[k + 1]
    return new


def is_fact(word, heads):
    return word[:1].isupper() and len(word) > 1 and word in heads


def spelled(name, heads):
    pieces = [p if is_fact(p, heads) else snake(p) for p in name.split("-")]
    return dashed("-".join(pieces), heads)


def turns(name):
    """Whether a name is one to look at: small at its beginning, no operator, with a capital or a dash inside."""
    return re.fullmatch(r"[^\W\d_A-Z][\w'′-]*", name) is not None and not name.endswith("-") and (re.search("[A-Z]", name) or "-" in name)


# ---- where names stand
def antt(text, table, prose, stay=()):
    """antt text with its names turned: in code, and in the code spans of comments, and camelCase names there bare too."""
    out, at = [], 0
    for m in QUIET.finditer(text):
        out.append(words(text[at : m.start()], table, stay))
        quiet = m[0]
        if not quiet.startswith('"'):
            quiet = comment(quiet, table, prose)
        out.append(quiet)
        at = m.end()
    out.append(words(text[at:], table, stay))
    return "".join(out)


def words(text, table, stay=()):
    """The names of a piece of code turned. Those of `stay` stay behind a dot."""

    def turn(m):
        new = table.get(m[0])
        if new is None or re.match(r"\.(?:svg|png|txt|md|antt|rt|edit|rs|py)\b|/", text[m.end() :]):
            return m[0]
        before = text[: m.start()]
        if before.endswith("."):
            chain = re.search(r"[^\s(){}\[\];,\"`]*\.$", before)[0]
            heads = chain.split(".")
            steps = "-" in m[0] and {"before", "args", "ensures", "requires", "invariant"}.intersection(heads)
            if heads[0] in ("tie", "goal") or steps or m[0] in stay:
                return m[0]
        return new

    return WORD.sub(turn, text)


def comment(text, table, prose):
    text = SPAN.sub(lambda m: words(m[0], table), text)
    if prose:
        text = WORD.sub(lambda m: table.get(m[0], m[0]) if re.search("[a-z0-9][A-Z]", m[0]) else m[0], text)
    return text


def ghost_parts(text):
    """The pieces of a .rt text: (kind, piece), of kind ghost, comment or rust."""
    toks = [m[0] for m in RUST.finditer(text)]
    out, i = [], 0
    while i < len(toks):
        t = toks[i]
        if t.startswith(("//", "/*")):
            out.append(("comment", t))
            i += 1
            continue
        if t in ("ghost", "requires", "ensures"):
            j, depth, piece = i, 0, []
            while j < len(toks):
                u = toks[j]
                if u.startswith(("//", "/*")):
                    if piece:
                        out.append(("ghost", "".join(piece)))
                        piece = []
                    out.append(("comment", u))
                    j += 1
                    continue
                piece.append(u)
                j += 1
                if u == "{":
                    depth += 1
                elif u == "}":
                    depth -= 1
                    if depth == 0 and not (len(toks) > j and "use" in toks[i : i + 4]):
                        break
                elif u == ";" and depth == 0:
                    break
            out.append(("ghost", "".join(piece)))
            i = j
            continue
        out.append(("rust", t))
        i += 1
    return out


def rattle(text, table):
    return "".join(
        words(p, table) if k == "ghost" else comment(p, table, True) if k == "comment" else p for k, p in ghost_parts(text)
    )


def edit(text, table):
    """A must-fail edit: its lines of antt, or of a clause, and else nothing but camelCase names, which Rust has none of."""
    whole = re.search(r"^file: .*\.antt$", text, re.M) is not None
    camel = {o: n for o, n in table.items() if re.search("[A-Z]", o)}
    out = []
    for line in text.split("\n"):
        if line.startswith(("old:", "new:")):
            clause = re.search(r"\b(requires|ensures|ghost)\b|[≡≤λ×]", line)
            line = line[:4] + outside(line[4:], table if whole or clause else camel)
        elif line.startswith("#"):
            line = comment(line, table, True)
        out.append(line)
    return "\n".join(out)


def outside(text, table):
    """The names of a line outside its string literals."""
    parts = re.split(r'("(?:[^"\\]|\\.)*")', text)
    return "".join(p if k % 2 else words(p, table) for k, p in enumerate(parts))


def markdown(text, table):
    out, at = [], 0
    for m in FENCE.finditer(text):
        out.append(SPAN.sub(lambda s: span(s[0], table), text[at : m.start()]))
        out.append(words(m[0], {o: n for o, n in table.items() if re.search("[A-Z]", o)} if "antt" not in m[0].split("\n")[0] else table))
        at = m.end()
    out.append(SPAN.sub(lambda s: span(s[0], table), text[at:]))
    return "".join(out)


def span(text, table):
    if re.match(r"`+\s*(?:\$ |\./|(?:antt|rt|just|cargo|python3|bash|cd|tar|cp|ls|for|git)\s)", text) or "/" in text and " " not in text:
        return text
    return words(text, table)


# ---- Rust's own names in a function
def functions(text):
    """For each function of a .rt text: its name, the names of its parameters and locals, and the words of its clauses and ghost blocks."""
    cuts = [m.start() for m in re.finditer(r"^ *(?:pub )?(?:const )?fn \w+", text, re.M)] + [len(text)]
    for a, b in zip(cuts, cuts[1:]):
        piece = text[a:b]
        parts = ghost_parts(piece)
        rust = "".join(p for k, p in parts if k == "rust")
        bound = set(re.findall(r"\b(\w+)\s*:", rust)) | set(re.findall(r"\blet (?:mut )?(\w+)", rust))
        for m in re.finditer(r"\b(?:let|for|if let|while let) (?:\w+)?\(([^)]*)\)", rust):
            bound |= set(re.findall(r"\w+", m[1]))
        for m in re.finditer(r"\bfor (\w+) in", rust):
            bound.add(m[1])
        yield re.search(r"fn (\w+)", piece)[1], bound, tokens_of("".join(p for k, p in parts if k == "ghost"))


def main():
    if not os.path.exists("crates.txt") or not os.path.isdir("crates"):
        sys.exit("run it at the top of the repository")
    crates = set(re.findall(r"^(\w+):", read("crates.txt"), re.M))
    paths = sorted(p for d in ("specs", "proofs") for p in glob.glob(f"crates/*/{d}/**/*.antt", recursive=True))
    rts = sorted(glob.glob("crates/*/src/**/*.rt", recursive=True))
    edits = sorted(glob.glob("crates/*/must-fail/*.edit"))
    mds = sorted(glob.glob("*.md") + glob.glob("docs/*.md") + glob.glob("docs/changes/*.md"))
    texts = {p: read(p) for p in paths + rts + edits + mds}
    codes = {p: code(texts[p]) for p in paths}
    ghosts = {p: "".join(x for k, x in ghost_parts(texts[p]) if k == "ghost") for p in rts}
    declared = declarations(codes)
    tokens = {p: tokens_of(t) for p, t in list(codes.items()) + list(ghosts.items())}

    foreign = set()
    for p, t in list(codes.items()) + list(ghosts.items()):
        for m in USE.finditer(t):
            own = re.match(r"Rattle\.(\w+)\b", m[1])
            if not own or own[1] not in crates:
                for item in m[2].split(","):
                    foreign |= {w for w in re.split(r"[\s.]+", item.strip()) if w}
    kinds = collections.defaultdict(set)
    outside_folders, in_proof = set(), set()
    lets = set()
    for p, rows in declared.items():
        for n, kind in rows:
            if kind == "let":
                if not own_folder(p):
                    lets.add(n)
                continue
            kinds[n].add(kind)
            if not own_folder(p):
                outside_folders.add(n)
            elif turns(n) and n.endswith("-spec") and os.path.basename(p) == "Proof.antt":
                in_proof.add(n)
    heads = set(LIBRARY.split())
    for n, ks in kinds.items():
        if len(n) > 1 and (n in outside_folders and "def" in ks or "type" in ks):
            heads.add(n if n[:1].isupper() else "_".join(snake(w) for w in n.split("-")))
    heads |= {w for w in foreign if w[:1].isupper()}

    # the table
    table, apart = {}, []
    for n in sorted(outside_folders | lets):
        if not turns(n):
            continue
        new = spelled(n, heads)
        if new == n:
            continue
        if n not in foreign:
            table[n] = new
        elif n in outside_folders:
            print(f"kept: {n} (a library has it too)")
    for n in sorted(in_proof):
        table[n] = n.replace("-", "_")

    scope = {p: tokens_of(re.sub(r"\bRattle(?:\.\w+)+|(?<=[\w'\)])\.(?![\s{])" + NAME, " ", t)) for p, t in list(codes.items()) + list(ghosts.items())}
    bodies = [(p, f, bound, used) for p in rts for f, bound, used in functions(texts[p])]
    where = collections.defaultdict(set)
    for p, toks in tokens.items():
        for w in toks:
            where[w].add(p)

    def taken(old, new):
        """Why a new name does not do."""
        for p in sorted(where[old] & where[new]):
            if "part" in kinds[old] or new in scope[p]:
                return f"{new} is a name in {p}"
        for p, f, bound, used in bodies:
            if old in used and new in bound:
                return f"{f} of {p} has a variable {new}"
        return None

    def clash(old, new):
        for other in rivals[new]:
            if other != old and ("-" in old or "-" not in other) and table.get(other) == new and where[old] & where[other]:
                return f"{other} becomes {new} too"
        return None

    rivals = collections.defaultdict(list)
    for old in sorted(table):
        rivals[table[old]].append(old)
    kept = []
    for old in sorted(table, key=lambda n: ("-" in n, n)):
        for new in [table[old]] + [table[old] + ("_lem" if "-" in old else "_word" if table[old].endswith("_of") else "_of")]:
            why = taken(old, new) or clash(old, new)
            if not why:
                break
            first = why if new == table[old] else first
        else:
            kept.append((old, first))
            del table[old]
            continue
        if new != table[old]:
            apart.append((old, new, first))
            table[old] = new
            rivals[new].append(old)
    for old in sorted(table):
        why = clash(old, table[old])
        if why:
            kept.append((old, why))
            del table[old]
    for old, why in kept:
        print(f"kept: {old} ({why})")
    for old, new, why in apart:
        print(f"renamed apart: {old} to {new} ({why})")

    # text that still has a spelling which the code has turned already
    everything = set().union(*tokens.values())
    present = {n for n in kinds if n[:1].islower()}
    stale = {}
    for p in edits + mds:
        for w in tokens_of(texts[p]):
            if turns(w) and re.search("[A-Z]", w) and w not in everything and w not in table and spelled(w, heads) in present:
                stale[w] = spelled(w, heads)

    if "--list" in sys.argv[1:]:
        for old in sorted(table):
            print(f"{old}\t{table[old]}")
        for old in sorted(stale):
            print(f"stale: {old}\t{stale[old]}")
        return
    # a dashed name behind a dot in a function's proof folder is a step's, unless it is a field that no function has the name of
    calls = set(re.findall(r"\bfn (\w+)", "".join(texts[p] for p in rts)))
    steps = {n for n in table if "-" in n and ("part" not in kinds[n] or n.replace("-", "_") in calls)}
    files = 0
    late = {**stale, **table}
    for p, text in texts.items():
        if p.endswith(".antt"):
            new = antt(text, table, True, steps if own_folder(p) else ())
        elif p.endswith(".rt"):
            new = rattle(text, table)
        elif p.endswith(".edit"):
            new = edit(text, late)
        else:
            new = markdown(text, late)
        if new != text:
            files += 1
            with open(p, "w", encoding="utf-8") as f:
                f.write(new)
    if table:
        with open("tools/respelled.tsv", "w", encoding="utf-8") as f:
            f.write("".join(f"{old}\t{table[old]}\n" for old in sorted(table)))
    print(f"{len(table)} names respelled, and {len(stale)} more in text alone, in {files} files")


if __name__ == "__main__":
    main()
