#!/usr/bin/env python3
"""Spells the repository's own definitions and lemmas in snake case, once, after port.py and before anything is edited by hand.

usage: tools/snake_names.py [--check]        at the top of the repository; --check writes nothing and lists what falls together

A name is one that a file of specs/, or a lemma file of proofs/, declares or binds: it begins with a small letter and has a dash or a capital. A dash becomes an underscore, a
capital an underscore and its small letter. It stays where the file brings it in from a library, and where a proof takes it from what Rattle makes (`tie.`, `goal.`).
Functions of src/, exported names, strings, inputs and outputs are not touched: in a .rt file only ghost items, clauses and code spans of comments are.
In must-fail edits the rows old: and new: turn as the file that they are of; in pages code spans turn.
"""
import collections
import os
import re
import sys

WORD = r"[^\s(){}.;,@\"«»\[\]|]+"
NAME = re.compile(WORD)
OWN = re.compile(r"[a-z][^\s(){}.;,@\"«»\[\]|`]*")
USE = re.compile(r"\buse\s+([^\s;{]+?)(?:\.\{([^}]*)\}|(?=[\s;]))", re.M)
SPAN = re.compile(r"`[^`\n]+`")
GHOST = re.compile(r"ghost\s+use\b[^;]*;")
CLAUSE = re.compile(r"\b(?:requires|ensures)\s*\*?\s*(?:\w+\s*)?\{|\bghost\s+(?:\w+\s*:\s*)?\{|\bghost\s+\w+\s*:")
QUIET = re.compile(r"--[^\n]*")
# Names that would fall together with another, and those that a library's new word stands in: old name, new name.
SPECIAL = {}
HERE = os.path.dirname(os.path.abspath(__file__))


def snake(name):
    if name in SPECIAL:
        return SPECIAL[name]
    return re.sub(r"(?<=[a-z0-9])[A-Z]", lambda m: "_" + m[0].lower(), name).replace("-", "_")


def is_old(name):
    return bool(OWN.fullmatch(name)) and ("-" in name or bool(re.search(r"[a-z0-9][A-Z]", name))) and "→" not in name


def crates():
    with open("crates.txt", encoding="utf-8") as f:
        return {l.split(":")[0].strip() for l in f if ":" in l and not l.startswith("#")}


def files(kind):
    for top in ("crates",):
        for d, ds, fs in os.walk(top):
            ds[:] = sorted(x for x in ds if x not in ("out", ".git"))
            for f in sorted(fs):
                p = os.path.join(d, f)
                if kind(p):
                    yield p


def read(p):
    with open(p, encoding="utf-8") as f:
        return f.read()


def imported(text, ours):
    """The names that a file takes from a library, and those that it takes from this repository."""
    theirs, own = set(), set()
    for path, items in USE.findall(text):
        steps = path.split(".")
        mine = steps[0] == "Rattle" and len(steps) > 1 and steps[1] in ours
        made = mine and ("proofs" in steps[2:3] and len(steps) > 4 or "declared" in steps)
        names = {w.strip().split(" as ")[-1] for w in (items or "").split(",") if w.strip()}
        (own if mine and not made else theirs).update(names)
    return theirs, own


def turn_text(text, table, stays):
    def one(m):
        w = m[0]
        if w in stays or w not in table:
            return w
        before = text[: m.start()]
        if before.endswith("tie.") or before.endswith("goal."):
            return w
        return table[w]

    return NAME.sub(one, text)


def turn_spans(text, table, stays):
    return SPAN.sub(lambda m: turn_text(m[0].replace("`", " "), table, stays).replace(" ", "`", 1)[:-1] + "`" if m[0].count("`") == 2 else m[0], text)


def split_comments(text, sign):
    at = 0
    for m in re.finditer(r"(?m)(?<![^\s(){}.;,])" + sign + r"[^\n]*", text):
        yield text[at : m.start()], False
        yield m[0], True
        at = m.end()
    yield text[at:], False


def turn_antt(text, table, stays):
    return "".join(turn_spans(t, table, stays) if c else turn_text(t, table, stays) for t, c in split_comments(text, "--"))


def close_of(text, at):
    depth = 0
    while at < len(text):
        if text[at] == "{":
            depth += 1
        elif text[at] == "}":
            depth -= 1
            if depth == 0:
                return at + 1
        at += 1
    return at


def turn_rt(text, table, stays):
    out, at = [], 0
    pattern = re.compile(r"//[^\n]*|" + GHOST.pattern + r"|\b(?:requires|ensures)\s*\*?\s*(?:\w+\s*)?\{")
    while True:
        m = pattern.search(text, at)
        if not m:
            return "".join(out) + text[at:]
        out.append(text[at : m.start()])
        if m[0].startswith("//"):
            out.append(turn_spans(m[0], table, stays))
            at = m.end()
        elif m[0].startswith("ghost"):
            out.append(turn_text(m[0], table, stays))
            at = m.end()
        else:
            end = close_of(text, m.end() - 1)
            # a label stands before the brace, and keeps its name
            out.append(m[0] + turn_text(text[m.end() : end], table, stays))
            at = end


def main(argv):
    check = "--check" in argv
    special = os.path.join(HERE, "snake_names.tsv")
    if os.path.exists(special):
        with open(special, encoding="utf-8") as f:
            SPECIAL.update(l.rstrip("\n").split("\t") for l in f if l.strip() and not l.startswith("#"))
    ours = crates()
    is_proof = lambda p: os.path.basename(p) in ("Proof.antt",)
    lemma_files = [p for p in files(lambda p: p.endswith(".antt")) if not is_proof(p)]
    proof_files = list(files(is_proof))
    table, where = {}, collections.defaultdict(set)
    declared = collections.defaultdict(set)
    for p in lemma_files:
        t = read(p)
        theirs, _ = imported(t, ours)
        code = QUIET.sub(" ", t)
        for w in set(NAME.findall(code)):
            if is_old(w) and w not in theirs:
                table[w] = snake(w)
                where[w].add(p)
        for m in re.finditer(r"(?m)^ *(?:abbrev |unfoldable |pub )*([a-z][^\s(){}.;,]*)(?: \{[^{}\n]*\})* :", code):
            declared[m[1]].add(p)
    # a word that the list names turns in the files of antt alone, whatever its spelling is now
    for old, new in SPECIAL.items():
        table[old] = new
    if check:
        back = collections.defaultdict(set)
        for old, new in table.items():
            back[new].add(old)
        for new, olds in sorted(back.items()):
            both = set(olds) | ({new} if new in declared else set())
            if len(both) > 1:
                tops = {o: sorted(declared.get(o, ()))[:4] for o in both}
                print("together:", new, tops)
        # in one file, a name that turns into one that stands there already
        for p in lemma_files:
            code = QUIET.sub(" ", read(p))
            words = set(NAME.findall(code))
            theirs, _ = imported(read(p), ours)
            new = collections.defaultdict(set)
            for w in words:
                new[table.get(w, w) if w not in theirs else w].add(w)
            for n, olds in new.items():
                if len(olds) > 1:
                    print("in one file:", p, n, sorted(olds))
        print(len(table), "names")
        return 0
    texts = {}
    for p in lemma_files + proof_files:
        t = read(p)
        theirs, own = imported(t, ours)
        if is_proof(p):
            made = {m[1] for m in re.finditer(r"(?m)^(?:pub |abbrev )*(\S+) :", t)}
            texts[p] = turn_antt(t, table, (theirs | made) - own)
        else:
            texts[p] = turn_antt(t, table, theirs)
    for p in files(lambda p: p.endswith(".rt")):
        t = read(p)
        theirs, own = imported(t, ours)
        texts[p] = turn_rt(t, {o: n for o, n in table.items() if is_old(o) or o in own}, theirs - own)
    for p in files(lambda p: p.endswith(".edit")):
        lines, of = [], ""
        for l in read(p).splitlines(keepends=True):
            if l.startswith("file:"):
                of = l.split(":", 1)[1].strip()
            if l.startswith(("old:", "new:")):
                source = os.path.join(os.path.dirname(os.path.dirname(p)), of)
                stays = set()
                if os.path.exists(source):
                    theirs, own = imported(read(source), ours)
                    stays = theirs - own
                if of.endswith(".antt"):
                    l = l[:4] + turn_text(l[4:], table, stays)
                else:
                    l = l[:4] + turn_rt_row(l[4:], table, stays)
            lines.append(l)
        texts[p] = "".join(lines)
    pages = ["README.md"] + [os.path.join(d, f) for d, _, fs in os.walk("docs") for f in fs if f.endswith(".md")]
    for p in pages:
        texts[p] = turn_spans(read(p), table, set())
    n = 0
    for p, t in texts.items():
        if t != read(p):
            n += 1
            with open(p, "w", encoding="utf-8") as f:
                f.write(t)
    print(n, "files,", len(table), "names")
    return 0


def turn_rt_row(row, table, stays):
    """A row of an edit of a .rt file: a whole clause or ghost item, or code, which is left."""
    if re.search(r"\b(?:requires|ensures)\b|\bghost\b", row):
        return turn_rt(row, table, stays)
    return row


if __name__ == "__main__":
    raise SystemExit(main(sys.argv[1:]))
