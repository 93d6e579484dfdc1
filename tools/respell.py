#!/usr/bin/env python3
"""Brings the repository's own definitions and lemmas to the spelling of today's Rattle: functions, lemmas and fields in snake case, where a dash stands only
between two names of definitions after which a lemma is named.

usage: python3 tools/respell.py KIT [PATH..]    at the top of the repository, once, after port.py; KIT is the folder of the kit's library (rattle/ in the kit)

It turns whole names, in .antt files, in the clauses and comments of .rt files, in must-fail edits and in code spans of pages. Names that fall together in one
file are shown on lines 'together:', and nothing is written.
"""

import collections
import glob
import os
import re
import sys

WORD = re.compile(r"[^\s(){}.;,@\"«»]+")
DECL = re.compile(r"^\s*(?:(?:pub|abbrev|unfoldable|pattern) )*([^\s(){}.;,@\"«»]+)(?: \{[^}]*\})? :(?: |$)", re.M)
COMMENT = re.compile(r"(?<![^\s(){}.;,@\"«»])--[^\n]*")
STRING = re.compile(r"\"(?:[^\"\\\n]|\\.)*\"")
CAMEL = re.compile(r"[a-z][a-z0-9]*[A-Z]\w*'*\Z")
# Names of definitions between which a dash stands, after which lemmas are named.
WORDS = set("length get_or take drop append map flat_map reverse set sets replicate mem table table_from bit pow xor lt zero".split())
# Fields of a problem, which stand behind a dot, so that a place, a row or a count may have their names.
FIELDS = {"function_count", "vertex_count", "edge_count", "loop_count"}
# A function of src/ whose module a proof names.
RUST = {"problem_of"}
# Names that would fall together with another, or with a field or a function of the file, and what they become.
CHOSEN = {"no_way": "way_less", "Drawn-lawful": "DrawnLawful", "Makes-of": "MakesOf", "Kept-run": "KeptRun"}


def snake(word):
    if word == "getD":
        return "get_or"
    word = re.sub(r"(?<=[a-z0-9])(?=[A-Z])", "_", word)
    return word.lower() if re.match(r"[a-z]", word) else word


def lemma_files():
    return sorted(glob.glob("crates/*/specs/*.antt") + glob.glob("crates/*/proofs/*.antt"))


def proof_files():
    return sorted(p for p in glob.glob("crates/*/proofs/*/**/*.antt", recursive=True))


def code(text):
    return COMMENT.sub("", STRING.sub('""', text))


def kit_names(kit):
    names = set()
    for p in glob.glob(kit + "/**/*.antt", recursive=True):
        with open(p, encoding="utf-8", errors="replace") as f:
            names.update(DECL.findall(f.read()))
    return names


def new_name(old, defined):
    """The name in snake case; a dash stays between two groups of words that each begin with a definition's name."""
    if old in CHOSEN:
        return CHOSEN[old]
    tail = re.search(r"'*\Z", old)[0]
    bare = old[: len(old) - len(tail)] if tail else old
    parts = [snake(p) for p in bare.split("-")]
    if len(parts) == 1:
        return parts[0] + tail

    def longest(at):
        for end in range(len(parts), at, -1):
            if "_".join(parts[at:end]) in defined:
                return end
        return at

    groups, at = [], 0
    while at < len(parts):
        end = longest(at)
        if end > at:
            groups.append("_".join(parts[at:end]))
            at = end
        elif groups:
            groups[-1] += "_" + parts[at]
            at += 1
        else:
            return "_".join(parts) + tail
    return "-".join(groups) + tail


def imported(text, library):
    """The names that a file imports from outside the repository's crates."""
    found = set()
    for path, names in re.findall(r"^(?:pub )?(?:ghost )?use ([^\s{;]+)\.\{([^}]*)\}", text, re.M):
        parts = path.split(".")
        own = parts[0] == "Rattle" and parts[1] in library
        if not own:
            found.update(n.strip().split(" as ")[0] for n in names.split(","))
    return found


def main(argv):
    kit = kit_names(argv[0])
    library = set(os.listdir("crates"))
    texts = {p: open(p, encoding="utf-8").read() for p in lemma_files() + proof_files()}
    lemmas = set(lemma_files())
    declared, defined, local = set(), WORDS, set()
    for p in lemmas:
        t = code(texts[p])
        declared.update(DECL.findall(t))
        local.update(w for w in WORD.findall(t) if w in CHOSEN or ("-" in w.strip("-") or CAMEL.match(w)) and w not in kit and not w.startswith("Need-"))
    table = {}
    for n in declared | local:
        if not ("-" in n.strip("-") or CAMEL.match(n) or n in CHOSEN):
            continue
        if not re.match(r"[\wλ'-]+\Z", n) or re.search(r"\d-\d", n):
            print("look:", n)
            continue
        new = new_name(n, defined)
        if new != n:
            table[n] = new
    settle(table, texts, lemmas, declared)
    together = 0
    for p in sorted(lemmas):
        words = set(WORD.findall(code(texts[p])))
        known = imported(texts[p], library)
        back = collections.defaultdict(set)
        for w in words:
            back[table.get(w, w) if w not in known else w].add(w)
        for new, olds in sorted(back.items()):
            if len(olds) > 1 and new not in FIELDS | RUST and not any(re.match(r"[A-Z]", o) for o in olds):
                together += 1
                print(f"together: {p}: {' '.join(sorted(olds))} -> {new}")
    if together and "--all-the-same" not in argv:
        return 1
    write(table, texts, lemmas, library)
    return 0


def settle(table, texts, lemmas, declared):
    """A lemma that would have a definition's or a field's name ends in _lem."""
    in_specs, in_proofs, words = set(), set(), set()
    for p in lemmas:
        t = code(texts[p])
        (in_specs if "/specs/" in p else in_proofs).update(DECL.findall(t))
        words.update(WORD.findall(t))
    for p in sorted(glob.glob("crates/*/src/*.rt")):
        in_specs.update(re.findall(r"\bfn (\w+)", open(p, encoding="utf-8").read()))
    by_new = collections.defaultdict(set)
    for w in words:
        by_new[table.get(w, w)].add(w)
    for new, olds in by_new.items():
        if len(olds) < 2:
            continue
        for o in olds:
            if "-" in o and table.get(o) == new:
                table[o] = new + "_lem"
            elif o == new and o in in_proofs and o not in in_specs and o not in FIELDS:
                table[o] = new + "_lem"


def turn(text, table):
    def one(m):
        w = m[0]
        bare = w.rstrip("'")
        return table.get(w) or (table[bare] + w[len(bare) :] if bare in table else w)

    return WORD.sub(one, text)


def turn_comment(text, table):
    """A comment's names: one in camel case anywhere, one with a dash only between backticks."""
    text = re.sub(r"`[^`\n]+`", lambda m: turn(m[0][1:-1], table).join("``"), text)
    return re.sub(r"\b[a-z][a-z0-9]*[A-Z]\w*", lambda m: table.get(m[0], m[0]), text)


def turn_antt(text, table, library):
    known = imported(text, library)
    table = {k: v for k, v in table.items() if k not in known}
    out, at = [], 0
    for m in re.finditer(COMMENT.pattern + "|" + STRING.pattern, text):
        out.append(turn(text[at : m.start()], table))
        out.append(turn_comment(m[0], table) if m[0].startswith("--") else m[0])
        at = m.end()
    out.append(turn(text[at:], table))
    return "".join(out)


RT = re.compile(r"//[^\n]*|b?\"(?:[^\"\\]|\\.)*\"|'(?:[^'\\\n]|\\.)'")
CLAUSES = re.compile(r"\bghost use [^;]*;|\b(?:requires|ensures)\*?(?: \w+)? \{")


def turn_rt(text, table, library):
    known = imported(text.replace(";", ""), library)
    table = {k: v for k, v in table.items() if k not in known}
    spans, at = [], 0
    for m in CLAUSES.finditer(text):
        if m.start() < at:
            continue
        end = m.end()
        if not m[0].endswith(";"):
            depth = 1
            while depth:
                depth += {"{": 1, "}": -1}.get(text[end], 0)
                end += 1
        spans.append((m.start(), end))
        at = end
    out, at = [], 0
    for start, end in spans:
        out.append(RT.sub(lambda m: turn_comment(m[0], table) if m[0].startswith("//") else m[0], text[at:start]))
        out.append(turn(text[start:end], table))
        at = end
    out.append(RT.sub(lambda m: turn_comment(m[0], table) if m[0].startswith("//") else m[0], text[at:]))
    return "".join(out)


def put(path, text):
    with open(path, encoding="utf-8") as f:
        old = f.read()
    if old != text:
        with open(path, "w", encoding="utf-8") as f:
            f.write(text)


def write(table, texts, lemmas, library):
    for p, t in texts.items():
        put(p, turn_antt(t, table, library))
    for p in sorted(glob.glob("crates/*/src/*.rt")):
        put(p, turn_rt(open(p, encoding="utf-8").read(), table, library))
    for p in sorted(glob.glob("crates/*/must-fail/*.edit")):
        t = open(p, encoding="utf-8").read()
        put(p, "\n".join(turn(l, table) if re.match(r"old:|new:", l) else l for l in t.split("\n")))
    for p in ["README.md"] + sorted(glob.glob("docs/*.md")):
        t = open(p, encoding="utf-8").read()
        put(p, re.sub(r"`[^`\n]+`", lambda m: turn(m[0][1:-1], table).join("``"), t))
    with open("/tmp/respelled.tsv", "w") as f:
        f.writelines(f"{k}\t{v}\n" for k, v in sorted(table.items()))
    print(f"respell: {len(table)} names")


if __name__ == "__main__":
    sys.exit(main(sys.argv[1:]))
