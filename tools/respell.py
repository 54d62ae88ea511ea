#!/usr/bin/env python3
"""Brings the repository's own definitions, lemmas, variables and modules of specs/ and proofs/ to one spelling:
snake case for words, upper camel case for types, facts and modules.

usage: python3 tools/respell.py [--list]     at the repository's top, after the kit's port.py

It was made for one run, over the commit that docs/PORT.md begins with. It goes by whole names. A name that comes from a library, and a name
that Rattle makes (in the files of a function's proof), stays. In pages it turns only names like aName, between backticks.
--list prints each name with its new spelling, and changes nothing.
"""
import collections
import glob
import os
import re
import subprocess
import sys

# names that do not follow the rule: facts are spelled as types; two names that would fall together; a name of a library that changed
OVER = {
    "wordMeans": "WordMeans",
    "nth-getD": "nth_get_or",
    "leastSize": "least_size_of",
    "clipSlots": "clip_slot_count",
    "builtInSlots": "built_in_slot_count",
    "note-of": "note_by",
    "per-vertex": "per_vertex_read",
    "name-words": "name_word_steps",
    "same-words": "same_words_lem",
}
DELIM = set(" \t\n(){};,.[]|\"@")
DASHED = re.compile(r"^[A-Za-z][A-Za-z0-9_'₀₁₂₃₄₅₆₇₈₉]*(-[A-Za-z0-9_'₀₁₂₃₄₅₆₇₈₉]+)+$")
CAMEL = re.compile(r"^[a-z][a-z0-9_]*[A-Z]")


def new_name(t):
    if t in OVER:
        return OVER[t]
    if not (DASHED.match(t) or CAMEL.match(t)):
        return t
    if t[0].isupper():
        return t
    t = t.replace("-", "_")
    t = re.sub(r"(?<=[a-z])(?=[A-Z]|[0-9]+[A-Z])", "_", t)
    t = re.sub(r"(?<=[0-9])(?=[A-Z][a-z])", "_", t)
    return t.lower() if not re.search("[^\x00-\x7f]", t) else "".join(c.lower() if c.isascii() else c for c in t)


def pieces(text, rust):
    """(piece, is it a name) over the text; comments and strings are no names."""
    i, n = 0, len(text)
    comment = "//" if rust else "--"
    while i < n:
        if text.startswith(comment, i) and (rust or i == 0 or text[i - 1] in " \n\t(") and (rust or i + 2 >= n or text[i + 2] in " \n-"):
            j = text.find("\n", i)
            j = n if j < 0 else j
            yield text[i:j], False
        elif rust and text[i] == '"':
            j = i + 1
            while text[j] != '"':
                j += 2 if text[j] == "\\" else 1
            j += 1
            yield text[i:j], False
        elif text[i] in DELIM:
            j = i + 1
            yield text[i], False
        else:
            j = i
            while j < n and text[j] not in DELIM:
                j += 1
            yield text[i:j], True
        i = j


IMPORT = re.compile(r"^[ \t]*(?:pub )?(?:ghost )?use ([A-Za-z0-9_.+·-]+?)\.\{([^}]*)\}", re.M)
SINGLE = re.compile(r"^[ \t]*(?:pub )?(?:ghost )?use ([A-Za-z0-9_.+·-]+)\.([^\s.{};]+)(?: as \S+)?;?$", re.M)


def imports(text):
    for m in IMPORT.finditer(text):
        for w in m[2].split(","):
            w = w.strip().split(" as ")
            for x in w:
                yield m[1], x.strip()
    for m in SINGLE.finditer(text):
        yield m[1], m[2]


def own(path, crates):
    p = path.split(".")
    return p[0] == "Rattle" and len(p) > 1 and p[1] in crates


def made(path):
    return bool(re.search(r"\.proofs\..*\.(Tie|Statement|Goals|Given|Needs)(\.|$)", path))


# whether a file is one in which Rattle's own names stand: what is written of the proof of one function
def of_function(path, text):
    return os.path.basename(path) == "Proof.antt" or bool(re.search(r"^use \S+\.(Goals|Given) as goal$", text, re.M))


def main():
    listing = "--list" in sys.argv
    os.chdir(subprocess.run(["git", "rev-parse", "--show-toplevel"], capture_output=True, text=True, check=True).stdout.strip())
    crates = {os.path.basename(p) for p in glob.glob("crates/*")}
    antt = sorted(glob.glob("crates/*/specs/**/*.antt", recursive=True) + glob.glob("crates/*/proofs/**/*.antt", recursive=True))
    rt = sorted(glob.glob("crates/*/src/**/*.rt", recursive=True))
    texts = {f: open(f, encoding="utf8").read() for f in antt + rt}

    outside = set()
    for f, t in texts.items():
        for path, name in imports(t):
            if not own(path, crates) or made(path):
                outside.add(name)

    free = [f for f in antt if not of_function(f, texts[f])]
    words = collections.defaultdict(set)
    for f in free:
        for p, is_name in pieces(texts[f], False):
            if is_name and p not in outside:
                words[p].add(f)
    # the names that a hand-written proof declares itself: lemmas beside it
    local = {}
    for f in antt:
        if os.path.basename(f) == "Proof.antt":
            own_names = set()
            for m in re.finditer(r"^ *(?:abbrev |unfoldable )?(?:pub )?([^\s:(){}]+) :", texts[f], re.M):
                if not re.match(r"(invariant|decreases)-loop", m[1]):
                    own_names.add(m[1])
            local[f] = own_names

    table = {}
    for w in words:
        n = new_name(w)
        if n != w:
            table[w] = n

    # a lemma that would have a definition's name gets _lem
    definitions, lemmas = set(), set()
    for f in free:
        for m in re.finditer(r"^ *(abbrev |unfoldable )?(?:pub )?([^\s:(){}]+) :", texts[f], re.M):
            (definitions if m[1] else lemmas).add(m[2])
    alike = collections.defaultdict(set)
    for w in words:
        alike[table.get(w, w)].add(w)
    for n, olds in alike.items():
        if len(olds) > 1:
            first = [w for w in olds if w in definitions] or [w for w in olds if w in table and "-" not in w]
            for w in olds - set(first[:1]):
                if w in lemmas and w not in definitions:
                    table[w] = n + "_lem"

    if listing:
        rev = collections.defaultdict(set)
        for a, b in table.items():
            rev[b].add(a)
        for b in list(rev):
            olds = set(rev[b]) | ({b} if b in words and table.get(b, b) == b else set())
            if len(olds) > 1:
                meet = [f for f in free if sum(f in words[o] for o in olds) > 1]
                print("TOGETHER", b, sorted(olds), meet[:4])
            if b in outside:
                print("LIBRARY", b, sorted(olds))
        fields = collections.Counter()
        for f in rt:
            t = re.sub(r"//[^\n]*", "", texts[f])
            used = {table.get(x, x) for _, x in imports(t)}
            used = {x for x in used if x in rev}
            for m in re.finditer(r"\bfn \w+[^{]*", t):
                for q in re.finditer(r"\b([a-z_0-9]+):", m[0]):
                    if q[1] in used:
                        print("PARAMETER", f, q[1])
        for f in rt:
            for m in re.finditer(r"^    (?:pub )?([a-z_0-9]+): ", texts[f], re.M):
                if m[1] in rev:
                    print("FIELD", f, m[1], sorted(rev[m[1]]))
            for m in re.finditer(r"\bfn ([a-z_0-9]+)", texts[f]):
                if m[1] in rev:
                    fields[m[1]] += 1
        print("FUNCTIONS", len(fields))
        for a in sorted(table):
            print(a, table[a])
        return

    changed = 0
    for f in glob.glob("crates/*/must-fail/*.edit") + glob.glob("README.md") + glob.glob("docs/**/*.md", recursive=True):
        texts[f] = open(f, encoding="utf8").read()
    texts.pop("docs/PORT.md", None)
    for f, t in texts.items():
        proof = f.endswith(".antt") and of_function(f, t)
        rust = f.endswith(".rt") or (f.endswith(".edit") and "file: src/" in t)
        out, last = [], ""
        if f.endswith(".md"):
            new = re.sub(r"`[^`\n]*`", lambda m: "".join(table.get(p, p) if is_name and CAMEL.match(p) else p for p, is_name in pieces(m[0].replace("`", "\t"), False)).replace("\t", "`"), t)
            new = new.replace("specs/inner/", "specs/Inner/")
            if new != t:
                open(f, "w", encoding="utf8").write(new)
                changed += 1
            continue
        if f.endswith(".edit"):
            t = t.replace("file: specs/inner/", "file: specs/Inner/")
        for p, is_name in pieces(t, rust):
            if is_name:
                if proof:
                    if last != "." or re.search(r"Rattle\.[A-Za-z0-9_.+-]+\.$", "".join(out[-12:])):
                        if p in local.get(f, ()):
                            p = new_name(p)
                        elif p in table:
                            p = table[p]
                elif p in table and (not rust or DASHED.match(p) or CAMEL.match(p)):
                    p = table[p]
            out.append(p)
            last = p[-1:] if p else last
        new = "".join(out)
        if f.endswith(".antt"):
            new = re.sub(r"^pub mod inner$", "pub mod Inner", new, flags=re.M)
            new = re.sub(r"(\.specs)\.inner\.", r"\1.Inner.", new)
        if f.endswith(".rt"):
            new = re.sub(r"(\.specs)\.inner\.", r"\1.Inner.", new)
        if new != texts[f]:
            open(f, "w", encoding="utf8").write(new)
            changed += 1
    for d in glob.glob("crates/*/specs/inner") + glob.glob("crates/*/specs/inner.antt"):
        os.rename(d, d.replace("/inner", "/Inner"))
    print(f"respell: {len(table)} names in {changed} files")


if __name__ == "__main__":
    main()
