#!/usr/bin/env python3
"""Spells the repository's own definitions and lemmas in snake case: numberFrom becomes number_from, integer-back integer_back.

usage: respell.py [--check]      at the top of the repository; --check writes nothing and lists what would change

Own names are those that specs/ and proofs/ declare: definitions, lemmas, constructors, fields. Types and modules keep their capitals. A name that
Rattle makes (a goal, a label) stays, and so does text in quotation marks; in a comment a name with a capital inside turns, and one with a dash does
not, since it may be a word. Of two names that would fall together in a file the definition has the plain one, and the lemma gets _lem (meets:).

"""

import collections
import glob
import re
import sys

WORD = re.compile(r'[^\s(){}.;,@"«»\[\]|]+')
QUIET = re.compile(r'"(?:[^"\\\n]|\\.)*"|(?<![^\s(){}.;,@"«»])--[^\n]*', re.S)
DECLARED = re.compile(r"(?m)^ *(?:(?:pub|abbrev|unfoldable|ruleset) )*(\S+)(?: \{[^{}\n]*\})* : *(\S+)?")
SEVERAL = re.compile(r"(?m)^ *(?:(?:pub|abbrev|unfoldable) )*((?:[a-z]\S* )+[a-z]\S*) : ")
RULESET = re.compile(r"(?m)^ *(?:pub )?ruleset(?: pub)? (\S+)")
INLINE = re.compile(r"[{;] *([a-z]\S*) :")
OWN = re.compile(r"[a-z][A-Za-z0-9_'-]*[₀-₉]*")
MADE = re.compile(r"(?:tie|goal)\.")
OTHERWISE = {}


def snake(name):
    words = re.sub(r"(?<=[a-z0-9])[A-Z]", lambda m: "_" + m[0].lower(), name)
    return words.replace("-", "_")


def read(path):
    with open(path, encoding="utf-8") as f:
        return f.read()


def in_folder(path):
    """Whether a file belongs to the proof of one function."""
    return bool(re.search(r"/proofs/.*/(Proof|Answers|Invariants)\.antt$", path))


def declared(path, text):
    code = QUIET.sub(" ", text)
    names = set()
    made = set()
    for name, of in DECLARED.findall(code):
        (made if in_folder(path) and of and MADE.match(of) else names).add(name)
    for several in SEVERAL.findall(code):
        names.update(several.split())
    names.update(RULESET.findall(code))
    names.update(INLINE.findall(code))
    if in_folder(path):
        names = {n for n in names if not n.endswith("-spec")}
    return {n for n in names if OWN.fullmatch(n)} - made, made


def imported(text, crates):
    """What a file takes from a library that is not the repository's."""
    names = set()
    for path, items in re.findall(r"\buse ([^\s;{]+?)\.?\{([^}]*)\}", text):
        steps = path.split(".")
        if not (steps[0] == "Rattle" and len(steps) > 1 and steps[1] in crates):
            names.update(i.split(" as ")[0].strip() for i in items.split(","))
    return names


def main():
    crates = {p.split("/")[1] for p in glob.glob("crates/*/src")}
    check = "--check" in sys.argv[1:]
    files = sorted(glob.glob("crates/*/specs/**/*.antt", recursive=True) + glob.glob("crates/*/proofs/**/*.antt", recursive=True))
    sources = sorted(glob.glob("crates/*/src/**/*.rt", recursive=True))
    texts = {p: read(p) for p in files + sources}
    own, made_in, local, local_otherwise = set(), {}, collections.defaultdict(set), {}
    for p in files:
        names, made_in[p] = declared(p, texts[p])
        if in_folder(p):
            local[p] = names
        else:
            own |= names
    table = {n: OTHERWISE.get(n, snake(n)) for n in own if OTHERWISE.get(n, snake(n)) != n}
    camel = {snake(n) for n in own if re.search("[a-z0-9][A-Z]", n)}
    table.update({n: snake(n) + "_lem" for n in own if "-" in n and snake(n) in camel})
    # two names that would fall together in some file: the definition has the plain name, a lemma about it gets _lem
    for p in files:
        code = QUIET.sub(" ", texts[p])
        here = set(re.findall(r"(?<![.\w'-])" + OWN.pattern, code)) & set(WORD.findall(code))
        local_here = {n: snake(n) for n in local[p] if snake(n) != n and n not in table}
        by_new = collections.defaultdict(set)
        for w in here - made_in[p]:
            by_new[table.get(w, local_here.get(w, w))].add(w)
        for new, olds in sorted(by_new.items()):
            if len(olds) > 1:
                first = sorted(olds, key=lambda w: (not re.search("[a-z][A-Z]", w), "-" in w, w))[0]
                for w in sorted(olds - {first}):
                    if w in own or w in local[p]:
                        print("meets:", p, w, "becomes", new + "_lem")
                        if w in own:
                            table[w] = new + "_lem"
                        else:
                            local_otherwise[p, w] = new + "_lem"
                    else:
                        print("by hand:", p, new, sorted(olds))
    changed = 0
    for p in files + sources:
        both = dict(table)
        both.update({n: local_otherwise.get((p, n), snake(n)) for n in local[p] if n not in table and local_otherwise.get((p, n), snake(n)) != n})
        for n in made_in.get(p, ()):
            both.pop(n, None)
        for n in imported(texts[p], crates) & set(both):
            print("library:", p, n)
            both.pop(n)

        def turn(text, comment=False):
            def one(m):
                w = m[0]
                if comment and not re.search("[a-z][A-Z]", w):
                    return w
                return both.get(w, w)

            return WORD.sub(one, text)

        out, at, text = [], 0, texts[p]
        quiet = QUIET if p.endswith(".antt") else re.compile(r'"(?:[^"\\\n]|\\.)*"|//[^\n]*')
        for m in quiet.finditer(text):
            out += [turn(text[at : m.start()]), m[0] if m[0][0] == '"' else turn(m[0], True)]
            at = m.end()
        out.append(turn(text[at:]))
        new = "".join(out)
        if new != text:
            changed += 1
            if not check:
                with open(p, "w", encoding="utf-8") as f:
                    f.write(new)
    print(len(table), "names turn,", changed, "files change")
    if check:
        for n in sorted(table):
            print(" ", n, table[n])


main()
