#!/usr/bin/env python3
"""tools/forms.py [POINT..]: from the repository's root. Places of crates/*/src where a form of docs/DESIGN-PASS.md may stand, by its points 1 to 7, one
line each, and how many of each; 8 counts the files and lines of the proofs. A place found is one to look at: the page says which stay, and why."""
import glob
import re
import sys

FILES = sorted(glob.glob("crates/*/src/*.rt"))
TEXT = {p: open(p, encoding="utf-8").read() for p in FILES}
FN = re.compile(r"^( *)(?:pub )?(?:extern \"C\" )?fn (\w+)(.*?)^\1\}$", re.S | re.M)


def functions():
    for p in FILES:
        for m in FN.finditer(TEXT[p].split("#[cfg(test)]")[0]):
            whole = m.group(3)
            at = re.search(r"^" + m.group(1) + r"\{$|\{$", whole, re.M)
            yield p, m.group(2), whole[: at.start()], whole[at.start():]


def where(p, name):
    return p.replace("crates/", "").replace("/src/", "::").replace("lib.rt", "").replace(".rt", "::").replace("::", "::", 1) + name


def shaped():
    """1: enums of two or three cases of which one is empty or a fault and one holds a value; a flag or a result beside a value in a struct; answers in numbers"""
    for p in FILES:
        for m in re.finditer(r"^\s*(?:pub )?enum (\w+) \{\n(.*?)^\s*\}", TEXT[p], re.S | re.M):
            cases = re.findall(r"^\s*(\w+)(\(.*\)| \{.*)?,$", re.sub(r"\{[^{}]*\}", "{..}", m.group(2)), re.M)
            bad = [c for c, held in cases if c in ("Refused", "Fault", "Bad", "Wrong", "NoRoom", "TooLong")]
            if len(cases) == 2 and sum(1 for c, held in cases if held) >= 1 and (sum(1 for c, held in cases if not held) == 1 or bad):
                yield where(p, m.group(1)), "an enum of the shape of Option or Result"
            elif bad and len(cases) > 2 and any(held for c, held in cases if c in bad):
                yield where(p, m.group(1)), "an enum with a case for what is refused"
        for m in re.finditer(r"struct (\w+)[^{;]*\{\n(.*?)^\}", TEXT[p], re.S | re.M):
            if re.search(r"^\s*(?:pub )?outcome: ", m.group(2), re.M):
                yield where(p, m.group(1)), "an outcome beside a value"
    for p, name, head, body in functions():
        if re.search(r">= FAULT|FAULT \+|(?:CUT_OFF|BAD_TAG|BAD_LENGTH|PASSES_END|TOO_DEEP|CODE_ZERO|OVERLONG|NO_MESSAGE|OCTETS_AFTER|MISSING|ANOTHER|TOO_MANY|BAD_CONTENTS|SEVENTEENTH|UNKNOWN_COMPONENT) \+", body):
            yield where(p, name), "a number that is a place or a fault"
        elif re.search(r"-> usize", head) and re.search(r"return 0;|=> 0,", body) and not re.search(r"put_|back_", body):
            yield where(p, name), "a number of which 0 says none"
        if re.search(r"-> u8\b", head) and re.search(r"=> \d,|return \d;", body):
            yield where(p, name), "a number for a kind"


def twins():
    """2: functions that are the same but for names, numbers and types"""
    seen = {}
    for p, name, head, body in functions():
        text = re.sub(r"^\s*//.*$", "", head + body, flags=re.M)
        text = re.sub(r"^\s*(?:ensures|requires).*$", "", text, flags=re.M)
        names = {}
        shape = re.sub(r"b\"[^\"]*\"|0x[0-9A-Fa-f]+|\b\d+\b", "0", text)
        shape = re.sub(r"[A-Za-z_]\w*", lambda m: names.setdefault(m.group(0), "x%d" % len(names)), shape)
        shape = re.sub(r"\s+", " ", shape)
        if len(shape) > 60:
            seen.setdefault(shape, []).append(where(p, name))
    for shape, all_ in sorted(seen.items(), key=lambda x: x[1]):
        if len(all_) > 1:
            yield ", ".join(all_), "%d functions of one shape" % len(all_)


def loops():
    """3: loops that count by hand"""
    for p, name, head, body in functions():
        for m in re.finditer(r"while ([^{]*)\{", body):
            names = re.findall(r"[a-z_]\w*", m.group(1))
            if any(re.search(r"\b" + n + r" (?:\+=|-=|= " + n + r" [+-]) (?:\d+|[A-Z_]+);", body) for n in names):
                yield where(p, name), "while " + m.group(1).strip()


def by_hand():
    """4: equality, order, conversion and printing by hand"""
    for p, name, head, body in functions():
        arms = re.findall(r"=> (?:\w+::)?(\w+|\d+),?$", body, re.M)
        chain = re.findall(r"if (?:\w+|\w+\[\d\]) == (?:0x\w+|\d+|b'.') \{\n\s*return ([\w:]+|\d+);", body)
        if len(chain) >= 2:
            yield where(p, name), "a chain of comparisons with constants"
        elif re.search(r"^\s*match ", body, re.M) and len(arms) >= 3 and len(arms) == len(re.findall(r"=>", body)):
            yield where(p, name), "a table from one type to another"
        elif re.match(r"same_|are_|is_", name) and len(re.findall(r"return (?:true|false);", body)) >= 1:
            yield where(p, name), "a test in steps"
        elif re.search(r"return (?:true|false);", body):
            yield where(p, name), "a test in steps"


def facts():
    """5: facts that stand in the contracts of three or more functions, and parameters that travel together in three or more"""
    fact, group = {}, {}
    for p, name, head, body in functions():
        for r in re.findall(r"requires (?:\w+ )?\{ (.*) \}", head):
            for part in re.split(r" × ", r):
                part = part.strip()
                while part.startswith("(") and part.endswith(")"):
                    part = part[1:-1]
                fact.setdefault(part, set()).add(where(p, name))
        m = re.match(r"(?:<[^>]*>)?\(([^{}]*?)\)\s*(?:->|$)", head.strip(), re.S)
        params = tuple(re.sub(r"\s+", " ", x).strip() for x in re.split(r",", m.group(1)) if ":" in x) if m else ()
        for n in (4, 3):
            for i in range(len(params) - n + 1):
                group.setdefault(params[i:i + n], set()).add(where(p, name))
    for k, v in sorted(fact.items(), key=lambda x: -len(x[1])):
        if len(v) >= 3:
            yield k, "in %d contracts" % len(v)
    for k, v in sorted(group.items(), key=lambda x: -len(x[1])):
        if len(v) >= 3:
            yield "(" + ", ".join(k) + ")", "in %d functions" % len(v)


def buffers():
    """6: buffers with a length beside them, arrays with a count beside them"""
    for p, name, head, body in functions():
        for m in re.finditer(r"let mut (\w+) = \[0u8; (\w+)\];", body):
            yield where(p, name), "%s of %s octets" % m.groups()
        if re.search(r"\[\w+; \w+\], (?:count|len)", head):
            yield where(p, name), "an array and how many of it count"
    for p in FILES:
        for m in re.finditer(r"^\s*(?:pub )?(\w+): \[(\w+); ([\w:]+)\],$", TEXT[p], re.M):
            yield where(p, m.group(1)), "an array of %s" % m.group(3)


def switches():
    """7: a switch on which step to run"""
    for p in FILES:
        for m in re.finditer(r"^enum (\w+) \{\n(?:    \w+,\n)+\}", TEXT[p], re.M):
            yield where(p, m.group(1)), "an enum of the program's own that says what to run"
        for m in re.finditer(r"\bfn\(|\[fn", TEXT[p]):
            yield where(p, m.group(0)), "a function pointer"


def proofs():
    """8: files and lines of proofs"""
    found = sorted(glob.glob("crates/*/proofs/**/*.antt", recursive=True))
    answers = [p for p in found if p.endswith("/Answers.antt")]
    invariants = [p for p in found if p.endswith("/Invariants.antt")]
    for what, files in (("Answers.antt", answers), ("Invariants.antt", invariants), ("lemmas", [p for p in found if p not in answers and p not in invariants])):
        yield what, "%d files, %d lines" % (len(files), sum(open(p, encoding="utf-8").read().count("\n") for p in files))


POINTS = {"1": shaped, "2": twins, "3": loops, "4": by_hand, "5": facts, "6": buffers, "7": switches, "8": proofs}
for point in sys.argv[1:] or POINTS:
    places = list(POINTS[point]())
    for place, what in places:
        print("%s  %s: %s" % (point, place, what))
    print("point %s: %d" % (point, len(places)))
