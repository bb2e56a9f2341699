#!/usr/bin/env python3
"""tools/vectors_by_definition.py VECTORS [PER]: from the repository's root. Computes the definition of reading, not the code, on every
message of VECTORS/read.txt and VECTORS/05-unknown/read.txt, and holds the outcome to the vectors: for a refusal number, place, standard
answer, IDs; for an accepted message every value of VECTORS/records.jsonl. The tables are proved statements in a crate of their own, in a folder that is removed afterwards; PER
messages stand in a statement. Not in the gate: it takes minutes."""
import json, os, shutil, subprocess, sys, tempfile

vectors, per = sys.argv[1], int(sys.argv[2]) if len(sys.argv) > 2 else 20

KIND = {"unidirectional": 0, "begin": 1, "end": 2, "continue": 3, "abort": 4}
ROW = {"invoke": 1, "last": 2, "notlast": 3, "error": 4, "reject": 5}


def string(h):
    return [len(h) // 2] + list(bytes.fromhex(h))


def maybe(s):
    return [0] if s is None else [1] + string(s["hex"])


def signed(n):
    return [0, n] if n >= 0 else [1, -1 - n]


def maybe_signed(n):
    return [0] if n is None else [1] + signed(n)


def code(c):
    if c is None:
        return [0]
    if c[0] == "local":
        return [1] + signed(c[1])
    if c[0] == "global":
        return [2] + string(c[1]["hex"])
    return [3, c[1], c[2]]


def dialogue(d):
    if d is None:
        return [0]
    p = d["pdu"]
    if p == "cause":
        return [1, d["cause"]]
    if p == "request":
        return [2] + string(d["acn"]["hex"]) + maybe(d["ui"])
    if p == "response":
        return [3] + string(d["acn"]["hex"]) + [d["result"], 0 if d["source"] == "user" else 1, d["diag"]] + maybe(d["ui"])
    if p == "abort":
        return [4, d["source"]] + maybe(d["ui"])
    if p == "uni":
        return [5] + string(d["acn"]["hex"]) + maybe(d["ui"])
    return [6 if d["form"] == "A0" else 7] + string(d["name"]["hex"]) + string(d["octets"]["hex"])


def accepted(r):
    out = [1, KIND[r["kind"]]] + maybe(r["otid"]) + maybe(r["dtid"]) + dialogue(r["dialogue"]) + [len(r["components"])]
    for c in r["components"]:
        out += [ROW[c["kind"]]] + maybe_signed(c["id"]) + maybe_signed(c["linked"]) + code(c["code"])
        out += [0] if c["param"] is None else [1] + c["param_place"] + string(c["param"]["hex"])
    return out


def refused(first, second):
    w, x = first.split(), second.split()
    out = [0, int(w[1]), int(w[2])]
    if w[3] == "cause":
        out += [0, int(w[4])]
    else:
        out += [1, int(w[4]), int(w[6])] + ([0] if x[3] == "-" else [1] + signed(int(x[3])))
    return out + ([0] if x[1] == "-" else [1] + string(x[1]))


records = {}
for line in open(os.path.join(vectors, "records.jsonl")):
    r = json.loads(line)
    records[r["message"].upper()] = r["record"]

cases, current = [], None
for name in ("read.txt", "05-unknown/read.txt"):
    for line in open(os.path.join(vectors, name)):
        line = line.rstrip("\n")
        if line.startswith(">"):
            current = (line[1:].strip().upper(), [])
            cases.append(current)
        else:
            current[1].append(line)

SUMMARY = """-- A reading as a list of numbers. Assumes nothing.
use Rattle.std.specs.Prelude.{Option as Optional, Some, None, Result, Ok, Err}
use Prim.Native.Nat.{ℕ}
use mathlib.Core.List.{List, [], ◌∷◌, ◌++◌}
use lib.ListN.{take, drop}
use lib.IntN.{ℤ, pos, negsuc}
use Rattle.element.specs.Fault.{number_of}
use Rattle.tcap.specs.declared.{Span.Span, OrigTransactionId.OrigTransactionId, DestTransactionId.DestTransactionId, Code.Code, Problem.Problem, ComponentKind.ComponentKind, Row.Row, Diagnostic.Diagnostic, Dialogue.Dialogue, MessageKind.MessageKind, Record.Record, Answer.Answer, Refusal.Refusal}
use Rattle.tcap.proofs.Computing.{reading_of}

abbrev pub kind : MessageKind → ℕ
kind MessageKind.Unidirectional = 0
kind MessageKind.Begin = 1
kind MessageKind.End = 2
kind MessageKind.Continue = 3
kind MessageKind.Abort = 4

abbrev pub signed : ℤ → List ℕ
signed (pos n) = 0 ∷ n ∷ []
signed (negsuc n) = 1 ∷ n ∷ []

abbrev pub invoke_id : Optional ℤ → List ℕ
invoke_id None = 0 ∷ []
invoke_id (Some i) = 1 ∷ signed i

abbrev pub problem : Problem → List ℕ
problem (Problem.General n) = 3 ∷ 0 ∷ n ∷ []
problem (Problem.OfInvoke n) = 3 ∷ 1 ∷ n ∷ []
problem (Problem.OfResult n) = 3 ∷ 2 ∷ n ∷ []
problem (Problem.OfError n) = 3 ∷ 3 ∷ n ∷ []

abbrev pub source : Diagnostic → List ℕ
source (Diagnostic.ByUser n) = 0 ∷ n ∷ []
source (Diagnostic.ByProvider n) = 1 ∷ n ∷ []

module _ (m : List ℕ) where
  abbrev pub string : Span → List ℕ
  string s = s.len ∷ take s.len (drop s.place m)

  abbrev pub optional : Optional Span → List ℕ
  optional None = 0 ∷ []
  optional (Some s) = 1 ∷ string s

  abbrev pub parameter : Span → List ℕ
  parameter s = 1 ∷ s.place ∷ s.len ∷ string s

  abbrev pub parameter? : Optional Span → List ℕ
  parameter? None = 0 ∷ []
  parameter? (Some s) = parameter s

  abbrev pub code : Code → List ℕ
  code (Code.Local z) = 1 ∷ signed z
  code (Code.Global s) = 2 ∷ string s

  abbrev pub returned : Optional (Code × Span) → List ℕ
  returned None = 0 ∷ 0 ∷ 0 ∷ []
  returned (Some (c, p)) = 0 ∷ (code c ++ parameter p)

  abbrev pub row : Optional ℤ → ComponentKind → List ℕ
  row i (ComponentKind.Invoke l c p) = 1 ∷ (invoke_id i ++ (invoke_id l ++ (code c ++ parameter? p)))
  row i (ComponentKind.ResultLast r) = 2 ∷ (invoke_id i ++ returned r)
  row i (ComponentKind.ResultNotLast r) = 3 ∷ (invoke_id i ++ returned r)
  row i (ComponentKind.ReturnError c p) = 4 ∷ (invoke_id i ++ (0 ∷ (code c ++ parameter? p)))
  row i (ComponentKind.Reject q) = 5 ∷ (invoke_id i ++ (0 ∷ (problem q ++ (0 ∷ []))))

  unfoldable pub rows : List Row → List ℕ
  rows [] = []
  rows (r ∷ rs) = row r.id r.kind ++ rows rs

  abbrev pub dialogue : Dialogue → List ℕ
  dialogue Dialogue.NoDialogue = 0 ∷ []
  dialogue (Dialogue.Cause n) = 1 ∷ n ∷ []
  dialogue (Dialogue.Request n u) = 2 ∷ (string n ++ optional u)
  dialogue (Dialogue.Response n r s u) = 3 ∷ (string n ++ (r ∷ (source s ++ optional u)))
  dialogue (Dialogue.DialogueAbort r u) = 4 ∷ r ∷ optional u
  dialogue (Dialogue.Unidialogue n u) = 5 ∷ (string n ++ optional u)
  dialogue (Dialogue.OutsideElement n e) = 6 ∷ (string n ++ string e)
  dialogue (Dialogue.OutsideOctets n c) = 7 ∷ (string n ++ string c)

  abbrev pub orig : Optional OrigTransactionId → List ℕ
  orig None = 0 ∷ []
  orig (Some o) = 1 ∷ string o.0.octets

  abbrev pub dest : Optional DestTransactionId → List ℕ
  dest None = 0 ∷ []
  dest (Some e) = 1 ∷ string e.0.octets

  abbrev pub answer : Answer → List ℕ
  answer (Answer.AbortCause n) = 0 ∷ n ∷ []
  answer (Answer.RejectProblem n k i) = 1 ∷ n ∷ k ∷ invoke_id i

  abbrev pub outcome : Result Record Refusal → List ℕ
  outcome (Ok r) = 1 ∷ kind r.kind ∷ (orig r.orig ++ (dest r.dest ++ (dialogue r.dialogue ++ (r.count ∷ rows (take r.count r.rows)))))
  outcome (Err f) = 0 ∷ number_of f.kind ∷ f.place ∷ (answer f.answer ++ orig f.orig)

unfoldable pub summary : List ℕ → List ℕ
unfolding reading_of rows
summary m = outcome m (reading_of m)
"""


def numbers(ns, form="%d"):
    return "".join(form % n + " ∷ " for n in ns) + "[]"


rows, told = [], 0
for m, lines in cases:
    if lines[0].startswith("refused"):
        told += 1
        want = refused(lines[0], lines[1])
    else:
        want = accepted(records[m])
    rows.append("(%s, %s)" % (numbers(bytes.fromhex(m), "0x%02X"), numbers(want)))

top = tempfile.mkdtemp()
try:
    shutil.copytree("crates", os.path.join(top, "crates"))
    listed = open("crates.txt").read()
    files = []
    d = os.path.join(top, "crates", "bydefinition")
    for sub in ("src", "proofs"):
        os.makedirs(os.path.join(d, sub))
    open(os.path.join(d, "src", "lib.rt"), "w").write("// No code: tables of examples.\npub fn one() -> usize {\n    1\n}\n")
    open(os.path.join(d, "proofs", "Summary.antt"), "w").write(SUMMARY)
    for i in range(0, len(rows), per * 10):
        name = "Table%d" % (i // (per * 10))
        text = [
            "-- Messages of the vectors, each read as they say. Assumes nothing.",
            "use Prim.Native.Nat.{ℕ}",
            "use mathlib.Core.Path.{◌≡◌, refl}",
            "use mathlib.Core.List.{List, [], ◌∷◌, map}",
            "use Rattle.bydefinition.proofs.Summary.{summary}",
        ]
        for j in range(i, min(i + per * 10, len(rows)), per):
            some = rows[j : j + per]
            text += ["", "abbrev table%d : List (List ℕ × List ℕ)" % j, "table%d =" % j]
            text += ["    %s%s" % ("∷ " if k else "", r) for k, r in enumerate(some)] + ["    ∷ []"]
            text += ["", "pub read%d : map (λ (r : List ℕ × List ℕ). summary r.0) table%d ≡ map (λ (r : List ℕ × List ℕ). r.1) table%d" % (j, j, j)]
            text += ["unfolding summary", "read%d = refl" % j]
        open(os.path.join(d, "proofs", name + ".antt"), "w").write("\n".join(text) + "\n")
        files.append(name)
    open(os.path.join(d, "proofs", "Lib.antt"), "w").write("pub mod Summary\n" + "".join("pub mod %s\n" % f for f in files))
    open(os.path.join(top, "crates.txt"), "w").write(listed + "bydefinition: tcap element base\n")
    done = subprocess.run(["rt", "check"], cwd=d)
    print("%d messages, %d of them refused: %s" % (len(rows), told, "all as the vectors say" if done.returncode == 0 else "NOT all as the vectors say"))
    sys.exit(done.returncode)
finally:
    shutil.rmtree(top, ignore_errors=True)
