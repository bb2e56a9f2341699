#!/usr/bin/env python3
"""tools/believed.py [--page | --write | --check]: from the repository's root. Which definitions must be believed: those that the contracts of the public
calls rest on (GROUPS), and those that the statements of the theorems in docs/PROMISES.md rest on. Names are followed from definition to definition, over
the `use` lines of crates/*/src, specs and proofs; bodies of functions and proofs do not count. Lines are those of the definitions and of the
comments on them; imports, blank lines and the heads of files do not count.
Plain: each file's definitions that are reached, and those that are not. --page: the tables of docs/BELIEVED.md. --write: they are put there.
--check: the page has these tables, and every definition of specs/ stands where it belongs: what is not reached in specs/inner, or in a crate
that is inner (INNER); what only theorems name may stand in specs/promises, and then all of it does."""
import glob
import re
import sys

GROUPS = [
    ("Reading", ["read::read"]),
    ("Writing", ["writer::write"]),
    ("Steering", ["steer_rules::steer"]),
    ("Listing", ["listing::list_reading"]),
    ("As octets, for C", ["read::read_octets", "writer::write_octets", "steer_octets::steer_octets", "c_calls::goldenskep_read",
                          "c_calls::goldenskep_write", "c_calls::goldenskep_steer", "c_calls::goldenskep_list", "c_calls::goldenskep_layout"]),
    ("Unitdata", ["sccp_read::read_unitdata", "sccp_write::write_unitdata", "c_calls::goldenskep_unitdata_read", "c_calls::goldenskep_unitdata_write"]),
    ("The table of open transactions", ["open_transactions::empty", "open_transactions::step", "table_octets::step_octets",
                                        "table_number::step_number", "c_calls::goldenskep_transaction"]),
]
# crates whose specs/ are inner as a whole: parts of the reader and the writer; beside them the programs, and what these share
INNER = r"read_\w+|write_\w+|walk|pack|unpack"
PAGE, PROMISES = "docs/BELIEVED.md", "docs/PROMISES.md"
TABLES = re.compile(r"(?<=<!-- tools/believed.py --write -->\n).*(?=<!-- end -->)", re.S)

START = re.compile(r"(?:(?:abbrev|unfoldable|pub) )*(?:(?:data|record) (\S+)|"
                   r"(?!(?:module|mutual|use|mod|unfolding|where|infix[lr]?)\s)([^\s:(){}]+(?: [^\s:(){}=]+)*) :(?:\s|$))")
WORD = re.compile(r"[^\s(){}\[\],;⌜⌝]+")
BOUND = re.compile(r"[({]([^(){}:]+) : |λ ([^.]+)\.|let (\S+) (?::|=)")


class Definition:
    """A definition, a theorem, a type of src/ or a function: its lines from `first` to `last`, and its words."""

    def __init__(self, path, name, first, depth, comment, kind, around):
        self.path, self.name, self.first, self.last = path, name, first, first
        self.depth, self.comment, self.kind, self.around = depth, comment, kind, around
        self.statement, self.clauses = [], []

    def lines(self):
        return self.last - self.first + 1 + self.comment

    def defines(self):
        """What is marked so, in proofs/; the rest there are theorems."""
        return self.kind or "/proofs/" not in self.path or self.statement[0].startswith(("abbrev", "unfoldable"))


class File:
    """Its definitions, `names` of them (a constructor names its data), and where the names that its `use` lines bring come from."""

    def __init__(self, path):
        self.path, self.crate, self.names, self.brought, self.all = path, path.split("/")[1], {}, {}, []
        with open(path, encoding="utf-8") as source:
            self.text = source.read().split("\n")
        (self.rust if path.endswith(".rt") else self.antt)()

    def use(self, line):
        found = re.match(r"(?:ghost )?(?:unfoldable )?(?:pub )?use Rattle\.(\w+)\.(\S+?)\.?\{(.*)\}", line)
        for each in found.group(3).split(",") if found else ():
            path, _, name = each.strip().partition(" as ")
            place, *module, last = (found.group(2) + "." + path).split(".")
            if module[:1] == ["declared"]:
                place, module, last = "src", [], [word for word in module + [last] if word[0].isupper()][0]
            self.brought[(name or path.split(".")[-1]).strip("◌")] = found.group(1), place, "/".join(module), last.strip("◌")

    def add(self, *what):
        self.all.append(Definition(self.path, *what))
        return self.all[-1]

    def antt(self):
        blocks, now, comment = [(0, "")], None, 0
        for i, line in enumerate(self.text):
            words = line.lstrip()
            depth = len(line) - len(words)
            if not words or words.startswith("--"):
                comment = 0 if not words or now is not None and depth > now.depth else comment + 1
                continue
            while depth < blocks[-1][0]:
                blocks.pop()
            found = START.match(words)
            if now is not None and depth > now.depth:
                now.last = i
                if now.clauses and not now.kind:
                    now.clauses[-1] += " " + words
                else:
                    now.statement.append(words)
                    made = re.match(r"([^:(){}]+) : ", words)
                    for name in made.group(1).split() if made and now.kind == "data" else ():
                        self.names.setdefault(name.strip("◌"), now)
            elif words.startswith(("use ", "pub use ", "unfoldable pub use ")):
                self.use(words)
            elif re.match(r"module _|mutual\b", words):
                blocks.append((depth + 2, blocks[-1][1] + " " + words))
                now = None
            elif found:
                kind = re.match(r"(?:pub )?(data|record) ", words)
                now = self.add((found.group(1) or found.group(2)).strip("◌"), i, depth, comment, kind and kind.group(1) or "", blocks[-1][1])
                now.statement.append(words)
                for name in now.name.split(" "):
                    self.names.setdefault(name.strip("◌"), now)
            elif now is not None and not words.startswith("infix"):
                now.last = i
                now.clauses.append("" if words.startswith("unfolding") else words)
            comment = 0

    def rust(self):
        now, comment = None, 0
        self.types = {}
        for crate, path in re.findall(r"^(?:pub )?use (\w+)::([^;]*);", "\n".join(self.text), re.M):
            self.types.update({word: crate for word in re.findall(r"\b[A-Z]\w*", path)})
        for i, line in enumerate(self.text):
            words = line.strip()
            if words.startswith("ghost use"):
                self.use(words)
            found = re.match(r"(?:pub )?(?:extern \"C\" )?(enum|struct|fn) (\w+)", words)
            if found and now is None:
                now = self.add(found.group(2), i, len(line) - len(line.lstrip()), comment, found.group(1), "")
                if now.kind != "fn":
                    self.names[now.name] = now
            if now is not None:
                now.last = i
                now.statement.append(words.split("//")[0])
                if line in (" " * now.depth + "}", " " * now.depth + "{") or now.kind == "struct" and words.endswith(";"):
                    now = None
            comment = comment + 1 if words.startswith("//") else comment if words.startswith("#[") else 0


class Tree:
    def __init__(self):
        self.files = {}
        for pattern in ("crates/*/specs/**/*.antt", "crates/*/proofs/*.antt", "crates/*/src/**/*.rt"):
            self.files.update({path: File(path) for path in sorted(glob.glob(pattern, recursive=True)) if not path.endswith("/Lib.antt")})
        sources = [file for path, file in self.files.items() if "/src/" in path]
        self.types = {(file.crate, name): each for file in sources for name, each in file.names.items()}
        with open("crates.txt", encoding="utf-8") as source:
            self.crates = [line.split(":")[0].split()[0] for line in source if ":" in line and not line.startswith("#")]
        self.programs = ["program_parts"] + [crate for crate in self.crates if f"crates/{crate}/src/main.rt" in self.files]

    def find(self, crate, place, module, name):
        if place == "src":
            return self.types.get((crate, name))
        file = self.files.get(f"crates/{crate}/{place}/{module}.antt")
        return file and file.names.get(name)

    def named(self, each, texts):
        """The definitions that some texts of a definition name. A plain name that is bound there is a variable."""
        file, found = self.files[each.path], set()
        for text in texts:
            bound = {word for three in BOUND.findall(each.around + " " + text) for part in three for word in part.split()}
            bound |= set(WORD.findall(text.split(" = ")[0])[1:]) if " = " in text else set()
            for word in WORD.findall(text):
                known = file.names if "/src/" not in each.path else {}
                word = word if word in known or word in file.brought else word.split(".")[0].strip("◌")
                made = known.get(word) or word in file.brought and self.find(*file.brought[word])
                if made and made.defines() and (made.kind or word[0].isupper() or word not in bound):
                    found.add(made)
        return found

    def held(self, each):
        """The types that a type, or a function's signature and contract, names."""
        file = self.files[each.path]
        for word in re.findall(r"\b[A-Z]\w+", " ".join(each.statement)):
            crate = file.types.get(word, file.crate)
            found = self.types.get((file.crate if crate == "crate" else crate, word))
            if found:
                yield found

    def closure(self, roots):
        reached, todo = set(), list(roots)
        while todo:
            each = todo.pop()
            if each not in reached:
                reached.add(each)
                todo += self.held(each) if "/src/" in each.path else self.named(each, [each.around, " ".join(each.statement)] + each.clauses)
        return reached

    def contracts(self, calls):
        for call in calls:
            crate, name = call.split("::")
            fits = [each for file in self.files.values() if file.path.startswith(f"crates/{crate}/src/") for each in file.all if (each.kind, each.name) == ("fn", name)]
            if not fits:
                sys.exit(f"no call {call}")
            for each in fits:
                yield from self.named(each, [" ".join(each.statement)])
                yield from self.held(each)

    def theorems(self):
        """The theorems that docs/PROMISES.md names; `a` to `b` are those between them too. A name that is not found once ends all."""
        crate, module, found = None, None, []
        with open(PROMISES, encoding="utf-8") as source:
            text = source.read().split("\n## Reading", 1)[1].split("\n## Functions that are `pub`", 1)[0]
        for line in text.split("\n"):
            first = line.split("|")[1] if line.startswith("|") else line
            crate = (re.findall(r"(\w+)/proofs", first) or [crate])[-1]
            modules = re.findall(r"[(/]([A-Z]\w+)\)", first)
            module = (modules or [module])[-1]
            names = re.findall(r"`([\w-]+)`( to)?", first) if line.startswith("| `") else []
            for i, (name, to) in enumerate(names):
                fits = [file for file in self.files.values() if "/proofs/" in file.path and name in file.names]
                for test in (lambda file: file.crate == crate, lambda file: file.path.split("/")[-1][:-5] in (modules or [module])):
                    fits = [file for file in fits if test(file)] or fits
                if len(fits) != 1:
                    sys.exit(f"{PROMISES}: `{name}` is in {[file.path for file in fits]}")
                start, end = fits[0].names[name].first, fits[0].names[names[i + 1][0]].first if to else 0
                found += [each for each in fits[0].all if each.first == start or start < each.first < end and "pub" in each.statement[0].split()]
        return found

    def says(self, path, definitions):
        """What the head of a file says of it; of src/ the types."""
        if path.endswith(".rt"):
            names = [f"`{each.name}`" for each in sorted(definitions, key=lambda each: each.first)]
            return ("the types " if len(names) > 1 else "the type ") + ", ".join(names[:6]) + (f" and {len(names) - 6} more" if len(names) > 6 else "")
        head = " ".join(line[2:].strip() for line in self.files[path].text[:3] if line.startswith("--"))
        return re.sub(r"Assumes nothing.*", "", head).strip().split(". ")[0].rstrip(".").replace("|", "/")

    def inner(self, path):
        """Whether the place of a file says that it need not be believed: by its folder, or by its crate."""
        crate = path.split("/")[1]
        return "/specs/inner/" in path or re.fullmatch(INNER, crate) is not None or crate in self.programs


def total(definitions):
    return sum(each.lines() for each in definitions)


def rows(tree, definitions, order):
    files = {}
    for each in definitions:
        files.setdefault(each.path, []).append(each)
    for path in sorted(files, key=lambda path: (order(files[path]), tree.crates.index(path.split("/")[1]), "/specs/" in path, path)):
        yield f"| `{path[7:].removesuffix('.antt')}` | {tree.says(path, files[path])} | {total(files[path])} |"


def page(tree):
    """The tables of the page; what the contracts rest on; and what only theorems do."""
    first, lines = {}, ["| Calls | Lines that their contracts rest on | With those above |", "|---|---|---|"]
    for i, (title, calls) in enumerate(GROUPS):
        mine = tree.closure(tree.contracts(calls))
        for each in mine:
            first.setdefault(each, i)
        lines.append(f"| {title} | {total(mine):,} | {total(first):,} |")
    statements = [(each, [each.around, " ".join(each.statement)]) for each in tree.theorems()]
    promised = tree.closure(found for each, texts in statements for found in tree.named(each, texts)) - set(first)
    specs, beside = [[each for each in promised if place in each.path] for place in ("/specs/", "/proofs/")]
    comments, files = sum(each.comment for each in first), len({each.path for each in first})
    lines += ["", f"Together **{total(first):,} lines**, {comments} of them comments above a definition: {len(first)} definitions, in {files} files.", "",
              "| File | What it says | Lines |", "|---|---|---|", *rows(tree, first, lambda some: min(first[each] for each in some)), "",
              f"The statements of the theorems name {total(specs):,} lines more in specs/, and {total(beside):,} in proofs/, tables of examples included.", "",
              "| File | What it says | Lines |", "|---|---|---|", *rows(tree, specs, lambda some: 0)]
    for crate in dict.fromkeys(each.path.split("/")[1] for each in sorted(beside, key=lambda each: tree.crates.index(each.path.split("/")[1]))):
        some = [each for each in beside if each.path.startswith(f"crates/{crate}/")]
        lines.append(f"| `{crate}/proofs` | beside the theorems: {', '.join(sorted({each.path.split('/')[-1][:-5] for each in some}))} | {total(some)} |")
    return lines, set(first), promised


def check(tree, lines, believed, promised):
    with open(PAGE, encoding="utf-8") as source:
        found = TABLES.search(source.read())
    wrong = [] if found and found.group().strip() == "\n".join(lines) else [f"{PAGE} is not what tools/believed.py --page says"]
    apart = any("/specs/promises/" in path for path in tree.files)
    for path, file in tree.files.items():
        for each in file.all if "/specs/" in path else ():
            place = "inner" if tree.inner(path) else "promises" if "/specs/promises/" in path else "believed"
            due = "believed" if each in believed or each in promised and not apart else "promises" if each in promised else "inner"
            if place != due:
                wrong.append(f"{path}: {each.name} is {due}, by its place {place}")
    print("\n".join(wrong) or f"{PAGE} and the places agree")
    return 1 if wrong else 0


if __name__ == "__main__":
    tree = Tree()
    lines, believed, promised = page(tree)
    if "--page" in sys.argv:
        print("\n".join(lines))
    elif "--write" in sys.argv:
        with open(PAGE, encoding="utf-8") as source:
            text = source.read()
        with open(PAGE, "w", encoding="utf-8") as out:
            out.write(TABLES.sub(lambda _: "\n" + "\n".join(lines) + "\n\n", text))
    elif "--check" in sys.argv:
        sys.exit(check(tree, lines, believed, promised))
    else:
        for path, file in tree.files.items():
            for word, test in (("contracts", lambda each: each in believed), ("theorems", lambda each: each in promised),
                               ("inner", lambda each: "/specs/" in path and each not in believed | promised)):
                some = [each for each in file.all if test(each)]
                if some:
                    print(f"{path}: {word} {total(some)}: {' '.join(each.name for each in some)}")
