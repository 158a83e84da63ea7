#!/usr/bin/env python3
"""Lists each function that a crate exports, those of its traits, methods and conversions too: who uses it, what it promises, and what leaves one result; and quotes the demands.

    list.py                          prints the table
    list.py --check FILE             fails unless FILE has this table, and the records of demands/specs/Demands as they stand, each between its two marks
    list.py --write FILE             writes them there

promises.txt, beside this file, has for each promise that is not an equation the theorem that two results which meet it are equal, or a reason in
words, and one for each function whose result is left open. It fails where a function, a type, a trait or a constant is used by no other crate or a function has no contract (unless promises.txt has a line for
it), where a promise has no line, where a theorem is not there, where a result or what a `&mut` argument leaves is in no promise, and where a
promise has a premise of which `requires` names no instance. That a theorem speaks of its promise is left to reading.
"""

import glob
import os
import re
import sys

ROOT = os.path.dirname(os.path.dirname(os.path.dirname(os.path.abspath(__file__))))
PROMISES = os.path.join(os.path.dirname(os.path.abspath(__file__)), "promises.txt")
DEMANDS = os.path.join(ROOT, "crates", "demands", "specs", "Demands.antt")
OPEN, CLOSE = "([{«", ")]}»"
# what a contract calls the value that is returned, and what is left of an argument that is lent
RESULT, LEFT = "result", r"\w+\.new"
# types that have something in them: a promise "of every" such thing asks for no instance
DATA = {"ℕ", "List", "Lanes", "Register", "Layout"}
# what else than functions a crate exports
KINDS = "struct|enum|const|type|trait"

failures = []


def fail(text):
    failures.append(text)


# ---- the sources


def read_crates():
    names = []
    for line in open(os.path.join(ROOT, "crates.txt"), encoding="utf-8"):
        line = line.split("#")[0].strip()
        if line:
            names.append(line.split(":")[0].split()[0])
    return names


def read_sources(crate):
    files = {}
    for path in sorted(glob.glob(os.path.join(ROOT, "crates", crate, "src", "*.rt"))):
        text = re.sub(r"//[^\n]*", "", open(path, encoding="utf-8").read()).replace('pub extern "C" fn', "pub fn")
        files[os.path.basename(path)[:-3]] = re.sub(r"^((?:pub )?use [\w:]+)::\{([^{}]*)\};", one_by_one, text, flags=re.M)
    return files


def one_by_one(use):
    """A `use` of several names as one of each."""
    return "\n".join(f"{use[1]}::{name.strip()};" for name in use[2].split(",") if name.strip())


def closing(text, at):
    """The place of the bracket that closes the one at this place."""
    depth = 0
    for i in range(at, len(text)):
        if text[i] in OPEN:
            depth += 1
        elif text[i] in CLOSE:
            depth -= 1
            if depth == 0:
                return i
    raise SystemExit(f"no end of {text[at:at + 60]!r}")


def behind_types(text, at):
    """The place behind a function's type parameters, of which one may have round brackets in its bound; else this place."""
    head = re.compile(r"pub fn \w+<").match(text, at)
    depth, i = (1, head.end()) if head else (0, at)
    while depth:
        depth += (text[i] == "<") - (text[i] == ">" and text[i - 1] != "-")
        i += 1
    return i


class Function:
    def __init__(self, crate, path, text, at):
        self.crate, self.path = crate, path
        opened = text.index("(", behind_types(text, at))
        closed = closing(text, opened)
        self.arguments = " ".join(text[opened + 1 : closed].split())
        rest = text[closed + 1 :]
        head = re.match(r"\s*(?:->\s*([^{]+?))?\s*(?:\bwhere\b[^{]*?)?(?=\b(?:requires|ensures)\b|[{;])", rest)
        self.result = head[1]
        contract = rest[head.end() :]
        self.requires, self.ensures = [], []
        while clause := re.match(r"\s*(requires|ensures)\b\*?\s*\w*\s*(?=\{)", contract):
            end = closing(contract, clause.end())
            (self.requires if clause[1] == "requires" else self.ensures).append(" ".join(contract[clause.end() + 1 : end].split()))
            contract = contract[end + 1 :]

    @property
    def name(self):
        return f"{self.crate}::{self.path}"

    def lent(self):
        """The arguments that are lent to be changed."""
        return [name or "self" for name in re.findall(r"(\w+): &mut |&mut self\b", self.arguments)]


def find_function(crate, path, text, name):
    at = re.search(rf"^pub fn {name}\b", text, re.M)
    return Function(crate, path, text, at.start()) if at else None


def uses_of_own(files):
    """What a crate exports from its own modules (and not from a crate below it), each with its module."""
    return [(module, name) for module, name in re.findall(r"^pub use (\w+)::(\w+);", files["lib"], re.M) if module in files]


def of_traits(crate, files):
    """The functions of the traits that a crate exports: what is promised of each layout, each queue, each stream."""
    found = []
    for name in exported_names(files):
        for text in files.values():
            if not (at := re.search(rf"^pub trait {name.split('::')[-1]}\b[^{{]*", text, re.M)):
                continue
            inside = text[at.end() + 1 : closing(text, at.end())]
            for method in re.finditer(r"^    fn (\w+)", inside, re.M):
                found.append(Function(crate, f"{name}::{method[1]}", inside, method.start()))
    return found


def of_methods(crate, files):
    """The methods of the types that a crate exports, and their functions."""
    found = []
    for text in files.values():
        for at in re.finditer(r"^impl (\w+)(?:<[^<>]*>)? \{", text, re.M):
            if at[1] in exported_names(files):
                inside = text[at.end() : closing(text, at.end() - 1)]
                found += [Function(crate, f"{at[1]}::{m[1]}", inside, m.start(1) - 7) for m in re.finditer(r"^    pub fn (\w+)", inside, re.M)]
    return found


def of_conversions(crate, files):
    """The conversions `From` into a type that a crate exports: what they promise stands in `from_gives`, over the argument and the result."""
    found = []
    for text in files.values():
        for at in re.finditer(r"^impl From<\w+> for (\w+) \{", text, re.M):
            inside = text[at.end() : closing(text, at.end() - 1)]
            gives = re.search(r"ghost from_gives = \{ λ (\w+) (\w+)\. (.*) \};", inside)
            if at[1] not in exported_names(files) or not gives:
                continue
            f = Function(crate, f"{at[1]}::from", inside, inside.index("fn from"))
            said = re.sub(rf"\b{gives[2]}\.", "result.", gives[3])
            f.ensures = [re.sub(rf"(?<![\w.]){gives[1]}(?![\w.])", f.arguments.split(":")[0], said)]
            found.append(f)
    return found


def exported(crate, files):
    if "lib" not in files:
        return []
    found = of_traits(crate, files) + of_methods(crate, files) + of_conversions(crate, files)
    for line in re.findall(r"^pub (?:use|mod) .*$", files["lib"], re.M):
        if not re.fullmatch(r"pub (?:use \w+::\w+|mod \w+);", line.strip()):
            fail(f"{crate}: not understood: {line}")
    for name in re.findall(r"^pub fn (\w+)", files["lib"], re.M):
        found.append(find_function(crate, name, files["lib"], name))
    for module, name in uses_of_own(files):
        found.append(find_function(crate, name, files[module], name))
    for module in re.findall(r"^pub mod (\w+);", files["lib"], re.M):
        for name in re.findall(r"^pub fn (\w+)", files[module], re.M):
            found.append(find_function(crate, f"{module}::{name}", files[module], name))
    return sorted((f for f in found if f), key=lambda f: f.path)


def exported_names(files):
    """The types, traits and constants that a crate exports."""
    names = re.findall(rf"^pub (?:{KINDS}) (\w+)", files["lib"], re.M)
    for module, name in uses_of_own(files):
        if re.search(rf"^pub (?:{KINDS}) {name}\b", files[module], re.M):
            names.append(name)
    for module in re.findall(r"^pub mod (\w+);", files["lib"], re.M):
        names += [f"{module}::{name}" for name in re.findall(rf"^pub (?:{KINDS}) (\w+)", files[module], re.M)]
    return names


def check_names(crate, functions, sources, unused, seen):
    """Each type, trait and constant that is exported is named by another crate, by the head of an exported function, or as the type that a trait's implementation has; or has its own line."""
    heads = " ".join(f"{f.arguments} {f.result}" for f in functions)
    heads += " " + " ".join(name for text in sources[crate].values() for name in re.findall(r"^    type \w+ = (\w+);", text, re.M))
    for name in exported_names(sources[crate]):
        named = rf"\b{name}\b" if "::" in name else rf"\b{crate}::{name}\b"
        others = (text for d, files in sources.items() if d != crate for text in files.values())
        if re.search(rf"\b{name}\b", heads) or any(re.search(named, text) for text in others):
            continue
        if f"{crate}::{name}" in unused:
            seen.add(f"{crate}::{name}")
        else:
            fail(f"{crate}::{name}: exported, and used by no other crate")


def uses(text, f):
    if re.search(rf"\b{f.crate}::{f.path}(?:(?:::<[^<>()]*>)?\(|;)", text):
        return True
    if "::" in f.path:
        module, name = f.path.rsplit("::", 1)
        if module[0].isupper():
            called = rf"\b(?:[A-Z]|Self|{module})::{name}\(|\bimpl (?:\w+::)?{module} for "
            return bool(re.search(called, text) or re.search(rf"\b{f.crate}::", text) and re.search(rf"\.{name}\(", text))
        return bool(re.search(rf"\buse {f.crate}::{module};", text) and re.search(rf"(?<!:)\b{f.path}\(", text))
    return False


def fields_of(sources):
    """The fields of each struct, by its name."""
    found = {}
    for files in sources.values():
        for text in files.values():
            for name, inside in re.findall(r"^(?:pub )?struct (\w+)\(([^)]*)\);", text, re.M):
                found[name] = [str(i) for i in range(len([x for x in inside.split(",") if x.strip()]))]
            for name, inside in re.findall(r"^(?:pub )?struct (\w+) \{([^}]*)\}", text, re.M):
                found[name] = re.findall(r"(\w+):", inside)
    return found


# ---- what a contract says


def split_top(text, mark):
    parts, depth, last = [], 0, 0
    for i, c in enumerate(text):
        if c in OPEN:
            depth += 1
        elif c in CLOSE:
            depth -= 1
        elif depth == 0 and text.startswith(f" {mark} ", i):
            parts.append(text[last:i].strip())
            last = i + len(mark) + 2
    parts.append(text[last:].strip())
    return parts


def bare(text):
    text = text.strip()
    while text.startswith("(") and closing(text, 0) == len(text) - 1:
        text = text[1:-1].strip()
    return text


def head_of(text):
    """The first name, without the module that it is taken from."""
    return re.match(r"[^\s(]+", text.lstrip("( "))[0].split(".")[-1]


def premises_of(parts):
    """Of `(x : A) (y : B) → P → ..` the facts: P, and A and B where they are no types of data."""
    found = []
    for part in parts:
        if re.fullmatch(r"(\([^()]+ : [^()]+\)\s*)+", part):
            found += [kind for kind in re.findall(r" : ([^()]+)\)", part) if head_of(kind) not in DATA]
        else:
            found.append(part)
    return found


class Fact:
    def __init__(self, text, premises):
        self.text, self.premises = text, premises
        sides = split_top(text, "≡")
        self.kind = "promise"
        self.head = head_of(text)
        self.fixes = text
        if len(sides) == 2:
            left = self.fixes = sides[0]
            if re.fullmatch(rf"{RESULT}(\.\w+)*|{LEFT}", left):
                self.kind = "equation"
            elif left.startswith("length "):
                self.kind = "bound"
            else:
                self.head = re.split(rf" (?={RESULT}\b|{LEFT}\b)", left)[0]
        elif len(split_top(text, "<")) == 2 or len(split_top(text, "≤")) == 2:
            self.kind = "bound"

    def shown(self, open=False):
        what = "equation" if self.kind == "equation" else f"`{self.head}`"
        return what if open else what + "".join(f" (of every `{head_of(p)}`; one is required)" for p in self.premises)


def facts_of(text, premises=()):
    text = bare(text)
    arrows = split_top(text, "→")
    if len(arrows) > 1:
        return facts_of(arrows[-1], list(premises) + premises_of(arrows[:-1]))
    parts = split_top(text, "×")
    if len(parts) > 1:
        return [f for p in parts for f in facts_of(p, premises)]
    return [Fact(text, list(premises))]


# ---- what leaves one result


def read_promises():
    """By promise the theorem or the reason; by function the reason why its result is open, and why it has no user."""
    fixed, plain, unused = {}, {}, {}
    for line in open(PROMISES, encoding="utf-8"):
        line = line.rstrip("\n")
        if not line.strip() or line.startswith("#"):
            continue
        word = re.match(r"(promise|function|entry) (\S.*?): (.+)$", line)
        if not word:
            fail(f"promises.txt: not understood: {line}")
            continue
        {"promise": fixed, "function": plain, "entry": unused}[word[1]][word[2]] = word[3]
    return fixed, plain, unused


def is_theorem(text):
    return re.fullmatch(r"\w+/(?:specs|proofs)/\w+\.[^\s.]+", text)


def check_theorem(text):
    path, name = text.split(".", 1)
    path = os.path.join(ROOT, "crates", path + ".antt")
    if not os.path.exists(path):
        fail(f"promises.txt: there is no {path[len(ROOT) + 1:]}")
    elif not re.search(rf"^\s*pub {re.escape(name)} :", open(path, encoding="utf-8").read(), re.M):
        fail(f"promises.txt: {path[len(ROOT) + 1:]} has no `pub {name} :`")


def check_covers(f, facts, fields):
    """Is the result, and what each `&mut` argument leaves, in a promise that is more than a bound?"""
    said = [x for x in facts if x.kind != "bound"]
    for argument in f.lent():
        if not any(re.search(rf"(?<![\w.]){argument}\.new\b", x.fixes) for x in said):
            fail(f"{f.name}: nothing says what `{argument}` is left as")
    if not f.result:
        return
    reached = set()
    for x in said:
        for projection in re.findall(rf"(?<![\w·.]){RESULT}(?![\w·])(\.\w+)?", x.fixes):
            reached.add(projection.strip("."))
    missing = [k for k in fields.get(f.result, []) if k not in reached]
    if "" not in reached and (not reached or missing):
        fail(f"{f.name}: nothing says what the result is" + (f" in its field {', '.join(missing)}" if reached else ""))


def check_premises(f, facts):
    asked = " ".join(f.requires)
    for x in facts:
        for p in x.premises:
            if not re.search(rf"(?<!\w){re.escape(head_of(p))}(?!\w)", asked):
                fail(f"{f.name}: `requires` has no instance of `{head_of(p)}`, without which the promise `{x.text[:40]}..` says nothing")


def row(f, users, fields, fixed, plain, unused, seen):
    facts = [x for text in f.ensures for x in facts_of(text)]
    who = ", ".join(f"`{u}`" for u in users)
    if not users:
        if f.name in unused:
            who = unused[f.name]
        else:
            fail(f"{f.name}: exported, and used by no other crate")
    seen.add(f.name)
    if f.name in plain:
        said = "; ".join(dict.fromkeys("a bound" if x.kind == "bound" else x.shown(open=True) for x in facts))
        return f"| `{f.name}` | {who} | {said or 'none'} | open: {plain[f.name]} |"
    if not f.ensures:
        fail(f"{f.name}: no contract says what it does")
    check_covers(f, facts, fields)
    check_premises(f, facts)
    shown, by = [], []
    for x in facts:
        if x.kind == "bound" or x.shown() in shown:
            continue
        shown.append(x.shown())
        if x.kind == "equation":
            reason = "itself"
        elif x.head in fixed:
            reason = f"`{fixed[x.head]}`" if is_theorem(fixed[x.head]) else fixed[x.head]
            seen.add(x.head)
        else:
            fail(f"{f.name}: promises.txt has no line for the promise `{x.head}`")
            reason = ""
        if reason not in by:
            by.append(reason)
    return f"| `{f.name}` | {who} | {'; '.join(shown)} | {'; '.join(by)} |"


def table():
    crates = read_crates()
    sources = {c: read_sources(c) for c in crates}
    fields = fields_of(sources)
    fixed, plain, unused = read_promises()
    for text in fixed.values():
        if is_theorem(text):
            check_theorem(text)
    lines = ["| Function | Used by | Promise | Fixed by |", "|---|---|---|---|"]
    seen = set()
    for c in crates:
        functions = exported(c, sources[c])
        if functions:
            check_names(c, functions, sources, unused, seen)
        for f in functions:
            users = [d for d in crates if d != c and any(uses(text, f) for text in sources[d].values())]
            lines.append(row(f, users, fields, fixed, plain, unused, seen))
            if users and f.name in unused:
                fail(f"promises.txt: {f.name} has users, and a line that says it has none")
    for name in [*fixed, *plain, *unused]:
        if name not in seen:
            fail(f"promises.txt: no exported function has to do with `{name}`")
    return "\n".join(lines)


def demands():
    """The three records, with the words before each."""
    text = open(DEMANDS, encoding="utf-8").read()
    return "```\n" + text[text.index("-- Demand 1.") :].strip() + "\n```"


def between(path, text, mark):
    """What stands before, between and behind the two marks of this name."""
    begin, end = f"<!-- {mark} -->", f"<!-- end of {mark} -->"
    if begin not in text or end not in text:
        raise SystemExit(f"{path}: no marks {begin} and {end}")
    start = text.index(begin) + len(begin)
    return text[:start], text[start : text.index(end)], text[text.index(end) :]


def main():
    made = {"public functions": table(), "demands": demands()}
    if len(sys.argv) == 3 and sys.argv[1] in ["--check", "--write"]:
        path = sys.argv[2]
        text = open(path, encoding="utf-8").read()
        for mark, wanted in made.items():
            before, has, after = between(path, text, mark)
            if sys.argv[1] == "--write":
                text = f"{before}\n{wanted}\n{after}"
            elif has.strip() != wanted:
                fail(f"{path}: between the marks of '{mark}' stands another text than the sources make (list.py --write)")
        if sys.argv[1] == "--write":
            open(path, "w", encoding="utf-8").write(text)
    elif len(sys.argv) == 1:
        print(made["public functions"])
    else:
        raise SystemExit(__doc__)
    for text in failures:
        print(text, file=sys.stderr)
    sys.exit(1 if failures else 0)


main()
