"""Wrong bodies (must-fail edits): how they are read, which functions they change, what their first line says that they break, and what the prover says of them.

The first line of an edit is `breaks: FUNCTION REASON`: which function's contract refuses it, by its path in the crate, and by what. The forms of REASON:
  CLAUSE..            clauses of the function's `ensures`, by their names, any one of which is enough
  ensures             its `ensures`, where it has no name
  requires CALLEE..   what the function has to show where it calls CALLEE
  invariant NAME..    the invariant of a loop, which the prover names by the loop's variable (`loop` where it has none), or of the type of an argument or
                      the result (`self`, `result`, ..)
  safe                that no index, number or cast is out of bounds
  end                 that it comes to an end
More of them may stand in one line (`shown invariant i`): any one is enough."""
import functools
import glob
import os
import re
from dataclasses import dataclass, field

from kept import TOP

HEAD = re.compile(r'^( *)(?:pub(?:\([^)]*\))? )?(?:const )?(?:unsafe )?(?:extern "C" )?fn (\w+)')
CLAUSE = re.compile(r"\bensures(?: (\w+))? \{")
SHAPES = ("requires", "invariant")


@dataclass(frozen=True)
class Function:
    """A function of a source file: its path in the crate as the prover has it, where it stands, and the names of its clauses."""

    path: tuple
    file: str
    start: int
    end: int
    lines: range
    cycle: str
    clauses: tuple

    @property
    def name(self):
        return "::".join(self.path)

    @property
    def proof(self):
        """The path of its proof: that of the function, or of the cycle of calls that it is part of."""
        return (*self.path[:-1], f"+{self.cycle}") if self.cycle else self.path

    @property
    def folder(self):
        return "/".join(("proofs", *self.proof))


def is_head(line):
    """Whether a line above a function belongs to it."""
    return line.strip().startswith(("#[", "//"))


def type_of(head):
    """The names of the type and of the trait of an `impl`; the prover has its methods in a module of both names, one after the other."""
    head = re.sub(r"^impl\s*(<.*?>\s)?", "", head.partition("{")[0]).strip()
    trait, _, of = re.sub(r"^<[^>]*>\s*", "", head).rpartition(" for ")

    def short(name):
        return re.sub(r"<.*", "", name.split(" where ")[0].strip()).split("::")[-1].lstrip("&").strip()

    return short(of), short(trait) if trait else ""


def cycle_of(own, indent, name):
    """The name of the cycle of calls that a function with this text is part of: it says which, or calls itself; else empty."""
    if row := re.search(r"#\[cycle\((\w+)\)\]", own):
        return row[1]
    call = rf"\b(?:self\.|Self::){name}\(" if indent else rf"(?<![.:\w]){name}\("
    return name if re.search(call, own.partition(f"\n{indent}{{\n")[2] or own.partition("{\n")[2]) else ""


def last_line(lines, first, indent):
    """The last line of the function whose first line this is."""
    if lines[first].rstrip().endswith("}"):
        return first
    ends = (f"{indent}}}", f"{indent}{{}}")
    return next((it for it in range(first + 1, len(lines)) if lines[it] in ends), len(lines) - 1)


def modules_of(file):
    """The path of the module that a source file is."""
    return tuple(it for it in file.removeprefix("src/").removesuffix(".rt").split("/") if it not in ("lib", "main", "mod"))


@functools.lru_cache(maxsize=None)
def homes(crate):
    """The modules that declare the types of a crate: the prover has a type's own methods there, wherever their `impl` stands."""
    found = {}
    for file, text in sources_of(crate):
        for name in re.findall(r"^(?:pub(?:\([^)]*\))? )?(?:struct|enum|union) (\w+)", text, re.MULTILINE):
            found.setdefault(name, modules_of(file))
    return found


@functools.lru_cache(maxsize=None)
def sources_of(crate):
    """The source files of a crate, each with its text."""
    folder, found = f"{TOP}/crates/{crate}", []
    for file in sorted(glob.glob(f"{folder}/src/**/*.rt", recursive=True)):
        with open(file, encoding="utf-8") as it:
            found.append((os.path.relpath(file, folder), it.read()))
    return found


def functions_of(crate, file, text):
    """The functions of a source file, by the layout that rt fmt gives it."""
    lines, found, of, number = text.split("\n"), [], (), 0
    starts = [0]
    for line in lines:
        starts.append(starts[-1] + len(line) + 1)
    while number < len(lines):
        line = lines[number]
        if line == "}":
            of = ()
        elif line.startswith("impl") and not line.rstrip().endswith("}"):
            until = next((it for it in range(number, len(lines)) if "{" in lines[it]), number)
            name, trait = type_of(" ".join(lines[number : until + 1]))
            home = modules_of(file) if trait else homes(crate).get(name, modules_of(file))
            of, number = (*home, name + trait), until
        elif row := HEAD.match(line):
            last, above = last_line(lines, number, row[1]), number
            while above > 0 and is_head(lines[above - 1]):
                above -= 1
            own = "\n".join(lines[above : last + 1])
            if not row[1] or of:
                path = (*(of if row[1] else modules_of(file)), row[2])
                clauses = tuple(CLAUSE.findall(own.split(f"\n{row[1]}{{\n")[0]))
                found.append(Function(path, file, starts[above], starts[last + 1] - 1, range(above + 1, last + 2), cycle_of(own, row[1], row[2]), clauses))
            number = last
        number += 1
    return found


@functools.lru_cache(maxsize=None)
def functions_in(crate):
    """All functions of a crate but those of its tests."""
    return [fn for file, text in sources_of(crate) for fn in functions_of(crate, file, text) if "#[test]" not in text[fn.start : fn.end]]


@functools.lru_cache(maxsize=None)
def all_clauses():
    """The names of all clauses of the repository: a method of a trait keeps those of the trait, wherever it stands."""
    found = set()
    for file in glob.glob(f"{TOP}/crates/*/src/**/*.rt", recursive=True):
        with open(file, encoding="utf-8") as it:
            found.update(CLAUSE.findall(it.read()))
    return found


@dataclass
class Edit:
    """A wrong body: its file, its crate, what its first line says, its pairs of texts, the functions that these change, whether they change anything beside
    (other than imports), and what is wrong with it."""

    path: str
    crate: str
    breaks: str = ""
    pairs: list = field(default_factory=list)
    changed: list = field(default_factory=list)
    beside: bool = False
    fault: str = ""

    @property
    def folder(self):
        return f"{TOP}/crates/{self.crate}"

    @property
    def function(self):
        """The function that refuses it, as its first line says."""
        return self.breaks.partition(" ")[0]

    def reasons(self):
        """By what that function refuses it, as its first line says: any one is enough."""
        found, shape = [], ""
        for word in self.breaks.split()[1:]:
            if word in SHAPES:
                shape = f"{word} "
            else:
                found.append(shape + word)
        return found


def read_edit(path):
    """Reads an edit, and looks whether it can be put in and whether its first line is well formed; what is wrong stands in its fault."""
    edit = Edit(path, path.split("/")[1])
    with open(f"{TOP}/{path}", encoding="utf-8") as it:
        lines = it.read().split("\n")
    edit.breaks = lines[0].removeprefix("breaks: ").strip() if lines[0].startswith("breaks: ") else ""
    file, old = "", None
    for line in lines[1:] if edit.breaks else lines:
        if line.startswith("file: "):
            file = line[6:].strip()
        elif line.startswith("old: "):
            old = line[5:]
        elif line.startswith("new:") and old is not None:
            edit.pairs.append((file, old, line[4:].removeprefix(" ")))
            old = None
        elif line:
            edit.fault = f"it has a line that begins with none of 'breaks: ', 'file: ', 'old: ', 'new:': {line[:60]}"
    edit.fault = edit.fault or fault_of_pairs(edit) or fault_of_first_line(edit)
    return edit


def fault_of_pairs(edit):
    """Why an edit cannot be put in, if it cannot; else the functions that it changes are noted in it."""
    if not edit.pairs:
        return "it has no pair of an 'old: ' and a 'new:' line below a 'file: ' line"
    for file, old, new in edit.pairs:
        if not file.startswith("src/") or not os.path.isfile(f"{edit.folder}/{file}"):
            return f"there is no file {file} in src/ of {edit.crate}"
        if old == new:
            return "an old: and its new: text are the same"
    texts, why = put_in([edit])
    if why:
        return why
    for file, old, _ in edit.pairs:
        with open(f"{edit.folder}/{file}", encoding="utf-8") as it:
            text = it.read()
        place = text.find(old) + len(old) - len(old.lstrip())
        here = next((fn for fn in functions_of(edit.crate, file, text) if fn.start <= place <= fn.end), None)
        if here and here not in edit.changed:
            edit.changed.append(here)
        edit.beside |= not here and not old.startswith("use ")
    return ""


def put_in(edits):
    """The texts of the files that edits of one crate change, by path, each edit put in after the other; or why that cannot be."""
    texts = {}
    for edit in edits:
        for file, old, new in edit.pairs:
            if file not in texts:
                with open(f"{edit.folder}/{file}", encoding="utf-8") as it:
                    texts[file] = it.read()
            if texts[file].count(old) != 1:
                return {}, f"an old: text is in {file} {texts[file].count(old)} times, and not once"
            texts[file] = texts[file].replace(old, new)
    return texts, ""


def fault_of_first_line(edit):
    """What is wrong with what the first line says, if anything."""
    if len(edit.breaks.split()) < 2:
        return "its first line is not 'breaks: FUNCTION REASON' (the forms of REASON stand at the head of tools/edits.py)"
    own = next((fn for fn in functions_in(edit.crate) if fn.name == edit.function), None)
    if not own:
        return f"its first line names {edit.function}, which is no function of {edit.crate}"
    if not edit.reasons():
        return "its first line names no CALLEE or NAME"
    for reason in edit.reasons():
        if " " in reason or reason in ("safe", "end"):
            continue
        if reason == "ensures" and any(own.clauses):
            return f"its first line says `ensures`, and each `ensures` of {own.name} has a name"
        if reason != "ensures" and reason not in (own.clauses or all_clauses()):
            return f"its first line names the clause {reason}, which {own.name} has not"
    return ""


def faults_of_table(edits):
    """What is wrong with the table of docs/PROMISES.md that names a wrong body for each part of that page: it has to name just the edits of crates/NAME/must-fail,
    and each part before it."""
    with open(f"{TOP}/docs/PROMISES.md", encoding="utf-8") as it:
        before, _, table = it.read().partition("\n## A wrong body for each promise\n")
    rows = [row.groups() for row in re.finditer(r"^\| ([^|]+?) \| (.+) \|$", table.partition("\n## ")[0], re.M)][1:]
    named = {it for _, bodies in rows for it in re.findall(r"`([\w-]+/[\w-]+)`", bodies)}
    tried = {f"{it.crate}/{os.path.basename(it.path)[: -len('.edit')]}" for it in edits if it.path.startswith("crates/")}
    parts = [re.sub(r" \(.*", "", it) for it in re.findall(r"^## (.+)$", before, re.M)]
    faults = [f"docs/PROMISES.md names the wrong body {it}, which is not in must-fail" for it in sorted(named - tried)]
    faults += [f"the wrong body {it} is in must-fail, and stands for no part of docs/PROMISES.md" for it in sorted(tried - named)]
    return faults + [f"no wrong body stands for the part '{it}' of docs/PROMISES.md" for it in parts if it not in [part for part, _ in rows]]


def reasons_of(fn, goal):
    """What a goal of the prover speaks of, in the words of a first line: one reason, or the names of all clauses where it has them together."""
    goal = goal.removeprefix(f"{fn.path[-1]}-") if fn.cycle else goal
    if goal.startswith("returns"):
        return [goal.rpartition("-clause-")[2]] if "-clause-" in goal else [it or "ensures" for it in fn.clauses] or ["ensures"]
    if row := re.match(r"([\w-]+?)-requires", goal):
        return [f"requires {row[1].split('-')[0]}"]
    if row := re.match(r"invariant_of-(\w+)", goal):
        return [f"invariant {row[1]}"]
    if "decreases" in goal:
        return ["end"]
    if row := re.match(r"loop(?:-(\w+?))?-(init|preserved|\w+)", goal):
        return [f"invariant {row[1] or 'loop'}"]
    return ["safe"]


@dataclass
class Refusal:
    """What the prover says against one function: the reasons in the words of first lines, and of what kind: `goal`, one is open; `answer`, a written answer no
    longer fits; or what says nothing of the contract: `type`, a written invariant can no longer be read, or `name`, what a proof cites is gone."""

    function: str
    reasons: list
    kind: str
    line: str


# A line by which the prover leaves a goal open.
OPEN = re.compile(r"note: (?:\./)?(\S+?):(\d+):\d+: it is not proved .*?\(`([\w+-]+)`\)")
# How the kit's own trial of edits tells that a proof file names what the edit took away.
NAMES = re.compile(r"(note: )?(\./)?proofs/.*(has no field|is not in scope|has no `|was not admitted)")


def says_of(crate, fn, said):
    """The line in which the prover tells how a function stands; empty where there is none."""
    start = f"fn {crate}::{fn.name}: "
    return next((it.removeprefix(start) for it in said.split("\n") if it.startswith(start)), "")


def goals_open(fn, state, said):
    """The goals of a function that the prover left open, and its lines on them."""
    at = [it for it in said.split("\n") if (row := OPEN.match(it)) and row[1] == fn.file and int(row[2]) in fn.lines]
    named = [it for row in re.findall(r"did not prove ((?:`[^`]+`(?:, | and )?)+)", state) for it in re.findall(r"`([^`]+)`", row)]
    return list(dict.fromkeys([*named, *(OPEN.match(it)[3] for it in at)])), at


def goals_of_errors(lines):
    """The goals for which lines of errors say that their written answer is refused."""
    return [row[1] for it in lines if (row := re.search(r": error: `([\w+-]+)`: ", it))]


def refusal_of(crate, fn, said):
    """What the prover says against a function itself, not for the sake of another that it calls; None where it says nothing of that kind."""
    state = says_of(crate, fn, said)
    if not state.startswith(("not proved", "no proof")):
        return None
    opened, at = goals_open(fn, state, said)
    own = [it for it in said.split("\n") if it.removeprefix("./").startswith(f"{fn.folder}/") and ": error" in it]
    if fn.cycle not in ("", fn.path[-1]):
        # In a cycle of several functions the goals of each begin with its name.
        mine = f"{fn.path[-1]}-"
        opened, own = [it for it in opened if it.startswith(mine)], [it for it in own if f"`{mine}" in it]
    lost = goals_of_errors(it for it in own if NAMES.match(it))
    stale = goals_of_errors(it for it in own if not NAMES.match(it))
    if not opened and not own:
        return None
    # A goal that has another name than before is open since its answer stands under the old one.
    before = {reason for it in lost for reason in reasons_of(fn, it)}
    firm = [it for it in opened if not before & set(reasons_of(fn, it))]
    if any("/Invariants.antt:" in it for it in own):
        kind = "type"
    else:
        kind = "goal" if firm else "answer" if stale else "name"
    goals = [*firm, *stale] or [*opened, *lost]
    reasons = list(dict.fromkeys(reason for it in goals for reason in reasons_of(fn, it)))
    return Refusal(fn.name, reasons, kind, [*at, *own, state][0][:300])


def all_refusals(crate, said):
    """What the prover says against each function of a crate."""
    return [it for fn in functions_in(crate) if (it := refusal_of(crate, fn, said))]


def is_unread(said):
    """The first line by which a text could not be compiled or read, so that no contract was tried; empty where there is none."""
    for line in said.split("\n"):
        if re.search(r"\berror\[[\w-]+\]", line) or re.match(r"(\./)?(src|specs)/\S+:\d+:\d+: error: (?!`)", line):
            return line
    return ""
