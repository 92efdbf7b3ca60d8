"""What the scripts read of the sources: each function of a crate with its place, its comment, its clauses and whether callers
of the crate can name it; and which function a wrong body changes."""
import bisect
import dataclasses
import functools
import pathlib
import re

ROOT = pathlib.Path(__file__).resolve().parent.parent
CRATES = ROOT / "crates"
ITEM = re.compile(
    r"^(?P<indent> *)(?P<pub>pub(?P<within>\([a-z]+\))? )?(?:(?:const )?fn (?P<name>\w+)"
    r"|(?P<kind>struct|enum|trait|impl|mod|const|static|type|use|ghost)\b(?P<rest>[^\n]*))|^(?P<end>\})",
    re.M,
)
CLAUSE = re.compile(r"\s*(ensures\*?|requires\*?|ghost)\s*(\w*)\s*\{")
IMPL = re.compile(r"\s*(?:<(?:[^<>]|<[^<>]*>)*>)?\s*(?:(?P<of>[\w:]+)(?:<(?:[^<>]|<[^<>]*>)*>)?\s+for\s+)?&?(?:'\w+ )?(?:mut )?(?P<type>[\w:]+)")


def crate_names():
    lines = (ROOT / "crates.txt").read_text().splitlines()
    return [line.split(":")[0].split()[0] for line in lines if ":" in line and not line.startswith("#")]


def is_library(crate):
    """Whether a crate has calls of its own: the face hands on those of others."""
    return crate not in ("capnp", "capnp_bench") and (CRATES / crate / "src" / "lib.rt").exists()


@dataclasses.dataclass
class Function:
    """A function, or a method of `owner`. `of` is the trait that it implements, if it does."""

    crate: str
    path: pathlib.Path
    module: str
    owner: str
    of: str
    name: str
    line: int
    start: int
    said: str
    clauses: list
    is_public: bool

    @property
    def key(self):
        """The function's name in its crate, as `module::Type::function`."""
        return "::".join(part for part in (self.module, self.owner, self.name) if part)

    @property
    def anchor(self):
        return "-".join([self.crate, *self.key.split("::")])

    @property
    def place(self):
        return f"{self.path.relative_to(ROOT)}:{self.line}"


def comment_before(lines, at):
    """The first paragraph of the comment that stands before a line, past attributes."""
    said = []
    while at > 0 and re.match(r"\s*(///|#\[|#!\[)", lines[at - 1]):
        at -= 1
        said.insert(0, lines[at].strip())
    text = [line.removeprefix("///").strip() for line in said if line.startswith("///")]
    return at, " ".join(text[: text.index("")] if "" in text else text)


def first_sentence(text):
    """A comment's first sentence, with a point where a list follows; a point within a word or in `..` ends none."""
    return re.sub(r":$", ".", re.split(r"(?<=[^.]\.)\s+(?=[A-Z0-9`])", text.strip())[0])


def head_clauses(text, start):
    """The clauses between a function's name and its body: their names in order, an unnamed one as an empty name."""
    names, depth, at = [], 0, start
    while at < len(text):
        clause = CLAUSE.match(text, at) if depth == 0 else None
        if clause:
            if clause.group(1).startswith("ensures"):
                names.append(clause.group(2))
            depth, at = 1, clause.end()
            continue
        if depth == 0 and text[at] in ";{":
            break
        depth += {"{": 1, "}": -1, "(": 1, ")": -1}.get(text[at], 0)
        at += 1
    return names


def paths_in(said):
    """The paths that a use names, each with the name that it goes by."""
    said = re.sub(r"\s+", " ", said)
    head, _, rest = said.partition("{")
    for name in (rest.rstrip("} ").split(",") if rest else [""]):
        path, _, alias = (head + name.strip()).strip().partition(" as ")
        if path and not path.endswith("::"):
            yield [part.strip() for part in path.split("::")], alias.strip() or path.split("::")[-1]


def imports_of(text, module):
    """What a file of the crate imports from others of it: the name, and its path from the top of the crate."""
    for found in re.finditer(r"^ *(?:pub(?:\(\w+\))? )?use ([^;]*);", text, re.M):
        for path, name in paths_in(found.group(1)):
            if path[0] == "crate":
                yield name, path[1:]
            elif path[0] == "super":
                yield name, module.split("::")[:-1] + path[1:]
            elif path[0] not in ("std", "core"):
                yield name, [part for part in module.split("::") if part] + path


def handed_on(text):
    """The paths that a file hands on to callers of the crate."""
    for found in re.finditer(r"^pub use ([^;]*);", text, re.M):
        yield from (path for path, _ in paths_in(found.group(1)))


class File:
    """A source file: its items in order, each with the place where its comment begins, and the function that it is, if it is one."""

    def __init__(self, crate, path):
        self.text = path.read_text()
        self.path, self.crate = path, crate
        parts = path.relative_to(CRATES / crate / "src").with_suffix("").parts
        self.module = "::".join(part for part in parts if part not in ("lib", "main"))
        self.starts, self.functions, self.types = [], [], {}
        self.members, self.impls, self.heads = {}, {}, {}
        self.imports = dict(imports_of(self.text, self.module))
        self.handed = [path[-1] for path in handed_on(self.text)]
        self.inner = re.findall(r"^pub mod (\w+);", self.text, re.M)
        self.read()

    def read(self):
        lines = self.text.split("\n")
        offsets = [0]
        for line in lines:
            offsets.append(offsets[-1] + len(line) + 1)
        owner = of = ""
        is_trait = False
        for item in ITEM.finditer(self.text):
            at = bisect.bisect_right(offsets, item.start()) - 1
            first, said = comment_before(lines, at)
            function = None
            if item.group("kind") in ("impl", "trait") and not item.group("indent"):
                owner, of, is_trait = self.owner_of(item)
                self.note_type(item, said)
                self.impls.setdefault((owner, of), at + 1)
                end = re.compile(r"^\}", re.M).search(self.text, item.end())
                self.heads[owner, of] = self.heads.get((owner, of), "") + self.text[item.start() : end.end() if end else item.end()]
            elif item.group("kind") == "ghost" and re.match(r" \w+ =", item.group("rest")):
                self.members.setdefault((owner, of), []).append(item.group("rest").split()[0])
            elif item.group("kind") in ("struct", "enum", "const", "static", "type"):
                self.note_type(item, said)
            elif item.group("end"):
                owner, of, is_trait = "", "", False
            elif item.group("name"):
                is_public = bool(item.group("pub")) and not item.group("within") or is_trait
                clauses = head_clauses(self.text, item.end())
                function = Function(self.crate, self.path, self.module, owner if item.group("indent") else "", of, item.group("name"),
                                    at + 1, offsets[first], said, clauses, is_public)
            self.starts.append(offsets[first])
            self.functions.append(function)

    def owner_of(self, item):
        if item.group("kind") == "trait":
            return re.match(r"\s*(\w+)", item.group("rest")).group(1), "", True
        found = IMPL.match(item.group("rest"))
        return (found.group("type").split("::")[-1], (found.group("of") or "").split("::")[-1], False) if found else ("", "", False)

    def note_type(self, item, said):
        name = re.match(r"\s*(\w+)", item.group("rest"))
        if name and item.group("kind") != "impl":
            self.types[name.group(1)] = (bool(item.group("pub")) and not item.group("within"), said)

    def constants_with(self, word):
        """The constants whose text has a word."""
        ends = [*self.starts[1:], len(self.text)]
        for at, (start, end) in enumerate(zip(self.starts, ends)):
            if not self.functions[at] and re.search(rf"\b{word}\b", self.text[start:end]) and (name := self.constant_at(start)):
                yield name

    def constant_at(self, place):
        """The name of the constant that stands at this place of the text, if one does."""
        head = self.text[self.starts[bisect.bisect_right(self.starts, place) - 1] :]
        found = re.match(r"(?:\s*(?:///|#\[)[^\n]*\n)*\s*(?:pub(?:\(\w+\))? )?(?:const|static) (\w+):", head)
        return found.group(1) if found else None

    def function_at(self, place):
        """The function whose comment, head or body stands at this place of the text."""
        return self.functions[bisect.bisect_right(self.starts, place) - 1]


class Crate:
    """The functions of a library, each public where a caller can name it or its type."""

    def __init__(self, name):
        self.name = name
        self.folder = CRATES / name / "src"
        self.files = {path: File(name, path) for path in sorted(self.folder.rglob("*.rt"))}
        self.modules = {file.module: file for file in self.files.values()}
        self.homes, self.steps = {}, set()
        self.walk("")
        self.functions = [function for file in self.files.values() for function in file.functions if function]
        for function in self.functions:
            self.place(function)

    def walk(self, module):
        """Notes the shortest public path of each item that callers can name, from this module on."""
        file = self.modules[module]
        declared = [name for name, (is_public, _) in file.types.items() if is_public]
        declared += [it.name for it in file.functions if it and it.is_public and not it.owner]
        for name in declared:
            self.homes.setdefault((module, name), module)
        for name in file.handed:
            self.homes.setdefault(self.declared(module, name), module)
        for name in file.inner:
            self.walk(f"{module}::{name}".removeprefix("::"))

    def declared(self, module, name):
        """The module that declares an item which this one names, and its name there."""
        file = self.modules.get(module)
        if not file or name in file.types or any(it and it.name == name and not it.owner for it in file.functions):
            return module, name
        if name in file.imports:
            path = file.imports[name]
            return self.declared("::".join(path[:-1]), path[-1])
        return module, name

    def place(self, function):
        """Gives a function the path by which callers name it, if they can."""
        function.type = self.declared(function.module, function.owner) if function.owner else (function.module, function.name)
        home = self.homes.get(function.type)
        function.is_public &= home is not None
        function.module = function.module if home is None else home

    def body(self, function):
        """A function's text from its name on, or None where another crate has it."""
        file = self.files[function.path]
        at = bisect.bisect_left(file.starts, function.start)
        end = file.starts[at + 1] if at + 1 < len(file.starts) else len(file.text)
        return file.text[file.text.index(f"fn {function.name}", function.start) + 3 : end]

    @functools.cached_property
    def runners(self):
        """For each function those of the crate that name it, by the place of each in `functions`."""
        by_name, found = {}, {}
        for function in self.functions:
            by_name.setdefault(function.name, []).append(function)
        for caller in self.functions:
            for before, name in set(re.findall(r"(\.|(?:\w+::)*)(\w+)(?=(?:::<[^;{}]*?>)?\s*\()", self.body(caller))):
                for function in by_name.get(name, ()):
                    if function is not caller and self.is_named(caller, before, function):
                        found.setdefault(id(function), []).append(caller)
        return found

    def is_named(self, caller, before, function):
        """Whether a call in a function, by a name with what stands before it, may be of another function."""
        if before == ".":
            return bool(function.owner)
        if before:
            last = before.split("::")[-2]
            if last == "Self":
                return function.owner == caller.owner
            names = {function.owner, function.of} if function.owner else {function.path.stem, function.module.split("::")[-1]}
            return last in names or bool(function.owner) and len(last) == 1
        return not function.owner and self.declared(self.module_of(caller.path), function.name) == function.type

    def module_of(self, path):
        return self.files[path].module

    def users_of(self, word, files=None):
        """The functions that name something, in all files or some."""
        return [it for it in self.functions if (not files or it.path in files) and re.search(rf"\b{word}\b", self.body(it))]

    @functools.cached_property
    def traits(self):
        """The methods of the crate's own public traits, by trait and name."""
        return {(it.owner, it.name): it for it in self.functions if it.is_public and not it.of and self.is_trait(it)}

    def is_trait(self, function):
        return bool(re.search(rf"^pub trait {function.owner}\b", self.files[function.path].text, re.M)) if function.owner else False

    def row_of(self, function):
        """The function that callers know this one by: itself, or the trait's method that it is; none of a private one."""
        if not function.of:
            return function if function.is_public or id(function) in self.steps else None
        if (function.of, function.name) in self.traits:
            return self.traits[function.of, function.name]
        is_known = not self.is_own(function.of) and function.of != "Debug" and function.type in self.homes
        return function if is_known else None

    def is_own(self, trait):
        return any(trait in file.types for file in self.files.values())

    def callers_of(self, changed):
        """The public functions that run one of these, without another public one between: the nearest where there are many."""
        levels, seen = [list(changed)], set(map(id, changed))
        while levels[-1]:
            levels.append([])
            for function in levels[-2]:
                if self.row_of(function):
                    continue
                above = self.users_of(function.owner) if function.of and not self.is_own(function.of) else []
                for caller in above + self.runners.get(id(function), []):
                    if id(caller) not in seen:
                        seen.add(id(caller))
                        levels[-1].append(caller)
        levels = [list({id(row): row for row in map(self.row_of, level) if row}.values()) for level in levels]
        every = list({id(row): row for level in levels for row in level}.values())
        return every if len(every) <= 4 else next(level for level in levels if level)

    def changed_by(self, edit):
        """The functions that a wrong body changes, or that use the constants, else the imports, that it changes. A line
        `# covers: module::function` of it, which the prover passes over, names others."""
        file, found, items = None, [], []
        for line in edit.read_text().splitlines():
            if line.startswith("# covers: "):
                return [it for it in self.functions if f"::{it.key}".endswith(f"::{line.removeprefix('# covers: ').strip()}")]
            if line.startswith("file: "):
                file = self.files.get(self.folder.parent / line.removeprefix("file: ").strip())
            elif line.startswith("old: ") and file and (old := line.removeprefix("old: ")) in file.text:
                at = file.text.index(old) + len(old) - len(old.lstrip())
                function = file.function_at(at)
                found += [function] if function else []
                items += [] if function else [(file, at, old)]
        return found or [it for item in items for it in self.users_of_item(*item)]

    def users_of_item(self, file, at, old):
        """The functions that use the constant, also through others, or one of the imports, at a place of a file."""
        name = file.constant_at(at)
        if not name:
            words = set(re.findall(r"\w+", old.split("::")[-1])) if old.startswith("use ") else set()
            return [it for word in words for it in self.users_of(word, {file.path})]
        names = [name]
        for name in names:
            for other in self.files.values():
                names += [it for it in other.constants_with(name) if it not in names]
        return [it for name in names for it in self.users_of(name)]


def wrong_bodies(crate):
    """The wrong bodies of a crate, of both tiers."""
    return sorted([*(CRATES / crate).glob("must-fail/*.edit"), *(CRATES / crate).glob("wrong-bodies/*.edit")])


def head_of(path):
    """The first paragraph of the comment that a file begins with."""
    said = []
    for line in path.read_text().splitlines():
        if not line.startswith("//!") or line == "//!":
            break
        said.append(line.removeprefix("//!").strip())
    return " ".join(said)
