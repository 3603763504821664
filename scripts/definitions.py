"""Finds the definitions of the repository, and which others each of them uses.

A definition is an item of a `.antt` file of specs/; or of a `.rt` file of src/ a type with what contracts see of it (`impl Model`), a trait
or a constant. What is found is computed from the files alone: no name of them stands here. The toolchain's words are left out.
"""

import functools
import os
import re

TOP = os.path.dirname(os.path.dirname(os.path.abspath(__file__)))
CRATES = os.path.join(TOP, "crates")
WORD = re.compile(r"[^\s(){},;:.\[\]<>&]+")
USE = re.compile(r"^\s*(?:ghost |pub |unfoldable )*use Rattle\.([\w.-]+?)(?:\.\{([^}]*)\}| as (\w+))?;?\s*$")
RUST_USE = re.compile(r"^(?:pub )?use ([\w:]+?)::(?:\{([^}]*)\}|(\w+));", re.M)
# How a definition begins: by these words, or by its name and a colon.
HEAD = re.compile(r"(?:(?:abbrev|unfoldable|opaque|pub|record|data|syntax) +)+(?!use\b|mod\b)([^\s(){}:]+)|([^\s(){}:]+) :(?:\s|$)")
NO_HEAD = re.compile(r"(?:unfoldable |pub )*(?:use|mod|module)\b")


def text_of(path):
    with open(path, encoding="utf-8") as file:
        return file.read()


def shown(path):
    return os.path.relpath(path, TOP)


def crates():
    """The crates of crates.txt, in its order."""
    lines = text_of(os.path.join(TOP, "crates.txt")).splitlines()
    return [line.split(":")[0].split()[0] for line in lines if line.split("#")[0].strip()]


def names_in(group):
    """The names of a use line: what each is called here, and there."""
    for name in filter(None, (name.strip() for name in (group or "").split(","))):
        there, _, here = name.partition(" as ")
        yield (here or there).strip(), there.strip()


class Uses:
    """What the use lines of a text bring in: names, and modules under another name."""

    def __init__(self, lines):
        self.names, self.modules = {}, {}
        for use in filter(None, map(USE.match, lines)):
            module, group, alias = use.groups()
            self.names.update({here: (module, there) for here, there in names_in(group)})
            if alias:
                self.modules[alias] = module

    def under(self, other):
        """These, where the other's don't stand before them."""
        both = Uses([])
        both.names, both.modules = {**self.names, **other.names}, {**self.modules, **other.modules}
        return both

    def used_by(self, text, bound=()):
        """What a text names of them, beside what it binds itself, as pairs of a module and a name there."""
        for alias, there in re.findall(r"(?<![\w.])(\w+)\.([\w-]+)", text):
            if alias in self.modules:
                yield self.modules[alias], there
        words = words_of(text)
        for here in self.names:
            if here not in bound and stands_in(here, words):
                yield self.names[here]


def words_of(text):
    """The words of a text that can name a definition: no field that is read or given."""
    text = re.sub(r"(?<=[\w)\]}])(?:\.[\w-]+)+", "", re.sub(r"(?m)\s*(?:--|//).*$", "", text))
    return set(WORD.findall(re.sub(r"(?<=[{;])\s*[\w-]+ =(?!=)", " ", text)))


def stands_in(name, words):
    """Whether a name is among these words; of an operator, as `when◌gives◌`, each part."""
    return name in words or "◌" in name and all(part in words for part in name.split("◌") if part)


class Item:
    """A definition: its name, its first line, its lines, and the names that it gives beside its own."""

    def __init__(self, name, first, lines, inner=(), fields=()):
        self.name, self.first, self.lines, self.inner, self.fields = name, first, lines, set(inner), set(fields)

    @property
    def last(self):
        return self.first + len(self.lines) - 1

    @property
    def text(self):
        return "\n".join(self.lines)


class Definitions:
    """A file of specs/."""

    def __init__(self, path):
        self.path, lines = path, text_of(path).splitlines()
        self.uses = Uses(lines)
        self.items, self.named = {}, {}
        heads = [at for at, line in enumerate(lines) if line[:1].strip() and (HEAD.match(line) or line.startswith(("infix", "module")))]
        ends = [at for at, line in enumerate(lines) if NO_HEAD.match(line)]
        for at in heads:
            if not NO_HEAD.match(lines[at]) or lines[at].startswith("module"):
                end = min([other for other in heads + ends if other > at], default=len(lines))
                self.take(at, end, lines)
        self.join_infix()

    def take(self, at, end, lines):
        """Keeps the definition that begins at this line, with the comment above it."""
        first = at
        while first and lines[first - 1].startswith("--") and not lines[first - 1].startswith("-- ----"):
            first -= 1
        # What stands above the imports is of the whole file.
        first = at if first == 0 else first
        while not lines[end - 1].strip() or lines[end - 1].startswith("--"):
            end -= 1
        heads = [line for line in lines[at:end] if not line.strip().startswith("--")]
        if heads[0].startswith("module"):
            found = [HEAD.match(line[2:]) for line in heads[1:] if re.match(r"  \S", line)]
        else:
            found = [HEAD.match(heads[0])]
        names = [match[1] or match[2] for match in found if match] or [heads[0]]
        parts = [match[1] for match in (re.match(r"\s+(?:pub )?([^\s(){}:]+) :(?:\s|$)", line) for line in heads[1:]) if match]
        is_data = re.match(r"(?:\w+ )*data ", heads[0]) is not None
        self.items[names[0]] = Item(names[0], first + 1, lines[first:end], names[1:] + (parts if is_data else []), [] if is_data else parts)

    def join_infix(self):
        """A line that says how an operator binds belongs to the definition after it."""
        items = sorted(self.items.values(), key=lambda item: item.first)
        for item, after in zip(items, items[1:] + [None]):
            if item.name.startswith("infix") and after:
                after.lines, after.first = item.lines + [""] * (after.first - item.last - 1) + after.lines, item.first
                del self.items[item.name]
        for item in self.items.values():
            self.named.update({name: item.name for name in item.inner})
        self.named.update({name: name for name in self.items})

    def clauses(self, item):
        """The parts of a definition in which a name can be bound: its head, each of its clauses, fields or cases."""
        part = []
        for line in item.lines:
            if part and re.match(r"\S|\s+(?:pub )?[^\s(){}:]+ :(?:\s|$)", line) and not line.strip().startswith("--"):
                yield "\n".join(part)
                part = []
            part.append(line)
        yield "\n".join(part)

    def bound(self, clause):
        """The names that a clause binds itself."""
        names = set()
        for group in re.findall(r"[({]([^(){}:]+) : ", clause) + re.findall(r"λ ([^.]+)\.", clause):
            names |= set(group.split())
        if re.match(r"\S", clause) and " = " in clause + " ":
            head = re.sub(r"\.[\w-]+", "", re.split(r"\s=\s", clause + " ", maxsplit=1)[0])
            for word in WORD.findall(head)[1:]:
                if word not in self.named or self.named[word] == word:
                    module = self.uses.names.get(word)
                    if not module or not is_case(module):
                        names.add(word)
        return names

    def used_by(self, name):
        item = self.items[name]
        for clause in self.clauses(item):
            bound = self.bound(clause)
            yield from self.uses.used_by(clause, bound)
            words = words_of(clause) - bound
            for other, owner in self.named.items():
                if owner != name and stands_in(other, words):
                    yield None, owner


class Source:
    """A file of src/: its types, with what contracts see of each, its traits and its constants."""

    ITEM = re.compile(r"^(?:pub(?:\([\w ]+\))? )?(struct|enum|trait|const|type) (\w+)")

    def __init__(self, path):
        self.path, self.lines = path, text_of(path).splitlines()
        self.crate = os.path.relpath(path, CRATES).split(os.sep)[0]
        self.text = "\n".join(self.lines)
        self.top = Uses([line for line in self.lines if line[:1].strip()])
        self.items, self.models, self.named = {}, {}, {}
        owner = None
        for at, line in enumerate(self.lines):
            found = self.ITEM.match(line)
            model = re.match(r"impl(?:<.*?>)? Model for (\w+)", line)
            impl = re.match(r"impl(?:<.*?>)? (\w+)(?:<.*>)? *(?:where.*)?\{", line)
            constant = re.match(r"    pub const (\w+):", line)
            if found and found[2] not in self.items:
                self.items[found[2]] = self.block(found[2], at)
            elif model:
                self.models[model[1]] = self.block(model[1], at)
            elif impl:
                owner = impl[1]
            elif constant and owner:
                self.items[f"{owner}::{constant[1]}"] = self.block(f"{owner}::{constant[1]}", at)
            elif line.startswith("}"):
                owner = None
        self.named = {name: name for name in self.items}

    def block(self, name, at):
        """The item that begins at this line, with its comments and attributes."""
        first = at
        while first and re.match(r"\s*(///|#\[)", self.lines[first - 1]):
            first -= 1
        indent = re.match(r" *", self.lines[at])[0]
        last = at
        while last + 1 < len(self.lines) and not self.ends(last, at, indent):
            last += 1
        return Item(name, first + 1, self.lines[first:last + 1])

    def ends(self, last, at, indent):
        line = self.lines[last]
        return line.startswith(indent + "}") or line.endswith(";") and not line[len(indent):len(indent) + 1].isspace() or last == at and line.endswith("}")

    def parts(self, name):
        """The item, and what contracts see of it."""
        return [part for part in (self.items[name], self.models.get(name)) if part]

    def used_by(self, name):
        item, model = self.items[name], self.models.get(name)
        text = item.text
        if model:
            # Contracts see a value of the model's type: what the private parts are made of, they don't.
            value = re.search(r"ghost Value = \{(.*?)\};", model.text, re.S)
            public = "\n".join(line for line in item.lines if re.match(r"\s+pub |\s*pub (?:struct|enum)\b.*[({]\s*pub ", line))
            uses = self.top.under(Uses(model.lines))
            yield from uses.used_by(value[1] if value else model.text)
            yield from self.rust_words((value[1] if value else "") + "\n" + public, name)
        else:
            uses = self.top.under(Uses(item.lines))
            yield from uses.used_by(text)
            yield from self.rust_words(text, name)

    def rust_words(self, text, name):
        words = words_of(text)
        for use in RUST_USE.finditer(self.text):
            for here, there in names_in(use[2] or use[3]):
                if here in words:
                    yield "rust", (tuple(use[1].split("::")), there)
        for word in words & set(self.items) - {name}:
            yield None, word
        for owner, constant in re.findall(r"\b(\w+)[.:]+([A-Z][A-Z_]+)\b", text):
            if f"{owner}::{constant}" in self.items:
                yield None, f"{owner}::{constant}"


@functools.lru_cache(maxsize=None)
def file_at(path):
    return Source(path) if path.endswith(".rt") else Definitions(path)


@functools.lru_cache(maxsize=None)
def sources(crate):
    found = []
    for root, folders, files in os.walk(os.path.join(CRATES, crate, "src")):
        folders.sort()
        found += [os.path.join(root, file) for file in sorted(files) if file.endswith(".rt")]
    return found


@functools.lru_cache(maxsize=None)
def source_with(crate, modules, name):
    """The file of a crate's sources that declares a name: by its modules, or else any that does."""
    folder = os.path.join(CRATES, crate, "src")
    for path in [os.path.join(folder, *modules) + ".rt", os.path.join(folder, "lib.rt"), *sources(crate)]:
        if os.path.isfile(path) and name in file_at(path).items:
            return path
    # A library may pass on what another crate declares.
    for path in sources(crate):
        for use in re.finditer(r"^pub use (\w+)(?:::\w+)*::(?:\{([^}]*)\}|(\w+));", file_at(path).text, re.M):
            if os.path.isdir(os.path.join(CRATES, use[1])) and use[1] != crate and name in dict(names_in(use[2] or use[3])):
                return source_with(use[1], (), dict(names_in(use[2] or use[3]))[name])
    return None


def rust_place(here, modules, name):
    """The place of what a path of Rust names."""
    crate, modules = here.crate, list(modules)
    if os.path.isdir(os.path.join(CRATES, modules[0])):
        crate = modules.pop(0)
    modules = tuple(module for module in modules if module not in ("crate", "self", "super"))
    path = source_with(crate, modules, name)
    return (path, name) if path else None


def declared_place(crate, modules, there):
    """The place of what the toolchain declares for specs/ of an item of src/."""
    modules, names = list(modules), [there]
    if "TheConstants" in modules:
        at = modules.index("TheConstants")
        owner = modules[at + 1:]
        names, modules = ["::".join(owner + [there])], modules[:at]
    elif "TheVariants" in modules:
        at = modules.index("TheVariants")
        names, modules = [modules[at - 1]], modules[:at - 1]
    elif modules:
        # The last part is the type that the module is of.
        names = [there, modules[-1]]
    for name in names:
        for tried in (tuple(modules), tuple(modules[:-1])):
            path = source_with(crate, tried, name)
            if path:
                return path, name
    return None


@functools.lru_cache(maxsize=None)
def spec_place(module, there):
    """The place of a name of a module of specs/; None where it is the toolchain's."""
    parts = module.split(".")
    if len(parts) < 2 or not os.path.isdir(os.path.join(CRATES, parts[0])) or parts[1] != "specs":
        return None
    if len(parts) > 2 and parts[2] == "declared":
        return declared_place(parts[0], tuple(parts[3:]), there)
    path = os.path.join(CRATES, parts[0], "specs", *parts[2:]) + ".antt"
    if not os.path.isfile(path):
        return None
    file = file_at(path)
    if there in file.named:
        return path, file.named[there]
    passed = file.uses.names.get(there)
    if passed:
        return spec_place(*passed)
    owners = [item.name for item in file.items.values() if there in item.fields]
    return (path, owners[0]) if owners else None


def is_case(word):
    """Whether a name of a use line is a case of a type."""
    module, there = word
    if module.endswith("TheVariants") or module.startswith("std."):
        return True
    place = spec_place(module, there)
    return bool(place) and place[1] != there


def place_of(here, module, there):
    if module is None:
        return here.path, there
    return rust_place(here, *there) if module == "rust" else spec_place(module, there)


# What use lines bring in from specs/ of this repository, and nothing there has: then this module reads the files wrongly.
LOST = set()


@functools.lru_cache(maxsize=None)
def uses_of(place):
    """The definitions that one uses."""
    file, found = file_at(place[0]), set()
    for module, there in file.used_by(place[1]):
        used = place_of(file, module, there)
        if used and used != place:
            found.add(used)
        elif not used and module != "rust" and os.path.isdir(os.path.join(CRATES, *module.split(".")[:2])) and ".specs" in module:
            LOST.add(f"{there} of {module}, which {place[1]} in {shown(place[0])} uses")
    return tuple(sorted(found))


def all_used(places):
    """These definitions, and all that they use."""
    seen, todo = set(), list(places)
    while todo:
        place = todo.pop()
        if place not in seen:
            seen.add(place)
            todo += uses_of(place)
    return seen


def in_reading_order(places):
    """The files of these definitions, each after those that it uses, with its definitions as they stand in it."""
    by_file = {}
    for place in sorted(places):
        by_file.setdefault(place[0], []).append(place[1])
    ordered, begun = [], set()

    def visit(path):
        if path in begun or path not in by_file:
            return
        begun.add(path)
        for used in sorted({used[0] for name in by_file[path] for used in uses_of((path, name))}, key=of_crate):
            visit(used)
        names = sorted(by_file[path], key=lambda name: file_at(path).items[name].first)
        ordered.append((path, names))

    for path in sorted(by_file, key=of_crate):
        visit(path)
    return ordered


def of_crate(path):
    known = crates()
    crate = os.path.relpath(path, CRATES).split(os.sep)[0]
    return (known.index(crate) if crate in known else len(known)), path


def blocks_of(path, names):
    """The lines of these definitions of a file, as pairs of the first one's number and the lines; neighbours stand together."""
    file = file_at(path)
    parts = [part for name in names for part in (file.parts(name) if path.endswith(".rt") else [file.items[name]])]
    blocks = []
    for part in sorted(parts, key=lambda part: part.first):
        if blocks and part.first <= blocks[-1][0] + len(blocks[-1][1]) + 1:
            first, lines = blocks[-1]
            lines += [""] * (part.first - first - len(lines)) + part.lines[max(0, first + len(lines) - part.first):]
        else:
            blocks.append((part.first, list(part.lines)))
    return blocks


# ---- functions


class Function:
    """A function: where it stands, its head with its clauses, and what these name."""

    def __init__(self, path, at):
        file = file_at(path)
        self.path, lines = path, file.lines
        first = at
        while first and re.match(r"\s*(///|#\[)", lines[first - 1]):
            first -= 1
        last, indent = at, re.match(r" *", lines[at])[0]
        while last + 1 < len(lines) and not self.ends(lines[last], last == at):
            last += 1
        self.first, self.lines = first + 1, lines[first:last + 1]
        if self.lines[-1].strip() == "{":
            self.lines.pop()
        self.owner = next((lines[up] for up in range(at, -1, -1) if re.match(r"impl|(?:pub )?trait", lines[up])), "") if indent else ""
        owner_at = lines.index(self.owner) if self.owner else at
        self.inner = Uses([line for line in lines[owner_at + 1:at] if re.match(r" {4}ghost use", line)])

    @staticmethod
    def ends(line, is_first):
        """Whether a function's head ends with this line."""
        is_clause = re.match(r"\s*(?:ensures|requires|//)", line)
        return line.strip() in ("{", "{}") or not is_clause and line.endswith((" {", "{}", ";")) or is_first and line.endswith("}")

    def used(self):
        file = file_at(self.path)
        text = "\n".join(self.lines)
        clauses = "\n".join(line for line in self.lines if not re.match(r"\s*//", line))
        found = [place_of(file, *word) for word in file.top.under(self.inner).used_by(clauses)]
        found += [place_of(file, *word) for word in file.rust_words(text + "\n" + self.owner, None)]
        return {place for place in found if place}


def function_called(name):
    """The function of this name, as CRATE::FUNCTION or TYPE::METHOD; None where there is none."""
    owner, _, function = name.rpartition("::")
    is_crate = os.path.isdir(os.path.join(CRATES, owner)) if owner else False
    for crate in [owner] if is_crate else crates():
        for path in sources(crate):
            lines = file_at(path).lines
            for at, line in enumerate(lines):
                found = re.match(r"( *)(?:pub )(?:const |unsafe |final )*fn (\w+)", line)
                if not found or found[2] != function or bool(found[1]) == is_crate:
                    continue
                made = Function(path, at)
                if is_crate or re.match(rf"(?:impl(?:<.*?>)?|pub trait) (?:.* for )?{owner}\b", made.owner):
                    return made
    if is_crate:
        for path in sources(owner):
            passed = re.search(rf"^pub use (\w+)(?:::\w+)*::(?:\{{[^}}]*\b{function}\b[^}}]*\}}|{function});", file_at(path).text, re.M)
            if passed and os.path.isdir(os.path.join(CRATES, passed[1])) and passed[1] != owner:
                return function_called(f"{passed[1]}::{function}")
    return None


def saying(lines):
    """How many of these lines say something."""
    return sum(bool(line.strip()) and not line.strip().startswith(("--", "//", "ghost use ", "#[")) for line in lines)


# ---- where something is used


def files():
    """All files that have definitions, in the order of crates.txt."""
    for crate in crates():
        for part, ending in (("specs", ".antt"), ("src", ".rt")):
            for root, folders, found in os.walk(os.path.join(CRATES, crate, part)):
                folders.sort()
                yield from (os.path.join(root, file) for file in sorted(found) if file.endswith(ending))


def called(name):
    """The definitions of this name; before it may stand its crate or its file, as `CRATE::NAME` or `FILE.NAME`."""
    owner, _, own = name.replace("::", ".").rpartition(".")
    for path in files():
        file, parts = file_at(path), os.path.relpath(path, CRATES).split(os.sep)
        whole = name if name in file.named else own
        if whole in file.named and (whole == name or owner in (parts[0], os.path.splitext(parts[-1])[0])):
            yield path, file.named[whole]


def users_of(place):
    """What uses a definition: others, and functions whose clauses name it; each with its path and line."""
    item = file_at(place[0]).items[place[1]]
    names = {name.rpartition("::")[2] for name in (item.name, *item.inner, *item.fields)}
    part = re.compile("|".join(re.escape(word) for name in names for word in [max(name.split("◌"), key=len)] if word))
    for path in files():
        file = file_at(path)
        text = "\n".join(file.lines) if path.endswith(".rt") else text_of(path)
        if not part.search(text):
            continue
        for name, other in file.items.items():
            if place in uses_of((path, name)):
                yield path, other.first, name
        for at, line in enumerate(file.lines if path.endswith(".rt") else []):
            found = re.match(r" *(?:pub(?:\([\w ]+\))? )?(?:const |unsafe |final )*fn (\w+)", line)
            if found:
                function = Function(path, at)
                if place in function.used():
                    yield path, function.first, f"fn {found[1]}"
