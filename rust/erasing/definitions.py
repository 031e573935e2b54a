"""The definitions of `specs/`, and what the words mean that contracts and other definitions use."""
import re
from collections import namedtuple

from . import antt, notation
from .tokens import Refused

NAME = re.compile(r"(?:(?:abbrev|unfoldable|pub|record|data) )*([^\s({:]+)")
# What a word means: its kind, its name, and the definition that has it, if one does. The kinds are a `definition`, a
# `constructor` of one, a word of the `kit`, what the `code` declares, as Rust calls it, and a `member` of a trait.
Meaning = namedtuple("Meaning", "kind name definition")
MADE_OF_CODE = {"declared", "contracts"}  # modules of what the prover makes of the code


class Definition:
    """A definition: its module, its name and line, the heading of its group, the lines above it, and its text, in
    parts, each with its line. If the lines above it begin with two dots, they go on from those above another one."""

    is_code = False

    def __init__(self, module, name, line, group, comment):
        self.module, self.name, self.line, self.group, self.comment = module, name, line, group, comment
        said = [it for it in module.definitions.values() if it.comment]
        self.goes_on = said[-1] if said and comment and comment[0].startswith("..") else None
        self.parts = []

    def text(self):
        return "\n".join(text for _, text in self.parts)

    def constructors(self):
        return antt.members(self.parts[0][1]) if self.parts[0][1].startswith("pub data ") else []

    def above(self):
        """This definition and those before it in its module."""
        those = [*self.module.definitions.values()]
        return those[:those.index(self) + 1]


class Module:
    """A file of `specs/`: what it says of itself, its imports, the files below it, its definitions, and the
    constructors that they have."""

    def __init__(self, path, text):
        self.path, self.about, self.imports, self.below, self.definitions = path, [], [], [], {}
        comment, group = [], None
        for line, part in parts(text):
            if part.startswith("-- ----"):
                comment, group = [], part.removeprefix("-- ---- ")
            elif part.startswith("--"):
                comment = [it.removeprefix("--").strip() for it in part.split("\n")]
            elif found := antt.imports(part):
                self.about, comment = self.about or comment, []
                self.imports.append(found)
            elif part.startswith("pub mod "):
                self.below.append(f"{path}.{part.removeprefix('pub mod ')}")
            else:
                self.add(line, part, group, comment)
                comment = []
        self.constructors = {name: it for it in self.definitions.values() for name in it.constructors()}
        self.names = {to: (it.path, name) for it in self.imports if it.is_public for name, to in it.names or []}
        self.modules = {it.alias: it.path for it in self.imports if it.is_public and not it.names}

    def add(self, line, part, group, comment):
        """Adds a definition, or a further equation of the one above."""
        name = NAME.match(part)[1]
        if name not in self.definitions:
            self.definitions[name] = Definition(self, name, line, group, comment)
        self.definitions[name].parts.append((line, part))


def parts(text):
    """The parts of a file, each with its line: comments, imports, declarations and equations. Each begins a line, and
    the comments of a run are one."""
    found = []
    for i, line in enumerate(text.split("\n"), 1):
        begins = line[:1] not in ("", " ", "}")
        goes_on = line.startswith("-- ") and not line.startswith("-- ----") and found and found[-1][1].startswith("-- ")
        if begins and not (goes_on and is_next(found[-1], i)):
            found.append((i, line))
        elif line and found:
            found[-1] = (found[-1][0], f"{found[-1][1]}\n{line}")
    return found


def is_next(part, line):
    """Whether a line directly follows a part that is no heading of a group."""
    return part[0] + part[1].count("\n") + 1 == line and not part[1].startswith("-- ----")


class Scope:
    """What words mean in a text, by what it imports: names, and modules by their names there. `above` are the
    definitions of the module itself that come before."""

    def __init__(self, book, imports, above=()):
        self.book, self.words, self.modules = book, {}, {}
        for it in imports:
            if it.names:
                self.words |= {part: book.meaning(it.path, name) for name, to in it.names for part in spelled(to)}
            else:
                self.modules[it.alias] = it.path
        for it in above:
            self.words[it.name] = Meaning("definition", it.name, it)
            self.words |= {name: Meaning("constructor", name, it) for name in it.constructors()}

    def meaning(self, word, after):
        """What a word means, with the name after its dot, and how it is written there; None if it is not known."""
        if word in self.words:
            return self.words[word], word
        if word in self.modules and after:
            return self.book.meaning(self.modules[word], after), f"{word}.{after}"
        return (Meaning("kit", word, None), word) if word in notation.BUILT_IN else (None, word)

    def is_constructor(self, word, after):
        meaning, _ = self.meaning(word, after)
        kinds = ("constructor", "code")
        return meaning is not None and (meaning.kind in kinds or meaning.name in notation.CONSTRUCTORS)


def spelled(name):
    """The words that use a name: it, and those between the places of an operator."""
    return [name, *filter(None, name.split("◌"))] if "◌" in name else [name]


class Book:
    """The modules of `specs/` of all crates, each by its path. `types` are modules of types of the code."""

    def __init__(self, texts, types=()):
        self.modules = {path: Module(path, text) for path, text in texts.items()}
        self.types = {module.path.split(".")[0]: module for module in types}
        self.declared = {it.path: it for module in types for it in module.definitions.values()}

    def real(self, path):
        """The path of a module, where a module on the way may have it from elsewhere."""
        crate, specs, *names = path.split(".")
        at = f"{crate}.{specs}"
        for name in names:
            module = self.modules.get(at)
            at = self.real(module.modules[name]) if module and name in module.modules else f"{at}.{name}"
        return at

    def meaning(self, path, name):
        """What a name of a module means, or None if the module lacks it."""
        path = self.real(path)
        if path.startswith("std."):
            return Meaning("kit", name, None)
        if MADE_OF_CODE & set(path.split(".")):
            return self.code(path.removesuffix(".TheVariants"), name)
        module = self.modules.get(path)
        if module is None:
            return None
        if name in module.definitions:
            return Meaning("definition", name, module.definitions[name])
        if name in module.constructors:
            return Meaning("constructor", name, module.constructors[name])
        return self.meaning(*module.names[name]) if name in module.names else None

    def code(self, path, name):
        """What a name means that the code declares, in the module of a type: this type, or a variant of it."""
        if path in self.declared:
            return Meaning("constructor", name, self.declared[path])
        owner = path.rpartition(".")[2]
        return Meaning("code", owner if name in (owner, "the_row") else f"{owner}::{name}", None)

    def ordered(self, path):
        """The modules of a crate, each before those below it, in their order."""
        yield self.modules[path]
        for below in self.modules[path].below:
            yield from self.ordered(below)

    def page(self, crate):
        """The modules on the page of a crate."""
        return [*self.ordered(f"{crate}.specs"), *([self.types[crate]] if crate in self.types else [])]

    def definitions(self):
        modules = [*self.modules.values(), *self.types.values()]
        return [it for module in modules for it in module.definitions.values()]

    def place(self, definition):
        """The page of a definition, which is that of its crate, and the anchor there: its name. If another definition
        of the crate has this name, that of its module is part of the anchor."""
        crate, _, *module = definition.module.path.split(".")
        others = sum(definition.name in it.definitions for it in self.page(crate)) - 1
        return crate, ".".join(["def", *(module if others else []), definition.name])

    def link(self, written, definition):
        """A link from anywhere to a definition."""
        return f"[`{written}`](crate::definitions::{'#'.join(self.place(definition))})"

    def used(self, definition):
        """What a definition uses: words as they are written there, each with its meaning."""
        if definition.is_code:
            there = definition.module.definitions
            words = re.findall(r"\w+", definition.text())
            return {it: Meaning("constructor", it, there[it]) for it in words if it in there}
        scope, found = Scope(self, definition.module.imports, definition.above()), {}
        shared = {name for _, part in definition.parts for name in antt.members(part)}
        for line, part in definition.parts:
            for word, after, at in antt.free(part, scope.is_constructor, shared):
                meaning, written = scope.meaning(word, after)
                check(meaning, written, line + part.count("\n", 0, at))
                found[written] = meaning
        return found


def called(written, meaning):
    """The name of a type or a variant of the code, or of the module of a type's variants, as it is written, with that
    in Rust, if this is another one."""
    alias, dot, _ = written.partition(".")
    name = meaning.name.partition("::")[0] if dot else meaning.name
    return {alias: f"`{alias}` (`{name}`)"} if alias != name else {}


def check(meaning, written, line):
    """Refuses a word that means nothing, or that the page on notation lacks."""
    if meaning is None:
        raise Refused(line, f"the word {written}, which no import defines")
    if meaning.kind == "kit" and meaning.name not in notation.WORDS:
        raise Refused(line, f"the word {written} of the kit, which erasing/notation.py lacks")
