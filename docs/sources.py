"""The definitions in specs/, and the public functions with their clauses, as docs/reading.py and docs/proved.py read them."""
import collections
import os
import re
import sys

ROOT = os.path.dirname(os.path.dirname(os.path.abspath(__file__)))
sys.path.insert(0, f"{ROOT}/tests")
import clauses  # noqa: E402

NAME = r"[^\s(){}\[\],;.λ∀→=|]+"
# Its functions are calls of others, which are proved and never run.
WITHOUT = {"derived_traits"}
OF_PROGRAM = {"input_files", "laws", "program"}
HANDED = re.compile(r"pub use ([\w:]+?)(?:::\{([^}]*)\}|::(\w+))?;")


# ---- definitions


class Module:
    """A file of specs: its definitions with their lines, fields and bound names, and what it imports."""

    def __init__(self, crate, path):
        self.path, self.words, self.local, self.parts = path, {}, {}, {}
        self.names, self.aliases, self.passed_on = {}, {}, []
        current = None
        for line in open(path, encoding="utf-8"):
            code = re.sub(r'("(?:[^"\\]|\\.)*")|--.*', lambda it: it[1] or "", line).rstrip()
            if not code:
                continue
            used = re.match(r"(pub )?use (Rattle\.[\w.]+?)(?:\.\{(.*)\})?(?: as (\w+))?$", code)
            if used:
                self.imports(used)
                current = None
                continue
            head = re.match(rf"(?:(?:pub|abbrev|unfoldable|opaque)\s+)*(?:(data|record)\s+)?({NAME})", code)
            begins = re.match(r"(abbrev|pub|data|record|opaque|unfoldable)\b", code)
            if re.match(r"(pub )?mod\b|module\b", code):
                current = None
            elif not code[0].isspace() and begins:
                current = head[2]
                self.words[current] = [code]
            elif not code[0].isspace() and head and head[2] in self.words:
                current = head[2]
                self.words[current].append(code)
            elif not code[0].isspace():
                current = None
            elif current:
                self.words[current].append(code)
                part = re.match(rf"\s+(?:pub )?({NAME}) :", code)
                if part:
                    self.parts.setdefault(part[1], current)
                    self.local.setdefault(current, set()).add(part[1])
            for bound in re.findall(r"[({]([^(){}:]+) : ", code) if current else []:
                self.local.setdefault(current, set()).update(bound.split())

    def imports(self, used):
        public, source, names, alias = used.groups()
        if names is None:
            self.aliases[alias or source.split(".")[-1]] = source
            if public:
                self.passed_on.append((source, None))
            return
        listed = [it.strip().split(" as ") for it in names.split(",")]
        for it in listed:
            self.names[it[-1]] = (source, it[0])
        if public:
            self.passed_on.append((source, {it[-1]: it[0] for it in listed}))


def modules():
    found = {}
    for crate in sorted(os.listdir(f"{ROOT}/crates")):
        top = f"{ROOT}/crates/{crate}/specs"
        for at, _, files in os.walk(top):
            for name in sorted(it for it in files if it.endswith(".antt")):
                path = f"{at}/{name}"
                inner = os.path.relpath(path, top)[: -len(".antt")].replace("/", ".")
                found[f"Rattle.{crate}.specs.{inner}"] = Module(crate, path)
    return found


def resolve(found, source, name, seen=()):
    """Returns the module and the definition that a name of a module stands for, through what modules pass on."""
    if (source, name) in seen:
        return None
    seen = (*seen, (source, name))
    module = found.get(source)
    if not module:
        # a module that the library's root passes on
        root = found.get(re.sub(r"\.specs\..*", ".specs.Lib", source))
        short = source.split(".specs.")[-1]
        for passed, names in root.passed_on if root else []:
            if names is None and passed.split(".")[-1] == short and passed != source:
                return resolve(found, passed, name, seen)
        return None
    if name in module.words:
        return source, name
    if name in module.parts:
        return source, module.parts[name]
    for passed, names in module.passed_on:
        if names is None or name in names:
            got = resolve(found, passed, name if names is None else names[name], seen)
            if got:
                return got
    return None


def cited_in(found, text, names, aliases, home=None, local=()):
    """Returns the definitions that a text cites, by what is in scope; local are the fields and bound names of the definition itself."""
    out = set()
    for token in re.findall(rf"[\w]+\.{NAME}|{NAME}", text):
        head, _, rest = token.partition(".")
        if rest and head in aliases:
            out.add(resolve(found, aliases[head], rest))
        for it in (token, head):
            if home and it in found[home].words:
                out.add((home, it))
                continue
            if home and it in found[home].parts and it not in local:
                out.add((home, found[home].parts[it]))
            # a field of a record may have the name of an imported word
            if it in names:
                out.add(resolve(found, *names[it]))
    return out - {None}


# ---- public functions


def crates():
    """The crates in the order of crates.txt."""
    with open(f"{ROOT}/crates.txt", encoding="utf-8") as file:
        return [line.split(":")[0].split()[0] for line in file if ":" in line and not line.startswith("#")]


def first_sentence(text):
    """The first sentence of a paragraph."""
    return re.split(r"(?<=\.)\s+(?=[A-Z`(\[])|\n\n", text.strip(), maxsplit=1)[0].strip()


def documentation(lines, at):
    """The first paragraph of the documentation before a line, without links."""
    told = []
    for line in reversed(lines[:at]):
        line = line.strip()
        if line.startswith("///"):
            told.insert(0, line[3:].strip())
        elif not line.startswith("#["):
            break
    text = "\n".join(told).split("\n\n")[0].replace("\n", " ")
    links = r"\[(`[^`]+`)\](?:\([^)]*\))?|(`[^`]*`)|\[([^\]]+)\](?:\([^)]*\))?"
    return first_sentence(re.sub(links, lambda it: it[1] or it[2] or it[3], text))


def closing(text, at):
    """The place of the brace that closes the one at a place."""
    depth = 0
    for place in range(at, len(text)):
        depth += {"{": 1, "}": -1}.get(text[place], 0)
        if depth == 0:
            return place
    raise ValueError(text[at:])


def clauses_of(text, at):
    """The clauses of the function that begins at a place: what each asks or ensures, its name, and its text on one line."""
    depth, told = 0, []
    while at < len(text):
        depth += {"(": 1, "[": 1, ")": -1, "]": -1}.get(text[at], 0)
        if depth == 0 and text[at] == ";":
            return told
        if depth == 0 and text[at] == "{":
            begins = re.search(r"\b(ensures|requires)\*?(?: (\w+))? $", text[:at])
            if not begins:
                return told
            end = closing(text, at)
            told.append((begins[1], begins[2] or "", " ".join(text[at + 1:end].split())))
            at = end
        at += 1
    return told


def handed_on(root):
    """The names of functions and types that the root of a crate hands on, and its public modules."""
    names = set()
    for _, several, one in HANDED.findall(root):
        names |= {it.split(" as ")[-1].strip() for it in several.split(",")} if several else {one}
    return names, set(re.findall(r"^pub mod (\w+);", root, re.M))


class Item:
    """A public function, or an impl of a trait for a public type: its name, what it does, its clauses, and its file."""

    def __init__(self, name, does, told, path):
        self.name, self.does, self.told, self.path, self.cited = name, does, told, path, {}


def items_of(crate, file, lines, names, is_public):
    """The items of a file. `names` are those that the root of the crate hands on, and `is_public` says whether the module is public."""
    path, block, text = f"{crate}/src/{file}.rt", (False, "", None, False), "\n".join(lines) + "\n"
    starts = [0]
    for line in lines:
        starts.append(starts[-1] + len(line) + 1)
    for at, line in enumerate(lines):
        if told := clauses.BLOCK.match(line):
            block = bool(told[1]), told[2], *clauses.subject(told[3])
            if told[2] == "impl" and block[3] and (is_public or block[2] in names):
                yield from impl_of(told[3], block[2], lines, at, path, text[starts[at]:])
        elif line == "}":
            block = False, "", None, False
        told = clauses.ITEM.match(line)
        if not told or not (told[2] or block[:2] == (True, "trait")) or block[3]:
            continue
        if not (is_public or (block[2] or told[3]) in names or 'extern "C"' in line):
            continue
        found = clauses_of(text[starts[at]:], 0)
        # a law has its module before it, all else its type
        before = block[2] or ("laws" if file == "laws" else None)
        yield Item("::".join(filter(None, [before, told[3]])), documentation(lines, at), found, path)


def impl_of(header, of, lines, at, path, text):
    """The impl of a trait that says by ghost members what its functions return."""
    text = text.partition("\n}")[0]
    found = [("ensures", it[1], " ".join(text[it.end():closing(text, it.end() - 1)].split()))
             for it in re.finditer(r"\bghost (?!view|invariant|inverse)(\w+) = \{", text)]
    trait = re.sub(r"^<[^>]*> ?", "", header.strip()).partition(" for ")[0].split("::")[-1]
    if found and trait != "Model":
        does = next((documentation(lines, n) for n in range(at, len(lines)) if re.match(r"    fn ", lines[n])), "") if "\n    fn " in text else ""
        yield Item(f"{of}: {trait}", does, found, path)


def scope(lines):
    """What the names of definitions mean in a file: names with their modules, and aliases of modules."""
    names, aliases = {}, {}
    for line in lines:
        used = re.match(r"\s*ghost use (Rattle\.[\w.]+?)(?:\.\{(.*)\})?(?: as (\w+))?;", line)
        if used:
            source, listed, alias = used.groups()
            if listed is None:
                aliases[alias or source.split(".")[-1]] = source
            for it in (it.strip().split(" as ") for it in listed.split(",")) if listed else ():
                names[it[-1]] = (source, it[0])
    return names, aliases


def words(found):
    """The first sentence of the comment before each definition, by its module and name."""
    told = {}
    for source, module in found.items():
        comment = []
        with open(module.path, encoding="utf-8") as file:
            for line in file:
                if line.startswith("-- ----") or not line.strip():
                    comment = []
                elif line.startswith("-- "):
                    comment.append(line[3:].strip())
                elif head := re.match(rf"(?:(?:pub|abbrev|unfoldable|opaque)\s+)*(?:(?:data|record)\s+)?({NAME})", line):
                    # a comment that goes on with the one before it means nothing alone
                    if comment and head[1] in module.words and not comment[0].startswith(("..", "and ")):
                        told.setdefault((source, head[1]), first_sentence(" ".join(comment)).rstrip("."))
                    comment = []
    return told


def all_items(found):
    """The public items of each crate, in the order of crates.txt, with the definitions that each clause cites."""
    files = collections.defaultdict(list)
    for crate, file, lines in clauses.sources():
        files[crate].append((file, lines))
    for crate in crates():
        roots = {file: lines for file, lines in files[crate] if file in ("lib", "main")}
        if crate in WITHOUT or not roots:
            continue
        root = "\n".join(roots.get("lib", roots.get("main")))
        names, modules = handed_on(root)
        for file, lines in files[crate]:
            # the root of a folder hands on what its files have
            if (parent := next((other for name, other in files[crate] if file.startswith(f"{name}/")), None)) is not None:
                inner, below = handed_on("\n".join(parent))
                is_public = file.split("/")[0] in modules and file.split("/")[-1] in below
                here = names | (inner if file.split("/")[0] in modules else set())
            else:
                is_public, here = file in modules, names
            if "lib" not in roots:
                is_public, here = file in OF_PROGRAM, set()
            in_scope = scope(lines)
            for item in items_of(crate, file, lines, here, is_public):
                for kind, name, text in item.told:
                    # what only says of which type something is says nothing of it
                    bare = re.sub(r"(: |\bList |\bOption )\(?[\w.]+", r"\1", text)
                    reached = cited_in(found, bare, *in_scope)
                    item.cited[kind, name] = sorted(reached, key=lambda it, bare=bare: (bare.find(it[1]) < 0, bare.find(it[1]), it[1]))
                yield crate, item
