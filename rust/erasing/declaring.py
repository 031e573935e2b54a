"""The types of the code that are not public, as definitions, since other definitions use them."""
import re

from .definitions import Definition, Module
from .rules import ghost_items
from .tokens import closing, head_end, item_start, joined, lex


def declarations(text):
    """The structs and enumerations of a source: the name, the line, the lines above and the declaration of each."""
    tokens = lex(text)
    for i in [i for i, token in enumerate(tokens) if token.kind == "word" and token.text in ("struct", "enum")]:
        end = head_end(tokens, i)
        last = closing(tokens, end) if tokens[end].text == "{" else end
        above = re.findall(r"^ *//[/ ]*(.*)", tokens[item_start(tokens, i)].before.rpartition("\n\n")[2], re.M)
        item = lex(joined(tokens[i:last + 1]).lstrip())
        ghost_items(item)
        yield tokens[i + 1].text, tokens[i].line, above, joined(item)


class Declared(Definition):
    """A type of the code. Its path is that of what the prover makes of it."""

    is_code = True

    def __init__(self, module, path, name, line, above, declared):
        super().__init__(module, name, line, None, above)
        stem = path.removesuffix(".rt").split("/") if path != "lib.rt" else []
        self.path = ".".join([module.path.replace("Types", "declared"), *stem, name])
        self.parts.append((line, declared))


def types(crate, sources, public):
    """The types of a crate that are not public, as a module of definitions. `sources` are pairs of the path and the
    text of each, and `public` are the names of what is public."""
    module = Module(f"{crate}.specs.Types", "")
    module.about = ["Types that are not public. Definitions use them as they are declared."]
    found = ((path, *it) for path, text in sources for it in declarations(text))
    for path, name, *others in found:
        if name not in public:
            module.definitions[name] = Declared(module, path, name, *others)
    return module
