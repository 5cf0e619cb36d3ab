"""Parts of a module in LLVM's text, to be compiled side by side.

Functions go together by the crate that their names begin with: a library whose insides are nobody's business is a part of
its own, and the other functions are the first part, with `main`. A part holds what its entries reach, so that it is
optimized as one module. What several parts reach is in each of them, and so are the module's constants; only a part's
entries are seen by the others.
"""

import re
from typing import Dict, Iterator, List, NamedTuple, Sequence, Set, Tuple

NAME = re.compile(r'@("[^"]*"|[\w.$]+)')
MAIN = "main"


class Function(NamedTuple):
    """A function's text, from `define` to its brace, and the names that stand in it."""

    text: str
    names: Set[str]

    def seen(self) -> str:
        """The text as the definition of an entry."""
        return self.text.replace("define internal", "define hidden", 1)

    def declared(self) -> str:
        """The entry as the other parts see it."""
        head = self.text.partition("\n")[0].removesuffix(" {")
        return re.sub(r"^define (internal )?", "declare hidden ", head)


class Module(NamedTuple):
    """A module: its functions by name, and the lines around them."""

    functions: Dict[str, Function]
    rest: List[str]


def module_of(text: str) -> Module:
    """Takes the text apart."""
    functions: Dict[str, Function] = {}
    rest: List[str] = []
    body: List[str] = []
    for line in text.split("\n"):
        if body or line.startswith("define"):
            body.append(line)
            if line == "}":
                whole = "\n".join(body)
                names = [name.strip('"') for name in NAME.findall(whole)]
                functions[names[0]] = Function(whole, set(names[1:]))
                body = []
        else:
            rest.append(line)
    return Module(functions, rest)


def share_of(name: str, libraries: Sequence[Tuple[str, ...]]) -> int:
    """The part that a function is of by its name: 0 is the first."""
    crate = name.partition("::")[0]
    return next((place for place, crates in enumerate(libraries, 1) if crate in crates), 0)


def reached(module: Module, entries: Set[str], libraries: Sequence[Tuple[str, ...]], part: int) -> Tuple[Set[str], Set[str]]:
    """What a part holds with these entries, and the entries of other parts that it names."""
    held: Set[str] = set()
    others: Set[str] = set()
    left = list(entries)
    while left:
        name = left.pop()
        if name not in held:
            held.add(name)
            for behind in module.functions[name].names & module.functions.keys():
                if share_of(behind, libraries) in (0, part):
                    left.append(behind)
                else:
                    others.add(behind)
    return held, others


def parts(text: str, libraries: Sequence[Tuple[str, ...]]) -> Iterator[str]:
    """The parts of a module with `main`: the first one, and one for each list of crates' names from which it takes anything."""
    module = module_of(text)
    entries: List[Set[str]] = [{MAIN}, *(set() for _ in libraries)]
    held: List[Set[str]] = [set() for _ in entries]
    named: List[Set[str]] = [set() for _ in entries]
    found = True
    while found:
        found = False
        for part, own in enumerate(entries):
            if not own <= held[part]:
                held[part], named[part] = reached(module, own, libraries, part)
                found = True
                for name in named[part]:
                    entries[share_of(name, libraries)].add(name)
    for own, inside, outside in zip(entries, held, named):
        if inside:
            yield "\n".join([*module.rest, *(module.functions[name].declared() for name in sorted(outside)),
                             *(function.seen() if name in own else function.text
                               for name, function in module.functions.items() if name in inside)]) + "\n"
