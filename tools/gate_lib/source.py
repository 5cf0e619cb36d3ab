"""The functions of a source file, and how the prover names them.

They are found by the formatter's layout, in which each file stands: what begins at one depth ends at the first line of
that depth that is a closing brace. What isn't found so is left out, and an edit of it is then tried alone.
"""

import re
from typing import List, NamedTuple, Optional, Tuple

HEAD = re.compile(r"^( *)(?:pub(?:\([a-z ]+\))? )?(?:final )?(?:const )?(?:unsafe )?fn (\w+)")
TACTIC = re.compile(r"^( *)#\[tactic\(.*\)\]$", re.M)
CYCLE = re.compile(r"^ *#\[cycle\((\w+)\)\]")
CONSTANT = re.compile(r"^(?:pub(?:\([a-z ]+\))? )?(?:const|static) (\w+):", re.M)


class Function(NamedTuple):
    """A function with a body."""

    name: str
    # The head of the impl or trait that it stands in, "" where it stands in none.
    owner: str
    # The name that an attribute gives to the cycle of calls that it is in, "" for none.
    cycle: str
    # Where its attributes and its head begin, where its body begins (behind the brace), and where it ends.
    start: int
    body: int
    end: int


def functions(text: str) -> List[Function]:
    """The functions of a file in their order; one inside another belongs to the outer one."""
    lines = text.split("\n")
    starts = [0]
    for line in lines:
        starts.append(starts[-1] + len(line) + 1)
    found: List[Function] = []
    item = at = 0
    while at < len(lines):
        if lines[at][:1] not in ("", " ", "}", ")", "{", ">"):
            item = at
        head = HEAD.match(lines[at])
        body = body_of(lines, at, head[1]) if head else None
        if head and body:
            first, last = body
            owner = head_of(lines, item, at) if head[1] else ""
            inside = starts[first] + len(lines[first])
            above = attributes_of(lines, at)
            found.append(Function(head[2], owner, cycle_of(lines, at), starts[above], inside, starts[last + 1]))
            at = last
        at += 1
    return found


def body_of(lines: List[str], head: int, indent: str) -> Optional[Tuple[int, int]]:
    """The lines of the braces of a function's body; None where it has none, or one on its head's line."""
    opened = None
    for at in range(head, len(lines)):
        line = lines[at]
        if opened is None and not line.strip() or line.strip() and not line.startswith(indent):
            return None
        if line[len(indent):len(indent) + 1] in ("", " "):
            continue
        if opened is not None:
            return (opened, at) if line == indent + "}" else None
        if line.endswith("{"):
            opened = at
        elif at > head and not line.startswith((indent + ")", indent + ">(")):
            return None
    return None


def head_of(lines: List[str], item: int, at: int) -> str:
    """The head of the item that begins at a line, up to its brace, on one line."""
    words: List[str] = []
    for line in lines[item:at]:
        words.append(line.strip())
        if line.endswith("{"):
            break
    return " ".join(words).rpartition("{")[0].strip()


def attributes_of(lines: List[str], head: int) -> int:
    """The first line of the attributes that stand right above a function's head."""
    while head and lines[head - 1].lstrip().startswith("#["):
        head -= 1
    return head


def cycle_of(lines: List[str], head: int) -> str:
    """The name in an attribute `cycle` above a function's head."""
    for line in reversed(lines[:head]):
        named = CYCLE.match(line)
        if named:
            return named[1]
        if not line.lstrip().startswith(("#[", "//")):
            return ""
    return ""


def unsearched(function: str) -> str:
    """A function's text, on as many lines, with the attribute by which the prover searches nothing for it."""
    head = re.search(rf"(?m){HEAD.pattern}", function)
    if not head:
        return function
    above, rest = function[:head.start()], function[head.start():]
    if TACTIC.search(above):
        return TACTIC.sub(r"\1#[tactic(none)]", above, count=1) + rest
    return f"{above}{head[1]}#[tactic(none)] {rest.lstrip()}"


def module_of(path: str) -> List[str]:
    """The module of a file of `src/`."""
    words = path[len("src/"):-len(".rt")].split("/")
    return [] if words in (["lib"], ["main"]) else words


def printed_name(crate: str, path: str, function: Function) -> str:
    """How the prover names a function: its crate, its module, its impl, and its own name."""
    owner = printed_owner(function.owner) if function.owner else ""
    return "::".join([crate, *module_of(path), *([owner] if owner else []), function.name])


def printed_owner(head: str) -> str:
    """How the prover names an impl: by its type, with its trait behind it (of `From`, with what it is from)."""
    declared = re.match(r"(?:pub )?trait (\w+)", head)
    if declared:
        return declared[1]
    parameters, rest = split_parameters(head[len("impl"):].split(" where ")[0].strip())
    trait, _, kind = rest.rpartition(" for ")
    if not trait:
        return spelled(kind, parameters, with_arguments=False)
    return spelled(kind, parameters) + spelled(trait, parameters, with_arguments="From<" in trait)


def split_parameters(head: str) -> Tuple[List[str], str]:
    """The names of the parameters in angle brackets at the head of a text, and the text behind them."""
    depth = 0
    for at, mark in enumerate(head):
        depth += (mark == "<") - (mark == ">")
        if depth == 0:
            inside, rest = head[1:at], head[at + 1:].strip()
            return (re.findall(r"(?:^|, )(?:const )?'?(\w+)", inside), rest) if at else ([], head)
    return [], head


def spelled(kind: str, parameters: List[str], with_arguments: bool = True) -> str:
    """A type in the prover's spelling: no path, and its arguments that are no parameters behind its name."""
    kind = re.sub(r"\w+::", "", kind.strip())
    if kind.startswith("("):
        return f"Tuple{kind.count(',') + 1}"
    name, _, inside = kind.partition("<")
    words = re.findall(r"&|\w+", name + " " + inside if with_arguments else name)
    shown = ["Ref" if it == "&" else it for it in words if it not in parameters]
    return "".join(it[:1].upper() + it[1:] for it in shown)


def calls(text: str, name: str) -> bool:
    """Whether a text calls a function of this name with nothing before it, or by `self.` or `Self::`."""
    return re.search(rf"(?:(?<![\w.:])|\bself\.|\bSelf::){name}\(", text) is not None


def calls_itself(text: str, function: Function) -> bool:
    """Whether a function that stands outside an impl calls one of its own name."""
    body = text[function.body:function.end]
    return not function.owner and re.search(rf"(?<![\w.:]){function.name}\(", body) is not None


def constant_at(text: str, start: int, end: int) -> str:
    """The name of the constant outside functions in whose text a part of a file lies; "" where it lies in none."""
    for it in CONSTANT.finditer(text):
        if it.start() <= start and end <= text.find(";\n", it.end()):
            return it[1]
    return ""
