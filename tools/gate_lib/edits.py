"""Must-fail edits: which function each changes, and the texts of several together."""

import os
import re
from typing import Dict, List, NamedTuple, Optional, Sequence, Set, Tuple

from gate_lib import source


class Edit(NamedTuple):
    """An edit of the body of one function."""

    # Its file, and what it is called.
    file: str
    label: str
    # The source file that it changes, and the function as the prover names it.
    path: str
    function: str
    # How the names of the function's closures begin.
    closures: str
    # The function's place in the file, and its text with the edit.
    start: int
    end: int
    text: str


class Placed(NamedTuple):
    """An edit in a text that may hold others too: the lines that its function takes there."""

    edit: Edit
    first: int
    last: int


def in_one_function(crate: str, folder: str, file: str, label: str, texts: Dict[str, str],
                    known: Sequence[str]) -> Optional[Edit]:
    """The edit that these texts are, if it changes the body of one function that the prover knows and nothing else."""
    if len(texts) != 1:
        return None
    (path, after), = texts.items()
    if not path.startswith("src/"):
        return None
    before = read(f"{folder}/{path}")
    start, end = changed(before, after)
    for function in source.functions(before):
        if not function.body <= start <= end <= function.end or function.cycle:
            continue
        if source.calls_itself(before, function):
            return None
        name = known_name(crate, path, function, known)
        if name is None:
            return None
        text = after[function.start:len(after) - (len(before) - function.end)]
        return Edit(file, label, path, name, closures_of(crate, path, name), function.start, function.end, text)
    return None


def functions_near(crate: str, folder: str, texts: Dict[str, str], known: Sequence[str]) -> List[str]:
    """The functions that most likely show an edit which isn't one of a single body: those that it lies in, or those
    that name the constant that it changes, or else those of its files; none where a file is no source file."""
    if len(texts) == 1:
        (path, after), = texts.items()
        if path.startswith("src/"):
            before = read(f"{folder}/{path}")
            start, end = changed(before, after)
            here = [known_name(crate, path, it, known) for it in source.functions(before)
                    if it.start < end and start < it.end]
            constant = source.constant_at(before, start, end)
            named = here or (functions_that_name(crate, folder, constant, known) if constant else [])
            if named and None not in named:
                return sorted(it for it in named if it)
    return functions_of_files(crate, texts, known)


def functions_that_name(crate: str, folder: str, word: str, known: Sequence[str]) -> List[Optional[str]]:
    """The functions of a crate that have a word in them; None stands for one that the prover names in a way that isn't
    certain."""
    found: List[Optional[str]] = []
    for path, text in sources(folder).items():
        for function in source.functions(text):
            if re.search(rf"\b{word}\b", text[function.start:function.end]):
                found.append(known_name(crate, path, function, known))
    return found


def functions_of_files(crate: str, texts: Dict[str, str], known: Sequence[str]) -> List[str]:
    """The functions, among those that the prover printed, of the modules that these source files are; none where a file
    is no source file."""
    modules = ["::".join([crate, *source.module_of(path), ""]) for path in texts if path.startswith("src/")]
    if len(modules) != len(texts):
        return []
    return sorted(name for name in known if "++" not in name and name.startswith(tuple(modules)))


def aside(crate: str, folder: str, tried: Sequence[str], known: Sequence[str]) -> List[str]:
    """The functions of a crate, among those that the prover printed, that needn't be proved to see whether these are:
    what calls a function cites its contract alone, and its body and its proof matter to nothing else. Closures aren't
    among them, nor what may be in a cycle of calls, whose proofs are one, nor a function of whose proof another file
    names a part."""
    in_cycles = {known_name(crate, path, it, known) for path, text in sources(folder).items()
                 for it in source.functions(text)
                 if it.cycle or source.calls(text[it.body:it.end], it.name)}
    plain = re.compile(rf"{crate}(?:::\w+)+")
    named = named_in_other_proofs(crate, folder)
    return [it for it in known if plain.fullmatch(it) and "::fn::" not in it and it not in in_cycles
            and it not in tried and it not in named]


def wants_search(file: str) -> bool:
    """Whether `with_search.md` beside an edit names it: the goal that it breaks has no answer."""
    listed = f"{os.path.dirname(file)}/with_search.md"
    return os.path.isfile(listed) and f"- `{os.path.basename(file)}`\n" in read(listed)


def has_answers(folder: str, function: str) -> bool:
    """Whether a function of a crate has answers of its own."""
    return os.path.isfile("/".join([folder, "proofs", *function.split("::")[1:], "Answers.antt"]))


def in_cycles(crate: str, folder: str) -> Set[str]:
    """The functions of a crate that call themselves: the proof of `m::f` stands in the folder `m/+f`, and no proof is
    made for one that has none. Functions that call one another bear an attribute instead."""
    found = set()
    for at, folders, _ in os.walk(f"{folder}/proofs"):
        paths = [os.path.relpath(f"{at}/{it}", f"{folder}/proofs") for it in folders if it.startswith("+")]
        found |= {"::".join([crate, *it.replace("+", "").split("/")]) for it in paths}
    return found


def without_bodies(crate: str, folder: str, texts: Dict[str, str], functions: Sequence[str],
                   known: Sequence[str]) -> Dict[str, str]:
    """These texts, and those of a crate's other files, with bodies that do nothing in place of these functions' own;
    all else stays on its line."""
    found = dict(texts)
    for path, before in {**sources(folder), **texts}.items():
        after, at = "", 0
        for it in source.functions(before) if path.startswith("src/") else []:
            if known_name(crate, path, it, known) in functions:
                lines = before[it.body:it.end].split("\n")
                after += before[at:it.body] + "\n" * (len(lines) - 2) + f"unreachable!() {lines[-2].strip()}\n"
                at = it.end
        if at:
            found[path] = after + before[at:]
    return found


def named_in_other_proofs(crate: str, folder: str) -> Set[str]:
    """The functions, and modules, of a crate of whose proofs a proof file of something else names a part."""
    found = set()
    for at, _, names in os.walk(f"{folder}/proofs"):
        own = os.path.relpath(at, f"{folder}/proofs").replace("/", "::")
        for text in [read(f"{at}/{it}") for it in names if it.endswith(".antt")]:
            for path in re.findall(rf"\bRattle\.{crate}\.proofs\.([\w.]+)", text):
                words = path.split(".")
                paths = ["::".join(words[:end]) for end in range(1, len(words))]
                found |= {f"{crate}::{it}" for it in paths if it != own}
    return found


def changed(before: str, after: str) -> Tuple[int, int]:
    """The part of the first text in which the two differ."""
    start = len(os.path.commonprefix([before, after]))
    most = min(len(before), len(after)) - start
    same = len(os.path.commonprefix([before[::-1][:most], after[::-1][:most]]))
    return start, len(before) - same


def known_name(crate: str, path: str, function: source.Function, known: Sequence[str]) -> Optional[str]:
    """The name of a function among those that the prover printed; None where that isn't certain."""
    name = source.printed_name(crate, path, function)
    if name in known:
        return name
    # An impl may stand in another module than its type, whose name the prover gives.
    owner = source.printed_owner(function.owner) if function.owner else ""
    found = [it for it in known if owner and it.startswith(f"{crate}::") and it.endswith(f"::{owner}::{function.name}")
             and "::fn::" not in it]
    return found[0] if len(found) == 1 else None


def closures_of(crate: str, path: str, name: str) -> str:
    """How the prover's names of a function's closures begin."""
    module = "::".join([crate, *source.module_of(path)])
    return f"{module}::fn::{name[len(module) + 2:]}::" if name.startswith(f"{module}::") else f"{name}::"


def together(folder: str, edits: Sequence[Edit], unsearched: Sequence[Edit]) -> Tuple[Dict[str, str], List[Placed]]:
    """The texts of files with edits of different functions, and where those functions stand in them. In the functions
    of those unsearched the prover takes answers alone."""
    texts: Dict[str, str] = {}
    placed: List[Placed] = []
    for path in sorted({it.path for it in edits}):
        before, after, at = read(f"{folder}/{path}"), "", 0
        for edit in sorted((it for it in edits if it.path == path), key=lambda it: it.start):
            after += before[at:edit.start]
            first = after.count("\n") + 1
            after += source.unsearched(edit.text) if edit in unsearched else edit.text
            placed.append(Placed(edit, first, after.count("\n")))
            at = edit.end
        texts[path] = after + before[at:]
    return texts, placed


def harmless(crate: str, folder: str, room: str, edits: Sequence[Edit], known: Sequence[str]) -> Optional[Edit]:
    """An edit, written to a file in a folder, that changes nothing, in a function that calls an edited one; one in a
    function without edits of its own where there is such a function, and among these in one that has answers."""
    texts = sources(folder)
    all_functions = [(path, it) for path, text in texts.items() for it in source.functions(text)]
    names = [it.name for _, it in all_functions]
    edited = {it.function for it in edits}
    called = [it for it in sorted(it.split("::")[-1] for it in edited) if names.count(it) == 1]
    found: List[Tuple[bool, bool, Edit, str]] = []
    for path, function in all_functions:
        body = texts[path][function.body:function.end]
        line = marked_line(texts[path], body)
        if not line or not any(source.calls(body, it) for it in called if it != function.name):
            continue
        marked = {path: texts[path].replace(line, f"{line} // as it was")}
        label = f"{crate}/changes_nothing.edit"
        made = in_one_function(crate, folder, f"{room}/changes_nothing.edit", label, marked, known)
        if made:
            text = f"file: {path}\nold: {line}\nnew: {line} // as it was\n"
            found.append((made.function in edited, not has_answers(folder, made.function), made, text))
    if not found:
        return None
    _, _, edit, text = min(found, key=lambda it: it[:2])
    with open(edit.file, "w", encoding="utf-8") as it:
        it.write(text)
    return edit


def sources(folder: str) -> Dict[str, str]:
    """The texts of a crate's source files."""
    files = [os.path.join(at, it) for at, _, names in os.walk(f"{folder}/src") for it in names if it.endswith(".rt")]
    return {os.path.relpath(it, folder): read(it) for it in sorted(files)}


def marked_line(text: str, body: str) -> str:
    """A line of a body that stands once in its file and that a comment may follow."""
    for line in body.split("\n")[1:]:
        if line.strip() and text.count(line) == 1 and not re.search(r'["/]', line):
            return line
    return ""


def read(file: str) -> str:
    """A file's text."""
    with open(file, encoding="utf-8") as it:
        return it.read()
