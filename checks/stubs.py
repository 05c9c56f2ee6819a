"""Takes functions of a crate by what they promise: such a function has no body and no proof left, and a check under `--allow-holes` believes its
contract."""

import pathlib
import re
import shutil

# The head of a function: the spaces before it, and its name. A constant one is left out, since its body says what a constant is.
HEAD = re.compile(r"( *)(?:pub(?:\([a-z]+\))? )?fn (\w+)")
BODY = "loop {}"
PROOF = """use Rattle.{path}.Statement.{{statement}}

pub {name}_spec : {{M : Type 1}} → statement M
{name}_spec = ?
"""


def take_by_contract(crate, is_left, path_of):
    """Takes each function of a crate's folder by its contract, but for those that are left as they are: functions of traits, those of a cycle, those
    of a type with some arguments alone, and those of which `is_left` says so by the file and the line. `path_of` tells the parts of a function's path
    below the crate by the same, or none."""
    for file in sorted((crate / "src").rglob("*.rt")):
        lines = file.read_text(encoding="utf-8").split("\n")
        spans = [it for it in functions_of(lines) if is_own(lines, it[0]) and not is_left(file, it[0])]
        for begin, opens, end in reversed(spans):
            parts = path_of(file, begin)
            if parts:
                lines[opens + 1 : end] = [f"{HEAD.match(lines[begin])[1]}    {BODY}"]
                take_proof(crate, parts)
        file.write_text("\n".join(lines), encoding="utf-8")


def functions_of(lines):
    """The functions in a file that are in no other: the line of the head, the one that opens the body, and the one that closes it."""
    found, at = [], 0
    while at < len(lines):
        head = HEAD.match(lines[at])
        end = head and next((it for it in range(at + 1, len(lines)) if lines[it].rstrip() == head[1] + "}"), None)
        if end:
            opens = opening(lines, at, end, head[1])
            found += [(at, opens, end)] if opens is not None else []
            at = end
        at += 1
    return found


def opening(lines, begin, end, indent):
    """The line whose last character opens the body: one of its own behind clauses, else the last of the head."""
    alone = next((it for it in range(begin, end) if lines[it] == indent + "{"), None)
    if alone is not None:
        return alone
    return next((it for it in range(begin, end) if re.match(rf"{indent}(?:\)|(?:pub\b.*)?fn ).*\{{$", lines[it])), None)


def is_own(lines, begin):
    """Whether a function is no trait's, and in no cycle of calls that is named above it."""
    if lines[begin].startswith(" "):
        owner = next((lines[it] for it in range(begin, -1, -1) if re.match(r"\S.*\{$", lines[it]) or lines[it] == "{"), "")
        if not re.match(r"(?:unsafe )?impl\b", owner) or " for " in owner or not is_general(owner):
            return False
    above = begin - 1
    while above >= 0 and re.match(r" *(?:#|///)", lines[above]):
        if "#[cycle(" in lines[above]:
            return False
        above -= 1
    return True


def is_general(owner):
    """Whether an `impl` is of its type with any arguments: each of them is a parameter or a lifetime of the `impl`. Else the prover names them in the
    function's path."""
    head, depth = owner.partition("impl")[2].rpartition("{")[0], 0
    ends = [0]
    for at, letter in enumerate(head if head.startswith("<") else ""):
        depth += (letter == "<") - (letter == ">")
        if depth == 0:
            ends.append(at + 1)
            break
    parameters, arguments = head[: ends[-1]], head[ends[-1] :].partition(" where ")[0].partition("<")[2]
    return set(re.findall(r"\w+", arguments)) <= set(re.findall(r"\w+", parameters)) | {"_"}


def take_proof(crate, parts):
    """Puts a proof that is a hole in place of a function's, and of those of its closures."""
    *modules, name = parts
    above = crate.joinpath("proofs", *modules)
    for it in (name, "+" + name, f"fn/{name}"):
        shutil.rmtree(above / it, ignore_errors=True)
    (above / name).mkdir(parents=True)
    path = ".".join([crate.name, "proofs", *parts])
    (above / name / "Proof.antt").write_text(PROOF.format(path=path, name=name), encoding="utf-8")
