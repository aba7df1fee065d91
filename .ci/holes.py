"""Leaves out of a copy of a crate what a check of some of its functions need not prove.

The proof of a function sees of those that it calls their contracts alone. So each other function gets the body `loop {}` and
a proof that is a hole, and a check under --allow-holes says of a function above it that it depends on a hole, where
it would be proved, and that it is not proved where it would not be.

Left out are free functions and methods of `impl` blocks of a type, with the cycles of calls that they are in. The sources are
read by the layout that `rt fmt` gives them: what a head opens at some column, the first `}` at that column closes.
"""
import os
import re
import shutil

HEAD = re.compile(r"( *)(?:pub(?:\([\w:]+\))? )?fn (\w+)")
# Words that antt keeps, so that no module can be named by them as they stand.
RESERVED = set("abbrev axiom data do in let mod mutual open package pub record ruleset unfold unfoldable unfolding use where with".split())
PARTS = "Answers|Code|Given|Goals|Invariants|Kinds|Lts|Proof|Reads|Tie"
HOLE = """use {library}.{path}.Statement.{{statement}}

pub {name}_spec : {{M : Type 1}} → statement M
{name}_spec = ?
"""


class Function:
    """A function of a source file: the lines that it takes, attributes with it, and what names it."""

    def __init__(self, file, name, first, body, last, block, lines):
        self.file, self.name, self.block = file, name, block
        self.first, self.body, self.last = first, body, last
        head = "\n".join(lines[first:body])
        self.cycle = (re.findall(r"#\[cycle\((\w+)\)\]", head) or [None])[0]
        self.text = "\n".join(lines[first : last + 1])
        self.path = None


def module_of(file):
    """The modules that a file of src/ stands for."""
    steps = file[: -len(".rt")].split("/")
    return [] if steps in (["lib"], ["main"]) else steps


def read(folder):
    """The text of each file of a crate's src/."""
    found = {}
    for at, _, names in os.walk(f"{folder}/src"):
        for name in sorted(names):
            if name.endswith(".rt"):
                with open(f"{at}/{name}", encoding="utf-8") as it:
                    found[os.path.relpath(f"{at}/{name}", f"{folder}/src")] = it.read()
    return found


def end_of(lines, at, column):
    """The line that closes what a line at some column opens, or the line itself."""
    for number in range(at, len(lines)):
        if lines[number] == " " * column + "}":
            return number
    return at


def opens_body(line, column):
    """Whether a function's body begins in a line, or it has none."""
    is_at_column = len(line) - len(line.lstrip()) == column
    return is_at_column and line.endswith(("{", "{}", ";", "}"))


def functions_of(file, text):
    """The functions of a file that can be left out: free ones, and those of a block of a type alone."""
    lines, found, block, block_ends = text.split("\n"), [], None, -1
    at = 0
    while at < len(lines):
        line = lines[at]
        if re.match(r"(?:pub(?:\([\w:]+\))? )?(?:impl|mod|trait|unsafe impl|macro_rules!)\b", line) and not line.endswith(("}", ";")):
            block = None if " for " in line else re.match(r"impl(?:<.*?>+)? (\w+)((?:<.*>)?) \{$", line)
            opens = next((it for it in range(at, len(lines)) if lines[it].endswith("{") and not lines[it].startswith(" ")), at)
            block_ends = end_of(lines, opens, 0)
            if not block:
                at = block_ends + 1
                continue
        head = HEAD.match(line)
        is_inside = at < block_ends
        if head and len(head[1]) == (4 if is_inside else 0):
            column = len(head[1])
            opens = next((it for it in range(at, len(lines)) if opens_body(lines[it], column)), at)
            closes = opens if lines[opens].endswith("{}") else end_of(lines, opens, column)
            if closes > at and lines[opens].endswith(("{", "{}")):
                first = at
                while first and re.match(r" *#\[", lines[first - 1]):
                    first -= 1
                found.append(Function(file, head[2], first, opens, closes, (block[1], block[2]) if is_inside else None, lines))
                at = closes
        at += 1
    return found


def types_of(sources):
    """The modules in which types of each name are defined."""
    found = {}
    for file, text in sources.items():
        for name in re.findall(r"(?m)^(?:pub(?:\([\w:]+\))? )?(?:struct|enum) (\w+)", text):
            found.setdefault(name, []).append(module_of(file))
    return found


def listed(library):
    """The functions that a proved library's own list of its modules has, by their paths, or none where there is no such list."""
    try:
        with open(f"{library}/lang/antt/made.json", encoding="utf-8") as it:
            return {found[1] for found in re.finditer(r'(?m)^"proofs/([^"]+)/Statement"$', it.read())} or None
    except OSError:
        return None


def name_them(functions, types, known):
    """Gives each function the path of its proof, where that is known: the module of its type, and not of the file, with a method's."""
    for it in functions:
        if it.name in RESERVED:
            continue
        if it.block is None:
            path = "/".join([*module_of(it.file), it.name])
            it.path = path if known is None or path in known else None
            continue
        homes = types.get(it.block[0], [])
        if len(homes) != 1:
            continue
        prefix = "/".join([*homes[0], it.block[0]])
        if known is None:
            it.path = f"{prefix}/{it.name}" if "<" not in it.block[1].strip("<>") else None
        else:
            fits = [path for path in known if re.fullmatch(rf"{re.escape(prefix)}(\+[^/]*)?/{it.name}", path)]
            it.path = fits[0] if len(fits) == 1 else None
    twice = {it.path for it in functions if sum(it.path == other.path for other in functions) > 1}
    for it in functions:
        if it.path in twice:
            it.path = None


def is_named(path, names):
    """Whether a function is one of those that names stand for: each is its path, the end of that, or a module or a type of it."""
    full = "::".join(path.split("/"))
    return any(re.fullmatch(rf"(?:\S+::)?{re.escape(name)}(?:::\S*|\+\S*)?", full) for name in names)


def named_functions(sources, known):
    """The functions of sources, each with its path where that is known."""
    found = [it for file, text in sources.items() for it in functions_of(file, text)]
    name_them(found, types_of(sources), known)
    return found


def paths(folder, known):
    """The paths of all functions of a crate that can be left out."""
    return {"::".join(it.path.split("/")) for it in named_functions(read(folder), known) if it.path}


def leave_out(room, crate, names, original, known, whole=()):
    """Leaves out of the copy of a crate in room all but the functions that names stand for, those whose text isn't the original's, those
    of whole, and the cycles of calls that these are in. Returns the paths of what is left out."""
    sources = read(room)
    functions = named_functions(sources, known)
    same = {(it.file, it.text) for file, text in read(original).items() for it in functions_of(file, text)}
    cited = cited_parts(room, crate)

    def stays(it):
        if it.path is None or (it.file, it.text) not in same or it.path.replace("/", "::") in whole:
            return True
        return is_named(it.path, names) or it.path in cited

    bound = {it.cycle for it in functions if it.cycle and stays(it)}
    gone = [it for it in functions if not stays(it) and it.cycle not in bound]
    for file in {it.file for it in gone}:
        lines = sources[file].split("\n")
        for it in sorted((it for it in gone if it.file == file), key=lambda it: -it.first):
            lines[it.first : it.last + 1] = without_body(lines[it.first : it.body + 1])
        with open(f"{room}/src/{file}", "w", encoding="utf-8") as out:
            out.write("\n".join(lines))
    remove_proofs(room, {it.cycle for it in gone if it.cycle})
    for it in gone:
        write_hole(room, crate, it)
    return {it.path.replace("/", "::") for it in gone}


def cited_parts(room, crate):
    """The functions of which a proof outside of their own folder cites more than what they promise."""
    found = set()
    for at, _, names in os.walk(f"{room}/proofs"):
        own = os.path.relpath(at, f"{room}/proofs")
        for name in names:
            with open(f"{at}/{name}", encoding="utf-8") as it:
                cites = re.findall(rf"Rattle\.{crate}\.proofs\.(\S+?)\.(?:{PARTS})\b", it.read())
            found |= {it.replace(".", "/") for it in cites if it.replace(".", "/") != own}
    return found


def without_body(head):
    """The lines of a function of which the head is given, with a body that never ends."""
    kept = [line for line in head if not re.match(r" *#\[(cycle|tactic)\(", line)]
    column = len(kept[-1]) - len(kept[-1].lstrip())
    return [*kept[:-1], re.sub(r"\{\}$", "{", kept[-1]), " " * column + "    loop {}", " " * column + "}"]


def write_hole(room, crate, function):
    """Puts a hole in place of what is written of a function's proof."""
    folder = f"{room}/proofs/{function.path}"
    shutil.rmtree(folder, ignore_errors=True)
    # what is written of the proof of one that calls itself
    shutil.rmtree(os.path.join(os.path.dirname(folder), f"+{function.name}"), ignore_errors=True)
    os.makedirs(folder)
    with open(f"{folder}/Proof.antt", "w", encoding="utf-8") as out:
        out.write(HOLE.format(library=f"Rattle.{crate}.proofs", path=function.path.replace("/", "."), name=function.name))


def cite(room, crate, lemmas, gone):
    """Has the first function of those that are left out cite some files of lemmas, each by a name that is added to it."""
    for number, file in enumerate(lemmas):
        name = f"lemmas_are_read_{number}"
        with open(f"{room}/{file}", "a", encoding="utf-8") as it:
            it.write(f"\npub {name} : Type 1\n{name} = Type 0\n")
        proof = f"{room}/proofs/{sorted(gone)[0].replace('::', '/')}/Proof.antt"
        with open(proof, encoding="utf-8") as it:
            text = it.read()
        module = file.removeprefix("proofs/").removesuffix(".antt").replace("/", ".")
        with open(proof, "w", encoding="utf-8") as it:
            it.write(f"use Rattle.{crate}.proofs.{module}.{{{name}}}\n{text}")


def remove_proofs(room, cycles):
    """Takes the proofs of cycles of calls out."""
    for at, folders, _ in os.walk(f"{room}/proofs"):
        for name in [it for it in folders if it[:1] == "+" and it[1:] in cycles]:
            shutil.rmtree(f"{at}/{name}")
            folders.remove(name)
