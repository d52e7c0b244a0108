"""The definitions that stand behind a clause: what each name of a file means, and the closure of what some clauses name
(headline.py). A definition is found by the `use` lines of its file; a name that is bound in a text is none."""
import functools
import os
import re
from collections import namedtuple

from definitions import DEFINED, TOP, definitions, documented, files_below, parts_of, read

# A definition: its file and name, the heads of the modules around it, its comment and its text.
Item = namedtuple("Item", "file name heads comment text")
# What the names of a file mean: those that it defines, its cases by the name of their type, what it takes from others,
# and the modules to which it gives a short name.
Scope = namedtuple("Scope", "items cases used short")
WORD = re.compile(r"[^\s(){}\[\],;:→×⊎≡]+")
KIND = r"(?:pub(?:\(crate\))? )?(?:struct|enum|const) "
HAS_BODY = {"abbrev", "unfoldable", "opaque"}


def program_crates():
    return sorted(os.listdir(os.path.join(TOP, "crates")))


def path_of(crate, part, *words):
    return os.path.join(TOP, "crates", crate, part, *words)


def used_in(text):
    """What `use` lines take from elsewhere: names, each with its module; and short names of modules."""
    used, short = {}, {}
    for module, names in re.findall(r"^\s*(?:pub |ghost )*use ([\w.]+)\.\{(.*)\}", text, re.MULTILINE):
        used |= {name.strip(): (module, name.strip()) for name in names.split(",")}
    for module, name in re.findall(r"^\s*(?:pub |ghost )*use ([\w.]+) as (\w+)", text, re.MULTILINE):
        short[name] = module
    return used, short


@functools.cache
def scope_of(path):
    if not path.endswith(".antt"):
        return Scope({}, {}, *used_in(read(path)))
    comments = {name: comment for name, _, comment in definitions(path)}
    items, cases, open_names = {}, {}, set()
    for name, _, text, heads in parts_of(path):
        named = DEFINED.match(text)
        if named:
            items[name] = Item(path, name, tuple(heads), comments.get(name, ""), text.rstrip())
            open_names |= {name} if HAS_BODY & set(named[2].split()) else set()
            if "data" in named[2].split():
                cases |= {case: name for case in re.findall(r"^  (\w+) :", text, re.MULTILINE)}
        elif name in open_names:
            items[name] = items[name]._replace(text=f"{items[name].text}\n{text.rstrip()}")
    return Scope(items, cases, *used_in(read(path)))


@functools.cache
def types_of(crate):
    """The types and constants of a crate's sources, by name."""
    found = {}
    for path in files_below(crate, "src", ".rt"):
        text = read(path)
        comments = dict(documented(path, rf"{KIND}(\w+)"))
        for begin in re.finditer(rf"^{KIND}(\w+)", text, re.MULTILINE):
            one = re.compile(r"[^\n]*;\n|.*?\n}\n", re.DOTALL).match(text, begin.start())[0]
            bare = "\n".join(line for line in one.rstrip().splitlines() if not re.match(r"\s*(///|//|#\[)", line))
            found[begin[1]] = Item(path, begin[1], (), comments.get(begin[1], ""), bare)
    return found


def has_model(item):
    """Whether a contract sees a type as another one."""
    return bool(re.search(rf"impl(<[^>]*>)? Model for {item.name}\b", read(item.file)))


def of_source(crate, name):
    return types_of(crate).get(name) if crate in program_crates() else None


def found(module, name):
    """The definition of a name in a module; None where it is one of the library or a ported crate."""
    words = module.split(".")
    if words[0] != "Rattle" or words[1] not in program_crates() or words[2] != "specs":
        return None
    if words[3] == "declared":
        is_constant = words[-1] == "TheConstants"
        named = [word for word in words[5:] if word != "TheVariants"]
        return of_source(words[1], name if is_constant or not named else named[0])
    path = path_of(words[1], "specs", *words[3:]) + ".antt"
    return here(path, name) if os.path.isfile(path) else None


def here(path, name):
    scope = scope_of(path)
    if name in scope.cases:
        return scope.items[scope.cases[name]]
    return scope.items.get(name) or (found(*scope.used[name]) if name in scope.used else None)


def bound_in(text):
    """The names that a text binds: parameters, arguments of an equation, of a λ, of a let."""
    names = set()
    for group in re.findall(r"[({]([^(){}:]+) :", text) + re.findall(r"λ ([^.]*)\.", text):
        names |= set(re.sub(r"[():]", " ", group).split())
    names |= set(re.findall(r"\blet (\w+) =", text))
    for arguments in re.findall(r"^\w+ ([^=\n]*?) ?=(?: |$)", text, re.MULTILINE):
        names |= {word for word in WORD.findall(arguments) if word[0].islower()}
    return names


def words_of(text):
    """The words of a text that may name something: without remarks, names of fields, and names that it binds."""
    text = re.sub(r"--.*|//.*", "", text)
    bound = bound_in(text)
    text = re.sub(r"\bpub (\w+) :|(?<=[{;]) *(\w+) =(?!=)|^\s+\w+ = ", " ", text, flags=re.MULTILINE)
    text = re.sub(r"λ [^.]*\.", " ", text)
    return [word for word in WORD.findall(text) if word.split(".")[0] not in bound]


def meant(path, text, own=""):
    """What the words of a text mean in its file: definitions, and (module, name) of those from elsewhere."""
    scope, known, outer = scope_of(path), {}, {}
    bare = re.sub(r"--.*|//.*", "", text)
    signs = [name for name in scope.used if "◌" in name and all(sign in bare for sign in name.split("◌"))]
    for word in [*signs, *words_of(text)]:
        first, _, rest = word.partition(".")
        where = None
        if first in scope.short and rest:
            where = (scope.short[first], rest.split(".")[0])
        elif first in scope.used:
            where = scope.used[first]
        item = found(*where) if where else here(path, first) if first in scope.items or first in scope.cases else None
        if item and item.name != own:
            known[item.file, item.name] = item
        elif where and not item:
            outer[where] = None
    return list(known.values()), list(outer)


def fields_of(item):
    """The types that a type of the sources names, and the names of those that a contract sees as something else."""
    kinds, plain = [], []
    crate = os.path.relpath(item.file, os.path.join(TOP, "crates")).split(os.sep)[0]
    near = [crate, *re.findall(r"^use (\w+)::", read(item.file), re.MULTILINE)]
    for word in dict.fromkeys(re.findall(r"\b[A-Z]\w+", item.text.partition("{")[2])):
        kind = next((kind for kind in (of_source(name, word) for name in near) if kind), None)
        if kind and kind.name != item.name and not re.search(rf"^    {word}\b[ ,({{]", item.text, re.MULTILINE):
            (plain if has_model(kind) else kinds).append(kind)
    return kinds, plain


def shown(item, cuts):
    """The text of a definition that is read on: none where it is cut; or all but the fields and the cases so named."""
    dropped = "|".join(cuts.get(item.name, ()))
    if item.name in cuts and not dropped:
        return ""
    parts = re.split(rf"\n(?=  pub |  -- |{re.escape(item.name)} )", item.text)
    kept = [part for part in parts if not dropped
            or not re.match(rf"  pub ({dropped}) :", part) and not re.search(rf"\b({dropped})\b", part.split("=")[0])]
    return "\n".join(kept)


@functools.cache
def read_on(item, text):
    """What a definition's text needs, and the words from elsewhere."""
    if item.file.endswith(".rt"):
        kinds, plain = fields_of(item)
        return (kinds, [("types", kind.name) for kind in plain]) if text else ([], [])
    return meant(item.file, text, item.name)


def needs(item, cuts):
    return read_on(item, shown(item, cuts))


def closure(first, cuts):
    """All definitions behind the first ones, and the words from elsewhere."""
    reached, outer, left = {}, {}, list(first)
    while left:
        item = left.pop()
        if (item.file, item.name) not in reached:
            reached[item.file, item.name] = item
            more, words = needs(item, cuts)
            left += more
            outer |= dict.fromkeys(words)
    return reached, list(outer)


# A clause of a call: its kind and label, and its text.
Clause = namedtuple("Clause", "kind label text")


def braced(text, begin):
    """The place behind the brace that closes the one at a place."""
    depth = 0
    for place in range(begin, len(text)):
        depth += {"{": 1, "}": -1}.get(text[place], 0)
        if depth == 0:
            return place + 1
    raise ValueError(text[begin:begin + 80])


def call(path, name):
    """A public call, or a trait: its comment, its head, and its clauses."""
    text, name = read(path), name.rpartition("::")[2]
    begin = re.search(rf"^ *pub (fn|trait) {name}\b", text, re.MULTILINE)
    comment = dict(documented(path, r"\s*pub (?:fn|trait) (\w+)"))[name]
    if begin[1] == "trait":
        return comment, text[begin.start():braced(text, text.index("{", begin.end()))], []
    place, clauses = begin.end(), []
    clause = re.compile(r"\s*(?://[^\n]*\n\s*)*(requires|ensures) *(\w*) *(?={)")
    place = re.search(r"\n *(requires|ensures)\b", text[place:]).start() + place
    signature = text[begin.start():place].rstrip()
    while one := clause.match(text, place):
        place = braced(text, one.end())
        clauses.append(Clause(one[1], one[2], text[one.start(1):place]))
    return comment, signature, clauses
