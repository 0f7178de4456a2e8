"""The cells of 'From rule to theorem' in docs/THEOREMS.md, for scripts/map. A cell is a list of names, divided by commas, semicolons, 'and'
or '..'. A name stands in backticks and can have brackets behind it:
- (`crate`, `crate`): the crates that have it. A theorem or a wrong version needs them where several crates have one of that name.
- (field, field): fields of a theorem, or of a record of the same file that it mentions.
In place of a name there can be one of PHRASES. A colon ends the list, and any words can follow; names in them are names of the tree."""
import collections
import glob
import os
import re

import sources

# What can stand in each column in place of a name. 'NAME' is a function.
PHRASES = {
    "Definition": ["those of docs/API.md", "the same"],
    "Function": ["those of docs/API.md", "the same", "every writer", "the five calls"],
    "Theorem": ["its contract", "the contract of `NAME`", "what it prints is compared"],
    "Wrong version refused": ["the gate fails where a line differs"],
}
COLUMNS = list(PHRASES)
# The library's own names, which contracts cite.
LIBRARY = {"take", "drop", "replicate", "sets"}
ITEM = re.compile(r"`([^`]+)`(?: \(([^()]*)\))?")
DIVIDER = re.compile(r"(?:[,;]| and| \.\.) (?![^()]*\))")
QUOTED = re.compile(r"`([^`]+)`")


class Names:
    """The names of the tree. For each column: the crates that have a name."""

    def __init__(self, tree, graph, proofs, functions, theorems):
        own = (pair for key in tree for pair in sources.own_names(tree, *key).items())
        laws = ((name, key) for key, module in proofs.items() if key[1].split(".")[0] == "Laws" for name in module.definitions)
        self.crates = {
            "Definition": by_name([*own, *((name, ["the library"]) for name in LIBRARY)]),
            "Function": by_name((path, [function.crate]) for function in functions for path in ends(function)),
            "Theorem": {**by_name(laws), **by_name((key[2], key) for key in theorems)},
            "Wrong version refused": sources.edits(),
        }
        self.fields = {(key[0], key[2]): fields(tree, graph, key) for key in theorems if key in graph}
        self.words = words_of_code()


def by_name(pairs):
    """The crates that have each name."""
    found = collections.defaultdict(set)
    for name, key in pairs:
        found[name].add(key[0])
    return found


def fields(tree, graph, key):
    """The fields of a theorem, and of the records of its file that it mentions."""
    file = tree[key[:2]].definitions
    return [field for name in [key[2], *(other[2] for other in graph[key] if other[:2] == key[:2])] for field in file[name].parts]


def ends(function):
    """The ways to name a function: `message::body::put_body`, `body::put_body`, `put_body`."""
    path = [function.crate, *function.path.split("::")]
    return ["::".join(path[start:]) for start in range(len(path))]


def words_of_code():
    """Every word of src/, specs/ and proofs/, comments apart, and every path below the folder of a crate, but for what `rt` puts into out/."""
    outer = [path for path in glob.glob("crates/*/*") if os.path.basename(path) != "out"]
    paths = [path for part in outer for path in glob.glob(f"{part}/**", recursive=True)]
    found = {path.split("/", 2)[2].rstrip("/") for path in paths}
    for path in paths:
        if path.endswith((".rt", ".antt")):
            found |= set(re.split(r"[\s(){},;.:«»<>&\[\]]+", sources.code(path)))
    return found


def faults(names, row):
    """What is wrong with the cells of a row, the first being left out."""
    for column, cell in zip(COLUMNS, row):
        items, _, comment = cell.partition(": ")
        for item in DIVIDER.split(items):
            yield from item_faults(names, column, item)
        yield from (f"no {name} in the tree" for name in QUOTED.findall(comment) if name.split("::")[-1] not in names.words)


def item_faults(names, column, item):
    match = ITEM.fullmatch(item)
    if match:
        brackets = match[2].split(", ") if match[2] else []
        crates = {part.strip("`") for part in brackets if part.startswith("`")}
        yield from name_faults(names, column, match[1], crates)
        yield from field_faults(names, match[1], crates, [part for part in brackets if not part.startswith("`")])
    elif QUOTED.sub("`NAME`", item) in PHRASES[column]:
        yield from (f"no function {name}" for name in QUOTED.findall(item) if name not in names.crates["Function"])
    else:
        yield f"'{item}' is no name and no phrase of the column '{column}'"


def name_faults(names, column, name, said):
    there = names.crates[column].get(name, set())
    if not there:
        yield f"no {name} for the column '{column}'"
    elif not said <= there:
        yield f"{name} is not of {', '.join(sorted(said - there))}"
    elif not said and len(there) > 1 and column in ("Theorem", "Wrong version refused"):
        yield f"{name} stands in several crates, {', '.join(sorted(there))}"


def field_faults(names, name, said, fields):
    there = said or names.crates["Theorem"].get(name, set())
    for field in fields:
        if not any(field in names.fields.get((crate, name), []) for crate in there):
            yield f"{name} has no field {field}"
