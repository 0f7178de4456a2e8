"""The sources, as scripts/map and scripts/reach read them: the definitions of specs/ and proofs/ and what they mention, the functions of
src/, the must-fail edits. A definition is named by its crate, its module and its name: `message/MessageReader.stream_fault`."""
import collections
import glob
import os
import re

# Of a record the parts are its fields, of a data type its constructors.
Definition = collections.namedtuple("Definition", "kind type body parts")
# `used`: the crate, the module and the definition behind a name. `aliases`: the crate and the module behind a short name.
Module = collections.namedtuple("Module", "definitions used aliases")
# The path is that from the crate's root, as `number::three` or `Panel::look`.
Function = collections.namedtuple("Function", "crate path public")

NAME = r"[^\s:(){}]+"
TYPE_HEAD = re.compile(rf"(?:pub )?(record|data) ({NAME})(.*)")
HEAD = re.compile(rf"(?:abbrev |unfoldable )?(?:pub )?()({NAME}) :(.*)")
PART = re.compile(rf"(?:pub )?({NAME}) : ")
BLOCK = re.compile(r"(?:unfoldable )?mutual|module _ (.*)")
PUB = r"(?:pub(?:\(\w+\))? )?"
USE_LINE = re.compile(rf"^ *(?:ghost )?({PUB}use Rattle\..*?);?$", re.MULTILINE)
USE = re.compile(rf"{PUB}use Rattle\.(\w+)\.specs\.([\w.-]+?)(?:\.\{{(.*)\}}| as (\S+))")
FUNCTION = re.compile(rf'^( *)(impl|{PUB}trait|{PUB}(?:unsafe )?(?:extern "C" )?fn)(?:<[^>]*>)? (?:\w+ for )?(\w+)', re.MULTILINE)
# What stands before a value in a record, or before an argument that is given by its name.
LABEL = re.compile(rf"([{{;]\s*){NAME} = ")
WORD = re.compile(r"[^\s(){},;«»]+")
# The crate of the toolchain's library, whose names are not asked for.
LIBRARY = "std"


class Unknown(Exception):
    """A name of ours that is not where it is said to be."""


def enter_root():
    os.chdir(os.path.join(os.path.dirname(os.path.abspath(__file__)), ".."))


def read(path):
    with open(path, encoding="utf-8") as file:
        return file.read()


def code(path):
    """A file's text without its comments."""
    mark = "--" if path.endswith(".antt") else "//"
    return re.sub(rf"{mark}.*", "", read(path))


# ---- definitions


def definitions(path):
    """The definitions of a file by name. Those inside `mutual` and `module _ (..) where` are among them; what stands in the brackets is of
    the type of each."""
    found, blocks, current = {}, [""], None
    for line in code(path).split("\n"):
        bare = line.strip()
        if not bare or re.match(rf"{PUB}(?:use|mod) ", bare):
            continue
        indent = len(line) - len(line.lstrip())
        del blocks[indent // 2 + 1:]
        depth = indent - 2 * (len(blocks) - 1)
        head = TYPE_HEAD.fullmatch(bare) or HEAD.fullmatch(bare)
        if depth == 0 and (block := BLOCK.fullmatch(bare)):
            blocks.append(block[1] or "")
            current = None
        elif depth == 0 and head:
            kind, name, rest = head.groups()
            given = [f"{text.removesuffix('where')}→" for text in blocks if text]
            current = found[name] = Definition(kind, [*given, rest.strip()], [], [])
        elif depth == 0 and bare.split()[0] not in found and "/specs/" in path:
            raise Unknown(f"{path}: not understood: {bare}")
        elif current:
            extend(current, bare, depth)
        else:
            blocks[-1] += f" {bare}"
    return {name: Definition(kind, " ".join(of_type), " ".join(body), parts) for name, (kind, of_type, body, parts) in found.items()}


def extend(definition, bare, depth):
    """A further line of a definition: of its type, up to the first clause, or of its body. The name of a part is no word of the body."""
    part = PART.match(bare)
    if definition.kind and depth == 2 and part:
        definition.parts.append(part[1])
        bare = bare[part.end():]
    in_type = not definition.kind and not definition.body and depth > 0
    (definition.type if in_type else definition.body).append(bare)


def result(definition):
    """What stands behind the last arrow, or colon, of its type."""
    return re.split(r"[→:]", definition.type)[-1].strip(" ()").removesuffix(" where")


def modules(folder="specs"):
    """Each module below crates/*/specs or crates/*/proofs."""
    found = {}
    for path in sorted(glob.glob(f"crates/*/{folder}/**/*.antt", recursive=True)):
        crate, name = re.fullmatch(rf"crates/(\w+)/{folder}/(.+)\.antt", path).groups()
        found[crate, name.replace("/", ".")] = Module(definitions(path), *uses(path))
    return found


def uses(path):
    """The names of specs/ that a file uses, and its short names for modules of specs/. A file of specs/ uses nothing else of ours."""
    used, aliases = {}, {}
    for line in USE_LINE.findall(code(path)):
        match = USE.fullmatch(line)
        if f"use Rattle.{LIBRARY}." in line:
            continue
        if match and match[4]:
            aliases[match[4]] = match.group(1, 2)
        elif match:
            for name in match[3].split(", "):
                origin, _, here = name.partition(" as ")
                used[here or origin] = (*match.group(1, 2), origin)
        elif "/specs/" in path or ".specs." in line:
            raise Unknown(f"{path}: not understood: {line}")
    return used, aliases


# ---- what mentions what


def owner(tree, crate, module, name):
    """The definition with this name, a constructor being its data type's. The types of src/ stand in no file: they are named by
    `declared` modules."""
    if module.split(".")[0] == "declared":
        return crate, module.removesuffix(".TheVariants"), name
    if (crate, module) not in tree:
        raise Unknown(f"no module {crate}/{module}")
    found = tree[crate, module].definitions
    for whole, definition in found.items():
        if name == whole or (definition.kind == "data" and name in definition.parts):
            return crate, module, whole
    raise Unknown(f"no definition {crate}/{module}.{name}")


def words(text):
    """The words of a text, but for the labels of records and what is projected from brackets (`(f x).field`)."""
    return {word.rstrip(".") for word in WORD.findall(LABEL.sub(r"\1", text)) if not word.startswith(".")}


def mentioned(tree, module, own, text):
    """The definitions of specs/ that a text mentions, whose module uses these; `own` are the names of that module itself. What stands behind
    a name and a dot is a name of that module, or else a field."""
    found = set()
    for word in words(text):
        name, *behind = word.split(".")
        if behind and name in module.aliases:
            found.add(owner(tree, *module.aliases[name], behind[0]))
        elif name in module.used:
            found.add(owner(tree, *module.used[name]))
        elif name in own:
            found.add(own[name])
    return found


def own_names(tree, crate, module):
    """The names that a module has itself: of its definitions and of their constructors."""
    found = {}
    for name, definition in tree[crate, module].definitions.items():
        parts = definition.parts if definition.kind == "data" else []
        found.update({word: (crate, module, name) for word in [name, *parts]})
    return found


def graph(tree):
    """For each definition those that it mentions. Every name that a module uses must be there."""
    found = {}
    for (crate, name), module in tree.items():
        for origin in module.used.values():
            owner(tree, *origin)
        own = own_names(tree, crate, name)
        for word, definition in module.definitions.items():
            key = (crate, name, word)
            found[key] = mentioned(tree, module, own, f"{definition.type} {definition.body}") - {key}
    return found


# ---- code and edits


def crates():
    """The crates in the order of crates.txt."""
    return re.findall(r"^(\w+)(?: [\w=+ ]+)?:", read("crates.txt"), re.MULTILINE)


def functions():
    """The functions of src/."""
    return [function for crate in crates() for path in code_files(crate) for function in functions_of(crate, path)]


def code_files(crate):
    return sorted(glob.glob(f"crates/{crate}/src/**/*.rt", recursive=True))


def public_modules(crate):
    """The modules whose public functions are those of the crate; a program has none."""
    root = f"crates/{crate}/src/lib.rt"
    return {"lib", *re.findall(r"^pub mod (\w+);", code(root), re.MULTILINE)} if os.path.exists(root) else set()


def functions_of(crate, path):
    """The functions of one file. Those of a public trait are public; what stands for them at each type is not."""
    module = re.fullmatch(r"crates/\w+/src/(.+)\.rt", path)[1]
    outer = [] if module in ("lib", "main") else module.split("/")
    block, open_block = None, False
    for indent, start, name in FUNCTION.findall(code(path)):
        if not start.endswith("fn"):
            block, open_block = name, start == "pub trait"
        else:
            path_in_crate = [*outer, *([block] if indent else []), name]
            shown = start.startswith("pub ") or (bool(indent) and open_block)
            yield Function(crate, "::".join(path_in_crate), shown and module in public_modules(crate))


def edits():
    """The crates that have a must-fail edit of each name."""
    found = collections.defaultdict(set)
    for path in glob.glob("crates/*/must-fail/*.edit"):
        crate, name = re.fullmatch(r"crates/(\w+)/must-fail/(.+)\.edit", path).groups()
        found[name].add(crate)
    return found
