"""Reads the sources of the crates, for tools/proofs, tools/mutants/try and the checks.

A source (`.rt`) is read into its functions, blocks (`impl` and `trait`), types, public fields and
imports, a file of definitions or proofs (`.antt`) into its definitions. It goes by the layout that
`rt fmt` gives them, and knows no more of the language. Numbers of lines begin at 1, places at 0.
"""
import collections
import functools
import os
import re

ROOT = os.path.dirname(os.path.dirname(os.path.abspath(__file__)))
TESTS = re.compile(r"/tests(/|\.rt$)")
VISIBLE = r"(?:pub(?:\([a-z ]+\))? )?"
FUNCTION = re.compile(rf'( *)({VISIBLE})(?:const )?(?:unsafe )?(?:extern "C" )?fn (\w+)')
BLOCK = re.compile(rf"(?:unsafe )?impl\b|{VISIBLE}trait ")
# The head of a block: what `impl` has of parameters may have some in its own, and these in theirs.
PARAMETERS = r"<(?:->|[^<>]|<(?:->|[^<>]|<[^<>]*>)*>)*>"
HEAD = re.compile(
    rf"(?:(?:unsafe )?(impl)\b\s*(?:{PARAMETERS})?|{VISIBLE}trait )\s*(?:(\S.*?) for )?"
    r"(.*?)\s*(?:\bwhere\b.*|(?<!:):(?!:).*)?$"
)
CYCLE = re.compile(r"^#\[cycle\((\w+)\)\]", re.M)
TYPE = re.compile(rf"^{VISIBLE}(struct|enum|type|const) (\w+)", re.M)
VARIANT = re.compile(r"^    (#\[.*\])\n(?:    (?:///|#\[).*\n)*    (\w+)(?: \{|\(|,)", re.M)
FIELD = re.compile(r" +pub (?:ghost )?(\w+): ")
GHOST = re.compile(rf"^    {VISIBLE}ghost\*? (\w+)(?=\s*[:=])", re.M)
CLAUSE = re.compile(r"\bensures\*?(?: (\w+))? ?\{")
USE = re.compile(r"\b(?:ghost )?use Rattle\.([\w.]+?)(?:\.\{([^}]*)\}| as ([^\s;]+))?;?\s*$", re.M)
PATH = re.compile(r"\bcrate::(specs|proofs)::([\w:]+)::([^\s:(){},;]+)")
QUOTED = re.compile(
    r"""//[^\n]*|--[^\n]*|'(?:[^'\\\n]|\\[^\n])'|r(#*)".*?"\1|"(?:[^"\\]|\\.)*\"""", re.DOTALL
)
# The first line of a definition, that of a module, and lines of no definition.
DEFINITION = re.compile(
    r"(?P<words>(?:(?:abbrev|unfoldable|private|opaque|pub) )*)(?:(?P<kind>record|data|ruleset) )?"
    r"(?P<name>◌[^\s(){}\[\],;.:]+|[^\s(){}\[\],;.:=]+)(?(kind)|(?: \{[^}]*\})? :(?: |$))"
)
OPENING = re.compile(r"(?:(?:pub|abbrev|private) )*(?:module \S+|mutual$)")
OTHER = re.compile(r"(?:pub )?(?:use|mod|infix[lr]?) ")


# ---- files


def read(path):
    """The text of a file of the repository."""
    with open(os.path.join(ROOT, path), encoding="utf-8") as file:
        return file.read()


def is_there(path):
    """Whether the repository has this file or folder."""
    return os.path.exists(os.path.join(ROOT, path))


@functools.lru_cache(maxsize=None)
def crates():
    """The names of crates.txt, in its order."""
    lines = read("crates.txt").split("\n")
    named = [line for line in lines if ":" in line and not line.startswith("#")]
    return [line.split(":")[0].split()[0] for line in named]


def files_below(top, ending):
    """The files below a folder with this ending, in the order of their paths."""
    for path, folders, files in os.walk(top):
        folders.sort()
        yield from (os.path.join(path, file) for file in sorted(files) if file.endswith(ending))


def files_of(crate, folder, ending):
    """The same of a crate's folder, by their paths in the repository."""
    for path in files_below(os.path.join(ROOT, "crates", crate, folder), ending):
        yield os.path.relpath(path, ROOT)


def is_test(path):
    """Whether a source is one of tests."""
    return path.split("/")[1].endswith("_tests") or bool(TESTS.search(path))


def source_files(crate):
    """The sources of a crate but its tests, in the order of their paths."""
    return sorted(it for it in files_of(crate, "src", ".rt") if not TESTS.search(it))


def module_file(crate, module):
    """The source of a module, as `laws` or `play::world`, if the crate has it."""
    path = f"crates/{crate}/src/{module.replace('::', '/')}.rt"
    return path if is_there(path) else None


# ---- sources


def bare(path):
    """The last name of a path, without what it borrows and what it is applied to: of
    `&'a cell_core::Keyed<K, J>` it is `Keyed`."""
    return re.sub(r"<.*|&('\w+ )?|[>,].*", "", path).split("::")[-1].strip()


def prover_name_of(path):
    """How the prover names a type: `&'a [Lang]` is RefSliceLang, and a parameter nothing."""
    path = path.strip()
    if path.startswith("&"):
        inner = prover_name_of(re.sub(r"^&('\w+ )?(mut )?", "", path))
        return f"Ref{inner[:1].upper()}{inner[1:]}"
    if path.startswith("["):
        return f"Slice{prover_name_of(re.split(r'[];]', path[1:])[0])}"
    name = bare(path)
    return "" if re.fullmatch("[A-Z]", name) else name


def extent(lines, at, indent):
    """The place at which the body of the function at this place begins, and its last place. Where
    it has no body, as a method that a trait declares, the first is that of the function."""
    if lines[at].endswith("}") and lines[at].count("{") == lines[at].count("}"):
        return at, at
    body, last = at if lines[at].endswith("{") else None, at
    inside = tuple(f"{indent}{it}" for it in (" ", "{", "}", ")", "where"))
    for below in range(at + 1, len(lines)):
        text = lines[below].rstrip()
        if text and not text.startswith(inside):
            break
        last = below
        is_head = text.startswith((f"{indent}{{", f"{indent})")) and text.endswith(("{", "}"))
        if body is None and is_head:
            body = below
        if text == f"{indent}}}" or text.startswith(f"{indent}{{") and text.endswith("}"):
            break
    return at if body is None else body, last


def has_types(head):
    """Whether the head of an impl block or a function has a parameter that is a type."""
    return bool(re.search(r"\bimpl ?<[^>]*\b[A-Z]|\bfn \w+<[^>]*\b[A-Z]|[:&(,] *impl ", head))


def doc_above(lines, place):
    """The text of the doc comment above a line, where only attributes are between them."""
    end = place
    while end and re.match(r" *#\[|.*\)\]$| *//(?!/)", lines[end - 1]):
        end -= 1
    start = end
    while start and lines[start - 1].strip().startswith("///"):
        start -= 1
    return "\n".join(line.strip()[len("///"):].strip() for line in lines[start:end])


def sentence(doc):
    """The first sentence of a doc comment, with the names in it as they are shown."""
    text = doc.partition("\n\n")[0].replace("\n", " ")
    text = re.match(r"(.*?[.?](?=\s+[^a-z\s]|$))?", text)[0] or text
    return re.sub(r"\[(`[^`]+`)\](?:\([^)]*\))?", r"\1", text)


def doc_at_head(text):
    """The text of the comment at the head of a source."""
    return "\n".join(re.findall(r"^//! ?(.*)$", text, re.M))


def ghosts_of(text):
    """The ghost members of a block or fields of a type: what follows each name, up to its end."""
    found = {}
    for it in GHOST.finditer(text):
        depth, end = 0, it.end()
        while end < len(text) and (depth or text[end] not in ";,"):
            depth += (text[end] in "{(") - (text[end] in "})")
            end += 1
        found[it[1]] = text[it.end():end]
    return found


class Block:
    """An `impl` or a `trait`: its head, the path of the trait, if it is the impl of one, that of
    the type, its ghost members by their names, and its name, as pages have it (`Tag`,
    `From<AllocError> for Fault`), and as a pattern of the prover's (None for a trait)."""

    def __init__(self, lines, place):
        ends = (end for end in range(place, len(lines)) if "{" in lines[end])
        self.line, end = place + 1, next(ends, place)
        self.head = " ".join(lines[place:end + 1]).split("{")[0]
        is_impl, self.trait, self.kind = HEAD.match(self.head).groups(default="")
        self.is_trait, kind = not is_impl, self.kind
        trait, _, of = self.trait.partition("<")
        short = self.trait if of else trait.split("::")[-1]
        self.name = f"{short} for {bare(kind)}" if trait else bare(kind)
        # (the prover's name goes on with what the trait's argument is applied to)
        of = rf"{prover_name_of(of)}\w*" if of else ""
        self.proved_name = prover_name_of(kind) + bare(trait) + of if is_impl else None
        closed = (last for last in range(end, len(lines)) if lines[last].startswith("}"))
        last = end if lines[end].endswith("}") else next(closed, end)
        self.ghosts = ghosts_of("\n".join(lines[end + 1:last]))


class Function:
    """A function: its name, the block that it is in, or none, and the names of that ("" is the
    prover's without one), its signature, attributes and cycle, whether it or the block has a
    parameter that is a type, and its lines: `first`, that of its attributes, `line`, that of `fn`,
    `body`, in which its body begins, and `last`."""

    def __init__(self, lines, place, first, block):
        indent, visible, self.name = FUNCTION.match(lines[place]).groups()
        body, last = extent(lines, place, indent)
        self.lines, self.is_public, self.block = lines, visible == "pub ", block if indent else None
        self.owner = self.block.name if self.block else None
        self.proved_owner = self.block.proved_name if self.block else ""
        self.first, self.line, self.body, self.last = first + 1, place + 1, body + 1, last + 1
        self.signature = " ".join(lines[place:body + 1])
        self.is_generic = has_types(f"{self.block.head if self.block else ''} {self.signature}")
        self.attributes = [it.strip() for it in lines[first:place] if it.lstrip().startswith("#[")]
        self.cycle = (CYCLE.findall("\n".join(self.attributes)) or [None])[-1]

    @property
    def doc(self):
        """The text of its doc comment."""
        return doc_above(self.lines, self.line - 1)

    @property
    def contract(self):
        """What it is, with its clauses: all that comes before its body, without comments."""
        has_body = self.lines[self.body - 1].endswith(("{", "}"))
        lines = self.lines[self.line - 1:self.body if has_body else self.last]
        return "\n".join(re.sub(r" *//.*", "", line) for line in lines)

    @property
    def clauses(self):
        """The names of its clauses, "" for those without one."""
        return set(CLAUSE.findall(self.contract))


def items_of(text):
    """The functions of a source and its blocks, each in their order."""
    lines, block, first, functions, blocks = text.split("\n"), None, None, [], []
    for at, line in enumerate(lines):
        # (a reason may be given at the attributes above a function, as at those of an export)
        if not line.strip():
            first = None
        elif first is None and line.lstrip().startswith("#["):
            first = at
        if BLOCK.match(line):
            block = Block(lines, at)
            blocks.append(block)
        elif line.startswith("}"):
            block = None
        if FUNCTION.match(line):
            functions.append(Function(lines, at, at if first is None else first, block))
            first = None
    return functions, blocks


def functions_of(text):
    """The functions of a source."""
    return items_of(text)[0]


def types_of(text, kinds=("struct", "enum", "type", "const")):
    """The names of a source's types of these kinds."""
    return [name for kind, name in TYPE.findall(text) if kind in kinds]


def bodies_of_types(text):
    """The types of a source by their names: whether each is public, and its text."""
    lines, found = text.split("\n"), {}
    for at, line in enumerate(lines):
        it = TYPE.match(line)
        if it and it[1] != "const":
            is_end = lambda end: lines[end].startswith(("}", ")")) or lines[end].endswith(";")
            last = at if line.endswith("}") else next(filter(is_end, range(at, len(lines))))
            body = "\n".join(re.sub(r" *//.*", "", it) for it in lines[at:last + 1])
            found[it[2]] = line.startswith("pub "), body
    return found


def constants_of(text):
    """The constants of a source that are numbers: these as written, by their names."""
    return dict(re.findall(r"\bconst (\w+): \w+ = ([\d_]+);", text))


def variants_of(text):
    """The variants of a source's enums that have an attribute, after the first of these."""
    return VARIANT.findall(text)


def fields_of(text):
    """The public fields of a source's types: their names and their docs, by their lines."""
    lines = text.split("\n")
    found = {number: FIELD.match(line) for number, line in enumerate(lines, 1)}
    return {number: (it[1], doc_above(lines, number - 1)) for number, it in found.items() if it}


def public_modules(text):
    """The public modules of a source."""
    return re.findall(r"^pub mod (\w+);", text, re.M)


def exports_of(text):
    """What a source exports of other modules: a module, as `play::world`, and the names."""
    for module, names in re.findall(r"^pub use ((?:\w+::)+)\{?([^;{}]*)\}?;", text, re.M):
        yield module[:-len("::")], re.findall(r"\w+", names)


def module_of(file):
    """The module of a source by its path in the crate, as the prover writes it: "" of the root."""
    module = re.sub(r"^src/|\.rt$", "", file)
    return "" if module in ("lib", "main") else module


# What a file imports of a module: the names, by those that they have here, or none where it imports
# the module itself; and the module's other name, if it has one.
Use = collections.namedtuple("Use", "module names alias")


def uses_of(text):
    """What a source or a file of definitions imports."""
    for module, items, alias in USE.findall(text):
        pairs = [item.strip().partition(" as ") for item in items.split(",") if item.strip()]
        yield Use(module, {other or name: name for name, _, other in pairs}, alias)


def specs_file(module):
    """The file of definitions that is a module of this path, as `lang_core.specs.inner.Stage`, or
    None where that is none of the repository's, or the prover's."""
    crate, _, place = module.partition(".specs.")
    folder = "inner/" if place.startswith("inner.") else ""
    file = place.removeprefix("inner.").split(".")[0]
    is_own = crate in crates() and file not in ("", "declared", "contracts")
    return f"crates/{crate}/specs/{folder}{file}.antt" if is_own else None


def without_uses(text):
    """A source without what it imports of definitions."""
    return USE.sub("", text)


def cited_by_path(text):
    """The definitions and lemmas that a source cites with their path: their modules and names."""
    return {(f"{kind}.{module.replace('::', '.')}", name)
            for kind, module, name in PATH.findall(text)}


def without_texts(text):
    """A source or a file of definitions without its texts in quotes, line for line."""
    left = lambda it: it[0] if it[0].startswith(("//", "--")) else "\n" * it[0].count("\n")
    return QUOTED.sub(left, text)


# ---- definitions and proofs


class Definition:
    """A definition or a lemma: its name, the words before it (as `pub`), what opens the modules
    that it is in, its indentation, its first and last line, and the last line of the comment
    above it, if that is no heading."""

    def __init__(self, lines, place, modules):
        head = DEFINITION.match(lines[place].strip())
        self.name, self.words = head["name"], f"{head['words']}{head['kind'] or ''}".split()
        self.modules, self.line, self.last = modules, place + 1, place + 1
        self.indent = len(lines[place]) - len(lines[place].lstrip())
        above = place - 1
        while above > 0 and lines[above].lstrip().startswith("infix"):
            above -= 1
        found = re.match(r" *-- (?!--)(.*)", lines[above]) if above >= 0 else None
        self.sentence = found[1] if found else ""


def parts_of(text):
    """The lines of a file of definitions but imports, comments and empty ones, each with the
    definition that it is of, or None. What is in a `module` or under `mutual` has the indentation
    of its first line."""
    lines, levels, current, opening, is_open = text.split("\n"), [(0, None)], None, None, False
    for place, line in enumerate(lines):
        deep, part = len(line) - len(line.lstrip()), line.strip()
        if not part or part.startswith("--"):
            continue
        if is_open:
            levels.append((deep, opening[0]))
            opening, is_open = None, False
        while not opening and deep < levels[-1][0]:
            levels.pop()
        if not opening and deep == levels[-1][0]:
            if OTHER.match(part):
                continue
            opening = OPENING.match(part)
            if opening or DEFINITION.match(part):
                modules = [module for _, module in levels[1:]]
                current = None if opening else Definition(lines, place, modules)
        is_open = bool(opening) and part.endswith(("mutual", "where"))
        if current:
            current.last = place + 1
        yield current, line


def definitions_of(text):
    """The definitions and lemmas of a file, in their order."""
    return list(dict.fromkeys(definition for definition, _ in parts_of(text) if definition))


@functools.lru_cache(maxsize=None)
def exported_by(path):
    """The names that a file exports: those of definitions, and of the fields of records."""
    text = read(path)
    fields = re.findall(r"^ +pub ([^\s:({]+) :", text, re.M)
    return {*fields, *(it.name for it in definitions_of(text) if "pub" in it.words)}
