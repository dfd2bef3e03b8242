"""What of the crates' sources has a row in the map of proofs, and what its row is made of."""
import collections
import functools
import os
import re

import rattle_sources as rattle

# Members of an `impl` that only prove what the trait asks, and say nothing of their own.
PROOFS_ALONE = {"laws", "total", "matches_partial_cmp", "matches_eq"}
# Those that say something of the trait or the type, but where they are given are proofs too.
PROOFS = PROOFS_ALONE | {"exact", "respects_eq", "inverse_ok"}


@functools.lru_cache(maxsize=None)
class Source:
    """A source of a crate, with what is named in it. Each is read once."""

    def __init__(self, path):
        self.path, self.text = path, rattle.read(path)
        self.functions, self.all_blocks = rattle.items_of(self.text)
        self.blocks = collections.defaultdict(list)
        for it in self.all_blocks:
            self.blocks[it.name].append(it)
        self.traits = {it.name for it in self.all_blocks if it.is_trait}
        self.types = {*rattle.types_of(self.text), *self.traits}

    def functions_named(self, name):
        """The functions of this name: `Tag::parse`, `laws::one_site`, `choose`."""
        owner, _, function = name.rpartition("::")
        module = os.path.basename(self.path)[:-len(".rt")]
        owner = owner if owner and owner != module else None
        return [it for it in self.functions if (it.name, it.owner) == (function, owner)]

    def has(self, name):
        """Whether it has a function, a block or a type of this name."""
        return name in self.blocks or name in self.types or bool(self.functions_named(name))

    def says_of(self, name):
        """The clauses of a function, or what an impl states, by their names ("" without one)."""
        blocks = self.blocks.get(name, [])
        said = {member for it in blocks for member in it.ghosts}
        functions = [] if blocks else self.functions_named(name)
        if " for " in name:
            functions += [it for it in self.functions if it.owner == name]
        return said.union(*(it.clauses for it in functions))

    def doc_of(self, name):
        """The doc comment of a function, or of an `impl`."""
        if name in self.blocks:
            return rattle.doc_above(self.text.split("\n"), self.blocks[name][0].line - 1)
        return self.functions_named(name)[0].doc

    def contract_of(self, name):
        """What a function or an `impl` states: its clauses, and what it gives a trait."""
        if name not in self.blocks:
            return "\n".join(it.contract for it in self.functions_named(name))
        ghosts = self.blocks[name][0].ghosts
        text = "".join(ghosts[it] for it in ghosts if it not in PROOFS_ALONE)
        return text + "\n".join(it.contract for it in self.functions if it.owner == name)

    def cited_by(self, name):
        """The definitions of specs/ that such a text cites, in its order, as (their file, name)."""
        return self.cited_in(self.contract_of(name))

    def cited_in(self, text):
        """The definitions of specs/ that a text of this source cites, in its order."""
        known, modules = collections.defaultdict(list), collections.defaultdict(list)
        for module, names, alias in rattle.uses_of(self.text):
            path = rattle.specs_file(module)
            if path and alias:
                modules[alias].append(path)
            for here, name in names.items() if path else ():
                known[here].append((path, name))
        cited = []
        for word in re.findall(r"[^\s(){}\[\],;:]+", text):
            first, _, rest = word.partition(".")
            cited += [(path, rest.split(".")[0]) for path in modules.get(first, ()) if rest]
            cited += known.get(first, ())
        return list(dict.fromkeys(cited))


def public_module(crate, module):
    """The public functions of a public module, with those of the public modules in it."""
    path = rattle.module_file(crate, module)
    if path is None:
        return []
    source, last = Source(path), module.split("::")[-1]
    named = [(f"{last}::{it.name}", source) for it in source.functions if it.is_public]
    for inner in rattle.public_modules(source.text):
        named += public_module(crate, f"{module}::{inner}")
    return named


def exports(crate):
    """What a library exports: a name as it is written outside, and the source that has it."""
    if rattle.module_file(crate, "lib") is None:
        return []
    root = Source(rattle.module_file(crate, "lib"))
    exported = [(it.name, root) for it in root.functions if it.is_public and it.owner is None]
    for module in rattle.public_modules(root.text):
        exported += public_module(crate, module)
    for module, names in rattle.exports_of(root.text):
        path = rattle.module_file(crate, module)
        if path is not None:
            source = Source(path)
            exported += [(name, source) for name in names]
    return exported


def public_names(crate):
    """The public functions of a library, and the impls of its types that state something."""
    exported = exports(crate)
    is_type = lambda name, source: "::" not in name and name in source.types
    types = {name for name, source in exported if is_type(name, source)}
    names = [(name, source) for name, source in exported if not is_type(name, source)]
    for path in rattle.source_files(crate) if types else []:
        source = Source(path)
        for it in source.functions:
            if it.owner in types and (it.is_public or it.owner in source.traits):
                names.append((f"{it.owner}::{it.name}", source))
        for owner in source.blocks:
            trait, _, kind = owner.partition(" for ")
            if kind in types and trait != "Model" and source.says_of(owner) - PROOFS_ALONE:
                names.append((owner, source))
    return names


def stated(crate):
    """What of a crate has a row in the map of proofs; of a program its laws alone."""
    path = rattle.module_file(crate, "laws")
    if rattle.module_file(crate, "lib") or not path:
        return public_names(crate)
    source = Source(path)
    return [(f"laws::{it.name}", source) for it in source.functions if it.is_public]


def seen(crate):
    """What is seen from outside a crate, as the source and the text of what it states: public
    functions and methods, public traits, each `impl` of a trait in whose head is no private name,
    public types, and what the types are seen as that these are made of. Of a program it is its
    laws."""
    if not rattle.module_file(crate, "lib"):
        return [(source, source.contract_of(name)) for name, source in stated(crate)]
    sources = [Source(path) for path in rattle.source_files(crate)]
    types = {name: (source, *it) for source in sources
             for name, it in rattle.bodies_of_types(source.text).items()}
    public = {name for name, (_, is_public, _) in types.items() if is_public}
    traits = {it.name: it.head.startswith("pub trait ")
              for source in sources for it in source.all_blocks if it.is_trait}
    private = {*types, *traits} - public - {name for name, is_public in traits.items() if is_public}
    exported = {id(it) for name, source in exports(crate) for it in source.functions_named(name)}
    made_of = parts_of(public, {name: body for name, (_, _, body) in types.items()})
    found = [(source, "".join(rattle.ghosts_of(body).values()))
             for name, (source, _, body) in types.items() if name in public]
    for source in sources:
        is_hidden = {id(it): bool(private & set(re.findall(r"\w+", f"{it.trait} {it.kind}")))
                     for it in source.all_blocks}
        for it in source.functions:
            is_own = it.block is None or not it.block.is_trait and not it.block.trait
            is_open = it.is_public and it.block or id(it) in exported
            if (is_open if is_own else True) and not (it.block and is_hidden[id(it.block)]):
                found.append((source, it.contract))
        for it in source.all_blocks:
            if not is_hidden[id(it)]:
                left_out = set() if it.is_trait else PROOFS
                said = (it.ghosts[name] for name in it.ghosts if name not in left_out)
                found.append((source, "".join(said)))
            elif it.trait.split("::")[-1] == "Model" and rattle.bare(it.kind) in made_of:
                found.append((source, it.ghosts.get("Value", "") + it.ghosts.get("view", "")))
    return found


def parts_of(names, bodies):
    """The types that some are made of, these among them, by the text of each type."""
    found, left = set(names), [*names]
    while left:
        inside = set(re.findall(r"\w+", bodies[left.pop()])) & set(bodies) - found
        found |= inside
        left += inside
    return found
