"""What the definitions of the crates name: the graph of definitions and of what they need of the
Rust sources.

A name is looked up as the check does: what binds it within the declaration first, then what the
`use` lines of its file bring in, then what the file itself declares. It is never looked up by the
bare word in other files. What is found is a node: a definition; a type, as contracts see it; a
constant; a trait with its ghost members; what an implementation says of one. Names of libraries
end the search. What is not found is kept in `Repository.unresolved`.
"""
import collections
import re

import definitions
import rust_source
from definitions import TOP, groups_of, split_at

Problem = collections.namedtuple("Problem", "path line name")
Target = collections.namedtuple("Target", "kind key name")

# What the language brings into each file, and its words.
BUILT_IN = set("Type Unit tt ⊥ absurd ¬ ¬◌ → × ↦ λ let in = : | _ record where pub abbrev data "
               "unfolding elim as ℓ Dec yes no refl 𝕀 ? .. omega".split())
# Constructors of libraries that begin with a small letter, as patterns have them.
SMALL = set("zero suc true false tt inl inr yes no refl []".split())
# Fields that every value behind a borrow, vector or constant has, and closures; and those of
# records of atomic_table.
LIBRARY_FIELDS = set("now old new entry initial value items ghost_name post pre row "
                     "me table_id views homes slots".split())
RUST_TYPES = set("u8 u16 u32 u64 u128 usize i8 i16 i32 i64 bool char str String Vec Option Result "
                 "Box Self self dyn Fn FnMut FnOnce mut impl Send Sync Copy Clone Drop PhantomData "
                 "Snapshot Mutex Global static const a AllocError BTreeMap".split())
VIEW = re.compile(r"⟦<(\w+) as (\w+)>⟧\.(\w+)")


class Scope:
    """What names mean in one place: imports and declarations, and the parts of operators."""

    def __init__(self):
        self.names, self.parts = {}, {}

    def add(self, name, target):
        self.names[name] = target
        if "◌" in name:
            for part in filter(None, name.split("◌")):
                self.parts.setdefault(part, []).append(target)


class Node:
    """A definition, or a part of a source that definitions name. `text` is its lines as they stand;
    `uses` the keys of what it names; `fields` the names of fields that it reads; `links` the places
    (line, column, length) of its text that name a node, `constructors` the names of those that name
    a constructor of one, and `library` those that name what is outside; `read` the tokens of the
    fields."""

    def __init__(self, key, crate, path, line, name, comment, text):
        self.key, self.crate, self.path, self.line, self.name = key, crate, path, line, name
        self.comment, self.text, self.definition = comment, text, None
        self.uses, self.fields, self.links, self.outside = {}, set(), {}, set()
        self.constructors, self.library, self.read = {}, {}, []

    @property
    def kind(self):
        return self.key[0]

    def lines(self):
        """How many of its lines are code."""
        return sum(bool(line.strip()) and not line.strip().startswith(("--", "//"))
                   for line in self.text)


class Walker:
    """Goes over the tokens of a term and notes what it names."""

    def __init__(self, repository, scope, node):
        self.repository, self.scope, self.node = repository, scope, node
        self.generics = {}

    def note(self, token, target):
        place = (token.line, token.column, len(token.text))
        if target.kind == "outside" and target.name is not None:
            self.node.outside.add((target.key, target.name))
            self.node.library[place] = (target.key, target.name)
        if target.kind in ("outside", "module", "variants"):
            return
        key = target.key
        if key != self.node.key:
            self.node.uses.setdefault(key, token.line)
            self.node.links[place] = key
            if target.kind == "constructor":
                self.node.constructors[place] = target.name

    def problem(self, token, name):
        self.repository.problem(self.node.path, token.line, name)

    def walk(self, tokens, bound):
        """Notes what the tokens name, where these names are bound."""
        env, at = set(bound), 0
        while at < len(tokens):
            text = tokens[at].text
            if text in ("(", "{"):
                at = self.bracket(tokens, at, env)
            elif text == "λ":
                at = self.binders(tokens, at + 1, env)
            elif text == "let":
                env.add(tokens[at + 1].text)
                at += 2
            elif text in (";", ","):
                env, at = set(bound), at + 1
            else:
                at = self.name(tokens, at, env)
        return env

    def bracket(self, tokens, at, env):
        end = definitions.closing(tokens, at)
        if not self.binds(tokens, at, end, env):
            for run in split_at(tokens[at + 1:end], ";"):
                if tokens[at].text == "{" and len(run) > 1 and run[1].text == "=":
                    run = run[2:]  # a field's label, or an argument's name
                for part in split_at(run, ","):
                    self.walk(part, env)
        return self.fields(tokens, end + 1)

    def binds(self, tokens, at, end, env):
        """Whether a bracket is a binder, `(x y : A)`, whose names are bound from there on."""
        groups, _ = groups_of(tokens[at:end + 1])
        if groups:
            self.walk(groups[0][2], env)
            env.update(groups[0][1])
        return bool(groups)

    def binders(self, tokens, at, env):
        """The binders of a λ, up to its dot."""
        while tokens[at].text != ".":
            if tokens[at].text in ("(", "{"):
                end = definitions.closing(tokens, at)
                if not self.binds(tokens, at, end, env):
                    env.update(token.text for token in tokens[at + 1:end] if token.text != ",")
                at = end + 1
            else:
                env.add(tokens[at].text)
                at += 1
        return at + 1

    def fields(self, tokens, at):
        """The fields that follow a value, each after a dot without space; the place after them."""
        while at + 1 < len(tokens) and tokens[at].text == "." and not tokens[at].spaced \
                and not tokens[at + 1].spaced:
            field = tokens[at + 1]
            self.node.fields.add(field.text)
            if not field.text.isdigit():
                self.node.read.append(field)
                self.repository.asked_fields.append((self.node, field))
            at += 2
        return at

    def name(self, tokens, at, env):
        token = tokens[at]
        text = token.text
        if text in env or text.isdigit() or text[0] in '"' or text.startswith("?"):
            return self.fields(tokens, at + 1)
        if text in self.generics:
            return self.generic(tokens, at)
        target = self.scope.names.get(text)
        if target is None:
            if text in self.scope.parts:
                for target in self.scope.parts[text]:
                    self.note(token, target)
                return at + 1
            if text not in BUILT_IN:
                self.problem(token, text)
            return self.fields(tokens, at + 1)
        follows = at + 2 < len(tokens) and tokens[at + 1].text == "." \
            and not tokens[at + 1].spaced and not tokens[at + 2].spaced
        if target.kind in ("module", "variants") and follows:
            below = self.repository.below(target, tokens[at + 2].text)
            if below is None:
                self.problem(tokens[at + 2], f"{text}.{tokens[at + 2].text}")
            else:
                self.note(tokens[at + 2], below)
            return self.fields(tokens, at + 3)
        if target.kind == "type" and follows:
            below = self.repository.below(Target("variants", target.key, ""), tokens[at + 2].text)
            if below is not None:
                self.note(tokens[at + 2], below)
                return self.fields(tokens, at + 3)
        self.note(token, target)
        return self.fields(tokens, at + 1)

    def generic(self, tokens, at):
        """`C.frame`, `C.Cabinet`, `C.Disk.Disk`: what a bound of a type parameter tells."""
        traits, token, at = self.generics[tokens[at].text], tokens[at], at + 1
        while at + 1 < len(tokens) and tokens[at].text == "." and not tokens[at].spaced:
            name = tokens[at + 1].text
            at += 2
            found = [key for key in traits if key[3] == name]
            member = [key for key in traits
                      if name in self.repository.members(key)]
            if found or member:
                key = found[0] if found else ("member", *member[0][1:], name)
                self.note(tokens[at - 1], Target(key[0], key, name))
                return self.fields(tokens, at)
            types = [self.repository.associated(key)[name] for key in traits
                     if name in self.repository.associated(key)]
            traits = [bound for bounds in types for bound in bounds]
            if not types:
                self.problem(token, f"{token.text}.{name}")
                return self.fields(tokens, at)
        return at

    def pattern(self, tokens):
        """The variables of a clause's patterns; notes their constructors."""
        found, at = set(), 0
        while at < len(tokens):
            token = tokens[at]
            text, at = token.text, at + 1
            if text in ("(", ")", "{", "}", ",", "=", "_") or text.isdigit() or text[0] == '"':
                continue
            if at < len(tokens) and tokens[at].text == "." and not tokens[at].spaced:
                target = self.scope.names.get(text)
                below = target and self.repository.below(target, tokens[at + 1].text)
                if below is None:
                    self.problem(token, f"{text}.{tokens[at + 1].text}")
                else:
                    self.note(tokens[at + 1], below)
                at += 2
                continue
            target = self.scope.names.get(text)
            library = target is not None and target.kind == "outside" and (
                text in SMALL or text[0].isupper())
            if library or target is not None and target.kind == "constructor":
                self.note(token, target)
            elif text in self.scope.parts:
                for target in self.scope.parts[text]:
                    self.note(token, target)
            elif text not in SMALL:
                found.add(text)
        return found


class Repository:
    """All definition files and sources below a folder, and the nodes that were asked for."""

    def __init__(self, top=TOP):
        self.top = top
        self.crates = definitions.crates_of(top)
        self.files = definitions.read_all(top)
        self.sources = rust_source.Sources(top)
        self.unresolved, self.asked_fields = [], []
        self.nodes, self.scopes, self.ranks = {}, {}, {}
        self.named = {key: {found.name: found for found in file.definitions}
                      for key, file in self.files.items()}
        self.constructors = {key: self.constructors_of(file) for key, file in self.files.items()}

    def known_fields(self):
        """The names of all fields of records and types, and of ghost members."""
        found = set(LIBRARY_FIELDS)
        for file in self.files.values():
            for definition in file.definitions:
                if definition.kind == "record":
                    found.update(*(names for names, _ in members_of(definition)))
        for key in {key[:3] for key in self.nodes if key[0] in ("type", "trait", "view", "member")}:
            for item in self.sources[key[1], key[2]].items:
                found |= field_names(item) | {ghost.name for ghost in item.ghosts}
        return found

    def file_rank(self, file):
        """A file's place among those of its crate, after those that it uses."""
        if file.crate not in self.ranks:
            own = {one.module: one for one in self.files.values() if one.crate == file.crate}
            done, prefix = {}, f"Rattle.{file.crate}.specs."

            def visit(module):
                if module not in done:
                    done[module] = None
                    for use in own[module].uses:
                        below = use.path[len(prefix):] if use.path.startswith(prefix) else ""
                        while below and below not in own:
                            below = below.rpartition(".")[0]
                        if below:
                            visit(below)
                    done[module] = sum(place is not None for place in done.values())

            for module in own:
                visit(module)
            self.ranks[file.crate] = done
        return self.ranks[file.crate][file.module]

    def told_outside(self, keys):
        """The names of libraries that these nodes name, by module."""
        found = collections.defaultdict(set)
        for key in keys:
            for path, name in self.nodes[key].outside:
                found[path].add(name)
        return [f"{path}: {' '.join(sorted(found[path]))}" for path in sorted(found)]

    def problem(self, path, line, name):
        self.unresolved.append(Problem(path, line, name))

    @staticmethod
    def constructors_of(file):
        """The constructors of the file's data, each with its data."""
        found = {}
        for definition in file.definitions:
            if definition.kind == "data":
                for names, _ in members_of(definition):
                    found.update((name, definition) for name in names)
        return found

    # ---- where a name leads

    def target(self, path, name):
        """What a path, or a name behind it, leads to; None where it is not there."""
        parts = path.split(".")
        if len(parts) < 3 or parts[0] != "Rattle" or parts[1] not in self.crates:
            return Target("outside", path, name)
        crate, rest = parts[1], parts[3:]
        if parts[2] == "proofs":
            return None
        if rest and rest[0] == "declared":
            return self.declared(crate, rest[1:], name)
        for cut in range(len(rest), 0, -1):
            module = ".".join(rest[:cut])
            if (crate, module) in self.files:
                return self.in_file(crate, module, rest[cut:], name)
        for use in self.files[crate, "Lib"].uses if (crate, "Lib") in self.files else ():
            if use.public and use.name is None and rest and use.alias == rest[0]:
                return self.target(".".join([use.path, *rest[1:]]), name)
        return None

    def in_file(self, crate, module, below, name):
        key = (crate, module)
        if name is None:
            data = self.named[key].get(below[0]) if below else None
            return Target("variants", definition_key(data), "") if data else \
                Target("module", key, "") if not below else None
        if below:
            data = self.named[key].get(below[0])
            inside = data is not None and name in {
                one for names, _ in members_of(data) for one in names}
            return Target("constructor", definition_key(data), name) if inside else None
        if name in self.named[key]:
            return Target("definition", definition_key(self.named[key][name]), name)
        if name in self.constructors[key]:
            return Target("constructor", definition_key(self.constructors[key][name]), name)
        for use in self.files[key].uses:
            if use.public and use.alias == name:
                return self.target(use.path, use.name)
        return None

    def declared(self, crate, rest, name):
        """What Rust declares: a type, its constructors, a constant, the ghosts of a trait."""
        for cut in range(len(rest), -1, -1):
            module = "/".join(rest[:cut]) or "lib"
            source, below = self.sources.get((crate, module)), rest[cut:]
            if source is None or (cut == 0 and not below):
                continue
            if below == ["TheConstants"]:
                found = self.item(source, name, ("const",))
                return found and Target("constant", ("constant", crate, module, name), name)
            item = below and self.item(source, below[0], ("struct", "enum", "trait", "type"))
            if not item:
                continue
            if item.kind == "trait":
                key = ("trait", crate, module, item.name)
                return Target("trait", key, name) if name == "Ghosts" else None
            key = ("type", crate, module, item.name)
            if len(below) == 1:
                return Target("type", key, name) if name in (item.name, None) else None
            if below[1] == "TheVariants":
                if name is None:
                    return Target("variants", key, "")
                inside = name in variants_of(item)
                return Target("constructor", key, name) if inside else None
            return Target("type", key, name) if below[1] == "TheInside" else None
        return None

    def below(self, target, name):
        """What a name behind a module, or behind a type, is."""
        if target.kind == "module":
            return self.in_file(*target.key, [], name)
        if target.kind == "variants":
            if target.key[0] == "definition":
                return self.in_file(target.key[1], target.key[2], [target.key[3]], name)
            item = self.item(self.sources[target.key[1], target.key[2]], target.key[3])
            return Target("constructor", target.key, name) if name in variants_of(item) else None
        if target.kind == "outside":
            return target
        return None

    @staticmethod
    def item(source, name, kinds=("struct", "enum", "trait", "type")):
        return next((item for item in source.items if item.name == name and item.kind in kinds),
                    None)

    def scope_of(self, file):
        """What names mean in a file of definitions."""
        key = (file.crate, file.module)
        if key not in self.scopes:
            scope = self.scopes[key] = Scope()
            self.bring(scope, file.uses, file.path)
            for name, definition in self.constructors[key].items():
                scope.add(name, Target("constructor", definition_key(definition), name))
            for definition in file.definitions:
                scope.add(definition.name,
                          Target("definition", definition_key(definition), definition.name))
        return self.scopes[key]

    def bring(self, scope, uses, path):
        for use in uses:
            target = self.target(use.path, use.name)
            if target is None:
                name = use.path if use.name is None else f"{use.path}.{use.name}"
                self.problem(path, use.line, name)
                target = Target("outside", use.path, use.name)
            if target.kind == "outside" and use.name is None:
                target = Target("outside", use.path, None)
            scope.add(use.alias, target)

    def ghost_scope(self, source, owner=None):
        """What names mean in clauses and ghost members of a source, within an owner too."""
        scope = Scope()
        for line, number, around in source.ghost_uses:
            if around is None or around is owner:
                found = definitions.USE.match(f"use {line}")
                uses = definitions.uses_of(found[2], found[3], found[4], False, number)
                self.bring(scope, uses, source.path)
        return scope

    # ---- nodes

    def node(self, key):
        if key not in self.nodes:
            made = getattr(self, f"make_{key[0]}")(*key)
            self.nodes[key] = made
        return self.nodes[key]

    def make_definition(self, *key):
        file = self.files[key[1], key[2]]
        definition = self.named[key[1], key[2]][key[3]]
        node = Node(key, key[1], definition.path, definition.line, definition.name,
                    definition.comment, definition.lines)
        node.definition = definition
        walker, bound = Walker(self, self.scope_of(file), node), set()
        for module in definition.outer:
            for _, names, kind in module.groups:
                walker.walk(kind, bound)
                bound.update(names)
        head = definition.head()
        if definition.kind in ("record", "data"):
            walk_members(walker, definition, head, bound)
        else:
            walk_clauses(walker, definition, head, bound)
        return node

    def source_node(self, key, item):
        source = item.source
        text = source.lines[item.line - 1:item.last]
        return Node(key, key[1], source.path, item.line, item.name, item.comment, text)

    def make_type(self, *key):
        source = self.sources[key[1], key[2]]
        item = self.item(source, key[3])
        node = self.source_node(key, item)
        model = next((one for one in source.items if one.kind == "impl"
                      and names_of(one.head)[-1:] != [] and is_model_of(one, item.name)), None)
        if model is not None:
            value = next((ghost for ghost in model.ghosts if ghost.name == "Value"), None)
            node.text = [f"type {item.name} is seen as {term_text(source, value)}"]
            walker = Walker(self, self.ghost_scope(source, model), node)
            walker.generics = self.bounds(source, model.head)
            walker.walk(term_of(source, value), parameters_of(item))
        else:
            self.rust_names(node, source, item.head + item.inside, item)
        return node

    def rust_names(self, node, source, tokens, item):
        """Notes the types that a type's fields have."""
        known = set(parameters_of(item)) | {item.name}
        skip = field_names(item) | set(variants_of(item))
        spans = [(ghost.tokens[0].start, ghost.tokens[-1].start) for ghost in item.ghosts]
        for at, token in enumerate(tokens):
            if any(first <= token.start <= last for first, last in spans):
                continue
            if at > 0 and tokens[at - 1].text == "::":
                continue  # an associated type
            text = token.text
            if not text[0].isalpha() or text in known or text in RUST_TYPES or text in skip:
                continue
            if text in ("pub", "struct", "enum", "type", "ghost", "crate"):
                continue
            key = self.rust_type(source, text, ("struct", "enum", "trait", "type", "const"))
            if key is not None:
                node.uses.setdefault(key, token.line)
            elif text[0].isupper() and not self.is_outside(source, text):
                self.problem(source.path, token.line, text)

    @staticmethod
    def is_outside(source, name):
        """Whether a `use` line of the source takes the name of a library."""
        return re.search(rf"(?m)^\s*use (std|core|sha2|serde_json|thiserror|byteorder|hex|itoa|"
                         rf"libc|atomic_table)\b[^;]*\b{name}\b", source.text) is not None

    def rust_type(self, source, name, kinds=("struct", "enum", "trait", "type")):
        """The key of a type or trait that a name means in a source; None where it is no crate's."""
        item = self.item(source, name, kinds)
        if item is not None:
            kind = item.kind if item.kind in ("trait", "const") else "type"
            return ("constant" if kind == "const" else kind, source.crate, source.name, name)
        for line in re.findall(r"(?m)^\s*(?:pub )?use ([^;]*);", source.text):
            first = line.split("::")[0].strip()
            crate = source.crate if first in ("crate", "self", "super") else first
            if crate in self.crates and re.search(rf"\b{name}\b", line):
                for other in self.sources.of(crate):
                    item = self.item(other, name, kinds)
                    if item and other is not source:
                        kind = item.kind if item.kind in ("trait", "const") else "type"
                        return ("constant" if kind == "const" else kind, crate, other.name, name)
        return None

    def make_constant(self, *key):
        source = self.sources[key[1], key[2]]
        item = self.item(source, key[3], ("const",))
        node = self.source_node(key, item)
        for token in item.head:
            if re.fullmatch(r"[A-Z][A-Z0-9_]+", token.text) and token.text != item.name:
                found = self.rust_type(source, token.text, ("const",))
                if found is not None:
                    node.uses.setdefault(found, token.line)
                elif not self.is_outside(source, token.text):
                    self.problem(source.path, token.line, token.text)
        return node

    def make_trait(self, *key):
        """A trait without members: those that are named are nodes of their own."""
        item = self.item(self.sources[key[1], key[2]], key[3])
        node = self.source_node(key, item)
        node.text = [f"trait {item.name}: its ghost members, as far as they are named"]
        return node

    def make_member(self, *key):
        source = self.sources[key[1], key[2]]
        item = self.item(source, key[3])
        ghost = next(one for one in item.ghosts if one.name == key[4])
        text = [f"{item.name}.{ghost.name} : {term_text(source, ghost)}"]
        node = Node(key, key[1], source.path, ghost.line, f"{item.name}.{ghost.name}",
                    ghost.comment, text)
        walker = Walker(self, self.ghost_scope(source, item), node)
        walker.generics = self.bounds(source, item.head)
        walker.generics["Self"] = [("trait", *key[1:4])]
        names = {one.name for one in item.ghosts}
        walker.walk(term_of(source, ghost), names | parameters_of(item))
        node.uses.setdefault(("trait", *key[1:4]), ghost.line)
        return node

    def make_view(self, *key):
        """What an implementation says of a ghost member: `<Tariff as Prices>.prices`."""
        source = self.sources[key[1], key[2]]
        trait, kind, name = key[3].split(" ")
        item = next(one for one in source.items if is_impl(one, trait, kind))
        ghost = next(one for one in item.ghosts if one.name == name)
        text = [f"<{kind} as {trait}>.{name} = {term_text(source, ghost)}"]
        node = Node(key, key[1], source.path, ghost.line, f"<{kind} as {trait}>.{name}",
                    item.comment, text)
        walker = Walker(self, self.ghost_scope(source, item), node)
        for other in re.findall(r"\b([A-Z]\w*)\.", term_text(source, ghost)):
            found = self.rust_type(source, other)
            if found is not None:
                node.uses.setdefault(found, ghost.line)
                walker.scope.add(other, Target("type", found, other))
        walker.walk(term_of(source, ghost), set())
        found = self.rust_type(source, kind)
        if found is not None:
            node.uses.setdefault(found, ghost.line)
        return node

    def make_call(self, *key):
        """A call with its clauses."""
        source = self.sources[key[1], key[2]]
        item = next(one for one in source.functions() if one.name == key[3])
        node = self.source_node(key, item)
        last = item.body[0] - 1 if item.body else item.last
        node.text = source.lines[item.line - 1:last]
        walker = Walker(self, self.ghost_scope(source), node)
        walker.generics = self.bounds(source, item.generics)
        bound = {run[0].text for run in item.parameters} | {"result"}
        for clause in item.clauses:
            text, line = clause_text(source, clause), clause.tokens[0].line
            for view in VIEW.finditer(text):
                found = self.view_key(view[2], view[1], view[3])
                if found is None:
                    self.problem(source.path, clause.line, view[0])
                else:
                    node.uses.setdefault(found, clause.line)
            column = clause.tokens[0].start - source.text.rfind("\n", 0, clause.tokens[0].start) - 1
            lines = (" " * column + VIEW.sub(lambda view: "tt" + " " * (len(view[0]) - 2), text)
                     ).split("\n")
            walker.walk(definitions.tokens_of(lines, line), bound)
        return node

    def view_key(self, trait, kind, name):
        for (crate, module), path in self.sources.paths.items():
            with open(path, encoding="utf-8") as file:
                if f"{trait} for {kind}" not in file.read():
                    continue
            if any(is_impl(item, trait, kind) for item in self.sources[crate, module].items):
                return ("view", crate, module, f"{trait} {kind} {name}")
        return None

    # ---- traits

    def members(self, key):
        item = self.item(self.sources[key[1], key[2]], key[3])
        return {ghost.name: ghost for ghost in item.ghosts}

    def associated(self, key):
        """The traits that bound a trait's associated types."""
        source = self.sources[key[1], key[2]]
        item = self.item(source, key[3])
        return {one.name: self.traits_in(source, one.head[2:]) for one in item.items
                if one.kind == "type"}

    def traits_in(self, source, tokens):
        found = (self.rust_type(source, token.text, ("trait",)) for token in tokens
                 if token.text[0].isalpha())
        return [key for key in found if key is not None]

    def bounds(self, source, tokens):
        """The traits that bound each type parameter of `<C: Cabinet, ..>`."""
        found = {}
        inner = tokens[1:-1] if tokens and tokens[0].text == "<" else angles_of(tokens)
        for run in rust_source.parts_of(inner):
            words = [token.text for token in run]
            if len(words) > 1 and words[1] == ":" and words[0] != "'":
                found[words[0]] = self.traits_in(source, run[2:])
            elif words and words[0][0].isupper():
                found[words[0]] = []
        return found


# ---- parts of declarations

def definition_key(definition):
    return definition and ("definition", definition.crate, definition.module, definition.name)


def members_of(definition):
    """The fields of a record or constructors of a data: their names and the tokens of their type.
    Each begins a line that is set in by two."""
    tokens, inside, found, depth = definition.tokens, False, [], 0
    body = len(definition.head())
    start = next(k for k, token in enumerate(tokens) if token.text == definition.name) + body + 2
    for at in range(start, len(tokens)):
        token = tokens[at]
        first = tokens[at - 1].line != token.line and definitions.indent_of(
            definition.lines[token.line - definition.line]) == definition.indent + 2
        if first and depth == 0:
            found.append(([], []))
            inside = False
        depth += (token.text in ("(", "{")) - (token.text in (")", "}"))
        if not found or token.text == "pub" and not inside:
            continue
        if not inside and token.text == ":":
            inside = True
        elif inside:
            found[-1][1].append(token)
        else:
            found[-1][0].append(token.text)
    return found


def walk_members(walker, definition, head, bound):
    groups, end = groups_of(head)
    for _, names, kind in groups:
        walker.walk(kind, bound)
        bound = bound | set(names)
    walker.walk(head[end:], bound)
    for names, kind in members_of(definition):
        walker.walk(kind, bound)
        if definition.kind == "record":
            bound = bound | set(names)


def walk_clauses(walker, definition, head, bound):
    walker.walk(head, bound)
    tokens = definition.tokens
    starts = [k for k, token in enumerate(tokens) if token.text == definition.name
              and definition.starts_line(k) and k > 0
              and not (k + 1 < len(tokens) and tokens[k + 1].text == ":")]
    for start, end in zip(starts, [*starts[1:], len(tokens)]):
        clause = tokens[start + 1:end]
        runs = split_at(clause, "=")
        variables = walker.pattern(runs[0])
        place = len(runs[0]) + 1
        walker.walk(clause[place:], bound | variables)


# ---- parts of sources

def angles_of(tokens):
    """What stands between the angles of a head: those right after `impl`, or after a name."""
    for at in (1, 2):
        if at < len(tokens) and tokens[at].text == "<":
            return tokens[at + 1:rust_source.after_angles(tokens, at) - 1]
    return []


def parameters_of(item):
    """The type parameters of a type or trait."""
    words = [run[0].text for run in rust_source.parts_of(angles_of(item.head))]
    return {word for word in words if word[0].isalpha()}


def variants_of(item):
    if item is None or item.kind != "enum":
        return []
    return [without_attributes(run)[0].text for run in rust_source.parts_of(item.inside)]


def without_attributes(run):
    while run and run[0].text == "#":
        run = run[rust_source.closing(run, 1) + 1:]
    return run


def field_names(item):
    """The names of fields in a struct or in an enum's constructors."""
    tokens = item.inside
    return {tokens[k].text for k in range(len(tokens) - 1) if tokens[k + 1].text == ":"}


def names_of(tokens):
    return [token.text for token in tokens if token.text[0].isalpha()]


def is_impl(item, trait, kind):
    words = names_of(item.head)
    return item.kind == "impl" and "for" in words and words[words.index("for") - 1] == trait \
        and words[words.index("for") + 1] == kind


def is_model_of(item, name):
    words = names_of(item.head)
    return "Model" in words and "for" in words and words[words.index("for") + 1] == name


def braced(source, ghost):
    """The text within the braces of a ghost member, and where it begins."""
    at = next(k for k, token in enumerate(ghost.tokens) if token.text == "{")
    end = rust_source.closing(ghost.tokens, at)
    return source.text[ghost.tokens[at].start + 1:ghost.tokens[end].start], ghost.tokens[at].line


def term_text(source, ghost):
    return " ".join(braced(source, ghost)[0].split())


def term_of(source, ghost):
    text, line = braced(source, ghost)
    return definitions.tokens_of(text.split("\n"), line)


def clause_text(source, clause):
    first, last = clause.tokens[0], clause.tokens[-1]
    return source.text[first.start:last.start + len(last.text)]
