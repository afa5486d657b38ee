"""What contracts and definitions name, found in the sources: .ci/trusted follows it.

Reads crates/*/specs/*.antt and crates/*/src/*.rt. The layout is that of `rt fmt`: what is at the left margin, or four spaces from it in an
`impl` or a trait, begins an item.
"""
import glob
import os
import re

ROOT = os.path.dirname(os.path.dirname(os.path.abspath(__file__)))

# What antt has without an import, and the words and signs of its terms.
BUILT_IN = set(
    """Type Unit tt absurd let in elim as record data deriving where pub abbrev unfoldable unfolding unfold open if then else module mutual
    result self Self Prim package do _ ← → × ¬ ⊥ λ ↦ | : = ⌜ ⌝ ∗""".split()
)
# What Rust has without an import.
RUST_BUILT_IN = set("Self String Vec Option Result Box Drop Fn FnMut FnOnce Iterator IntoIterator Some None Ok Err Model".split())

errors = []


def error(place, message):
    if f"{place}: {message}" not in errors:
        errors.append(f"{place}: {message}")


class Scope:
    """What names mean at a place: imports, modules with another name, things of the place itself, and what is bound around it."""

    around = ""  # the parameters of a module of definitions

    def __init__(self, path, names, modules, things, bound=(), traits=()):
        self.path, self.names, self.modules, self.things = path, names, modules, things
        self.bound, self.traits = set(bound), list(traits)

    def within(self, names, modules, bound, traits):
        return Scope(self.path, {**self.names, **names}, {**self.modules, **modules}, self.things, self.bound | set(bound), traits)


class Thing:
    """A definition, a ghost item of a trait or an implementation, a Rust type, a constant, or a contract."""

    def __init__(self, kind, name, path, first, text, scope):
        self.kind, self.name, self.path, self.first, self.text, self.scope = kind, name, path, first, text, scope
        self.names, self.fields = {name}, set()
        self.header, self.members, self.model, self.of, self.chosen = "", {}, None, None, ""

    def key(self):
        return (self.path, self.kind, self.name, self.chosen)

    def code(self):
        """Its text without comments, and without the word and the name before a clause or a ghost item."""
        text = strip("\n".join(self.text))
        if self.kind in ("ghost", "contract"):
            return re.sub(r"(?m)^ *(?:requires|ensures|ghost)\*? *\w*(?: =|:)? *\{", "{", text)
        return text


def strip(text):
    """Drops comments, texts and characters in quotes, and the marks around reserved words."""
    text = re.sub(r"'(?:\\u\{[0-9A-Fa-f]+\}|\\.|[^'\\\s])'(?!\w)", " ", text)
    return re.sub(r'"(?:[^"\\\n]|\\.|\\\n)*"|(?<!\S)--.*|//.*', " ", text).replace("«", "").replace("»", "")


def imported(braces):
    """The names in braces, each with what it is called here."""
    for part in braces.split(","):
        name, _, other = part.strip().partition(" as ")
        if name:
            yield name.strip(), (other or name).strip()


USE = re.compile(r"use ([\w.'-]+?)(?:\.\{([^}]*)\})?(?: as ([\w']+))?\s*;?$", re.S)


def add_use(text, path, names, modules):
    found = USE.search(text.strip())
    if not found:
        return error(path, f"this import can't be read: {text.strip()}")
    module, braces, other = found.groups()
    if braces is None:
        modules[other or module.split(".")[-1]] = module
    for name, here in imported(braces or ""):
        names[here] = (module, name)


WORD = re.compile(r"[^\s(){}\[\],;.]+(?:\.[^\s(){}\[\],;.]+)*")


def words(text):
    """The names and signs of a term; `a.b` is one. The fields of what is in parentheses are left out."""
    return WORD.findall(re.sub(r"\)(?:\.[^\s(){}\[\],;.]+)+", ")", text))


def bound_by(text):
    """The names that a term binds: parameters, those of `λ` and `let`, of cases, and fields that it gives."""
    found = []
    found += re.findall(r"[({]\s*([^(){}:=]+?)\s+:\s", text)
    found += re.findall(r"λ ([^.]*)\.", text)
    found += re.findall(r"\blet ([^:=]*)[:=]", text)
    found += re.findall(r"[\[|]([^|\[\]]*?)↦", text)
    found += re.findall(r"[{;]\s*([\w'-]+) = ", text)
    found += re.findall(r"([\w'-]+) ← ", text)
    return {word for part in found for word in words(part)}


class Antt:
    """A file of definitions."""

    HEAD = re.compile(r"(?:(?:unfoldable|abbrev|pub|opaque)\s+)*(record\s+|data\s+)?(?:(?:pub|abbrev)\s+)*([^\s({:]+)")

    def __init__(self, path):
        self.path, self.uses, self.things, self.parts = path, [], {}, []
        self.names, self.modules = {}, {}
        self.scope = Scope(path, self.names, self.modules, self.things)
        with open(f"{ROOT}/{path}", encoding="utf-8") as file:
            self.read(file.read().split("\n"))

    def read(self, lines):
        around, comment, current, using = [], [], None, []
        for number, line in enumerate(lines, 1):
            indent = len(line) - len(line.lstrip())
            while line.strip() and around and indent < around[-1][0]:
                around.pop()
            inner = line[around[-1][0]:] if around else line
            if not line.strip():
                comment = []
            elif using or re.match(r"(pub )?use ", line):
                using.append(line)
                if "}" in line or "{" not in " ".join(using):
                    add_use(" ".join(using), self.path, self.names, self.modules)
                    self.uses.append(" ".join(using))
                    using = []
            elif inner.startswith("--"):
                comment.append(line)
            elif re.match(r"module _", inner):
                bound = bound_by(inner) | (around[-1][1] if around else set())
                around.append([indent + 2, bound, (around[-1][2] if around else "") + inner[8:]])
                current, comment = None, []
            elif around and current is None and re.match(r"  [({]|  where$", inner):
                around[-1][1].update(bound_by(inner))
                around[-1][2] += " " + inner
            elif re.match(r"(mutual|infixl|infixr|infix|pub mod|mod|ruleset)\b", inner):
                comment = []
            else:
                current = self.add(current, comment, inner, line, number, around)
                comment = []

    def add(self, current, comment, inner, line, number, around):
        if current and (inner.startswith(" ") or self.continues(current, inner)):
            current.text += comment + [line]
            self.add_parts(current, inner)
            return current
        found = self.HEAD.match(inner)
        if not found or " : " not in f"{inner} ":
            error(self.path, f"line {number} can't be read")
            return current
        scope = self.scope.within({}, {}, around[-1][1] if around else (), ())
        scope.around = around[-1][2] if around else ""
        thing = Thing((found.group(1) or "definition").strip(), found.group(2), self.path, number - len(comment), comment + [line], scope)
        self.things[thing.name] = thing
        self.parts.append(thing)
        return thing

    @staticmethod
    def continues(current, line):
        """Returns true if a line is a case of the current definition, or opens something for it."""
        if current.kind != "definition" or line.startswith(("unfolding ", "}")):
            return line.startswith(("unfolding ", "}"))
        signs = [sign for sign in current.name.split("◌") if sign]
        if signs != [current.name]:
            return signs[0] in line.split() and " : " not in line
        return words(line)[0] == current.name and not re.match(r"[^ ]+ :", line)

    def add_parts(self, thing, line):
        """The constructors of a type, and the fields of a record."""
        found = re.match(r" +(?:pub )?([^\s(){}:]+(?: [^\s(){}:]+)*) : ", line)
        if found and thing.kind == "data":
            for name in found.group(1).split():
                thing.names.add(name)
                self.things.setdefault(name, thing)
        elif found and thing.kind == "record":
            thing.fields.update(found.group(1).split())


class Function:
    """A function, a method or a law, with its clauses."""

    def __init__(self, name, path, number, signature, clauses, scope, header):
        self.name, self.path, self.number, self.signature, self.clauses = name, path, number, signature, clauses
        self.scope, self.header = scope, header


ITEM = re.compile(r"(?:pub(?:\([a-z]+\))? )?(struct|enum|union|const|static|type|trait)(?: mut)? (\w+)")
FUNCTION = re.compile(r"(?:pub(?:\([a-z]+\))? )?(?:const )?(?:unsafe )?(?:extern \S+ )?fn (\w+)")


class Rust:
    """A file of code: its types, traits, constants, implementations and functions."""

    def __init__(self, path):
        self.path, self.crate = path, path.split("/")[1]
        self.uses, self.names, self.modules = {}, {}, {}
        self.inner = {}
        self.types, self.functions, self.implementations = {}, [], []
        self.scope = Scope(path, self.names, self.modules, {})
        with open(f"{ROOT}/{path}", encoding="utf-8") as file:
            self.lines = file.read().split("\n")
        self.read(0, len(self.lines), 0, self.scope, None)
        written = sum(re.match(r"\s+(requires|ensures)\b", line) is not None for line in self.lines)
        if written != sum(clause[0].strip()[0] in "re" for function in self.functions for clause in function.clauses):
            error(path, "a clause belongs to no function")

    def read(self, start, end, indent, scope, owner):
        """Reads the items with this indent. The owner is the trait or the implementation around them."""
        at = start
        while at < end:
            line = self.lines[at]
            text = line[indent:]
            if len(line) - len(line.lstrip()) != indent or text.startswith(("//", "#", "}")) or not text:
                at += 1
                continue
            last = self.last_line(at, end, indent)
            self.add(at, last, indent, scope, owner)
            at = last + 1

    def last_line(self, at, end, indent):
        """The last line of the item that begins here."""
        margin = " " * indent
        for k in range(at, end):
            line = self.lines[k]
            if k > at and line.startswith(margin + "}") or line.endswith(";") and not line.startswith(margin + " ") and k == at:
                return k
            if k > at and re.match(margin + r"[)\]]+;$", line):
                return k
            if line.endswith(("}", "};", ";")) and self.is_closed(at, k):
                return k
        return end - 1

    def is_closed(self, at, k):
        text = strip("\n".join(self.lines[at:k + 1]))
        return all(text.count(a) == text.count(b) for a, b in ("{}", "[]", "()")) and (
            "{" in text or text.rstrip().endswith(";")) and not self.awaits_body(at, k)

    def awaits_body(self, at, k):
        """Returns true if this is a function's contract, and its body follows."""
        text = self.lines[at].strip()
        last = self.lines[k].strip()
        if not FUNCTION.match(text) or last in ("{}", "}") or last.endswith(";"):
            return False
        return re.match(r"(requires|ensures|ghost)\b", last) is not None or last.startswith(("→", "(", "×", "⊎")) or last.endswith("}")

    def add(self, at, last, indent, scope, owner):
        text = "\n".join(self.lines[at:last + 1])
        head = self.lines[at][indent:]
        names, modules = (owner.scope.names, owner.scope.modules) if owner else (self.names, self.modules)
        if head.startswith("ghost use "):
            add_use(text, self.path, names, modules)
        elif re.match(r"(pub )?use ", head) and not owner:
            self.add_rust_use(text, self.uses)
        elif re.match(r"pub mod \w+ \{", head) and not owner:
            inner = self.inner.setdefault(head.split()[2], {})
            for using in re.findall(r"pub use [^;]*;", text):
                self.add_rust_use(using, inner)
        elif re.match(r"(unsafe )?impl\b", head):
            self.add_implementation(at, last)
        elif head.startswith("ghost ") and owner:
            name = re.match(r"ghost\*? (\w+)", head).group(1)
            owner.members[name] = self.thing("ghost", f"{owner.name}.{name}", at, last, owner.scope)
            owner.members[name].of = (owner.kind, owner.name, name)
        elif FUNCTION.match(head):
            self.add_function(at, last, head, owner)
        elif ITEM.match(head) and not owner:
            self.add_item(at, last, *ITEM.match(head).groups())

    def thing(self, kind, name, at, last, scope):
        first = at
        while first and self.lines[first - 1].strip().startswith(("//", "#[")):
            first -= 1
        text = [line for line in self.lines[first:last + 1] if not line.strip().startswith("#[")]
        return Thing(kind, name, self.path, at + 1, text, scope)

    @staticmethod
    def add_rust_use(text, uses):
        text = re.sub(r"\s+", " ", text)
        text = re.sub(r"^(pub )?use ", "", text).rstrip(";")
        for path in expand(text):
            path, _, other = path.partition(" as ")
            parts = path.split("::")
            uses[other or parts[-1]] = parts

    def add_item(self, at, last, kind, name):
        thing = self.thing(kind, name, at, last, self.scope)
        thing.header = "" if kind in ("const", "static") else self.header(at)
        if kind == "trait":
            thing.scope = self.scope.within({}, {}, generics(thing.header) | {"Self"}, ())
            thing.scope.things = thing.members
            self.read(at + 1, last, 4, thing.scope, thing)
        self.types[name] = thing

    def header(self, at):
        """The lines up to the brace that opens the item."""
        found = []
        for line in self.lines[at:]:
            found.append(line)
            if line.endswith(("{", ";", "{}")):
                break
        return " ".join(found)

    def add_implementation(self, at, last):
        header = self.header(at)
        plain = without_parameters(header)
        found = re.search(r"\bfor ([\w:]+)", plain)
        first = re.search(r"impl\s+([\w:]+)", plain)
        thing = Thing("implementation", found.group(1) if found else first.group(1), self.path, at + 1, self.lines[at:last + 1], None)
        thing.trait = first.group(1) if found else None
        thing.header = header
        thing.scope = self.scope.within({}, {}, generics(header) | {"Self"}, ())
        thing.scope.names, thing.scope.modules = dict(self.names), dict(self.modules)
        self.implementations.append(thing)
        opening = next(k for k in range(at, last + 1) if self.lines[k].endswith(("{", "{}")))
        self.read(opening + 1, last, 4, thing.scope, thing)

    def add_function(self, at, last, head, owner):
        signature, clauses, body = [], [], False
        for line in self.lines[at:last + 1]:
            text = line.strip()
            if re.match(r"(requires|ensures|ghost)\b\*?", text) and not text.startswith("ghost use"):
                clauses.append([line])
            elif clauses and (text == "{" or text == "{}"):
                break
            elif clauses:
                clauses[-1].append(line)
            else:
                signature.append(line)
                if text.endswith("{") or text == "{}":
                    break
        name = FUNCTION.match(head).group(1)
        scope = owner.scope if owner else self.scope
        self.functions.append(Function(name, self.path, at + 1, "\n".join(signature), clauses, scope, owner))


def without_parameters(text):
    """Drops what is in angle brackets."""
    while re.search(r"<[^<>]*>", text):
        text = re.sub(r"<[^<>]*>", "", text)
    return text


def generics(text):
    """The parameters in angle brackets after `impl`, `trait NAME` or `fn NAME`."""
    found = re.match(r"[^<({]*<", text)
    if not found:
        return set()
    depth, end = 1, found.end()
    while depth and end < len(text):
        depth += {"<": 1, ">": -1}.get(text[end], 0)
        end += 1
    inner = re.sub(r"<[^<>]*>", "", text[found.end():end - 1])
    return {re.sub(r"const ", "", part).partition(":")[0].strip() for part in inner.split(",")}


def expand(text):
    """The paths of a `use`, without braces."""
    start = text.find("{")
    if start < 0:
        return [text.strip()]
    end, found, depth, part = text.rindex("}"), [], 0, ""
    for sign in text[start + 1:end] + ",":
        depth += {"{": 1, "}": -1}.get(sign, 0)
        if sign == "," and not depth:
            if part.strip():
                found += [text[:start].strip() + path for path in expand(part.strip())]
            part = ""
        else:
            part += sign
    return found


class Sources:
    """All files, and what the names in them mean."""

    def __init__(self):
        os.chdir(ROOT)
        self.antt, self.rust, self.types = {}, {}, {}
        for path in sorted(glob.glob("crates/*/specs/**/*.antt", recursive=True)):
            _, crate, _, rest = path[:-5].split("/", 3)
            self.antt[f"Rattle.{crate}.specs.{rest.replace('/', '.')}"] = Antt(path)
        for path in sorted(glob.glob("crates/*/src/**/*.rt", recursive=True)):
            file = self.rust[path] = Rust(path)
            for name, thing in file.types.items():
                self.types.setdefault((file.crate, name), []).append(thing)
        with open("crates.txt", encoding="utf-8") as file:
            lines = [line.partition("#")[0].split() for line in file]
        self.crates = {line[0].rstrip(":") for line in lines if line}
        self.leaves = {"std", "core"} | {crate for line in lines for crate in line[1:]} - self.crates
        for file in self.rust.values():
            for thing in file.implementations:
                thing.scope.traits = self.traits_of(thing.header, file.path)
                if thing.trait == "Model":
                    for of in self.rust_type(file.path, thing.name, set()):
                        of.model = thing
        for things in self.types.values():
            for thing in things:
                if thing.kind == "trait":
                    thing.scope.traits = [thing] + self.traits_of("\n".join(thing.text), thing.path)

    # Definitions

    def named(self, module, name, place):
        """The things that an import names: one, or none if it is of another library."""
        parts = module.split(".")
        crate = parts[1] if parts[0] == "Rattle" and len(parts) > 1 else None
        if crate in self.leaves or parts[0] in ("Prim", "Native", "mathlib", "lib", "denote"):
            return [f"{module}.{name}"]
        if module in self.antt:
            file = self.antt[module]
            if name in file.things:
                return [file.things[name]]
            if name in file.names:
                return self.named(*file.names[name], place)
        if parts[2:4] == ["specs", "declared"]:
            return self.declared(crate, parts[4:], name, place)
        if parts[2:4] == ["specs", "contracts"] and name == "the_type":
            return self.declared(crate, parts[4:], parts[-1], place)
        for used in self.antt[f"Rattle.{crate}.specs.Lib"].modules.items() if f"Rattle.{crate}.specs.Lib" in self.antt else ():
            if parts[3:] == [used[0]]:
                return self.named(used[1], name, place)
        error(place, f"{module}.{name} isn't found")
        return []

    def declared(self, crate, parts, name, place):
        """What Rattle declares of code: a type, its variants, a trait's ghost items, or a constant."""
        constant = parts[-1] == "TheConstants"
        variants = parts[-1] == "TheVariants"
        parts = parts[:-1] if constant or variants else parts
        module, of = (parts, name) if constant else (parts[:-1], parts[-1])
        paths = [f"crates/{crate}/src/{'/'.join(module)}{end}" for end in (".rt", "/mod.rt")] if module else [f"crates/{crate}/src/lib.rt"]
        for thing in self.types.get((crate, of), ()):
            known = name in (of, "Ghosts", "code") or re.search(rf"\b{re.escape(name.rstrip(chr(39)))}\b", thing.code())
            if thing.path in paths and known:
                return [thing]
        error(place, f"the crate {crate} declares no {'.'.join(parts)} with {name}")
        return []

    # Types of Rust

    def traits_of(self, text, path):
        """The traits of this project that bounds name, and those of their associated types."""
        found = []
        bounds = r"[:+] *([A-Z]\w*(?:::\w+)*)|\bas ([A-Z]\w*)>|impl(?:<.*>)? ([A-Z]\w*)\b(?=.* for )"
        for word in ("".join(words) for words in re.findall(bounds, text)):
            first = word.split("::")[0]
            if first in self.rust[path].types or first in self.rust[path].uses:
                for thing in self.rust_type(path, word, set()):
                    if thing.kind == "trait" and thing not in found:
                        found.append(thing)
                        found += self.traits_of("\n".join(re.findall(r"(?m)^    type .*", "\n".join(thing.text))), thing.path)
        return found

    def rust_type(self, path, word, bound, place=None):
        """The types that a path of Rust names in a file: one, or none if it is of another library."""
        file, parts = self.rust[path], word.split("::")
        first = parts[0]
        if first in bound or first in RUST_BUILT_IN:
            return []
        if first in file.types and len(parts) == 1:
            return [file.types[first]]
        used = (file.uses[first] + parts[1:]) if first in file.uses else parts
        if used[0] in ("std", "core") or used[0] in self.leaves:
            return []
        if used[0] in ("super", "crate", "self") or used[0] in self.crates:
            return self.rust_item(file.crate if used[0] not in self.crates else used[0], used, place or path)
        error(place or path, f"the type {word} isn't found")
        return []

    def rust_item(self, crate, used, place):
        """A type of a crate, by the last parts of its path that name one; a variant or an associated item may follow it."""
        for name, module in ((used[-1], used[-2:-1]), (used[-2] if len(used) > 1 else "", used[-3:-2])):
            found = self.types.get((crate, name), [])
            near = [thing for thing in found if module and thing.path.endswith((f"/{module[0]}.rt", f"/{module[0]}/mod.rt"))]
            if len(near or found) == 1:
                return near or found
            root, own = (self.rust.get(f"crates/{crate}/src/{file}.rt") for file in ("lib", "/".join(module)))
            inner = root.inner.get(module[0], {}) if root and module else {}
            for uses in (inner, root.uses if root else {}, own.uses if own else {}):
                if name in uses and not found:
                    again = uses[name]
                    if again[0] in self.crates and again != used:
                        return self.rust_item(again[0], again, place)
                    if again[0] in self.leaves:
                        return []
        if used[-1][0].islower():
            return []
        error(place, f"the type {'::'.join(used)} isn't found, or there are several")
        return []


def lines_of(path):
    with open(f"{ROOT}/{path}", encoding="utf-8") as file:
        return file.read().split("\n")
