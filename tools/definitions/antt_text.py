"""Reads `.antt` files as far as `definitions.py` needs: tokens, layout, what a module declares and what it imports."""

import keyword
import re
import subprocess
from collections import namedtuple
from functools import cache
from pathlib import Path

KIT = Path(subprocess.run(["rt", "doc"], stdout=subprocess.PIPE, text=True, check=True).stdout.strip()).parent / "rattle"
STD = ["std", "core", "std_alloc", "std_collections", "std_io", "io"]  # the crates that `Rattle.std` passes on
LIBRARIES = {"lib": "logic/Lib", "mathlib": "antt/port/mathlib/src"}

Token = namedtuple("Token", "text line column first glued")  # the first of its line; right behind the one before
LEX = re.compile(r'(?P<no>\s+|--[^\n]*|\{-.*?-\})|"(?:[^"\\\n]|\\.)*"|[(){}.;,@]|«[^»\n]*»|[^\s(){}.;,@"«»]+|.', re.S)
MARKS = ["pub", "abbrev", "unfoldable", "pattern", "axiom"]
IGNORED = ["mod", "unfolding", "ruleset", "open"]
RESERVED = "= : | [ ] ↦ → × ) } , ; . @ in as else where do open unfold".split() + [""]
# a constructor; its kind is con, cons, suc, or its value as Python; it is known below its line
Maker = namedtuple("Maker", "tag kind types module line", defaults=[None, 0])
UNIT = Maker("tt", "()", ())


class Wrong(Exception):
    """What these programs do not support, or what is no definition."""


# ---- Tokens, layout, and types as far as they are looked at


def tokens(text):
    out, line, start, first = [], 1, 0, True
    for m in LEX.finditer(text):
        if not m["no"]:
            word = m[0][1:-1] if m[0][0] == "«" and m[0][1:-1] not in RESERVED + MARKS else m[0]
            out.append(Token(word, line, m.start() - start, first, not text[m.start() - 1].isspace()))
            first = False
        elif "\n" in m[0]:
            line, start, first = line + m[0].count("\n"), m.start() + m[0].rindex("\n") + 1, True
    return out


def blocks(toks):
    """Returns the items of a block: each begins in the column of the first."""
    out = []
    for t in toks:
        if not out or t.first and t.column <= toks[0].column and t.text not in (")", "}", "]"):
            out.append([])
        out[-1].append(t)
    return out


def behind(toks, i):
    """Returns the index behind one word, or behind what is in brackets."""
    depth = 0
    while i < len(toks):
        depth += (toks[i].text in ("(", "{")) - (toks[i].text in (")", "}"))
        i += 1
        if depth <= 0:
            break
    return i


def split(toks, *words):
    """Returns the parts between these words outside brackets."""
    out, i = [[]], 0
    while i < len(toks):
        j = behind(toks, i)
        if toks[i].text in words:
            out.append([])
        else:
            out[-1] += toks[i:j]
        i = j
    return out


def binders(toks):
    """Returns the explicit ones of `(a b : A) {c : C}`, each with its type; None for something else."""
    out, i = [], 0
    while i < len(toks):
        j = behind(toks, i)
        names, *types = split(toks[i + 1:j - 1], ":")
        if toks[i].text == "(" and types:
            out += [(t.text, tuple(types[0])) for t in names]
        elif toks[i].text != "{":
            return None
        i = j
    return out


def arrows(toks):
    """Returns the types of a function's explicit arguments, and of its result."""
    *arguments, result = split(toks, "→")
    named = [[("_", tuple(part))] if (some := binders(part)) is None else some for part in arguments]
    return tuple(type_ for part in named for _, type_ in part), result


def pattern(toks):
    """Returns a pattern as its head, `(` of a tuple or else the words of a name, and the patterns behind it."""
    first, *rest = split(toks, "∷")
    if rest:
        return ["◌∷◌"], [pattern(first), pattern(toks[len(first) + 1:])]
    atoms, i = [], 0
    while i < len(toks):
        j = behind(toks, i)
        while j + 1 < len(toks) and toks[j].text == ".":
            j += 2
        named = binders(toks[i:j])  # `(x : A)` after a λ, or an implicit one
        atoms += [toks[i:j]] if named is None else [[Token(n, *toks[i][1:])] for n, _ in named]
        i = j
    if len(atoms) == 1 and atoms[0][0].text == "(":
        inner = split(atoms[0][1:-1], ",")
        return pattern(inner[0]) if len(inner) == 1 else ("(", [pattern(part) for part in inner])
    return [t.text for t in atoms[0] if t.text != "."] if atoms else [], [pattern(atom) for atom in atoms[1:]]


def attribute(field):
    """Returns the name of a field in Python."""
    name = re.sub(r"[^0-9A-Za-z_]", "_", field)
    return name + "_" if keyword.iskeyword(name) else name


# ---- What a name stands for: a Def, a Maker, Types or a Module


class Types(dict):
    """A type, by its constructors; a record has fields, each with its type."""
    lookup, fields, module = dict.get, (), None


class Def:
    """A definition: its signature, and the tokens of its clauses."""

    def __init__(self, module, name, type_, section, line):
        self.module, self.name, self.section, self.line, self.clauses = module, name, section, line, []
        self.full, (self.types, self.result) = f"{module.name}.{name}", arrows(type_)


class Module:
    """A file, and the meanings of its names; `item` finds what a `use` line names."""

    def __init__(self, name, file, item):
        self.name, self.file, self.item, self.sections = name, file, item, 0
        self.own, self.uses, self.modules, self.fixity, self.known = {}, {}, {}, {}, {}
        if file:
            self.declare(blocks(tokens(file.read_text())), ())

    def declare(self, found, section):
        current = None
        for toks in found:
            while toks[0].text in MARKS and len(toks) > 1:
                toks = toks[1:]
            word, rest = toks[0].text, toks[1:]
            head, left = split(rest, "where")[0], split(toks, ":", "=")[0]
            body, sign = rest[len(head) + 1:], [t.text for t in toks[len(left):][:1]]
            if word == "use":
                self.use(rest)
            elif word in ("infix", "infixl", "infixr"):
                self.fixity.update((t.text, (int(rest[0].text), word)) for t in rest[1:])
            elif word == "mutual":
                self.declare(blocks(rest), section)
            elif word == "module":  # a section, `module _ (a : A) where`
                self.sections += 1
                self.declare(blocks(body), section + tuple((self.sections, n) for n, _ in binders(head[1:]) or []))
            elif word == "data":
                self.own.setdefault(head[0].text, []).append(self.data(head[0].text, body))
            elif word == "record":
                made = Types()
                made.module, parts = self, [(split(toks, ":")[0], toks) for toks in blocks(body)]
                made.fields = [(t.text, toks[len(names) + 1:]) for names, toks in parts for t in names if t.text not in MARKS]
                self.own.setdefault(head[0].text, []).append(made)
            elif word not in IGNORED and sign == [":"]:
                current = Def(self, word, toks[len(left) + 1:], section, toks[0].line)
                self.own[word] = [current]
            elif word not in IGNORED:  # a clause, of the operator above or of what it begins with
                if sign != ["="] or not current:
                    raise Wrong(f"{self.file}:{toks[0].line}: neither a signature nor a clause")
                infix = current.name[0] == "◌" and len(split(left, current.name.strip("◌"))) == 2
                owner = self.own.get(word, [None])[0]
                (owner if isinstance(owner, Def) and not infix else current).clauses.append(toks)

    def data(self, name, body):
        kinds, lines = {}, {}
        for toks in blocks(body):
            names = split(toks, ":")[0] if toks[0].text != "deriving" else []
            kinds.update((t.text, arrows(toks[len(names) + 1:])[0]) for t in names)
            lines.update((t.text, t.line) for t in names)
        shape = sorted(kinds.values(), key=len)
        is_list = list(map(len, shape)) == [0, 2] and [t.text for t in shape[1][1] if t.text != "("][0] == name
        is_bool = f"{self.name}.{name}" == "mathlib.Core.Bool.Bool"
        for n, types in kinds.items():
            kind = n.capitalize() if is_bool else ("cons" if types else "()") if is_list else "con"
            kinds[n] = Maker(n, kind, types, self, lines[n])
            self.own.setdefault(n, []).append(kinds[n])
        return Types(kinds)

    def use(self, toks):
        words = [t.text for t in toks]
        end = next((i for i, w in enumerate(words) if w in ("{", "as")), len(words))
        path = [w for w in words[:end] if w not in (".", "package")]
        path = self.modules.get(path[0], path[:1]) + path[1:]
        if "{" in words:
            self.use_group(path, toks[end + 1:-1])
        else:
            self.modules[words[-1]] = path

    def use_group(self, path, toks):
        """Notes the names of a group of imports below a path, which may hold groups."""
        for part in split(toks, ","):
            words = [t.text for t in part]
            if "{" in words:
                at = words.index("{")
                self.use_group(path + [w for w in words[:at] if w != "."], part[at + 1:-1])
            elif words:
                target = words[:-2] if "as" in words[1:-1] else words
                self.uses.setdefault(words[-1], []).append(path + [w for w in target if w != "."])

    def lookup(self, name, line=10**9):
        """Returns the meaning of a name at that line; None if it is unknown."""
        own = [f for f in self.own.get(name, []) if not isinstance(f, Maker) or f.line < line]
        if (name, len(own)) not in self.known:
            found = own + [self.item(path) for path in self.uses.get(name, [])]
            if len({(f.tag, f.kind, len(f.types)) if isinstance(f, Maker) else id(f) for f in found}) > 1:
                raise Wrong(f"{self.file}: {name} means two things")
            if not found and "*" in self.modules:
                raise Wrong(f"{self.file}: {name} may come from a glob")
            self.known[name, len(own)] = found[0] if found else UNIT if name == "tt" else None
        return self.known[name, len(own)]


def variants(file, name):
    """Returns the constructors of a Rust enum, by its text."""
    found = re.search(rf"^[^/\n]*\benum\s+{re.escape(name)}\b[^{{]*", file.read_text(), re.M) if file.exists() else None
    if found:
        text = re.sub(r'//[^\n]*|"(?:[^"\\]|\\.)*"', "", found.string[found.end():])
        text = re.sub(r"#\[[^\]]*\]|->", "", text)
        for _ in range(9):
            text = re.sub(r"<[^<>]*>", "", text)
        toks = tokens(text)
        parts = [part for part in split(toks[1:behind(toks, 0) - 1], ",") if part]
        fields = [[f for f in split(part[2:-1], ",") if f] if part[1:] and part[1].text != "=" else [] for part in parts]
        return Types((p[0].text, Maker(p[0].text, "con", ((),) * len(f))) for p, f in zip(parts, fields))


@cache
class Library:
    """The modules of the repository and of the toolchain; each file is read once."""

    def __init__(self, root):
        self.root, self.spaces = Path(root), {}

    def space(self, path):
        """Returns the module with that path, or the constructors of a Rust type; None if there is none."""
        key = ".".join(path)
        if key not in self.spaces:
            found = None
            for p in [["Rattle", c, *path[2:]] for c in STD] if path[:2] == ["Rattle", "std"] else [path]:
                bases, rest = [self.root / "crates" / p[1], KIT / p[1]] if p[2:] else [], p[2:]
                if p[0] in LIBRARIES:
                    bases, rest = [KIT / LIBRARIES[p[0]]], p[1:]
                for base in bases if not found else []:
                    if "declared" in p:
                        *inner, name = [w for w in p[4:] if w != "TheVariants"]
                        file = base / "src" / "/".join(inner or ["lib"])
                        found = found or variants(file.with_suffix(".rt"), name) or variants(file / "mod.rt", name)
                    elif (file := base / ("/".join(rest) + ".antt")).exists():
                        name = ".".join(p)
                        found = self.spaces[name] = found or self.spaces.get(name) or Module(name, file, self.item)
            self.spaces[key] = found
        return self.spaces[key]

    def item(self, path):
        """Returns what a `use` line names; for a Rust type, its constructors."""
        space = self.space(path[:-1])
        found = space.lookup(path[-1]) if space else None
        if found is None and "declared" in path and path[-1] == path[-2]:
            return space or Types()
        if found is None:
            raise Wrong(f"{'.'.join(path)} is not found")
        return found
