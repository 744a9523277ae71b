"""What `definitions.py` has in Python: the values, and definitions that have no clauses or would be slow."""

from collections import namedtuple

from antt_text import Wrong

# definitions as Python, with {0}, {1} .. for their arguments; what begins with a bracket is an operator that groups left
NATIVE = {f"{module}.{name}": code for module, names in {
    # these have no clauses that this program could run
    "Prim.Native.Nat": {"pred": "max({0} - 1, 0)", "◌+◌": "({0} + {1})", "◌-◌": "max({0} - {1}, 0)",
                        "◌*◌": "({0} * {1})", "◌/◌": "div({0}, {1})", "◌%◌": "mod({0}, {1})",
                        "◌^◌": "pow({0}, {1})", "min": "min({0}, {1})", "max": "max({0}, {1})"},
    "lib.Dec": {"eqb": "({0} == {1})", "leb": "({0} <= {1})", "ltb": "({0} < {1})"},
    "lib.Chars": {"codes": "{0}"},
    # these are faster so
    "mathlib.Core.Bool": {"not": "(not {0})", "◌&&◌": "({0} and {1})", "◌||◌": "({0} or {1})",
                          "cond": "({1} if {0} else {2})"},
    "mathlib.Core.List.Defs": {"◌++◌": "({0} + {1})", "map": "tuple(map({0}, {1}))", "reverse": "{0}[::-1]"},
    "lib.ListN": {"length": "len({0})", "take": "{1}[:{0}]", "drop": "{1}[{0}:]", "replicate": "(({1},) * {0})",
                  "get_or": "get_or({0}, {1}, {2})"},
    "Rattle.core.specs.Bool": {"◌==◌": "({0} == {1})"},
    "Rattle.core.specs.Str": {"bytes_eq": "({0} == {1})"},
    "Rattle.core.specs.List": {"list_any": "any(map({0}, {1}))", "list_all": "all(map({0}, {1}))",
                               "filter": "tuple(filter({0}, {1}))"},
    # so are these of the project, which walk through whole lists
    "Rattle.html_names.specs.Names": {"stands_in": "({1} in {0})",
                                      "listed_names": "tuple(map(codes, text_of({0}).split(' ')))"},
    "Rattle.html_dom_tree.specs.Tree": {"with_last": "({0} + ({1},))"},
    "Rattle.html_dom_document.specs.DomIndices": {"◌then◌": "({0} + {1})"},
    "Rattle.typst_html_encode.specs.Reader": {"◌then◌": "({0} + {1})"},
}.items() for name, code in names.items()}
FIXITY = {"◌+◌": (65, "infixl"), "◌-◌": (65, "infixl"), "◌*◌": (70, "infixl"), "◌/◌": (70, "infixl"),
          "◌%◌": (70, "infixl"), "◌^◌": (75, "infixr")}  # of Prim.Native.Nat


class Con(namedtuple("Con", "tag args", defaults=[()])):
    """A constructor's value."""
    __slots__ = ()
    def __repr__(self): return self.tag + (f"({', '.join(map(show, self.args))})" if self.args else "")


def show(v):
    """Returns a readable text of a value; shows a list of numbers that may be a text as one."""
    if not isinstance(v, tuple) or isinstance(v, Con):
        return repr(v)
    if hasattr(v, "_fields"):
        return "{" + "; ".join(f"{f} = {show(w)}" for f, w in zip(v._fields, v)) + "}"
    is_text = v and all(type(c) is int and (c > 31 or c in (9, 10, 13)) and c < 0x110000 for c in v)
    return repr(text_of(v)) if is_text else "[" + ", ".join(map(show, v)) + "]"


def codes(text): return tuple(map(ord, text))
def text_of(numbers): return "".join(map(chr, numbers))
def div(a, b): return a // b if b else 0
def mod(a, b): return a % b if b else a
def get_or(xs, i, d): return xs[i] if i < len(xs) else d


def curry(f, n, *got):
    """Returns a function of n arguments as one that takes the remaining ones one by one."""
    return f if n == 1 else lambda x: f(*got, x) if len(got) == n - 1 else curry(f, n, *got, x)


def no_clause(where, *args):
    raise Wrong(f"{where}: no clause matches {', '.join(map(show, args))[:500]}")
