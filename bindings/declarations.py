#!/usr/bin/env python3
"""The calls have the same arguments, by number, name and type, in the library's source, in the header, in Rust and in
Python; the reply has the same fields, laid out as C does; the version, the words of refusals, the statuses in C and
Python, the licence, and the version of the crate and the package are the same. The names of refusals in C are those of
the source's variants, and if the words are the source's own, they are the same. At the end it tries changed copies,
each of which must differ.
"""

import ast
import re
import sys
from pathlib import Path

ROOT = Path(__file__).resolve().parent.parent
# the exports, and the calls behind them with what they reply
SOURCES = [ROOT / "crates" / crate / "src" for crate in ("typst_html_static", "typst_html_ffi")]
# the faults that have the numbers of refusals
FAULTS = [ROOT / "crates" / crate / "src" / "fault.rt" for crate in ("html_names_core", "typst_html_encode", "html_page_stack")]
FILES = {
    "header": "bindings/typst_html.h", "raw": "bindings/rust/src/raw.rs", "refusal": "bindings/rust/src/refusal.rs",
    "lib": "bindings/rust/src/lib.rs", "package": "bindings/python/typst_html_proved/__init__.py",
    "library": "bindings/python/typst_html_proved/_library.py", "spoken": "bindings/python/typst_html_proved/_words.py", "crate": "bindings/rust/Cargo.toml",
    "project": "bindings/python/pyproject.toml", "licence": "LICENSE", "readme": "README.md", "changes": "CHANGELOG.md",
}  # fmt: skip

# What stands for a type, in the words of Rust. A slice is a pointer and a length.
SLICES = {"&[u8]": ("*const u8", "length"), "&mut [u8]": ("*mut u8", "room")}
OF_C = {
    "uint8_t": "u8", "uint32_t": "u32", "uint64_t": "u64", "size_t": "usize", "const uint8_t *": "*const u8",
    "uint8_t *": "*mut u8", "struct typst_html_reply": "Reply",
}  # fmt: skip
OF_PYTHON = {
    "c_uint8": "u8", "c_uint32": "u32", "c_uint64": "u64", "c_size_t": "usize", "c_char_p": "*const u8",
    "c_void_p": "*mut u8", "Reply": "Reply",
}  # fmt: skip

# The changes of each file, and what then differs.
CHANGES = [
    ("header", "uint8_t kind, uint8_t layout", "uint8_t layout, uint8_t kind", "calls"),
    ("header", "uint8_t links", "uint32_t links", "calls"),
    ("source", "document(\n    alloc: Global,\n    layout: u8,\n    links: u8,",
     "document(\n    alloc: Global,\n    links: u8,\n    layout: u8,", "calls"),
    ("source", "    page: &[u8],\n    output: &mut [u8],", "    output: &mut [u8],\n    page: &[u8],", "calls"),
    ("raw", "        layout: u8,\n        links: u8,", "        links: u8,\n        layout: u8,", "calls"),
    ("raw", "page: *const u8", "input: *const u8", "calls"),
    ("library", '"layout": ctypes.c_uint8, "links": ctypes.c_uint8',
     '"links": ctypes.c_uint8, "layout": ctypes.c_uint8', "calls"),
    ("library", '"limit": ctypes.c_uint32', '"limit": ctypes.c_uint8', "calls"),
    ("source", "#[repr(C)]\n", "", "reply"),
    ("raw", "#[repr(C)]\n", "", "reply"),
    ("raw", "#[repr(C)]\n", "#[repr(C, packed)]\n", "reply"),
    ("raw", "    status: u8,\n    number: u8,", "    number: u8,\n    status: u8,", "reply"),
    ("library", "    _fields_", "    _pack_ = 1\n    _fields_", "reply"),
    ("library", '("status", ctypes.c_uint8)', '("state", ctypes.c_uint8)', "reply"),
    ("library", "VERSION: Final = 8", "VERSION: Final = 9", "version"),
    ("refusal", "tag name must not be empty", "tag name is empty", "words"),
    ("spoken", "too many elements are made again", "too many elements are made anew", "words"),
    ("header", "a void element has a child", "a void element has children", "words"),
    ("source", "UNKNOWN_LABEL: u8 = 25", "UNKNOWN_LABEL: u8 = 26", "names"),
    ("faults", "ExportFault::RawChild { .. } => 13", "ExportFault::RawChild { .. } => 14", "names"),
    ("faults", "ExportFault::VoidChildren { .. } => 12", "ExportFault::VoidChild { .. } => 12", "names"),
    ("faults", "too many elements are made again", "elements are made again", "own words"),
    ("library", "OUT_OF_MEMORY = 3", "OUT_OF_MEMORY = 4", "statuses"),
    ("header", "TYPST_HTML_DEAD_LINKS = 5", "TYPST_HTML_LOST_LINKS = 5", "statuses"),
    ("package", '__version__: Final = "0.8.0"', '__version__: Final = "0.8.1"', "package"),
    ("changes", "## 0.8.", "## 0.7.", "release"),
    ("crate", "Apache-2.0", "MIT", "licence"),
    ("project", "Apache-2.0", "MIT", "licence"),
]  # fmt: skip


def parted(text):
    return [part.strip() for part in text.split(",") if part.strip()]


def given(argument):
    """Returns the arguments `name: type` of a call in a text of Rust or Rattle, without the allocator."""
    name, kind = re.match(r"(\w+): (.*)$", argument).groups()
    if kind in SLICES:
        pointer, length = SLICES[kind]
        return [(name, pointer), (length, "usize")]
    return [] if kind == "Global" else [(name, kind)]


def of_rust(text):
    """Returns the calls in a text of Rust or Rattle, with their arguments and results."""
    calls = re.findall(r"fn (typst_html_\w+)\(([^)]*)\)\s*->\s*(\w+)", text)
    return {name: ([one for it in parted(takes) for one in given(it)], gives) for name, takes, gives in calls}


def struct_of_rust(text):
    """Returns the layout of the reply, and its fields."""
    attributes, body = re.search(r"((?:^#.*\n)*)^(?:pub )?struct Reply \{(.*?)\n\}", text, re.S | re.M).groups()
    layout = "C" if "#[repr(C)]\n" in attributes else "Rust"
    return [layout, *re.findall(r"^\s*(?:pub )?(\w+): (\w+),", body, re.M)]


def without_comments(text):
    return re.sub(r"/\*.*?\*/", "", text, flags=re.S)


def of_header(text):
    found = {}
    declared = r"^((?:struct )?\w+) (typst_html_\w+)\(([^)]*)\);"
    for gives, name, takes in re.findall(declared, without_comments(text), re.M):
        takes = [" ".join(it.split()) for it in parted(takes) if it != "void"]
        takes = [re.match(r"((?:const |struct )?\w+ \*?)(\w+)$", it) for it in takes]
        found[name] = ([(it[2], OF_C[it[1].strip()]) for it in takes], OF_C[gives])
    return found


def struct_of_header(text):
    body = re.search(r"^struct typst_html_reply \{(.*?)\n\};$", without_comments(text), re.S | re.M)[1]
    return ["C", *((name, OF_C[kind]) for kind, name in re.findall(r"(\w+) (\w+);", body))]


def plain(node):
    """What is written there, a name without its module, and of a call that freezes a value the value. (As values
    c_uint64 and c_size_t may be one.)"""
    if isinstance(node, ast.Call):
        return plain(node.args[0])
    if isinstance(node, ast.Dict):
        return {plain(key): plain(value) for key, value in zip(node.keys, node.values)}
    if isinstance(node, (ast.List, ast.Tuple)):
        return [plain(one) for one in node.elts]
    return node.value if isinstance(node, ast.Constant) else node.attr if isinstance(node, ast.Attribute) else node.id


def assigned(tree):
    """Returns the values of names in a tree of Python, in its classes too."""
    found = {}
    for node in ast.walk(tree):
        if isinstance(node, (ast.Assign, ast.AnnAssign)):
            target = node.targets[0] if isinstance(node, ast.Assign) else node.target
            found[getattr(target, "id", None)] = node.value
    return found


def of_python(names):
    calls = plain(names["DECLARED"])
    given = lambda takes: [(name, OF_PYTHON[kind]) for name, kind in takes.items()]
    return {name: (given(takes), OF_PYTHON[gives]) for name, (gives, takes) in calls.items()}


def class_of_python(tree, name):
    return next(node for node in ast.walk(tree) if isinstance(node, ast.ClassDef) and node.name == name)


def statuses_of_python(tree):
    return {name: plain(value) for name, value in assigned(class_of_python(tree, "Status")).items()}


def statuses_of_header(text):
    body = re.search(r"^enum typst_html_status \{(.*?)\n\};$", without_comments(text), re.S | re.M)[1]
    return {name: int(number) for name, number in re.findall(r"TYPST_HTML_(\w+) = (\d+),", body)}


def struct_of_python(tree):
    reply = class_of_python(tree, "Reply")
    names = assigned(reply)
    layout = "C" if [plain(base) for base in reply.bases] == ["Structure"] and list(names) == ["_fields_"] else "another"
    return [layout, *((name, OF_PYTHON[kind]) for name, kind in plain(names["_fields_"]))]


def refusals_of_header(text):
    """Returns the names of refusals, by number."""
    body = re.search(r"^enum typst_html_refusal \{(.*?)\n\};$", text, re.S | re.M)[1]
    return {int(number): name for name, number in re.findall(r"TYPST_HTML_REFUSAL_(\w+) = (\d+),", body)}


def words_of_header(text):
    numbers = {name: number for number, name in refusals_of_header(text).items()}
    cases = re.findall(r'^    case TYPST_HTML_REFUSAL_(\w+):\n        return "(.*)";$', text, re.M)
    return {numbers[name]: words for name, words in cases}


def refusals_of_source(text):
    """Returns the variants of faults, by number, spelled like constants of C."""
    variants = re.findall(r"^            (?:NameFault|ExportFault|PageRefusal)::(\w+)(?: \{ \.\. \})?(?:\(_\))? => (\d+),$", text, re.M)
    spelled = lambda name: re.sub(r"(?<!^)(?=[A-Z])", "_", name).upper()
    return {int(number): spelled(name) for name, number in variants if number != "0"}


def refusals_of_calls(text):
    """Returns the names of the refusals that the calls themselves number, by number."""
    return {int(number): name for name, number in re.findall(r"^const (UNKNOWN_\w+): u8 = (\d+);$", text, re.M)}


def own_words(source, spoken):
    """Returns the words of the source, for names, for the one character and for pages, and those that are shown. (For
    the other refusals of items, the source says how its caller may mend them.)"""
    texts = {name: words for words, name in re.findall(r'#\[error\("(.*)"\)\]\n    (\w+)', source)}
    spelled = lambda name: "".join(part.capitalize() for part in name.split("_"))
    numbers = {number: spelled(name) for number, name in refusals_of_source(source).items()}
    taken = [number for number in numbers if number < 8 or number == 11 or number > 25]
    return [{it: texts.get(numbers[it]) for it in taken}, {it: spoken.get(it) for it in taken}]


def words_of(text, pattern):
    return {int(number): words for number, words in re.findall(pattern, text, re.M)}


def compared(texts):
    """Returns the content of each file, by what is compared."""
    source, header, raw = texts["source"], texts["header"], texts["raw"]
    library = ast.parse(texts["library"])
    python, package, spoken = assigned(library), assigned(ast.parse(texts["package"])), assigned(ast.parse(texts["spoken"]))
    exports = "".join(re.findall(r'pub extern "C" (fn.*?)ensures', source, re.S))
    imports = re.search(r'^extern "C" \{\n(.*?)^\}', raw, re.S | re.M)[1]
    first = lambda pattern, name: re.search(pattern, texts[name], re.M)[1]
    number = lambda pattern, name: int(first(pattern, name))
    return {
        "calls": [of_rust(exports), of_header(header), of_rust(imports), of_python(python)],
        "reply": [struct_of_rust(source), struct_of_header(header), struct_of_rust(raw), struct_of_python(library)],
        "version": [
            number(r"const VERSION: u32 = (\d+)", "source"), number(r"define TYPST_HTML_VERSION (\d+)", "header"),
            number(r"pub const VERSION: u32 = (\d+)", "lib"), plain(python["VERSION"]),
        ],
        "words": [
            words_of_header(header), words_of(texts["refusal"], r'^ +(\d+) => "(.*)",$'), plain(spoken["WORDS"]),
        ],
        "names": [{**refusals_of_source(texts["faults"]), **refusals_of_calls(source)}, refusals_of_header(header)],
        "own words": own_words(texts["faults"], words_of_header(header)),
        "statuses": [statuses_of_header(header), statuses_of_python(library)],
        "package": [first(r'^version = "(.*)"$', "crate"), plain(package["__version__"])],
        # the number in the middle is the version of the calls
        "release": [
            number(r'^version = "0\.(\d+)\.\d+"$', "crate"), number(r"^## 0\.(\d+)\.\d+", "changes"),
            number(r"define TYPST_HTML_VERSION (\d+)", "header"),
        ],
        "licence": [
            "-".join(re.match(r"\s*(\w+) License\s+Version ([\d.]+),", texts["licence"]).groups()),
            first(r'^license = "(.*)"$', "crate"), first(r'^license = \{ text = "(.*)" \}$', "project"),
            first(r"\[([^]]*)\]\(LICENSE\)", "readme"),
        ],
    }  # fmt: skip


def differing(found):
    return [what for what, those in found.items() if not those[0] or any(it != those[0] for it in those)]


def unseen(texts):
    """Returns the changes that nothing shows."""
    for name, old, new, what in CHANGES:
        changed = {**texts, name: texts[name].replace(old, new, 1)}
        if changed == texts or differing(compared(changed)) != [what]:
            yield f"no difference of {what} is seen where {name} has {new!r} for {old!r}"


def main():
    texts = {name: (ROOT / path).read_text() for name, path in FILES.items()}
    texts["source"] = "".join(path.read_text() for source in SOURCES for path in sorted(source.glob("*.rt")))
    texts["faults"] = "".join(path.read_text() for path in FAULTS)
    found = compared(texts)
    wrong = differing(found)
    for what in wrong:
        print(f"{what} differ:", *found[what], sep="\n  ", file=sys.stderr)
    missed = [] if wrong else list(unseen(texts))
    print(*missed, sep="\n", end="\n" if missed else "", file=sys.stderr)
    seen = f"{len(missed)} of {len(CHANGES)} changes unseen"
    print(f"declarations: {len(found) - len(wrong)} passed, {len(wrong)} failed; {seen}")
    return 1 if wrong or missed else 0


if __name__ == "__main__":
    sys.exit(main())
