"""The structs and the calls are written down three times, for C, Rust and Python: the texts are compared, field by field and argument by argument. So are the limits, and the version."""

import ctypes
import os
import re
import unittest

from hifewugbe import __version__, library

ROOT = os.path.join(os.path.dirname(os.path.abspath(__file__)), "..", "..")
# The name of a struct in C, in Rust and in Python.
NAMES = {
    "multigrid_options": ("Options", "Controls"),
    "multigrid_answer": ("Answer", "Answer"),
    "multigrid_hierarchy": ("Hierarchy", "Handle"),
    "multigrid_built": ("Built", "Built"),
    "multigrid_report": ("Report", "Solved"),
    "multigrid_count": ("Count", "Count"),
    "multigrid_level_statistics": ("MultigridLevelStatistics", "Record"),
    "multigrid_charge": ("Charge", "Charge"),
    "multigrid_loaded": ("Loaded", "Loaded"),
}
NUMBERS = {"uint64_t": "u64", "double": "f64"}


def text(name):
    with open(os.path.join(ROOT, *name.split("/")), encoding="utf-8") as file:
        return file.read()


def of_header():
    """Each struct's fields: a name, and a kind in Rust's words."""
    header = re.sub(r"/\*.*?\*/", "", text("include/multigrid.h"), flags=re.S)
    kinds = dict(NUMBERS, **{f"struct {name}": rust for name, (rust, _) in NAMES.items()})
    found = {}
    for name, body in re.findall(r"^struct (\w+) \{(.*?)^\};", header, re.S | re.M):
        fields = re.findall(r"\s*((?:struct )?\w+) ([\w, ]+);", body)
        found[name] = [(field.strip(), kinds[kind]) for kind, names in fields for field in names.split(",")]
    return found


def of_rust():
    source = text("rust/src/calls.rs") + text("rust/src/hierarchy.rs")
    structs = re.findall(r"#\[repr\(C\)\]\n#\[derive[^\n]*\]\npub struct (\w+) \{(.*?)^\}", source, re.S | re.M)
    return {name: re.findall(r"pub (\w+): (\w+),", body) for name, body in structs}


def of_python(kind):
    numbers = {ctypes.c_uint64: "u64", ctypes.c_double: "f64"}
    back = {python: rust for rust, python in NAMES.values()}
    return [(name, numbers.get(field) or back[field.__name__]) for name, field in kind._fields_]


def called_in_header():
    """Of each call what it takes, in Rust's words, and what it answers."""
    header = re.sub(r"/\*.*?\*/", "", text("include/multigrid.h"), flags=re.S)
    kinds = dict(NUMBERS, size_t="usize", uint32_t="u32", void="()", **{f"struct {name}": rust for name, (rust, _) in NAMES.items()})
    calls = {}
    for answer, name, arguments in re.findall(r"^(struct \w+)\s+(multigrid_\w+)\(([^)]*)\);", header, re.M):
        takes = []
        for argument in [] if arguments == "void" else arguments.split(","):
            lent, kind, pointer = re.fullmatch(r"\s*(const )?((?:struct )?\w+) (\*?)\w+", argument).groups()
            takes.append(("*const " if lent else "*mut ") + kinds[kind] if pointer else kinds[kind])
        calls[name] = (takes, kinds[answer])
    return calls


def called_in_rust():
    block = re.search(r'extern "C" \{(.*?)^\}', text("rust/src/calls.rs"), re.S | re.M).group(1)
    found = re.findall(r"pub fn (\w+)\(([^)]*)\) -> (\w+);", block)
    return {name: ([part.split(":")[1].strip() for part in takes.split(",") if ":" in part], answer) for name, takes, answer in found}


def called_in_python():
    """What ctypes is told: a pointer has no kind there, and a size is a word."""
    numbers = {ctypes.c_uint64: "word", ctypes.c_double: "f64", ctypes.c_void_p: "pointer"}
    back = {python: rust for rust, python in NAMES.values()}
    return {name: ([numbers.get(kind) or back[kind.__name__] for kind in takes], back[answer.__name__]) for name, (takes, answer) in library.CALLS.items()}


class Header(unittest.TestCase):
    def test_calls_agree(self):
        header = called_in_header()
        self.assertEqual(len(header), 8)
        self.assertEqual(header, called_in_rust())
        plain = {name: ([re.sub(r"\*.*", "pointer", re.sub("usize|u64", "word", kind)) for kind in takes], answer) for name, (takes, answer) in header.items()}
        self.assertEqual(plain, called_in_python())

    def test_structs_agree(self):
        header, rust = of_header(), of_rust()
        self.assertEqual(set(header), set(NAMES))
        for name, (in_rust, in_python) in NAMES.items():
            self.assertEqual(header[name], rust[in_rust], name)
            self.assertEqual(header[name], of_python(getattr(library, in_python)), name)

    def test_limits_agree(self):
        defined = dict(re.findall(r"#define MULTIGRID_(MOST_\w+) (\d+)", text("include/multigrid.h")))
        ours = {name: str(getattr(library, name)) for name in dir(library) if name.startswith("MOST_")}
        self.assertLessEqual(set(ours.items()), set(defined.items()))

    def test_one_version(self):
        self.assertEqual(__version__, text("VERSION").strip())


if __name__ == "__main__":
    unittest.main()
