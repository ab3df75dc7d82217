"""Reads strokes.h and strokes_crew.h: what they declare, with the remarks that stand before it."""
import collections
import re

Function = collections.namedtuple("Function", "name result parameters remark")
Struct = collections.namedtuple("Struct", "name fields remark")
Number = collections.namedtuple("Number", "name value remark of")

REMARK = re.compile(r"/\*(.*?)\*/", re.S)
STRUCT = re.compile(r"typedef struct (strokes_\w+)\s*\{(.*?)\}\s*\1;", re.S)
ENUM = re.compile(r"(?:typedef )?enum( strokes_\w+)?\s*\{(.*?)\}", re.S)
NUMBER = re.compile(r"STROKES_(\w+) = (-?\d+),?[ ]*(?:/\*(.*?)\*/)?", re.S)
DEFINED = re.compile(r"#define STROKES_(\w+) UINT32_(?:MAX|C\((\d+)\))")
FUNCTION = re.compile(r"^((?:const )?\w+(?: \*)?) ?\*?(strokes_\w+)\(([^)]*)\);", re.M)
CALLBACK = re.compile(r"void \(\*(\w+)\)\(void \*\w+\)")
# The types of function pointers, by which a program is called.
CALLED = "void (*)(void *)"


def without_remarks(text):
    return REMARK.sub("", text)


def plain(remark):
    """The words of a remark, in paragraphs."""
    lines = [line.strip().removeprefix("*").strip() for line in remark.split("\n")]
    return "\n".join(lines).strip()


def declared(text):
    """The types and names in a declaration such as `int32_t x, y`."""
    called = CALLBACK.search(text)
    if called:
        return [(CALLED, called[1])]
    match = re.match(r"\s*((?:const )?\w+)\s+(.*)", text, re.S)
    if not match:
        return []
    names = [name.strip() for name in match[2].split(",")]
    return [(match[1] + (" *" if name.startswith("*") else ""), name.lstrip("*")) for name in names]


class Header:
    """What a header declares: functions, structs and numbers by their names, those of numbers without STROKES_."""

    def __init__(self, file):
        self.text = file.read_text()
        self.structs = {it.name: it for it in self.read_structs()}
        self.numbers = {it.name: it for it in self.read_numbers()}
        self.functions = {it.name: it for it in self.read_functions()}

    def remark_before(self, at):
        """The remark that ends right before a place; headings of parts aren't any."""
        found = re.search(r"/\*((?:(?!\*/).)*)\*/\s*\Z", self.text[:at], re.S)
        return plain(found[1]) if found and not found[1].startswith(" ----") else ""

    def read_structs(self):
        for it in STRUCT.finditer(self.text):
            fields = [one for line in without_remarks(it[2]).split(";") for one in declared(line)]
            yield Struct(it[1], fields, self.remark_before(it.start()))

    def read_numbers(self):
        for enum in ENUM.finditer(self.text):
            for name, value, remark in NUMBER.findall(enum[2]):
                yield Number(name, int(value), plain(remark), (enum[1] or "").strip())
        for it in DEFINED.finditer(self.text):
            yield Number(it[1], int(it[2] or 2**32 - 1), self.remark_before(it.start()), "")

    def read_functions(self):
        """(Of functions that stand below one another the first has the remark.)"""
        remark, end = "", -1
        for it in FUNCTION.finditer(self.text):
            if end != it.start():
                remark = self.remark_before(it.start())
            end = it.end() + 1
            parameters = [one for item in it[3].split(",") for one in declared(item)]
            yield Function(it[2], it[1], parameters, remark)

    def __ior__(self, other):
        """Has what another header declares, too."""
        self.structs |= other.structs
        self.numbers |= other.numbers
        self.functions |= other.functions
        return self
