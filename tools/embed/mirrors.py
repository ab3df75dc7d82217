"""Writes what Rust and Python have to know of strokes.h and strokes_crew.h: functions, structs and numbers, as the headers
have them. tools/header-check compares the files with what is written here."""
import ctypes
import re
import textwrap

from header import CALLED

WIDTH = 120
NUMBERS = {
    "uint8_t": ("u8", "c_uint8"), "uint16_t": ("u16", "c_uint16"), "uint32_t": ("u32", "c_uint32"), "uint64_t": ("u64", "c_uint64"),
    "int32_t": ("i32", "c_int32"), "size_t": ("usize", "c_size_t"), "bool": ("bool", "c_bool"),
}
BYTES = ("char", "uint8_t")
WORDS = "What `strokes.h` and `strokes_crew.h` declare. `tools/header-check --write` writes this file; don't edit it."


def camel(name):
    """The name of a struct or an enumeration: CrewOptions of strokes_crew_options."""
    return "".join(word.capitalize() for word in name.removeprefix("strokes_").split("_"))


def enumerations(header):
    """The numbers of each enumeration that has a name."""
    found = {}
    for it in header.numbers.values():
        if it.of:
            found.setdefault(it.of, []).append(it)
    return found


def is_handle(struct):
    return any("*" in kind for kind, _ in struct.fields)


def sentence(remark):
    """A remark as a line of its own."""
    return re.sub(r"\s+", " ", remark)[:1].upper() + re.sub(r"\s+", " ", remark)[1:]


# Rust.


def rust_remark(remark, indent=""):
    if not remark:
        return ""
    lines = textwrap.wrap(sentence(remark), WIDTH - len(indent) - 4, break_long_words=False, break_on_hyphens=False)
    return "".join(f"{indent}/// {line}\n" for line in lines)


def rust_type(kind):
    if kind == CALLED:
        return 'Option<unsafe extern "C" fn(*mut c_void)>'
    pointer = re.fullmatch(r"(const )?(\w+) \*", kind)
    if not pointer:
        return NUMBERS[kind][0] if kind in NUMBERS else camel(kind)
    of = "u8" if pointer[2] in BYTES else "c_void" if pointer[2] == "void" else rust_type(pointer[2])
    return f"*{'const' if pointer[1] else 'mut'} {of}"


def rust_struct(struct, layout):
    name = camel(struct.name)
    derived = "#[derive(Debug)]\n" if is_handle(struct) else "#[derive(Clone, Copy, Debug, Default, PartialEq, Eq)]\n"
    fields = "".join(f"    pub {field}: {rust_type(kind)},\n" for kind, field in struct.fields)
    size, align = layout
    checks = f"const _: () = assert!(size_of::<{name}>() == {size} && align_of::<{name}>() == {align});\n"
    return f"{rust_remark(struct.remark)}#[repr(C)]\n{derived}pub struct {name} {{\n{fields}}}\n\n{checks}"


def rust_enumeration(name, numbers):
    lines = "".join(f"{rust_remark(it.remark, '    ')}    pub const {it.name}: {camel(name)} = {camel(name)}({it.value});\n" for it in numbers)
    text = f"/// A number of the enumeration `{name}`: one of the constants, or one that a newer library has.\n#[repr(transparent)]\n"
    return text + f"#[derive(Clone, Copy, PartialEq, Eq, Hash)]\npub struct {camel(name)}(pub u32);\n\nimpl {camel(name)} {{\n{lines}}}\n"


def rust_function(it):
    passed = ", ".join(f"{name}: {rust_type(kind)}" for kind, name in it.parameters)
    result = {"void": "", "const char *": " -> *const c_char"}.get(it.result) if it.result in ("void", "const char *") else f" -> {rust_type(it.result)}"
    line = f"    pub fn {it.name}({passed}){result};\n"
    if len(line) > 101:
        line = f"    pub fn {it.name}(\n" + "".join(f"        {one},\n" for one in passed.split(", ")) + f"    ){result};\n"
    return line


def rust(header):
    parts = [f"//! {WORDS}\n#![allow(dead_code)]\n\nuse std::ffi::c_void;\nuse std::mem::{{align_of, size_of}};\nuse std::os::raw::c_char;\n"]
    parts += [rust_enumeration(name, numbers) for name, numbers in enumerations(header).items()]
    numbers = [it for it in header.numbers.values() if not it.of]
    parts.append("".join(f"{rust_remark(it.remark)}pub const {it.name}: {'i32' if it.value < 0 else 'u32'} = {it.value};\n" for it in numbers))
    layouts = layouts_of(header)
    parts += [rust_struct(it, layouts[it.name]) for it in header.structs.values()]
    parts.append('extern "C" {\n' + "".join(rust_function(it) for it in header.functions.values()) + "}\n")
    return "\n".join(parts)


# Python.


def python_type(kind):
    """The type by which ctypes passes what the header calls so."""
    if kind == CALLED:
        return "CALLED"
    pointer = re.fullmatch(r"(const )?(\w+) \*", kind)
    if not pointer:
        return f"c.{NUMBERS[kind][1]}" if kind in NUMBERS else "None" if kind == "void" else camel(kind)
    if pointer[2] == "void":
        return "c.c_void_p"
    if pointer[2] == "char" and pointer[1]:
        return "c.c_char_p"
    return f"c.POINTER({'c.c_uint8' if pointer[2] in BYTES else python_type(pointer[2])})"


def python_remark(remark):
    if not remark:
        return ""
    text = textwrap.fill(f'"""{sentence(remark)}"""', WIDTH - 4, break_long_words=False, break_on_hyphens=False)
    return textwrap.indent(text, "    ") + "\n\n"


def python_struct(struct):
    fields = ", ".join(f'("{field}", {python_type(kind)})' for kind, field in struct.fields)
    line = f"    _fields_ = [{fields}]\n"
    if len(line) > WIDTH:
        line = "    _fields_ = [\n" + "".join(f'        ("{field}", {python_type(kind)}),\n' for kind, field in struct.fields) + "    ]\n"
    kinds = {"bool": "bool"} | {kind: "int" for kind in NUMBERS if kind != "bool"}
    hints = "".join(f"    {field}: {kinds.get(kind, 'Any')}\n" for kind, field in struct.fields)
    return f"class {camel(struct.name)}(c.Structure):\n{python_remark(struct.remark)}{hints}{line}"


def python_enumeration(name, numbers):
    lines = "".join(f"    {it.name} = {it.value}\n" for it in numbers)
    return f'class {camel(name)}(enum.IntEnum):\n    """The numbers of `{name}`."""\n\n{lines}'


def python_function(it, header):
    enums = enumerations(header)
    # (a number that a newer library has is no member of the enumeration)
    kinds = [("c.c_uint32" if kind in enums else python_type(kind)) for kind in [it.result, *(kind for kind, _ in it.parameters)]]
    line = f'    "{it.name}": ({kinds[0]}, [{", ".join(kinds[1:])}]),\n'
    if len(line) > WIDTH:
        line = f'    "{it.name}": (\n        {kinds[0]},\n        [{", ".join(kinds[1:])}],\n    ),\n'
    return line


def python(header):
    parts = [f'"""{WORDS}"""\nimport ctypes as c\nimport enum\nfrom typing import Any\n\nCALLED = c.CFUNCTYPE(None, c.c_void_p)\n']
    parts += [python_enumeration(name, numbers) for name, numbers in enumerations(header).items()]
    parts.append("".join(f"{it.name} = {it.value}\n" for it in header.numbers.values() if not it.of))
    parts += [python_struct(it) for it in header.structs.values()]
    lines = "".join(python_function(it, header) for it in header.functions.values())
    parts.append(f"# What each function gives, and what it is passed.\nFUNCTIONS: dict[str, tuple[Any, list[Any]]] = {{\n{lines}}}\n")
    return "\n\n".join(parts)


def layouts_of(header):
    """The size and the alignment of each struct, by the names in C."""
    made = {}
    exec(compile(python(header), "raw", "exec"), made)  # pylint: disable=exec-used
    return {name: (ctypes.sizeof(made[camel(name)]), ctypes.alignment(made[camel(name)])) for name in header.structs}
