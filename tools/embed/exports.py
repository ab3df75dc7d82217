#!/usr/bin/env python3
"""Reads the exports of a static library in Rattle, and makes an unproved library of them.

    tools/embed/exports.py list SRC          prints the exports below a crate's src, as C declares them
    tools/embed/exports.py main SRC TO       writes a program into the folder TO whose main calls each export
    tools/embed/exports.py link CRATE FILE   prints the module of that program's crate, given as LLVM's text in FILE, with the
                                             exports under C's names and linkage

`rt lib` builds only proved libraries, and `rt try` only unproved programs: hence the program.
"""
import collections
import pathlib
import re
import sys

Export = collections.namedtuple("Export", "name module parameters result")
Struct = collections.namedtuple("Struct", "name fields")

EXPORT = re.compile(r'#\[unsafe\(no_mangle\)\]\s*pub extern "C" fn (\w+)\s*\(([^)]*)\)(?:\s*->\s*(\w+))?')
STRUCT = re.compile(r"#\[repr\(C\)\](?:\s*#\[[^\]]*\])*\s*pub struct (\w+)\s*\{(.*?)\n?\}", re.S)
CONSTANT = re.compile(r"^\s*(?:pub(?:\(crate\))? )?const (\w+): u(?:8|32) = (\d+);", re.M)
CLAUSE = re.compile(r"^\s*(?:requires|ensures)\b[^{\n]*\{(?:[^{}]|\{[^{}]*\})*\}\n", re.M)
GHOST_USE = re.compile(r"^\s*ghost use .*\n", re.M)

NUMBERS = {it: f"uint{it[1:]}_t" for it in ("u8", "u16", "u32", "u64")} | {"i32": "int32_t", "usize": "size_t", "bool": "bool"}
HANDLES = {"DeskHandle": "strokes_desk", "PieceHandle": "strokes_piece", "ShotHandle": "strokes_shot"}


def without_remarks(text):
    return re.sub(r"//.*", "", text)


def sources(src):
    """The files below a crate's src, each with the path of its module."""
    for file in sorted(pathlib.Path(src).rglob("*.rt")):
        parts = file.relative_to(src).with_suffix("").parts
        yield file, [] if parts in (("lib",), ("main",)) else list(parts)


def pairs(text):
    """The names and types of fields or parameters."""
    found = []
    for item in re.split(r",(?![^\[]*\])|\n", text):
        match = re.match(r"\s*(?:pub )?(\w+)\s*:\s*(.+?)\s*$", item)
        if match and not item.strip().startswith("ghost"):
            found.append(match.groups())
    return found


def exports(src):
    for file, module in sources(src):
        for name, parameters, result in EXPORT.findall(without_remarks(file.read_text())):
            yield Export(name, module, pairs(parameters), result or None)


def structs(*folders):
    """Structs that C sees, by their names in Rattle."""
    found = {}
    for src in folders:
        for file, _ in sources(src):
            for name, fields in STRUCT.findall(without_remarks(file.read_text())):
                found[name] = Struct(name, pairs(fields))
    return found


def constants(*folders):
    found = {}
    for src in folders:
        for file, _ in sources(src):
            found |= {name: int(value) for name, value in CONSTANT.findall(without_remarks(file.read_text()))}
    return found


def c_name(name):
    """The name in C of a type of the library: StrokesRect is strokes_rect."""
    return HANDLES.get(name) or NUMBERS.get(name) or re.sub(r"(?<!^)([A-Z])", r"_\1", name).lower()


def c_parameters(name, kind):
    """What C passes for a parameter: some types and names."""
    if kind == "Global":
        return []
    slice_of = re.fullmatch(r"&(mut )?\[(\w+)\]", kind)
    if slice_of:
        of = "bytes" if slice_of[2] == "u8" else c_name(slice_of[2])
        return [(f"{'' if slice_of[1] else 'const '}{of} *", name), ("size_t", f"{name}_len")]
    pointer = re.fullmatch(r"&(mut )?(\w+)", kind)
    if pointer:
        return [(f"{'' if pointer[1] else 'const '}{c_name(pointer[2])} *", name)]
    return [(c_name(kind), name)]


def c_declaration(export):
    passed = [it for name, kind in export.parameters for it in c_parameters(name, kind)]
    result = {"u32": "strokes_answer", None: "void"}.get(export.result) or c_name(export.result)
    return result, export.name, passed


# A program of them.


def passed_to(name, kind, types):
    """What is passed for a parameter: a handle stands in the main's variable of that name."""
    return f"&mut {name}" if kind.removeprefix("&mut ") in HANDLES else value(kind, types)


def value(kind, types):
    """Something of a type."""
    made = {"Global": "alloc", "&[u8]": "text", "&mut [u8]": "&mut out", "bool": "false"}
    if kind in made:
        return made[kind]
    if kind in NUMBERS:
        return "0"
    many = re.fullmatch(r"&\[(\w+)\]", kind)
    if many:
        return f"&[{value(many[1], types)}; 2]"
    pointer = re.fullmatch(r"&(?:mut )?(\w+)", kind)
    if pointer and pointer[1] in NUMBERS:
        return f"&mut {pointer[1]}_{'out'}"
    if pointer:
        return f"{'&mut ' if kind.startswith('&mut') else '&'}{value(pointer[1], types)}"
    fields = ", ".join(f"{name}: {value(of, types)}" for name, of in types[kind].fields)
    return f"{kind} {{ {fields} }}"


def main_of(src):
    """The main that calls each export for each line that it reads."""
    types, calls = structs(pathlib.Path(src).parent.parent / "host_lines/src"), []
    for it in exports(src):
        call = f"{'::'.join([*it.module, it.name])}({', '.join(passed_to(name, kind, types) for name, kind in it.parameters)})"
        calls.append(f"        sum += u64::from({call});" if it.result else f"        {call};")
    return """
fn main(rt: HostRuntime) -> std::io::Result<()> {
    let alloc: Global = rt.alloc();
    let mut desk = host_handles::DeskHandle::shut(alloc);
    let mut piece = host_handles::PieceHandle::shut(alloc);
    let mut other = host_handles::PieceHandle::shut(alloc);
    let mut shot = host_handles::ShotHandle::shut(alloc);
    let mut line = String::new(alloc);
    let mut sum = 0u64;
    let mut out = [0u8; 64];
    let (mut u32_out, mut u64_out, mut usize_out) = (0u32, 0u64, 0usize);
    for _ in 0..1000u64 {
        line.clear();
        match rt.read_line(&mut line) {
            Ok(0) => break,
            Ok(_) => {}
            Err(_) => break,
        }
        let text = line.as_bytes();
%s
        sum += u64::from(u32_out) + u64_out + usize_out as u64;
    }
    drop(shot.into_box());
    drop(piece.into_box());
    drop(other.into_box());
    drop(desk.into_box());
    println!(rt; "{sum}")
}
""" % "\n".join(calls)


def write_main(src, to):
    """Copies the sources without what is said in clauses, which rt try doesn't look at, and adds the main."""
    for file, module in sources(src):
        text = GHOST_USE.sub("", CLAUSE.sub("", file.read_text()))
        target = pathlib.Path(to, *module).with_suffix(".rt") if module else pathlib.Path(to, "main.rt")
        target.parent.mkdir(parents=True, exist_ok=True)
        target.write_text(text if module else text + main_of(src))


def linked(crate, text):
    """The module's text in which the exports are seen from outside, and nothing else is."""
    symbol = rf'@"{crate}::(?:\w+::)*(strokes_\w+)"'
    text = re.sub(rf"^define internal ([^\n]*?{symbol}\()", r"define \1", text, flags=re.M)
    text = re.sub(symbol, r"@\1", text)
    text = text.replace(" sanitize_address", "").replace('"frame-pointer"="all" ', "")
    text = re.sub(r"= \{ \}$", "= { nounwind }", text, flags=re.M)
    return re.sub(r"^define (noundef )?i32 @main\(", r"define internal \1i32 @strokes_unused_main(", text, flags=re.M)


def main(words):
    if len(words) == 2 and words[0] == "list":
        for it in exports(words[1]):
            result, name, passed = c_declaration(it)
            print(f"{result} {name}({', '.join(f'{kind} {of}'.replace('* ', '*') for kind, of in passed)});")
    elif len(words) == 3 and words[0] == "main":
        write_main(words[1], words[2])
    elif len(words) == 3 and words[0] == "link":
        sys.stdout.write(linked(words[1], pathlib.Path(words[2]).read_text()))
    else:
        sys.exit(__doc__)


if __name__ == "__main__":
    if sys.argv[1:] == ["--help"]:
        print(__doc__)
        sys.exit()
    main(sys.argv[1:])
