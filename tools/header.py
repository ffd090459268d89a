#!/usr/bin/env python3
"""Compares each header with the entry points of its source, include/garthumor.h with crates/drive and tests/host/trial.h with crates/trial: each
is declared and each declaration is defined, with the same parameters in the same order under the same names (but for RENAMED), and the types that
C has for the source's. Prints what differs; exit 1 where something does.

A slice is a pointer and a length in C; the length has no name in the source, so the header chooses it. A struct that both have has the same fields
in the same order.
"""

import pathlib
import re
import sys

ROOT = pathlib.Path(__file__).resolve().parent.parent
PAIRS = {"crates/drive/src/lib.rt": "include/garthumor.h", "crates/trial/src/lib.rt": "tests/host/trial.h"}

NUMBERS = {"u8": "uint8_t", "u16": "uint16_t", "u32": "uint32_t", "u64": "uint64_t", "i32": "int32_t", "i64": "int64_t", "usize": "size_t"}
# A struct of the source, the file that has it, and what C calls it.
STRUCTS = {"Tally": ("crates/totals/src/kinds.rt", "struct garthumor_tally")}
TYPES = NUMBERS | {name: called for name, (_, called) in STRUCTS.items()}
LENGTH = "(length)"
# Names of parameters in the source, and in C: in a contract `result` is the answer.
RENAMED = {"applied": "result"}

ENTRY_POINT = re.compile(r'#\[unsafe\(no_mangle\)\]\s+pub extern "C" fn (\w+)\(([^)]*)\)\s*->\s*(\w+)')
RATTLE_TYPE = re.compile(r"(&mut |&|)(\[?)(\w+)(\]?)")
DECLARATION = re.compile(r"(\w+)\s+(\w+)\s*\(([^)]*)\)")
C_PARAMETER = re.compile(r"(.*?)(\w+)", re.DOTALL)
C_STRUCT = re.compile(r"(struct \w+) \{([^}]*)\}")


class Unreadable(Exception):
    """A text that this script does not understand; it must not pass for one that agrees."""


def in_c(name, rattle):
    """The parameters that C has for one of the source's: pairs of a type and a name."""
    match = RATTLE_TYPE.fullmatch(rattle)
    if not match or match[3] not in TYPES or (match[2] == "[") != (match[4] == "]") or (match[2] and not match[1]):
        raise Unreadable(f"{name}: {rattle} is no type of a parameter for C")
    lent, bracket, kind, _ = match.groups()
    pointer = {"": "", "&": " *", "&mut ": " *"}[lent]
    constant = "const " if lent == "&" else ""
    return [(constant + TYPES[kind] + pointer, RENAMED.get(name, name))] + ([("size_t", LENGTH)] if bracket else [])


def defined(text):
    """Each entry point of the source as C sees it: its return type and its parameters."""
    text = re.sub(r"//[^\n]*", "", text)
    calls = {}
    for name, parameters, answer in ENTRY_POINT.findall(text):
        pairs = [parameter.split(":") for parameter in parameters.split(",") if parameter.strip()]
        calls[name] = (NUMBERS.get(answer, answer), [c for left, right in pairs for c in in_c(left.strip(), right.strip())])
    if len(calls) != text.count('extern "C"'):
        raise Unreadable('not every extern "C" is that of an entry point')
    if not calls:
        raise Unreadable("no entry point")
    return calls


def declared_parameter(text):
    match = C_PARAMETER.fullmatch(text.strip())
    if not match:
        raise Unreadable(f"{text.strip()} is no parameter with a name")
    return " ".join(match[1].replace("*", " * ").split()), match[2]


def fields_in_source(name):
    """The fields of a struct as C sees them; only one that is laid out as in C has any."""
    match = re.search(r"#\[repr\(C\)\]\s+(?:#\[derive\([^)]*\)\]\s+)?pub struct %s \{([^}]*)\}" % name, (ROOT / STRUCTS[name][0]).read_text(encoding="utf-8"))
    if not match:
        raise Unreadable(f"{STRUCTS[name][0]} has no struct {name} that is laid out as in C")
    pairs = [field.split(":") for field in match[1].split(",") if field.strip()]
    return [(NUMBERS[right.strip()], left.replace("pub", "").strip()) for left, right in pairs]


def without_structs(text):
    """The header's text without its structs, whose fields must be those of the source."""
    wanted = {called: fields_in_source(name) for name, (_, called) in STRUCTS.items()}
    for called, fields in C_STRUCT.findall(text):
        found = [declared_parameter(field) for field in fields.split(";") if field.strip()]
        if wanted.get(called) != found:
            raise Unreadable(f"{called} has the fields {found}, and the source has {wanted.get(called)}")
    return C_STRUCT.sub("", text)


def declared(text):
    """Each declaration of the header: its return type and its parameters."""
    text = re.sub(r"/\*.*?\*/", "", text, flags=re.DOTALL)
    text = without_structs(re.sub(r"^#.*$", "", text, flags=re.MULTILINE))
    text = text.replace('extern "C" {', "").replace("}", "")
    calls = {}
    for declaration in filter(None, map(str.strip, text.split(";"))):
        match = DECLARATION.fullmatch(declaration)
        if not match or match[2] in calls:
            raise Unreadable(f"{declaration} is no declaration, or a second one")
        calls[match[2]] = (match[1], [declared_parameter(parameter) for parameter in match[3].split(",")])
    return calls


def differs(wanted, found):
    """Whether a declaration is not the one that the source asks for; a length has any name."""
    if wanted[0] != found[0] or len(wanted[1]) != len(found[1]):
        return True
    pairs = zip(wanted[1], found[1])
    return any(w != f and w != (f[0], LENGTH) for w, f in pairs)


def shown(name, call):
    return f"{call[0]} {name}({', '.join(f'{kind} {word}' for kind, word in call[1])})".replace("* ", "*")


def differences(source, header):
    for name in sorted(source.keys() | header.keys()):
        if name not in header:
            yield f"defined, but not declared: {shown(name, source[name])}"
        elif name not in source:
            yield f"declared, but not defined: {shown(name, header[name])}"
        elif differs(source[name], header[name]):
            yield f"defined:  {shown(name, source[name])}\ndeclared: {shown(name, header[name])}"


def calls_of(read, file):
    """What a file defines or declares; what can't be read in it is told with its name."""
    try:
        return read((ROOT / file).read_text(encoding="utf-8"))
    except Unreadable as reason:
        sys.exit(f"{file}: {reason}")


def main():
    found = [
        f"{header}: {difference}"
        for source, header in PAIRS.items()
        for difference in differences(calls_of(defined, source), calls_of(declared, header))
    ]
    for difference in found:
        print(difference, file=sys.stderr)
    return 1 if found else 0


if __name__ == "__main__":
    sys.exit(main())
