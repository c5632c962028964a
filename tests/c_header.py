#!/usr/bin/env python3
"""Compares include/gondyru.h, and the numbers of python/gondyru, with the exports of rtc_c and the structs and numbers of
rtc_c_handle. Nothing else can list what a static library exports.

usage: tests/c_header.py [--check]
"""
import glob
import os
import re
import sys

TOP = os.path.dirname(os.path.dirname(os.path.abspath(__file__)))
NUMBERS = {"u8": "uint8_t", "u16": "uint16_t", "u32": "uint32_t", "u64": "uint64_t", "usize": "size_t", "bool": "bool"}
STRUCTS = {
    "Slot": "gondyru_peer",
    "Address": "gondyru_address",
    "Settings": "gondyru_settings",
    "ChannelSettings": "gondyru_channel_settings",
    "OutputRow": "gondyru_output_row",
    "LineEntry": "gondyru_line_entry",
    "ChannelEntry": "gondyru_channel_entry",
}
# What C has for a type of a field or of an argument by value.
VALUES = {**NUMBERS, **{name: other for name, other in STRUCTS.items() if name != "Slot"}}


def read(path):
    with open(os.path.join(TOP, path), encoding="utf-8") as file:
        return file.read()


def sources(crate):
    paths = sorted(glob.glob(os.path.join(TOP, "crates", crate, "src", "*.rt")))
    return "\n".join(read(os.path.relpath(path, TOP)) for path in paths)


def plain(text):
    return re.sub(r"\s+", " ", text).strip()


# One argument of an export as C has it. An allocator takes no argument, and a slice is a pointer and a length.
def argument(name, kind):
    if kind == "Global":
        return []
    slices = {"&[u8]": "const uint8_t *", "&mut [u8]": "uint8_t *"}
    if kind in slices:
        return [f"{slices[kind]}{name}", f"size_t {name}_len"]
    lent = re.fullmatch(r"&(mut )?(\w+)", kind)
    if lent:
        pointed = {**NUMBERS, **STRUCTS}[lent[2]]
        return [f"{'' if lent[1] else 'const '}{pointed} *{name}"]
    return [f"{NUMBERS[kind]} {name}"]


def prototypes_of_exports():
    exports = re.findall(r'pub extern "C" fn (\w+)\((.*?)\)( -> (\w+))?\s*(?:requires|ensures|\{)', sources("rtc_c"), re.DOTALL)
    for name, given, _, result in exports:
        parts = [part.split(":", 1) for part in re.split(r",\s*", given.strip()) if part.strip()]
        arguments = [it for part in parts for it in argument(part[0].strip(), plain(part[1]))]
        yield f"{NUMBERS[result] if result else 'void'} {name}({', '.join(arguments)});"


def prototypes_of_header(header):
    return [plain(it) for it in re.findall(r"^(?:uint32_t|void) gondyru_\w+\([^;]*;", header, re.MULTILINE)]


# The structs that cross, with their fields. A handle is a pointer and an allocator, which takes no bytes.
def structs_of_sources():
    text = sources("rtc_c_handle")
    for name, other in STRUCTS.items():
        body = re.search(r"#\[repr\(C\)\]\s*(?:#\[derive\([^)]*\)\]\s*)?pub struct " + name + r" \{(.*?)\n\}", text, re.DOTALL)[1]
        rows = re.findall(r"^\s*(?:pub )?(\w+): (\w+),", body, re.MULTILINE)
        yield other, ["void *place" if kind == "Handle" else f"{VALUES[kind]} {field}" for field, kind in rows]


def structs_of_header(header):
    for body, name in re.findall(r"typedef struct \{(.*?)\} (\w+);", header, re.DOTALL):
        yield name, [plain(it) for it in body.split(";") if it.strip()]


# The numbers of statuses, by their names.
def statuses_of_sources():
    text = read("crates/rtc_c_handle/src/status.rt")
    numbers = dict(re.findall(r"Status::(\w+) => (\d+),", text))
    names = dict(re.findall(r'Status::(\w+) => "(\w+)",', read("crates/rtc_c_handle/src/status_texts.rt").split("pub fn text")[0]))
    return {names[it].upper(): int(number) for it, number in numbers.items()}


def enums_of_header(header):
    return [dict((name, int(number)) for name, number in re.findall(r"GONDYRU_(\w+) = (\d+)", body)) for body in re.findall(r"enum \{(.*?)\}", header, re.DOTALL)]


# The numbers that the Python package has, which are those of the header.
def enums_of_python():
    text = read("python/gondyru/numbers.py")
    bodies = re.findall(r"^class \w+\(IntEnum\):\n(.*?)(?=^class |\Z)", text, re.MULTILINE | re.DOTALL)
    return [dict((name, int(number)) for name, number in re.findall(r"^    (\w+) = (\d+)$", body, re.MULTILINE)) for body in bodies]


def compare(what, one, other):
    if one == other:
        return True
    print(f"WRONG {what}:\n  {one}\n  {other}")
    return False


def main():
    if sys.argv[1:] not in ([], ["--check"]):
        sys.exit(__doc__)
    header = read("include/gondyru.h")
    bare = re.sub(r"/\*.*?\*/", "", header, flags=re.DOTALL)
    exports, declared = sorted(prototypes_of_exports()), sorted(prototypes_of_header(bare))
    right = [compare("prototypes", [it for it in exports if it not in declared], [it for it in declared if it not in exports])]
    structs = dict(structs_of_header(bare))
    right += [compare(name, fields, structs.get(name)) for name, fields in structs_of_sources()]
    enums = enums_of_header(bare)
    right.append(compare("statuses", statuses_of_sources(), enums[0]))
    right.append(compare("numbers of Python", enums_of_python(), enums))
    right.append(compare("exports", bool(exports), True))
    return 0 if all(right) else 1


if __name__ == "__main__":
    sys.exit(main())
