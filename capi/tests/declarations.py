#!/usr/bin/env python3
"""The header beside the sources of the exports.

    declarations.py HEADER SOURCE.. | cc -fsyntax-only -Icapi -xc -

writes C that declares each export again as its signature in the sources says, and each repr(C) struct with its fields, so that cc
finds a header that differs. What cc can't find is compared here: functions that only one of the two has, constants of both, and the
names and numbers of faults (of fault.rt, where that is among the sources).
"""
import re
import sys

# A struct of the sources is the one of the header, behind `vmbind_`, whose name its own ends with, in CamelCase: `ListedMapping` is
# vmbind_mapping. These are not.
OTHERS = {"Handle": "vm", "Operation": "op"}
NUMBERS = {"u8": "uint8_t", "u16": "uint16_t", "u32": "uint32_t", "u64": "uint64_t", "usize": "size_t", "*mut u8": "void *"}
wrong, declared = [], set()


def fail(what):
    wrong.append(what)
    print(what, file=sys.stderr)


def in_header(name):
    """The header's name for a struct of the sources, without `vmbind_`."""
    own = re.sub(r"(?<!^)([A-Z])", r"_\1", name).lower()
    ends = [it for it in declared if own == it or own.endswith("_" + it)]
    return OTHERS.get(name) or max(ends, key=len, default=own)


def c_type(it):
    it = re.sub(r"<[^>]*>", "", it.strip())
    return NUMBERS.get(it) or f"struct vmbind_{in_header(it)}"


def slice_of(it):
    """The pointer's type, of `&[T]`, `&'a [T]` or `&mut [T]`."""
    found = re.fullmatch(r"&(?:'\w+ )?(mut )?\[(.*)\]", it)
    return found and f"{'' if found[1] else 'const '}{c_type(found[2])} *"


def parameters(text):
    kinds = []
    for it in re.split(r",(?![^<]*>)", text):
        if ":" not in it:
            continue
        it = re.sub(r"\s+", " ", it.split(":", 1)[1].strip())
        if it == "Global":
            continue
        if slice_of(it):
            kinds += [slice_of(it), "size_t"]
        elif it.startswith("&mut "):
            kinds.append(c_type(it[5:]) + " *")
        elif it.startswith("&"):
            kinds.append("const " + c_type(re.sub(r"^&('\w+ )?", "", it)) + " *")
        else:
            kinds.append(c_type(it))
    return ", ".join(kinds)


def fields_of(text):
    """The fields of a struct, as C: declarations and names. What takes no bytes is left out."""
    rows = []
    for name, kind in re.findall(r"^\s*(?:pub(?:\(\w+\))? )?(\w+): ([^\n]+?),?$", text, re.M):
        array = re.fullmatch(r"\[(\w+); (\d+)\]", kind)
        if kind == "Global":
            continue
        if slice_of(kind):
            rows += [(f"{slice_of(kind)}{name};", name), (f"size_t {name[:-1]}_count;", name[:-1] + "_count")]
        elif array:
            rows.append((f"{c_type(array[1])} {name}[{array[2]}];", name))
        else:
            rows.append((f"{c_type(kind)} {name};", name))
    return rows


def bare(text):
    """Without comments, and without ghost fields and clauses in braces."""
    text = re.sub(r"//[^\n]*", "", text)
    return re.sub(r"^\s*(?:pub )?ghost [^\n]*$", "", text, flags=re.M)


def main():
    with open(sys.argv[1], encoding="utf-8") as file:
        header = re.sub(r"/\*.*?\*/", "", file.read(), flags=re.S)
    sources = {}
    for path in sys.argv[2:]:
        with open(path, encoding="utf-8") as file:
            sources[path] = file.read()
    text = bare("\n".join(it for path, it in sources.items() if not path.endswith("fault.rt")))
    print('#include "vmbind.h"')

    structs = re.findall(r"#\[repr\(C\)\]\s*(?:#\[[^\]]*\]\s*)*pub struct (\w+)(?:<[^>]*>)? \{(.*?)\n\}", text, re.S)
    declared.update(re.findall(r"^struct vmbind_(\w+) \{", header, re.M))
    made = [in_header(name) for name, _ in structs]
    for it in sorted(declared ^ set(made)):
        fail(f"struct vmbind_{it} stands only in the {'header' if it in declared else 'sources'}")
    for it in {it for it in made if made.count(it) > 1}:
        fail(f"two structs of the sources are struct vmbind_{it}")
    for name, fields in structs:
        it, shadow = f"struct vmbind_{in_header(name)}", f"struct shadow_{in_header(name)}"
        rows = fields_of(fields)
        print(shadow + " {\n" + "".join(f"  {row}\n" for row, _ in rows) + "};")
        print(f'_Static_assert(sizeof({it}) == sizeof({shadow}) && _Alignof({it}) == _Alignof({shadow}), "{name}");')
        for _, field in rows:
            print(f'_Static_assert(offsetof({it}, {field}) == offsetof({shadow}, {field}) && '
                  f'sizeof((({it} *)0)->{field}) == sizeof((({shadow} *)0)->{field}), "{name}.{field}");')
            print(f'_Static_assert(_Generic(&(({it} *)0)->{field}, __typeof__(&(({shadow} *)0)->{field}): 1, default: 0), '
                  f'"the type of {name}.{field}");')

    exports = re.findall(r"#\[unsafe\(no_mangle\)\]\s*pub extern \"C\" fn (\w+)(?:<[^>]*>)?\((.*?)\)(?: -> (\w+))?\s", text, re.S)
    functions = set(re.findall(r"^vmbind_status (vmbind_\w+)\(", header, re.M))
    for it in sorted(functions ^ {name for name, _, _ in exports}):
        fail(f"{it} stands only in the {'header' if it in functions else 'sources'}")
    for name, given, result in exports:
        print(f"{c_type(result) if result else 'void'} {name}({parameters(given)});")

    numbers = {name: int(it) for name, it in re.findall(r"\bVMBIND_(\w+) = (\d+)", header)}
    shared = [(name, int(it.replace("_", ""))) for name, it in re.findall(r"\bconst (\w+): u32 = ([\d_]+);", text) if name in numbers]
    for name, it in shared:
        if numbers[name] != it:
            fail(f"VMBIND_{name} is {numbers[name]}, and {it} in the sources")

    names = dict(re.findall(r'case VMBIND_(\w+): return "(\w+)";', header))
    for path, it in sources.items():
        if not path.endswith("fault.rt"):
            continue
        faults = dict(re.findall(r"Fault::(\w+)(?: \{ \.\. \})? => (\d+),", it))
        ours = {names[name]: number for name, number in numbers.items() if name in names and 0 < number < 64}
        for fault in sorted(set(faults) | set(ours)):
            if str(ours.get(fault)) != faults.get(fault):
                fail(f"{fault} is {ours.get(fault)} in the header, and {faults.get(fault)} in the sources")
    print(f"declarations: {len(exports)} exports, {len(structs)} structs, {len(shared)} constants, {len(wrong)} wrong", file=sys.stderr)
    if wrong or not exports:
        print("#error declarations that differ")
        sys.exit(1)


main()
