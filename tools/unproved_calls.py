#!/usr/bin/env python3
"""Prints the calls for C over functions that take a slice as a pointer to its pointer and length, as tools/unproved_library.sh makes them.

Usage: tools/unproved_calls.py include/arvumnao.h
The signatures are read off the header's declarations, which the compiler then compares."""
import re
import sys

header = re.sub(r"/\*.*?\*/", "", open(sys.argv[1]).read(), flags=re.S)
print('#include "arvumnao.h"\n\nstruct slice {\n    const void *start;\n    size_t count;\n};')
for name, parameters in re.findall(r"uint32_t arvumnao_(\w+)\(([^)]*)\);", header):
    parameters = [" ".join(one.split()) for one in parameters.split(",")]
    types, passed, slices = [], [], []
    for one in parameters:
        named = one.split()[-1]
        if named.startswith("*"):
            slices.append(named[1:])
            types.append("struct slice *")
            passed.append(f"&{named[1:]}_slice")
        elif not named.endswith("_count"):
            types.append(one[: -len(named)].strip())
            passed.append(named)
    print(f"\nuint32_t rattle_{name}({', '.join(types)});\n\nuint32_t arvumnao_{name}({', '.join(parameters)})\n{{")
    for one in slices:
        print(f"    struct slice {one}_slice = {{ {one}, {one}_count }};")
    print(f"    return rattle_{name}({', '.join(passed)});\n}}")
