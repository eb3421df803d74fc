# include/lurmenize.h as a caller has to know it: how each struct lies in memory, and what each function takes and gives.
# It is read from the header itself, so that a wrong declaration there shows as a difference.

import ctypes
import struct
import sys
from collections import namedtuple
from pathlib import Path

sys.path.append(str(Path(__file__).resolve().parent.parent.parent / "tools"))

import c_header

NUMBERS = {"uint8_t": ctypes.c_uint8, "uint32_t": ctypes.c_uint32, "uint64_t": ctypes.c_uint64, "size_t": ctypes.c_size_t}
CODES = {1: "B", 4: "I", 8: "Q"}  # of module struct, by size in bytes

# What a function takes: `kind` is "number", "struct", "bytes" (read) or "buffer" (written to), and `layout` that of a struct.
# A struct of one number is a "number" with a layout.
Parameter = namedtuple("Parameter", "kind type layout")
Function = namedtuple("Function", "parameters result")


def numbers_in(kind, field=None):
    """The numbers of a type, in the order of declaration: the field that each is in, and its size in bytes."""
    if issubclass(kind, ctypes.Structure):
        for name, inner in kind._fields_:
            yield from numbers_in(inner, name)
    elif issubclass(kind, ctypes.Array):
        for _ in range(kind._length_):
            yield from numbers_in(kind._type_, field)
    else:
        yield field, ctypes.sizeof(kind)


class Layout:
    """A struct, or a number alone, and its numbers, which have no bytes between them."""

    def __init__(self, kind):
        self.kind, found = kind, list(numbers_in(kind))
        self.bits = [8 * size for _, size in found]  # of each number
        self.at = {}  # where the numbers of each field are
        for at, (field, _) in enumerate(found):
            self.at.setdefault(field, []).append(at)
        self.packer = struct.Struct("<" + "".join(CODES[size] for _, size in found))
        assert self.packer.size == ctypes.sizeof(kind), f"{kind.__name__} has padding"

    def pack(self, *numbers):
        return self.kind.from_buffer_copy(self.packer.pack(*numbers))

    def unpack(self, value):
        """The numbers of what a call gives, which for a number alone is that number."""
        return (value,) if isinstance(value, int) else self.packer.unpack(bytes(value))


def layout_types(source):
    """The types of C by name: the numbers, and the structs in the order of the header."""
    sizes = {define.name: int(define.value) for define in c_header.everything(source, c_header.defines) if define.value.isdigit()}
    types = dict(NUMBERS)
    for declared in c_header.everything(source, c_header.structs):
        fields = [(field.name, types[field.type] * sizes[field.count] if field.count else types[field.type]) for field in declared.fields]
        types[declared.name] = type(declared.name, (ctypes.Structure,), {"_fields_": fields})
    return types


def structs(source):
    """The structs by name, each as a layout."""
    return {name: Layout(kind) for name, kind in layout_types(source).items() if name not in NUMBERS}


def parameters(declared, layouts):
    """A pointer and the length after it are one parameter."""
    taken = iter(declared)
    for part in taken:
        if part.type.endswith("*"):
            assert next(taken).type == "size_t"
            yield Parameter("bytes" if part.type.startswith("const ") else "buffer", ctypes.c_void_p, None)
        elif part.type in NUMBERS:
            yield Parameter("number", NUMBERS[part.type], None)
        else:
            layout = layouts[part.type]
            yield Parameter("struct" if len(layout.bits) > 1 else "number", layout.kind, layout)


def functions(source, layouts):
    """The functions that the library has, by name without lurm_."""
    return {declared.name.removeprefix("lurm_"):
            Function(list(parameters(declared.parameters, layouts)), layouts.get(declared.result) or Layout(NUMBERS[declared.result]))
            for declared in c_header.exported(source)}


SOURCE = c_header.HEADER.read_text()
LAYOUTS = structs(SOURCE)
FUNCTIONS = functions(SOURCE, LAYOUTS)
