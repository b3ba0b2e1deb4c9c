#!/usr/bin/env python3
"""lower.py IN OUT: makes of a WebAssembly module with 64-bit memory one with 32-bit memory, for hosts that have no other.

Values stay 64 bits wide. Only an address is cut to 32 bits, just before an instruction takes it, and so are indices into the table. The code
is the same otherwise, and its memory ends at 4 GiB. A form of the binary format that compilers do not write for this engine is an error.
"""
import sys

I32, I64, F32, F64 = 0x7F, 0x7E, 0x7D, 0x7C
WRAP, EXTEND_SIGNED, EXTEND_UNSIGNED = b"\xa7", b"\xac", b"\xad"
GET, SET = b"\x20", b"\x21"
I32_CONST, I64_CONST, END = 0x41, 0x42, 0x0B
TYPES, IMPORTS, FUNCTIONS, TABLES, MEMORIES, ELEMENTS, CODE, DATA = 1, 2, 3, 4, 5, 9, 10, 11
MOST_PAGES = 65536
MEMORY_IS_64_BITS = 4

# Instructions by what follows their first byte: nothing, one number, or so many bytes.
ALONE = {0x00, 0x01, 0x05, 0x0B, 0x0F, 0x1A, 0x1B, *range(0x45, 0xC5)}
WITH_NUMBER = {0x02, 0x03, 0x04, 0x0C, 0x0D, 0x10, 0x20, 0x21, 0x22, 0x23, 0x24, I32_CONST, I64_CONST}
WITH_BYTES = {0x43: 4, 0x44: 8}
BRANCH_TABLE, CALL_INDIRECT, MEMORY_SIZE, MEMORY_GROW, EXTENDED = 0x0E, 0x11, 0x3F, 0x40, 0xFC
LOADS = range(0x28, 0x36)
# Instructions that put one value on the stack, and take none.
PUSHES = {0x20, 0x23, I32_CONST, I64_CONST, *WITH_BYTES}
# Stores by the type of the value, which lies over the address.
STORES = {0x36: I32, 0x37: I64, 0x38: F32, 0x39: F64, 0x3A: I32, 0x3B: I32, 0x3C: I64, 0x3D: I64, 0x3E: I64}
SATURATING, MEMORY_COPY, MEMORY_FILL = range(8), 10, 11


class Reader:
    """Bytes that are read from the front."""

    def __init__(self, data):
        self.data, self.at = data, 0

    def is_done(self):
        return self.at == len(self.data)

    def take(self, count):
        self.at += count
        return self.data[self.at - count : self.at]

    def byte(self):
        return self.take(1)[0]

    def number_as_written(self):
        start = self.at
        while self.byte() > 127:
            pass
        return self.data[start : self.at]

    def number(self):
        return sum((byte & 127) << 7 * place for place, byte in enumerate(self.number_as_written()))

    def rest(self):
        return self.take(len(self.data) - self.at)


def number(value):
    """An unsigned number as the format writes it."""
    written = bytearray()
    while value > 127:
        written.append(value & 127 | 128)
        value >>= 7
    return bytes(written) + bytes([value])


def signed(value):
    """A number that is no less than 0, as the format writes signed ones."""
    written = bytearray()
    while value > 63:
        written.append(value & 127 | 128)
        value >>= 7
    return bytes(written) + bytes([value])


def many(items):
    """A list as the format writes it."""
    return number(len(items)) + b"".join(items)


def sized(data):
    return number(len(data)) + data


class Temporaries:
    """The local variables that a function has beside its own, made as they are wanted."""

    def __init__(self, count):
        self.count, self.types, self.places = count, [], {}

    def local(self, kind, which=0):
        if (kind, which) not in self.places:
            self.places[kind, which] = number(self.count + len(self.types))
            self.types.append(kind)
        return self.places[kind, which]


def memory_argument(code):
    """Alignment and offset. An offset past 32 bits reaches no memory, and neither does the last of 32 bits, so both trap."""
    return code.number_as_written() + number(min(code.number(), 0xFFFFFFFF))


def cut_under(kind, temporaries):
    """Cuts the address that lies under a value of this type."""
    value = temporaries.local(kind)
    return SET + value + WRAP + GET + value


def extended(code, temporaries):
    """An instruction of the second table, and what goes in front of it."""
    form = code.number()
    if form in SATURATING:
        return b"", number(form)
    if form == MEMORY_COPY:
        count, source = temporaries.local(I64), temporaries.local(I64, 1)
        before = SET + count + SET + source + WRAP + GET + source + WRAP + GET + count + WRAP
        return before, number(form) + code.take(2)
    if form == MEMORY_FILL:
        count, value = temporaries.local(I64), temporaries.local(I32)
        return SET + count + SET + value + WRAP + GET + value + GET + count + WRAP, number(form) + code.take(1)
    sys.exit(f"lower.py: the instruction {EXTENDED:#x} {form} is not known")


def cut_before_value(kind, temporaries, instructions):
    """Cuts the address of a store: in front of the instruction that puts the value over it, where one does; or under the value."""
    if instructions and instructions[-1][0] in PUSHES:
        instructions.insert(-1, WRAP)
        return b""
    return cut_under(kind, temporaries)


def lowered(code, temporaries, instructions):
    """The next instruction, with the cuts that it wants. Those in front of it are at hand."""
    form = code.byte()
    before = after = behind = b""
    if form in WITH_NUMBER:
        behind = code.number_as_written()
    elif form in WITH_BYTES:
        behind = code.take(WITH_BYTES[form])
    elif form == BRANCH_TABLE:
        count = code.number()
        behind = number(count) + b"".join(code.number_as_written() for _ in range(count + 1))
    elif form == CALL_INDIRECT:
        before, behind = WRAP, code.number_as_written() + code.number_as_written()
    elif form in LOADS:
        before, behind = WRAP, memory_argument(code)
    elif form in STORES:
        before, behind = cut_before_value(STORES[form], temporaries, instructions), memory_argument(code)
    elif form == MEMORY_SIZE:
        behind, after = code.take(1), EXTEND_UNSIGNED
    elif form == MEMORY_GROW:
        before, behind, after = WRAP, code.take(1), EXTEND_SIGNED
    elif form == EXTENDED:
        before, behind = extended(code, temporaries)
    elif form not in ALONE:
        sys.exit(f"lower.py: the instruction {form:#x} is not known")
    return before + bytes([form]) + behind + after


def function_body(data, parameters):
    code = Reader(data)
    groups, count = [], parameters
    for _ in range(code.number()):
        locals_here = code.number()
        groups.append(number(locals_here) + code.take(1))
        count += locals_here
    temporaries = Temporaries(count)
    instructions = []
    while not code.is_done():
        instructions.append(lowered(code, temporaries, instructions))
    groups += [number(1) + bytes([kind]) for kind in temporaries.types]
    return sized(many(groups) + b"".join(instructions))


def limits(section):
    """The limits of a memory or a table, which are of 32 bits then."""
    flags = section.number()
    written = number(flags & ~MEMORY_IS_64_BITS) + number(section.number())
    return written + (number(min(section.number(), MOST_PAGES)) if flags & 1 else b"")


def offset(section):
    """Where a segment begins."""
    if section.byte() != I64_CONST:
        sys.exit("lower.py: a segment begins at no constant")
    place = Reader(section.number_as_written())
    is_negative, place = place.data[-1] & 64, place.number()
    if is_negative or place >> 31 or section.byte() != END:
        sys.exit("lower.py: a segment begins at no small constant")
    return bytes([I32_CONST]) + signed(place) + bytes([END])


def begins_at_constant(section):
    if section.number() != 0:
        sys.exit("lower.py: a segment of a kind that is not known")
    return number(0) + offset(section)


def element_segment(section):
    head = begins_at_constant(section)
    return head + many([section.number_as_written() for _ in range(section.number())])


def data_segment(section):
    return begins_at_constant(section) + sized(section.take(section.number()))


def parameters_of_type(section):
    section.take(1)
    parameters = section.number()
    section.take(parameters)
    section.take(section.number())
    return parameters


def each(section, read):
    return [read(section) for _ in range(section.number())]


def lowered_section(kind, data, parameters):
    """A section of the module. `parameters` tells those of each type, and then of each function."""
    section = Reader(data)
    if kind == IMPORTS:
        sys.exit("lower.py: the module has imports, and this engine wants none")
    if kind == TYPES:
        parameters["types"] = each(section, parameters_of_type)
    elif kind == FUNCTIONS:
        parameters["functions"] = [parameters["types"][place] for place in each(section, Reader.number)]
    elif kind == TABLES:
        return many(each(section, lambda it: it.take(1) + limits(it)))
    elif kind == MEMORIES:
        return many(each(section, limits))
    elif kind == ELEMENTS:
        return many(each(section, element_segment))
    elif kind == DATA:
        return many(each(section, data_segment))
    elif kind == CODE:
        bodies = each(section, lambda it: it.take(it.number()))
        return many([function_body(*body) for body in zip(bodies, parameters["functions"])])
    return data


def main(source, target):
    with open(source, "rb") as module:
        module = Reader(module.read())
    written, parameters = [module.take(8)], {}
    while not module.is_done():
        kind = module.byte()
        section = module.take(module.number())
        written.append(bytes([kind]) + sized(lowered_section(kind, section, parameters)))
    with open(target, "wb") as out:
        out.write(b"".join(written))


if __name__ == "__main__":
    if len(sys.argv) != 3:
        sys.exit("usage: lower.py IN OUT")
    main(*sys.argv[1:])
