"""Random changes of inputs: of bytes, of lines and numbers of texts, of the fields of object files."""
import re
import struct

# Numbers at and beside the limits of fields, counts and addresses.
NUMBERS = (0, 1, 2, 3, 4, 7, 8, 15, 16, 17, 31, 32, 63, 64, 65, 127, 128, 255, 256, 257, 4095, 4096, 32767, 32768,
           65535, 65536, 999999, 1000000, 1000001, 16777215, 16777216, 0x7FFFFFFC, 0x7FFFFFFF, 0x80000000, 0x80000001,
           0x8000FFFC, 0x80FFFFFC, 0x80FFFFFF, 0x81000000, 0xFFFFFFFC, 0xFFFFFFFF, 0x100000000, 0xFFFFFFFFFFFFFFFF,
           0x10000000000000000, 10 ** 40)
BLANKS = (b" ", b"\t", b"\n", b"\r\n", b"\r", b"//", b"/*", b"*/", b"#", b'"')
BYTES = b'\0\1\t\n\r\x1b "#$%()*+,-./:;<=>\\_{|}\x7f\x80\xff09AZaz'


def place_in(random, data):
    return random.randrange(len(data) + 1)


def slice_of(random, data, most=64):
    start = place_in(random, data)
    return start, min(len(data), start + random.randrange(1, most + 1))


def with_byte(random, data, _):
    start = place_in(random, data)
    byte = random.choice(BYTES) if random.random() < .5 else random.randrange(256)
    return data[:start] + bytes([byte]) + data[start + random.randrange(2):]


def with_bit(random, data, _):
    if not data:
        return data
    at = random.randrange(len(data))
    return data[:at] + bytes([data[at] ^ 1 << random.randrange(8)]) + data[at + 1:]


def cut(random, data, _):
    return data[:place_in(random, data)]


def without_slice(random, data, _):
    start, end = slice_of(random, data)
    return data[:start] + data[end:]


def with_slice_again(random, data, _):
    start, end = slice_of(random, data)
    to = place_in(random, data)
    return data[:to] + data[start:end] * random.choice((1, 1, 2, 50)) + data[to:]


def with_slice_of_another(random, data, others):
    other = random.choice(others)
    start, end = slice_of(random, other, 400)
    to = place_in(random, data)
    return data[:to] + other[start:end] + data[to + random.choice((0, end - start)):]


def with_line_moved(random, data, _):
    lines = data.split(b"\n")
    line = lines.pop(random.randrange(len(lines)))
    for _ in range(random.choice((0, 1, 1, 2, 300))):
        lines.insert(random.randrange(len(lines) + 1), line)
    return b"\n".join(lines)


def with_number(random, data, _):
    """One number of a text, in the form that it has, is another one."""
    found = list(re.finditer(rb"(?:0x|\b)[0-9a-fA-F]*[0-9][0-9a-fA-F]*\b", data))
    if not found:
        return data
    old, number = random.choice(found), random.choice(NUMBERS)
    is_word = re.fullmatch(rb"[0-9a-fA-F]{8}", old.group())
    new = b"%08x" % number if is_word else b"0x%x" % number if old.group().startswith(b"0x") else b"%d" % number
    return data[:old.start()] + random.choice((b"", b"", b"", b"0", b"-")) + new + data[old.end():]


def with_blank(random, data, _):
    start = place_in(random, data)
    return data[:start] + random.choice(BLANKS) + data[start:]


ANY = (with_byte, with_byte, with_bit, cut, without_slice, with_slice_again, with_slice_of_another)
TEXTS = ANY + (with_line_moved, with_line_moved, with_number, with_number, with_number, with_blank)


def changed(random, data, others, changes):
    """Data after a few random changes."""
    for _ in range(random.choice((1, 1, 1, 2, 2, 3, 5, 9))):
        data = random.choice(changes)(random, data, others)
    return data


# Object files of either byte order, which their sixth byte says. The fields of each table: where a field begins in its
# entry, and how many bytes it has.
HEADER = [(at, 1) for at in range(16)] + [(16, 2), (18, 2)] + [(at, 4) for at in range(20, 40, 4)] \
    + [(at, 2) for at in range(40, 52, 2)]
SEGMENT = [(at, 4) for at in range(0, 32, 4)]
SECTION = [(at, 4) for at in range(0, 40, 4)]
SYMBOL = [(0, 4), (4, 4), (8, 4), (12, 1), (13, 1), (14, 2)]


def order_of(data):
    return "little" if data[5:6] == b"\1" else "big"


def number_at(data, at, size):
    return int.from_bytes(data[at:at + size].ljust(size, b"\0"), order_of(data))


def tables(data):
    """The tables that an object file declares: start, size of an entry, how many, and an entry's fields."""
    yield 0, 52, 1, HEADER
    yield number_at(data, 28, 4), 32, number_at(data, 44, 2), SEGMENT
    sections, count = number_at(data, 32, 4), number_at(data, 48, 2)
    yield sections, 40, count, SECTION
    for start in range(sections, sections + 40 * min(count, 64), 40):
        if number_at(data, start + 4, 4) == 2:
            yield number_at(data, start + 16, 4), 16, number_at(data, start + 20, 4) // 16, SYMBOL


def with_field(random, data, _):
    """One field of a table is another number: one at a limit, or one near the old number or the file's length."""
    start, step, count, fields = random.choice(list(tables(data)))
    at, size = random.choice(fields)
    at += start + step * random.randrange(min(count, 2000) or 1)
    if at + size > len(data):
        return data
    old = number_at(data, at, size)
    near = (old + 1, old - 1, 2 * old, len(data), len(data) - old, random.randrange(16))
    new = random.choice((random.choice(NUMBERS), *near))
    return data[:at] + (new % 256 ** size).to_bytes(size, order_of(data)) + data[at + size:]


def with_entry_again(random, data, _):
    """One entry of a table stands in the place of another."""
    start, step, count, _ = random.choice(list(tables(data))[1:])
    if not count:
        return data
    one, other = (start + step * random.randrange(min(count, 2000)) for _ in range(2))
    return (data[:other] + data[one:one + step] + data[other + step:])[:len(data)]


FILES = (with_field,) * 8 + (with_entry_again, with_byte, with_bit, cut, with_slice_of_another)


def object_file(random):
    """An object file of random segments, which now and then overlap or lie outside of what can be loaded."""
    count, data, headers = random.randrange(4), b"", b""
    encoding, sign = random.choice(((1, "<"), (2, ">")))
    for _ in range(count):
        kind = random.choice((1, 1, 1, 1, 0, 4, 0x70000003))
        piece = random.randbytes(4 * random.randrange(40))
        address = random.choice((0x80000000, 0x80000000 + 16 * random.randrange(4096), 0x80FFFF00, 0x81000000, 0))
        longer = random.choice((0, 0, 1, 5, 65536))
        headers += struct.pack(f"{sign}8I", kind, 52 + 32 * count + len(data), address, address, len(piece),
                               len(piece) + longer, 7, 4)
        data += piece
    fields = struct.pack(f"{sign}HHIIIIIHHHHHH", 2, 8, 1, 0x80000000, 52, 0, 0, 52, 32, count, 40, 0, 0)
    return (b"\x7fELF\1" + bytes([encoding]) + b"\1").ljust(16, b"\0") + fields + headers + data
