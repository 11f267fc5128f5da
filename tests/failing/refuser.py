"""A copy of a built program in which a chosen allocation is refused.

The programs of the kit take memory by two functions of its C code, `rattle_alloc` and `rattle_realloc`, each with one call of the C
library. In the copy these two calls go to a few instructions in a segment of its own, put in the place of the segment of notes, which is not
loaded. They count the calls. At the one that is chosen they write a byte to a pipe, so that the test knows that it was reached, and answer
null; at all others they go on to the C library. This is for the x86-64 ELF files that the kit links."""
import os
import shutil
import struct

NOTE, LOAD, READ_WRITE_RUN, PAGE = 4, 1, 7, 4096
CALLERS = ('rattle_alloc', 'rattle_realloc')


class Unknown(Exception):
    """A program that is not like those of the kit."""


class Elf:
    """What is needed of an ELF file of 64 bits: its sections, its symbols, and the headers of its segments."""

    def __init__(self, path):
        with open(path, 'rb') as file:
            self.bytes = bytearray(file.read())
        if self.bytes[:5] != b'\x7fELF\x02':
            raise Unknown(f'{path} is no ELF file of 64 bits')
        self.path = path
        self.segments_at, sections_at = struct.unpack_from('<QQ', self.bytes, 32)
        self.segment_count, size, count, names = struct.unpack_from('<HHHH', self.bytes, 56)
        headers = [struct.unpack_from('<IIQQQQIIQQ', self.bytes, sections_at + size * k) for k in range(count)]
        self.sections = {self.text(headers[names][4] + header[0]): header for header in headers}

    def text(self, at):
        return self.bytes[at : self.bytes.index(0, at)].decode()

    def section(self, name):
        """The address, the place in the file and the size of a section."""
        if name not in self.sections:
            raise Unknown(f'{self.path} has no section {name}')
        return self.sections[name][3:6]

    def symbol(self, name):
        """The address and the size of a function."""
        _, at, size = self.section('.symtab')
        _, names, _ = self.section('.strtab')
        for place in range(at, at + size, 24):
            name_at, _, _, _, value, length = struct.unpack_from('<IBBHQQ', self.bytes, place)
            if value and self.text(names + name_at) == name:
                return value, length
        raise Unknown(f'{self.path} has no function {name}')

    def call_in(self, name):
        """The one call of the C library in a function: where in the file its distance stands, the address behind it, what it calls."""
        address, length = self.symbol(name)
        text, text_at, _ = self.section('.text')
        plt, _, plt_size = self.section('.plt')
        found = []
        for behind in range(address + 5, address + length + 1):
            at = behind - text + text_at
            target = behind + struct.unpack_from('<i', self.bytes, at - 4)[0]
            if self.bytes[at - 5] == 0xE8 and plt <= target < plt + plt_size:
                found.append((at - 4, behind, target))
        if len(found) != 1:
            raise Unknown(f'{self.path}: {name} has {len(found)} calls of the C library')
        return found[0]

    def segments(self):
        """The headers of the segments, in order."""
        return [list(struct.unpack_from('<IIQQQQQQ', self.bytes, self.segments_at + 56 * k)) for k in range(self.segment_count)]

    def put_segments(self, segments):
        for number, segment in enumerate(segments):
            struct.pack_into('<IIQQQQQQ', self.bytes, self.segments_at + 56 * number, *segment)

    def new_segment(self):
        """Makes the segment of notes one of a page at the end, which may be written and run: its address and its place in the file."""
        segments = self.segments()
        notes = [segment for segment in segments if segment[0] == NOTE]
        if not notes:
            raise Unknown(f'{self.path} has no segment of notes')
        segments.remove(notes[0])
        pages = -(-max(segment[3] + segment[6] for segment in segments) // PAGE)
        address = (pages + 16) * PAGE
        self.bytes.extend(bytes(-len(self.bytes) % PAGE))
        at = len(self.bytes)
        self.bytes.extend(bytes(PAGE))
        self.put_segments([*segments, [LOAD, READ_WRITE_RUN, at, address, address, PAGE, PAGE, PAGE]])
        return address, at


class Refuser:
    """A copy of a program at a path, and the pipe that it writes to. The copy's segment begins with the count, the chosen number and the
    byte that is written, four bytes each."""

    def __init__(self, program, path):
        self.told, self.mark = os.pipe()
        os.set_blocking(self.told, False)
        elf = Elf(program)
        calls = [elf.call_in(name) for name in CALLERS]
        base, at = elf.new_segment()
        self.chosen = at + 4
        code = refusal(base, base + 16, self.mark)
        for place, behind, target in calls:
            start = base + 16 + len(code)
            code += count_call(base, start, base + 16, target)
            struct.pack_into('<i', elf.bytes, place, start - behind)
        elf.bytes[at + 16 : at + 16 + len(code)] = code
        with open(path, 'wb') as file:
            file.write(elf.bytes)
        shutil.copymode(program, path)
        self.path = path

    def refuse(self, number):
        """Chooses the call that is refused, counted from 1; none is by 0."""
        with open(self.path, 'r+b') as file:
            file.seek(self.chosen)
            file.write(struct.pack('<I', number))

    def close(self):
        os.close(self.told)
        os.close(self.mark)

    def has_refused(self):
        """Whether the chosen call came since this was asked last."""
        try:
            return os.read(self.told, 1) != b''
        except BlockingIOError:
            return False


def distance(to, behind):
    return struct.pack('<i', to - behind)


def refusal(base, start, mark):
    """Writes the byte to the pipe, and answers null."""
    code = b'\xb8\x01\0\0\0'  # mov eax, 1: the number of the system call `write`
    code += b'\xbf' + struct.pack('<I', mark)  # mov edi, mark
    code += b'\x48\x8d\x35' + distance(base + 8, start + len(code) + 7)  # lea rsi, [byte]
    code += b'\xba\x01\0\0\0\x0f\x05'  # mov edx, 1; syscall
    return code + b'\x31\xc0\xc3'  # xor eax, eax; ret


def count_call(base, start, refused, target):
    """Counts a call, and goes on to `refused` at the chosen one, else to the target."""
    code = b'\xff\x05' + distance(base, start + 6)  # inc [count]
    code += b'\x8b\x05' + distance(base, start + 12)  # mov eax, [count]
    code += b'\x3b\x05' + distance(base + 4, start + 18)  # cmp eax, [chosen]
    code += b'\x0f\x84' + distance(refused, start + 24)  # je refused
    return code + b'\xe9' + distance(target, start + 29)  # jmp target
