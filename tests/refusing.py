"""Starts a program so that one of its allocations is refused, for `tests/allocations`. It wants Linux on x86-64 and the right to trace.

The program runs as it was built. Before its first instruction its calls of `malloc` and `realloc` are led through a few instructions
that count them down, and the one at which the count gets to nothing returns no memory.
"""
import ctypes
import os
import signal
import struct

TRACE_ME, CONTINUE, GET_REGISTERS, SET_REGISTERS, DETACH, SET_OPTIONS = 0, 7, 12, 13, 17, 0x4200
STOP_AT_EXIT = 0x40
LOAD, DYNAMIC = 1, 2  # kinds of program headers
STRINGS, SYMBOLS, TABLE, TABLE_SIZE, PLT_SIZE, PLT = 5, 6, 7, 8, 2, 23  # entries of the dynamic section
SLOT_KINDS = (6, 7)  # relocations by which a function's address is put into a slot
BREAK = b"\xcc"
MAP_PAGE = b"\x0f\x05" + BREAK  # a system call, then a stop
COUNTER, REAL, CODE, CODE_SIZE = 0, 8, 64, 32  # places in the page: the count, the real functions, and the instructions before each
NAMES = ("malloc", "realloc")
NEVER = 1 << 62

libc = ctypes.CDLL(None, use_errno=True)
libc.ptrace.argtypes = [ctypes.c_long, ctypes.c_long, ctypes.c_void_p, ctypes.c_void_p]
libc.ptrace.restype = ctypes.c_long


class Registers(ctypes.Structure):
    _fields_ = [
        (name, ctypes.c_uint64)
        for name in (
            "r15 r14 r13 r12 rbp rbx r11 r10 r9 r8 rax rcx rdx rsi rdi orig_rax rip cs eflags rsp ss fs_base gs_base ds es fs gs".split()
        )
    ]


def trace(request, pid, data=None):
    if libc.ptrace(request, pid, None, data) < 0:
        raise OSError(ctypes.get_errno(), "the program can't be traced")


def slots(path):
    """Where the program keeps the addresses of these functions, and its entry, both from where it is loaded."""
    content = open(path, "rb").read()
    entry, headers = struct.unpack_from("<QQ", content, 24)
    size, count = struct.unpack_from("<HH", content, 54)
    parts = [struct.unpack_from("<IIQQQQ", content, headers + i * size) for i in range(count)]
    dynamic = next(part for part in parts if part[0] == DYNAMIC)
    entries = dict(struct.unpack_from("<QQ", content, dynamic[2] + at) for at in range(0, dynamic[5], 16))

    def place(address):
        return next(part[2] + address - part[3] for part in parts if part[0] == LOAD and part[3] <= address < part[3] + part[5])

    found = {}
    for table, length in ((PLT, PLT_SIZE), (TABLE, TABLE_SIZE)):
        for at in range(0, entries.get(length, 0), 24):
            slot, info, _ = struct.unpack_from("<QQq", content, place(entries[table]) + at)
            name = struct.unpack_from("<I", content, place(entries[SYMBOLS]) + (info >> 32) * 24)[0] + place(entries[STRINGS])
            word = content[name : content.index(b"\0", name)].decode()
            if info & 0xFFFFFFFF in SLOT_KINDS and word in NAMES:
                found[word] = slot
    return entry, found


def instructions(page, index):
    """Counts one down, and goes on to the real function unless nothing is left."""
    at = page + CODE + index * CODE_SIZE
    count = b"\xf0\x48\xff\x0d" + struct.pack("<i", page + COUNTER - (at + 8))
    real = b"\xff\x25" + struct.pack("<i", page + REAL + 8 * index - (at + 16))
    return count + b"\x74\x06" + real + b"\x31\xc0\xc3"  # jump past the next if zero; jump to the real one; answer 0


class Refusing:
    """The program, stopped before its first instruction, with its allocations counted; `go` lets it run."""

    def __init__(self, path, words, stdin, stdout, stderr):
        self.pid = os.fork()
        if self.pid == 0:
            for target, source in enumerate((stdin, stdout, stderr)):
                os.dup2(source, target)
            libc.ptrace(TRACE_ME, 0, None, None)
            os.execve(path, [path, *words], {**os.environ, "LD_BIND_NOW": "1"})
        self.stopped()
        self.memory = open(f"/proc/{self.pid}/mem", "r+b", buffering=0)
        entry, found = slots(path)
        with open(f"/proc/{self.pid}/maps") as maps:
            base = min(int(line.split("-")[0], 16) for line in maps if line.rstrip().endswith(os.path.realpath(path)))
        self.run_to(base + entry)
        self.page = self.map_page(base + entry)
        self.refuse(NEVER)
        for index, name in enumerate(NAMES):
            slot = base + found[name]
            self.write(self.page + REAL + 8 * index, self.read(slot, 8))
            self.write(self.page + CODE + CODE_SIZE * index, instructions(self.page, index))
            self.write(slot, struct.pack("<Q", self.page + CODE + CODE_SIZE * index))

    def read(self, address, count):
        return os.pread(self.memory.fileno(), count, address)

    def write(self, address, content):
        os.pwrite(self.memory.fileno(), content, address)

    def stopped(self):
        _, status = os.waitpid(self.pid, 0)
        if not os.WIFSTOPPED(status) or os.WSTOPSIG(status) != signal.SIGTRAP:
            raise OSError(f"the program didn't stop as it should: {status:#x}")

    def run_to(self, address):
        kept = self.read(address, 1)
        self.write(address, BREAK)
        trace(CONTINUE, self.pid)
        self.stopped()
        self.write(address, kept)
        registers = Registers()
        trace(GET_REGISTERS, self.pid, ctypes.byref(registers))
        registers.rip = address
        trace(SET_REGISTERS, self.pid, ctypes.byref(registers))

    def map_page(self, address):
        """A page that can be written and run."""
        kept = self.read(address, len(MAP_PAGE))
        self.write(address, MAP_PAGE)
        before, registers = Registers(), Registers()
        for it in (before, registers):
            trace(GET_REGISTERS, self.pid, ctypes.byref(it))
        registers.rax, registers.rdi, registers.rsi, registers.rdx = 9, 0, 4_096, 7
        registers.r10, registers.r8, registers.r9 = 0x22, (1 << 64) - 1, 0
        trace(SET_REGISTERS, self.pid, ctypes.byref(registers))
        trace(CONTINUE, self.pid)
        self.stopped()
        trace(GET_REGISTERS, self.pid, ctypes.byref(registers))
        self.write(address, kept)
        trace(SET_REGISTERS, self.pid, ctypes.byref(before))
        return registers.rax

    def refuse(self, nth):
        """From now on the nth allocation is refused, once."""
        self.write(self.page + COUNTER, struct.pack("<q", nth))

    def left(self):
        return struct.unpack("<q", self.read(self.page + COUNTER, 8))[0]

    def go(self):
        trace(DETACH, self.pid)

    def used(self):
        """Lets it run to its end, and tells how many allocations there were."""
        trace(SET_OPTIONS, self.pid, STOP_AT_EXIT)
        trace(CONTINUE, self.pid)
        self.stopped()
        used = NEVER - self.left()
        self.go()
        return used

    def ended(self, wait=True):
        """The status, or None where it runs on."""
        pid, status = os.waitpid(self.pid, 0 if wait else os.WNOHANG)
        return os.waitstatus_to_exitcode(status) if pid else None

    def close(self):
        self.memory.close()
