"""Runs code on the processors with which a machine is compared, in a process that stops after each instruction. One is the x86-64 processor
of this computer (by ptrace). The others are emulated by qemu (by gdb's remote protocol)."""
import ctypes
import os
import shutil
import signal
import socket
import struct
import subprocess
import tempfile
import time

from machines.aarch64 import Aarch64
from machines.riscv import Riscv32, Riscv64
from machines.x86_64 import X86_64, Windows
from symbols.bits import Unproved


class Beside:
    """A processor beside a machine. A subclass defines:

        names     the general registers, the address of the "next" instruction, the word that has the "flags", and others
        layout    how these lie in the bytes of `raw` and `put_raw`
        flags     the numbers of bits of that word, by their names"""

    def registers(self):
        """Gives the values of the registers in `names`, and of the flags."""
        values = dict(zip(self.names, struct.unpack(self.layout, self.raw())))
        return {**values, **{f: values["flags"] >> bit & 1 for f, bit in self.flags.items()}}

    def put_registers(self, some):
        """Sets some of these."""
        put = {**self.registers(), **some}
        for f, bit in self.flags.items():
            put["flags"] = put["flags"] & ~(1 << bit) | put[f] << bit
        self.put_raw(struct.pack(self.layout, *[put[r] for r in self.names]))


libc = ctypes.CDLL(None, use_errno=True)
libc.ptrace.restype, libc.ptrace.argtypes = ctypes.c_long, [ctypes.c_long, ctypes.c_long, ctypes.c_void_p, ctypes.c_void_p]
TRACEME = 0
SINGLESTEP = 9
GETREGS = 12
SETREGS = 13
GETREGSET = 0x4204
SETREGSET = 0x4205
XSTATE = 0x202


class Processor(Beside):
    """The x86-64 processor of this computer."""
    names = "r15 r14 r13 r12 rbp rbx r11 r10 r9 r8 rax rcx rdx rsi rdi orig_rax next cs flags rsp ss fs gs ds es fs_base gs_base".split()
    layout, flags = "<27Q", {"c": 0, "z": 6, "s": 7, "o": 11}
    low, high = 160, 576  # where an area of XSAVE has the lower and the upper halves of vector registers
    state, all = 512, 6   # where the area says which halves it has, and the bits for both

    @staticmethod
    def missing():
        """Gives what is missing here to run it."""
        return [] if "avx2" in open("/proc/cpuinfo").read() else ["AVX2"]

    def __init__(self, path):
        # The area of XSAVE can only be written as a whole. No processor needs as much as this, not even with AMX. Reading the area puts its
        # size into the second word of `vector`.
        self.area = ctypes.create_string_buffer(1 << 16)
        self.vector = (ctypes.c_void_p * 2)(ctypes.addressof(self.area), len(self.area))
        self.pid = os.fork()
        if self.pid == 0:
            libc.ptrace(TRACEME, 0, None, None)
            os.execv(path, [path])
        os.waitpid(self.pid, 0)
        self.memory = os.open("/proc/%d/mem" % self.pid, os.O_RDWR)

    def ptrace(self, request, address=None, data=None):
        if libc.ptrace(request, self.pid, address, data) < 0:
            raise OSError(ctypes.get_errno(), "ptrace")

    def write(self, address, content):
        os.pwrite(self.memory, content, address)

    def read(self, address, size):
        return os.pread(self.memory, size, address)

    def raw(self):
        buffer = ctypes.create_string_buffer(8 * len(self.names))
        self.ptrace(GETREGS, None, buffer)
        return buffer.raw

    def put_raw(self, raw):
        self.ptrace(SETREGS, None, raw)

    def vectors(self, numbers):
        """Gives all vector registers, as they are read at once."""
        self.ptrace(GETREGSET, XSTATE, ctypes.addressof(self.vector))
        low, high = self.area[self.low:self.low + 256], self.area[self.high:self.high + 256]
        return {n // 16: low[n:n + 16] + high[n:n + 16] for n in range(0, 256, 16)}

    def put_vectors(self, vectors):
        self.vectors(())  # so that the other registers keep their values
        for n, b in vectors.items():
            for start, half in (self.low, b[:16]), (self.high, b[16:]):
                self.area[start + 16 * n:start + 16 * n + 16] = half
        self.area[self.state] = self.area[self.state][0] | self.all
        self.ptrace(SETREGSET, XSTATE, ctypes.addressof(self.vector))

    def step(self, name, address, called):
        """Runs one instruction, or libc's function up to this address."""
        while True:
            self.ptrace(SINGLESTEP)
            _, status = os.waitpid(self.pid, 0)
            if not os.WIFSTOPPED(status) or os.WSTOPSIG(status) != signal.SIGTRAP:
                raise Unproved("on the processor it stops with status %x" % status)
            if not called or self.registers()["next"] == address:
                return True

    def close(self):
        os.close(self.memory)
        os.kill(self.pid, signal.SIGKILL)
        os.waitpid(self.pid, 0)


class Emulator(Beside):
    """A processor that qemu emulates: by default one of 64-bit ARM."""
    qemu, processor = "qemu-aarch64", "cortex-a57"
    names, first_vector = Aarch64.registers + ["next", "flags"], 34  # first_vector: the protocol's number of the first vector register
    layout, flags = "<33QI", {"s": 31, "z": 30, "c": 29, "o": 28}
    packet_size = 1024  # bytes of memory

    @classmethod
    def missing(cls):
        return [] if shutil.which(cls.qemu) else [cls.qemu + " (Debian's qemu-user)"]

    def __init__(self, path):
        self.folder = tempfile.TemporaryDirectory()
        name = os.path.join(self.folder.name, "gdb")
        self.process = subprocess.Popen([self.qemu, "-cpu", self.processor, "-g", name, path])
        self.socket = socket.socket(socket.AF_UNIX)
        while self.socket.connect_ex(name):
            if self.process.poll() is not None:
                raise Unproved(self.qemu + " doesn't start")
            time.sleep(0.01)
        self.ask("qXfer:features:read:target.xml:0,fff")  # without this it doesn't give single registers

    def ask(self, text):
        """Sends a packet, and gives the answer. A packet ends in # and two digits, and + acknowledges the one before."""
        text, received = text.encode(), b""
        self.socket.sendall(b"+$%s#%02x" % (text, sum(text) & 255))
        while b"#" not in received[:-2]:
            more = self.socket.recv(65536)
            if not more:
                raise Unproved("the emulator has ended")
            received += more
        return received[:-3].partition(b"$")[2].decode()

    def tell(self, text, answer="OK"):
        """Sends a packet whose answer has to begin with this one."""
        received = self.ask(text)
        if not received.startswith(answer):
            raise Unproved("the emulator answers %s to %s" % (received, text[:20]))

    def write(self, address, content):
        for k in range(0, len(content), self.packet_size):
            part = content[k:k + self.packet_size]
            self.tell("M%x,%x:%s" % (address + k, len(part), part.hex()))

    def read(self, address, size):
        parts = [self.ask("m%x,%x" % (address + k, min(self.packet_size, size - k))) for k in range(0, size, self.packet_size)]
        return bytes.fromhex("".join(parts))

    def raw(self):
        return bytes.fromhex(self.ask("g"))

    def put_raw(self, raw):
        self.tell("G" + raw.hex())

    def vectors(self, numbers):
        return {n: bytes.fromhex(self.ask("p%x" % (self.first_vector + n))) for n in numbers}

    def put_vectors(self, vectors):
        for n, b in vectors.items():
            self.tell("P%x=%s" % (self.first_vector + n, b.hex()))

    def step(self, name, address, called):
        """Runs one instruction, or libc's function up to this address. Gives False if nothing ran. A stop would end the exclusive access
        of `ldaxr`, so the instructions from it to `stlxr` are one step."""
        if called or name == "stlxr":
            self.tell("Z0,%x,4" % address)
            self.tell("c", "T05")
            self.tell("z0,%x,4" % address)
        elif name != "ldaxr":
            self.tell("s", "T05")
        return name != "ldaxr"

    def close(self):
        self.process.kill()
        self.process.wait()
        self.socket.close()
        self.folder.cleanup()


class EmulatedRiscv64(Emulator):
    qemu = "qemu-riscv64"
    processor = "rv64"
    names = Riscv64.registers + ["next"]
    layout = "<33Q"
    flags = {}


class EmulatedRiscv32(Emulator):
    qemu = "qemu-riscv32"
    processor = "rv32"
    names = Riscv32.registers + ["next"]
    layout = "<33I"
    flags = {}


PROCESSORS = {X86_64: Processor, Windows: Processor, Aarch64: Emulator, Riscv32: EmulatedRiscv32, Riscv64: EmulatedRiscv64}
# The machine that defines the instructions of each.
MEANINGS = {machine: X86_64 if machine is Windows else machine for machine in PROCESSORS}
