# The archive, linked into a shared object and called by way of ctypes. Each lent buffer lies before a page that can't be
# touched, or between guard bytes, so that no byte outside it is read or written without notice.

import ctypes
import mmap
import subprocess

from capi import FILL
from header import FUNCTIONS

LANE = 2 ** 18  # bytes, more than the longest alias table
GUARD = b"\x5c" * 64
PROT_NONE = 0


class Fault(Exception):
    """A call that changed what it may not change."""


class CantLink(Exception):
    """What the linker said."""


def linked(archive, folder):
    """The archive as a shared object in the folder."""
    shared = folder / "lurmenize.so"
    command = ["gcc", "-shared", "-Wl,-Bsymbolic", "-Wl,-z,noexecstack", "-Wl,-z,text", "-o", shared,
               "-Wl,--whole-archive", archive, "-Wl,--no-whole-archive"]
    try:
        done = subprocess.run(command, capture_output=True, text=True)
    except FileNotFoundError as error:
        raise CantLink(str(error)) from None
    if done.returncode != 0:
        raise CantLink(done.stderr)
    return shared


class Lane:
    """Memory for one lent buffer, with a page after it that can't be touched."""

    def __init__(self):
        self.memory = mmap.mmap(-1, LANE + mmap.PAGESIZE)
        self.address = ctypes.addressof(ctypes.c_char.from_buffer(self.memory))
        protect = ctypes.CDLL(None, use_errno=True).mprotect
        if protect(ctypes.c_void_p(self.address + LANE), ctypes.c_size_t(mmap.PAGESIZE), PROT_NONE) != 0:
            raise OSError(ctypes.get_errno(), "mprotect")

    def lend(self, data, guarded):
        """Puts the bytes right before that page, or guard bytes between, and gives their address."""
        tail = GUARD if guarded else b""
        self.end = LANE - len(tail)
        self.start = self.end - len(data)
        self.around = self.start - len(GUARD), self.end + len(tail)
        self.memory[self.around[0]:self.around[1]] = GUARD + data + tail
        return self.address + self.start

    def data(self):
        """The bytes that were lent, as they are now."""
        before, after = self.around
        if (self.memory[before:self.start], self.memory[self.end:after]) != (GUARD, GUARD[:after - self.end]):
            raise Fault("bytes outside a lent buffer were changed")
        return self.memory[self.start:self.end]


class Library:
    def __init__(self, path):
        self.lanes = [Lane(), Lane()]
        self.handle = ctypes.CDLL(str(path))
        self.calls = {name: self.declared(name) for name in FUNCTIONS}

    def declared(self, name):
        call = getattr(self.handle, f"lurm_{name}")
        call.restype = FUNCTIONS[name].result.kind
        call.argtypes = [kind for parameter in FUNCTIONS[name].parameters
                         for kind in ([parameter.type] if parameter.type != ctypes.c_void_p
                                      else [ctypes.c_void_p, ctypes.c_size_t])]
        return call

    def answer(self, name, arguments, guarded=False):
        """The numbers that are handed back and the buffer, as capi.answer has them. What lies after a lent buffer, which
        must not matter, is guard bytes or the page that can't be touched."""
        free, lent, passed = iter(self.lanes), [], []
        for parameter, given in zip(FUNCTIONS[name].parameters, arguments, strict=True):
            if parameter.kind == "struct":
                passed.append(parameter.layout.pack(*given))
            elif parameter.kind == "number":
                passed.append(parameter.layout.pack(given) if parameter.layout else given)
            else:
                data = given if parameter.kind == "bytes" else FILL * given
                lane = next(free)
                lent.append((parameter.kind, lane, data))
                passed += [lane.lend(data, guarded), len(data)]
        numbers = FUNCTIONS[name].result.unpack(self.calls[name](*passed))
        return numbers, written(lent)


def written(lent):
    """The buffer after a call, or None where none was lent; what is only read has to be as it was."""
    buffer = None
    for kind, lane, before in lent:
        now = lane.data()
        if kind == "buffer":
            buffer = now
        elif now != before:
            raise Fault("bytes that are only to be read were changed")
    return buffer
