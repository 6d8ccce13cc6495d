"""Kernels of the cases in cases/hsail_tools through the functions of hsa.h, with the memory that those cases have.

    tests/hsa_kernels.py LIBRARY text|brig FILE.case..

Each kernel goes in as a text, or as the module of BRIG that HSAILasm makes of it, through the finalizer. No policy is given, so that regions
lie where the cases have them. The last line is `N right, M wrong`."""
import ctypes as C
import os
import re
import struct
import subprocess
import sys
import tempfile

u64, u32, pointer = C.c_uint64, C.c_uint32, C.POINTER
SUCCESS, EXCEPTION, KERNEL_OBJECT, LARGE, LESS_THAN = 0, 0x1016, 22, 1, 2
WAIT = 60 * 10**9


class Handle(C.Structure):
    _fields_ = [("handle", u64)]


class Queue(C.Structure):
    _fields_ = [("type", u32), ("features", u32), ("base", u64), ("doorbell", Handle), ("size", u32), ("reserved", u32), ("id", u64)]


class Directives(C.Structure):
    _fields_ = [("bytes", u64 * 18)]


def bytes_of(spelled):
    """The bytes of a case's hexadecimal text, in which `<1..3 00>` is 000000."""
    return bytes.fromhex(re.sub(r"<(\d+)\.\.(\d+) (\w+)>", lambda it: it[3] * (int(it[2]) - int(it[1]) + 1), spelled))


class Case:
    """A kernel's run: what memory has before, the packet, and what it has after."""

    def __init__(self, name, folder, lines):
        self.name, self.before, self.after, self.packet, self.faults = name, {}, [], b"", False
        address = None
        for line in lines:
            words = line.split(None, 3)
            if line.startswith("with {KERNEL} => "):
                self.path = f"{folder}/{line[len('with {KERNEL} => {'):-1]}"
            elif line.startswith("with {ENTRY} => "):
                self.entry = words[3]
            elif line.startswith("> write alice "):
                at, data = words[3].split(None, 1)
                self.before[int(at, 16)] = bytes_of(data)
            elif line.startswith("> submit 1 1 "):
                self.packet = bytes_of(words[3].split(None, 1)[1])
            elif line.startswith("> read alice "):
                address = int(words[3].split()[0], 16)
            elif line.startswith("bytes ") and address is not None:
                self.after.append((address, bytes_of(line[6:])))
            elif line.startswith("faulted "):
                self.faults = True

    def size_of_region(self, region):
        """How many bytes the run uses of a region, from its beginning on."""
        ranges = [*self.before.items(), *self.after]
        return max([0, *((at & 0xFFFFFFFF) + len(data) for at, data in ranges if at >> 32 == region)])


def cases_of(path):
    with open(path, encoding="utf-8") as it:
        parts = re.split(r"^== ", it.read(), flags=re.M)[1:]
    for part in parts:
        case = Case(part.split(":", 1)[0].split("\n", 1)[0], os.path.dirname(path), part.split("\n"))
        if case.packet and case.after:
            yield case


class Runtime:
    """The library, by its functions."""

    def __init__(self, path):
        self.library, self.failed = C.CDLL(path), []
        self.library.hsa_queue_add_write_index_relaxed.restype = u64
        self.library.hsa_signal_wait_scacquire.restype = C.c_int64
        self.on_error = C.CFUNCTYPE(None, u32, pointer(Queue), C.c_void_p)(lambda status, queue, data: self.failed.append(status))
        self.agent = Handle(1)

    def must(self, name, *arguments):
        status = getattr(self.library, name)(*arguments)
        if status != SUCCESS:
            raise RuntimeError(f"{name}: {status:x}")

    def code_of_text(self, path):
        code = Handle()
        with open(path, "rb") as it:
            text = it.read()
        self.must("hsa_code_object_deserialize", C.c_char_p(text), C.c_size_t(len(text)), None, C.byref(code))
        return code

    def code_of_brig(self, path):
        program, isa, code = Handle(), Handle(), Handle()
        with tempfile.TemporaryDirectory() as work:
            made = f"{work}/kernel.brig"
            subprocess.run(["HSAILasm", "-assemble", path, "-o", made], check=True, capture_output=True)
            with open(made, "rb") as it:
                module = C.create_string_buffer(it.read())
        self.must("hsa_ext_program_create", LARGE, 0, 0, None, C.byref(program))
        self.must("hsa_ext_program_add_module", program, module)
        self.must("hsa_isa_from_name", b"hsail-1.0-base-large", C.byref(isa))
        self.must("hsa_ext_program_finalize", program, isa, 0, Directives(), None, 0, C.byref(code))
        self.must("hsa_ext_program_destroy", program)
        return code

    def kernel(self, code, entry):
        executable, symbol, kernel = Handle(), Handle(), u64()
        self.must("hsa_executable_create", 0, 0, None, C.byref(executable))
        self.must("hsa_executable_load_code_object", executable, self.agent, code, None)
        self.must("hsa_executable_freeze", executable, None)
        self.must("hsa_executable_get_symbol_by_name", executable, entry.encode(), None, C.byref(symbol))
        self.must("hsa_executable_symbol_get_info", symbol, KERNEL_OBJECT, C.byref(kernel))
        self.must("hsa_code_object_destroy", code)
        self.must("hsa_executable_destroy", executable)
        return kernel.value

    def memory(self, case):
        """Blocks from the beginning of each region that the run uses."""
        blocks = []
        for region in {at >> 32 for at, _ in [*case.before.items(), *case.after]}:
            block = C.c_void_p()
            size = case.size_of_region(region)
            self.must("hsa_memory_allocate", Handle(region), C.c_size_t(size), C.byref(block))
            if block.value != region << 32:
                raise RuntimeError(f"memory at {block.value:x}")
            C.memset(block, 0, size)
            blocks.append(block)
        for at, data in case.before.items():
            C.memmove(at, data, len(data))
        return blocks

    def run(self, case, code):
        """What is wrong with a run, or none."""
        self.failed.clear()
        kernel, queue, done = self.kernel(code, case.entry), pointer(Queue)(), Handle()
        self.must("hsa_queue_create", self.agent, 16, 0, self.on_error, None, 0, 0, C.byref(queue))
        self.must("hsa_signal_create", C.c_int64(1), 0, None, C.byref(done))
        blocks = self.memory(case)
        packet = bytearray(case.packet)
        struct.pack_into("<Q", packet, 32, kernel)
        struct.pack_into("<Q", packet, 56, done.handle)
        index = self.library.hsa_queue_add_write_index_relaxed(queue, u64(1))
        slot = queue.contents.base + 64 * (index % 16)
        C.memmove(slot + 4, bytes(packet[4:]), 60)
        C.memmove(slot, bytes(packet[:4]), 4)
        self.library.hsa_signal_store_screlease(queue.contents.doorbell, C.c_int64(index))
        value = self.library.hsa_signal_wait_scacquire(done, LESS_THAN, C.c_int64(1), u64(10**9 if case.faults else WAIT), 0)
        wrong = None if (value, self.failed) == ((1, [EXCEPTION]) if case.faults else (0, [])) else f"signal {value}, errors {self.failed}"
        for at, data in case.after:
            came = C.string_at(at, len(data))
            if came != data:
                wrong = wrong or f"memory at {at:x}: {came[:32].hex()} .., not {data[:32].hex()} .."
        for block in blocks:
            self.must("hsa_memory_free", block)
        self.must("hsa_signal_destroy", done)
        self.must("hsa_queue_destroy", queue)
        return wrong


def session(runtime, way, cases):
    """A broker has 64 kernels at most: each session has fewer."""
    right = 0
    runtime.must("hsa_init")
    for case in cases:
        code = runtime.code_of_text(case.path) if way == "text" else runtime.code_of_brig(case.path)
        wrong = runtime.run(case, code)
        right += not wrong
        if wrong:
            print(f"{case.name}: {wrong}", flush=True)
    runtime.must("hsa_shut_down")
    return right


def main(library, way, *paths):
    cases = [case for path in paths for case in cases_of(path)]
    runtime = Runtime(library)
    right = sum(session(runtime, way, cases[at:at + 60]) for at in range(0, len(cases), 60))
    print(f"{right} right, {len(cases) - right} wrong")
    sys.exit(right != len(cases))


if __name__ == "__main__":
    main(*sys.argv[1:])
