#!/usr/bin/env python3
"""Builds a program, or the library for C, without proving it: minutes in place of hours, to try things with.

    tools/unproved.py [--fast] CRATE OUT

It is no result: what counts is proved, and brokerd says in its version that it is not. `rt try` lowers the crate; what
a try adds is taken out (tools/pieces.py), and the toolchain's clang compiles the rest in pieces, side by side, at -O1. With
`--fast` it is one piece at -O3, as a proved program is built. Nothing is built where OUT was made of the same texts, and a
piece that is as it was isn't compiled anew.
"""
import argparse
import glob
import hashlib
import os
import shutil
import signal
import subprocess
import sys
import tempfile
import time
from concurrent.futures import ThreadPoolExecutor

import exports
import pieces

HERE = os.path.dirname(os.path.abspath(__file__))
TOP = os.path.dirname(HERE)
TARGET = "x86_64-unknown-linux-gnu"
COMPILED = (
    "-march=x86-64 -mllvm -no-trap-after-noreturn -ffunction-sections -fdata-sections -mllvm -trap-unreachable -mllvm -no-x86-call-frame-opt "
    "-mllvm -disable-machine-licm -mllvm -disable-postra-machine-licm -mllvm -sink-common-insts=false --no-default-config "
    "-no-canonical-prefixes -fintegrated-cc1 -fno-crash-diagnostics -Werror -c -x ir -Xclang -fmerge-functions -mllvm -mergefunc-use-aliases"
).split()
# The program that says in its version what it is proved with. Of another the name of what is built has to say that it isn't.
MARKED = "brokerd"
# How long a module's file has to stay as it is until it is taken for whole.
SECONDS_STILL = 1.0


class Failed(Exception):
    """Why nothing was built."""


def kit():
    """The folder of the toolchain that `rt` on the path belongs to."""
    found = shutil.which("rt")
    if not found:
        raise Failed("rt is not on the path: see tools/needs.sh")
    return os.path.dirname(os.path.dirname(os.path.realpath(found)))


def run(words, **how):
    """Runs a tool of the toolchain, which has to end well."""
    ran = subprocess.run(words, stdin=subprocess.DEVNULL, capture_output=True, text=True, errors="replace", **how)
    if ran.returncode:
        raise Failed(f"{os.path.basename(words[0])} failed:\n{(ran.stderr or ran.stdout)[-2000:]}")


# ---- what is read


def crates_below(name):
    """A crate and those of this repository that it stands on."""
    with open(f"{TOP}/crates.txt", encoding="utf-8") as it:
        rows = [line.partition(":")[::2] for line in it if ":" in line and not line.startswith("#")]
    needs = {name.split()[0]: below.split() for name, below in rows}
    found, todo = [], [name]
    while todo:
        crate = todo.pop()
        if crate in needs and crate not in found:
            found.append(crate)
            todo += needs[crate]
    return sorted(found)


def digest_of(crate, is_fast):
    """The digest of all that is read to build a crate."""
    paths = [f"{TOP}/crates.txt", f"{kit()}/KIT-ID", *glob.glob(f"{HERE}/*.py")]
    for below in crates_below(crate):
        paths += glob.glob(f"{TOP}/crates/{below}/src/**/*.rt", recursive=True)
    digest = hashlib.sha256(f"{kit()} {is_fast}".encode())
    for path in sorted(paths):
        with open(path, "rb") as it:
            text = it.read()
        digest.update(f"\n{path} {len(text)}\n".encode() + text)
    return digest.hexdigest()


# ---- lowering


def is_whole(path):
    """Whether a file has stayed as it is for a while."""
    try:
        size = os.path.getsize(path)
        time.sleep(SECONDS_STILL)
        return size > 1000 and size == os.path.getsize(path)
    except OSError:
        return False


def taken(rt, room):
    """The module that a try has lowered, as a file of its own; none where the try ended without one."""
    while rt.poll() is None:
        for path in glob.glob(f"{room}/tmp/**/module*.bc", recursive=True):
            if is_whole(path):
                return shutil.copy(path, f"{room}/lowered.bc")
        time.sleep(0.1)
    return None


def lowered(folder, room):
    """Has `rt try` lower a program, and ends the try before it runs anything."""
    os.mkdir(f"{room}/tmp")
    with open(f"{room}/said", "w+", encoding="utf-8", errors="replace") as said:
        how = {"stdin": subprocess.DEVNULL, "stdout": said, "stderr": said, "start_new_session": True}
        rt = subprocess.Popen(["rt", "try"], cwd=folder, env={**os.environ, "TMPDIR": f"{room}/tmp"}, **how)
        try:
            module = taken(rt, room)
        finally:
            if rt.poll() is None:
                os.killpg(rt.pid, signal.SIGTERM)
                rt.wait()
        if module is None:
            said.seek(0)
            raise Failed(f"rt try made no program:\n{said.read()[-4000:]}")
        return module


def module_of(bitcode, attributes):
    """Reads a lowered program as text."""
    words = [f"{kit()}/toolchain/bin/clang", "-x", "ir", bitcode, "-S", "-emit-llvm", "-O0", "-Xclang", "-disable-llvm-passes", "-o", "-"]
    with subprocess.Popen(words, stdin=subprocess.DEVNULL, stdout=subprocess.PIPE, text=True, encoding="utf-8") as clang:
        module = pieces.Module(clang.stdout, attributes)
    if clang.returncode:
        raise Failed("clang can't read what rt try has lowered")
    return module


def attributes(folders):
    """The inline attributes of the toolchain's functions, and of those of these crates."""
    found = pieces.attributes_of_toolchain(kit())
    for folder in folders:
        for name, words in pieces.attributes_of_crate(folder).items():
            found.setdefault(name, set()).update(words)
    return found


# ---- compiling


def compiled(module, kept, is_fast, placed):
    """Compiles a program in pieces, some side by side, or in one; gives the objects.

    What came of a piece is kept, by its text, for the next build, and what this build doesn't use goes."""
    cores = os.cpu_count() or 1
    clang = [f"{kit()}/toolchain/bin/clang", f"--target={TARGET}", f"--sysroot={kit()}/toolchain", *COMPILED, placed, "-O3" if is_fast else "-O1"]
    os.makedirs(kept, exist_ok=True)

    def compile_piece(lines):
        text = "".join(lines).encode()
        path = f"{kept}/{hashlib.sha256(' '.join(clang).encode() + text).hexdigest()}"
        if not os.path.exists(f"{path}.o"):
            with open(f"{path}.ll", "wb") as it:
                it.write(text)
            run([*clang, f"{path}.ll", "-o", f"{path}.part"])
            os.rename(f"{path}.part", f"{path}.o")
            os.remove(f"{path}.ll")
        return f"{path}.o"

    with ThreadPoolExecutor(cores) as pool:
        objects = list(pool.map(compile_piece, module.pieces(1 if is_fast else 3 * cores)))
    for path in set(glob.glob(f"{kept}/*")) - set(objects):
        os.remove(path)
    return objects


def build_program(crate, room, kept, is_fast):
    """Builds a program, and gives its path."""
    folders = [f"{TOP}/crates/{it}" for it in crates_below(crate)]
    module = module_of(lowered(f"{TOP}/crates/{crate}", room), attributes(folders))
    if crate == MARKED:
        module.mark()
    objects = compiled(module, kept, is_fast, "-fPIE")
    links = ["--target", TARGET, "--toolchain", f"{kit()}/toolchain", "-o", f"{room}/{crate}"]
    run([f"{kit()}/bin/rattle-link", *links, *objects, f"{kit()}/c/libos_c.a", f"{kit()}/c/liblibc_c.a"])
    return f"{room}/{crate}"


def build_library(crate, room, kept, is_fast):
    """Builds the archive for C, with the toolchain's archive of its C library in it, and gives its path."""
    program = exports.as_program(crate, TOP, f"{room}/top")
    folders = [f"{room}/top/crates/{it}" for it in [program, *crates_below(crate)]]
    module = module_of(lowered(f"{room}/top/crates/{program}", room), attributes(folders))
    exports.name_exports(module, program)
    archive = f"{room}/lib{crate}.a"
    objects = compiled(module, kept, is_fast, "-fPIC")
    script = "".join(f"addmod {it}\n" for it in objects)
    script = f"create {archive}\n{script}addlib {kit()}/c/liblibc_c.a\nsave\nend\n"
    ran = subprocess.run([f"{kit()}/toolchain/bin/llvm-ar", "-M"], input=script, capture_output=True, text=True)
    if ran.returncode:
        raise Failed(f"llvm-ar failed:\n{ran.stderr}")
    return archive


def build(crate, out, is_fast):
    """Builds a crate, where what it is made of has changed, and says so."""
    begin, stamp, digest = time.monotonic(), f"{out}.stamp", digest_of(crate, is_fast)
    if os.path.exists(out) and os.path.exists(stamp):
        with open(stamp, encoding="utf-8") as it:
            if it.read() == digest:
                print(f"{out} is as the sources are: unproved")
                return
    print(f"{out} is built, unproved. That takes some minutes ..", flush=True)
    is_library = os.path.exists(f"{TOP}/crates/{crate}/src/lib.rt")
    with tempfile.TemporaryDirectory(prefix="unproved-") as room:
        made = (build_library if is_library else build_program)(crate, room, f"{out}.pieces", is_fast)
        os.makedirs(os.path.dirname(os.path.abspath(out)), exist_ok=True)
        shutil.move(made, out)
    with open(stamp, "w", encoding="utf-8") as it:
        it.write(digest)
    worked = sum(os.times()[:4])
    print(f"{out} is built in {time.monotonic() - begin:.0f} seconds ({worked:.0f} of processor time), and it is unproved")


def main():
    parser = argparse.ArgumentParser(description="Builds a program or the library for C without proving it.")
    parser.add_argument("--fast", action="store_true", help="one piece at -O3, as a proved program is built")
    parser.add_argument("crate", metavar="CRATE")
    parser.add_argument("out", metavar="OUT")
    given = parser.parse_args()
    try:
        build(given.crate, given.out, given.fast)
    except (Failed, pieces.NoProgram) as error:
        print(f"nothing is built: {error}", file=sys.stderr)
        sys.exit(1)


if __name__ == "__main__":
    main()
