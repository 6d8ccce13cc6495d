"""Has a library for C lowered as a program that names each of its functions, since `rt try` lowers programs alone."""
import glob
import os
import re
import shutil

FUNCTION = re.compile(r'pub extern "C" fn (\w+)\((.*?)\) -> \w+', re.DOTALL)
MAIN = '''
use std::alloc::Global;
use std::env;
use std::process::ExitCode;

fn any<T>() -> T {
    loop {}
}

fn all(alloc: Global) {
%s
}

fn words(rt: &HostRuntime) -> Option<Vec<String>> {
    env::args(rt).ok()?.collect(rt.alloc()).ok()
}

fn many(rt: &HostRuntime) -> bool {
    match words(rt) {
        Some(list) => list.len() > 50,
        None => false,
    }
}

fn main(rt: HostRuntime) -> ExitCode {
    if many(&rt) {
        all(rt.alloc());
    }
    ExitCode::from(0u8)
}
'''


def text_of(path):
    with open(path, encoding="utf-8") as it:
        return it.read()


def sources(folder):
    """The source files of a crate, each with the path of its module."""
    for path in sorted(glob.glob(f"{folder}/src/**/*.rt", recursive=True)):
        yield path, os.path.relpath(path, f"{folder}/src").removesuffix(".rt").replace("/", "::")


def value(kind):
    """A value of a type, for a call that is never made."""
    if kind == "Global":
        return "alloc"
    if kind.startswith("&mut ") and not kind.startswith("&mut ["):
        return f"&mut any::<{kind.removeprefix('&mut ')}>()"
    return f"any::<{kind}>()"


def calls_of(folder):
    """A call of each function for C, and the names of the types of what it is given."""
    calls, types = [], set()
    for path, module in sources(folder):
        for found in FUNCTION.finditer(text_of(path)):
            kinds = [part.split(":", 1)[1].strip() for part in found[2].split(",") if part.strip()]
            types.update(name for kind in kinds for name in re.findall(r"\b[A-Z]\w+", kind))
            calls.append(f"    {module}::{found[1]}({', '.join(map(value, kinds))});")
    return calls, types - {"Global"}


def uses_of(folder, types):
    """The lines that import some types of the crate."""
    for name in sorted(types):
        home = next(module for path, module in sources(folder) if re.search(rf"pub struct {name}\b", text_of(path)))
        yield f"use crate::{home}::{name};"


def as_program(crate, top, room):
    """Copies the crates, and beside them the library as a program; gives the program's name."""
    program = f"{crate}_as_program"
    shutil.copytree(f"{top}/crates", f"{room}/crates", ignore=shutil.ignore_patterns("out", "must-fail", "data"))
    for name in os.listdir(top):
        if os.path.isfile(f"{top}/{name}"):
            shutil.copy(f"{top}/{name}", room)
    folder = f"{room}/crates/{program}"
    shutil.copytree(f"{room}/crates/{crate}", folder)
    shutil.move(f"{folder}/src/lib.rt", f"{folder}/src/main.rt")
    for path in glob.glob(f"{folder}/**/*", recursive=True):
        if os.path.isfile(path) and f"Rattle.{crate}." in (text := text_of(path)):
            with open(path, "w", encoding="utf-8") as it:
                it.write(text.replace(f"Rattle.{crate}.", f"Rattle.{program}."))
    with open(f"{room}/crates.txt", "a", encoding="utf-8") as it:
        it.write(f"{program}:{re.search(rf'^{crate} staticlib:(.*)$', text_of(f'{top}/crates.txt'), re.MULTILINE)[1]}\n")
    calls, types = calls_of(folder)
    with open(f"{folder}/src/main.rt", "a", encoding="utf-8") as it:
        it.write("\n" + "\n".join(uses_of(folder, types)) + MAIN % "\n".join(calls))
    return program


def name_exports(module, program):
    """Gives each function for C the name that C knows it by; what only the program's own beginning needs is left out."""
    wanted = re.compile(rf'"{program}::(?:\w+::)+(hd_\w+)"')
    module.keep({name: known[1] for name in module.functions if (known := wanted.fullmatch(name))})
