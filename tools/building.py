"""The library's archives, made of what the gate proved: for this machine, for aarch64 Linux, and for Windows.

`rt ci` leaves each proved crate in crates/NAME/out/rlib. Over these an archive is one check of one crate, two minutes of a processor.
`rt lib` comes to the same archive, and proves each crate below again first.
"""

import pathlib
import re
import shutil
import subprocess
import tempfile

TOP = pathlib.Path(__file__).resolve().parent.parent
CRATE = TOP / "crates" / "tribes_link"
ARCHIVE = CRATE / "out" / "libtribes.a"
AARCH64 = "aarch64-unknown-linux-gnu"
WINDOWS = "x86_64-w64-windows-gnu"
# What clang says of each target: the module's layout. The toolchain writes a module for x86-64 Linux, whose layout differs in the form of
# symbols alone.
WINDOWS_LAYOUT = "e-m:w-p270:32:32-p271:32:32-p272:64:64-i64:64-i128:128-f80:128-n8:16:32:64-S128"
HEAP = TOP / "tools" / "release_parts" / "heap_malloc.c"


class NotProved(Exception):
    """A crate below has no proved library, or an old one; or the archive's own check refused it."""


def kit():
    """The toolchain's folder."""
    rt = shutil.which("rt")
    if not rt:
        raise NotProved("the command rt of the Rattle toolchain is not on the path")
    return pathlib.Path(rt).resolve().parent.parent


def lines():
    """Each crate of crates.txt with what stands on its line, in the file's order."""
    found = {}
    for line in (TOP / "crates.txt").read_text().splitlines():
        head, colon, stands = line.split("#")[0].partition(":")
        if colon:
            found[head.split()[0]] = stands.split()
    return found


def below(crate="tribes_link"):
    """The crates of the repository that a crate stands on, the lowest first."""
    all_lines, wanted, ahead = lines(), set(), [crate]
    while ahead:
        for name in all_lines[ahead.pop()]:
            if name in all_lines and name not in wanted:
                wanted.add(name)
                ahead.append(name)
    return [name for name in all_lines if name in wanted]


def library(name):
    return TOP / "crates" / name / "out" / "rlib" / f"{name}.rlib"


def files_of(name):
    folders = [TOP / "crates" / name / part for part in ("src", "specs", "proofs")]
    return sorted(file for folder in folders for file in folder.rglob("*") if file.is_file())


def not_proved():
    """The crates below whose proved library is missing, or older than a file that it was made from."""
    def is_old(name):
        made = library(name)
        return not made.is_dir() or max(file.stat().st_mtime for file in files_of(name)) > made.stat().st_mtime

    return [name for name in below() if is_old(name)]


def is_newer(made):
    """Whether what was made of the library is there, newer than the crate's own files and than each proved library below."""
    newest = [file.stat().st_mtime for file in files_of("tribes_link")] + [library(name).stat().st_mtime for name in below() if library(name).is_dir()]
    return made.exists() and made.stat().st_mtime >= max(newest)


def is_fresh(archive=ARCHIVE):
    """Whether the archive is there with its verdict, and up to date."""
    return verdict_of(archive).exists() and is_newer(archive)


def verdict_of(archive):
    """The file beside an archive that has the verdict's line."""
    return archive.with_suffix(".verdict")


def words(target=None):
    """What `rattle build` is told: the crate, what it stands on, and how its archive is made."""
    toolchain = kit()
    stands, own = lines()["tribes_link"], set(lines())
    told = ["--crate-name", "tribes_link", "src/lib.rt", "-L", f"dependency={toolchain}/rlibs"]
    for name in ["std", *stands]:
        told += ["--extern", f"{name}={library(name) if name in own else toolchain / 'rlibs' / (name + '.rlib')}"]
    for name in below():
        told += ["-L", f"dependency={library(name).parent}"]
    told += ["--antt-project", f"{toolchain}/rattle/logic/antt-project.json", "--links", "tribes_link=", "--crate-type", "staticlib"]
    return told + (["--target", target] if target else [])


def rattle(command, *told):
    """A command of the prover in the crate's folder; what it says where it ends well."""
    done = subprocess.run([str(kit() / "bin" / "rattle"), command, *map(str, told)], cwd=CRATE, capture_output=True, text=True, errors="replace")
    if done.returncode:
        raise NotProved(f"rattle {command} ended with {done.returncode}:\n{(done.stdout + done.stderr)[-2000:]}")
    return done.stdout + done.stderr


def check(folder, target=None):
    """Checks the crate over the proved ones below, for a target. Answers the verdict's line; the folder has what was proved."""
    old = not_proved()
    if old:
        raise NotProved(f"no proved library, or an old one, of {', '.join(old[:6])}{' ..' if len(old) > 6 else ''}: run rt ci first")
    said = rattle("check", *words(target), "--logic-built", kit() / "logic_built", "--jobs", 2, "-o", folder / "checked")
    verdict = re.findall(r"(?m)^logic=proved .*$", said)
    if not verdict:
        raise NotProved(f"rattle check gave no verdict:\n{said[-2000:]}")
    return verdict[-1]


def compiled(to, folder, target=None, toolchain=None):
    """Writes the archive of what `check` proved into that folder."""
    rattle("build", *words(target), "--crate-checked", folder / "checked", "--toolchain", toolchain or kit() / "toolchain", "-o", to)


# ---- for targets for which the toolchain makes no archive


def keeping_toolchain(folder, kept):
    """A folder of links that stands for the toolchain, whose clang first keeps the module that it is handed."""
    whole = kit() / "toolchain"
    made = folder / "toolchain"
    (made / "bin").mkdir(parents=True)
    for it in whole.iterdir():
        if it.name != "bin":
            (made / it.name).symlink_to(it)
    for it in (whole / "bin").iterdir():
        if it.name != "clang":
            (made / "bin" / it.name).symlink_to(it)
    clang = made / "bin" / "clang"
    clang.write_text(f'#!/bin/sh\nfor word; do case "$word" in *.bc) cp "$word" "{kept}" ;; esac; done\nexec "{whole}/bin/clang" "$@"\n')
    clang.chmod(0o755)
    return made


def called(*command):
    done = subprocess.run([str(word) for word in command], capture_output=True, text=True, errors="replace")
    if done.returncode:
        raise NotProved(f"{command[0]} ended with {done.returncode}:\n{done.stderr[-2000:]}")
    return done.stdout


def module_text(to, folder):
    """Writes, as text, the module of LLVM's that the proved crate is lowered to for x86-64 Linux."""
    kept = folder / "module.bc"
    compiled(folder / "kept.a", folder, toolchain=keeping_toolchain(folder, kept))
    called(kit() / "toolchain" / "bin" / "clang", "-w", "-S", "-emit-llvm", "-Xclang", "-disable-llvm-passes", "-x", "ir", kept, "-o", to)
    if re.search(r"llvm\.x86|(?m:^module asm)", to.read_text()):
        raise NotProved("the module has what only x86-64 has")


def retargeted(text, triple, layout):
    """The same module for another target: its layout and its name, no processor, and no probes of the stack."""
    text = re.sub(r'(?m)^target datalayout = .*', f'target datalayout = "{layout}"', text)
    text = re.sub(r'(?m)^target triple = .*', f'target triple = "{triple}"', text)
    dropped = r' "(?:target-cpu|target-features|tune-cpu|probe-stack|stack-probe-size)"="[^"]*"'
    return re.sub(r"(?m)^attributes.*$", lambda line: re.sub(dropped, "", line[0]), text)


def heap_object(to, triple):
    """The three functions that compiled Rattle calls for memory, over malloc, for a target for which the toolchain brings none."""
    clang = kit() / "toolchain" / "bin" / "clang"
    if triple != WINDOWS:
        called(clang, f"--target={triple}", "--no-default-config", "-O2", "-fPIC", "-c", HEAP, "-o", to)
        return
    # (they go by LLVM's way of handing back two words, which C on Windows has not)
    text = to.with_suffix(".ll")
    called(clang, "-w", "--target=x86_64-unknown-linux-gnu", "--no-default-config", "-O1", "-S", "-emit-llvm", HEAP, "-o", text)
    text.write_text(retargeted(text.read_text(), WINDOWS, WINDOWS_LAYOUT))
    called(clang, f"--target={WINDOWS}", "--no-default-config", "-O3", "-c", "-x", "ir", text, "-o", to)


def joined(to, objects):
    """One archive of these objects: no time, owner or path stands in it."""
    to.unlink(missing_ok=True)
    called(kit() / "toolchain" / "bin" / "llvm-ar", "rcsD", to, *objects)


def objects_of(archive, folder):
    """The objects of an archive, each in a file of that folder."""
    folder.mkdir(parents=True, exist_ok=True)
    subprocess.run([str(kit() / "toolchain" / "bin" / "llvm-ar"), "x", str(archive)], cwd=folder, check=True)
    return sorted(file for file in folder.iterdir() if file.is_file())


def for_linux(to, folder, target):
    """One archive for x86-64 or aarch64 Linux, with the lines over malloc in it."""
    compiled(folder / "proved.a", folder, target)
    parts = objects_of(folder / "proved.a", folder / "objects")
    if target == AARCH64:
        heap_object(folder / "heap.o", target)
        parts.append(folder / "heap.o")
    else:
        parts += objects_of(kit() / "c" / "liblibc_c.a", folder / "heap")
    joined(to, parts)


def for_windows(to, folder):
    """One archive for x86-64 Windows, by mingw's linkers: the proved module, compiled for another target."""
    clang = kit() / "toolchain" / "bin" / "clang"
    text = folder / "module.ll"
    module_text(text, folder)
    text.write_text(retargeted(text.read_text(), WINDOWS, WINDOWS_LAYOUT))
    flags = ["--no-default-config", "-ffunction-sections", "-fdata-sections", "-O3", "-c", "-x", "ir"]
    called(clang, f"--target={WINDOWS}", *flags, text, "-o", folder / "tribes.obj")
    heap_object(folder / "heap.obj", WINDOWS)
    joined(to, [folder / "tribes.obj", folder / "heap.obj"])


# Each target that a package is made for: where its archive lies.
ARCHIVES = {"x86_64-linux": ARCHIVE, "aarch64-linux": ARCHIVE.parent / "aarch64" / ARCHIVE.name, "x86_64-windows": ARCHIVE.parent / "windows" / ARCHIVE.name}


def make(names):
    """Makes the archives of these targets that are not there, or old. What is for x86-64 comes of one check."""
    left = [name for name in names if not is_fresh(ARCHIVES[name])]
    for group in (["x86_64-linux", "x86_64-windows"], ["aarch64-linux"]):
        wanted = [name for name in group if name in left]
        if not wanted:
            continue
        target = AARCH64 if group == ["aarch64-linux"] else None
        with tempfile.TemporaryDirectory() as room:
            verdict = check(pathlib.Path(room), target)
            for name in wanted:
                to = ARCHIVES[name]
                to.parent.mkdir(parents=True, exist_ok=True)
                if name == "x86_64-windows":
                    for_windows(to, pathlib.Path(room))
                else:
                    for_linux(to, pathlib.Path(room), target)
                verdict_of(to).write_text(verdict + "\n")


if __name__ == "__main__":
    raise SystemExit("this is a part of tools/library and tools/release")
