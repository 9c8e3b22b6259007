"""The programs of this repository as the toolchain builds them, and one run of one."""

import pathlib
import subprocess
import sys
import time

TOP = pathlib.Path(__file__).resolve().parent.parent
SECONDS = 120


def say(text):
    """A line for who waits."""
    print(text, file=sys.stderr, flush=True)


class Progress:
    """Says how far a check is, at most once in some seconds."""

    def __init__(self, seconds=5):
        self.seconds, self.said = seconds, time.monotonic()

    def at(self, text):
        if time.monotonic() - self.said >= self.seconds:
            self.said = time.monotonic()
            say(text)


def below(crate):
    """A crate and those of the repository that it depends on."""
    lines = [line.split("#")[0] for line in (TOP / "crates.txt").read_text().splitlines()]
    parts = [line.partition(":") for line in lines if ":" in line]
    stands = {head.split()[0]: deps.split() for head, _, deps in parts}
    found, ahead = {}, [crate]
    for name in ahead:
        if name not in found:
            found[name] = True
            ahead += [one for one in stands.get(name, []) if one in stands]
    return list(found)


def is_fresh(program, crate):
    """Whether the program is there, and no file that it was made from is newer."""
    folders = [TOP / "crates" / name / part for name in below(crate) for part in ("src", "specs", "proofs")]
    made = [TOP / "crates.txt", *[file for folder in folders for file in folder.rglob("*") if file.is_file()]]
    return program.exists() and max(file.stat().st_mtime for file in made) <= program.stat().st_mtime


def build(crate, *flags):
    """The bytes of a crate's program: that of `rt ci` or of `./tribes` where it is up to date, and else it is proved and built."""
    folder = TOP / "crates" / crate / "out"
    program = folder / crate
    kept = folder / f"{crate}.by-rattle" if flags == ("--backend", "rattle") else program
    if is_fresh(kept, crate):
        return kept.read_bytes()
    say(f"proving and building {crate}: half an hour to two hours where nothing of it is kept")
    if crate == "match_cli":
        subprocess.run([TOP / "tribes", "run"], stdin=subprocess.DEVNULL, stdout=subprocess.DEVNULL)
    # So that none is there that was built otherwise, or before.
    for old in (program, program.with_suffix(".stamp")):
        old.unlink(missing_ok=True)
    built = subprocess.run(["rt", "run", *flags], cwd=TOP / "crates" / crate, stdin=subprocess.DEVNULL, capture_output=True)
    if not program.exists():
        sys.exit(f"{crate} is not built; rt said:\n{built.stderr.decode()}")
    return program.read_bytes()


def placed(folder, name, program):
    """The program in a file of that folder."""
    path = pathlib.Path(folder) / name
    path.write_bytes(program)
    path.chmod(0o755)
    return path


def run(program, text, *words, environment=None):
    """What a program made of a text: its status, its output, and its words on standard error."""
    done = subprocess.run([program, *words], input=text, capture_output=True, timeout=SECONDS, env=environment)
    return done.returncode, done.stdout, done.stderr
