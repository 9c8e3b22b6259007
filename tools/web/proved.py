"""The proved libraries below a crate, as gate runs on this machine (`rt ci`) left them in the toolchain's store, beside the kit."""

import hashlib
import importlib.machinery
import importlib.util
import json
import os
import sys


def loaded(path):
    """The command rt as a module: its sums say which files a proof in the store is of."""
    loader = importlib.machinery.SourceFileLoader("rt_of_kit", str(path))
    module = importlib.util.module_from_spec(importlib.util.spec_from_loader("rt_of_kit", loader))
    loader.exec_module(module)
    module.rtlib.Crate = module.Crate
    return module


def given(rt, kept, crate, to):
    """Puts the library into the folder, if the store has a proof of just these files over just the libraries that were put there before."""
    key = kept.key(crate)
    place = kept.place(crate, False, key)
    if not os.path.isfile(f"{place}/made.json"):
        return False
    with open(f"{place}/made.json", encoding="utf-8") as file:
        made = json.load(file)
    if made["key"] != key:
        return False
    for number, (path, wanted) in enumerate(made["files"]):
        at = to / path.removeprefix("rlib/")
        at.parent.mkdir(parents=True, exist_ok=True)
        rt.link_or_copy(f"{place}/{number}", at)
        if rt.rtlib.sum_of(at) != wanted:
            return False
    kept.rlibs[crate.name] = hashlib.sha256(repr([tuple(file) for file in made["files"]]).encode()).hexdigest()
    return True


def from_store(kit, top, names, to):
    """Puts the libraries of these names, the lowest first, into the folder as NAME.rlib; gives the first that no gate run proved as it stands, or
    None. Where this toolchain has another store, that is the first name."""
    try:
        rt = loaded(kit / "bin" / "rt")
        rt.Crate.allowed = rt.handles_of(str(top))
        crates = [crate for crate in rt.rtlib.crates_below(str(top)) if crate.name in names]
        kept = rt.Kept([])
        for crate in sorted(crates, key=lambda it: len(it.below())):
            if not kept.at or not given(rt, kept, crate, to):
                return crate.name
        return None
    except (OSError, AttributeError, KeyError, TypeError, ValueError) as error:
        print(f"the toolchain's store can't be read: {error}", file=sys.stderr)
        return names[0]
