"""What the tools know of this checkout and of the kit of Rattle beside it: the crates, where their libraries stand, and what `rattle` is told of them."""
import os
import shutil
import sys

ROOT = os.path.dirname(os.path.dirname(os.path.abspath(__file__)))
CRATES = f"{ROOT}/crates"


def kit():
    """The folder of the kit, in whose `bin` the command `rt` stands."""
    rt = shutil.which("rt")
    if rt is None:
        sys.exit("there is no `rt` on the path: put the `bin` of a kit of Rattle there")
    return os.path.dirname(os.path.dirname(os.path.realpath(rt)))


def crates():
    """The crates of crates.txt, each with what it stands on."""
    found = {}
    with open(f"{ROOT}/crates.txt", encoding="utf-8") as lines:
        for line in lines:
            if ":" in line and not line.startswith("#"):
                name, below = line.split(":")
                found[name.strip()] = below.split()
    return found


def rlib(folder, name):
    """Where the library of a crate stands that was built in this folder `crates`."""
    return f"{folder}/{name}/out/rlib/{name}.rlib"


def all_below(name):
    """All that a crate stands on, however far below."""
    known, found = crates(), []
    waiting = list(known[name])
    while waiting:
        below = waiting.pop(0)
        if below not in found:
            found.append(below)
            waiting += known.get(below, [])
    return found


def words(folder, name, stubs=None, stubbed=()):
    """What `rattle` is told of a crate, whose libraries were built in this folder `crates`, or stand in the kit. Those that are stubbed are taken as source
    from the folder `stubs`."""
    known, libraries = crates(), f"{kit()}/rlibs"
    told = ["--crate-name", name, "src/lib.rt", "--extern", f"std={libraries}/std.rlib", "-L", f"dependency={libraries}"]
    # What is taken as source has to be told all that it uses itself.
    for below in all_below(name) if stubbed else known[name]:
        if below in stubbed:
            told += ["--lib", f"{below}={stubs}/{below}/src/lib.rt"]
        else:
            told += ["--extern", f"{below}={rlib(folder, below) if below in known else f'{libraries}/{below}.rlib'}"]
    for other in known:
        told += ["-L", f"dependency={os.path.dirname(rlib(folder, other))}"]
    return told + ["--antt-project", f"{kit()}/rattle/logic/antt-project.json", "--logic-built", f"{kit()}/logic_built"]
