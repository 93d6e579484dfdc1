#!/usr/bin/env python3
"""What the gate does after `rt ci` with the kit's `rattle`, over the libraries that were proved.

`rt ci` proves a static library and builds none, and it tells one line of what the prover said of an edit. Where it ran with nothing kept in the checkout, as
in a clone, it leaves the libraries that it proved in their out/, with no stamp, and `rt lib` or `rt check` would prove each once more. So these commands are
rattle's own, and take the libraries as they stand.

    .ci/over.py ready MARK            the libraries are those of the `rt ci` that ran after the file MARK was made, or else `rt lib` makes each
    .ci/over.py build NAME ARCHIVE    the static library NAME, proved once more and built
"""
import os
import re
import shutil
import subprocess
import sys

ROOT = os.path.dirname(os.path.dirname(os.path.realpath(__file__)))
KIT = os.path.dirname(subprocess.run(["rt", "doc"], capture_output=True, text=True, check=True).stdout.strip())
PARTS = ("src", "specs", "proofs")


def listed():
    """The crates: what each uses, by its name, and which are static libraries."""
    uses, static = {}, set()
    with open(f"{ROOT}/crates.txt", encoding="utf-8") as file:
        for line in file:
            names, colon, used = line.partition("#")[0].partition(":")
            if colon:
                name, *words = names.split()
                uses[name] = used.split()
                static |= {name} if "staticlib" in words else set()
    return uses, static


USES, STATIC = listed()


def below(name):
    """The crates of the repository below a crate."""
    found = []
    for used in USES[name]:
        if used in USES:
            found += [it for it in [*below(used), used] if it not in found]
    return found


def is_program(name):
    return os.path.isfile(f"{ROOT}/crates/{name}/src/main.rt")


def libraries():
    return [it for it in USES if it not in STATIC and not is_program(it)]


def rlib(name):
    return f"{ROOT}/crates/{name}/out/rlib" if name in USES else f"{KIT}/rlibs"


def words(name):
    """The words of rattle's check and build for a crate, in whose folder, or a copy of it, they run."""
    made = ["--crate-name", name, "src/main.rt" if is_program(name) else "src/lib.rt"]
    made += ["--crate-type", "staticlib"] if name in STATIC else []
    for used in ["std", *USES[name]]:
        made += ["--extern", f"{used}={rlib(used)}/{used}.rlib"]
    for folder in [f"{KIT}/rlibs", *map(rlib, below(name))]:
        made += ["-L", f"dependency={folder}"]
    return [*made, "--antt-project", f"{KIT}/rattle/logic/antt-project.json", "--logic-built", f"{KIT}/logic_built", "--jobs", "1"]


def is_left(name, mark):
    """Whether a library is the one that `rt ci` left since the mark, and none that another command made before."""
    made = f"{rlib(name)}/{name}.rlib"
    return os.path.isdir(made) and not os.path.exists(f"{rlib(name)}/stamp") and os.stat(made).st_mtime_ns > os.stat(mark).st_mtime_ns


def ready(mark):
    if all(is_left(name, mark) for name in libraries()):
        return 0
    print("over: not all libraries are those that rt ci left, so rt lib makes them", flush=True)
    for name in libraries():
        ran = subprocess.run(["rt", "lib"], cwd=f"{ROOT}/crates/{name}", stdout=subprocess.PIPE, stderr=subprocess.STDOUT, text=True, errors="replace")
        if ran.returncode:
            print(f"{ran.stdout}over: the library {name} was not made")
            return 1
    return 0


def build(name, archive):
    folder = f"{ROOT}/crates/{name}"
    made = f"{folder}/out/lib{name}.a"
    os.makedirs(os.path.dirname(made), exist_ok=True)
    ran = subprocess.run([f"{KIT}/bin/rattle", "build", *words(name), "--toolchain", f"{KIT}/toolchain", "-o", made], cwd=folder)
    if ran.returncode:
        return ran.returncode
    os.makedirs(os.path.dirname(os.path.abspath(archive)), exist_ok=True)
    shutil.copyfile(made, archive)
    return 0


if __name__ == "__main__":
    commands = {"ready": (ready, 1), "build": (build, 2)}
    command, many = commands.get(sys.argv[1] if len(sys.argv) > 1 else "", (None, 0))
    if not command or len(sys.argv) != 2 + many:
        sys.exit(re.sub(r"\A.*?\n\n    ", "", __doc__, flags=re.S))
    sys.exit(command(*sys.argv[2:]))
