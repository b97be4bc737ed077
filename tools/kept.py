"""The crates of crates.txt, and the libraries of them that `rt ci` or `tools/prove` kept on this machine: what tools/check and tools/try-edits share."""
import glob
import json
import os
import re
import subprocess

TOP = os.path.dirname(os.path.dirname(os.path.abspath(__file__)))
ROOM = "/tmp/vobrekan-check"
PROVED = "/tmp/vobrekan-kept"


def kit_folder():
    """The folder of the kit, as rt tells it."""
    return os.path.dirname(subprocess.run(["rt", "doc"], capture_output=True, text=True, check=True).stdout.split()[0])


def listed():
    """The crates of crates.txt, each with what it stands on; and which of them are static libraries."""
    found, static = {}, set()
    with open(f"{TOP}/crates.txt", encoding="utf-8") as it:
        for line in it:
            if row := re.fullmatch(r"(\w+)( staticlib)?:(.*)", line.split("#")[0].strip()):
                found[row[1]] = row[3].split()
                static |= {row[1]} if row[2] else set()
    return found, static


def below(crates, name, seen):
    """All crates of the repository that a crate stands on, lowest first."""
    for it in crates.get(name, []):
        if it in crates and it not in seen:
            below(crates, it, seen)
            seen.append(it)
    return seen


def kept(kit, name):
    """The newest library of a crate that a run of the gate or of tools/prove kept, put together under ROOM; None where there is none."""
    made = glob.glob(f"{os.path.dirname(kit)}/rattle-kept/proof-{name}-*/made.json")
    made += glob.glob(f"{PROVED}/{name}-*/proof-done")
    if not made:
        return None
    newest = max(made, key=os.path.getmtime)
    if newest.startswith(PROVED):
        return f"{os.path.dirname(newest)}/{name}.rlib"
    folder = f"{ROOM}/kept/{os.path.basename(os.path.dirname(newest))}"
    if not os.path.exists(f"{folder}/whole"):
        with open(newest, encoding="utf-8") as it:
            files = json.load(it)["files"]
        for number, (path, _) in enumerate(files):
            os.makedirs(os.path.dirname(f"{folder}/{path}"), exist_ok=True)
            if not os.path.lexists(f"{folder}/{path}"):
                os.symlink(f"{os.path.dirname(newest)}/{number}", f"{folder}/{path}")
        open(f"{folder}/whole", "w", encoding="utf-8").close()
    library = f"{folder}/rlib/{name}.rlib"
    return library if os.path.isdir(library) else None


def words_for(kit, crates, names, built):
    """The words of rattle's command line for the root file of a crate, which is the first of the names, and for the libraries of these crates; the paths of
    those of the repository are in built."""
    root = "src/main.rt" if os.path.exists(f"{TOP}/crates/{names[0]}/src/main.rt") else "src/lib.rt"
    words = ["--crate-name", names[0], root, "--extern", f"std={kit}/rlibs/std.rlib", "-L", f"dependency={kit}/rlibs"]
    for it in built.values():
        words += ["-L", f"dependency={os.path.dirname(it)}"]
    for dep in sorted({dep for it in names for dep in crates[it]}):
        if dep in built:
            words += ["--extern", f"{dep}={built[dep]}"]
        elif dep not in crates:
            words += ["--extern", f"{dep}={kit}/rlibs/{dep}.rlib"]
    return [*words, "--antt-project", f"{kit}/rattle/logic/antt-project.json", "--logic-built", f"{kit}/logic_built"]
