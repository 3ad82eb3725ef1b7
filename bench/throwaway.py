"""Makes and builds a throw-away program from a template, which stands on copies of the repository's own crates."""
import filecmp
import os
import shutil
import subprocess
import sys

TOP = os.path.dirname(os.path.dirname(os.path.realpath(__file__)))
PARTS = ("src", "specs", "proofs")


def files_below(folder):
    """The paths of the files that a crate is made of, from its folder on."""
    found = set()
    for part in PARTS:
        for path, _, files in os.walk(os.path.join(folder, part)):
            found |= {os.path.relpath(os.path.join(path, file), folder) for file in files}
    return found


def copied(source, target, suffix=""):
    """Copies a crate, without the suffix. A file that is the same keeps its time, so that what was proved stays."""
    wanted = {file.removesuffix(suffix): file for file in files_below(source)}
    for file in files_below(target) - set(wanted):
        os.remove(os.path.join(target, file))
    for file, origin in wanted.items():
        place = os.path.join(target, file)
        origin = os.path.join(source, origin)
        os.makedirs(os.path.dirname(place), exist_ok=True)
        if not os.path.isfile(place) or not filecmp.cmp(origin, place, shallow=False):
            shutil.copyfile(origin, place)


def listed():
    """The repository's crates, each with its line of crates.txt."""
    with open(os.path.join(TOP, "crates.txt")) as file:
        lines = [line.strip() for line in file if ":" in line and not line.startswith("#")]
    return {line.split(":")[0].split()[0]: line for line in lines}


def made(name, needs):
    """The folder of a program from the template NAME, beside the crates that it needs and those below them."""
    below = listed()
    wanted = list(needs)
    for crate in wanted:
        wanted += [it for it in below[crate].split(":")[1].split() if it in below and it not in wanted]
    root = os.path.join(TOP, "bench", "tmp", name)
    for crate in wanted:
        copied(os.path.join(TOP, "crates", crate), os.path.join(root, "crates", crate))
    folder = os.path.join(root, "crates", name)
    copied(os.path.join(TOP, "bench", "templates", name), folder, ".txt")
    with open(os.path.join(root, "crates.txt"), "w") as file:
        file.write("".join(f"{below[crate]}\n" for crate in wanted) + f"{name}: {' '.join(needs)}\n")
    shutil.copyfile(os.path.join(TOP, "HANDLES"), os.path.join(root, "HANDLES"))
    return folder


def built(name, needs):
    """The path of the program, once it is proved and built. What `rt` says goes to standard error."""
    folder = made(name, needs)
    # Its first call has a word that it does not know.
    done = subprocess.run(["rt", "run", "--", "nothing"], cwd=folder, stdin=subprocess.DEVNULL, stdout=sys.stderr)
    if done.returncode != 0:
        sys.exit(done.returncode)
    return os.path.join(folder, "out", name)
