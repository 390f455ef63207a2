"""counted.py: builds a program of this folder over copies of the crates, and counts the instructions of its runs with callgrind."""
import os
import re
import shutil
import subprocess

TOP = os.path.dirname(os.path.dirname(os.path.abspath(__file__)))


def as_source(path, copy):
    """A copy without the ending .txt, since `rt` takes each .rt and .antt file of the repository for one of its crates."""
    return shutil.copyfile(path, copy.removesuffix(".txt"))


def build(room, name, needs, first_input):
    """Builds the program in the folder of this name over these crates by `rt`, which proves it, and returns where it stands."""
    shutil.copytree(os.path.join(TOP, "crates"), os.path.join(room, "crates"), ignore=shutil.ignore_patterns("out", "must-fail"))
    shutil.copy(os.path.join(TOP, "HANDLES"), room)
    with open(os.path.join(TOP, "crates.txt"), encoding="utf-8") as crates:
        listed = crates.read()
    with open(os.path.join(room, "crates.txt"), "w", encoding="utf-8") as crates:
        crates.write(f"{listed}{name}: {needs}\n")
    crate = os.path.join(room, "crates", name)
    shutil.copytree(os.path.join(TOP, "bench", name), crate, copy_function=as_source)
    made = subprocess.run(["rt", "run"], cwd=crate, input=first_input, capture_output=True)
    if made.returncode:
        raise SystemExit(made.stderr.decode())
    return os.path.join(crate, "out", name)


def instructions(program, room, given, wanted):
    """The instructions of a run on this input, which has to write what is wanted."""
    counts = os.path.join(room, "counts")
    words = ["valgrind", "--tool=callgrind", f"--callgrind-out-file={counts}", program]
    run = subprocess.run(words, input=given, capture_output=True, check=True)
    if run.stdout != wanted:
        raise SystemExit(f"the program writes {run.stdout.hex()}, not {wanted.hex()}")
    with open(counts, encoding="utf-8") as lines:
        return int(re.search(r"^(?:summary|totals): (\d+)", lines.read(), re.M)[1])
