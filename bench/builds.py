"""A crate that is there while a benchmark runs: proved and built like any other."""
import contextlib
import os
import shutil
import subprocess

TOP = os.path.dirname(os.path.dirname(os.path.abspath(__file__)))


def build_proved(top, name):
    subprocess.run(["rt", "run"], cwd=os.path.join(top, "crates", name), stdin=subprocess.DEVNULL, stdout=subprocess.DEVNULL, check=True)


def build_unproved(top, name):
    out = os.path.join(top, "crates", name, "out")
    os.makedirs(out, exist_ok=True)
    command = [os.path.join(TOP, "bench", "unproved", "build"), top, name, os.path.join(out, name)]
    subprocess.run(command, stdout=subprocess.DEVNULL, check=True)


@contextlib.contextmanager
def built(folder, libraries, top=TOP):
    """The path of the program in bench/folder/program.txt, which stands on these libraries: of this repository, or of a copy. With
    UNPROVED in the environment it is built without proof, in two minutes."""
    name = f"bench_{folder}"
    crate = os.path.join(top, "crates", name)
    names = os.path.join(top, "crates.txt")
    with open(names) as lines:
        kept = lines.read()
    try:
        shutil.rmtree(crate, ignore_errors=True)
        os.makedirs(os.path.join(crate, "src"))
        shutil.copy(os.path.join(top, "bench", folder, "program.txt"), os.path.join(crate, "src", "main.rt"))
        with open(names, "a") as lines:
            lines.write(f"{name}: {' '.join(libraries)}\n")
        build = build_unproved if "UNPROVED" in os.environ else build_proved
        build(top, name)
        yield os.path.join(crate, "out", name)
    finally:
        shutil.rmtree(crate, ignore_errors=True)
        with open(names, "w") as lines:
            lines.write(kept)
