"""The program that a script runs: one that is named, or that of these sources. Where there is none, a line says so, and the
script ends with status 2."""
import os
import shutil
import subprocess
import sys

TOOLS = os.path.dirname(os.path.realpath(__file__))


def program_of(named=None, build=None):
    """The path of the program that is named, or of that of these sources, shipped or built; it may be built first. `build` tells
    how the one that is named is built."""
    if named is None:
        # What is wrong it says itself.
        asked = subprocess.run([f"{TOOLS}/program"], stdin=subprocess.DEVNULL, stdout=subprocess.PIPE, check=False, text=True)
        return asked.stdout.rstrip("\n") if asked.returncode == 0 else sys.exit(2)
    found = shutil.which(named)
    if found is None:
        print(f"{os.path.basename(sys.argv[0])}: no program {named}{build and f': {build}' or ''}", file=sys.stderr)
        sys.exit(2)
    return os.path.realpath(found)
