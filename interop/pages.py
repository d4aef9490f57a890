"""Runs the recipes of README.md and docs/MANUAL.md, the lines after `$`, and compares what they print with the page.

Each block is run in a new folder, which has what its words name: the program, the examples, and `turns.mseed`. In a clone git
has to ignore what they write, so that no recipe makes changes that are in no commit.
"""
import difflib
import fnmatch
import os
import re
import shlex
import subprocess
import tempfile

from jobs import Result

ROOT = os.path.dirname(os.path.dirname(os.path.realpath(__file__)))
PAGES = ("README.md", "docs/MANUAL.md")
MARK = "$ "


def read(path):
    with open(path, "rb") as file:
        return file.read()


def channels():
    """The first days of the two channels of the examples, as records of 512 bytes."""
    days = [read(f"{ROOT}/examples/sds/2020/XX/TEST/{it}.D/XX.TEST.00.{it}.D.2020.001") for it in ("BHN", "BHZ")]
    return [[day[at : at + 512] for at in range(0, len(day), 512)] for day in days]


def turns():
    """Two channels in turns, which the manual names `turns.mseed`."""
    return b"".join(record for pair in zip(*channels()) for record in pair)


def is_whole(command):
    """Whether no quote is open at its end, and no line goes on."""
    try:
        shlex.split(command)
    except ValueError:
        return False
    return True


def blocks(text):
    """The indented blocks that have recipes, each as a list of commands with the lines that follow them."""
    for block in re.findall(r"(?:^    .*\n)+", text, re.MULTILINE):
        lines = [line[4:] for line in block.splitlines()]
        if not any(line.startswith(MARK) for line in lines):
            continue
        recipes = []
        for line in lines:
            if recipes and not is_whole(recipes[-1][0]):
                recipes[-1][0] += f"\n{line}"
            elif line.startswith(MARK):
                recipes.append([line[len(MARK) :], []])
            else:
                recipes[-1][1].append(line)
        yield recipes


def is_shown(lines, text):
    """Whether the text has these lines, of which `..` stands for any."""
    pattern = "".join(r"(?:.*\n)*" if line == ".." else f"{re.escape(line)}\n" for line in lines)
    return re.fullmatch(pattern, text) is not None


def ignored():
    """The patterns of .gitignore for what stands at the top of a clone."""
    with open(f"{ROOT}/.gitignore", encoding="utf-8") as file:
        return [line.strip() for line in file if line.startswith("/")]


def left_over(folder):
    """What recipes wrote in the folder that git would not ignore."""
    names = [f"/{name}{'/' * os.path.isdir(f'{folder}/{name}')}" for name in os.listdir(folder)]
    given = ["/msrepack", "/examples/", *ignored()]
    return sorted(name for name in names if not any(fnmatch.fnmatchcase(name, pattern) for pattern in given))


def play_block(page, program, recipes):
    """How many recipes of a block print what the page shows, and what is told of the others, and of what they leave."""
    passed, told = 0, []
    with tempfile.TemporaryDirectory() as folder:
        os.symlink(program, f"{folder}/msrepack")
        os.symlink(f"{ROOT}/examples", f"{folder}/examples")
        with open(f"{folder}/turns.mseed", "wb") as file:
            file.write(turns())
        for command, lines in recipes:
            both = {"stdout": subprocess.PIPE, "stderr": subprocess.STDOUT, "stdin": subprocess.DEVNULL}
            text = subprocess.run(["sh", "-c", command], cwd=folder, timeout=60, check=False, **both).stdout.decode(errors="replace")
            if is_shown(lines, text):
                passed += 1
            else:
                differ = [f"    {line}\n" for line in difflib.ndiff(lines, text.splitlines()) if line[0] in "-+"]
                told.append(f"{page}: $ {command}\n{''.join(differ)}")
        told += [f"{page}: .gitignore lacks what a recipe writes: {name}\n" for name in left_over(folder)]
    return passed, told


def play(program, page):
    """What came of the recipes of a page, which has some."""
    with open(f"{ROOT}/{page}", encoding="utf-8") as file:
        passed, told = 0, []
        for recipes in blocks(file.read()):
            shown, others = play_block(page, program, recipes)
            passed, told = passed + shown, told + others
    if not passed and not told:
        told.append(f"{page}: no recipe was found\n")
    return Result(passed, len(told), told="".join(told))
