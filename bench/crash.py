"""What a disk may hold after a loss of power: a tree of names that keeps what each name led to since its folder was
stored, and what each file had since it was stored.

A name may lead to anything that it led to since its folder was stored last, whatever other names do. A file may have its
bytes, the first half of them, none, or those with which it was stored last; if nothing was written since, it has these.
Owner, mode and times are not said of.
"""
from __future__ import annotations

import os
from dataclasses import dataclass, field
from typing import Callable, NamedTuple, TypeVar, Union

# An open file whose name is gone has this behind its path.
DELETED = "(deleted)"


class Call(NamedTuple):
    """What a call of the system does: make (a file, if nothing has the name), folder, write (at the end), copy (so many
    more bytes of the other file), cut, link, rename, remove, time, store, store_all (all below), told (on standard
    output)."""

    what: str
    path: str = ""
    other: str = ""
    data: bytes = b""
    size: int = 0

    def __str__(self) -> str:
        told = self.data.decode().strip() if self.what == "told" else ""
        return " ".join(it for it in (self.what, self.path, self.other, told) if it)


@dataclass(eq=False)
class File:
    data: bytes = b""
    stored: Union[bytes, None] = None
    is_stored: bool = False
    time: Union[int, None] = None

    def change(self, data: bytes) -> None:
        self.data, self.is_stored = data, False

    def store(self) -> None:
        self.stored, self.is_stored = self.data, True

    def may_have(self) -> list[bytes]:
        """What it may have after a loss of power, what it has now first."""
        if self.is_stored:
            return [self.data]
        older = [] if self.stored is None else [self.stored]
        return list(dict.fromkeys([self.data, self.data[: len(self.data) // 2], b"", *older]))


@dataclass(eq=False)
class Folder:
    """Each name has what it leads to now, and then what it led to since the folder was stored."""

    names: dict[str, list[Node]] = field(default_factory=dict)

    def targets(self, name: str) -> list[Node]:
        return self.names.get(name, [None])

    def lead(self, name: str, node: Node) -> None:
        self.names[name] = [node, *(it for it in self.targets(name) if it is not node)]

    def store(self) -> None:
        self.names = {name: led[:1] for name, led in self.names.items() if led[0] is not None}


Node = Union[File, Folder, None]


class Disk:
    """A tree, with the folders of that name at its top, and the lines that were told."""

    def __init__(self, *tops: str) -> None:
        self.top = Folder({name: [Folder()] for name in tops})
        self.gone: dict[str, Node] = {}
        self.told: set[str] = set()

    def find(self, path: str) -> Node:
        if path.endswith(DELETED):
            return self.gone[path]
        node: Node = self.top
        for name in path.split("/"):
            node = node.targets(name)[0] if isinstance(node, Folder) else None
        return node

    def file(self, path: str) -> File:
        node = self.find(path)
        if not isinstance(node, File):
            raise ValueError(f"{path} is no file")
        return node

    def lead(self, path: str, node: Node) -> None:
        above, _, name = path.rpartition("/")
        folder = self.find(above)
        if not isinstance(folder, Folder):
            raise ValueError(f"{above} is no folder")
        self.gone[path + DELETED] = folder.targets(name)[0]
        folder.lead(name, node)

    def put(self, path: str, data: bytes, time: int, stored: bool = True) -> None:
        """Puts a file there, with its folders, and stores it, with all names that lead to it."""
        names = path.split("/")
        above = ["/".join(names[:depth]) for depth in range(1, len(names))]
        for folder in above:
            if self.find(folder) is None:
                self.lead(folder, Folder())
        self.lead(path, File(data, time=time))
        for each in [*above, path] if stored else ():
            self.apply(Call("store", each))

    def apply(self, call: Call) -> None:
        getattr(self, f"do_{call.what}")(call)

    def do_make(self, call: Call) -> None:
        if self.find(call.path) is None:
            self.lead(call.path, File())

    def do_folder(self, call: Call) -> None:
        self.lead(call.path, Folder())

    def do_write(self, call: Call) -> None:
        file = self.file(call.path)
        file.change(file.data + call.data)

    def do_copy(self, call: Call) -> None:
        file, source = self.file(call.path), self.file(call.other)
        file.change(file.data + source.data[len(file.data) :][: call.size])

    def do_cut(self, call: Call) -> None:
        file = self.file(call.path)
        file.change(file.data[: call.size].ljust(call.size, b"\0"))

    def do_link(self, call: Call) -> None:
        self.lead(call.other, self.file(call.path))

    def do_rename(self, call: Call) -> None:
        file = self.file(call.path)
        # If both names lead to one file, the system does nothing.
        if file is not self.find(call.other):
            self.lead(call.other, file)
            self.lead(call.path, None)

    def do_remove(self, call: Call) -> None:
        self.lead(call.path, None)

    def do_time(self, call: Call) -> None:
        self.file(call.path).time = call.size

    def do_store(self, call: Call) -> None:
        node = self.find(call.path)
        if node is None:
            raise ValueError(f"nothing is {call.path}")
        node.store()

    def do_store_all(self, call: Call) -> None:
        left: list[Node] = [self.find(call.path) if call.path else self.top]
        while left:
            node = left.pop()
            if isinstance(node, Folder):
                left.extend(led[0] for led in node.names.values())
            if node is not None:
                node.store()

    def do_told(self, call: Call) -> None:
        self.told.update(" ".join(line.split(" ")[:2]) for line in call.data.decode().splitlines())

    def files(self) -> dict[str, Node]:
        """What is there now, by its path; the folders come before what they have."""
        found: dict[str, Node] = {}
        left = [(name, led[0]) for name, led in self.top.names.items()]
        while left:
            path, node = left.pop()
            if node is not None:
                found[path] = node
            if isinstance(node, Folder):
                left.extend((f"{path}/{name}", led[0]) for name, led in node.names.items())
        return found

    def bytes(self) -> dict[str, Union[bytes, None]]:
        """The bytes of each file that is there now, and none of each folder."""
        return {path: node.data if isinstance(node, File) else None for path, node in self.files().items()}

    def make_below(self, tops: dict[str, str]) -> None:
        """Makes it in folders that are empty, the tops with these names, with its links and times."""
        made: dict[Node, str] = {}
        for path, node in self.files().items():
            name, _, rest = path.partition("/")
            real = os.path.join(tops[name], rest)
            if node in made:
                os.link(made[node], real)
            elif isinstance(node, File):
                with open(real, "wb") as it:
                    it.write(node.data)
                made[node] = real
                if node.time is not None:
                    os.utime(real, ns=(node.time, node.time))
            elif rest:
                os.mkdir(real)


State = tuple[Union[bytes, None], ...]
Option = TypeVar("Option")


def state_of(disk: Disk, paths: list[str], choose: Callable[[int], int]) -> State:
    """What these paths lead to after a loss of power. Of so many things that a name may lead to, or a file have, one is
    chosen by its number; 0 is what is so now."""
    taken: dict[object, int] = {}

    def decided(key: object, options: list[Option]) -> Option:
        if len(options) == 1:
            return options[0]
        if key not in taken:
            taken[key] = choose(len(options))
        return options[taken[key]]

    found: list[Union[bytes, None]] = []
    for path in paths:
        node: Node = disk.top
        for name in path.split("/"):
            node = decided((node, name), node.targets(name)) if isinstance(node, Folder) else None
        found.append(decided(node, node.may_have()) if isinstance(node, File) else None)
    return tuple(found)


def state_now(disk: Disk, paths: list[str]) -> State:
    """What they lead to after a kill."""
    return state_of(disk, paths, lambda _: 0)


def states_of(disk: Disk, paths: list[str]) -> set[State]:
    """All that they may lead to after a loss of power."""
    states: set[State] = set()
    ahead: list[int] = []
    while True:
        taken: list[tuple[int, int]] = []

        def choose(count: int) -> int:
            at = ahead[len(taken)] if len(taken) < len(ahead) else 0
            taken.append((at, count))
            return at

        states.add(state_of(disk, paths, choose))
        while taken and taken[-1][0] + 1 == taken[-1][1]:
            taken.pop()
        if not taken:
            return states
        ahead = [at for at, _ in taken[:-1]] + [taken[-1][0] + 1]
