"""Which functions of the crates call which, and which of them the program calls, read from the sources.

A function calls what its body names: a function that its file has or imports, one of a type or a module that it names, or,
after a dot, each method of that name, if the program has the type, in its own crate or below. So one that is never called
may count as called, if another type has a method of its name, and never the other way round. What a trait asks for is
called if its type is there, and its name is called or its trait is of a library.
"""
import collections
import functools
import importlib.machinery
import importlib.util
import os
import re
import sys

ROOT = os.path.dirname(os.path.dirname(os.path.abspath(__file__)))
PROGRAM = "msr_program"
# What is no name: comments, texts, characters.
OPAQUE = re.compile(r"(?s)//[^\n]*|/\*.*?\*/|b?\"(?:\\.|[^\"\\])*\"|b?'(?:\\[^']+|[^'\\])'")
CONTRACT = re.compile(r"(?s).*?(?=\n *\{|;\n| \{\}?\n|\Z)")
USE = re.compile(r"(?m)^(?:pub(?:\(crate\))? )?use ([^;]+);")
DECLARED = re.compile(r"(?ms)^(?:pub(?:\(crate\))? )?(?:struct|enum|trait|type) (\w+).*?(?:^\}|;$)")
FIELD = re.compile(r"(?m)^    (?:pub(?:\(crate\))? )?(\w+): (.*?),?$")
GIVEN = re.compile(r"[(,]\s*(\w+): ([^,()]*)")
LET = r"\blet (?:mut )?{}(?:: ([^=;]+))? = "
# Where a pattern may bind a name: of a variant, of a closure, of a loop, of a tuple, of a struct.
BOUND = (
    r"\b[A-Z]\w*\((?:[^()]*[ ,(&])?{0}[),]|\|[^|();]*\b{0}\b[^|();]*\||\bfor [^=;{{}}]*\b{0}\b[^=;{{}}]* in\b"
    r"|\blet \([^=]*\b{0}\b|\{{[^{{}};:]*\b{0}\b[^{{}};:]*\}} ="
)
# A name with the path before it; the name of a method with its dot; a step of a chain: `?`, a method or a field.
NAMED = re.compile(r"(?<!\w)(?<!(?<!\.)\.)((?:\w+(?:::<[^;{}()]*?>)?::)*)([A-Za-z_]\w*)")
METHOD = re.compile(r"(?<!\.)\.\s*([a-z_]\w*)\s*(?:\(|::<)")
STEP = re.compile(r"\s*(\?|\.\s*(\w+)(?:::<[^()]*>)?(\()?)")
# Types of the library that no `use` brings.
PRELUDE = {"Vec", "Option", "Result", "String", "str", "Box"}

# `at` is the crate and the module; `holder` the type or trait that the function is of, `trait` the trait by which it is.
Function = collections.namedtuple("Function", "at holder trait name public law text")


def edits():
    """tools/edits, which knows what is public."""
    sys.dont_write_bytecode = True
    loader = importlib.machinery.SourceFileLoader("edits", f"{ROOT}/tools/edits")
    module = importlib.util.module_from_spec(importlib.util.spec_from_loader("edits", loader))
    loader.exec_module(module)
    return module


def libraries():
    """What each crate names in crates.txt."""
    with open(f"{ROOT}/crates.txt", encoding="utf-8") as it:
        lines = [line.split("#")[0].partition(":") for line in it]
    return {name.strip(): named.split() for name, _, named in lines if name.strip()}


def blank(text):
    """The text with spaces for all that is no code, so that places stay."""
    return OPAQUE.sub(lambda it: re.sub(r"[^\n]", " ", it[0]), text)


def closed(text, at):
    """Where the brackets that open there are closed."""
    depth = 0
    for it in re.finditer(r"[{}()\[\]]", text[at:]):
        depth += 1 if it[0] in "{([" else -1
        if depth == 0:
            return at + it.end()
    raise ValueError(f"not closed: {text[at:at + 40]!r}")


def opened(text, at):
    """Where the bracket is opened that is closed there."""
    depth = 0
    for place in range(at, -1, -1):
        depth += (text[place] in ")]}") - (text[place] in "([{")
        if depth == 0:
            return place
    raise ValueError(f"not opened: {text[:at]!r}")


def begin_of(text, at):
    """Where the chain of calls and fields begins that ends there."""
    while last := re.search(r"(\w+|[)\]?])\s*\Z", text[:at]):
        at = opened(text, last.start()) if last[1] in ")]" else last.start()
        if last[1] in ")]?":
            if not re.search(r"[\w)\]?]\Z", text[:at]):
                break
        elif before := re.search(r"((?<!\.)\.|::)\s*\Z", text[:at]):
            at = before.start()
        else:
            break
    return at


def imported(listed, before=()):
    """The names that a list of a `use` brings, each with its path."""
    for part in re.findall(r"(?:[^,{}]|\{(?:[^{}]|\{[^{}]*\})*\})+", listed):
        path, _, inner = part.strip().partition("{")
        words = (*before, *re.findall(r"\w+", path))
        if inner:
            yield from imported(inner.rstrip().removesuffix("}"), words)
        elif words:
            yield words[-1], words


class Module:
    """A file: its functions, the types that it declares, what it imports."""

    def __init__(self, at, text, told):
        self.at, code = at, blank(text)
        self.uses = {name: path for listed in USE.findall(code) for name, path in imported(listed)}
        self.types = {it[1]: it[0] for it in DECLARED.finditer(code)}
        self.functions = []
        for name, holder, trait, public, law, begin in told.functions(code):
            contract = CONTRACT.match(code, begin)
            opens = code.find("{", contract.end())
            has_body = code[contract.end()] != ";"
            body = code[opens : closed(code, opens)] if has_body else ""
            signature = re.match(r"(?s).*?(?=\n *(?:requires|ensures)|\Z)", contract[0])[0]
            self.functions.append(Function(at, holder, trait, name, public, law, (signature, body)))


class Sources:
    """The crates that a program stands on."""

    def __init__(self, program=PROGRAM):
        told, self.named = edits(), libraries()
        self.below = {name: self.all_below(name) for name in self.named}
        self.crates = [it for it in self.named if it in self.below[program] | {program}]
        self.modules = {}
        for crate in self.crates:
            for module, text in told.texts_of(crate).items():
                self.modules[crate, module] = Module((crate, module), text, told)
        self.functions = [it for module in self.modules.values() for it in module.functions]
        self.free = {(*it.at, it.name): it for it in self.functions if not it.holder}
        self.methods = collections.defaultdict(list)
        for it in self.functions:
            if it.holder:
                self.methods[it.name].append(it)
        self.traits = {name for it in self.modules.values() for name, text in it.types.items() if re.match(r"(pub\S* )?trait", text)}

    def all_below(self, name):
        ours = [it for it in self.named[name] if it in self.named]
        return set(ours).union(*(self.all_below(it) for it in ours))

    @functools.cache
    def resolve(self, at, *path):
        """The crate, the module and the name that a path means in a module; None if it is of a library."""
        crate, module = at
        first, last = path[0], path[-1]
        if len(path) == 1:
            here = self.modules[at]
            if (*at, last) in self.free or last in here.types:
                return (*at, last)
            return self.resolve(at, *here.uses[last]) if here.uses.get(last, path) != path else None
        if first in self.crates:
            return self.resolve((first, "lib"), *path[1:])
        inner = path[1:] if first in ("crate", "self") else path
        if len(inner) > 1 and (crate, inner[0]) in self.modules:
            return self.resolve((crate, inner[0]), *inner[1:])
        return self.resolve((crate, "lib"), *inner) if inner != path else None

    def home(self, function):
        """The type that a function is of."""
        return function.holder and self.resolve(function.at, function.holder)

    def head(self, typed):
        """The type of ours that a type, a module and a text, is of; False for one of a library; None if that is not known."""
        at, text = typed
        name = re.match(r"&?(?:'\w+ )?(?:mut )?(\w*)", text.strip())[1]
        path = self.modules[at].uses.get(name, ("crate",))
        is_foreign = name in PRELUDE or path[0] not in ("crate", *self.crates) and (at[0], path[0]) not in self.modules
        return self.resolve(at, name) or (False if name and is_foreign else None)

    def given(self, function, name, until):
        """The type of a name in a function: of `self`, of an argument, or of what it is let be before a place."""
        if name == "self":
            return function.at, function.holder or ""
        body = function.text[1]
        if re.search(BOUND.format(name), body[:until]):
            return function.at, ""
        for it in reversed([*re.finditer(LET.format(name), body[:until])]):
            return (function.at, it[1]) if it[1] else self.type_of(function, body[it.end() :], it.start())
        return function.at, dict(GIVEN.findall(function.text[0])).get(name, "")

    def result(self, function):
        """The type that a function gives, with the name of its own for `Self`."""
        given = re.search(r"(?s)-> (.*)", function.text[0])
        return function.at, re.sub(r"\bSelf\b", function.holder or "Self", given[1] if given else "")

    def method(self, home, name):
        return next((it for it in self.methods[name] if home and self.home(it) == home), None)

    def type_of(self, function, text, until):
        """The type of a chain of calls and fields with which a text begins, as far as it is declared: a module and a text."""
        unknown = (function.at, "")
        begin = re.match(r"\s*[&*]*(?:mut )?((?:\w+(?:::<[^;{}()]*?>)?::)*)(\w+)(\()?", text)
        if not begin:
            return unknown
        path, end = re.findall(r"\w+", re.sub(r"::<.*?>", "", begin[1])), begin.end()
        path = [function.holder if it == "Self" and function.holder else it for it in path]
        if begin[3]:
            called = self.free.get(self.resolve(function.at, *path, begin[2]))
            called = called or path and self.method(self.resolve(function.at, *path), begin[2])
            found, end = self.result(called) if called else (function.at, path[-1] if path else ""), closed(text, end - 1)
        else:
            found = self.given(function, begin[2], until) if not path else unknown
        while step := STEP.match(text, end):
            end, home = step.end(), self.head(found)
            if step[1] == "?":
                inner = re.match(r"(?:io::)?(?:Result|Option)<(.*)", found[1])
                found = (found[0], inner[1]) if inner else unknown if home else found
            elif step[3]:
                called, end = self.method(home, step[2]), closed(text, end - 1)
                found = self.result(called) if called else unknown
            else:
                fields = dict(FIELD.findall(self.modules[home[:2]].types[home[2]])) if home else {}
                found = (home[:2], fields[step[2]]) if step[2] in fields else unknown
        return found if re.match(r"\s*(?:;|\Z)", text[end:]) else unknown

    def receiver(self, function, at):
        """The type of what a method is called of, whose dot stands there in the body; as `head` tells it."""
        body, begin = function.text[1], begin_of(function.text[1], at)
        return self.head(self.type_of(function, body[begin:at], begin))

    @functools.cache
    def names(self, function):
        """What a function names: the free functions, the types, the functions of types, and the methods of any type."""
        free, types, of_types, methods = set(), set(), set(), set()
        for before, name in NAMED.findall("".join(function.text)):
            path = re.findall(r"\w+", re.sub(r"::<.*?>", "", before))
            path = [function.holder if it == "Self" and function.holder else it for it in path]
            found = self.resolve(function.at, *path, name)
            holder = self.resolve(function.at, *path) if path else None
            free.update([found] if found in self.free else [])
            types.update(it for it in (found, holder) if it and it not in self.free)
            if holder:
                of_types.add((holder, name))
            elif path and found is None:
                methods.add(name)
        for it in METHOD.finditer(function.text[1]):
            found = self.receiver(function, it.start()) if it[1] in self.methods else False
            if self.method(found, it[1]):
                of_types.add((found, it[1]))
            elif found is not False or any(self.home(other) is None for other in self.methods.get(it[1], ())):
                methods.add(it[1])
        return free, types, of_types, methods

    def calls(self, one, other):
        """Whether a function calls another, as far as the sources tell: of a trait by its name alone."""
        free, _, of_types, methods = self.names(one)
        if not other.holder:
            return (*other.at, other.name) in free
        return (self.home(other), other.name) in of_types or other.name in methods

    def declared(self, home):
        """The types that the declaration of a type names."""
        crate, module, name = home
        here = self.modules[crate, module]
        found = {self.resolve(here.at, it) for it in re.findall(r"\w+", here.types[name])}
        return {it for it in found if it and it not in self.free}

    def is_called(self, function, types, of_types, by_name):
        """Whether a function of a type or a trait is called, by what was named so far."""
        home, by_trait = self.home(function), function.trait and function.trait.rpartition("::")[2]
        if home and home not in types:
            return False
        if (home, function.name) in of_types or by_trait and by_trait not in self.traits:
            return True
        callers = by_name.get(function.name, ())
        if by_trait:
            return bool(callers)
        return any(it == function.at[0] or function.at[0] in self.below[it] for it in callers)

    def called(self, program=PROGRAM):
        """The functions that the program calls, from its `main` on, and the types that these name."""
        todo = [self.free[program, "main", "main"]]
        found, types, of_types, by_name = set(), set(), set(), collections.defaultdict(set)
        while todo:
            found.update(todo)
            reached = set()
            for function in todo:
                free, more, pairs, methods = self.names(function)
                reached.update(self.free[it] for it in free)
                types.update(more)
                of_types.update(pairs)
                for it in methods:
                    by_name[it].add(function.at[0])
            while more := set().union(*(self.declared(it) for it in types)) - types:
                types |= more
            reached.update(it for it in self.functions if it.holder and self.is_called(it, types, of_types, by_name))
            todo = [it for it in self.functions if it in reached and it not in found]
        return found, types
