#!/usr/bin/env python3
"""Lists the definitions that the headline stands on: what a reader has to believe.

It begins with the clauses of a public function (the program's top call `run`, if none is named), with the traits in its signature and
with the types of its arguments and its result. From there it follows each name to the definition that it means, in whatever crate, down
to numbers, lists and the toolchain's own library. It prints what it found as Markdown, theme by theme (themes.py) and file by file: the
headline's own theme first, and in each theme a file before those that it rests on.

It reads every form that the files of specs/ have, and ends with an error at any other one, so that nothing is left out unseen.

    tools/house/definitions.py                      prints the list for the headline
    tools/house/definitions.py --check FILE         says whether FILE holds just that list, and ends with 1 if it doesn't
    tools/house/definitions.py --of CRATE FUNCTION  prints the list for another public function
    tools/house/definitions.py --root FOLDER        reads another tree than this repository
"""

import argparse
import re
import sys
from pathlib import Path

import spec_files
from spec_files import SpecFile, Unknown, walk
from source_files import Sources
from themes import OTHERS, THEMES, sources_of, theme_of

ROOT = Path(__file__).resolve().parents[2]
HEADLINE = ("replay_run", "run")



class Reader:
    """Follows names over the files of a tree."""

    def __init__(self, root):
        self.crates = root / "crates"
        self.names = {it.name for it in self.crates.iterdir() if (it / "src").is_dir()}
        self.sources = Sources(self.crates, self.names)
        self.files = {}
        self.library = {}   # what is used of the toolchain's library: path -> names
        self.laws = {}      # (crate, source) -> laws that say what a device computes
        self.edges = {}     # what a definition names: node -> nodes

    # -- files and places

    def file(self, crate, module):
        """The file of a module of specs/, None where there is none."""
        key = (crate, module)
        if key not in self.files:
            path = self.crates / crate / "specs" / (module.replace(".", "/") + ".antt")
            self.files[key] = SpecFile(crate, module, path) if path.is_file() else None
        return self.files[key]

    def resolve(self, path, name, where):
        """What a name after a path of modules means: a node, or None where it is the toolchain's own."""
        found = re.match(r"Rattle\.(\w+)\.(.+)$", path)
        if not found or found[1] not in self.names:
            self.library.setdefault(path, set()).add(name)
            return None
        crate, rest = found[1], found[2]
        if rest.startswith("proofs."):
            raise Unknown(f"{where}: a definition names the proofs of {crate}: {path}.{name}")
        module = rest.removeprefix("specs.")
        if module.startswith("declared."):
            return self.declared(crate, module.removeprefix("declared.").split("."), name, where)
        if module.split(".")[0] == "contracts":
            raise Unknown(f"{where}: a definition names a contract: {path}.{name}")
        file = self.file(crate, module)
        if file is None and "." in module:
            # the parts of a type stand in the module of the type, below its file
            module, _, name = module.rpartition(".")
            file = self.file(crate, module)
        if file is None:
            raise Unknown(f"{where}: there is no file for {path}")
        if name in file.owners:
            return ("spec", crate, module, file.owners[name])
        if name in file.named:
            return self.resolve(*file.named[name], where)
        raise Unknown(f"{where}: {file.path} has no {name}")

    def declared(self, crate, parts, name, where):
        """A type of the code: `module.Type`, or `module.Type.TheVariants`."""
        types = [it for it in parts if it[0].isupper() and it != "TheVariants"] or [name]
        source = self.sources.of_type(crate, types[0])
        if source is None:
            raise Unknown(f"{where}: there is no type {types[0]} in the code of {crate}")
        return ("type", *source, types[0])

    # -- what a node names

    def named_by_definition(self, crate, module, name):
        file = self.file(crate, module)
        where = f"{file.path}: {name}"
        for word, rest in walk(file.items[name], file):
            if word in file.owners:
                if file.owners[word] != name:
                    yield ("spec", crate, module, file.owners[word])
            elif word in file.named:
                yield self.resolve(*file.named[word], where)
            elif word in file.modules and rest:
                yield self.resolve(file.modules[word], rest, where)

    def named_in_code(self, crate, source, ghost_text):
        """The nodes that a ghost text of a source file names, by the `ghost use` lines of that file."""
        named, modules = self.sources.ghost_imports(crate, source)
        scope = spec_files.Scope(named, modules)
        for word, rest in walk(spec_files.term(ghost_text), scope):
            if word in named:
                yield self.resolve(*named[word], f"{crate}/src/{source}")
            elif word in modules and rest:
                yield self.resolve(modules[word], rest, f"{crate}/src/{source}")

    def named_by_type(self, crate, source, name):
        kind, code, ghosts = self.sources.parts_of(crate, source, name)
        for ghost in ghosts:
            yield from self.named_in_code(crate, source, ghost)
        for word in code:
            found = self.sources.meant(crate, source, word)
            if found:
                yield ("type", *found, word)

    def named_by(self, node):
        if node[0] == "spec":
            return self.named_by_definition(*node[1:])
        return self.named_by_type(*node[1:])

    # -- the walk

    def start(self, crate, function):
        """Follows all that the clauses and the signature of a public function name."""
        source, clauses, words = self.sources.function(crate, function)
        self.top = crate
        first = [it for it in self.named_in_code(crate, source, clauses) if it]
        for word in words:
            found = self.sources.meant(crate, source, word)
            if found:
                first.append(("type", *found, word))
        self.first, told = list(dict.fromkeys(first)), set()
        todo = list(self.first)
        while todo:
            node = todo.pop()
            if node in self.edges:
                continue
            self.edges[node] = list(dict.fromkeys(it for it in self.named_by(node) if it))
            todo += self.edges[node]
            if self.is_device(node) and node[1:3] not in told:
                told.add(node[1:3])
                behind = self.said_of_device(*node[1:3])
                self.first += behind
                todo += behind

    def said_of_device(self, crate, module):
        """What the laws speak of that the head of a device names: these say what the device computes."""
        file = self.file(crate, module)
        laws = re.findall(r"`(law_of_\w+)`", file.sentence())
        if not laws:
            raise Unknown(f"{file.path}: the headline passes through this device, and its head names no law that says what it computes")
        given = []
        for law in laws:
            source, clauses, _ = self.sources.function(crate, law)
            given += [it for it in self.named_in_code(crate, source, clauses) if it]
            self.laws.setdefault((crate, source), set()).add(law)
        return given

    def reachable(self, passes):
        """The nodes that are reached over nodes for which `passes` holds."""
        seen, todo = set(), [it for it in self.first if passes(it)]
        while todo:
            node = todo.pop()
            if node not in seen:
                seen.add(node)
                todo += [it for it in self.edges[node] if passes(it)]
        return seen

    def is_device(self, node):
        return node[0] == "spec" and self.file(node[1], node[2]).is_device

    def order(self, nodes):
        """The files of these nodes: each before those that it stands on, `Headline` and its crate first, and else by name."""
        def key(file):
            return file[1] != "Headline", file[0] != self.top, file

        of = {it: it[1:3] for it in nodes if it[0] == "spec"}
        below = {file: set() for file in of.values()}
        for node, file in of.items():
            below[file] |= {of[to] for to in self.edges[node] if to in of and of[to] != file}
        left, given = set(below), []
        while left:
            above = {to for it in left for to in below[it]}
            ready = sorted(left - above, key=key) or sorted(left, key=key)[:1]
            given += ready
            left -= set(ready)
        return given


def as_markdown(text):
    """A text of a comment, in which `*` and `<` are themselves outside of backquotes."""
    parts = text.split("`")
    return "`".join(part if n % 2 else re.sub(r"([*<])", r"\\\1", part) for n, part in enumerate(parts))


class Listed:
    """Files of definitions as they are listed: their text, how many definitions and lines they have, and what their heads say."""

    def __init__(self, reader, nodes, files):
        self.files, self.text, self.count, self.lines, self.heads = files, [], 0, 0, []
        for crate, module in files:
            file = reader.file(crate, module)
            names = [it for it in file.items if ("spec", crate, module, it) in nodes]
            self.count += len(names)
            self.lines += sum(file.lines[it] for it in names)
            self.heads.append(file.sentence())
            shown = f"crates/{crate}/specs/{module.replace('.', '/')}.antt"
            self.text += [f"#### `{shown}`", "", as_markdown(file.sentence()), "", ", ".join(f"`{it}`" for it in names), ""]


def by_theme(reader, nodes, themes):
    """The themes that have files of these definitions, in their order, each with its files in reading order."""
    of = {}
    for crate, module in reader.order(nodes):
        of.setdefault(theme_of(crate, module, themes), []).append((crate, module))
    return {theme: Listed(reader, nodes, of[theme]) for theme in [*themes, OTHERS] if theme in of}


def rests_on(reader, nodes, listed):
    """For each theme the other ones whose definitions its own name, in their order."""
    theme_at = {file: theme for theme, it in listed.items() for file in it.files}
    named = {theme: set() for theme in listed}
    for node in nodes:
        if node[0] == "spec":
            named[theme_at[node[1:3]]] |= {theme_at[to[1:3]] for to in reader.edges[node] if to in nodes and to[0] == "spec"}
    return {theme: [it for it in listed if it in named[theme] and it != theme] for theme in listed}


def themes_as_text(reader, nodes, themes):
    """A table of the themes, and then the files of each."""
    listed = by_theme(reader, nodes, themes)
    below = rests_on(reader, nodes, listed)
    numbers = {theme: number for number, theme in enumerate(listed, 1)}
    table, text, sum_ = ["| | theme | lines | together | definitions | follows | rests on |", "|---|---|---|---|---|---|---|"], [], 0
    for theme, it in listed.items():
        sum_ += it.lines
        follows = ", ".join(sources_of(it.heads))
        on = ", ".join(str(numbers[other]) for other in below[theme])
        table.append(f"| {numbers[theme]} | {theme.title} | {it.lines:,} | {sum_:,} | {it.count:,} | {follows} | {on} |")
        told = f"{theme.about} {counted(it.count, 'definition')} in {counted(len(it.files), 'file')}, {counted(it.lines, 'line')}."
        text += [f"### {numbers[theme]}. {theme.title}", "", told, "", *it.text]
    return [*table, "", *text], sum(it.count for it in listed.values()), sum_


def types_as_text(reader, nodes):
    files = {}
    for _, crate, source, name in sorted(it for it in nodes if it[0] == "type"):
        files.setdefault(f"crates/{crate}/src/{source}", []).append(
            f"`{name}`" + reader.sources.remark(crate, source, name))
    return [f"- `{path}`: " + ", ".join(names) for path, names in files.items()]


def library_as_text(reader):
    return [f"- `{path}`: " + ", ".join(f"`{name}`" for name in sorted(names)) for path, names in sorted(reader.library.items())]


def counted(number, word):
    return f"{number:,} {word}" + ("" if number == 1 else "s")


def page(reader, what, themes=THEMES):
    everything = set(reader.edges)
    believed = reader.reachable(lambda it: not reader.is_device(it))
    passed = everything - believed
    text, count, lines = themes_as_text(reader, believed, themes)
    devices = Listed(reader, passed, reader.order(passed))
    spec_count = len({it[1:3] for it in believed if it[0] == "spec"})
    out = [
        "# Definitions",
        "",
        f"These are the definitions that {what} rests on. A reader who finds them right, and trusts what `README.md` lists as trusted, may believe",
        "what it says. The code and the proofs needn't be read for that: the prover checks them against these definitions.",
        "",
        "The list goes by theme in the order of a reader, the meaning of a run first. Each theme can be read by itself: the table has its lines, the",
        "lines up to its end, the standards that its files name, and the numbers of the themes that it rests on. In a theme each file comes before",
        "those that it rests on. For each file the list has its first lines and the definitions that are used.",
        "",
        "`tools/house/definitions.py` makes this page by following names, and ends with an error at a form that it doesn't know. `.ci/run` makes the",
        "page anew and compares. `tools/house/test_definitions.py` finds the same definitions in a second way, by words alone.",
        "",
        f"{counted(count, 'definition')} in {counted(spec_count, 'file')}, {counted(lines, 'line')} without comments; and the types of the code at the end."
        + (f" Beside them {counted(devices.count, 'device')} in {counted(len(devices.files), 'file')}, {counted(devices.lines, 'line')}." if devices.count else ""),
        "",
        "## To be believed",
        "",
        *text,
    ]
    if devices.count:
        out += [
            "## Devices",
            "",
            "A device computes what a definition above says in another way. The definitions above pass through these, and a law, which is proved,",
            "says that both agree: " + ", ".join(sorted(f"`{law}` of `crates/{crate}/src/{source}`" for (crate, source), laws in reader.laws.items() for law in laws))
            + ". Who trusts the prover needn't read what follows here.",
            "",
            *devices.text,
        ]
    out += [
        "## Types of the code",
        "",
        "The definitions speak of values of these types. A type without a remark is seen as it is written in the code, field by field. One",
        "with `as` is seen as the type after that word. Of a trait all clauses count: they say what the outside may do.",
        "",
        *types_as_text(reader, everything),
        "",
        "## Of the toolchain's library",
        "",
        "Lists, numbers, options and the like are those of the toolchain, which is trusted. These are used here.",
        "",
        *library_as_text(reader),
    ]
    return "\n".join(out) + "\n"


def main():
    words = argparse.ArgumentParser(description=__doc__.split("\n")[0])
    words.add_argument("--check", metavar="FILE", help="compare with FILE")
    words.add_argument("--of", nargs=2, metavar=("CRATE", "FUNCTION"), default=HEADLINE)
    words.add_argument("--root", type=Path, default=ROOT, metavar="FOLDER")
    given = words.parse_args()
    try:
        reader = Reader(given.root)
        reader.start(*given.of)
        made = page(reader, "the headline" if tuple(given.of) == HEADLINE else f"`{given.of[0]}::{given.of[1]}`")
    except Unknown as fault:
        print(f"definitions.py: {fault}", file=sys.stderr)
        return 2
    if not given.check:
        print(made, end="")
        return 0
    if Path(given.check).read_text(encoding="utf-8") == made:
        return 0
    print(f"{given.check} isn't the list of the definitions any more: make it anew by tools/house/definitions.py > {given.check}")
    return 1


if __name__ == "__main__":
    sys.exit(main())
