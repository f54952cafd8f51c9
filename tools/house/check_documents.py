#!/usr/bin/env python3
"""Refuses sentences of documents that name what isn't there, or tell another count than there is: check_documents.py

- A file or folder in backquotes or behind a link, or one that a command names.
- A section, as `docs/FORMATS.md`, "The record", or one that a link leads to.
- A call, a type or a clause that PROMISES, ARCHITECTURE or CONTRIBUTING names.
- A count that `COUNTS` lists, and the numbers of "What a change costs" in CONTRIBUTING.md.
- A crate that the table of PROMISES or the page ARCHITECTURE lacks, and one that they have and crates.txt hasn't.

A count is told where its sentence is gone, too, so that no check is lost unseen. What is in REVIEWS and COSTS is told
of its day, so their names and counts aren't asked. Status: 0 where all is there, else 1.
"""

import functools
import re
import sys
from collections.abc import Callable, Iterator
from pathlib import Path

import change_costs

ROOT = Path(__file__).resolve().parents[2]
for _folder in ("rows", "users"):
    sys.path.insert(0, str(ROOT / "tools" / _folder))

DOCUMENTS = ["README.md", "CONTRIBUTING.md", "examples/README.md", "tables/README.md", "tools/README.md"]
# Documents that tools make, and those that tell of a day.
MADE, OF_A_DAY = {"docs/DEFINITIONS.md", "docs/REFUSALS.md"}, {"docs/REVIEWS.md", "docs/COSTS.md"}
NAMING = {"docs/PROMISES.md", "docs/ARCHITECTURE.md", "CONTRIBUTING.md"}
FOLDERS = ("crates", "docs", "tools", "tables", "examples", "hostile-cases")
# What a run or a tool of a reader makes, and what stands for a name.
MADE_LATER = re.compile(
    r"^(build|modules|archive|report|pictures|recordings|lines\.txt|in\.|out\.)|\bNAME\b|\bCRATE\b|[*$<{]|\.\.$"
)
WORDS = {word: number for number, word in enumerate("zero one two three four five six seven eight nine ten".split())}


def lines_of(path: str) -> list[str]:
    return (ROOT / path).read_text(encoding="utf-8").split("\n")


def documents() -> list[str]:
    return [*DOCUMENTS, *sorted(f"docs/{it.name}" for it in (ROOT / "docs").glob("*.md"))]


# Files


def named_paths(line: str) -> Iterator[str]:
    """The paths of this repository that a line names in backquotes, in a link or in a command."""
    for span in re.findall(r"`([^`]+)`", line):
        words = span.split() if span.startswith(("tools/", "build/", "examples/")) else [span]
        yield from (it for it in words if it.split("/")[0] in FOLDERS and "/" in it)
    if line.startswith("    "):
        yield from (it for it in re.split(r"[\s`]+", line) if it.split("/")[0] in FOLDERS and "/" in it)


def is_there(path: str, document: str) -> bool:
    if MADE_LATER.search(path):
        return True
    path = path.rstrip(".,:;").split("#")[0]
    return (ROOT / path).exists() or (ROOT / document).parent.joinpath(path).exists()


def without_spans(line: str) -> str:
    """A line without what stands in backquotes, unless that is the text of a link."""
    return re.sub(r"`[^`]*`(?!\])", "", line)


def missing_files(document: str) -> Iterator[str]:
    for number, line in enumerate(lines_of(document), 1):
        paths = list(named_paths(line))
        paths += [it for it in re.findall(r"\]\(([^)#]+)[^)]*\)", without_spans(line)) if "://" not in it]
        yield from (f"{document}:{number}: there is no {it}" for it in paths if not is_there(it, document))


# Sections


@functools.cache
def headings(document: str) -> list[str]:
    return [line.lstrip("# ") for line in lines_of(document) if re.match(r"#+ ", line)]


def anchor_of(heading: str) -> str:
    """The anchor of a heading, as pages of Markdown have it."""
    return re.sub(r"[^\w\- ]", "", heading.lower()).replace(" ", "-")


def has_section(document: str, title: str) -> bool:
    return any(it == title or it.startswith(f"{title} (") for it in headings(document))


SECTION = re.compile(
    r'`?((?:docs/|tables/|examples/|tools/)?[A-Z]+\.md|README)`?,? (?:(?:in|under) )?"([^"]+)"(?: and "([^"]+)")?'
)


def missing_sections(path: str) -> Iterator[str]:
    """Sections that a file names of a document, and links to sections that aren't there."""
    for number, line in enumerate(lines_of(path), 1):
        for document, *titles in SECTION.findall(line):
            document = document if document.endswith(".md") else f"{document}.md"
            if not (ROOT / document).is_file():
                yield f"{path}:{number}: there is no {document}"
                continue
            yield from (
                f"{path}:{number}: {document} has no section {it}"
                for it in titles
                if it and not has_section(document, it)
            )
        for target, anchor in re.findall(r"\]\(([^)#:]*)#([^)]+)\)", line) if path.endswith(".md") else []:
            document = str(Path(path).parent / target) if target else path
            # (that a file is there is asked of all links)
            if (ROOT / document).is_file() and anchor not in map(anchor_of, headings(document)):
                yield f"{path}:{number}: {document} has no section #{anchor}"


def sources() -> list[str]:
    """The sources and tools whose comments may name sections."""
    found = [
        *(ROOT / "crates").glob("*/*/**/*.rt"),
        *(ROOT / "crates").glob("*/specs/**/*.antt"),
        *(ROOT / "tools").glob("*/*.py"),
    ]
    # (the test of this tool names sections that aren't there)
    paths = [it.relative_to(ROOT) for it in found if it.name != "test_check_documents.py"]
    return sorted(str(it) for it in paths if "out" not in it.parts)


# Calls


@functools.cache
def words_there() -> frozenset[str]:
    """All words of the sources, the definitions, the tools and the tables, and the names of files."""
    found: set[str] = set()
    for folder, forms in (("crates", ("*.rt", "*.antt", "*.edit")), ("tools", ("*.py", "*.sh"))):
        for form in forms:
            for path in (ROOT / folder).rglob(form):
                if "out" not in path.relative_to(ROOT).parts:
                    found.update(re.findall(r"\w+", path.read_text(encoding="utf-8", errors="replace")))
                    found.add(path.stem)
    found.update(re.findall(r"[\w]+", (ROOT / "crates.txt").read_text()))
    return frozenset(found)


def missing_names(document: str) -> Iterator[str]:
    """Names of calls, types, clauses and definitions that are nowhere in the sources."""
    for number, line in enumerate(lines_of(document), 1):
        for span in re.findall(r"`([^`]+)`", line):
            if not re.fullmatch(r"(\w+)((::|\.)\w+)*", span) or not re.search(r"_|::|[a-z][A-Z]", span):
                continue
            parts = re.findall(r"\w+", span)
            yield from (f"{document}:{number}: nothing is named {it}" for it in parts if it not in words_there())


# Counts


def examples() -> int:
    return sum(1 for it in (ROOT / "examples").iterdir() if it.is_dir())


def wrong_calls() -> int:
    import try_wrong_calls

    return len(try_wrong_calls.WRONG)


def block_streams() -> int:
    import shuffled_blocks

    return shuffled_blocks.ROWS


def block_orders() -> int:
    import carousel_rows

    return len(carousel_rows.orders())


def rows_of(names: tuple[str, ...], kinds: str) -> int:
    """The rows of some kinds in files of `script_tests`."""
    texts = [(ROOT / f"crates/script_tests/data/{it}.txt").read_text(encoding="utf-8") for it in names]
    return sum(len(re.findall(rf"(?m)^(?:{kinds})\t", text)) for text in texts)


def edits() -> list[int]:
    """How many edits each crate has in `must-fail/`, of those that have any."""
    counts = [len(list(it.glob("must-fail/*.edit"))) for it in (ROOT / "crates").iterdir()]
    return [it for it in counts if it]


def variants(path: str, name: str) -> int:
    """How many variants an enum of the code has."""
    text = (ROOT / path).read_text(encoding="utf-8")
    body = re.search(rf"enum {name} {{\n(.*?)\n}}", text, re.S)
    return len(re.findall(r"(?m)^    \w+(?:\(.*\))?,$", body[1])) if body else 0


# Of each count the document, its sentence with the number as `#`, and what there is.
COUNTS: list[tuple[str, str, Callable[[], int]]] = [
    ("README.md", "`examples/README.md` lists # such runs", examples),
    ("docs/PROMISES.md", "`tools/rows/try_wrong_calls.py` tries # wrong ways", wrong_calls),
    ("docs/PROMISES.md", "- # streams of blocks in no order", block_streams),
    ("docs/PROMISES.md", "- # streams of one module's sections", block_orders),
    ("docs/PROMISES.md", "are # scripts in rows", lambda: rows_of(("scripts", "runs"), "script|steps|runs")),
    ("docs/PROMISES.md", "The # of its file `runs.txt`", lambda: rows_of(("runs",), "steps|runs")),
    ("docs/PROMISES.md", "of # texts with the tokens", lambda: rows_of(("expressions",), "expression")),
    ("CONTRIBUTING.md", "a crate that has any has # to", lambda: min(edits())),
    ("CONTRIBUTING.md", "a crate that has any has two to #", lambda: max(edits())),
    (
        "docs/PROMISES.md",
        "| the # calls with their names",
        lambda: variants("crates/browser_objects/src/calls.rt", "BrowserCall"),
    ),
    (
        "docs/PROMISES.md",
        "the table of the # properties",
        lambda: variants("crates/style_reader/src/properties.rt", "Property"),
    ),
]


def number_of(text: str) -> int:
    return WORDS[text] if text in WORDS else int(text.replace(",", ""))


def told_count(text: str, sentence: str) -> int | None:
    """The number that a text has at the place of `#` in a sentence, None where it has no such sentence."""
    before, after = (re.escape(it) for it in sentence.split("#"))
    # (a line may end within the sentence)
    form = (before + r"(\d[\d,]*|" + "|".join(WORDS) + ")" + r"\b" + after).replace(r"\ ", r"\s+")
    found = re.search(form, text)
    return number_of(found[1]) if found else None


def wrong_counts() -> Iterator[str]:
    for document, sentence, count in COUNTS:
        told, there = told_count("\n".join(lines_of(document)), sentence), count()
        if told is None:
            yield f'{document}: the sentence "{sentence}" is gone: take its check away, too'
        elif told != there:
            yield f'{document}: "{sentence}" tells {told:,}, and there are {there:,}'


def change_rows() -> Iterator[tuple[int, list[str], list[int]]]:
    """The rows of "What a change costs": their lines, their names and their numbers."""
    for number, line in enumerate(lines_of("CONTRIBUTING.md"), 1):
        found = re.fullmatch(r"\| [^|]+ \| `([^`]+)` \| (\d+) \| (\d+) \| (\d+) \|", line)
        if found:
            yield number, found[1].split(), [int(it) for it in found.groups()[1:]]


def wrong_changes() -> Iterator[str]:
    files = list(change_costs.files())
    for number, names, told in change_rows():
        found, missing = change_costs.named(names, files)
        there = [len(found[it]) for it in ("sources", "definitions", "proofs")]
        if missing or there != told:
            kinds = "sources, definitions and proofs"
            yield f"CONTRIBUTING.md:{number}: {' '.join(names)} are in {there} {kinds}, and not in {told}"


# Crates


def crates() -> list[str]:
    found = [re.match(r"(\w+):", it) for it in (ROOT / "crates.txt").read_text().splitlines()]
    return [it[1] for it in found if it and (ROOT / "crates" / it[1]).is_dir()]


def crates_told() -> Iterator[str]:
    """Crates that PROMISES has not just once in its table, or ARCHITECTURE nowhere."""
    table = "\n".join(lines_of("docs/PROMISES.md")).split("## By crate")[1].split("\n## ")[0]
    told = re.findall(r"(?m)^\| `(\w+)` \|", table) + [
        it for it in re.findall(r"`(\w+)`", table) if it.endswith("_tests")
    ]
    layers = "\n".join(lines_of("docs/ARCHITECTURE.md"))
    for crate in crates():
        if told.count(crate) != 1:
            yield f"docs/PROMISES.md: {crate} stands {told.count(crate)} times in the table of crates"
        if not re.search(rf"\b{crate}\b", layers):
            yield f"docs/ARCHITECTURE.md: nothing is said of {crate}"
    yield from (f"docs/PROMISES.md: there is no crate {it}" for it in told if it not in crates())


def main() -> int:
    found: list[str] = []
    for document in documents():
        if document not in OF_A_DAY:
            found += missing_files(document)
        if document not in MADE:
            found += missing_sections(document)
        if document in NAMING:
            found += missing_names(document)
    for path in sources():
        found += missing_sections(path)
    found += [*wrong_counts(), *wrong_changes(), *crates_told()]
    print("\n".join(found) if found else "what the documents name is there")
    return 1 if found else 0


if __name__ == "__main__":
    sys.exit(main())
