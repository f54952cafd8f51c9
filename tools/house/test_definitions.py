#!/usr/bin/env python3
"""Tests tools/house/definitions.py: over small trees with a definition of each form, and over this repository by a second way to find names.

The small trees say which definitions have to be found and which not, and which forms have to be refused. Over this repository the list is
compared with what the words of the files alone give, without any notion of scope: a tool that reads less than there is would differ.
Status: 0 where all is as wanted, else 1.
"""

import re
import sys
import tempfile
from pathlib import Path

import definitions
from spec_files import Unknown
from themes import OTHERS, THEMES, Theme, sources_of

ROOT = Path(__file__).resolve().parents[2]

HEADLINE = """
ghost use Rattle.top.specs.Headline.{Means};

use low::{Value, World};

pub fn run<W: World>(value: &Value, world: &mut W) -> u8
    ensures headline { Means value.now (W.told world.new) result }
{
    0
}
"""

LOW_SOURCE = """
ghost use Rattle.std.specs.Prelude.{ℕ};
ghost use Rattle.low.specs.Told.{Told, Rises};
ghost use Rattle.low.specs.Models.{ModelState};
ghost use Rattle.low.specs.Laws.{IsOdd, odd_by_steps};

pub enum Value {
    Plain(u8),
    Held(Holder),
}

pub struct Holder {
    pub inner: Modelled,
}

pub struct Modelled {
    hidden: Hidden,
}

impl Model for Modelled {
    ghost Value = { ModelState };
    ghost view = { λ m. m.hidden };
}

pub struct Hidden {
    number: u8,
}

pub trait World {
    ghost told: { Self → Told };

    fn ask(&mut self) -> u8
        ensures more { Rises (told self.old) (told self.new) };
}

pub fn law_of_odd(number: u8)
    ensures { IsOdd number ≡ odd_by_steps number }
{
}
"""

# file: (text, what has to be found in it)
SPECS = {
    "top/specs/Headline": ("""-- What a run means. This project's own.
use Rattle.std.specs.Prelude.{ℕ, List, []}
use Rattle.low.specs.declared.lib.Value.{Value}
use Rattle.low.specs.Told.{Told}
use Rattle.low.specs.Forms.{plain, abbreviated, opened, twice as doubled}
use Rattle.low.specs.Passed.{handed_on}
use Rattle.low.specs.Shapes as shapes
use Rattle.low.specs.Unused.{unused}

abbrev pub Means : Value → Told → ℕ → Type 0
Means value told result =
    plain value (abbreviated (opened 1)) × (doubled handed_on ≡ shapes.area_of value)

-- nobody names it
abbrev pub Idle : Type 0
Idle = unused
""", "Means"),
    "low/specs/Told": ("""-- What a world tells. This project's own.
use Rattle.std.specs.Prelude.{ℕ}

pub record Told : Type 0 where
  pub count : Counter
  pub «in» other : ℕ

pub record Counter : Type 0 where
  pub faults : ℕ

-- only the trait's clause names it
abbrev pub Rises : Told → Told → Type 0
Rises a b = Unit {0}
""", "Told Counter Rises"),
    "low/specs/Models": ("""-- What a value is seen as. This project's own.
use Rattle.std.specs.Prelude.{ℕ}

pub record ModelState : Type 0 where
  pub number : ℕ
""", "ModelState"),
    "low/specs/Forms": ("""-- A definition of each form. This project's own.
use Rattle.std.specs.Prelude.{ℕ, List, [], ◌∷◌, Option, Some, None}

infixl 10 ◌>>◌
abbrev pub ◌>>◌ : ℕ → ℕ → ℕ
a >> b = shifted a b

shifted : ℕ → ℕ → ℕ
shifted a b = a

-- a signature without a mark, an operator, and clauses by cases
pub plain : Leaf → ℕ → Type 0
plain (Green n) rest = from_clause (n >> 1)
plain Bare
  rest = from_second_clause

from_clause : ℕ → Type 0
from_clause n = Unit {0}

from_second_clause : Type 0
from_second_clause = Unit {0}

pub data Leaf : Type 0 where
  Green : (n : ℕ) → (cap : Cap) → Leaf
  Bare : Leaf

pub record Cap : Type 0 where
  pub size : ℕ

-- a helper below a clause, which covers the definition of its name; its own names
abbrev pub abbreviated : ℕ → ℕ
abbreviated n = helper (below_where n)
  where
    helper : ℕ → ℕ
    helper m = covered (named_by_helper m)
      where
        covered : ℕ → ℕ
        covered k = named_by_inner k

below_where : ℕ → ℕ
below_where n = n

helper : ℕ → ℕ
helper n = n

covered : ℕ → ℕ
covered n = n

named_by_helper : ℕ → ℕ
named_by_helper n = n

named_by_inner : ℕ → ℕ
named_by_inner n = n

-- an implicit argument, a label and a variable cover definitions; the text is no name, and neither is what is after `--`
unfoldable pub opened {ℓ} : {A : Type ℓ} → ℕ → ℕ
opened label_only = record { label_only = λ variable_only. variable_only "text_only"; faults = let let_only = let_value in let_only } -- remark_only

let_value : ℕ
let_value = 1

label_only : ℕ
label_only = 1

variable_only : ℕ
variable_only = 1

text_only : ℕ
text_only = 1

let_only : ℕ
let_only = 1

remark_only : ℕ
remark_only = 1

abbrev mutual
  pub twice : ℕ → ℕ
  twice n = once n

  once : ℕ → ℕ
  once n = twice (in_mutual n)

in_mutual : ℕ → ℕ
in_mutual n = n

mutual
  pub data Tree : Type 0 where
    TreeOf : Trees → Tree

  pub data Trees : Type 0 where
    NoTrees : Trees
""", "◌>>◌ shifted plain from_clause from_second_clause Leaf Cap abbreviated below_where named_by_helper named_by_inner opened let_value twice once in_mutual"),
    "low/specs/Passed": ("""-- Names that are handed on. This project's own.
pub use Rattle.low.specs.Far.{handed_on}
""", ""),
    "low/specs/Far": ("""-- What is handed on. This project's own.
use Rattle.std.specs.Prelude.{ℕ}
use Rattle.low.specs.Odd.{odd_by_steps}

abbrev pub handed_on : ℕ
handed_on = odd_by_steps 3
""", "handed_on"),
    "low/specs/Odd": ("""-- A device of the proofs: whether a number is odd, step by step; by `law_of_odd` it is what `Laws` says.
use Rattle.std.specs.Prelude.{ℕ}
use Rattle.low.specs.devices.Halving.{halved}

abbrev pub odd_by_steps : ℕ → ℕ
odd_by_steps n = a_step (halved n)

a_step : ℕ → ℕ
a_step n = n
""", "odd_by_steps a_step"),
    "low/specs/devices/Halving": ("""-- Halves, as `law_of_odd` tells of them.
use Rattle.std.specs.Prelude.{ℕ}

abbrev pub halved : ℕ → ℕ
halved n = n
""", "halved"),
    "low/specs/Laws": ("""-- Odd numbers. This project's own.
use Rattle.std.specs.Prelude.{ℕ}
pub use Rattle.low.specs.Odd.{odd_by_steps}

abbrev pub IsOdd : ℕ → ℕ
IsOdd n = half n

half : ℕ → ℕ
half n = n
""", "IsOdd half"),
    "low/specs/Shapes": ("""-- Shapes, with a section. This project's own.
use Rattle.std.specs.Prelude.{ℕ}

module _ {S : Side} where
  pub area_of : S → ℕ
  area_of s = S.length

pub record Side : Type 0 where
  pub length : ℕ

pub data Unnamed : Type 0 where
  OnlyOne : Unnamed
""", "area_of Side"),
    "low/specs/Unused": ("""-- Nothing of it is reached. This project's own.
abbrev pub unused : Type 0
unused = Unit {0}
""", ""),
}

DEVICES = {"odd_by_steps", "a_step", "halved"}
TYPES = {"Value", "Holder", "Modelled", "World"}

# forms that have to be refused, each at the end of low/specs/Forms
REFUSED = {
    "an axiom": "axiom pub wished : Type 0",
    "a ruleset": "pub ruleset some = [ plain ]",
    "a syntax": "syntax pub ⟦_⟧ = plain",
    "a clause of another definition": "elsewhere n = n",
    "an equation of nothing": "1 = 1",
    "a `where` within a line": "abbrev pub late : Type 0\nlate = inner where inner = Unit {0}",
    "a data type on one line": "pub data Flat : Type 0",
    "a constructor without a type": "pub data Odd : Type 0 where\n  NoType",
    "a name that is derived": "pub data Odd : Type 0 where\n  One : Odd\n  deriving Code",
    "an opened field": "pub record Odd : Type 0 where\n  open Cap use {size}",
    "a comment over lines": "{- a comment -}",
    "the same name twice": "abbrev pub plain : Type 0\nplain = Unit {0}",
    "an import of all names": "use Rattle.low.specs.Told.*",
    "marks before nothing": "abbrev pub",
}


def tree(room, changed=()):
    files = {"top/src/lib.rt": HEADLINE, "low/src/lib.rt": LOW_SOURCE}
    files |= {f"{path}.antt": text for path, (text, _) in SPECS.items()}
    files |= dict(changed)
    for path, text in files.items():
        target = room / "crates" / path
        target.parent.mkdir(parents=True, exist_ok=True)
        target.write_text(text, encoding="utf-8")
    return room


def read(changed=()):
    with tempfile.TemporaryDirectory(prefix="definitions-") as room:
        reader = definitions.Reader(tree(Path(room), changed))
        reader.start("top", "run")
        return reader, definitions.page(reader, "the headline")


def refusal(changed):
    """What the tool says where it refuses a tree, None where it takes it."""
    try:
        read(changed)
    except Unknown as fault:
        return str(fault)
    return None


def check_small_trees(tell):
    reader, page = read()
    found = {}
    for node in reader.edges:
        if node[0] == "spec":
            found.setdefault(f"{node[1]}/specs/{node[2].replace('.', '/')}", set()).add(node[3])
    for path, (_, names) in SPECS.items():
        wanted = set(names.split())
        if found.get(path, set()) != wanted:
            tell(f"{path}: missing {sorted(wanted - found.get(path, set()))}, too many {sorted(found.get(path, set()) - wanted)}")
    types = {it[3] for it in reader.edges if it[0] == "type"}
    if types != TYPES:
        tell(f"types: missing {sorted(TYPES - types)}, too many {sorted(types - TYPES)}")
    devices = page.split("## Devices")[1].split("## Types")[0]
    listed = set(re.findall(r"`(\w+)`(?:,|$)", devices, re.M))
    if listed != DEVICES:
        tell(f"devices: {sorted(listed)}")
    if "`Modelled` as `ModelState`" not in page or "`World` (a trait)" not in page:
        tell("the types lack what they are seen as")
    forms = SPECS["low/specs/Forms"][0]
    for what, text in REFUSED.items():
        if refusal({"low/specs/Forms.antt": f"{forms}\n{text}\n"}) is None:
            tell(f"not refused: {what}")
    # what is named and isn't there, and a device of which no law speaks
    for what, old, new, path in (
        ("a name that its file lacks", "{plain,", "{plainer as plain,", "top/specs/Headline"),
        ("a file that isn't there", "specs.Forms", "specs.Formless", "top/specs/Headline"),
        ("a name of the proofs", "low.specs.Forms", "low.proofs.Forms", "top/specs/Headline"),
        ("a type that the code lacks", "lib.Value.{Value}", "lib.Worth.{Worth as Value}", "top/specs/Headline"),
        ("a device without a law", "by `law_of_odd` it", "it", "low/specs/Odd"),
    ):
        text = SPECS[path][0]
        if refusal({f"{path}.antt": text.replace(old, new)}) is None:
            tell(f"not refused: {what}")


def check_themes(tell):
    """The themes of a small tree: their order, their sums, what they follow and rest on, and what is in none."""
    reader, _ = read()
    believed = reader.reachable(lambda it: not reader.is_device(it))
    themes = [Theme("Below", "Numbers.", "low/Laws low/Models"), Theme("Top", "Runs.", "top"), Theme("None", "Nothing.", "high"), Theme("Rest", "Forms.", "low")]
    listed = definitions.by_theme(reader, believed, themes)
    files = [(it.title, len(found.files)) for it, found in listed.items()]
    if files != [("Below", 2), ("Top", 1), ("Rest", 4)]:
        tell(f"themes: {files}")
    below = {it.title: [on.title for on in found] for it, found in definitions.rests_on(reader, believed, listed).items()}
    if "Rest" not in below["Top"] or "Top" in below["Rest"] or any(it in on for it, on in below.items()):
        tell(f"themes rest on others: {below}")
    text, count, lines = definitions.themes_as_text(reader, believed, themes)
    whole = definitions.by_theme(reader, believed, [])
    if (count, lines) != (whole[OTHERS].count, whole[OTHERS].lines) or len(whole) != 1:
        tell("a file in no theme isn't among the others")
    rows = [row.split(" | ") for row in text if re.match(r"\| \d", row)]
    sums = [int(row[3].replace(",", "")) for row in rows]
    if sums != [sum(int(row[2]) for row in rows[: n + 1]) for n in range(len(rows))]:
        tell(f"the lines of themes together: {sums}")
    if sources_of(["X (ECMA-262 second edition, 7).", "Y (MIME, RFC 2046; ISO/IEC 13818-6)."]) != ["ISO/IEC 13818-6", "ECMA-262 second edition", "MIME"]:
        tell("the sources of two heads")


# ---- this repository, by words alone

NAME = re.compile(r'[^\s(){}.;,@"«»\[\]]+')
SIGNATURE = re.compile(r"( *)(?:(?:pub|abbrev|unfoldable) )*(?:(data|record) )?([^\s(){}.;,]+)(?: \{[^:]*\})?(?: [({].*)? :(?: |$)")


def crude_file(path):
    """Imports, modules, the lines of each definition, and whose each name is; by lines alone."""
    named, modules, lines, owners = {}, {}, {}, {}
    current = kind = None
    nested = False
    text = re.sub(r"(?m)(^|\s)--.*$", "", path.read_text(encoding="utf-8"))
    for line in text.split("\n"):
        if not line.strip():
            continue
        found = re.match(r"(?:pub |unfoldable )*use (Rattle\.\S+?)(?:\.\{(.*)\}| as (\S+))?\s*$", line)
        if found:
            if found[2] is None:
                modules[found[3] or found[1].split(".")[-1]] = found[1]
            for it in (found[2] or "").split(","):
                name, _, other = it.strip().partition(" as ")
                named[(other or name).strip()] = (found[1], name.strip())
            continue
        indent = len(line) - len(line.lstrip())
        if re.match(r"(?:(?:unfoldable|abbrev) )*mutual$|module _", line):
            nested, current, kind = True, None, None
            continue
        nested = nested and indent > 0
        found = SIGNATURE.match(line)
        if found and indent == (2 if nested else 0):
            current, kind = found[3], found[2]
            lines[current], owners[current] = [], current
        elif found and kind == "data":
            owners.setdefault(found[3], current)
        if current:
            lines[current].append(line)
    return named, modules, lines, owners


def crude_closure(first):
    files = {}

    def resolve(path, name):
        found = re.match(r"Rattle\.(\w+)\.specs\.(.+)$", path)
        if not found or found[2].startswith("declared"):
            return None
        crate, module = found[1], found[2]
        for key, inner in (((crate, module), name), ((crate, module.rpartition(".")[0]), module.rpartition(".")[2])):
            file = ROOT / "crates" / key[0] / "specs" / (key[1].replace(".", "/") + ".antt")
            if key not in files and key[1] and file.is_file():
                files[key] = crude_file(file)
            if key in files:
                named, _, _, owners = files[key]
                return (*key, owners[inner]) if inner in owners else resolve(*named[inner]) if inner in named else None
        return None

    seen, todo = set(), list(first)
    while todo:
        crate, module, name = node = todo.pop()
        if node in seen:
            continue
        seen.add(node)
        resolve(f"Rattle.{crate}.specs.{module}", name)
        named, modules, lines, owners = files[crate, module]
        operators = {part: it for it in [*named, *owners] if "◌" in it for part in it.split("◌") if part}
        for line in lines[name]:
            for found in NAME.finditer(line):
                word = operators.get(found[0], found[0])
                behind = re.match(r"\.([^\s(){}.;,]+)", line[found.end():])
                if word in owners:
                    todo.append((crate, module, owners[word]))
                elif word in named:
                    todo.append(resolve(*named[word]))
                elif word in modules and behind:
                    todo.append(resolve(modules[word], behind[1]))
        todo = [it for it in todo if it]
    return seen


def check_repository(tell):
    reader = definitions.Reader(ROOT)
    reader.start(*definitions.HEADLINE)
    mine = {it[1:] for it in reader.edges if it[0] == "spec"}
    first = {it[1:] for it in reader.first if it[0] == "spec"}
    # (what the types of the code name is found by the tool alone)
    first |= {to[1:] for it, tos in reader.edges.items() if it[0] == "type" for to in tos if to[0] == "spec"}
    crude = crude_closure(first)
    for it in sorted(crude - mine):
        tell(f"named by words alone, and not listed: {it}")
    for it in sorted(mine - crude):
        tell(f"listed, and not named by words alone: {it}")
    check_its_themes(reader, tell)
    return len(mine), len({it[:2] for it in mine})


def check_its_themes(reader, tell):
    """Each file is in a theme, each theme has a file, and each file says what it follows."""
    believed = reader.reachable(lambda it: not reader.is_device(it))
    listed = definitions.by_theme(reader, believed, THEMES)
    for it in listed[OTHERS].files if OTHERS in listed else []:
        tell(f"in no theme of themes.py: {it}")
    files = {f"{crate}/{module}" for found in listed.values() for crate, module in found.files}
    for theme in THEMES:
        for name in theme.files.split():
            if theme not in listed or not any(file == name or file.startswith(name + "/") for file in files):
                tell(f"the theme {theme.title} names {name}, of which nothing is listed")
    for theme, found in listed.items():
        for (crate, module), head in zip(found.files, found.heads):
            if not sources_of([head]):
                tell(f"{crate}/{module} names no source that themes.py knows")


def main():
    told = []
    check_small_trees(told.append)
    check_themes(told.append)
    count, files = check_repository(told.append)
    for line in told:
        print(f"FAILED  {line}")
    if not told:
        print(f"ok      definitions: each form, {len(REFUSED) + 5} refusals, {len(THEMES)} themes, and {count} definitions in {files} files by both ways")
    return 1 if told else 0


if __name__ == "__main__":
    sys.exit(main())
