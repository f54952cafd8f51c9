"""Files of specs/: what they define, and which names a definition uses.

Every form that this repository's files have is read: imports, modules, fixities, signatures with clauses, `where` blocks, data, records
and `mutual` blocks, and sections with parameters (`module _ (x : A) where`). Any other form is `Unknown`.
"""

import re

MARKS = ("pattern", "unfoldable", "abbrev", "pub")
OTHER_FORMS = ("axiom", "ruleset", "syntax", "open", "package", "deriving", "notation", "opaque")
TOKEN = re.compile(r'"(?:[^"\\]|\\.)*"|«[^»]*»|[(){}.;,@]|[^\s(){}.;,@"«»]+')
DEVICE = re.compile(r"\bdevices? of the proofs?\b", re.I)


class Unknown(Exception):
    """A form that isn't read, or a name that isn't found."""


def without_comment(line):
    """A line without the comment at its end."""
    place = 0
    while place < len(line):
        found = TOKEN.search(line, place)
        if not found:
            break
        word = found[0]
        if word.startswith("--"):
            return line[: found.start()].rstrip()
        place = found.end()
    return line.rstrip()


def indentation(line):
    return len(line) - len(line.lstrip(" "))


def chunks(lines):
    """Cuts lines, from which comments are gone, into what begins at their least indentation."""
    lines = [it for it in lines if it.strip()]
    least = min(map(indentation, lines), default=0)
    given = []
    for line in lines:
        inner = line[least:]
        if inner[0] == " " or inner[0] in ")}]" and given:
            given[-1].append(inner)
        else:
            given.append([inner])
    return given


def tokens(text):
    """The tokens of a text; the dot of a path is `.path`."""
    given, last_end = [], -1
    for found in TOKEN.finditer(text):
        word = found[0]
        if word == ".":
            # the dot of a path has no blank on either side; that of a `λ` has one after it
            joined = found.start() == last_end and found.end() < len(text) and not text[found.end()].isspace()
            given.append(".path" if joined else ".")
        else:
            given.append(word)
        last_end = found.end()
    return given


class Definition:
    """One definition: the texts in which names are looked up, each with the names that are bound all over it."""

    def __init__(self):
        self.texts, self.bound = [], frozenset()

    def add(self, text, bound):
        self.texts.append((text, self.bound | frozenset(bound)))


def term(text):
    """A text alone, as a definition without names of its own."""
    made = Definition()
    made.add("\n".join(re.sub(r"//.*", "", line) for line in text.splitlines()), ())
    return made


class Scope:
    """What names mean in a text: those of items, of imports and of modules."""

    def __init__(self, named, modules, owners=(), constructors=()):
        self.named, self.modules, self.owners, self.constructors = named, modules, owners, constructors
        self.operators = {}
        for name in [*named, *owners]:
            if "◌" in name:
                for part in name.split("◌"):
                    if part:
                        self.operators[part] = name


def is_variable(word, constructors):
    return bool(re.match(r"[a-z_]", word)) and word not in constructors and word != "_"


def walk(definition, scope):
    """The names that a definition uses: each with the one after its first dot, or None."""
    for text, bound in definition.texts:
        yield from walk_text(tokens(text), bound, scope)


def closing(words, place):
    """The place of the bracket that closes the one at a place."""
    depth = 0
    for at in range(place, len(words)):
        if words[at] in "({[":
            depth += 1
        elif words[at] in ")}]":
            depth -= 1
            if depth == 0:
                return at
    return len(words) - 1


def binder(words, place):
    """The names that a bracket at a place binds for what follows it: `(x y : A) →`."""
    names, at = [], place + 1
    while at < len(words) and re.match(r"[A-Za-z_«ℓ]", words[at]) and words[at] not in ("λ",):
        names.append(words[at])
        at += 1
    if not names or at >= len(words) or words[at] != ":":
        return [], 0
    end = closing(words, place)
    return names, end


def pattern_before(words, place, mark):
    """The words from a place up to a mark at the same depth, None where a bracket closes or another part begins before."""
    depth, given = 0, []
    for word in words[place:]:
        if depth == 0 and word == mark:
            return given
        if word in "({[":
            depth += 1
        elif word in ")}]":
            if depth == 0:
                return None
            depth -= 1
        elif depth == 0 and word == "|":
            return None
        given.append(word)
    return None


def walk_text(words, bound, scope):
    levels = [set(bound)]       # the names that are bound, for each open bracket
    lets = []                   # the names of each `let` that waits for its `in`, with the number of open brackets
    ends = {}                   # names that are bound from a place on
    place = 0
    while place < len(words):
        if place in ends:
            levels[-1] |= ends.pop(place)
        word = words[place]
        if word in ("(", "{", "["):
            names, end = binder(words, place) if word != "[" else ([], 0)
            if names:
                ends.setdefault(end + 1, set()).update(names)
            levels.append(set(levels[-1]))
            if names:
                place += 1 + len(names)
                continue
            if word == "[":
                levels[-1] |= bound_by_case(words, place + 1, scope)
        elif word in (")", "}", "]"):
            if len(levels) > 1:
                levels.pop()
            while lets and lets[-1][1] > len(levels):
                lets.pop()
        elif word == "|" and len(levels) > 1:
            levels[-1] = set(levels[-2]) | bound_by_case(words, place + 1, scope)
        elif word == "λ":
            place += 1
            depth = 0
            while place < len(words) and not (depth == 0 and words[place] == "."):
                if words[place] in "({":
                    depth += 1
                elif words[place] in ")}":
                    depth -= 1
                elif is_variable(words[place], scope.constructors):
                    levels[-1].add(words[place])
                place += 1
        elif word == "let":
            names = set()
            place += 1
            while place < len(words) and words[place] not in ("=", ":"):
                if is_variable(words[place], scope.constructors):
                    names.add(words[place])
                place += 1
            lets.append((names, len(levels)))
            continue
        elif word == "in" and lets:
            levels[-1] |= lets.pop()[0]
        elif words[place - 1 : place] == [".path"]:
            pass
        elif words[place + 1 : place + 2] == ["="] and place and words[place - 1] in ("{", ";", ","):
            pass  # the label of a field or of an argument
        elif word not in levels[-1]:
            rest = words[place + 2] if words[place + 1 : place + 2] == [".path"] and place + 2 < len(words) else None
            name = scope.operators.get(word, word)
            yield name.strip("«»"), rest and rest.strip("«»")
        place += 1


def bound_by_case(words, place, scope):
    """The names that the pattern at a place binds, where it is one of `[ p ↦ a | q ↦ b ]`."""
    pattern = pattern_before(words, place, "↦")
    return {it for it in pattern or () if is_variable(it, scope.constructors)}


class SpecFile(Scope):
    """A file of specs/: its head, its imports and its definitions."""

    def __init__(self, crate, module, path):
        self.crate, self.module, self.path = crate, module, path
        self.head, self.imports = [], []
        self.items, self.lines = {}, {}    # definitions by name, and how many lines of code each has
        owners, constructors = {}, set()
        super().__init__({}, {}, owners, constructors)
        text = path.read_text(encoding="utf-8")
        if "{-" in text:
            raise Unknown(f"{path}: a comment in {{- -}}")
        self.take_head(text.splitlines())
        self.current, self.section = None, ()
        for chunk in chunks([without_comment(it) for it in text.splitlines()]):
            self.take(chunk)
        super().__init__(self.named, self.modules, self.owners, self.constructors)
        self.is_device = "devices" in module.split(".")[:-1] or bool(DEVICE.search(self.sentence()))

    def fail(self, line, why="a form that isn't known"):
        raise Unknown(f"{self.path}: {why}: {line.strip()}")

    def take_head(self, lines):
        for line in lines:
            if not line.startswith("--"):
                break
            self.head.append(line[2:].strip())

    def sentence(self):
        return " ".join(self.head).strip()

    def take(self, chunk):
        """Takes in what begins with a line: an import, a definition, or a clause of the one before."""
        words = chunk[0].split()
        rest = [it for it in words if it not in MARKS] if words[0] in MARKS else words
        marks = words[: len(words) - len(rest)]
        if not rest or words[len(marks):] != rest:
            self.fail(chunk[0])
        first = rest[0]
        if first in OTHER_FORMS:
            self.fail(chunk[0])
        if first == "use":
            return self.take_import(" ".join(it.strip() for it in chunk))
        if first == "mod":
            return self.take_module(chunk, marks)
        if first in ("infix", "infixl", "infixr"):
            return None
        if first == "mutual":
            if rest != ["mutual"]:
                self.fail(chunk[0])
            for inner in chunks(chunk[1:]):
                self.take(inner)
            return None
        if first == "module":
            return self.take_section(chunk, rest)
        if first == "data":
            return self.take_data(chunk, rest)
        if first == "record":
            return self.take_record(chunk, rest)
        if first == "unfolding":
            if self.current is None:
                self.fail(chunk[0])
            return self.count(chunk)
        return self.take_signature_or_clause(chunk, marks)

    def take_import(self, text):
        path, _, names = text.partition(".{")
        path = re.sub(r"^(?:(?:pub|unfoldable)\s+)*use\s+", "", path).strip()
        if names:
            if not names.rstrip().endswith("}"):
                self.fail(text)
            for it in names.rstrip().rstrip("}").split(","):
                name, _, other = it.strip().partition(" as ")
                below, _, name = name.strip().rpartition(".")
                full = path + ("." + below if below else "")
                self.named[(other or name).strip().strip("«»")] = (full, name.strip("«»"))
                self.imports.append((full, name.strip("«»")))
        else:
            if path.endswith("*"):
                self.fail(text)
            path, _, other = path.partition(" as ")
            self.modules[(other or path.rpartition(".")[2]).strip()] = path.strip()
            self.imports.append((path.strip(), None))

    def take_module(self, chunk, marks):
        if self.path.name != "Lib.antt" or len(chunk) > 1:
            self.fail(chunk[0], "a module below a file")

    def take_section(self, chunk, rest):
        """A section: what it defines has the section's parameters, and stands on their types too."""
        header, parts = self.header_and_parts(chunk)
        if rest[1] != "_":
            self.fail(chunk[0])
        name, bound = self.header(header, "module")
        around = self.section
        self.section = (*around, (header.split("_", 1)[1].removesuffix("where"), bound))
        for part in parts:
            self.take(part)
        self.section = around

    def begin(self, name):
        if name in self.items:
            self.fail(name, "a name that is defined twice")
        self.items[name], self.lines[name] = Definition(), 0
        self.items[name].bound = frozenset(it for _, bound in self.section for it in bound)
        for text, bound in self.section:
            self.items[name].add(text, bound)
        self.owners[name] = name
        self.current = name

    def count(self, chunk):
        self.lines[self.current] += len(chunk)

    @staticmethod
    def header(text, kind):
        """The words of a header after its marks, up to `where`, and the names that its brackets bind."""
        words = tokens(text)
        at = words.index(kind) + 1
        name, bound, place = words[at], [], at + 1
        while place < len(words):
            if words[place] in ("(", "{"):
                names, end = binder(words, place)
                bound += names
                place = end or place
            place += 1
        return name, bound

    def header_and_parts(self, chunk):
        """The header, and the parts below it."""
        at = next((n for n, line in enumerate(chunk) if line.split()[-1] == "where"), None)
        if at is None:
            self.fail(chunk[0], "a header without `where` at a line's end")
        return " ".join(chunk[: at + 1]), chunks(chunk[at + 1:])

    def begin_type(self, chunk, kind):
        """Begins a type by its header, and returns its name, the names that are bound there, and the parts below it."""
        header, parts = self.header_and_parts(chunk)
        name, bound = self.header(header, kind)
        self.begin(name)
        self.count(chunk)
        self.items[name].add(header.split(name, 1)[1].removesuffix("where"), bound)
        return name, bound, parts

    def take_data(self, chunk, rest):
        name, bound, parts = self.begin_type(chunk, "data")
        for part in parts:
            text = " ".join(part)
            found = re.match(r"((?:[^\s(){}.;,@\"«»:]+\s+)+):\s", text + " ")
            if not found or found[1].split()[0] in (*OTHER_FORMS, *MARKS):
                self.fail(part[0])
            for it in found[1].split():
                self.owners.setdefault(it, name)
                self.constructors.add(it)
            self.items[name].add(text[found.end():], bound)

    def take_record(self, chunk, rest):
        name, bound, parts = self.begin_type(chunk, "record")
        fields = []
        for part in parts:
            text = " ".join(part)
            found = re.match(r"(?:pub\s+)?((?:(?:[^\s(){}.;,@\"«»:]+|«[^»]*»)\s+)+):\s", text + " ")
            if not found or found[1].split()[0] in (*OTHER_FORMS, *MARKS):
                self.fail(part[0])
            self.items[name].add(text[found.end():], bound + fields)
            fields += found[1].split()

    def take_signature_or_clause(self, chunk, marks):
        text = "\n".join(chunk)
        body = text
        for it in marks:
            body = body.split(it, 1)[1]
        words = tokens(body)
        at = 1
        if words[at : at + 1] == ["{"] and ":" not in words[at : closing(words, at)]:
            at = closing(words, at) + 1
        if words[at : at + 1] == [":"]:
            name = words[0].strip("«»")
            self.begin(name)
            self.count(chunk)
            self.items[name].add(body.split(":", 1)[1], ())
            return
        if marks:
            self.fail(chunk[0])
        self.take_clause(chunk, self.items.get(self.current), self.current, ())
        self.count(chunk)

    def take_clause(self, chunk, definition, name, bound):
        """Takes in a clause of the definition of that name; `bound` are the names of the clause around it."""
        if definition is None:
            self.fail(chunk[0])
        at = next((n for n, line in enumerate(chunk) if line.strip() == "where" and n), None)
        own, local = (chunk, []) if at is None else (chunk[:at], chunk[at + 1:])
        text = "\n".join(own)
        words = tokens(text)
        if "where" in words:
            self.fail(chunk[0], "a `where` that isn't on a line of its own")
        equals = self.place_of_equals(words)
        if equals is None:
            self.fail(chunk[0])
        left = words[:equals]
        parts = [it for it in name.split("◌") if it] if "◌" in name else [name]
        if left[0].strip("«»") != name and not ("◌" in name and all(it in left for it in parts)):
            self.fail(chunk[0])
        variables = {it for it in left if is_variable(it, self.constructors) and it not in parts}
        inner = chunks(local)
        helpers = self.helpers(inner)
        scope = {*bound, *variables, *helpers}
        # (a word on the left that is no variable is a constructor, which means its type)
        definition.add(" ".join(left[1:] if left[0].strip("«»") == name else left), scope | set(parts))
        definition.add(self.behind_equals(text), scope)
        current = None
        for part in inner:
            found = self.signature(part)
            if found:
                current = found
                definition.add("\n".join(part).split(":", 1)[1], scope)
            else:
                if current is None:
                    self.fail(part[0])
                self.take_clause(part, definition, current, scope)

    @staticmethod
    def signature(part):
        words = tokens("\n".join(part))
        at = 1
        if words[at : at + 1] == ["{"] and ":" not in words[at : closing(words, at)]:
            at = closing(words, at) + 1
        return words[0].strip("«»") if words[at : at + 1] == [":"] else None

    def helpers(self, inner):
        return {it for it in map(self.signature, inner) if it}

    @staticmethod
    def place_of_equals(words):
        depth = 0
        for place, word in enumerate(words):
            if word in ("(", "{", "["):
                depth += 1
            elif word in (")", "}", "]"):
                depth -= 1
            elif word == "=" and depth == 0:
                return place
        return None

    @classmethod
    def behind_equals(cls, text):
        depth = 0
        for found in TOKEN.finditer(text):
            word = found[0]
            if word in ("(", "{", "["):
                depth += 1
            elif word in (")", "}", "]"):
                depth -= 1
            elif word == "=" and depth == 0:
                return text[found.end():]
        return ""
