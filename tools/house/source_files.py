"""Files of src/: the types and traits of the code, as far as definitions speak of them."""

import re

from spec_files import Unknown

WORD = re.compile(r"\b[A-Z]\w*")


def without_comments(text):
    return re.sub(r"//[^\n]*", "", text)


def end_of(text, place, opening, closing_mark):
    """The place after the bracket that closes the one at a place."""
    depth = 0
    for at in range(place, len(text)):
        if text[at] == opening:
            depth += 1
        elif text[at] == closing_mark:
            depth -= 1
            if depth == 0:
                return at + 1
    return len(text)


class Sources:
    """The .rt files of all crates, read as they are asked for."""

    def __init__(self, crates, names):
        self.crates, self.names = crates, names
        self.texts, self.types, self.exported = {}, {}, {}

    def text(self, crate, source):
        key = (crate, source)
        if key not in self.texts:
            self.texts[key] = without_comments((self.crates / crate / "src" / source).read_text(encoding="utf-8"))
        return self.texts[key]

    def types_of(self, crate):
        """Where each struct, enum, trait and type of a crate is declared."""
        if crate not in self.types:
            found = {}
            folder = self.crates / crate / "src"
            for path in sorted(folder.glob("**/*.rt")):
                source = str(path.relative_to(folder))
                for it in re.finditer(r"\b(?:struct|enum|trait|type)\s+([A-Z]\w*)", self.text(crate, source)):
                    found.setdefault(it[1], []).append(source)
                # (the macro `bitflags!` declares a struct)
            self.types[crate] = found
        return self.types[crate]

    def imports(self, crate, source):
        """What a file's own `use` lines bring in: names with the crate that they come from and their name there."""
        given = {}
        for path, names in re.findall(r"(?<!ghost )\buse\s+([\w:]+?)::(\{[^}]*\}|\w+)\s*;", self.text(crate, source)):
            first = path.split("::")[0]
            owner = crate if first in ("crate", "self", "super") else first
            for it in names.strip("{}").split(","):
                name, _, other = it.strip().partition(" as ")
                if name:
                    given[(other or name).strip()] = (owner, path.split("::")[1:], name.strip())
        return given

    def of_type(self, crate, name, seen=()):
        """The crate and the file that declare a type that a crate names, None where it is none of ours."""
        if crate not in self.names or crate in seen:
            return None
        sources = self.types_of(crate).get(name)
        if sources:
            return crate, sources[0]
        for owner, _, other in [it for it in [self.imports(crate, "lib.rt").get(name)] if it] if (self.crates / crate / "src" / "lib.rt").is_file() else []:
            return self.of_type(owner, other, (*seen, crate))
        return None

    def meant(self, crate, source, name):
        """The crate and the file of the type that a word in a file means, None where it is none of ours."""
        if source in self.types_of(crate).get(name, ()):
            return crate, source
        found = self.imports(crate, source).get(name)
        if not found:
            return None
        owner, path, other = found
        if owner == crate and path:
            file = "/".join(path) + ".rt"
            if file in self.types_of(crate).get(other, ()):
                return crate, file
        return self.of_type(owner, other)

    def block(self, crate, source, name):
        """The kind of a declared type or trait, and its text."""
        text = self.text(crate, source)
        found = re.search(r"\b(struct|enum|trait|type)\s+" + name + r"\b", text)
        if not found:
            raise Unknown(f"{crate}/src/{source}: no type {name}")
        marks = [at for at in (text.find(it, found.end()) for it in "{(;") if at >= 0]
        at = min(marks)
        if text[at] == ";":
            return found[1], text[found.start(): at]
        end = end_of(text, at, text[at], ")" if text[at] == "(" else "}")
        return found[1], text[found.start(): end]

    def model(self, crate, name):
        """The file with the `Model` of a type, and its value as a ghost text; None where it has none."""
        folder = self.crates / crate / "src"
        for path in sorted(folder.glob("**/*.rt")):
            source = str(path.relative_to(folder))
            text = self.text(crate, source)
            found = re.search(r"\bimpl(?:<[^{]*?>)?\s+Model\s+for\s+" + name + r"\b[^{]*\{", text)
            if found:
                value = re.search(r"ghost\s+Value\s*=\s*\{", text[found.end():])
                if not value:
                    raise Unknown(f"{crate}/src/{source}: the Model of {name} has no Value")
                start = found.end() + value.end() - 1
                return source, text[start + 1: end_of(text, start, "{", "}") - 1]
        return None

    def parts_of(self, crate, source, name):
        """The kind of a type, the words of its fields, and the ghost texts that tell what it is seen as."""
        kind, text = self.block(crate, source, name)
        if kind == "trait":
            ghosts = []
            for it in re.finditer(r"\b(?:ghost\s+\w+\s*[:=]|requires\b[^{]*|ensures\b[^{]*)\s*\{", text):
                ghosts.append(text[it.end(): end_of(text, it.end() - 1, "{", "}") - 1])
            code = re.sub(r"\{[^{}]*\}", "", text)
            return kind, WORD.findall(code), ghosts
        model = self.model(crate, name)
        if model:
            if model[0] != source:
                raise Unknown(f"{crate}/src/{model[0]}: the Model of {name} stands in another file than the type")
            return kind, [], [model[1]]
        code = re.sub(r"#\[[^\]]*\]", "", text)
        return kind, [it for it in WORD.findall(code) if it != name], re.findall(r"ghost\s+\w+\s*:\s*\{([^}]*)\}", text)

    def remark(self, crate, source, name):
        kind, _ = self.block(crate, source, name)
        model = None if kind == "trait" else self.model(crate, name)
        if kind == "trait":
            return " (a trait)"
        return f" as `{' '.join(model[1].split())}`" if model else ""

    def ghost_imports(self, crate, source):
        """What a file's `ghost use` lines bring in, as names and as modules."""
        named, modules = {}, {}
        for line in re.findall(r"\bghost\s+use\s+([^;]+);", self.text(crate, source)):
            path, _, names = " ".join(line.split()).partition(".{")
            if names:
                for it in names.rstrip("}").split(","):
                    name, _, other = it.strip().partition(" as ")
                    if name:
                        named[(other or name).strip()] = (path, name.strip())
            else:
                path, _, other = path.partition(" as ")
                modules[(other or path.rpartition(".")[2]).strip()] = path.strip()
        return named, modules

    def function(self, crate, function):
        """The file of a public function, its clauses, and the types in its signature."""
        folder = self.crates / crate / "src"
        for path in sorted(folder.glob("**/*.rt")):
            source = str(path.relative_to(folder))
            found = re.search(r"\n( *)pub (?:const )?fn " + function + r"\b(.*?)\n\1\{", self.text(crate, source), re.S)
            if found:
                signature = re.split(r"\b(?:requires|ensures)\b", found[2])[0]
                return source, found[2][len(signature):], WORD.findall(signature)
        raise Unknown(f"no public function {function} in the crate {crate}")
