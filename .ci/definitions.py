"""The definitions of the repository: what stands in specs/, the types and constants of the code,
and which of them a text uses. For the scripts beside it.

A name that a text uses is bound there (a pattern's, a λ's, a parameter, a field), or stands in the
same file, or comes by an import of that file. An import by a crate that hands a library on, as
`Rattle.mid.specs.low.X`, is of the library where X stands. `Sources.unresolved` has every name for
which none of this holds."""
import pathlib, re
from dataclasses import dataclass, field

root = pathlib.Path(__file__).resolve().parent.parent

NAME = r"[^\W\d][\w'?]*"
PATH = rf"\.?(?:{NAME}|\d+)(?:\.(?:{NAME}|\d+))*"
TOKEN = re.compile(rf"{PATH}|[{{}}();=:]|λ|\.|→|[^\s\w{{}}();.:=]+")
HEAD = re.compile(rf"(?:abbrev|unfoldable)(?: pub)? ({NAME})|pub (?:record|data) ({NAME})")
IMPORT = re.compile(
    rf"^ *(?:pub )?(?:ghost )?use (?:Rattle\.)?([\w.]+?)(?:\.\{{([^}}]*)\}}| as ({NAME}))?;?$", re.M)
DECLARED = re.compile(r"(?:pub(?:\(crate\))? )?(struct|enum|const|type) (\w+)")
WORDS = set("Type Unit record pub where if then else let in data module _ ℤ".split())
OF_RUST = set("Vec Option Some None Box String Result Self HostRuntime".split())


@dataclass
class Definition:
    """A definition of specs/, or a type or a constant of the code."""
    crate: str
    file: str
    name: str
    kind: str
    lines: list = field(default_factory=list)
    comment: list = field(default_factory=list)
    within: str = ""

    @property
    def place(self):
        return self.crate, self.file, self.name

    @property
    def is_of_code(self):
        return self.file.startswith("src/")

    @property
    def module(self):
        """The path of its file within src/ or specs/, with dots; empty for src/lib.rt."""
        inner = self.file.partition("/")[2].rpartition(".")[0].replace("/", ".")
        return "" if self.file == "src/lib.rt" else inner

    def text(self):
        """Its lines without comments and blanks."""
        bare = (re.sub(r"\s*//.*" if self.is_of_code else r"^\s*--.*", "", line)
                for line in self.lines)
        return [line for line in bare if line.strip()]


def parts_of(path):
    """A path as crate and what stands behind it, without the word `specs`."""
    crate, *rest = path.split(".")
    return [crate, *(rest[1:] if rest[:1] == ["specs"] else rest)]


def imports_of(text):
    """Of each local name the path that it stands for."""
    found = {}
    for path, names, alias in IMPORT.findall(text):
        parts = parts_of(path)
        for name in filter(None, (part.strip() for part in names.split(","))):
            own, _, local = name.partition(" as ")
            found[local or own] = [*parts, own]
        if alias or not names:
            found[alias or parts[-1]] = parts
    return found


class SpecFile:
    """A file of specs/: what its first comment says, its imports, and its definitions by name.
    `owner` has the definition of each of these names, and of each constructor."""

    def __init__(self, crate, path, module):
        text = path.read_text()
        lines = text.split("\n")
        self.crate, self.module, self.file = crate, module, f"specs/{module.replace('.', '/')}.antt"
        start = next((i for i, line in enumerate(lines) if not line.startswith("--")), len(lines))
        self.says = [line[2:].strip() for line in lines[:start]]
        self.imports = imports_of(text)
        self.modules = re.findall(r"^pub mod (\w+)", text, flags=re.M)
        self.definitions, self.owner = {}, {}
        self.read(lines[start:])

    def read(self, lines):
        within, current, comment = "", None, []
        for line in lines:
            opened = re.match(r"module _ .* where$", line)
            if opened or re.match(r"(pub )?(use|mod) |#", line):
                within, current, comment = line if opened else "", None, []
                continue
            if line and not line.startswith(" "):
                within = ""
            inner = line[2:] if within else line
            if HEAD.match(inner):
                current, comment = self.begun(inner, comment, within), []
            elif inner.startswith("--"):
                comment.append(inner)
            elif current and inner.strip():
                current.lines += comment + [inner]
                comment = []
                self.add_constructor(current, inner)

    def begun(self, line, comment, within):
        name = next(part for part in HEAD.match(line).groups() if part)
        kind = re.match(r"(?:pub )?(\w+)", line).group(1)
        found = Definition(self.crate, self.file, name, kind, [line], comment, within)
        self.definitions[name] = self.owner[name] = found
        return found

    def add_constructor(self, definition, line):
        constructor = re.match(rf"  ({NAME}) :", line)
        if definition.kind == "data" and constructor:
            self.owner[constructor.group(1)] = definition


class CodeFile:
    """A file of src/: its types and constants by name, and what its `use` lines bring in."""

    def __init__(self, crate, path, module):
        self.text = path.read_text()
        self.crate, self.module = crate, module
        self.file = f"src/{path.relative_to(root / 'crates' / crate / 'src')}"
        self.uses = dict(self.brought())
        self.definitions = {}
        lines = self.text.split("\n")
        for i, line in enumerate(lines):
            found = DECLARED.match(line)
            if found:
                self.add(*found.groups(), lines, i)

    def add(self, kind, name, lines, i):
        """Adds what begins at a line. It ends at a brace at the margin, or at a semicolon."""
        end = i
        if not lines[i].endswith((";", "}")):
            closes = "}" if lines[i].endswith("{") else ";"
            end = next(j for j in range(i + 1, len(lines)) if lines[j].rstrip(";") == closes
                       or closes == ";" and lines[j].endswith(";"))
        comment, j = [], i - 1
        while lines[j].startswith(("#[", "///")):
            comment[:0] = [lines[j]] if lines[j].startswith("///") else []
            j -= 1
        body = [line for line in lines[i : end + 1] if not line.lstrip().startswith("#[")]
        self.definitions[name] = Definition(self.crate, self.file, name, kind, body, comment)

    def brought(self):
        for path, names in re.findall(
                r"^(?:pub )?use ([\w:]+?)(?:::\{([^}]*)\})?;", self.text, flags=re.M):
            parts = path.split("::")
            if names:
                for name in filter(None, (word.strip() for word in names.split(","))):
                    yield name.split(" as ")[-1], [*parts, name.split(" as ")[0]]
            else:
                yield parts[-1], parts

    def model_of(self, name):
        """The text of what contracts see of a type in place of its fields, if that is given."""
        found = re.search(rf"^impl(?:<[^>]*>)? Model for {name}\b.*?^\}}", self.text,
                          flags=re.M | re.S)
        return found.group(0) if found else ""


def ghost(model, name):
    """One of the texts of a model: `Value`, `view`, `invariant`."""
    found = re.search(rf"ghost {name} = \{{(.*?)\}};$", model, flags=re.S | re.M)
    return " ".join(found.group(1).split()) if found else ""


def segments_of(definition):
    """A definition's parts, each as its head, in which names are bound, its text, and the names
    that are bound behind it: a signature or an equation; or the head of a record or of a type with
    constructors, a field, a constructor."""
    name, lines, kind = definition.name, definition.text(), definition.kind
    begins = {"record": rf"^ +pub {NAME} :", "data": rf"^  {NAME} :"}.get(
        kind, rf"^{re.escape(name)}(?![\w'.])")
    starts = [i for i, line in enumerate(lines) if i == 0 or re.match(begins, line)]
    for start, end in zip(starts, starts[1:] + [len(lines)]):
        text = "\n".join(lines[start:end])
        if start and kind not in ("record", "data"):
            head, _, text = text.partition("=")
            yield head[len(name):], text, set()
            continue
        prefix = re.match(rf"(?:abbrev|unfoldable|pub|record|data| )*({NAME})", text)
        text = text[prefix.end():]
        behind = {prefix.group(1)} if start and kind == "record" else set()
        yield "", text, behind if start else bound_in(text)


def names_in(text):
    """The names that a text uses, each with what is bound where it stands."""
    tokens = TOKEN.findall(re.sub(r'"[^"]*"|\b0x[0-9a-f]+', " ", text))
    scopes = [set()]
    for i, token in enumerate(tokens):
        if token in ("(", "{"):
            end = i + 1
            while end < len(tokens) and re.fullmatch(NAME, tokens[end]):
                end += 1
            if end > i + 1 and tokens[end : end + 1] == [":"]:
                scopes[-1] = scopes[-1] | set(tokens[i + 1 : end])
            scopes.append(scopes[-1])
        elif token in (")", "}"):
            scopes = scopes[:-1] or [set()]
        elif token == ";":
            scopes[-1] = scopes[-2] if len(scopes) > 1 else set()
        elif token == "λ":
            end = tokens.index(".", i) if "." in tokens[i:] else i
            scopes[-1] = scopes[-1] | set(tokens[i + 1 : end])
        elif token == "let":
            scopes[-1] = scopes[-1] | {tokens[i + 1]}
        elif re.match(NAME, token):
            is_label = tokens[i - 1] in ("{", ";") and tokens[i + 1 : i + 2] == ["="]
            if not is_label and token.split(".")[0] not in scopes[-1] | WORDS:
                yield token
    return


class Sources:
    """All definitions of the repository, and what each uses."""

    def __init__(self):
        self.specs, self.code, self.handed, self.unresolved = {}, {}, {}, set()
        self.crates = {path.name for path in (root / "crates").iterdir()}
        for path in sorted(root.glob("crates/*/specs/**/*.antt")):
            crate = path.relative_to(root / "crates").parts[0]
            inner = path.relative_to(root / "crates" / crate / "specs").with_suffix("")
            self.specs[crate, ".".join(inner.parts)] = SpecFile(crate, path, ".".join(inner.parts))
        for path in sorted(root.glob("crates/*/src/**/*.rt")):
            crate = path.relative_to(root / "crates").parts[0]
            inner = path.relative_to(root / "crates" / crate / "src").with_suffix("")
            module = "" if inner.parts == ("lib",) else ".".join(inner.parts)
            self.code[crate, module] = CodeFile(crate, path, module)

    def imported(self, crate, name):
        """The path that a crate hands on by a name in its specs/Lib.antt, if it does."""
        library = self.specs.get((crate, "Lib"))
        return library.imports.get(name) if library else None

    def found(self, path):
        """What stands at a path: a definition; `std`, where it is no crate of this repository; or
        none, as where it is a whole file."""
        crate, *rest = path
        if crate not in self.crates:
            return "std"
        if not rest:
            return None
        if rest[0] == "declared":
            return self.found_in_code(crate, rest[1:])
        handed = self.imported(crate, rest[0])
        if handed:
            return self.found([*handed, *rest[1:]])
        for length in range(len(rest), 0, -1):
            file = self.specs.get((crate, ".".join(rest[:length])))
            if file:
                name = rest[length] if len(rest) > length else None
                if name in file.owner:
                    return file.owner[name]
                return self.found(file.imports[name]) if name in file.imports else None
        return None

    def found_in_code(self, crate, rest):
        """The type or the constant at a path behind `declared`."""
        for length in range(len(rest)):
            file = self.code.get((crate, ".".join(rest[:length])))
            names = [name for name in rest[length:] if name != "TheConstants"]
            if file and names and names[0] in file.definitions:
                whole_group = names[-1] == "TheVariants" or rest[-1] == "TheConstants"
                return None if whole_group else file.definitions[names[0]]
        return None

    def resolved(self, token, file, imports):
        """What a name stands for in a file, or in a text with these imports."""
        first, *rest = token.split(".")
        if file and first in file.owner:
            return file.owner[first]
        if first not in imports:
            return None
        path = imports[first]
        return self.found(path) or (self.found([*path, rest[0]]) if rest else None)

    def uses(self, definition):
        """Each name that a definition uses, with what it stands for."""
        if definition.is_of_code:
            yield from self.uses_of_code(definition)
            return
        file = self.specs[definition.crate, definition.module]
        outer = bound_in(definition.within)
        if definition.within:
            yield from self.uses_of_text(definition.within, file, file.imports, set(), definition)
        for head, text, behind in segments_of(definition):
            bound, used = set(), []
            for name in re.findall(rf"(?<![\w.'])({NAME}(?:\.{NAME})*)", head):
                known = self.resolved(name, file, file.imports)
                if known and (known != "std" or name[0].isupper()):
                    used.append((name, known))
                else:
                    bound.add(name)
            yield from used
            yield from self.uses_of_text(text, file, file.imports, outer | bound, definition)
            outer = outer | behind

    def uses_of_text(self, text, file, imports, bound, asker):
        for token in names_in(text):
            first = token.split(".")[0]
            known = self.resolved(token, file, imports) if first not in bound else None
            if known:
                yield token, known
            elif first not in bound:
                self.unresolved.add(f"{'/'.join(asker.place)}: {token}")

    def uses_of_code(self, definition):
        """What contracts see of a type of the code: its model's value, or else its fields."""
        file = self.code[definition.crate, definition.module]
        model = file.model_of(definition.name)
        if model:
            generics = set(re.findall(r"\b[A-Z]\b", definition.lines[0]))
            yield from self.uses_of_text(
                ghost(model, "Value"), None, imports_of(model), generics, definition)
            return
        text = "\n".join(definition.text())
        invariants = r"^    ghost \w+: \{(.*?)\},$"
        for invariant in re.findall(invariants, text, flags=re.M | re.S):
            fields = set(re.findall(r"\b\w+(?=:)|\b[A-Z]\b", text))
            yield from self.uses_of_text(
                invariant, None, imports_of(file.text), fields, definition)
        text = re.sub(invariants, "", text, flags=re.M | re.S)
        if definition.kind == "enum":
            text = re.sub(r"^    [A-Z]\w*", "", text, flags=re.M)
        text = re.sub(r'"[^"]*"', "", text.replace(definition.name, "", 1))
        for name in re.findall(r"(?<![\w.:])[A-Z]\w*", text):
            known = self.in_code(file, [name])
            if known:
                yield name, known
            elif name not in OF_RUST and len(name) > 1:
                self.unresolved.add(f"{'/'.join(definition.place)}: {name}")

    def in_code(self, file, path):
        """The type or constant that a path of code names in a file, by its `use` lines."""
        name = path[-1]
        if len(path) == 1 and name in file.definitions:
            return file.definitions[name]
        if path[0] in file.uses and len(path) == 1:
            path = file.uses[path[0]]
        is_own = path[0] == "crate" or (file.crate, path[0]) in self.code
        crate = file.crate if is_own else path[0]
        if crate not in self.crates:
            return "std" if path[1:] else None
        for step in path[1:-1]:
            library = self.code.get((crate, ""))
            if library and step in library.uses and (crate, step) not in self.code:
                crate = library.uses[step][-1]
        for (owner, _), other in self.code.items():
            if owner == crate and name in other.definitions:
                return other.definitions[name]
        library = self.code.get((crate, ""))
        if library and name in library.uses and library is not file:
            return self.in_code(library, library.uses[name])
        return None


def bound_in(text):
    """The names that a text binds in parentheses or braces."""
    return {name for names in re.findall(rf"[({{]((?:{NAME} )*{NAME}) :", text)
            for name in names.split()}
