"""The specification as a book: definitions in an order in which nothing is used before it stands,
in chapters. For .ci/reached."""
import re, sys, textwrap

from definitions import NAME, ghost

# Of each chapter its title, what it is about, and the crates, or single modules, that stand in it.
# What is named here comes later where it uses something of a later chapter; and what isn't named
# comes in the first chapter in which all that it uses stands.
CHAPTERS = (
    ("Words and instructions",
     "A word of 32 bits is an instruction where a row of a table fits it. Operations are what "
     "instructions compute.",
     ("rv32_decode", "rv32_ops")),
    ("A program and its file",
     "A program is the class of each line of 64 bytes, the instruction at each code word, the "
     "first content of each byte, and an entry. An ELF file is read as an executable, and an "
     "executable as a program; each may be refused by a rule. A layout forms blocks of the shared "
     "lines.",
     ("rv32_program", "elf32_read", "byte_range", "block_layout.Layout", "exec_map")),
    ("One memory and its steps",
     "The processors of a program share one memory. A step is one instruction of one processor, or "
     "one byte of a write call. Between steps a reservation may be lost, as the manual lets it. "
     "Four layers lead to a run: what an instruction demands of its processor and of memory "
     "(`demand_of`); what one memory gives for a demand (`step`); the steps and lost reservations "
     "in an order, which are called picks (`Pick`); and what an order of picks leads to (`run`, "
     "`IsRun`). Whoever wants the run first may begin with the last two, under 'Runs of the "
     "original'.",
     ("rv32_decode.Registers", "llsc", "rv32_step", "one_memory")),
    ("What is printed",
     "A text has the bytes that the processors printed, and a line for each processor.",
     ("rv32_text", "node_model", "dsm_io", "text_output", "judged_files.Text",
      "prepared_run.Text", "prepared_run.Processors", "prepared_run.Outcomes")),
    ("What words ask for",
     "The words of a command line ask for a command, and a command reads files.",
     ("command_line", "judged_files", "prepared_run", "commands", "block_layout.Text",
      "run_limits", "run_record")),
    ("The clause",
     "What the text of a command says of the original program.",
     ("judged_files.Executables", "judged_files.Layouts", "prepared_run.Interleaved",
      "commands.Interleaved")),
)
# Of each module what is shown there, as its heading.
HEADINGS = {
    "rv32_decode.Fields": "Bits of a word, and immediates",
    "rv32_decode.Rows": "The table of instructions",
    "rv32_decode.Widths": "How many bytes an access has",
    "rv32_decode.Registers": "Which registers an instruction reads and writes",
    "rv32_ops.Operations": "What operations compute",
    "run_limits.Ranges": "Budgets",
    "run_record.Telling": "The ranges of a record",
    "run_record.Text": "The lines with which a record begins",
    "rv32_program.Program": "Programs",
    "rv32_program.Targets": "Where jumps lead",
    "block_layout.Layout": "Blocks and homes",
    "block_layout.Text": "The text of a layout",
    "byte_range.Memory": "Bytes of a memory",
    "elf32_read.Elf": "What an ELF file holds",
    "elf32_read.Fields": "The fields of an ELF file",
    "elf32_read.Reading": "Reading an ELF file",
    "elf32_read.Refusals": "Which files are refused",
    "exec_map.Contents": "The program of an executable",
    "exec_map.Refusals": "Which executables are refused",
    "llsc.Reservation": "Reservations",
    "rv32_step.Registers": "The registers at the start",
    "rv32_step.Demands": "What an instruction demands",
    "rv32_step.Memory": "Loads and stores",
    "rv32_step.Reservations": "What a store does to reservations",
    "rv32_step.Breaks": "When a reservation may be lost",
    "rv32_step.OneMemory": "Runs of the original",
    "rewriting_law.Bounds": "The steps of a processor",
    "one_memory.ByOrder": "How processors end",
    "rv32_text.Listing": "Digits of a word",
    "dsm_io.Causes": "What a sink gets",
    "dsm_io.States": "What contracts see of files and sinks",
    "text_output.Text": "Addresses in texts",
    "prepared_run.Text": "The lines of the nodes",
    "prepared_run.Processors": "The lines of the processors",
    "prepared_run.Outcomes": "The end of a text",
    "command_line.Tasks": "Commands and their options",
    "command_line.Asks": "What words ask for",
    "judged_files.Executables": "The executable in a file",
    "prepared_run.Interleaved": "A text that tells of the original",
    "commands.Interleaved": "What is printed of the original",
}
CLAUSE_SAYS = (
    "**The clause**, from the contract of `shasta` in [src/top.rt](../crates/commands/src/top.rt). "
    "`words` are the words of the command line, `files` and `out` what the call reads from and "
    "prints to, before it (`.old`) and after it (`.new`); `F.state` and `O.state` are what "
    "contracts see of these two, and `result` is the status:")
# The names of the clause, and those of PrintsOriginal: they stand on the first page, with links.
FIRST_NAMES = ("AsksToRun", "AreFilesTold", "PrintsOriginal", "IsTextOfOriginal", "TellsOfOriginal",
               "IsInterleaved", "IsRun")
WIDTH = 100


def wrapped(text):
    return textwrap.wrap(text, WIDTH, break_long_words=False, break_on_hyphens=False)


def entries_of(lines):
    """What stands between the braces of a type of the code: each field or variant on one line,
    with the lines of its comment before it."""
    found, comment, text = [], [], ""
    for line in lines:
        code, _, note = line.strip().partition("//")
        if not code and note:
            comment.append(f"//{note}")
            continue
        text = f"{text} {code.strip().removeprefix('pub ')}".strip()
        if text.endswith(",") and text.count("{") == text.count("}"):
            found.append((comment, re.sub(r", \}", " }", text)))
            comment, text = [], ""
    return found


def laid_out(lines):
    """A type of the code, with as many of its fields or variants on a line as it has room for; one
    with a comment has a line of its own."""
    head = re.sub(r"^pub(\(crate\))? ", "", lines[0])
    if len(lines) == 1:
        return [head]
    entries = entries_of(lines[1:-1])
    if any(comment for comment, _ in entries):
        inner, short = [], []
        for comment, text in [*entries, (["//"], "")]:
            if not comment:
                short.append(text)
                continue
            inner += [*packed(short, 4), *(f"    {line}" for line in with_comment(comment, text))]
            short = []
        return [head, *inner[:-2], "}"]
    text = " ".join(text for _, text in entries)
    whole = f"{head} {text.removesuffix(',')} }}"
    if len(whole) <= WIDTH:
        return [whole]
    inner = textwrap.wrap(text.replace("{ ", "{~").replace(" }", "~}"), WIDTH - 4)
    return [head, *("    " + line.replace("~", " ") for line in inner), "}"]


def with_comment(comment, text):
    """A field or variant with its comment: after it where it has room there, else before it."""
    line = f"{text}  // {comment[0].removeprefix('/// ').removesuffix('.')}"
    if len(comment) == 1 and text and len(line) <= WIDTH - 4:
        return [line]
    return [*comment, text]


def packed(entries, indent):
    """These texts in lines that begin so far in, as many on a line as it has room for."""
    lines = []
    for text in entries:
        if lines and len(lines[-1]) + 1 + len(text) <= WIDTH:
            lines[-1] += f" {text}"
        else:
            lines.append(" " * indent + text)
    return lines


def inside_of(lines, indent):
    """The lines within the braces of a record, whose fields begin so far in, laid out closer. A
    field of several lines stays as it is."""
    fields = []
    for line in lines:
        if line[indent] == " " and fields:
            fields[-1].append(line)
        else:
            fields.append([line])
    found, short = [], []
    for field in fields:
        if len(field) == 1 and not field[0].strip().startswith("--"):
            short.append(field[0].strip())
        else:
            found += [*packed(short, indent), *field]
            short = []
    return [*found, *packed(short, indent)]


def closer(lines):
    """The lines of a definition, where the fields of a record's value are laid out closer."""
    found, left = [], list(lines)
    while left:
        line = left.pop(0)
        found.append(line)
        if not line.endswith("{"):
            continue
        own = len(line) - len(line.lstrip())
        end = next(i for i, other in enumerate(left) if other.startswith(" " * own + "}"))
        inner = inside_of(left[:end], own + 2)
        whole = f"{line} {inner[0].strip().removesuffix(';')} }}{left[end].strip()[1:]}"
        if len(inner) == 1 and len(whole) <= WIDTH:
            found[-1] = whole
        else:
            found += [*inner, left[end]]
        left = left[end + 1:]
    return found


def listed(names):
    return " and ".join(filter(None, [", ".join(names[:-1]), names[-1]]))


class Book:
    """These definitions, by place, in chapters and in order."""

    def __init__(self, sources, crates, places):
        self.sources, self.crates, self.places = sources, crates, places
        self.uses = {place: list(sources.uses(found)) for place, found in places.items()}
        self.named = {}
        for found in places.values():
            for name in {found.name, *self.constructors(found)}:
                self.named.setdefault(name, set()).add(found.place)
        self.types = {"ℕ", "ℤ", "Bool", "List", "Option", *(
            found.name for found in places.values()
            if found.kind in ("struct", "enum", "record", "data") and " (" not in found.lines[0])}
        self.chapters, self.files, self.order = {}, {}, []
        for place in sorted(places, key=self.rank):
            self.add(place)

    def constructors(self, found):
        """The names of a type's cases."""
        if found.is_of_code:
            variants = re.findall(r"^    ([A-Z]\w*)", "\n".join(found.text()), flags=re.M)
            return variants if found.kind == "enum" else []
        file = self.sources.specs[found.crate, found.module]
        return [name for name, owner in file.owner.items() if owner is found]

    def needed(self, place):
        return [found.place for _, found in self.uses[place]
                if found != "std" and found.place != place]

    def chapter(self, place):
        """The chapter of what stands at a place, as a number."""
        if place not in self.chapters:
            self.chapters[place] = 0
            found = self.places[place]
            names = (f"{found.crate}.{found.module}", found.crate)
            own = [i for name in names for i, (_, _, inside) in enumerate(CHAPTERS)
                   if name in inside]
            later = [self.chapter(other) for other in self.needed(place)]
            self.chapters[place] = max([*own[:1], *later], default=0)
        return self.chapters[place]

    def rank(self, place):
        """By chapter, then by crate and by file as these depend on one another, then as in the
        file. Types of the code come where they are first used."""
        found = self.places[place]
        if found.is_of_code:
            return len(CHAPTERS), 0, 0, 0, place
        file = self.sources.specs[found.crate, found.module]
        if found.crate not in self.files:
            self.files[found.crate] = self.files_of(found.crate)
        return (self.chapter(place), self.crates.index(found.crate),
                self.files[found.crate].index(found.module),
                list(file.definitions).index(found.name), place)

    def files_of(self, crate):
        """A crate's files as specs/Lib.antt lists them, each behind those that it uses."""
        library = self.sources.specs[crate, "Lib"]
        order = []

        def visit(module):
            file = self.sources.specs.get((crate, module))
            if file is None or module in order or module in visiting:
                return
            visiting.add(module)
            for path in file.imports.values():
                if path[0] == crate:
                    visit(".".join(path[1:-1]))
            order.append(module)

        visiting = set()
        inner = [module for owner, module in self.sources.specs if owner == crate]
        for module in [*library.modules, *inner]:
            visit(module)
        return order

    def add(self, place):
        """Puts what stands at a place behind all that it uses."""
        if place in self.order:
            return
        for other in self.needed(place):
            self.add(other)
        if place not in self.order:
            self.order.append(place)

    def sections(self):
        """The places by chapter and file: a type of the code goes with what stands behind it."""
        found, waiting = [], []
        for place in self.order:
            waiting.append(place)
            if self.places[place].is_of_code and place != self.order[-1]:
                continue
            key = (self.chapter(place), *place[:2])
            if found and found[-1][0] == key:
                found[-1][1].extend(waiting)
            else:
                found.append((key, waiting))
            waiting = []
        return found

    def words_of_std(self):
        """The words of std that are used."""
        return {token.split(".")[0] for uses in self.uses.values() for token, found in uses
                if found == "std" and re.fullmatch(NAME, token.split(".")[0])}

    def front(self, clause):
        """The clause, and what it promises, with links to what stands below."""
        promise = self.only("PrintsOriginal")
        links = [f"[`{name}`](#{self.anchor(self.only(name))})" for name in FIRST_NAMES]
        return ["", *wrapped(CLAUSE_SAYS), "", "```", *clause, "", *promise.comment,
                *self.shown(promise), "```", "", *wrapped(f"Below stand {listed(links)}."), ""]

    def only(self, name):
        """The one thing of a name."""
        return next(found for found in self.places.values() if found.name == name)

    def anchor(self, found):
        """The link to the heading under which something stands."""
        heading = HEADINGS[f"{found.crate}.{found.module}"]
        return re.sub(r"[^a-z -]", "", heading.lower()).replace(" ", "-")

    def lines(self):
        """The text of the book."""
        lines, chapter = [], None
        for (number, crate, file), places in self.sections():
            if number != chapter:
                title, says, _ = CHAPTERS[number]
                lines += [f"## {number + 1}. {title}", "", *wrapped(says), ""]
                chapter = number
            lines += self.section(crate, file, places)
        return lines[:-1]

    def length(self):
        """How many lines the book has without comments."""
        return sum(len([line for line in self.shown(found) if not re.match(r" *(--|//)", line)])
                   for found in self.places.values())

    def section(self, crate, file, places):
        module = self.places[places[-1]].module
        plain = re.sub(r"(?<=[a-z])(?=[A-Z])", " ", module) or "types"
        title = HEADINGS.get(f"{crate}.{module}", f"{crate}: {plain}")
        says = self.sources.specs[crate, module].says if file.startswith("specs/") else []
        link = f"[{crate}/{file}](../crates/{crate}/{file})"
        notes = [*self.notes(crate, module, places), *self.twice(places)]
        named = [f"Names here: {'; '.join(notes)}."] if notes else []
        lines = [f"### {title}", "", *wrapped(" ".join([*says, link, *named])), ""]
        return [*lines, *self.code(places)]

    def twice(self, places):
        """What stands here under a name that something else in the book has, too."""
        for place in places:
            found = self.places[place]
            for other in sorted(self.named.get(found.name, set()) - {place}):
                there = self.places[other]
                if there.name == found.name and not there.is_of_code:
                    heading = HEADINGS.get(f"{there.crate}.{there.module}", there.crate)
                    yield f"another `{found.name}` stands under '{heading}'"

    def code(self, places):
        """The texts in a block: those of specs/, and those of the code."""
        lines, within = ["```"], ""
        for before, place in zip([None, *places], places):
            found = self.places[place]
            try:
                one_line, shown = self.in_one_line(found), self.shown(found)
            except Exception as error:
                sys.exit(f"reached: {found.crate} {found.file}: {found.name} can't be laid out: "
                         f"{error!r}")
            if before is not None and not self.goes_on(before, place):
                lines.append("")
            if one_line:
                lines.append(one_line)
                continue
            if found.within and found.within != within:
                lines += [found.within, ""]
            within = found.within
            indent = "  " if within else ""
            lines += [indent + line for line in [*found.comment, *shown]]
        return [*lines, "```", ""]

    def in_one_line(self, found):
        """A type of the code with its comment in one line, where it has room there; else None."""
        shown = self.shown(found)
        if not found.is_of_code or found.within or len(shown) != 1 or len(found.comment) != 1:
            return None
        head, _, seen = shown[0].partition("  // ")
        says = found.comment[0].removeprefix("/// ").removesuffix(".")
        line = f"{head}  // {'; '.join(filter(None, [says, seen]))}"
        return line if len(line) <= WIDTH else None

    def goes_on(self, before, place):
        """Whether a definition follows on the one before without an empty line: both are types in a
        line; or both are short, and it has no comment of its own."""
        both = one, other = self.places[before], self.places[place]
        if all(self.in_one_line(found) for found in both):
            return True
        return not other.comment and all(
            not it.is_of_code and not it.within and len(self.shown(it)) <= 5 for it in both)

    def shown(self, found):
        """A definition's lines; of a type with a model what contracts see of it."""
        if not found.is_of_code:
            return closer(self.with_fields(found))
        model = self.sources.code[found.crate, found.module].model_of(found.name)
        if not model:
            return laid_out(found.lines)
        head = re.sub(r"^pub(\(crate\))? ", "", found.lines[0]).removesuffix(" {")
        return [f"{head}  // seen as {ghost(model, 'Value')}"]

    def with_fields(self, found):
        """A definition's lines; of a record those fields closer that are no statements."""
        if found.kind != "record":
            return found.lines
        lines, things = [], []
        for line in [*found.lines, ""]:
            field = re.fullmatch(r"  pub \w+ : (.*)", line)
            told = lines[-1:] and lines[-1].strip().startswith("--") and not things
            if field and not told and set(re.findall(NAME, field.group(1))) <= self.types:
                things.append(line.strip() + ";")
                continue
            joined = packed(things, 2)
            lines += [*(text.removesuffix(";") for text in joined), line]
            things = []
        return lines[:-1]

    def notes(self, crate, module, places):
        """What names stand for that are other ones where they are defined, or that several things
        in the book have."""
        file = self.sources.specs.get((crate, module))
        if not file:
            return []
        notes, of_owner = {}, {}
        uses = [use for place in places if not self.places[place].is_of_code
                for use in self.uses[place]]
        for token, found in uses:
            first = token.split(".")[0]
            if found == "std" or first in file.owner or first not in file.imports:
                continue
            own = file.imports[first][-1]
            if own == "TheVariants":
                notes[first] = f"`{first}.X` is `X` of `{found.name}`"
            elif own != first:
                notes[first] = f"`{first}` is `{own}` of {self.owner(own, found)}"
            elif len(self.named.get(first, ())) > 1 and own != found.name:
                of_owner.setdefault(f"`{found.name}`", {})[f"`{first}`"] = None
            elif len(self.named.get(first, ())) > 1:
                of_owner.setdefault(self.owner(own, found), {})[f"`{first}`"] = None
        return [*(f"{listed([*names])} {'is' if len(names) == 1 else 'are'} of {owner}"
                  for owner, names in of_owner.items()), *notes.values()]

    def owner(self, name, found):
        """The type of which a name is a case; or the crate where it stands."""
        return f"`{found.name}`" if name != found.name else found.crate
