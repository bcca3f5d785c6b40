#!/usr/bin/env python3
"""What docs/PROMISES.md cites is there, and every must-fail edit of the repository is cited.

In the tables' last column (and in paragraphs) stand the edits, as `crate/label`, as `crate/*`, as `label` behind one of the same crate in the same
cell, or as `label` alone if no other crate has one of that name. All that stands in backticks is looked for: a path in the repository or below crates/
(`text/specs/Texts.same`, with a name that it defines), a function or type as `crate::name`, a definition or a field as `File.name`, `Record.field` or
`File.Record.field` (`E5.refused_nineteen`), a crate, or a name alone that something in the repository defines; `*` stands for any characters.
What is no name, such as `i0;` or a contract's text, and what has one or two characters, is a quotation and is passed over.
First it tries itself on a repository and a text that are made up, to show that it can fail."""
import fnmatch
import pathlib
import re
import sys
import tempfile

ROOT = pathlib.Path(__file__).resolve().parent.parent
DEFINES = re.compile(r"(?P<indent> *)(?:(?:abbrev|unfoldable|pub) )*(?:(?P<sort>data|record) )?(?P<name>[^\s(){}:=]+)(?: [({].*)? :(?: |$)")
RUST = re.compile(r"\b(?:fn|struct|enum|const|static|type|mod|macro_rules!) +(\w+)")
NAME = re.compile(r"[^\W\d][\w.:/*·′-]+")
WORDS = {"requires", "ensures"}


class Repository:
    """What the files of a repository define."""

    def __init__(self, root):
        self.root = root
        self.crates = {path.name for path in root.glob("crates/*")}
        self.edits = {f"{path.parts[-3]}/{path.stem}" for path in root.glob("crates/*/must-fail/*.edit")}
        self.files = {}  # a file of definitions, as `crate/specs/File`: what it defines, `Record.field` too
        self.items = set()  # `crate::name`
        self.names = set()
        for path in root.glob("crates/*/*/**/*.antt"):
            key = str(path.relative_to(root / "crates").with_suffix(""))
            self.files[key] = defined = definitions(path.read_text())
            self.names |= defined | {path.stem}
        for path in root.glob("crates/*/src/*.rt"):
            found = set(RUST.findall(path.read_text()))
            crate = path.relative_to(root).parts[1]
            self.items |= {f"{crate}::{name}" for name in found}
            self.names |= found
        for path in [*root.glob("second/**/*.rs"), *root.glob("link/rust/**/*.rs"), *root.glob("compare/src/**/*.rs")]:
            if "target" not in path.parts:
                self.names |= set(RUST.findall(path.read_text()))
        self.names |= {path.stem for path in root.glob("link/c/*.c")}

    def has(self, cited):
        """Whether what is cited is there, other than as an edit."""
        if "/" in cited:
            if any(self.root.glob(cited.rstrip("/"))) or any(self.root.glob(f"crates/{cited}")) or cited in self.files:
                return True
            file, _, name = cited.partition(".")
            return name in self.files.get(file, ())
        if "::" in cited:
            return cited in self.items
        if "." in cited:
            stem, _, name = cited.partition(".")
            of_file = [defined for key, defined in self.files.items() if key.split("/")[-1] == stem]
            return any(name in defined or name == "antt" for defined in of_file) or any(cited in defined for defined in self.files.values())
        return cited in self.crates or bool(fnmatch.filter(self.names, f"*{cited}" if cited.startswith("_") else cited))


def definitions(text):
    """The names that a file defines; a record's fields and a type's cases alone and behind its name, as `Record.field`."""
    found, record, inner = set(), None, ""
    for line in text.split("\n"):
        defines = DEFINES.match(line)
        if not defines:
            continue
        indent, name = defines.group("indent"), defines.group("name")
        found.add(name)
        if defines.group("sort"):
            record, inner = name, indent + "  "
        elif record and indent == inner:
            found.add(f"{record}.{name}")
        elif len(indent) < len(inner):
            record = None
    return found


def cells(line):
    return [cell.strip() for cell in re.split(r"(?<!\\)\|", line.strip().strip("|"))]


def cited_edits(cell, repository, alone):
    """Of what a cell or a paragraph cites in backticks: each, with the edits that it names. Whether a label may stand alone is asked."""
    crate = None
    for cited in re.findall(r"`([^`]+)`", cell):
        named = re.fullmatch(r"(\w+)/(\w+|\*)", cited)
        if named and named.group(1) in repository.crates:
            crate = named.group(1)
        edits = set(fnmatch.filter(repository.edits, cited if named else f"{crate or '*'}/{cited}"))
        yield cited, edits if crate or (alone and len(edits) == 1) else set()


def faults(text, repository):
    reached = set()
    for number, line in enumerate(text.split("\n"), 1):
        *front, last = cells(line) if line.startswith("|") else [line]
        for cited, edits in cited_edits(last, repository, alone=front != []):
            reached |= edits
            if not edits and not quoted(cited) and not repository.has(cited):
                yield f"docs/PROMISES.md:{number}: there is no `{cited}`, nor an edit of that name"
        for cited in re.findall(r"`([^`]+)`", " ".join(front)):
            if not quoted(cited) and not repository.has(cited) and cited not in repository.edits:
                yield f"docs/PROMISES.md:{number}: there is no `{cited}`"
    for edit in sorted(repository.edits - reached):
        yield f"docs/PROMISES.md: no row cites the edit `{edit}`"


def quoted(cited):
    return not NAME.fullmatch(cited) or len(cited) <= 2 or cited in WORDS


MADE_UP = {
    "crates/demands/specs/E5.antt": "pub record E5 : Type 0 where\n  pub refused_nineteen : ℕ → Type 0\n\npub short : ℕ\nshort = 1\n",
    "crates/demands/must-fail/e5_eighteen.edit": "old: a\nnew: b\n",
    "crates/reader/must-fail/all.edit": "old: a\nnew: b\n",
    "crates/reader/must-fail/none.edit": "old: a\nnew: b\n",
    "crates/reader/src/lib.rt": "pub fn read(s: &[u8]) -> usize\n{\n",
}
GOOD = "| 19 | `E5.refused_nineteen`, `E5.short`, `reader::read`, `short` | `demands/e5_eighteen`; `reader/all`, `none` |"
WRONG = [
    ("E5.refused_nineteen", "E5.refused_eighteen"),
    ("reader::read", "reader::write"),
    ("`short`", "`long`"),
    ("demands/e5_eighteen", "demands/e5_nineteen"),
    ("`none`", "`all`"),
    ("`none`", "`gone`"),
    ("reader::read", "crates/reader/src/main.rt"),
]


def try_itself():
    with tempfile.TemporaryDirectory() as folder:
        for name, text in MADE_UP.items():
            path = pathlib.Path(folder, name)
            path.parent.mkdir(parents=True, exist_ok=True)
            path.write_text(text)
        repository = Repository(pathlib.Path(folder))
        assert list(faults(GOOD, repository)) == []
        assert list(faults(GOOD.replace("`reader/all`, `none`", "`reader/*`"), repository)) == []
        for old, new in WRONG:
            assert list(faults(GOOD.replace(old, new), repository)), new


def main():
    try_itself()
    found = list(faults((ROOT / "docs/PROMISES.md").read_text(), Repository(ROOT)))
    for fault in found:
        print(fault)
    if not found:
        print("promises: all that docs/PROMISES.md cites is there, and every edit is cited")
    return 1 if found else 0


if __name__ == "__main__":
    sys.exit(main())
