#!/usr/bin/env python3
"""Every `&mut` parameter of a public function is promised something after the call, or docs/DECISIONS.md says that it is free.

Lists the `&mut` parameters whose value after the call (`.new` or `.exit`) no `ensures` of their function names, and fails for one that the table under
'## Free results' in docs/DECISIONS.md has not; and for a row of that table which names a function or a parameter that there is not.
A row is `functions | parameters | what holds`: names in backticks, a function as `crate::name`, or as `name` behind one of the same crate.
First it tries itself on a source and a table that are made up, to show that it can fail."""
import pathlib
import re
import sys

ROOT = pathlib.Path(__file__).resolve().parent.parent


def headers(source):
    """Of each public function of a source: its name, and the lines of its head, from `pub fn` to the `{` of its body."""
    lines = [line.split("//")[0].rstrip() for line in source.split("\n")]
    for first, line in enumerate(lines):
        begins = re.match(r'pub (?:extern "C" )?fn (\w+)', line)
        if begins:
            last = first
            while not re.match(r"(?! ).*\{$", lines[last]):
                last += 1
            yield begins.group(1), lines[first : last + 1]


def parameters(head):
    """The `&mut` parameters of a function, each with whether an `ensures` names its value after the call."""
    begins = [i for i, line in enumerate(head) if re.match(r"    (ghost|requires|ensures)\b", line)] + [len(head)]
    clauses = [" ".join(head[i:j]) for i, j in zip(begins, begins[1:])]
    promised = " ".join(clause for clause in clauses if clause.startswith("    ensures"))
    for name in re.findall(r"(\w+): &(?:'\w+ )?mut ", " ".join(head[: begins[0]])):
        yield name, re.search(rf"\b{name}\.(new|exit)\b", promised) is not None


def table_rows(text):
    """Of each row of the table under '## Free results': its functions as `crate::name`, and its parameters."""
    section = re.search(r"^## Free results$(.*?)(?=^## |\Z)", text, re.M | re.S)
    for line in section.group(1).split("\n") if section else []:
        cells = [cell.strip() for cell in line.strip("|").split("|")]
        names = re.findall(r"`([\w:]+)`", cells[0])
        if not line.startswith("|") or not names:
            continue
        crate, functions = "", []
        for name in names:
            crate = name.split("::")[0] if "::" in name else crate
            functions.append(f"{crate}::{name.split('::')[-1]}")
        yield functions, re.findall(r"`(\w+)`", cells[1])


def faults(sources, text):
    """What is wrong, of sources (pairs of a crate's name and a text) and the text of DECISIONS."""
    promised = {}
    for crate, source in sources:
        for function, head in headers(source):
            for name, named in parameters(head):
                promised[f"{crate}::{function}", name] = named
    listed = {(function, name) for functions, names in table_rows(text) for function in functions for name in names}
    for function, name in sorted(listed - promised.keys()):
        yield f"DECISIONS, 'Free results': {function} has no `&mut` parameter {name}"
    for (function, name), named in sorted(promised.items()):
        if not named and (function, name) not in listed:
            yield f"{function}: no `ensures` names {name} after the call, nor does DECISIONS, 'Free results'"


MADE_UP_SOURCE = """
pub fn read(s: &[u8], table: &mut [u32], notes: &mut [u16]) -> usize
    requires { length notes.old ≤ 4 }
    ensures answers { Answers s.now (length notes.old) result }
    ensures fills {
        Fills s.now table.new
    }
{
"""
MADE_UP_TABLE = "## Free results\n| functions | parameters | what holds |\n|---|---|---|\n| `made::read` | `%s` | as long as before |\n"


def try_itself():
    made_up = [("made", MADE_UP_SOURCE)]
    assert list(faults(made_up, MADE_UP_TABLE % "notes")) == []
    assert [fault.split(":")[0] for fault in faults(made_up, "")] == ["made"]
    assert len(list(faults(made_up, MADE_UP_TABLE % "nodes"))) == 2
    assert len(list(faults([("other", MADE_UP_SOURCE)], MADE_UP_TABLE % "notes"))) == 2


def main():
    try_itself()
    sources = [(path.parts[-3], path.read_text()) for path in sorted(ROOT.glob("crates/*/src/*.rt"))]
    found = list(faults(sources, (ROOT / "docs/DECISIONS.md").read_text()))
    for fault in found:
        print(fault)
    if not found:
        print("free results: each lent parameter is promised something, or DECISIONS says that it is free")
    return 1 if found else 0


if __name__ == "__main__":
    sys.exit(main())
