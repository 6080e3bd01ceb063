"""The public items of a crate, read from its sources as text, without the kit: what its root file
exports, with fields, parameters, conditions and the labels of clauses."""
from __future__ import annotations

import re
from dataclasses import dataclass
from pathlib import Path
from typing import Iterator, Optional

WIDTH = 100
OPEN, BRACKET = "([{", re.compile(r"[][(){}]")
# comments, texts and characters: what looks like code and isn't
OPAQUE = re.compile(r'//[^\n]*|b?"(?:\\.|[^"\\])*"|b?\'(?:\\.[^\']*|[^\'\\])\'', re.DOTALL)
ATTRIBUTE = re.compile(r"\s*#!?\[")
DERIVE = re.compile(r"#\[derive\(([^)]*)\)\]")
ITEM = re.compile(
    r"\s*(?P<seen>pub(?:\([^)]*\))?\s+)?"
    r"(?:(?:final|unsafe|const(?=\s+(?:unsafe\s+)?fn\b))\s+)*"
    r"(?P<kind>fn|struct|enum|trait|impl|const|static|type|use|mod|ghost|macro_rules!)(?!\w)\s*"
    r"(?P<name>\w*)")
CLAUSE = re.compile(r"\b(?P<kind>requires|ensures)\*?(?:\s+(?P<label>\w+))?\s*$")


@dataclass(frozen=True)
class Clause:
    """A clause of a contract: its keyword, its label, which may be empty, and its text."""
    kind: str
    label: str
    text: str

    def line(self) -> str:
        """Returns the clause as a line."""
        return " ".join(filter(None, (self.kind, self.label, f"{{ {self.text} }}")))


@dataclass(frozen=True)
class Source:
    """A piece of a source: its text without comments, and the same with texts and characters
    blanked, in which brackets are brackets."""
    plain: str
    mask: str

    @staticmethod
    def of(text: str) -> Source:
        """Returns a file's text as a source."""
        plain = OPAQUE.sub(lambda found: blank(found.group())
                           if found.group().startswith("//") else found.group(), text)
        return Source(plain, OPAQUE.sub(lambda found: blank(found.group()), plain))

    def piece(self, start: int, end: int) -> Source:
        """Returns the piece between two places."""
        return Source(self.plain[start:end], self.mask[start:end])

    def block(self, start: int) -> tuple[int, int]:
        """Returns where the first bracket from a place on opens, and the place after it closes."""
        opened: list[int] = []
        for found in BRACKET.finditer(self.mask, start):
            if found.group() in OPEN:
                opened.append(found.start())
            elif len(opened) == 1:
                return opened[0], found.end()
            elif opened:
                opened.pop()
        return opened[0] if opened else len(self.mask), len(self.mask)

    def find(self, signs: str, start: int = 0) -> int:
        """Returns the first place from `start` on, outside brackets, of one of these signs, or the
        end. An opening bracket that is one of them is found too."""
        sought = re.compile(f"[{re.escape(signs + OPEN)}]")
        found = sought.search(self.mask, start)
        while found and found.group() not in signs:
            found = sought.search(self.mask, self.block(found.start())[1])
        return found.start() if found else len(self.mask)

    def parts(self) -> list[Source]:
        """Returns what stands between commas, outside brackets and the arguments of types."""
        found, start, at = [], 0, 0
        while start < len(self.mask):
            at = self.find(",", at)
            piece = self.piece(start, at)
            opened = len(re.findall(r"[\w:]<", piece.mask))
            if at < len(self.mask) and opened > len(re.findall(r"(?<![-=])>", piece.mask)):
                at += 1
                continue
            if piece.mask.strip():
                found.append(piece)
            start = at = at + 1
        return found


@dataclass(frozen=True)
class RawItem:
    """An item of a module, as it stands there: its kind, its name, whether it is `pub`, what it
    derives, and its text from the keyword on."""
    kind: str
    name: str
    is_public: bool
    derives: str
    text: Source


@dataclass(frozen=True)
class PublicItem:
    """A public item: its name, its declaration in one line, what it derives, the impl that it is
    in if that has parameters, its fields, variants or ghost members, and the clauses of its
    contract."""
    name: str
    head: str
    derives: str = ""
    within: str = ""
    members: tuple[str, ...] = ()
    clauses: tuple[Clause, ...] = ()

    def lines(self) -> list[str]:
        """Returns the item's lines: first the declaration; then, indented, its members, its
        conditions, and the labels of its other clauses, `_` for one without a label."""
        lines = laid_out(self.head)
        lines += [f"  derives {self.derives}"] if self.derives else []
        lines += [f"  in {self.within}"] if self.within else []
        conditions = [clause.line() for clause in self.clauses if clause.kind == "requires"]
        for line in [*self.members, *conditions]:
            lines += wrapped(line)
        labels = [clause.label or "_" for clause in self.clauses if clause.kind == "ensures"]
        return lines + (wrapped("ensures " + ", ".join(labels)) if labels else [])


def blank(text: str) -> str:
    """Returns as many spaces as a text has characters, with its line ends."""
    return re.sub(r"[^\n]", " ", text)


def in_one_line(text: str) -> str:
    """Returns a text with one space between words, and none inside brackets or before a comma that
    ends a list."""
    text = re.sub(r",(\s*[)\]>}])", r"\1", " ".join(text.split()))
    return re.sub(r"([(\[]) | (?=[)\]])", r"\1", text)


def wrapped(line: str) -> list[str]:
    """Returns an indented line, in pieces of at most 100 characters; later pieces are indented
    further."""
    lines, now = [], "  "
    for word in line.split(" "):
        if len(now) + len(word) > WIDTH and now.strip():
            lines.append(now.rstrip())
            now = "      "
        now += word + " "
    return [*lines, now.rstrip()]


def laid_out(head: str) -> list[str]:
    """Returns a declaration in one line, or, if it is longer than 100 characters, with each
    parameter in a line."""
    source = Source.of(head)
    start, end = source.block(0)
    if len(head) <= WIDTH or start == len(head):
        return [head]
    given = source.piece(start + 1, end - 1).parts()
    return [head[:start + 1], *(f"      {each.plain.strip()}," for each in given),
            f"    {head[end - 1:]}"]


def end_of(kind: str, source: Source, start: int) -> int:
    """Returns the place after an item whose keyword stands at `start`."""
    if kind == "fn":
        return contract_of(source, start)[1]
    if kind in ("use", "const", "static", "type", "ghost"):
        return source.find(";", start) + 1
    end = source.find("{;", start)
    return source.block(end)[1] if source.mask[end:end + 1] == "{" else end + 1


def contract_of(source: Source, start: int) -> tuple[list[Clause], int]:
    """Returns the clauses of the function whose keyword stands at `start`, and the place after its
    body, or after the semicolon in its place. A block after `requires` or `ensures` is a clause;
    any other is the body."""
    clauses, last = [], start
    while True:
        at = source.find("{;", last)
        if source.mask[at:at + 1] != "{":
            return clauses, at + 1
        end = source.block(at)[1]
        told = CLAUSE.search(source.mask, last, at)
        if not told:
            return clauses, end
        text = " ".join(source.plain[at + 1:end - 1].split())
        clauses.append(Clause(told.group("kind"), told.group("label") or "", text))
        last = end


def items_in(source: Source) -> Iterator[RawItem]:
    """Returns the items of a module, or of the body of a trait or an impl, without tests."""
    at = 0
    while True:
        begun = at
        while ATTRIBUTE.match(source.mask, at):
            at = source.block(at)[1]
        found = ITEM.match(source.mask, at)
        if not found:
            return
        attributes = source.plain[begun:at]
        at = end_of(found.group("kind"), source, found.start("kind"))
        if "#[cfg(test)]" not in attributes and "#[test]" not in attributes:
            derives = ", ".join(in_one_line(each) for each in DERIVE.findall(attributes))
            yield RawItem(found.group("kind"), found.group("name"),
                          (found.group("seen") or "").strip() == "pub", derives,
                          source.piece(found.start("kind"), at))


def members_of(item: RawItem) -> tuple[str, ...]:
    """Returns the public fields and conditions of a struct, the variants of an enum, or the ghost
    members of a trait. A struct with other fields has a line that says so."""
    at = item.text.find("({;")
    start, end = item.text.block(at)
    if item.text.mask[at:at + 1] not in ("(", "{"):
        return ()
    body = item.text.piece(start + 1, end - 1)
    if item.kind == "trait":
        return tuple(in_one_line(each.text.plain.rstrip().rstrip(";"))
                     for each in items_in(body) if each.kind == "ghost")
    parts = [in_one_line(re.sub(r"#\[[^]]*\]", "", part.plain)) for part in body.parts()]
    if item.kind == "enum":
        return tuple(parts)
    shown = tuple(part[4:] for part in parts if part.startswith("pub "))
    is_hidden = any(not re.match(r"pub |(?:pub\([^)]*\) )?ghost ", part) for part in parts)
    return shown + (("private fields",) if is_hidden else ())


def declared(item: RawItem, owner: str = "", within: str = "") -> PublicItem:
    """Returns a public item, named after the type or trait that it belongs to, if any. `within` is
    the impl that it is in, if that has parameters."""
    name = f"{owner}::{item.name}" if owner else item.name
    text = item.text
    if item.kind == "fn":
        clauses = contract_of(text, 0)[0]
        end = text.find("{;")
        told = CLAUSE.search(text.mask, 0, end)
        head = in_one_line(text.plain[:told.start() if told else end])
        head = re.sub(r"([(,] ?)mut (?=\w+[:,)])", r"\1", head)
        return PublicItem(name, head.replace(f"fn {item.name}", f"fn {name}", 1), within=within,
                          clauses=tuple(clauses))
    if item.kind in ("const", "static", "type"):
        head = in_one_line(text.plain.rstrip().rstrip(";"))
        return PublicItem(name, head.replace(f" {item.name}", f" {name}", 1))
    head = in_one_line(text.plain[:text.find("({;")])
    return PublicItem(name, head, derives=item.derives, members=members_of(item))


class Crate:
    """The sources of a crate: its root file's exports, and what they are."""

    def __init__(self, folder: Path) -> None:
        self.name = folder.name
        self.root = list(items_in(Source.of((folder / "src" / "lib.rt").read_text("utf-8"))))
        self.modules = {item.name for item in self.root if item.kind == "mod"}
        self.items: list[RawItem] = []
        for path in sorted((folder / "src").rglob("*.rt")):
            if path.name != "tests.rt":
                self.items += items_in(Source.of(path.read_text("utf-8")))

    def exports(self) -> tuple[set[str], list[str]]:
        """Returns the names of its own items that the root file exports, and the paths of others'
        that it exports too."""
        own = {item.name for item in self.root
               if item.is_public and item.kind not in ("use", "impl", "ghost")}
        others = []
        for item in self.root:
            if item.kind == "use" and item.is_public:
                path = in_one_line(item.text.plain)[4:].rstrip(";").strip()
                first, names = path.split("::")[0], re.findall(r"\w+", path.rpartition("::")[2])
                if first in self.modules:
                    own.update(names)
                else:
                    others += [f"{path.rpartition('::')[0]}::{name}" for name in names]
        return own, others

    def public_items(self) -> list[PublicItem]:
        """Returns all public items, by name."""
        own, others = self.exports()
        found = [PublicItem(path.rpartition("::")[2], f"use {path}") for path in others]
        traits = {item.name for item in self.items if item.kind == "trait"}
        for item in self.items:
            if item.kind == "impl":
                found += self.of_impl(item, own, traits - own)
            elif item.is_public and item.name in own and item.kind != "use":
                found += self.of_item(item)
        return sorted(found, key=lambda item: (item.name.lower(), item.head))

    @staticmethod
    def of_item(item: RawItem) -> Iterator[PublicItem]:
        """Returns an item of a module: a trait with its functions, a module with its items."""
        body = item.text.piece(item.text.find("{") + 1, len(item.text.mask) - 1)
        if item.kind == "mod":
            for each in items_in(body):
                if each.is_public:
                    yield declared(each, item.name)
            return
        yield declared(item)
        if item.kind == "trait":
            for each in items_in(body):
                if each.kind != "ghost":
                    yield declared(each, item.name)

    @staticmethod
    def of_impl(item: RawItem, own: set[str], hidden: set[str]) -> Iterator[PublicItem]:
        """Returns the public functions and constants of a type, or that the type has a trait."""
        start = item.text.find("{")
        head = in_one_line(item.text.plain[:start])
        subject = re.sub(r"^impl(?:<(?:[^<>]|<[^<>]*>)*>)? ", "", head)
        trait, _, kind = subject.rpartition(" for ")
        owner = word_of(kind)
        if owner not in own or word_of(trait) in hidden:
            return
        if trait:
            yield PublicItem(owner, head)
            return
        within = head if re.search(r"[A-Z]\w*(?::|>)", head[4:]) else ""
        for each in items_in(item.text.piece(start + 1, len(item.text.mask) - 1)):
            if each.is_public:
                yield declared(each, owner, within)


def word_of(path: str) -> Optional[str]:
    """Returns the name at the end of a path, before its arguments."""
    found = re.match(r"(?:\w+::)*(\w+)", path)
    return found.group(1) if found else None
