"""Reads the items of a Rattle source: what is public, what it promises, and where each clause stands.

It pairs brackets and reads no types, so it knows as much of the language as tells one item from the next. At a text that begins no
item it stops.
"""
import re

LISTED = re.compile(r'"(?:\\.|[^"\\])*"|\'(?:\\[^\']*|[^\'\\\n])\'|//[^\n]*', re.S)
HEAD = re.compile(
    r"(?P<seen>pub(?:\([^)]*\))?\s+)?(?:(?:final|unsafe|extern)\s+|const\s+(?=fn\b|unsafe\b|extern\b))*"
    r"(?P<kind>ghost|use|mod|struct|enum|const|static|type|trait|impl|fn|macro_rules!)(?:(?<=!)|\b)\s*(?P<name>\w*)"
)
CLAUSE = re.compile(r"(?P<word>(?:requires|ensures|ghost)\*?)\s*(?P<name>[^{]*?)\s*\{")
ENDS = {"mod": ";{", "struct": ";{", "enum": "{", "trait": "{", "impl": "{", "macro_rules!": "{"}
EXPORTED = re.compile(r"no_mangle|export_name")


def folded(text):
    """A text with its white space folded."""
    return " ".join(text.split())


def laid(text):
    """A signature in one line, however it is laid out."""
    return re.sub(r",? ([)\]])", r"\1", re.sub(r"([(\[]) ", r"\1", folded(text)))


class Item:
    """An item of a source: what it is, its text up to its body, its clauses, and where its body is."""

    def __init__(self, attributes, found):
        self.attributes = attributes
        self.seen = (found["seen"] or "").strip()
        self.kind, self.name = found["kind"], found["name"]
        self.head, self.clauses, self.body = "", [], None

    def is_exported(self):
        return any(EXPORTED.search(a) for a in self.attributes)

    def is_public(self):
        return self.seen == "pub" or self.is_exported() or "macro_export" in self.attributes

    def has(self, word):
        return any(c[0].startswith(word) for c in self.clauses)


class Source:
    """A source with its comments blanked out, and the same with its texts blanked out too, where brackets can be paired."""

    def __init__(self, text):
        self.code = LISTED.sub(lambda m: " " * len(m[0]) if m[0].startswith("//") else m[0], text)
        self.mask = LISTED.sub(lambda m: " " * len(m[0]), text)

    def closing(self, at):
        """The place behind the bracket that closes the one at a place."""
        depth = 0
        for found in re.compile(r"[(\[{]|[)\]}]").finditer(self.mask, at):
            depth += 1 if found[0] in "([{" else -1
            if depth == 0:
                return found.end()
        raise ValueError(f"a bracket is not closed: {self.code[at:at + 60]}")

    def upto(self, at, end, stops):
        """The first place of a match of `stops` outside of brackets."""
        while at < end:
            if re.compile(stops).match(self.mask, at):
                return at
            at = self.closing(at) if self.mask[at] in "([{" else at + 1
        return end

    def items(self, at, end):
        """The items between two places."""
        attributes = []
        while True:
            at = self.upto(at, end, r"\S")
            if at >= end:
                return
            if self.mask[at] == "#":
                start = self.mask.index("[", at)
                if self.mask[at + 1] != "!":
                    attributes.append(folded(self.code[start + 1 : self.closing(start) - 1]))
                at = self.closing(start)
                continue
            found = HEAD.match(self.mask, at)
            if not found:
                raise ValueError(f"no item: {self.code[at:at + 60]}")
            item = Item(attributes, found)
            attributes = []
            at = self.item(item, at, found.end(), end)
            yield item

    def item(self, item, at, past, end):
        """Reads the rest of an item, and answers the place behind it."""
        stops = r"[;{]|\b(?:requires|ensures|ghost)\b" if item.kind == "fn" else f"[{ENDS.get(item.kind, ';')}]"
        stop = self.upto(past, end, stops)
        item.head = laid(self.code[at:stop])
        while item.kind == "fn" and (found := CLAUSE.match(self.mask, stop)):
            close = self.closing(found.end() - 1)
            item.clauses.append((found["word"], found["name"], folded(self.code[found.end() : close - 1]), (found.end(), close - 1)))
            stop = self.upto(close, end, r"\S")
        if self.mask[stop] != "{":
            return stop + 1
        item.body = (stop + 1, self.closing(stop) - 1)
        return item.body[1] + 1

    def parts(self, at, end):
        """The parts between two places that commas divide, such as fields."""
        depth, start = 0, at
        while at < end:
            char = self.mask[at]
            if char in "([{":
                at = self.closing(at)
                continue
            depth += {"<": 1, ">": -1}.get(char, 0) if self.mask[at - 1] != "-" else 0
            if char == "," and depth == 0:
                yield folded(self.code[start:at])
                start = at + 1
            at += 1
        if self.code[start:end].strip():
            yield folded(self.code[start:end])


def crates_of(root):
    """The crates of crates.txt in their order: of each its marks, such as staticlib, and those that it stands on."""
    lines = [line.split("#")[0] for line in (root / "crates.txt").read_text().splitlines()]
    halves = [(left.split(), right.split()) for left, _, right in (line.partition(":") for line in lines if line.strip())]
    return {left[0]: (left[1:], right) for left, right in halves}


def sources(root, crate):
    """The sources of a crate."""
    return sorted((root / "crates" / crate / "src").rglob("*.rt"))


def module(root, crate, path):
    """The module that a source is."""
    steps = path.relative_to(root / "crates" / crate / "src").with_suffix("").parts
    return "::".join([crate, *(step for step in steps if step not in ("lib", "main"))])


def opened(source, start=0, end=None):
    """The items of a source, without tests; those of inner modules are opened."""
    for item in source.items(start, len(source.mask) if end is None else end):
        if any(a.startswith("cfg(test") for a in item.attributes) or "test" in item.attributes:
            continue
        if item.kind == "mod" and item.body:
            yield from opened(source, *item.body)
        else:
            yield item


def owner(item):
    """What an impl is of, or a trait's name: the trait where it is one's."""
    return re.match(r"impl\s*(?:<.*?>)?\s*([\w:]+)", item.head)[1] if item.kind == "impl" else item.name
