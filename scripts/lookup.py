"""What the crates declare, and where: read once, for check-contracts, check-promises, check-header, where and moved.

Two readers, of .antt and of .rt files, that know as much of the languages as a name, its text and its place need; and `find`, which looks up a
name as docs/PROMISES.md cites it.
"""
import re
from collections import namedtuple
from pathlib import Path

HERE = Path(__file__).resolve().parent.parent


def top_of(words, at):
    """The repository's top folder: the word at this place where it is given (the tests do), and else the one that this script stands in."""
    return Path(words[at]).resolve() if len(words) > at else HERE


def crates(top):
    return sorted(p for p in (top / "crates").glob("*") if p.is_dir())


# ---- .antt ---------------------------------------------------------------------------------------------------------------------------

# kind: definition, record, data, field or constructor. owner: the record or data type of a field or constructor. pub: exported. section: whether it
# stands in a `module _` or `mutual` block. text: from its signature to its last clause, without comments. heads: those of the blocks that it stands in.
Declared = namedtuple("Declared", "kind name owner pub section line text heads")

NAME = r'[^\s(){}.;,@":]+'
MARKS = r"(?P<marks>(?:(?:unfoldable|abbrev|axiom|pub)\s+)*)"
SIGNATURE = re.compile(rf"{MARKS}(?P<name>{NAME})(?:\s*\{{[^}}]*\}})?\s+:(?:\s|$)")
TYPE = re.compile(rf"{MARKS}(?P<kind>record|data)\s+(?P<name>{NAME})")
MEMBER = re.compile(rf"(?P<pub>pub\s+)?(?P<names>{NAME}(?:\s+{NAME})*)\s+:(?:\s|$)")
BLOCK = re.compile(r"(?:module\s+_|mutual$)")
OTHER = re.compile(r"(?:unfoldable\s+)?(?:pub\s+)?(?:use|mod|open|infix|infixl|infixr|ruleset)\s")


def depth_of(row):
    return len(row) - len(row.lstrip(" "))


def blanked(found):
    """A comment as blanks, so that lines and columns stay."""
    return re.sub(r"[^\n]", " ", found.group(0))


def uncommented(text):
    """A file of antt with blanks for its comments."""
    return re.sub(r"(?ms)\{-.*?-\}|(?:(?<=\s)|^)--(?=\s|$)[^\n]*", blanked, text)


def declarations(text):
    """Each item of a file of antt: declared at its top, or in a `module _` or `mutual` block; then a record's fields and a data type's constructors. What
    hangs in a `where`, or stands deeper for another reason, is a part of the item above it and is no item."""
    found, levels, heads, opening, item, rows = [], [0], [], None, None, []
    text = uncommented(text)

    def close():
        nonlocal item
        if item:
            own = "\n".join(row for _, row in rows)
            found.append(Declared(item["kind"], item["name"], "", item["pub"], item["section"], rows[0][0], own, item["heads"]))
            if item["kind"] != "definition":
                found.extend(members(item, rows))
        item = None

    for number, row in enumerate(text.split("\n"), 1):
        row = row.rstrip()
        if not row:
            continue
        depth, here = depth_of(row), row.strip()
        if opening == "head":  # of a block, over several lines
            heads[-1] += " " + here
            opening = "body" if row.endswith(" where") else "head"
            continue
        if opening == "body":  # its first line says how deep the block stands
            levels.append(depth)
            opening = None
        while depth < levels[-1]:
            close()
            levels.pop()
            heads.pop()
        block, other = BLOCK.match(here), OTHER.match(here)
        named = TYPE.match(here) or SIGNATURE.match(here)
        if depth > levels[-1] or not (block or other or named):
            if item:  # deeper; or a clause, or an `unfolding` line
                rows.append((number, row))
            continue
        close()
        if block:
            heads.append(here)
            opening = "body" if here == "mutual" or here.endswith(" where") else "head"
        elif not other:
            kind = named["kind"] if "kind" in named.groupdict() else "definition"
            item = {"kind": kind, "name": named["name"], "pub": "pub" in named["marks"], "section": len(levels) > 1, "heads": " ".join(heads)}
            rows = [(number, row)]
    close()
    return found


def members(item, rows):
    """The fields of a record, or the constructors of a data type."""
    head = next((i for i, (_, row) in enumerate(rows) if row.endswith(" where")), len(rows))
    body = rows[head + 1 :]
    depth, found = min((depth_of(row) for _, row in body), default=0), []
    for number, row in body:
        member = depth_of(row) == depth and MEMBER.match(row.strip())
        if member:
            for name in member["names"].split():
                # a field has a `pub` of its own, a constructor goes with its type
                pub = item["pub"] and (item["kind"] == "data" or bool(member["pub"]))
                found.append(["field" if item["kind"] == "record" else "constructor", name, item["name"], pub, item["section"], number, row])
        elif found:
            found[-1][6] += "\n" + row
    return [Declared(*m, item["heads"]) for m in found]


# ---- .rt -----------------------------------------------------------------------------------------------------------------------------

# kind: fn, struct, enum, const (a static too) or type. owner: the type whose `impl` it stands in, or "". head: a function's signature, its attributes before it.
# generics: with their brackets, or "". params: pairs of a name and a type. clauses: pairs of "requires" or "ensures" and what its braces hold, without its
# name. body: with its braces; of a const its value.
Coded = namedtuple("Coded", "kind name owner pub line attributes generics params result clauses body")

ITEM = re.compile(
    r'(?P<attributes>(?:#\[[^\]]*\]\s*)*)(?P<pub>\bpub\s+|\bpub\s*\([^)]*\)\s*)?(?:\bextern\s+"C"\s+)?\b(?P<kind>fn|struct|enum|const|static|type|impl|mod|use|ghost|extern)\b'
)
CLOSERS = {"(": ")", "[": "]", "{": "}"}


class Unread(Exception):
    """A form that this reader does not know."""


def masked(text, strings=True):
    """Rattle with comments as blanks and no bracket left in a string or a byte, so that brackets can be counted; the places stay."""
    pattern = r'//[^\n]*|/\*.*?\*/|b?"(?:\\.|[^"\\])*"|\bb\'(?:\\.|[^\'\\])+\''

    def mask(found):
        word = found.group(0)
        return blanked(found) if word.startswith("/") else re.sub(r"[^\n\"'\w]", " ", word) if strings else word

    return re.sub(pattern, mask, text, flags=re.S)


def past(code, at):
    """The place behind the bracket that closes the one at `at`."""
    closers = []
    for i in range(at, len(code)):
        if code[i] in CLOSERS:
            closers.append(CLOSERS[code[i]])
        elif closers and code[i] == closers[-1]:
            closers.pop()
            if not closers:
                return i + 1
        elif code[i] in ")]}":
            break
    raise Unread(f"line {code.count(chr(10), 0, at) + 1}: a bracket is not closed")


def reach(code, at, stop):
    """The place of the first match of `stop` from `at`, outside brackets."""
    while at < len(code):
        if stop.match(code, at):
            return at
        at = past(code, at) if code[at] in CLOSERS else at + 1
    raise Unread("an item does not end")


def parted(text):
    """Parts between commas, outside brackets of any kind."""
    parts, at, begun, angles = [], 0, 0, 0
    while at < len(text):
        if text[at] in CLOSERS:
            at = past(text, at)
            continue
        angles += {"<": 1, ">": -1}.get(text[at], 0)
        if text[at] == "," and angles == 0:
            parts.append(text[begun:at])
            begun = at + 1
        at += 1
    return [p.strip() for p in parts + [text[begun:]] if p.strip()]


def parameter(text):
    """A parameter's name and type; self's type is as it is written before it."""
    own = re.fullmatch(r"(&(?:'\w+\s+)?(?:mut\s+)?)?(?:mut\s+)?self", text)
    if own:
        return "self", (own.group(1) or "") + "Self"
    name, _, kind = text.partition(":")
    return re.sub(r"^mut\s+", "", name.strip()), " ".join(kind.split())


def coded(text):
    """Each function, struct, enum, constant and type of a file of Rattle, with those of its `impl` blocks."""
    code, plain, found = masked(text), masked(text, strings=False), []

    def function(head, owner):
        named = re.compile(r"\s*(\w+)\s*(<[^>]*>)?\s*(?=\()").match(code, head.end())
        if not named:
            raise Unread("a function has no name")
        end = past(code, named.end())
        params = [parameter(p) for p in parted(code[named.end() + 1 : end - 1])]
        result, arrow = "", re.compile(r"\s*->\s*").match(code, end)
        if arrow:
            stop = reach(code, arrow.end(), re.compile(r"\{|;|\b(?:requires|ensures)\b"))
            result, end = " ".join(code[arrow.end() : stop].split()), stop
            if re.search(r"\w \w", re.sub(r"&(?:'\w+ )?(?:mut )?", "&", result)):
                raise Unread(f"{named.group(1)}: its answer's type is not read: {result}")
        clauses, clause = [], re.compile(r"\s*(requires|ensures)\b\s*[\w-]*\s*(?=\{)")
        while clause.match(code, end):
            opened = clause.match(code, end)
            end = past(code, opened.end())
            clauses.append((opened.group(1), text[opened.end() + 1 : end - 1].strip()))
        begun = re.compile(r"\s*").match(code, end).end()
        if begun == len(code) or code[begun] not in "{;":
            raise Unread(f"{named.group(1)}: what stands between its signature and its body is not read")
        end = past(code, begun) if code[begun] == "{" else begun + 1
        return named.group(1), named.group(2) or "", params, result, clauses, plain[begun:end], end

    def scan(at, stop, owner):
        while True:
            head = ITEM.search(code, at, stop)
            if not head:
                return
            kind, line = head["kind"], code.count("\n", 0, head.start("kind")) + 1
            here = dict(owner=owner, pub=bool(head["pub"]) and "(" not in head["pub"], line=line, attributes=head["attributes"])
            if kind == "fn":
                name, generics, params, result, clauses, body, at = function(head, owner)
                found.append(Coded(kind, name, generics=generics, params=params, result=result, clauses=clauses, body=body, **here))
                continue
            named = re.compile(r"\s*(?:<[^>]*>\s*)?(\w*)\s*(?:<[^>]*>)?").match(code, head.end())
            end = reach(code, named.end(), re.compile(r"[;{]" if kind not in ("const", "static", "type", "use", "ghost") else ";"))
            if kind in ("impl", "mod") and code[end] == "{":
                at = past(code, end)
                # of a trait's impl, the type that has it
                trait = re.search(r"\bfor\s+(\w+)", code[named.start() : end])
                scan(end + 1, at - 1, trait.group(1) if trait else named.group(1))
                continue
            at = past(code, end) if code[end] == "{" else end + 1
            if kind in ("struct", "enum", "const", "static", "type"):
                found.append(Coded("const" if kind == "static" else kind, named.group(1), generics="", params=[], result="", clauses=[], body=plain[named.end() : at].strip(), **here))

    scan(0, len(code), "")
    return found


# ---- names ---------------------------------------------------------------------------------------------------------------------------

# A thing that has a name: as it is cited, what it is, its file (under the top folder) and its line.
Place = namedtuple("Place", "cited kind path line")


def relative(top, path):
    return path.relative_to(top).as_posix()


def of_antt(top, crate):
    """What a crate's specs/ and proofs/ declare, as it may be cited: what stands at the top of a file, what a section exports, and in specs/ the fields and
    constructors of what is exported at the top."""
    for folder in ("specs", "proofs"):
        for path in sorted((crate / folder).rglob("*.antt")):
            for d in declarations(path.read_text()):
                if d.owner:
                    if d.pub and not d.section and folder == "specs":
                        yield Place(f"{crate.name}.{d.name}", d.kind, relative(top, path), d.line)
                        yield Place(f"{crate.name}.{d.owner}.{d.name}", d.kind, relative(top, path), d.line)
                elif d.pub or not d.section:
                    kind = d.kind if d.kind != "definition" else "theorem" if folder == "proofs" else "definition"
                    yield Place(f"{crate.name}.{d.name}", kind, relative(top, path), d.line)


def of_rt(top, crate):
    for path in sorted((crate / "src").rglob("*.rt")):
        for c in coded(path.read_text()):
            kind = {"fn": "function", "const": "constant"}.get(c.kind, c.kind)
            yield Place("::".join(filter(None, [crate.name, c.owner, c.name])), kind, relative(top, path), c.line)


def of_edits(top, crate):
    for path in sorted((crate / "must-fail").glob("*.edit")):
        yield Place(f"{crate.name}!{path.stem}", "edit", relative(top, path), 1)


def names(top):
    """cited name -> its places, for all that the crates have"""
    found = {}
    for crate in crates(top):
        for place in [*of_antt(top, crate), *of_rt(top, crate), *of_edits(top, crate)]:
            found.setdefault(place.cited, []).append(place)
    return found


def find(known, name):
    """The places of a name: as it is cited; or bare, in any crate, each place by the longest of its names."""
    if name in known:
        return known[name]
    longest, found = {}, {}
    for place in [place for places in known.values() for place in places]:
        spot, bare = (place.path, place.line), re.split(r"!|::|\.", place.cited, maxsplit=1)[1]
        longest[spot] = max(longest.get(spot, place), place, key=lambda p: len(p.cited))
        if name in (bare, bare.rpartition("::")[2]):
            found[spot] = True
    return [longest[spot] for spot in found]
