"""Where a text of specs/, proofs/ or src/ names a definition, and what a new name changes there."""

import re
from typing import NamedTuple

DEFINED = re.compile(
    r"^(?:\s*(?:abbrev|unfoldable)(?: pub)?|\s*pub (?:record|data)|record|data) ([^\s:(]+)", re.M)
USE = re.compile(
    r"(?P<head>^[ \t]*(?:pub |ghost )?use\s+Rattle\.(?P<crate>\w+)\.specs\.(?P<module>\w+))"
    r"(?:\.\{(?P<names>[^}]*)\}|\s+as\s+(?P<alias>\w+)|(?P<bare>(?=\s*;?\s*$)))", re.M)
TOKEN = re.compile(r'--[^\n]*|"(?:[^"\\\n]|\\.)*"|[^\s(){}\[\];,."]+|[(){}\[\];,.]')
GHOST = re.compile(
    r"\b(?:requires|ensures|invariant|decreases|measure)(?:\s+\w+)?\s*\{|\bghost\s+\w+\s*[=:]\s*\{")
OPEN, CLOSE = "({[", ")}]"
# What is to be told at the end, a line each.
said: list[str] = []


class Row(NamedTuple):
    """A line of the table."""

    crate: str
    module: str
    old: str
    new: str


class Token(NamedTuple):
    """A word or a sign of a text, and where it stands."""

    text: str
    at: int


def tell(kind: str, row: Row, what: str) -> None:
    """What is to be read by whoever renames, or was not done."""
    said.append(f"{kind} {row.crate} {row.module} {row.old} {row.new}: {what}")


def tokens_of(text: str, start: int = 0, end: int | None = None) -> list[Token]:
    """The tokens of a text, comments and strings left out."""
    found = []
    for it in TOKEN.finditer(text, start, len(text) if end is None else end):
        if it[0].startswith('"'):
            continue
        if it[0].startswith("--"):
            continue
        found.append(Token(it[0], it.start()))
    return found


def group_end(tokens: list[Token], i: int) -> int:
    """The index of the token that closes the group in which token i stands; past all if none."""
    depth = 0
    for k in range(i, len(tokens)):
        if tokens[k].text in OPEN:
            depth += 1
        elif tokens[k].text in CLOSE:
            if depth == 0:
                return k
            depth -= 1
    return len(tokens)


def closing(tokens: list[Token], i: int) -> int:
    """The index of the bracket that closes the one at i."""
    return group_end(tokens, i + 1)


def hidden_in(tokens: list[Token], old: str, is_record: bool, is_equation: bool) -> set[int]:
    """The indices of tokens `old` of a chunk that don't stand for the definition."""
    hidden: set[int] = set()

    def hide(first: int, last: int) -> None:
        hidden.update(k for k in range(first, min(last, len(tokens))) if tokens[k].text == old)

    texts = [t.text for t in tokens]
    n = len(texts)
    if is_equation:
        depth = 0
        for k in range(n):
            if texts[k] in OPEN:
                depth += 1
            elif texts[k] in CLOSE:
                depth -= 1
            elif texts[k] == "=" and depth == 0:
                if old in texts[1:k] and not old[0].isupper():
                    if any(texts[j] == old and texts[j - 1] != "." for j in range(1, k)):
                        hide(1, n)
                break
            elif texts[k] == ":" and depth == 0:
                break
    for i, word in enumerate(texts):
        before = texts[i - 1] if i else ""
        after = texts[i + 1] if i + 1 < n else ""
        if word == old:
            if after == "=" and before in ("{", ";"):
                hidden.add(i)
            if is_record and before == "pub" and after == ":":
                hide(i, n)
            if after == "←":
                hide(i, group_end(tokens, i))
        if word in ("λ", "∀"):
            k = i + 1
            while k < n and texts[k] != ".":
                k = closing(tokens, k) + 1 if texts[k] == "(" else k + 1
            names: list[str] = []
            j = i + 1
            while j < k:
                if texts[j] == "(":
                    end = closing(tokens, j)
                    for q in range(j + 1, end):
                        if texts[q] == ":":
                            break
                        names.append(texts[q])
                    j = end + 1
                elif texts[j] == ":":
                    break
                else:
                    names.append(texts[j])
                    j += 1
            if old in names:
                hide(i, group_end(tokens, i))
        if word in "({" and word:
            k = i + 1
            while k < n and re.fullmatch(r"[^\W\d][\w'\-]*", texts[k]):
                k += 1
            if k < n and k > i + 1 and texts[k] == ":" and old in texts[i + 1:k]:
                end = closing(tokens, i)
                hide(i, k)
                hide(end, n if is_record else group_end(tokens, end + 1))
        if word == "let":
            k, depth = i + 1, 0
            while k < n and not (texts[k] in ("=", ":") and depth == 0):
                depth += (texts[k] in OPEN) - (texts[k] in CLOSE)
                k += 1
            if old in texts[i + 1:k]:
                hide(i, group_end(tokens, i))
        if word == "↦":
            k, depth = i - 1, 0
            while k >= 0 and not (texts[k] in ("|", "[") and depth == 0):
                depth += (texts[k] in CLOSE) - (texts[k] in OPEN)
                k -= 1
            if old in texts[k + 1:i] and not old[0].isupper():
                e, depth = i + 1, 0
                while e < n and not (depth == 0 and texts[e] in ("|", "]")):
                    depth += (texts[e] in OPEN) - (texts[e] in CLOSE)
                    e += 1
                hide(k + 1, e)
    return hidden


def chunks_of(text: str) -> list[tuple[int, int]]:
    """The declarations of an .antt text, each from its line to the next one."""
    starts, inside = [0], False
    at = 0
    for line in text.split("\n"):
        if line.strip() and not line.lstrip().startswith("--"):
            indent = len(line) - len(line.lstrip())
            if indent == 0:
                inside = line.startswith("module ")
                starts.append(at)
            elif inside and indent == 2:
                starts.append(at)
        at += len(line) + 1
    starts.append(len(text))
    return [(a, b) for a, b in zip(starts, starts[1:]) if a < b]


class Change(NamedTuple):
    """What takes the place of so many characters."""

    at: int
    length: int
    new: str


def applied(text: str, changes: list[Change]) -> str:
    """The text with the changes."""
    for change in sorted(set(changes), reverse=True):
        text = text[:change.at] + change.new + text[change.at + change.length:]
    return text


def occurrences(tokens: list[Token], old: str, aliases: set[str]) -> list[int]:
    """The indices of tokens that are the name, unqualified where no alias is given."""
    found = []
    for i, token in enumerate(tokens):
        if token.text != old:
            continue
        before = tokens[i - 1] if i else None
        is_dotted = before is not None and before.text == "." and before.at + 1 == token.at
        if is_dotted:
            head = tokens[i - 2].text if i > 1 else ""
            if head in aliases:
                found.append(i)
        elif "" in aliases:
            found.append(i)
    return found


def in_antt(text: str, row: Row, aliases: set[str], where: str) -> list[Change]:
    """The changes of a file of definitions or proofs, its imports left out."""
    changes = []
    header: list[str] = []
    for start, end in chunks_of(text):
        line = text[start:text.find("\n", start) if "\n" in text[start:] else end]
        body = text[start:end]
        if re.match(r"\s*(?:pub |ghost )?use\s", body):
            continue
        # Where a `use` follows a comment in the chunk, it is no part of it.
        tokens = [t for t in tokens_of(text, start, end)]
        is_record = bool(re.match(r"\s*(?:pub )?(?:record|data)\b", line))
        is_equation = not re.match(r"\s*(?:abbrev|unfoldable|pub|record|data|module|infix)", line)
        hidden = hidden_in(tokens, row.old, is_record, is_equation)
        if body.startswith("module ") and hidden:
            tell("LOOK", row, f"{where}: a module's parameter has that name; read the file")
        for i in occurrences(tokens, row.old, aliases):
            is_alias = i and tokens[i - 1].text == "." and tokens[i - 1].at + 1 == tokens[i].at
            if i in hidden and not is_alias:
                number = text.count("\n", 0, tokens[i].at) + 1
                tell("BOUND", row, f"{where}:{number}")
            else:
                changes.append(Change(tokens[i].at, len(row.old), row.new))
    return changes


def matched(text: str, at: int) -> int:
    """The place of the brace that closes the one at that place."""
    depth = 0
    for k in range(at, len(text)):
        if text[k] == "{":
            depth += 1
        elif text[k] == "}":
            depth -= 1
            if depth == 0:
                return k
    return len(text)


def in_code(text: str, row: Row, aliases: set[str], where: str) -> list[Change]:
    """The changes of the clauses and ghost members of a file of code."""
    changes = []
    bare = re.sub(r"//[^\n]*", lambda m: " " * len(m[0]), text)
    for ghost in GHOST.finditer(bare):
        first = ghost.end() - 1
        last = matched(bare, first)
        tokens = tokens_of(bare, first, last + 1)
        found = occurrences(tokens, row.old, aliases)
        if not found:
            continue
        names: list[str] = []
        if not ghost[0].startswith("ghost"):
            begin = max((m.start() for m in re.finditer(r"\bfn\s+\w+", bare[:ghost.start()])),
                        default=0)
            signature = re.split(r"\b(?:requires|ensures)\b", bare[begin:ghost.start()])[0]
            names = re.findall(r"\b([a-z_]\w*)\s*:(?!:)", signature)
        hidden = hidden_in(tokens[1:], row.old, False, False)
        hidden = {k + 1 for k in hidden}
        for i in found:
            is_alias = i and tokens[i - 1].text == "." and tokens[i - 1].at + 1 == tokens[i].at
            if not is_alias and (i in hidden or row.old in names):
                number = text.count("\n", 0, tokens[i].at) + 1
                tell("BOUND", row, f"{where}:{number}")
            else:
                changes.append(Change(tokens[i].at, len(row.old), row.new))
    return changes


def in_uses(text: str, row: Row, homes: dict[tuple[str, str], tuple[str, str]]
            ) -> tuple[list[Change], set[str]]:
    """The changes of the imports of a file, and under which aliases it has the name."""
    changes, aliases = [], set()
    for use in USE.finditer(text):
        home = homes.get((use["crate"], use["module"]), (use["crate"], use["module"]))
        if home != (row.crate, row.module):
            continue
        if use["names"] is not None:
            for item in re.finditer(r"[^,]+", use["names"]):
                name, _, other = item[0].strip().partition(" as ")
                if name == row.old:
                    at = use.start("names") + item.start() + len(item[0]) - len(item[0].lstrip())
                    changes.append(Change(at, len(row.old), row.new))
                    if not other:
                        aliases.add("")
        elif use["alias"]:
            aliases.add(use["alias"])
        else:
            aliases.add(use["module"])
    return changes, aliases


def has_name(text: str, name: str, is_code: bool) -> bool:
    """Whether a text uses a name, not as a field."""
    if is_code:
        bare = re.sub(r"//[^\n]*", "", text)
        parts = [bare[g.end() - 1:matched(bare, g.end() - 1) + 1] for g in GHOST.finditer(bare)]
        parts += re.findall(r"ghost use[^;]*;", bare)
        text = "\n".join(parts)
    tokens = tokens_of(text)
    for i, token in enumerate(tokens):
        if token.text == name and not (i and tokens[i - 1].text == "."):
            is_label = i + 1 < len(tokens) and tokens[i + 1].text == "=" \
                and tokens[i - 1].text in ("{", ";")
            if not is_label:
                return True
    return False


def is_parameter(text: str, name: str) -> bool:
    """Whether a function of some code has a parameter of that name: clauses would read that."""
    signature = r"\bfn\s+\w+[^{;]*?\(([^{;]*?)\)\s*(?:->|ensures|requires|\{|$)"
    for head in re.finditer(signature, text, re.S | re.M):
        if re.search(rf"\b{re.escape(name)}\s*:(?!:)", head[1]):
            return True
    return False
