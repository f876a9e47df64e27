"""Long lines that a new name made: imports that are parted, and clauses that are broken."""

import re

WIDTH = 100
OPEN, CLOSE = "({[", ")}]"
# An import of names, in its parts.
NAMES_USED = re.compile(r"([ \t]*(?:pub |ghost )?use [\w.]+\.\{)([^}]*)(\};?)$")
# Where a long line is broken, before these, the best first.
BREAKS = [" then ", " else ", " → ", " × ", " ⊎ ", " ↔ ", " ≡ ", " ++ ", " && ", " ∷ ", " (", " "]


def split_uses(text: str) -> str:
    """Imports that are too long, parted in two, and so on."""
    lines = []
    for line in text.split("\n"):
        use = NAMES_USED.match(line)
        while use and len(line) > WIDTH:
            names: list[str] = [it.strip() for it in use[2].split(",")]
            kept: list[str] = []
            while names and len(use[1] + ", ".join([*kept, names[0]]) + use[3]) <= WIDTH:
                kept.append(names.pop(0))
            if not kept and len(names) > 1:
                kept.append(names.pop(0))  # a name that is longer than a line stands alone
            if not kept or not names:
                break
            lines.append(use[1] + ", ".join(kept) + use[3])
            line = use[1] + ", ".join(names) + use[3]
            use = NAMES_USED.match(line)
        lines.append(line)
    return "\n".join(lines)


def break_of(line: str, indent: int) -> int | None:
    """Where a long line is broken best: outermost, then by the sign, then as late as it can be."""
    equals = line.find(" = ")
    if 0 < equals and line[:equals].count("(") == line[:equals].count(")") \
            and not line.lstrip().startswith(("let ", "ghost ")) and "{" not in line[:equals] \
            and indent + len(line) - equals - 3 <= WIDTH:
        return equals + 2
    depths, depth = [], 0
    for char in line:
        depth -= char in CLOSE
        depths.append(depth)
        depth += char in OPEN
    start = len(line) - len(line.lstrip())
    body = re.match(r"\s*(?:(?:ensures|requires)(?: \w+)? \{|ghost \w+ = \{)?", line)
    first = max(start + 12, body.end() + 1 if body else 0)
    best = None
    for rank, sign in enumerate(BREAKS):
        at = line.find(sign, first)
        while 0 <= at <= WIDTH:
            is_over = indent + len(line) - at - 1 > WIDTH
            key = (is_over, depths[at], rank, -at)
            after = line[at + len(sign) : at + len(sign) + 1]
            if after and after not in CLOSE and (best is None or key < best[0]):
                best = (key, at)
            at = line.find(sign, at + 1)
    return best[1] if best else None


def wrapped(line: str, indent: int) -> list[str]:
    """A line, broken where it is too long."""
    found = []
    while len(line) > WIDTH:
        at = break_of(line, indent)
        if at is None:
            break
        found.append(line[:at].rstrip())
        line = " " * indent + line[at:].strip()
    return [*found, line]


def with_wraps(text: str, before: str, is_code: bool) -> str:
    """The text with lines that are new and too long broken, but for imports and comments."""
    old = set(before.split("\n"))
    lines = []
    is_do = False
    for line in text.split("\n"):
        start = len(line) - len(line.lstrip())
        word = line.lstrip()
        if not is_code and start == 0:
            is_do = False
        is_do = is_do or line.rstrip().endswith(" do")
        is_import = re.match(r"(?:pub |ghost )?use ", word)
        if len(line) <= WIDTH or line in old or is_import or word.startswith(("--", "//")):
            lines.append(line)
            continue
        is_head = bool(re.match(r"(?:ensures|requires|ghost|pub|abbrev|unfoldable|record)\b", word))
        lines += wrapped(line, start + 4 if is_head or start == 0 or is_do else start)
    return "\n".join(lines)
