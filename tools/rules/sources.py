"""What a file of this repository imports, and which of its imports bring a name that never occurs.

A file of antt (specs/, proofs/) has lines `use Rattle.CRATE.specs.MODULE.{name, name as other}` or `use MODULE as name`. A file
of Rattle (src/) has `use crate::module::{Name}` and, for its contracts, `ghost use Rattle...{name}`. What is passed on by
`pub use` counts as used.
"""

import pathlib
import re
import shutil

ANTT_USE = re.compile(r"^(unfoldable )?(pub )?use ([^\s{]+)(?:\{([^}]*)\})?(?: as (\S+))?[ \t]*\n", re.M)
RT_USE = re.compile(r"^[ \t]*(pub(?:\([a-z ]+\))? )?(ghost )?use ([^;]+);[ \t]*\n", re.M)
# comments and quoted texts
ANTT_TEXT = re.compile(r'\{-.*?-\}|"(?:[^"\\\n]|\\.)*"|(?<![^\s(){}.;,@"«»])--[^\n]*', re.S)
RT_TEXT = re.compile(r"""//[^\n]*|/\*.*?\*/|b?"(?:[^"\\]|\\.)*"|b?'(?:[^'\\\n]|\\[^x]|\\x[0-9a-fA-F]{2})'""", re.S)
TOKEN = re.compile(r'[^\s(){}.;,@"«»]+')
WORD = re.compile(r"[A-Za-z_]\w*")
LISTED = re.compile(r"^([^{]*?)(?:::|\.)\{(.*)\}$")


def blank(match):
    """Nothing in place of a comment or a quoted text, but its line ends, and the names that a text shows: "{name}"."""
    shown = [] if match[0].startswith(("/", "{-", "--")) else re.findall(r"\{(\w+)", match[0])
    return " " + " ".join(shown) + " " + "\n" * match[0].count("\n")


def code_of(file):
    """The text of a file without comments and quoted texts."""
    return (ANTT_TEXT if file.suffix == ".antt" else RT_TEXT).sub(blank, file.read_text())


def bare_tokens(text):
    """The tokens of a text of antt that are not behind a dot: `r.f` is a field, whatever `f` is."""
    places = TOKEN.finditer(text)
    return {it[0] for it in places if not (it.start() > 1 and text[it.start() - 1] == "." and not text[it.start() - 2].isspace())}


def is_among(name, tokens):
    """Whether a name is among the tokens, an operator by its parts too."""
    if "◌" not in name or name in tokens:
        return name in tokens
    bare = {token.replace("◌", "") for token in tokens}
    return all(part in bare for part in name.split("◌") if part)


def split(items):
    """The items of a list in braces, lists within them whole."""
    found, depth = [""], 0
    for letter in items:
        depth += {"{": 1, "}": -1}.get(letter, 0)
        if letter == "," and not depth:
            found.append("")
        else:
            found[-1] += letter
    return [" ".join(item.split()) for item in found if item.strip()]


def new_name(item):
    """The name that an item of an import brings: `a`, `a as b`, `N.d`."""
    return item.split(" as ")[-1].strip() if " as " in item else re.split(r"::|\.", item.strip())[-1]


def unused_in_antt(code):
    """The names that a file of antt imports and never writes."""
    tokens = bare_tokens(ANTT_USE.sub("\n", code)) | {it[3].split(".")[0] for it in ANTT_USE.finditer(code)}
    if "do" in tokens:
        tokens |= {"◌>>=◌", "◌>>◌"}  # (a block of statements is read by these)
    brought = [it for it in ANTT_USE.finditer(code) if not it[2]]
    named = [new_name(item) for it in brought if it[4] is not None for item in split(it[4])]
    named += [it[5] or it[3].split(".")[-1] for it in brought if it[4] is None]
    # (each line of a `do` block stands for the operator)
    return [name for name in named if not is_among(name, tokens) and not (name == "◌>>=◌" and "do" in tokens)]


def traits(top):
    """The traits of the repository with their methods, and those of the kit, which count as used wherever they are imported."""
    ours = {}
    for file in top.glob("crates/*/src/**/*.rt"):
        code = code_of(file)
        for trait in re.finditer(r"\btrait (\w+)[^{]*", code):
            end = re.search(rf"\n{re.match(' *', code[code.rfind(chr(10), 0, trait.start()) + 1:])[0]}\}}", code[trait.end():])
            ours.setdefault(trait[1], set()).update(re.findall(r"\bfn (\w+)", code[trait.end():][:end.start() if end else None]))
    kit = pathlib.Path(shutil.which("rt") or ".").resolve().parent.parent / "rattle"
    return ours, {name for file in kit.rglob("*.rt") for name in re.findall(r"\btrait ([A-Z]\w*)", file.read_text())}


def unused_in_rt(code, known, crates):
    """The names that a file of Rattle imports and never writes. A trait is used where a method of it is called."""
    ours, of_kit = known
    body = RT_USE.sub("\n", code)
    tokens, called = set(WORD.findall(body)) | set(TOKEN.findall(body)), set(re.findall(r"(?:\.|::)\s*(\w+)", body))

    def is_used(path, item, ghost):
        name = new_name(item)
        if name in ("*", "_", "self") or "{" in item or is_among(name, tokens):
            return True
        if ghost:
            return "◌" in name and all(part in body for part in name.split("◌") if part)
        is_kits = path.split("::")[0] not in {*crates, "crate"}
        return name in of_kit if is_kits else bool(ours.get(name, set()) & called)

    found = []
    for it in RT_USE.finditer(code):
        path = " ".join(it[3].split())
        listed = LISTED.match(path)
        items = split(listed[2]) if listed else [path]
        found += [] if it[1] else [new_name(item) for item in items if not is_used(path, item, it[2])]
    return found
