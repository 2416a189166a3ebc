"""What include/eip.h offers, item by item, and whether another version of it offers the same.

An item is a name and its form: a function with the types of its parameters, an enumerator with its number, a struct with its fields,
a number of the preprocessor. A list of them has a line for each, behind a line with the version.
"""

import re

NAMED = re.compile(r"(\w+)(?:\[\w*\])?$")
FUNCTION = re.compile(r"(?<!\w)(?!static|inline)((?:const )?(?!return\b)\w+ \**)(eip_\w+)\(([^()]*)\) ?[;{]")
ENUM = re.compile(r"enum \w+ ?\{([^}]*)\}")
STRUCT = re.compile(r"typedef struct (\w+) ?\{([^}]*)\} ?\w+;")
NUMBER = re.compile(r"^#define (EIP_\w+) +(\d\w*)$", re.M)
TEXT = re.compile(r'^#define (EIP_\w+) +("[^"]*")$', re.M)


def parameter(text):
    """The type of a parameter, without its name."""
    text = text.strip()
    return text if text == "void" else NAMED.sub("", text).strip()


def items_of(header):
    """The items of a header: the form of each, by its name."""
    bare = re.sub(r"/\*.*?\*/", " ", header, flags=re.S)
    found = {name: f"number {value}" for name, value in NUMBER.findall(bare)}
    found.update({name: f"text {value}" for name, value in TEXT.findall(bare)})
    flat = " ".join(re.sub(r"^#(?:.*\\\n)*.*$", "", bare, flags=re.M).split())
    for kind, name, given in FUNCTION.findall(flat):
        found[name] = f"function {kind.strip()} ({', '.join(parameter(it) for it in given.split(','))})"
    for body in ENUM.findall(flat):
        for entry in filter(str.strip, body.split(",")):
            name, _, value = entry.partition("=")
            found[name.strip()] = f"number {value.strip()}"
    for name, body in STRUCT.findall(flat):
        found[name] = f"struct {'; '.join(' '.join(it.split()) for it in body.split(';') if it.strip())}"
    return found


def listed(version, items):
    """The text of a list."""
    return "".join([f"version {version}\n", *(f"{name} {form}\n" for name, form in sorted(items.items()))])


def read(text):
    """The version and the items of a list."""
    first, *lines = text.splitlines()
    return first.removeprefix("version "), dict(line.split(" ", 1) for line in lines)


def numbers(version):
    return tuple(int(it) for it in version.split("."))


def of_version(version):
    """The items of a header that say its version, which each version changes."""
    first, second, third = numbers(version)
    return {"EIP_VERSION": f'text "{version}"', "EIP_VERSION_NUMBER": f"number {first * 1_000_000 + second * 1_000 + third}"}


def faults(version, items, last, before):
    """What a version may not do to the items of the last one: only another first number removes or changes an item."""
    if numbers(version) < numbers(last):
        return [f"{version} is older than {last}, whose list this is"]
    gone = [f"{name} is removed" for name in sorted(before.keys() - items.keys())]
    gone += [f"{name} is changed: {before[name]} is now {items[name]}" for name in sorted(items.keys() & before.keys())
             if items[name] != before[name]]
    return gone if numbers(version)[0] == numbers(last)[0] else []


def added(items, before):
    """The names that the last version has not."""
    return sorted(items.keys() - before.keys())
