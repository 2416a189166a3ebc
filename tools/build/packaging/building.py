"""What goes into the packages as machine code: the two programs, and the library for C in its two forms.

The kit's own linker and C library make them, so the bytes do not depend on the machine. The shared library has no start files.
"""

import dataclasses
import pathlib
import re
import subprocess

PROGRAMS = ("eip_line", "eip_station")
LIBRARY = "eip_c"
# (the loader is of the C library)
OF_THE_C_LIBRARY = {"libc.so.6", "libm.so.6", "libpthread.so.0", "ld-linux-x86-64.so.2"}
VERSION = re.compile(r'pub const VERSION: &str = "([\d.]+)";')


class Missing(Exception):
    """Something is not here that the packages need."""


@dataclasses.dataclass(frozen=True)
class Built:
    """The programs by their names, the library, whether each is proved, what each program prints for --help, the kit, and the commit."""

    programs: dict
    static: bytes
    shared: bytes
    proved: dict
    helps: dict
    kit: str
    commit: str

    def all_proved(self):
        return all(self.proved.values())

    def lines(self):
        """Of each part whether it is proved."""
        return [f"{name}: {'proved' if is_proved else 'built with nothing proved, and with run-time checks'}" for name, is_proved in self.proved.items()]

    def executables(self):
        return {**self.programs, "libeip.so": self.shared}


def version_of(top):
    """The version of the programs."""
    return VERSION.search((top / "crates/command_lines/src/version.rt").read_text())[1]


def kit():
    """The folder of the kit."""
    try:
        said = subprocess.run(["rt", "doc"], stdout=subprocess.PIPE, check=True, text=True).stdout
    except FileNotFoundError:
        raise Missing("the kit's command rt is not on the path")
    return pathlib.Path(said.splitlines()[-1]).parent


def commit_of(top):
    """The last commit, with a word on changes of what it has, and whether the tree is as it says, with nothing besides."""
    asked = [subprocess.run(["git", "-C", top, *words], stdout=subprocess.PIPE, stderr=subprocess.DEVNULL, text=True)
             for words in (["rev-parse", "HEAD"], ["status", "--porcelain"])]
    if any(it.returncode for it in asked):
        return "none", False
    named, lines = asked[0].stdout.strip(), asked[1].stdout.splitlines()
    # (what is not its own may come and go while packages are made)
    changed = any(not line.startswith("??") for line in lines)
    return f"{named}{', with changes' if changed else ''}", not lines


def sources(top, name):
    """The newest time of a source of a crate and of all crates below it."""
    named, seen = {}, set()
    for line in (top / "crates.txt").read_text().splitlines():
        crate, mark, libraries = line.partition("#")[0].partition(":")
        if mark:
            named[crate.split()[0]] = libraries.split()
    left = [name]
    while left:
        crate = left.pop()
        if crate in named and crate not in seen:
            seen.add(crate)
            left += named[crate]
    return max(file.stat().st_mtime for crate in seen for file in (top / "crates" / crate / "src").rglob("*.rt"))


def taken(top, name, proved, only_proved):
    """The file of a program or library, and whether it is proved: `proved` if it is newer than its sources, else what tools/build/built makes."""
    if proved.exists() and proved.stat().st_mtime >= sources(top, name):
        return proved, True
    if only_proved:
        raise Missing(f"{proved.relative_to(top)} is not there, or older than a source: {'rt lib' if name == LIBRARY else 'rt run'} in crates/{name} proves it")
    said = subprocess.run([top / "tools/build/built", name], stdout=subprocess.PIPE, text=True)
    file = pathlib.Path(said.stdout.strip())
    if said.returncode or (top / "out") not in file.parents:
        raise Missing(f"{name} is not built")
    return file, False


def linked(kit_at, code, room, major):
    """The library in its two forms: an archive, and a shared library that offers the calls of the header alone, under the name of
    the version's first number."""
    tools, heap = kit_at / "toolchain/bin", kit_at / "c/liblibc_c.a"
    made, shared, script = room / "libeip.a", room / "libeip.so", room / "offered"
    added = "ADDLIB" if code.suffix == ".a" else "ADDMOD"
    # (the name of a member is that of its file)
    own = code if added == "ADDLIB" else room / "eip.o"
    own is code or own.write_bytes(code.read_bytes())
    orders = f"CREATE {made}\n{added} {own}\nADDLIB {heap}\nSAVE\nEND\n"
    subprocess.run([tools / "llvm-ar", "-M"], input=orders, text=True, check=True)
    script.write_text(f"EIP_{major} {{ global: eip_c_*; local: *; }};\n")
    words = ["-shared", "-m", "elf_x86_64", "--build-id=none", "--hash-style=gnu", "-z", "defs", "-z", "relro", "-z", "now", "-z", "noexecstack"]
    words += ["-soname", f"libeip.so.{major}", "--version-script", script, "-o", shared, "--whole-archive", made, "--no-whole-archive"]
    subprocess.run([tools / "ld.lld", *words, kit_at / "toolchain/lib/libc.so.6"], check=True)
    return made.read_bytes(), shared.read_bytes()


def help_of(file):
    """What a program prints for --help, on either stream."""
    said = subprocess.run([file, "--help"], stdin=subprocess.DEVNULL, stdout=subprocess.PIPE, stderr=subprocess.STDOUT, text=True, timeout=10)
    return said.stdout


def build(top, version, room, only_proved):
    """Takes the programs, and links the library."""
    at = kit()
    commit, is_whole = commit_of(top)
    if only_proved and not is_whole:
        raise Missing(f"the tree is not that of a commit ({commit}), as a version is that is handed out")
    programs, proved, helps = {}, {}, {}
    for name in PROGRAMS:
        file, proved[name] = taken(top, name, top / "crates" / name / "out" / name, only_proved)
        programs[name], helps[name] = file.read_bytes(), help_of(file)
        said = subprocess.run([file, "--version"], stdout=subprocess.PIPE, text=True).stdout
        if said != f"{name} {version}\n":
            raise Missing(f"{name} of version {version}: this one is {said.strip()}")
    code, proved["libeip"] = taken(top, LIBRARY, top / f"crates/{LIBRARY}/out/lib{LIBRARY}.a", only_proved)
    static, shared = linked(at, code, room, version.split(".")[0])
    # (the last line of `rt version` is not of interest: the first names kit and logic)
    named = subprocess.run(["rt", "version"], stdout=subprocess.PIPE, text=True).stdout.splitlines()[0]
    return Built(programs, static, shared, proved, helps, named, commit)
