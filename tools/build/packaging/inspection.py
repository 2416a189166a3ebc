"""What is in the packages, looked at from outside: files, modes, versions, sums, and what is said to be trusted."""

import gzip
import hashlib
import io
import os
import pathlib
import re
import tarfile
import zipfile

import elf

# Where the Debian package has what the archive has: the first line that fits.
MOVED = (("bin/", "usr/bin/"), ("lib/eip/", "usr/lib/eip/"), ("lib/systemd/", "usr/lib/systemd/"), ("lib/pkgconfig/", "usr/lib/x86_64-linux-gnu/pkgconfig/"),
         ("lib/", "usr/lib/x86_64-linux-gnu/"), ("include/", "usr/include/"), ("share/", "usr/share/"), ("python/", "usr/share/eip/"), ("", "usr/share/doc/eip/"))
# What says where it is installed.
OF_ITS_PLACE = ("lib/pkgconfig/eip.pc", "lib/systemd/system/eip-station@.service")
PROGRAMS = ("bin/eip_line", "bin/eip_station", "lib/eip/eip_station")
TRUSTED = ("logic, prover, compiler and linker", "the C library", "the launcher bin/eip_station", "the kernel", "Nothing else is linked")
OF_THE_C_LIBRARY = re.compile(r"lib(c|m|pthread)\.so\.\d|ld-linux-x86-64\.so\.2")


def members(packed):
    """The members of a compressed tar, by path, and the bytes of its files."""
    tar = tarfile.open(fileobj=io.BytesIO(gzip.decompress(packed)))
    found = {it.name.removeprefix("./"): it for it in tar}
    return found, {path: tar.extractfile(it).read() for path, it in found.items() if it.isreg()}


def part_of(deb, name):
    """A part of a Debian package."""
    at = deb.index(name.encode().ljust(16)) + 60
    return deb[at:at + int(deb[at - 12:at - 2])]


def wanted(top, version, wheel):
    """The paths of the archive."""
    documents = [pathlib.Path("README.md"), *(it.relative_to(top) for it in (top / "docs").glob("*.md"))]
    found = {*PROGRAMS, *OF_ITS_PLACE, "include/eip.h", "lib/libeip.a", "lib/libeip.so", f"lib/libeip.so.{version.split('.')[0]}", f"lib/libeip.so.{version}",
             "CONTENTS.txt", "examples/Makefile", f"python/{wheel}"}
    for it in ("eip_line", "eip_station"):
        found |= {f"share/man/man1/{it}.1.gz", f"share/bash-completion/completions/{it}"}
    for it in documents:
        found |= {str(it), f"docs/html/{it.stem}.html"}
        # (what these two name is of the repository)
        if it.stem not in ("CONTRIBUTING", "TESTING"):
            named = {name for name in re.findall(r"examples/[\w/]+\.\w+", (top / it).read_text()) if (top / name).exists()}
            found |= named
    return found


def inspect(bench, top, packages):
    """Judges the packages by their bytes."""
    archive, deb, wheel = (next(it for it in packages if it.endswith(end)) for end in (".tar.gz", ".deb", ".whl"))
    version, folder = deb.split("_")[1], archive.removesuffix(".tar.gz") + "/"
    heads, files = members(packages[archive])
    heads = {path.removeprefix(folder): it for path, it in heads.items() if path != folder[:-1]}
    files = {path.removeprefix(folder): it for path, it in files.items()}
    debian_heads, debian_files = members(part_of(packages[deb], "data.tar.gz"))
    missing = sorted(wanted(top, version, wheel) - heads.keys())
    bench.judge(not missing, f"the archive has {len(files)} files, and none is missing", f"without {missing}")
    other = sorted(path for path, it in files.items() if path not in OF_ITS_PLACE and debian_files.get(moved(path)) != it)
    other += sorted(path for path, it in heads.items() if not it.isdir() and moved(path) not in debian_heads)
    bench.judge(not other and "etc/eip" in debian_heads, f"the Debian package has each of them, with the same bytes, and {len(debian_files)} files", f"other {other}")
    modes(bench, [*heads.items(), *debian_heads.items()])
    found_by_pkg_config(bench, files, debian_files)
    versions(bench, version, files, debian_files, packages, deb, wheel)
    contents(bench, files, members(part_of(packages[deb], "control.tar.gz"))[1]["control"].decode())


def folders_of(pc, at):
    """The folders of libraries and headers that an eip.pc names, without the first `/`; `at` is its own folder."""
    named = dict(re.findall(r"^(\w+)=(.*)$", pc.decode(), re.M))
    named["pcfiledir"] = f"/{at}"
    for name in ("prefix", "libdir", "includedir"):
        named[name] = re.sub(r"\$\{(\w+)\}", lambda it: named[it[1]], named[name])
    return [os.path.normpath(named[name]).lstrip("/") for name in ("libdir", "includedir")]


def found_by_pkg_config(bench, files, debian_files):
    """The library and the header are where eip.pc says."""
    wrong = []
    for path, them in (("lib/pkgconfig/eip.pc", files), (moved("lib/pkgconfig/eip.pc"), debian_files)):
        libraries, headers = folders_of(them[path], path.rpartition("/")[0])
        wrong += [it for it in (f"{libraries}/libeip.a", f"{headers}/eip.h") if it not in them]
    bench.judge(not wrong, "the library and the header are where eip.pc says", f"without {wrong}")


def moved(path):
    """The path in the Debian package of a path in the archive."""
    before, behind = next(it for it in MOVED if path.startswith(it[0]))
    return behind + path.removeprefix(before)


def modes(bench, heads):
    """What is run may be run, all may be read by all, and written by root alone."""
    def of(path, it):
        runs = path.startswith(("bin/", "usr/bin/", "lib/eip/", "usr/lib/eip/")) or "examples/python/" in path
        return 0o755 if it.isdir() or runs else 0o777 if it.issym() else 0o644

    wrong = [f"{path} {it.mode:o}" for path, it in heads if it.mode != of(path, it) or it.uid or it.gid or it.uname != "root"]
    bench.judge(not wrong, "modes and owners are those of programs and of files", str(wrong))


def versions(bench, version, files, debian_files, packages, deb, wheel):
    """All that says its version says the same."""
    zipped = zipfile.ZipFile(io.BytesIO(packages[wheel]))
    inside = {name: zipped.read(name) for name in zipped.namelist()}
    control = members(part_of(packages[deb], "control.tar.gz"))[1]["control"].decode()
    number = "{0}{1:03d}{2:03d}".format(*map(int, version.split(".")))
    said = {
        "eip.h": f'#define EIP_VERSION "{version}"\n' in files["include/eip.h"].decode(),
        "its number": f"#define EIP_VERSION_NUMBER {number}\n" in files["include/eip.h"].decode(),
        "control": f"\nVersion: {version}\n" in control,
        "CONTENTS.txt": files["CONTENTS.txt"].decode().startswith(f"eip {version}, "),
        "the wheel": f"\nVersion: {version}\n" in inside.get(f"eip-{version}.dist-info/METADATA", b"").decode(),
        "the library's name": elf.Elf(files[f"lib/libeip.so.{version}"]).own_name() == f"libeip.so.{version.split('.')[0]}",
        "docs/CHANGELOG.md": f"\n## {version}\n" in files["docs/CHANGELOG.md"].decode(),
        **{path: f"\nVersion: {version}\n" in them[path].decode() for path, them in (
            ("lib/pkgconfig/eip.pc", files), ("usr/lib/x86_64-linux-gnu/pkgconfig/eip.pc", debian_files))},
    }
    wrong = [name for name, holds in said.items() if not holds]
    bench.judge(not wrong, f"{len(said)} places say version {version}", f"others are {wrong}")
    same = inside.get("eip.libs/libeip.so") == files[f"lib/libeip.so.{version}"]
    modules = ("eip", "eip_command", "fault_words", "plant", "plant_file", "plant_script", "plant_sockets", "point_names", "port_faults", "profile_lines", "trace_lines")
    typed = all(inside.get(f"{it}.py", b"") and inside.get(f"{it}-stubs/__init__.pyi") == inside[f"{it}.py"] for it in modules)
    bench.judge(same and typed, "the wheel has its modules, their type hints and the library of the package", str(sorted(inside)))


def contents(bench, files, control):
    """CONTENTS.txt has the sums of what is machine code, says of each whether it is proved, and what is trusted. Nothing but the C library is linked."""
    said = files["CONTENTS.txt"].decode()
    code = {path: it for path, it in files.items() if it[:4] == b"\x7fELF"}
    unsaid = sorted(path for path, it in code.items() if hashlib.sha256(it).hexdigest() not in said)
    bench.judge(len(code) == 3 and not unsaid, f"CONTENTS.txt has the sums of {len(code)} files of machine code", f"{[*code]}, without {unsaid}")
    judged = re.findall(r"^  (eip_line|eip_station|libeip): (?:proved|built with nothing proved, .*)$", said, re.M)
    missing = [it for it in TRUSTED if it not in said]
    bench.judge(len(judged) == 3 and not missing, "it says what is proved and what is trusted", f"of {judged}, without {missing}")
    others = [f"{path} {it}" for path, data in code.items() for it in elf.Elf(data).needed() if not OF_THE_C_LIBRARY.fullmatch(it)]
    bench.judge(not others, "no library is linked but the C library", str(others))
    least = "{}.{}".format(*max(elf.Elf(it).least_glibc() for it in code.values()))
    bench.judge(f"\nDepends: libc6 (>= {least})\n" in control and f"the C library of this machine, {least} or later" in said,
                f"the C library that is needed is {least} or later, in CONTENTS.txt and in the Debian package", control)
