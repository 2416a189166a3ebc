"""What is in the packages, and where: the tree of the archive, that of the Debian package, and the wheel."""

import base64
import gzip
import hashlib
import time

import elf
import manual
import pages
from archives import File, Folder, Link, deb, tar_gz, zipped

SUMMARIES = {
    "eip_line": "replay a trace of an EtherNet/IP device, or run a line of devices",
    "eip_station": "serve an EtherNet/IP adapter, scanner or plant at real addresses",
}
SUMMARY = "EtherNet/IP class 1 adapters and scanners: stations, and a library for C and Python"
MULTIARCH = "usr/lib/x86_64-linux-gnu"
LICENCE = "The owner of this work states its licence. No licence text is in this package.\n"


def executable(data):
    return File(data, 0o755)


def text(words):
    return File(words.encode())


class Contents:
    """What both packages have, each file by its place in the archive."""

    def __init__(self, top, version, date, built):
        self.top, self.version, self.date, self.built = top, version, date, built
        helps = {name: manual.read(name, said) for name, said in built.helps.items()}
        self.manuals = {f"{name}.1": manual.page(it, version, date, SUMMARIES[name], [*(helps.keys() - {name})]) for name, it in helps.items()}
        self.completions = {name: manual.completion(it) for name, it in helps.items()}

    def documents(self):
        """README, docs/ as text and as pages, and CONTENTS.txt."""
        files = [self.top / "README.md", *sorted((self.top / "docs").glob("*.md"))]
        names = [file.stem for file in files]
        made = {"CONTENTS.txt": text(self.contents())}
        for file in files:
            made[str(file.relative_to(self.top))] = File(file.read_bytes())
            made[f"docs/html/{file.stem}.html"] = text(pages.page_of(file.stem, file.read_text(), names))
        return made

    def examples(self):
        """examples/ with a Makefile, and the programs of python/."""
        made = {"examples/Makefile": File((self.top / "tools/build/packaging/examples.mk").read_bytes())}
        for file in sorted((self.top / "examples").rglob("*")):
            if file.is_file() and file.suffix in (".c", ".trace", ".out", ".told", ".profile", ".eds", ".plant", ".story") and file.parent.name != "bad":
                made[str(file.relative_to(self.top))] = File(file.read_bytes())
        for file in sorted((self.top / "python").glob("*.py")):
            if is_program(file) and file.name != "tests.py":
                made[f"examples/python/{file.name}"] = executable(file.read_bytes())
        return made

    def library(self, where):
        """The library below the folder of libraries."""
        return {
            f"{where}/libeip.a": File(self.built.static),
            f"{where}/libeip.so.{self.version}": File(self.built.shared),
            f"{where}/{elf.Elf(self.built.shared).own_name()}": Link(f"libeip.so.{self.version}"),
            f"{where}/libeip.so": Link(f"libeip.so.{self.version}"),
        }

    def programs(self, top):
        """The programs, their launcher, the header, completion and man pages, below a folder."""
        made = {
            f"{top}bin/eip_line": executable(self.built.programs["eip_line"]),
            f"{top}bin/eip_station": executable((self.top / "bin/eip_station").read_bytes()),
            f"{top}lib/eip/eip_station": executable(self.built.programs["eip_station"]),
            f"{top}include/eip.h": File((self.top / "include/eip.h").read_bytes()),
        }
        for name, script in self.completions.items():
            made[f"{top}share/bash-completion/completions/{name}"] = text(script)
        for name, page in self.manuals.items():
            made[f"{top}share/man/man1/{name}.gz"] = File(gzip.compress(page.encode(), 9, mtime=0))
        return made

    def unit(self, prefix):
        """The unit of a station as a service."""
        return text((self.top / "tools/build/packaging/eip-station@.service").read_text().replace("@PREFIX@", prefix))

    def config(self, prefix, libdir, further=""):
        """What pkg-config reads."""
        return text(f"prefix={prefix}\nlibdir={libdir}\nincludedir=${{prefix}}/include\n\nName: eip\nDescription: {SUMMARY}\n"
                    f"Version: {self.version}\nLibs: -L${{libdir}}{further} -leip\nCflags: -I${{includedir}}\n")

    def least_glibc(self):
        """The least version of the C library that the programs and the library need."""
        return "{}.{}".format(*max(elf.Elf(it).least_glibc() for it in self.built.executables().values()))

    def contents(self):
        """What the package was made of, and what is trusted."""
        day = time.strftime("%d %B %Y", time.gmtime(self.date))
        sums = "".join(f"  {hashlib.sha256(it).hexdigest()}  {name}\n" for name, it in self.built.executables().items())
        proved = "".join(f"  {line}\n" for line in self.built.lines())
        return (f"eip {self.version}, {day}, for Linux on x86-64\nMade of commit {self.built.commit}\n\nProved and not proved:\n{proved}"
                "  Python modules, examples, and the inline functions of eip.h: tested, and not proved\n\n"
                f"Sums (SHA-256):\n{sums}\n"
                f"Trusted, besides what docs/GUARANTEES.md lists:\n  {self.built.kit}: logic, prover, compiler and linker\n"
                f"  the C library of this machine, {self.least_glibc()} or later\n"
                "  the launcher bin/eip_station, a script of sh\n  the kernel\n"
                "Nothing else is linked.\n\n" + LICENCE)


def is_program(file):
    """Whether a file of python/ is run, and not imported."""
    return file.read_text().startswith("#!")


# THE PACKAGES

def wheel(of):
    """The modules of python/ and the library, as pip installs them."""
    modules = [file for file in sorted((of.top / "python").glob("*.py")) if not is_program(file)]
    made = {file.name: File(file.read_bytes()) for file in modules}
    # (where it is installed, mypy takes no type hints of a module that is a file, but those of a package of stubs: PEP 561)
    made.update({f"{file.stem}-stubs/__init__.pyi": File(file.read_bytes()) for file in modules})
    made["eip.libs/libeip.so"] = executable(of.built.shared)
    info = f"eip-{of.version}.dist-info"
    made[f"{info}/METADATA"] = text(f"Metadata-Version: 2.1\nName: eip\nVersion: {of.version}\nSummary: {SUMMARY}\nRequires-Python: >=3.9\n")
    made[f"{info}/WHEEL"] = text("Wheel-Version: 1.0\nGenerator: tools/build/release\nRoot-Is-Purelib: false\nTag: py3-none-linux_x86_64\n")
    made[f"{info}/top_level.txt"] = text("".join(f"{file.stem}\n" for file in modules))
    rows = [f"{path},sha256={digest(it.data)},{len(it.data)}\n" for path, it in made.items()]
    made[f"{info}/RECORD"] = text("".join(rows) + f"{info}/RECORD,,\n")
    return zipped(made, of.date)


def digest(data):
    return base64.urlsafe_b64encode(hashlib.sha256(data).digest()).rstrip(b"=").decode()


def archive(of, made_wheel, wheel_name):
    """The tree of the archive: its folder works where it is unpacked, and below /usr/local."""
    return {
        **of.programs(""), **of.library("lib"), **of.documents(), **of.examples(),
        "lib/pkgconfig/eip.pc": of.config("${pcfiledir}/../..", "${prefix}/lib", " -Wl,-rpath,${libdir}"),
        "lib/systemd/system/eip-station@.service": of.unit("/usr/local"),
        f"python/{wheel_name}": File(made_wheel),
    }


def debian(of, made_wheel, wheel_name):
    """The Debian package."""
    own = "usr/share/doc/eip"
    tree = {
        **of.programs("usr/"), **of.library(MULTIARCH),
        **{f"{own}/{path}": it for path, it in {**of.documents(), **of.examples()}.items()},
        f"{own}/copyright": text(LICENCE),
        f"{MULTIARCH}/pkgconfig/eip.pc": of.config("/usr", "${prefix}/lib/x86_64-linux-gnu"),
        "usr/lib/systemd/system/eip-station@.service": of.unit("/usr"),
        f"usr/share/eip/{wheel_name}": File(made_wheel),
        "etc/eip": Folder(),
    }
    control = (f"Package: eip\nVersion: {of.version}\nArchitecture: amd64\nMaintainer: the maintainers of eip\nSection: net\nPriority: optional\n"
               f"Depends: libc6 (>= {of.least_glibc()})\nDescription: {SUMMARY}\n")
    scripts = {
        "triggers": text("activate-noawait ldconfig\n"),
        "postinst": executable(b"#!/bin/sh\nset -e\n[ ! -d /run/systemd/system ] || systemctl daemon-reload\n"),
        "prerm": executable(b"#!/bin/sh\nset -e\n[ \"$1\" != remove ] || [ ! -d /run/systemd/system ] || systemctl stop 'eip-station@*.service'\n"),
    }
    return deb(tree, control, scripts, of.date)


def packages(top, version, date, built):
    """The bytes of each package, by its name."""
    of = Contents(top, version, date, built)
    wheel_name = f"eip-{version}-py3-none-linux_x86_64.whl"
    made_wheel = wheel(of)
    folder = f"eip-{version}-x86_64-linux"
    return {
        f"{folder}.tar.gz": tar_gz(archive(of, made_wheel, wheel_name), date, f"{folder}/"),
        f"eip_{version}_amd64.deb": debian(of, made_wheel, wheel_name),
        wheel_name: made_wheel,
    }
