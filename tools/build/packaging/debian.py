"""A Debian of its own, with what a user of the packages has installed before: a compiler, make, pkg-config, Python, man and systemd.

It is made once, below out/, by mmdebstrap, which is taken from Debian where it is not installed. Nothing of this system is changed.
"""

import hashlib
import os
import pathlib
import shutil
import subprocess
import tempfile

SUITE, MIRROR, KEYS = "bookworm", "http://deb.debian.org/debian", "/usr/share/keyrings/debian-archive-keyring.gpg"
PACKAGES = ("gcc", "libc6-dev", "make", "man-db", "pkgconf", "python3-venv", "systemd")
# seconds: of the lists of packages, of one package, of the whole
LISTS_S, PACKAGE_S, WHOLE_S = 45, 30, 420
PATIENCE = ("Acquire::Retries=1", "Acquire::http::Timeout=10", "Acquire::https::Timeout=10", "APT::Sandbox::User=root")
SOURCE = f"deb [signed-by={KEYS}] {MIRROR} {SUITE} main\n"


class NotMade(Exception):
    """There is no Debian here, and why."""


def called(words, seconds, **given):
    """Runs a command, which ends in time with all that it has started. The network is asked for nothing else."""
    try:
        done = subprocess.run(["timeout", "-k", "5", str(seconds), *words], stdin=subprocess.DEVNULL, stdout=subprocess.PIPE, stderr=subprocess.STDOUT,
                              text=True, errors="replace", **given)
    except OSError as fault:
        raise NotMade(str(fault))
    if done.returncode:
        said = [line for line in done.stdout.splitlines() if line.startswith(("E:", "Err:"))] or done.stdout.splitlines()[-1:] or ["it says nothing"]
        raise NotMade(f"{words[0]} {'took more than ' + str(seconds) + ' s' if done.returncode == 124 else 'failed'}: {said[0]}")


def options():
    return [word for it in PATIENCE for word in ("-o", it)]


def mmdebstrap(folder):
    """The command mmdebstrap: that of this system, or Debian's, unpacked in a folder."""
    found = shutil.which("mmdebstrap")
    if found:
        return [found]
    for it in ("lists/partial", "cache/archives/partial"):
        (folder / it).mkdir(parents=True)
    (folder / "sources.list").write_text(SOURCE)
    apt = ["apt-get", *options(), "-o", f"Dir::Etc::SourceList={folder}/sources.list", "-o", "Dir::Etc::SourceParts=/dev/null",
           "-o", f"Dir::State::Lists={folder}/lists", "-o", f"Dir::Cache={folder}/cache"]
    called([*apt, "-o", "APT::Update::Error-Mode=any", "update"], LISTS_S)
    called([*apt, "download", "mmdebstrap"], PACKAGE_S, cwd=folder)
    called(["dpkg-deb", "-x", str(next(folder.glob("mmdebstrap_*.deb"))), f"{folder}/own"], PACKAGE_S)
    return ["perl", f"{folder}/own/usr/bin/mmdebstrap"]


def root(below):
    """The folder of the Debian that is below a folder, which is made there if it is not there yet."""
    key = hashlib.sha256(f"{SOURCE}{PACKAGES}".encode()).hexdigest()[:8]
    made = below / f"debian-{SUITE}-{key}"
    if made.is_dir():
        return made
    if os.geteuid():
        raise NotMade("it is root who makes one")
    if not pathlib.Path(KEYS).exists():
        raise NotMade(f"the keys of Debian, {KEYS}, are not here")
    part = below / f"{made.name}.{os.getpid()}"
    with tempfile.TemporaryDirectory() as folder:
        # (in namespaces of its own: nothing stays mounted, and nothing runs on, if it is cut off)
        words = ["unshare", "--mount", "--pid", "--fork", "--kill-child", *mmdebstrap(pathlib.Path(folder)), "--mode=root", "--variant=apt"]
        words += [f"--aptopt={it.replace('=', ' ', 1)};" for it in (*PATIENCE, 'APT::Install-Recommends="false"')]
        words += ["--dpkgopt=force-unsafe-io", f"--include={','.join(PACKAGES)}", SUITE, str(part), SOURCE.strip()]
        try:
            part.mkdir(parents=True)
            called(words, WHOLE_S, env={**os.environ, "TMPDIR": folder, "LC_ALL": "C.UTF-8"})
            part.rename(made)
        except OSError as fault:
            if not made.is_dir():  # (another run has made it meanwhile)
                raise NotMade(str(fault))
        finally:
            shutil.rmtree(part, ignore_errors=True)
    return made
