"""Sources of Debian's packages, fetched once by `apt-get source`, with lists of their own in a folder for what can be fetched again: nothing of the system
changes."""
import os
import pathlib
import re
import shutil
import subprocess


class Unavailable(Exception):
    """Why a source can't be had."""


def place():
    """The folder for what is fetched."""
    return pathlib.Path(os.environ.get("XDG_CACHE_HOME") or pathlib.Path.home() / ".cache") / "cufandrize-mpich"


def apt(*words):
    """Calls apt-get with the lists of this folder."""
    folder = place()
    options = ["-oDir::Etc::sourcelist=/dev/null", f"-oDir::Etc::sourceparts={folder}/sources", f"-oDir::State::lists={folder}/lists",
               f"-oDir::Cache={folder}/cache", "-oAPT::Sandbox::User=root"]
    ran = subprocess.run(["apt-get", *options, *words], cwd=folder, stdout=subprocess.PIPE, stderr=subprocess.STDOUT, text=True, check=False)
    if ran.returncode:
        raise Unavailable(f"it can't be fetched: {ran.stdout.strip().splitlines()[-1:]}")


def make_lists():
    """The lists of sources, once."""
    folder = place()
    if (folder / "sources").exists():
        return
    if not shutil.which("apt-get"):
        raise Unavailable("there is no apt-get to fetch it by")
    for name in ("lists/partial", "cache/archives/partial", "sources"):
        (folder / name).mkdir(parents=True, exist_ok=True)
    for file in pathlib.Path("/etc/apt").glob("sources.list.d/*.sources"):
        (folder / "sources" / file.name).write_text(re.sub(r"(?m)^Types:.*$", "Types: deb-src", file.read_text()))
    for file in [pathlib.Path("/etc/apt/sources.list"), *pathlib.Path("/etc/apt").glob("sources.list.d/*.list")]:
        if file.is_file():
            (folder / "sources" / file.name).with_suffix(".list").write_text(re.sub(r"(?m)^deb\b", "deb-src", file.read_text()))
    apt("update", "-qq")


def archive(package):
    """The archive of a package as its authors made it."""
    folder = place()
    if not list(folder.glob(f"{package}_*.orig.tar.*")):
        make_lists()
        apt("source", "-qq", "--download-only", "--tar-only", package)
    found = sorted(it for it in folder.glob(f"{package}_*.orig.tar.*") if it.suffix != ".asc")
    if not found:
        raise Unavailable("its source has no archive")
    return found[0]
