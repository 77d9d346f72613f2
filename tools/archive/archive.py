"""The archive of a commit: what 'tools/archive/package' lays out and packs of what was built."""
import gzip
import os
import pathlib
import re
import shutil
import subprocess
import tarfile

import completions
import helps
import links
import manual

ROOT = pathlib.Path(__file__).resolve().parents[2]
FORMS = pathlib.Path(__file__).resolve().parent / "forms"
PROGRAM = ROOT / "crates/ulfm/out/ulfm"
ENGINE = ROOT / "crates/ulfm_c/out/libulfm_c.a"
LIBRARIES = [ROOT / "c/out/libulfm.a", ROOT / "c/out/libulfm.so"]
# The C compiler and binutils too make the layer of MPI, and say what binaries want.
TOOLS = ["git", "make", os.environ.get("CC", "cc"), "readelf", "strip"]
# What readers get, beside the files that its pages lead to.
PAGES = [":(glob)*.md", "docs", "crates/ulfm/data", "c/examples/*.*", ":!*/.gitignore"]
# Where pages stand below the archive's folder. There they have the places that they have here, so that their links lead on.
DOC = "share/doc/ulfm"
# Libraries that any Linux with glibc has.
OF_GLIBC = {"libc.so.6", "libm.so.6", "libpthread.so.0", "libdl.so.2", "ld-linux-x86-64.so.2"}


class CannotPack(Exception):
    """Why there is no archive."""


def written(*words, **more):
    """What a command writes."""
    return subprocess.run(words, stdin=subprocess.DEVNULL, stdout=subprocess.PIPE, text=True, check=True, **more).stdout


def of_clone(*words):
    """What git says of this clone, in one line."""
    try:
        return written("git", "-C", ROOT, *words).strip()
    except (OSError, subprocess.CalledProcessError) as fault:
        raise CannotPack("git finds no clone here, and an archive is of a commit") from fault


def commit():
    """The commit as './ulfm --version' tells it."""
    return of_clone("describe", "--always", "--dirty", "--exclude", "*")


def is_built(crate, *program):
    return subprocess.run([ROOT / "tools/kit/is-built", crate, *program], check=False).returncode == 0


def look_for_tools():
    """Says which tool isn't there, or that this is no clone."""
    missing = [tool for tool in TOOLS if not shutil.which(tool)]
    if missing:
        raise CannotPack(f"not there: {', '.join(missing)}")
    commit()


def look_for_what_is_built():
    """Says what isn't built, or is older than its files, and which command builds it."""
    if not is_built("ulfm"):
        raise CannotPack("the program isn't built of what stands here: ./ulfm build")
    sources = [ENGINE, ROOT / "c/engine/ulfm.c", ROOT / "c/include/ulfm.h", ROOT / "c/engine/exports.h"]
    is_young = is_built("ulfm_c", ENGINE.name) and all(it.exists() for it in LIBRARIES)
    if not is_young or max(it.stat().st_mtime for it in sources) > min(it.stat().st_mtime for it in LIBRARIES):
        raise CannotPack("the libraries for C aren't built of what stands here: tools/kit/build c")


class Archive:
    """An archive as it is laid out in a folder."""

    def __init__(self, room):
        self.said = written(PROGRAM, "--version").strip()
        self.commit = commit()
        self.time = int(of_clone("log", "-1", "--format=%ct"))
        self.date = of_clone("log", "-1", "--format=%cs")
        self.version = self.said.split()[1]
        self.name = f"ulfm-{self.version}-{self.commit}-x86_64-linux"
        self.folder = room / self.name
        self.folder.mkdir()

    def put(self, text, place, mode=0o644):
        """Writes a file of this text."""
        to = self.folder / place
        to.parent.mkdir(parents=True, exist_ok=True)
        to.write_text(text)
        to.chmod(mode)

    def copy(self, file, place):
        """Copies a file."""
        to = self.folder / place
        to.parent.mkdir(parents=True, exist_ok=True)
        shutil.copy(file, to)

    def filled(self, form):
        """A text of tools/archive/forms with what this archive is."""
        words = {"SAID": self.said, "VERSION": self.version, "COMMIT": self.commit, "NAME": self.name, "GLIBC": self.glibc()}
        return re.sub("@([A-Z]+)@", lambda it: words[it[1]], (FORMS / form).read_text())

    def binaries(self):
        """The programs and the shared libraries."""
        files = [it for it in sorted(self.folder.rglob("*")) if it.is_file() and not it.is_symlink()]
        return [it for it in files if it.suffix != ".o" and it.read_bytes()[:4] == b"\x7fELF"]

    def glibc(self):
        """The oldest glibc that has all that the binaries want."""
        said = "".join(written("readelf", "--version-info", "--wide", it) for it in self.binaries())
        return max(re.findall(r"GLIBC_(\d+\.\d+)", said), key=lambda it: tuple(map(int, it.split("."))))

    def lay_programs(self):
        """The program, and what C programs are built and run with."""
        self.copy(PROGRAM, "libexec/ulfm")
        made = subprocess.run(["make", "-s", "-C", ROOT / "c", f"-j{os.cpu_count()}", "install", f"PREFIX={self.folder}", "FORTRAN="], text=True,
                              stdout=subprocess.PIPE, stderr=subprocess.STDOUT, check=False)
        if made.returncode:
            raise CannotPack(f"the layer for C can't be made:\n{made.stdout}")
        for library in LIBRARIES:
            self.copy(library, f"lib/{library.name}")
        self.put(self.filled("ulfm.pc"), "lib/pkgconfig/ulfm.pc")
        # (the clone's path stands in what debuggers read, and the build's sum is over that too)
        subprocess.run(["strip", "--strip-debug", "--remove-section=.note.gnu.build-id", *self.binaries()], check=True)
        strangers = set(re.findall(r"\(NEEDED\).*\[(.*)\]", "".join(written("readelf", "-d", "--wide", it) for it in self.binaries())))
        strangers -= OF_GLIBC | {it.name for it in self.binaries()}
        if strangers:
            raise CannotPack(f"what is built needs more than glibc: {', '.join(sorted(strangers))}")
        self.put(self.filled("ulfm"), "bin/ulfm", 0o755)

    def lay_pages(self):
        """The pages, the jobs, the examples, and each file to which a page leads."""
        files = {ROOT / name for name in of_clone("ls-files", *PAGES).splitlines()}
        for page in [it for it in files if it.suffix == ".md"]:
            files |= {(page.parent / link.partition("#")[0]).resolve() for link in links.relative_links(page.read_text()) if link[0] != "#"}
        for file in files:
            place = str(file.relative_to(ROOT))
            self.copy(file, f"{DOC}/{place.replace('crates/ulfm/data/', 'jobs/')}")
        # Pages call the program so.
        (self.folder / DOC / "ulfm").symlink_to("../../../bin/ulfm")
        self.put(self.filled("INSTALL"), "INSTALL")

    def lay_words(self):
        """Man pages, and what completes words: made of what the programs say of themselves."""
        said = [helps.of_program(PROGRAM, "ulfm"), (helps.read("ulfm-mpirun", helps.written(self.folder / "bin/ulfm-mpirun", "--help")), [])]
        source = f"ulfm {self.version}"
        for top, commands in said:
            self.put(manual.of_help(top, commands, source, self.date), f"share/man/man1/{top.name}.1")
            for place, made in completions.SHELLS.items():
                self.put(made(top, commands), f"share/{place.format(top.name)}")
        for name in ("ulfm-mpicc", "ulfm-mpicxx"):
            script = (self.folder / "bin" / name).read_text()
            self.put(manual.of_script(name, script, source, self.date), f"share/man/man1/{name}.1")

    def entry(self, file):
        """A file as the archive has it: the same bytes whoever packs it, and when."""
        entry = tarfile.TarInfo(str(file.relative_to(self.folder.parent)))
        entry.mtime, entry.mode = self.time, 0o755
        if file.is_symlink():
            entry.type, entry.linkname, entry.mode = tarfile.SYMTYPE, os.readlink(file), 0o777
        elif file.is_dir():
            entry.type = tarfile.DIRTYPE
        else:
            entry.size, entry.mode = file.stat().st_size, 0o755 if file.stat().st_mode & 0o100 else 0o644
        return entry

    def packed(self, to):
        """Packs the folder, and returns the archive's file."""
        file, new = to / f"{self.name}.tar.gz", to / f"{self.name}.new"
        with open(new, "wb") as raw, gzip.GzipFile("", "wb", 9, raw, 0) as squeezed, tarfile.open(fileobj=squeezed, mode="w") as tar:
            for it in [self.folder, *sorted(self.folder.rglob("*"))]:
                if it.is_file() and not it.is_symlink():
                    with open(it, "rb") as content:
                        tar.addfile(self.entry(it), content)
                else:
                    tar.addfile(self.entry(it))
        new.rename(file)
        return file


def make(room, to):
    """Lays the archive out in a folder, and packs it into another. Returns it, and its file."""
    look_for_tools()
    look_for_what_is_built()
    archive = Archive(room)
    archive.lay_programs()
    archive.lay_pages()
    archive.lay_words()
    return archive, archive.packed(to)
