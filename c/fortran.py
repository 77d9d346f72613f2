#!/usr/bin/env python3
"""Writes the calls of Fortran, as thin wrappers of those of C, and what declares them.

  c/fortran.py FOLDER    FOLDER/fortran_made.c, FOLDER/include/mpif.h, FOLDER/mpi.f90

The declarations of mpi.h and of what it includes are the table: the type of each parameter, and for a few its name, says what it is in Fortran, and
how it goes over. What can't go over so is left out (LEFT_OUT), or written by hand (fortran/fortran.c); the linker names a call that isn't there.
"""
import pathlib
import re
import sys
import textwrap

DECLARED = pathlib.Path(__file__).resolve().parent / "include"
HEADERS = ("mpi.h", "ulfm_mpi_attributes.h", "ulfm_mpi_older.h", "ulfm_mpi_topologies.h", "ulfm_mpi_windows.h")
CONSTANTS = ("ulfm_mpi_types.h", *HEADERS[1:])
# Of which kind a handle's number is.
HANDLES = {f"MPI_{name}": name for name in "Comm Group Request Message Op Errhandler Info Win".split()} | {"MPI_Datatype": "Type"}
WIDE = {"MPI_Aint", "MPI_Count", "MPI_Offset"}
LOGICAL = {"flag", "reorder", "periods", "remains", "commutes", "weighted"}
# A handle that comes after the call, lists that have to stay after it, texts whose length counts an end that Fortran hasn't, keys of attributes with
# functions of C, displacements that an INTEGER of MPI-1 doesn't hold.
LEFT_OUT = re.compile(r"Pcontrol|Comm_idup|Comm_idup_with_info|Comm_ishrink|I?neighbor_alltoallw|Ialltoallw|Info_get_string|\w+_(f2c|c2f)|\w*[Kk]eyval\w*|Attr_\w+"
                      r"|\w+_(set|get|delete)_attr|Address|Type_(struct|hindexed|hvector|extent|lb|ub)", re.I)
BY_HAND = {"Init": "ierror", "Init_thread": "required, provided, ierror", "Comm_get_attr": "comm, keyval, value, flag, ierror"}
# How many a list of handles or of statuses has.
LENGTHS = {"requests": ("incount", "count"), "statuses": ("incount", "count"), "types": ("count",), "of": ("types",)}
KINDS = "MPI_ADDRESS_KIND MPI_COUNT_KIND MPI_OFFSET_KIND".split()
PLACES = {"MPI_BOTTOM": "", "MPI_IN_PLACE": "", "MPI_STATUS_IGNORE": "(6)", "MPI_STATUSES_IGNORE": "(6,1)", "MPI_UNWEIGHTED": "(1)",
          "MPI_WEIGHTS_EMPTY": "(1)"}


class Parameter:
    """A parameter: its type in C, its name, and [] behind a list."""

    def __init__(self, text):
        self.type, self.name, self.of = re.fullmatch(r"(.*?)(\w+)((?:\[\d*\])*)", " ".join(text.split())).groups()
        self.base = self.type.replace("const ", "").replace("*", "").strip()
        self.is_list, self.is_const = bool(self.of), self.type.startswith("const ")
        self.points = "*" in self.type

    def is_function(self):
        return self.base.endswith("_function")

    def length(self, names):
        """How many elements a list has, as the wrapper knows it."""
        found = next((it for it in LENGTHS.get(self.name, ()) if it in names), None)
        return f"*{found}" if found else "um_f_size(comm)"


class Call:
    def __init__(self, result, name, words):
        self.result, self.name = result, name
        self.parameters = [] if words.strip() == "void" else [Parameter(it) for it in words.split(",")]
        self.names = [it.name for it in self.parameters]

    def symbol(self):
        return self.name.lower() + "_"


def calls():
    """The calls that go over, in the order of their declarations."""
    for header in HEADERS:
        text = re.sub(r"/\*.*?\*/", "", (DECLARED / header).read_text(), flags=re.S)
        for result, name, words in re.findall(r"^(int|double|MPI_Aint) (MPIX?_\w+)\(([^;]*)\);", text, re.M):
            short = name.split("_", 1)[1]
            if not LEFT_OUT.fullmatch(short) and short not in BY_HAND:
                yield Call(result, name, words)


# ---- The wrappers, in C ----


class Wrapper:
    """The text of a wrapper: what it takes, what stands before the call, what the call gets, and what stands behind it."""

    def __init__(self, call):
        self.call = call
        self.taken, self.before, self.given, self.behind, self.lengths = [], [], [], [], []
        for it in call.parameters:
            self.add(it)

    def take(self, it, kind, given):
        self.taken.append(f"{kind}{it.name}")
        self.given.append(given)

    def add(self, it):
        here = f"{it.name}_here"
        if it.is_function():
            self.take(it, it.type, it.name)
        elif it.base == "char":
            self.add_text(it, here)
        elif it.base == "void":
            self.add_buffer(it, here)
        elif it.base == "MPI_Status":
            self.add_status(it, here)
        elif it.base in HANDLES:
            self.add_handle(it, here, HANDLES[it.base])
        elif not it.points and not it.is_list:
            self.take(it, f"const {it.base} *", f"*{it.name}")
        else:
            self.add_numbers(it)

    def add_numbers(self, it):
        given = {"weights": f"um_f_weights({it.name})", "ranges": "(int(*)[3])ranges"}.get("weights" if it.name.endswith("weights") else it.name, it.name)
        self.take(it, f"{'const ' if it.is_const else ''}{it.base} *", given)
        if it.name == "index" and it.points:
            self.behind.append("if (*index != MPI_UNDEFINED) ++*index;")
        if it.name == "indices":
            self.behind.append("for (int k = 0; *outcount != MPI_UNDEFINED && k < *outcount; k++) indices[k]++;")

    def add_text(self, it, here):
        self.lengths.append(f"size_t {it.name}_length")
        self.take(it, "const char *" if it.is_const else "char *", here)
        if it.is_const:
            self.before.append(f"char {here}[{it.name}_length + 1];")
            self.before.append(f"um_f_text_to_c({here}, {it.name}, {it.name}_length);")
        else:
            self.before.append(f'char {here}[MPI_MAX_INFO_VAL + 1] = "";')
            self.behind.append(f"um_f_text_of_c({it.name}, {it.name}_length, {here});")

    def add_buffer(self, it, here):
        if it.name == "base" and self.call.name in ("MPI_Alloc_mem", "MPI_Win_allocate", "MPI_Win_allocate_shared", "MPI_Win_shared_query"):
            self.take(it, "MPI_Aint *", it.name)
        elif self.call.name == "MPI_Buffer_detach" and it.name == "buffer":
            self.before.append(f"void *{here};")
            self.take(it, "void *", f"((void)buffer, &{here})")
        else:
            self.take(it, it.type, f"um_f_buffer({it.name})")

    def add_status(self, it, here):
        if it.is_list:
            length = it.length(self.call.names)
            self.before.append(f"MPI_Status *{here} = um_f_statuses({it.name}, {length});")
            self.take(it, "MPI_Fint *", here)
            self.behind.append(f"um_f_tell_statuses({it.name}, {here}, {length});")
            return
        self.before.append(f"MPI_Status {it.name}_room, *{here} = um_f_status({it.name}, &{it.name}_room);")
        self.take(it, f"{'const ' if it.is_const else ''}MPI_Fint *", here)
        if not it.is_const:
            self.behind.append(f"um_f_tell_status({it.name}, {here});")

    def add_handle(self, it, here, kind):
        if not it.points and not it.is_list:
            self.take(it, "const MPI_Fint *", f"MPI_{kind}_f2c(*{it.name})")
        elif not it.is_list:
            self.before.append(f"{it.base} {here} = MPI_{kind}_f2c(*{it.name});")
            self.take(it, "MPI_Fint *", f"&{here}")
            self.behind.append(f"*{it.name} = MPI_{kind}_c2f({here});")
        else:
            length = it.length(self.call.names)
            self.before.append(f"{it.base} *{here} = um_f_list({it.name}, {length});")
            self.take(it, f"{'const ' if it.is_const else ''}MPI_Fint *", here)
            self.behind.append(f"free({here});" if it.is_const else f"um_f_tell_list({it.name}, {here}, {length});")

    def text(self):
        call = self.call
        given = f"{call.name}({', '.join(self.given)})"
        if call.result != "int":
            return f"{call.result} {call.symbol()}({', '.join(self.taken) or 'void'}) {{ return {given}; }}\n\n"
        taken = ", ".join([*self.taken, "MPI_Fint *ierror", *self.lengths])
        lines = [*self.before, f"*ierror = AT({given});", *self.behind]
        return f"void {call.symbol()}({taken}) {{\n" + "".join(f"    {it}\n" for it in lines) + "}\n\n"


# ---- The declarations, in Fortran ----


def constants():
    """The numbers that are declared, and those of Fortran alone."""
    found = {}
    for header in CONSTANTS:
        text = (DECLARED / header).read_text()
        for name, words in re.findall(r"^#define (MPIX?_\w+) (.+?)(?: +/\*.*)?$", text, re.M):
            number = re.fullmatch(r"(?:\(\(MPI_\w+\)|ULFM_MPI_TYPE\()?\(?(-?\d+)\)*", words.strip())
            if number and not name.startswith("MPI_F_") and words not in ("((MPI_Status *)0)",):
                found[name] = int(number[1]) - name.startswith("MPI_MAX_")
            elif words.strip() in found:
                found[name] = found[words.strip()]
    for name in PLACES:
        found.pop(name, None)
    return {**found, "MPI_STATUS_SIZE": 6, "MPI_SOURCE": 1, "MPI_TAG": 2, "MPI_ERROR": 3, "MPI_INTEGER_KIND": 4, **{it: 8 for it in KINDS}}


def declared_constants():
    """The lines of mpif.h, as both forms of Fortran have them."""
    lines = ["! The constants of MPI. c/fortran.py wrote them, of the headers of C."]
    for name, number in constants().items():
        lines += [f"      integer {name}", f"      parameter ({name}={number})"]
    lines += [f"      integer {name}{of}" for name, of in PLACES.items()]
    lines += [f"      common /ulfm_f_{name[4:].lower()}/ {name}" for name in PLACES]
    return lines


def declared_in(call, it):
    """The line that declares a parameter in Fortran, and one before it if need be."""
    of = "(3,*)" if it.name == "ranges" else "(*)" if it.is_list else ""
    intent = ", intent(in)" if it.is_const or (not it.points and not it.is_list) else ""
    if it.is_function():
        return [f"external :: {it.name}"]
    if it.base == "char":
        return [f"character(len=*){intent} :: {it.name}"]
    if it.base == "void" and not (it.name == "base" and call.name in ("MPI_Alloc_mem", "MPI_Win_allocate")):
        return [f"!GCC$ ATTRIBUTES NO_ARG_CHECK :: {it.name}", f"type(*), dimension(*) :: {it.name}"]
    if it.base == "MPI_Status":
        return [f"integer :: {it.name}(MPI_STATUS_SIZE{',*' if it.is_list else ''})"]
    if it.base in WIDE or it.base == "void":
        return [f"integer(kind=MPI_ADDRESS_KIND){intent} :: {it.name}{of}"]
    is_logical = it.name in LOGICAL and it.base == "int" and not call.name.endswith("agree")
    return [f"{'logical' if is_logical else 'integer'}{intent} :: {it.name}{of}"]


def wrapped(line):
    return "\n".join(textwrap.wrap(line, 120, subsequent_indent="        ", break_long_words=False)).replace("\n", " &\n")


def interface(call):
    names = [it.name for it in call.parameters] + (["ierror"] if call.result == "int" else [])
    kind = "subroutine" if call.result == "int" else "function"
    lines = [wrapped(f"    {kind} {call.name}({', '.join(names)})"), "      import :: MPI_STATUS_SIZE, MPI_ADDRESS_KIND", "      implicit none"]
    lines += [f"      {it}" for parameter in call.parameters for it in declared_in(call, parameter)]
    if call.result == "int":
        lines.append("      integer, intent(out) :: ierror")
    else:
        lines.append(f"      {'double precision' if call.result == 'double' else 'integer(kind=MPI_ADDRESS_KIND)'} :: {call.name}")
    return [*lines, f"    end {kind}"]


def module(made):
    lines = ["! The module mpi: c/fortran.py wrote it.", "module mpi", "  implicit none", "  include 'mpif.h'", "  interface"]
    for call in made:
        lines += interface(call)
    return [*lines, "  end interface", *(f"  external :: MPI_{it}" for it in BY_HAND), "end module"]


def main(folder):
    made = list(calls())
    functions = [f"      {'double precision' if it.result == 'double' else 'integer*8'} {it.name}\n      external {it.name}" for it in made if it.result != "int"]
    (folder / "include").mkdir(parents=True, exist_ok=True)
    (folder / "include/mpif_constants.h").write_text("\n".join(declared_constants()) + "\n")
    (folder / "include/mpif.h").write_text("\n".join([*declared_constants(), *functions]) + "\n")
    (folder / "mpi.f90").write_text("\n".join(module(made)).replace("'mpif.h'", "'mpif_constants.h'") + "\n")
    (folder / "fortran_made.c").write_text('/* Written by c/fortran.py. */\n#include "fortran/fortran.h"\n\n' + "".join(Wrapper(it).text() for it in made))


main(pathlib.Path(sys.argv[1]))
