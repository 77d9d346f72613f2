#!/usr/bin/env python3
"""Writes the calls that repeat what another one is: with counts that an int doesn't hold, and those that make a collective to be started as often as wanted.

  c/calls.py FOLDER      FOLDER/made.c, and FOLDER/include/ulfm_mpi_made.h, which mpi.h includes

The declarations of mpi.h and of two that it includes are the table: a call by a name with _c has the parameters of the one without, where each count is an
MPI_Count, and each displacement in a list an MPI_Aint.
"""
import pathlib
import re
import sys
import textwrap

HEADERS = ("mpi.h", "ulfm_mpi_topologies.h", "ulfm_mpi_windows.h")
DECLARED = pathlib.Path(__file__).resolve().parent / "include"
MESSAGES = """Send Bsend Ssend Rsend Recv Isend Ibsend Issend Irsend Irecv Sendrecv Sendrecv_replace Isendrecv Isendrecv_replace
    Send_init Bsend_init Ssend_init Rsend_init Recv_init Mrecv Imrecv Reduce_local
    Put Get Accumulate Get_accumulate Rput Rget Raccumulate Rget_accumulate""".split()
# Each is there in three forms: one that blocks, one that doesn't, and one that is started.
COLLECTIVES = """Barrier Bcast Gather Gatherv Scatter Scatterv Allgather Allgatherv Alltoall Alltoallv Alltoallw Reduce Allreduce Reduce_scatter_block
    Reduce_scatter Scan Exscan Neighbor_allgather Neighbor_allgatherv Neighbor_alltoall Neighbor_alltoallv Neighbor_alltoallw""".split()


def without_blocking(name):
    return "I" + name[0].lower() + name[1:]


TABLE = {*MESSAGES, *COLLECTIVES, *map(without_blocking, COLLECTIVES)}
COUNTS = {"count": "type", "sendcount": "sendtype", "recvcount": "recvtype", "resultcount": "resulttype", "targetcount": "targettype"}
LISTS = {"counts", "sendcounts", "recvcounts", "displs", "sdispls", "rdispls"}
HEADER = """/* Calls with counts that an int doesn't hold (2.5.8), and collectives that are started as often as wanted (6.13, 8.8): mpi.h includes this, and c/calls.py
   wrote it. A reduction folds as many elements as an int counts, and a list has such counts and displacements: else MPI_ERR_COUNT.
   A collective is begun by MPI_Start or MPI_Startall, in any order, and ends as one that doesn't block. What is wrong with its arguments is told where it
   is started; its arrays have to stay until it is freed. */
#ifndef ULFM_MPI_MADE_H
#define ULFM_MPI_MADE_H

"""


class Call:
    """A call, and its parameters: the type, the name, and [] behind a list."""

    def __init__(self, name, parameters):
        self.name, self.parameters = name, parameters
        self.names = [name for _, name, _ in parameters]

    def large(self):
        """This call with large counts."""
        def widened(kind, name, is_list):
            if name in COUNTS or (name in LISTS and name.endswith("counts")):
                kind = re.sub(r"\bint\b", "MPI_Count", kind)
            elif name in LISTS:
                kind = re.sub(r"\bint\b", "MPI_Aint", kind)
            return kind, name, is_list

        return Call(self.name + "_c", [widened(*it) for it in self.parameters])

    def persistent(self):
        """The call that makes it to be started."""
        more = [("MPI_Info ", "info", ""), ("MPI_Request *", "request", "")]
        return Call(self.name + "_init", [*self.parameters, *more])

    def declared(self, end):
        words = ", ".join(kind + name + is_list for kind, name, is_list in self.parameters)
        begin = f"int MPI_{self.name}("
        return textwrap.fill(begin + words, 150, subsequent_indent=" " * len(begin), break_long_words=False) + ")" + end


def calls():
    """The calls that are declared, by their names."""
    found = {}
    for header in HEADERS:
        for name, words in re.findall(r"^int MPI_(\w+)\(([^;]*)\);", (DECLARED / header).read_text(), re.M):
            if name in TABLE:
                found[name] = Call(name, [re.fullmatch(r"(.*?)(\w+)((?:\[\])?)", " ".join(it.split())).groups() for it in words.split(",")])
    return found


def length_of(call, of):
    """How many a list has: by neighbours, at the root, or by members."""
    if "eighbor" in call.name:
        return f"um_neighbors_of(on, {'false' if of.startswith('s') else 'true'})"
    return "on && on->position == root ? on->size : 0" if "root" in call.names else "on ? on->size : 0"


def large_body(call, small):
    """Hands a call on to the one with small counts."""
    peer = next((it for it in ("source", "dest", "target") if it in call.names), "MPI_UNDEFINED")
    tag = next((it for it in ("recvtag", "tag") if it in call.names), "MPI_UNDEFINED")
    is_look = "_init" in call.name or "local" in call.name
    lines = [f"struct comm *on = {'um_comm_at(comm)' if 'comm' in call.names else '0'};", f"ENTER{'_LOOK' if is_look else ''}(on, {peer}, {tag});",
             "struct large large = {0};"]
    given = []
    for (_, name, _), (was, _, _) in zip(call.parameters, small.parameters):
        if name in COUNTS:
            lines.append(f"um_hold_count(&large, &{name}, {'0' if 'op' in call.names else '&' + COUNTS[name]});")
            given.append(f"um_small({name})")
        elif name in LISTS and was == "const int ":
            lines.append(f"const int *{name}_here = um_hold_list(&large, {name}, {length_of(call, name)});")
            given.append(f"{name}_here")
        else:
            given.append(name)
    refused = "large.code" if small.name in MESSAGES else "um_refuse_collective(on, large.code)"
    lines.append(f"if (!um_begin_large(&large)) return um_fail(on, um_end_large(&large, {refused}));")
    lines.append(f"return um_end_large(&large, MPI_{small.name}({', '.join(given)}));")
    return call.declared(" {\n") + "".join(f"    {it}\n" for it in lines) + "}\n\n"


def persistent_body(call, begun, large):
    """Keeps the arguments, with what begins it."""
    kept = [it for it in call.names if it not in ("comm", "info", "request")]
    begin = f"begin_{begun.lower()}{large}"
    given = "".join(f"of->{it}, " for it in kept)
    fields = "".join(f", .{it} = {it}" for it in kept)
    return (f"static int {begin}(const struct repeated *of, MPI_Comm comm, MPI_Request *request) {{\n" + ("    (void)of;\n" if not kept else "") +
            f"    return MPI_{without_blocking(begun)}{large}({given}comm, request);\n}}\n\n" + call.declared(" {\n") +
            "    ENTER_LOOK(um_comm_at(comm), MPI_UNDEFINED, MPI_UNDEFINED);\n"
            f"    return um_init_repeated(&(struct repeated){{.begin = {begin}{fields}}}, comm, info, request);\n}}\n\n")


def made():
    """The declarations and the code."""
    known, declared, code = calls(), [], []

    def add_large(small):
        call = small.large()
        declared.append(call.declared(";\n"))
        code.append(large_body(call, small))

    for name in MESSAGES:
        add_large(known[name])
    for name in COLLECTIVES:
        forms = [("", known[name].persistent())]
        if name != "Barrier":
            add_large(known[name])
            add_large(known[without_blocking(name)])
            large = known[name].large().persistent()
            forms.append(("_c", Call(f"{name}_init_c", large.parameters)))
        for large, call in forms:
            declared.append(call.declared(";\n"))
            code.append(persistent_body(call, name, large))
    return "".join(declared), "".join(code)


def main(folder):
    declared, code = made()
    (folder / "include").mkdir(parents=True, exist_ok=True)
    (folder / "include/ulfm_mpi_made.h").write_text(f"{HEADER}{declared}\n#endif\n")
    (folder / "made.c").write_text(f'/* Written by c/calls.py, of the calls that these repeat. */\n#include "collective/collective.h"\n#include "collective/repeated.h"\n#include "mpi/graph.h"\n#include "mpi/large.h"\n\n{code}')


main(pathlib.Path(sys.argv[1]))
