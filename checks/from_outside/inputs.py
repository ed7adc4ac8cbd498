"""Inputs that nothing reads, that fail, that give few bytes at a time."""

import os
import pty
import socket
import termios
import tty

from .runs import ANSWERS, FILE, READ_FAULT, WRITTEN, opened, said


def no_input(runs, tally):
    """An input that is a folder, closed or for writing only, and one that fails after k bytes, of a file or a terminal."""
    wanted = (READ_FAULT[0], b"", READ_FAULT[1])
    readers = [(word, "stdin") for word in ANSWERS] + [("list", "complement(gunion(complete(2),stdin,0,0),0,0,0)")]
    for words in readers:
        with opened(runs.folder, os.O_RDONLY) as folder:
            tally.same((*words, "of a folder"), said(runs.run(words, folder)), wanted)
        tally.same((*words, "with standard input closed"), said(runs.run(words, shell='exec "$@" <&-')), wanted)
        with opened("/dev/null", os.O_WRONLY) as file:
            tally.same((*words, "with standard input for writing"), said(runs.run(words, file)), wanted)
        for size in range(len(FILE) + 1):
            got = runs.run(words, FILE, orders={"readable": size})
            tally.same((*words, "with an input that fails after", str(size)), said(got), wanted)
    # the other end of a terminal: what was written there comes first, then it fails, since nobody has it open
    for size in (0, 1, 52, 100, len(FILE)):
        master, slave = pty.openpty()
        tty.setraw(slave, termios.TCSANOW)
        os.write(slave, FILE[:size])
        os.close(slave)
        got = runs.run(("list", "stdin"), master)
        os.close(master)
        tally.same(f"a terminal that fails after {size}", said(got), wanted)


def short_input(runs, tally):
    """An input that gives few bytes at a time: a file, and a pipe and a socket that give each byte by itself."""
    for word, answer in ANSWERS.items():
        words = (word, "stdin")
        for step in (1, 2, 3, 7, 50, 159, 160):
            got = runs.run(words, FILE, orders={"step": step})
            tally.same((*words, "of a file, so many bytes at a time:", str(step)), said(got), (0, answer, b""))
        read, write = packets()
        tally.same((*words, "of a pipe, byte by byte"), said(fed(runs, words, read, write)), (0, answer, b""))
        ours, theirs = (end.detach() for end in socket.socketpair(socket.AF_UNIX, socket.SOCK_SEQPACKET))
        tally.same((*words, "of a socket, byte by byte"), said(fed(runs, words, theirs, ours)), (0, answer, b""))


def packets():
    """A pipe that gives each write by itself, where there is such a thing."""
    try:
        return os.pipe2(os.O_DIRECT)
    except OSError:
        return os.pipe()


def fed(runs, words, read, write):
    """A run that gets the file byte by byte."""

    def bytes_of_it():
        os.close(read)
        try:
            for place in range(len(FILE)):
                os.write(write, FILE[place:place + 1])
        except OSError:
            pass  # nobody reads on; the answer tells
        os.close(write)

    return runs.run(words, read, fed=bytes_of_it)


def unread(runs, tally):
    """Standard input stays as it was where the words do not ask for it, and a failing one changes nothing."""
    for words in [*WRITTEN, ("list", "board(3,"), ("names", "stdin", "--skip", "x"), ("names", "board(2,-251,0,0,1,0,0)")]:
        usual = said(runs.run(words))
        with opened(runs.file(FILE), os.O_RDONLY) as file:
            got = runs.run(words, file)
            tally.same((*words, "beside a file"), (said(got), os.lseek(file, 0, os.SEEK_CUR)), (usual, 0))
        tally.same((*words, "with standard input closed"), said(runs.run(words, shell='exec "$@" <&-')), usual)
        with opened(runs.folder, os.O_RDONLY) as folder:
            tally.same((*words, "beside a folder"), said(runs.run(words, folder)), usual)


def all_checks():
    yield "input left alone", unread
    yield "input failing", no_input
    yield "input short", short_input
