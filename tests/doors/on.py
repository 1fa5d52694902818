#!/usr/bin/env python3
"""Runs a command on a standard input, or a standard error, that a plain shell cannot make; its standard output, standard error and status
are handed on.

on.py terminal LINES COMMAND..   a terminal at which the file LINES is typed, a line at each prompt `> `, then the end of input. What a line is
                                 answered must stand on standard output before the next prompt; else the status is 99.
on.py screen COMMAND..           a terminal at which nothing is typed.
on.py watched COMMAND..          standard error is a terminal, standard input the caller's.
on.py socket FILE COMMAND..      a socket that gives the file's bytes and ends.
on.py broken FILE N COMMAND..    an input that gives the file's first N bytes, and then a read that fails.
"""
import os
import pty
import select
import socket
import subprocess
import sys
import termios
import tty

WAIT = 60


def finish(process, out=b"", err=b""):
    rest = process.communicate(timeout=WAIT)
    sys.stdout.buffer.write(out + rest[0])
    sys.stderr.buffer.write(err + rest[1])
    sys.exit(process.returncode)


def start(stdin, command):
    return subprocess.Popen(command, stdin=stdin, stdout=subprocess.PIPE, stderr=subprocess.PIPE)


def quiet(fd):
    """A terminal that does not echo what is typed."""
    modes = termios.tcgetattr(fd)
    modes[3] &= ~termios.ECHO
    termios.tcsetattr(fd, termios.TCSANOW, modes)


def terminal(path, *command):
    master, slave = pty.openpty()
    quiet(slave)
    process = start(slave, command)
    os.close(slave)
    out = err = b""

    def until_prompt():
        """Reads both outputs until a further prompt stands on standard error."""
        nonlocal out, err
        streams = {process.stdout: "out", process.stderr: "err"}
        while not err.endswith(b"> "):
            ready = select.select(list(streams), [], [], WAIT)[0]
            if not ready:
                process.kill()
                sys.exit(99)
            for stream in ready:
                data = os.read(stream.fileno(), 65536)
                if not data:
                    finish(process, out, err)
                if streams[stream] == "out":
                    out += data
                else:
                    err += data

    for line in open(path, "rb"):
        before = len(out)
        until_prompt()
        os.write(master, line)
        err += b"."  # what was typed, so that the next prompt is a further one
        until_prompt()
        while select.select([process.stdout], [], [], 0)[0]:
            out += os.read(process.stdout.fileno(), 65536)
        if len(out) == before:
            process.kill()
            sys.exit(99)
    os.write(master, b"\4")
    finish(process, out, err)


def screen(*command):
    master, slave = pty.openpty()
    process = start(slave, command)
    os.close(slave)
    finish(process)


def watched(*command):
    master, slave = pty.openpty()
    tty.setraw(slave)
    process = subprocess.Popen(command, stdout=subprocess.PIPE, stderr=slave)
    os.close(slave)
    err = b""
    try:
        while data := os.read(master, 65536):
            err += data
    except OSError:  # EIO: nobody has the terminal open any more
        pass
    out = process.communicate(timeout=WAIT)[0]
    sys.stdout.buffer.write(out)
    sys.stderr.buffer.write(err)
    sys.exit(process.returncode)


def socketed(path, *command):
    ours, theirs = socket.socketpair()
    ours.sendall(open(path, "rb").read())
    ours.shutdown(socket.SHUT_WR)
    finish(start(theirs, command))


def broken(path, n, *command):
    """A terminal's other side: once nobody has the terminal open any more, reading there fails (EIO)."""
    master, slave = pty.openpty()
    tty.setraw(slave)
    os.write(slave, open(path, "rb").read()[: int(n)])
    os.close(slave)
    finish(start(master, command))


{"terminal": terminal, "screen": screen, "watched": watched, "socket": socketed, "broken": broken}[sys.argv[1]](*sys.argv[2:])
