#!/usr/bin/env python3
"""Makes the scripts that are not written by hand (paper, stars, local, sessions, limits, logs, faults, editions, random-..), and from model.py
the .answers of every script here but those of w6-..: they were made elsewhere, and model.py gives the same. The scripts w1-.., w2-.., w4-..
and w5-.. were made elsewhere too, before edition 4: the names that they put into the image by hand have its multiplier now. Those of w1-..,
w2-.. and w4-.. were made before a refused recovery had its byte, and those of w1-.. and w2-.. for an image without handles: their images have
W4's 32 words more. So their digests, those bytes and the heading that `log` shows are the model's, and one recovery meets a later heading of
edition 4 (w2-calls-05: 5, which was 4); every other answer is as it came.

scripts.py            makes them all anew
scripts.py SEED       writes one random script, for trying more than are stored
"""
import random
import sys
from pathlib import Path

import model

HEAP = "image 125 | buffer 400 | format 2 4 @ | new 0 0 10 | new 1 0 20 | new 0 1 30 | set 0 0 0 1 0 | set 1 0 0 0 1 | root 0 0 0 | commit @"
PHASE = "open @ | trace 1 @ | trace 0 @ | trace 1 @ | trace 0 @ | close @ | show"

# Logs as they are, with what is to be seen.
LOGS = [
    ("no line at all: 3, line 1", ""),
    ("no complete line", "heap\t1\t2\t4"),
    ("no heading", "open\n"),
    ("a heading of another edition: 1 to 4 there are", "heap\t5\t2\t4\n"),
    ("", "heap\t0\t2\t4\n"),
    ("", "heap\t2\t2\t4\n"),
    ("", "heap\t3\t2\t4\n"),
    ("", "heap\t4\t2\t4\n"),
    ("a heading with spaces, a leading zero, a line too long", "heap 1 2 4\n"),
    ("", "heap\t1\t02\t4\n"),
    ("", "heap\t1\t2\t44444444444444444\n"),
    ("2: P or S out of range, or the length wrong, before line 2 is looked at", "heap\t1\t0\t4\nbad\n"),
    ("", "heap\t1\t17\t4\nbad\n"),
    ("", "heap\t4\t2\t129\nbad\n"),
    ("", "heap\t1\t2\t5\n"),
    ("edition 1: an empty heap, and a tail of 20 bytes; 21 are 4, at the line after", "heap\t1\t2\t4\nnew\t15\t63\t4294967295"),
    ("", "heap\t1\t2\t4\nnew\t15\t127\t4294967295"),
    ("a tail of 21 bytes behind a dropped transaction", "heap\t1\t2\t4\nnew\t0\t0\t1\nnew\t15\t127\t4294967295"),
    ("a tail that begins no line is 4, whatever its length: text, a byte too many, no number, a heading", "heap\t1\t2\t4\n" + "x" * 20),
    ("", "heap\t2\t2\t4\nx"),
    ("", "heap\t2\t2\t4\nopen\t"),
    ("", "heap\t2\t2\t4\nclosed"),
    ("", "heap\t2\t2\t4\nset\t0\t0\t01"),
    ("", "heap\t2\t2\t4\nend\t4294967296"),
    ("", "heap\t2\t2\t4\nlocal\t0\r"),
    ("", "heap\t1\t2\t4\nhe"),
    ("", "heap\t2\t2\t4\nheap\t2\t2\t4"),
    ("", "heap\t3\t2\t4\nhold\t\t"),
    ("", "heap\t3\t2\t4\ndrop\t0\t"),
    ("and, in edition 2 or 3, one that no line of 20 bytes begins; a digit less, and one does", "heap\t2\t2\t4\nnew\t4294967295\t4294"),
    ("", "heap\t2\t2\t4\nnew\t4294967295\t429"),
    ("", "heap\t2\t2\t4\nset\t429496729\t"),
    ("", "heap\t2\t2\t4\nset\t42949672\t"),
    ("", "heap\t3\t2\t4\nhold\t4294967295\t429"),
    ("", "heap\t3\t2\t4\nhold\t4294967295\t42"),
    ("by its shape alone: a whole line without its end, a slot that does not exist, an end of nothing, a phase in a transaction", "heap\t1\t2\t4\nclose"),
    ("", "heap\t1\t2\t4\nval\t99\t99\t1"),
    ("", "heap\t1\t2\t4\nend\t9"),
    ("", "heap\t2\t2\t4\nnew\t0\t0\t1\nope"),
    ("", "heap\t2\t2\t4\n" + "unroot\t0\n" * 32 + "unroot\t0"),
    ("with no complete line it stays 3", "new\t0"),
    ("4: an empty line, another keyword, a number too large, a field too many", "heap\t1\t2\t4\n\n"),
    ("", "heap\t1\t2\t4\nnew\t0\t0\t1\nold\t0\t0\n"),
    ("", "heap\t1\t2\t4\nval\t0\t0\t4294967296\n"),
    ("", "heap\t1\t2\t4\nopen\t\n"),
    ("edition 1: a body of 20 bytes has a shape (7 here), and a longer one none", "heap\t1\t2\t4\nnew\t15\t63\t4294967295\nend\t1\n"),
    ("", "heap\t1\t2\t4\nset\t100\t1000\t3\t1000\t1\nend\t1\n"),
    ("5: a heading again, a collector line within a transaction, an end with no operation", "heap\t1\t2\t4\nheap\t1\t2\t4\n"),
    ("", "heap\t1\t2\t4\nheap\t1\t99\t0\n"),
    ("a heading of any edition that there is: 5; of no other: 4", "heap\t1\t2\t4\nheap\t2\t2\t4\n"),
    ("", "heap\t2\t2\t4\nheap\t1\t2\t4\n"),
    ("", "heap\t1\t2\t4\nheap\t3\t2\t4\n"),
    ("", "heap\t3\t2\t4\nheap\t4\t2\t4\n"),
    ("", "heap\t4\t2\t4\nheap\t4\t2\t4\n"),
    ("", "heap\t4\t2\t4\nheap\t5\t2\t4\n"),
    ("", "heap\t2\t2\t4\nheap\t12\t2\t4\n"),
    ("", "heap\t1\t2\t4\nnew\t0\t0\t1\nopen\n"),
    ("", "heap\t1\t2\t4\nend\t0\n"),
    ("6: n wrong, before what its operations are refused with", "heap\t1\t2\t4\nnew\t9\t9\t1\nend\t2\n"),
    ("7, 8, 9 at the operation's own line, judged at the end", "heap\t1\t2\t4\nnew\t0\t0\t1\nnew\t0\t4\t1\nend\t2\n"),
    ("", "heap\t1\t2\t4\nnew\t0\t0\t1\nnew\t0\t0\t1\nend\t2\n"),
    ("", "heap\t1\t2\t4\nnew\t0\t0\t1\nval\t0\t1\t1\nend\t2\n"),
    ("operations of a dropped transaction get none", "heap\t1\t2\t4\nnew\t0\t4\t1\nval\t0\t1\t1\n"),
    ("a 33rd operation: 6 at its own line", "heap\t1\t2\t4\n" + "unroot\t0\n" * 33),
    ("32, and no end", "heap\t1\t2\t4\n" + "unroot\t0\n" * 32),
    ("32, and their end", "heap\t1\t2\t4\n" + "unroot\t0\n" * 32 + "end\t32\n"),
    ("a shapeless 33rd line: 4", "heap\t1\t2\t4\n" + "unroot\t0\n" * 32 + "unroot\n"),
    ("collector lines: 12, 10, 11, 13, 14, each with its line", "heap\t1\t2\t4\nopen\n"),
    ("", "heap\t1\t2\t4\nclose\n"),
    ("", "heap\t1\t2\t4\nnew\t0\t0\t1\nroot\t0\t0\t0\nend\t2\nopen\nopen\n"),
    ("", "heap\t1\t2\t4\nnew\t0\t0\t1\nroot\t0\t0\t0\nend\t2\nopen\ntrace\t0\ntrace\t0\n"),
    ("", "heap\t1\t2\t4\nnew\t0\t0\t1\nroot\t0\t0\t0\nend\t2\nopen\ntrace\t0\nclose\n"),
    ("trace 2: 7", "heap\t1\t2\t4\nnew\t0\t0\t1\nroot\t0\t0\t0\nend\t2\nopen\ntrace\t2\n"),
    ("local lines, under a heading of any edition: 12, 7, 5, no shape", "heap\t1\t2\t4\nlocal\t0\n"),
    ("", "heap\t2\t2\t4\nlocal\t2\n"),
    ("", "heap\t2\t2\t4\nnew\t0\t0\t1\nlocal\t0\n"),
    ("", "heap\t2\t2\t4\nlocal\n"),
    ("", "heap\t2\t2\t4\nlocal\t0\t0\n"),
    ("and accepted; a tail that begins one", "heap\t1\t2\t4\nnew\t0\t0\t1\nnew\t0\t1\t2\nroot\t0\t0\t0\nend\t3\nlocal\t1\nlocal\t0\nlocal"),
    ("", "heap\t2\t2\t4\nnew\t0\t0\t1\nnew\t0\t1\t2\nroot\t0\t0\t0\nend\t3\nopen\nlocal\t0\ntrace\t0\nloc"),
    ("hold lines, under a heading of any edition: 9, 7 for the handle, partition and slot, 5, no shape", "heap\t1\t2\t4\nhold\t0\t0\t0\n"),
    ("", "heap\t2\t2\t4\nhold\t32\t0\t0\n"),
    ("", "heap\t3\t2\t4\nhold\t0\t2\t0\n"),
    ("", "heap\t3\t2\t4\nhold\t31\t0\t4\n"),
    ("", "heap\t3\t2\t4\nnew\t0\t0\t1\nhold\t0\t0\t0\nend\t1\n"),
    ("", "heap\t3\t2\t4\nhold\t0\t0\n"),
    ("", "heap\t3\t2\t4\nhold\t0\t0\t0\t0\n"),
    ("", "heap\t3\t2\t4\nholds\t0\t0\t0\n"),
    ("drop lines: 7, 5, no shape; of an empty handle it is accepted", "heap\t1\t2\t4\ndrop\t32\n"),
    ("", "heap\t3\t2\t4\nnew\t0\t0\t1\ndrop\t0\nend\t1\n"),
    ("", "heap\t3\t2\t4\ndrop\n"),
    ("", "heap\t3\t2\t4\ndrop\t0\t0\n"),
    ("", "heap\t3\t2\t4\ndrop\t00\n"),
    ("", "heap\t2\t2\t4\ndrop\t31\n"),
    ("and accepted, the largest handle and the object kept; tails that begin one", "heap\t1\t2\t4\nnew\t0\t0\t1\nnew\t0\t1\t2\nroot\t0\t0\t0\nend\t3\nhold\t31\t0\t1\nlocal\t0\nh"),
    ("", "heap\t3\t2\t4\nnew\t0\t0\t1\nnew\t0\t1\t2\nroot\t0\t0\t0\nend\t3\nhold\t0\t0\t1\ndrop\t0\nlocal\t0\nd"),
    ("", "heap\t3\t2\t4\nhold\t4294967295\t0\t9"),
    ("", "heap\t3\t2\t4\nnew\t0\t0\t1\nend\t1\nhold\t7\t0\t0\nnew\t0\t1\t1\ndrop\t4294967295"),
    ("an open phase", "heap\t1\t2\t4\nnew\t0\t0\t1\nroot\t0\t0\t0\nend\t2\nopen\ntrace\t0\nnew\t1\t1\t5\nend\t1\ntra"),
]

# Lines whose byte is asked for, with what is to be seen: logs as they are, later lines, and tails.
FIRST = [
    ("3, only headings: no byte at all, an empty line, too short, unended, the beginning of none", ""),
    ("", "\n"),
    ("", "heap\n"),
    ("", "heap\t3\t2\n"),
    ("", "heap\t3\t2\t4"),
    ("", "hea"),
    ("", "hold\t0\t0\t0\n"),
    ("", "new\t0"),
    ("no edition, two digits of one, a leading zero, spaces, CRLF, a mark before the first letter", "heap\t5\t2\t4\n"),
    ("", "heap\t0"),
    ("", "heap\t12\t2\t4\n"),
    ("", "heap\t3\t02\t4\n"),
    ("", "heap 3 2 4\n"),
    ("", "heap\t3\t2\t4\r\n"),
    ("", "\ufeffheap\t3\t2\t4\n"),
    ("a number too large, a line too long, and one that fits and has a number more", "heap\t3\t4294967296\t4\n"),
    ("", "heap\t3\t4294967295\t123\n"),
    ("", "heap\t3\t2\t4\t\n"),
    ("the later lines are not looked at, nor is the first where it is a heading: 2", "heap\nxyz\n"),
    ("", "heap\t3\t0\t4\nxyz\n"),
]
LATER = [
    ("4, all lines, headings too: an empty line, too short, a byte too many", ""),
    ("", "he"),
    ("", "heap\t2\t2"),
    ("", "unro"),
    ("", "set\t0\t0\t0\t0"),
    ("", "set\t0\t0\t0\t0\t"),
    ("", "open "),
    ("", "close\r"),
    ("", "drop\t0\t"),
    ("another keyword, from the first letter on that none has there", "hoold\t0\t0\t0"),
    ("", "heap\t5\t2\t4"),
    ("", "New\t0\t0\t1"),
    ("", "locale\t0"),
    ("", "\0\0\0\0"),
    ("", "val\t0\t0\t\u00e9"),
    ("numbers: a leading zero, a sign, a tab for a digit, one too large by its last digit, or by one digit more", "end\t01"),
    ("", "end\t00000000000000000000"),
    ("", "trace\t-1"),
    ("", "new\t\t0\t1"),
    ("", "end\t4294967296"),
    ("", "end\t4294967300"),
    ("", "end\t42949672950"),
    ("", "end\t9999999999"),
    ("over 20 bytes, edition 3: the byte is where no line within 20 goes on so, the digit that leaves no room for the numbers to come", "set\t0\t0\t0\t4294967295\t0"),
    ("", "set\t4294967295\t0\t0\t0\t0"),
    ("", "new\t4294967295\t4294967295\t0"),
    ("", "hold\t4294967295\t42\t42"),
    ("", "new\t15\t127\t4294967295"),
    ("", "x" * 300),
    ("", "end\t1" + " " * 300),
]
TAILS = [
    ("4 in the tail, all lines but headings: the second letter of a heading is no line's there, and its first is", "he"),
    ("", "heap\t3\t2\t4"),
    ("", "h"),
    ("", "x"),
    ("", "open\t"),
    ("", "opens"),
    ("", "end\t01"),
    ("", "end\t4294967296"),
    ("", "new\t4294967295\t4294"),
    ("", "hold\t4294967295\t429"),
    ("", "unroot\t0 and more than twenty bytes"),
    ("", "local\t0\r"),
]
# Bodies of 20, 21 and 22 bytes, and longer ones that no line within 20 or within 21 goes on with.
LONG = [
    "new\t15\t63\t4294967295",
    "new\t15\t127\t4294967295",
    "new\t15\t1270\t4294967295",
    "heap\t1\t4294967295\t12",
    "heap\t1\t4294967295\t123",
    "heap\t4\t4294967295\t123",
    "heap\t4\t4294967295\t1234",
    "set\t0\t0\t0\t429496729\t",
    "set\t0\t0\t0\t4294967295\t0",
    "hold\t4294967295\t4294967295\t0",
]
# Whole logs refused with another number: the byte is 0.
ELSE = [
    "heap\t3\t2\t4\nend\t1\n",
    "heap\t3\t2\t4\nunroot\t0\nend\t2\nxyz",
    "heap\t3\t2\t4\nunroot\t16\nend\t1\nxyz",
    "heap\t3\t2\t4\nnew\t0\t0\t1\nnew\t0\t0\t1\nend\t2\n",
    "heap\t3\t2\t4\nhold\t0\t0\t0\n",
    "heap\t3\t2\t4\nclose\n",
    "heap\t3\t2\t4\nopen\n",
]


def acted(text):
    """The lines of a text, with the log's end as it then is for each @."""
    shell, end, lines = model.Shell(), 0, []
    for line in text.split(" | "):
        if line.startswith("buffer"):
            end = 0
        answer = shell.line(line.replace("@", str(end)).encode()).decode().split()
        lines.append(line.replace("@", str(end)))
        end += int(answer[1]) if answer[:1] == ["done"] else 0
    return lines


def given(log):
    """The lines that put a log into the buffer and recover it."""
    return ["bytes 0 " + " ".join(map(str, log.encode()))] * bool(log) + ["recover %d" % len(log.encode())]


def paper():
    """The paper's example acted out, then recovered at every byte of its log."""
    lines = ["# The paper's example, acted out: the records stand one after the other, and the log has 132 bytes.", *acted(HEAP + " | " + PHASE)]
    lines += ["digest", "log 132", "# Its log, cut at every byte, recovered into the words that the recovery before left."]
    for cut in range(133):
        lines += ["recover %d" % cut, "digest"]
        lines += ["show"] if cut in (10, 11, 88, 89, 94, 132) else []
    return lines


def stars():
    """The paper's numbers with a star, acted out."""
    alone = "image 125 | buffer 400 | format 2 4 @ | new 0 0 1 | new 1 0 2 | root 0 0 0 | commit @"
    return [
        "# Object (1,0) begins at word 97, and its name is 129 (word 71 of all words, as an image that is not sound is shown): allowance 4, count 4, none freed.",
        *acted(HEAP + " | word 2 2 | show | word 2 0 | open @ | word 97 2 | word 97 1 | read 0 0 | show | trace 1 @ | trace 0 @ | trace 1 @ | trace 0 @ | close @"),
        "# With an unreferenced (1,1): allowance 5, 1 freed.",
        *acted(HEAP + " | new 1 1 40 | commit @ | open @ | show | trace 1 @ | trace 0 @ | trace 1 @ | trace 0 @ | close @ | show"),
        "# With, instead, a cycle that no root reaches: 2 freed.",
        *acted(HEAP + " | new 0 2 1 | new 1 2 2 | set 0 2 0 1 2 | set 1 2 3 0 2 | commit @ | ask 0 2 | ask 1 0 | " + PHASE),
        "# A store in a phase marks its target, and its partition is not clean: close answers 14 and 1, then count 3, none freed.",
        *acted(alone + " | open @ | trace 0 @ | trace 1 @ | set 0 0 0 1 0 | commit @ | show | close @ | trace 1 @ | close @ | show"),
        "# Two roots on one object, no other: the allowance is P.",
        *acted("image 125 | buffer 400 | format 2 4 @ | new 1 3 9 | root 2 1 3 | root 9 1 3 | commit @ | open @ | show"),
        "# The last root taken away in a phase: close 12.",
        *acted(alone + " | open @ | trace 0 @ | trace 1 @ | unroot 0 | commit @ | close @"),
        "# Open on an empty heap: 12. Trace twice running: 13.",
        *acted("image 125 | buffer 400 | format 2 4 @ | open @ | new 0 0 1 | root 0 0 0 | commit @ | open @ | trace 0 @ | trace 0 @"),
        "# In a phase an object is born marked; a store marks even where the field held its target; birth, clr, val and unroot change no flag.",
        *acted(alone + " | root 1 1 0 | commit @ | open @ | trace 0 @ | trace 1 @ | new 0 3 3 | val 1 0 7 | clr 0 0 1 | unroot 1 | commit @ | show | set 0 0 0 0 0 | root 4 0 3 | commit @ | close @ | show"),
        "# A trace stays within its partition, and then marks what lies just outside it, no further.",
        *acted(HEAP + " | new 0 2 1 | new 0 3 1 | set 0 0 1 0 2 | set 0 2 0 0 3 | set 0 3 0 0 0 | commit @ | open @ | trace 0 @ | show | trace 1 @ | show"),
        "# Local frees a cycle inside its partition, 2 objects, and keeps (1,2), which only (0,1) names, garbage though that is.",
        *acted(alone + " | new 1 1 3 | set 1 0 0 1 1 | set 1 1 0 1 0 | new 0 1 4 | new 1 2 5 | set 0 1 3 1 2 | commit @ | ask 1 2 | local 1 @ | read 1 2 | show"),
    ]


def local():
    """One partition freed on its own, and the outlists."""
    rooted = HEAP + " | new 0 2 1 | new 0 3 2 | new 1 1 3 | new 1 2 4 | new 1 3 5"
    return [
        "# What a root, a counted name or a chain inside the partition from either of these leads to stays; roots count nothing.",
        *acted(rooted + " | set 0 2 0 1 1 | set 1 1 2 1 2 | root 4 1 3 | commit @ | outlist 0 | outlist 1 | local 1 @ | show | unroot 4 | commit @ | local 1 @ | show"),
        "# The next local frees what an object that the one before freed had named.",
        *acted(rooted + " | set 0 2 0 1 1 | set 1 1 2 1 2 | set 1 2 1 0 3 | commit @ | show | local 1 @ | local 0 @ | show | local 1 @ | show | local 0 @ | show | digest"),
        "# A cycle over two partitions stays; a phase frees it, and the counts with it.",
        *acted(HEAP + " | new 0 2 1 | new 1 2 2 | set 0 2 0 1 2 | set 1 2 3 0 2 | set 1 2 0 1 0 | commit @ | local 0 @ | local 1 @ | show | open @ | trace 0 @ | trace 1 @ | trace 0 @ | trace 1 @ | close @ | show"),
        "# Two fields count two, and the outlist has the name once; a field that is set again, to the same and to another; one that is cleared.",
        *acted(HEAP + " | set 0 0 1 1 0 | set 0 0 3 1 0 | commit @ | show | outlist 0 | set 0 0 1 1 0 | set 0 0 3 0 1 | commit @ | show | clr 0 0 0 | clr 0 0 0 | commit @ | show | outlist 0 | clr 0 0 1 | commit @ | show | outlist 0"),
        "# The outlist has the names in order, of objects that nothing leads to as well.",
        *acted(rooted + " | set 0 3 0 1 3 | set 0 2 1 1 1 | set 0 2 0 1 2 | set 0 0 2 1 3 | set 0 3 2 0 3 | commit @ | outlist 0 | outlist 1 | local 0 @ | outlist 0 | show"),
        "# In a phase: what is freed may be marked; what stays keeps its mark, and flags, traces and allowance stay.",
        *acted(rooted + " | set 1 0 2 1 1 | root 7 0 2 | commit @ | open @ | trace 1 @ | trace 0 @ | unroot 7 | clr 1 0 2 | commit @ | show | local 0 @ | local 1 @ | show | new 1 1 8 | commit @ | close @ | trace 1 @ | trace 0 @ | close @ | show"),
        "# Its log, recovered, gives every word again.",
        "digest",
        "recover 270",
        "digest",
        "log 270",
        "# No root: 12, after 7.",
        *acted("image 125 | buffer 400 | format 2 4 @ | new 0 0 1 | commit @ | local 2 @ | local 0 @ | outlist 0 | root 0 0 0 | commit @ | local 0 @"),
    ]


def sessions():
    """Handles: what a restore session holds stays."""
    pair = HEAP + " | new 0 2 1 | new 0 3 2 | commit @"
    two = "image 125 | buffer 400 | format 2 4 @ | new 0 0 1 | new 1 0 2 | root 0 0 0 | commit @"
    phase = " | open @ | trace 0 @ | trace 1 @ | trace 0 @ | close @"
    return [
        "# An operator browses the restore point 0.0, and its root expires: 0.0 and all that it leads to stay through close and local.",
        *acted(
            HEAP + " | new 1 3 9 | root 1 1 3 | commit @ | hold 3 0 0 @ | show | unroot 0 | commit @ | ask 0 0 | ask 1 0 | ask 0 1" + phase + " | local 0 @ | local 1 @ | show"
            " | # The drop itself frees nothing; the next close does. | drop 3 @ | ask 0 0 | read 0 0 | show | open @ | trace 0 @ | trace 1 @ | close @ | show"
            " | # Recovery keeps handles as logged: the whole log gives every word again. | digest | recover @ | digest | log @"
            " | # Cut within the drop it leaves the handle in use, and cut within the hold it leaves none. | recover 199 | show | recover 126 | show"
        ),
        "# hold on a handle in use takes another object: local frees the one before; the same again changes nothing and is logged.",
        *acted(pair + " | hold 5 0 2 @ | hold 5 0 2 @ | local 0 @ | show | hold 5 0 1 @ | local 0 @ | show"),
        "# Two handles on one object, one handle let go: it stays. drop of an empty handle is accepted and logged.",
        *acted(pair + " | hold 0 0 2 @ | hold 31 0 2 @ | drop 0 @ | drop 0 @ | drop 7 @ | local 0 @ | show | drop 31 @ | local 0 @ | show"),
        "# A chain inside the partition that begins at a handle; a handle counts nothing, and no outlist has it.",
        *acted(pair + " | set 0 2 1 0 3 | set 0 3 3 1 0 | commit @ | hold 9 0 2 @ | local 0 @ | show | outlist 0 | outlist 1 | ask 0 3 | drop 9 @ | ask 0 3 | local 0 @ | show"),
        "# 7 for the handle, the partition, the slot, before 9; then 9, and 17 last: the records have 11 and 7 bytes. Nothing changes.",
        *acted(HEAP + " | digest | hold 32 0 0 @ | hold 4294967295 0 0 @ | hold 0 2 0 @ | hold 0 0 4 @ | hold 32 0 3 @ | hold 0 0 3 @ | drop 32 @ | drop 4294967295 @"),
        "hold 0 0 4 400",
        "hold 0 0 3 400",
        "drop 32 400",
        "hold 0 0 0 400",
        "hold 0 0 0 390",
        "drop 0 394",
        "drop 0 4294967295",
        "digest",
        "hold 0 0 0 389",
        "drop 31 392",
        "digest",
        "# A handle alone opens, frees and closes nothing: 12 looks at roots. The question starts from handles as well.",
        *acted(HEAP + " | hold 0 0 0 @ | unroot 0 | commit @ | open @ | local 0 @ | local 2 @ | ask 0 1 | root 2 0 1 | commit @ | open @ | trace 0 @ | trace 1 @ | trace 0 @ | unroot 2 | commit @ | close @ | local 1 @ | show | root 2 0 1 | commit @ | close @ | show"),
        "# Open marks what handles name, and the allowance leaves it out: 2 for two partitions, none unmarked; without the handle, 3.",
        *acted(two + " | hold 4 1 0 @ | open @ | show | trace 0 @ | trace 1 @ | close @ | drop 4 @ | open @ | show"),
        "# In a phase hold marks its target, and the target's partition stops being clean: close answers 14 and 1, then count 3, none freed.",
        *acted(two + " | new 1 1 3 | set 1 0 0 1 1 | commit @ | open @ | trace 0 @ | trace 1 @ | hold 7 1 0 @ | show | close @ | trace 1 @ | show | close @ | show"),
        "# On a marked object it changes no flag; nor does drop, which takes no mark away: 1.0 goes with the next phase.",
        *acted(two + " | hold 1 1 0 @ | open @ | trace 0 @ | trace 1 @ | hold 2 0 0 @ | hold 1 1 0 @ | drop 1 @ | drop 2 @ | show | close @ | show" + phase + " | show"),
        "# An object that is made in a phase and held; its root was never there.",
        *acted(HEAP + " | open @ | trace 1 @ | trace 0 @ | new 1 2 5 | set 1 2 0 1 2 | commit @ | hold 30 1 2 @ | trace 1 @ | trace 0 @ | close @ | show" + phase + " | show"),
        "# Refusal 16 counts handles as roots: the mark of what a handle names is taken away by hand, and given back.",
        *acted(two + " | hold 0 1 0 @ | open @ | trace 0 @ | trace 1 @ | word 97 1 | show | close @ | word 97 2 | close @"),
        "# Formatting leaves no handle.",
        *acted(two + " | hold 0 0 0 @ | show | format 2 4 @ | show | hold 0 0 0 @"),
        "# In recovery each is a record of its own: 5 within a transaction; 7 and 9 come with the line, and 12 where a handle is alone.",
        *given("heap\t3\t2\t4\nnew\t0\t0\t1\nhold\t0\t0\t0\nend\t1\n"),
        *given("heap\t3\t2\t4\nnew\t0\t0\t1\ndrop\t0\nend\t1\n"),
        *given("heap\t3\t2\t4\nnew\t0\t0\t1\nend\t1\nhold\t32\t0\t0\n"),
        *given("heap\t3\t2\t4\nnew\t0\t0\t1\nend\t1\nhold\t0\t0\t1\n"),
        *given("heap\t3\t2\t4\nnew\t0\t0\t1\nend\t1\nhold\t0\t0\t0\nopen\n"),
        "# They are good under a heading of any edition, and a log of edition 1 is carried on with them.",
        *given("heap\t1\t2\t4\nnew\t0\t0\t1\nroot\t0\t0\t0\nend\t2\n"),
        "hold 6 0 0 38",
        "unroot 0",
        "new 1 1 2",
        "root 3 1 1",
        "commit 49",
        "local 0 85",
        "show",
        "digest",
        "recover 93",
        "digest",
        "log 93",
    ]


def grouped(operations):
    """The operations in commits of at most 32."""
    lines = list(operations)
    return "".join(" | " + " | ".join([*lines[i : i + 32], "commit 2000"]) for i in range(0, len(lines), 32))


def limits():
    """The largest of everything: 14,405 words, 65,536 bytes, 32 operations, 32 handles, the largest numbers."""
    text = "image 14405 | buffer 65536 | format 16 128 65523 | format 17 128 0 | format 16 129 0 | format 16 128 65522 | digest | format 16 128 0"
    text += " | new 15 127 4294967295 | new 0 0 0 | set 15 127 3 15 127 | root 15 15 127 | commit 14 | read 15 127 | ask 15 127 | ask 0 0 | log 87"
    text += "".join(" | new 1 %d %d" % (i, i) for i in range(32)) + " | commit 87"
    text += "".join(" | new 2 %d %d" % (i, i) for i in range(33)) + " | commit 600 | commit 600"
    text += "".join(" | val 0 0 %d" % i for i in range(70)) + " | commit 600 | read 2 0 | read 0 0 | read 1 31"
    # a chain down through all partitions: traced from the lowest up, each turn gets one further
    text += "".join(" | new %d 127 0" % p for p in range(15)) + "".join(" | set %d 127 0 %d 127" % (p + 1, p) for p in range(15)) + " | commit 600 | ask 0 127 | open 1000"
    turn = "".join(" | trace %d 1010" % p for p in range(16))
    text += turn * 3 + " | close 2000" + turn * 13 + " | close 2000 | show | digest"
    # an object that 128 of one partition name four times each, and the longest outlist
    text += " | new 0 1 0 | commit 2000"
    fields = [(s, k, 4 + s // 32, 4 * (s % 32) + k) for s in range(128) for k in range(4)]
    text += grouped("new 3 %d 0" % s for s in range(127)) + grouped("set 3 %d %d 0 1" % (s, k) for s, k, _, _ in fields)
    text += " | outlist 3 | show | local 0 1000" + grouped("new %d %d 0" % (q, t) for _, _, q, t in fields if t != 127)
    text += grouped("set 3 %d %d %d %d" % f for f in fields) + " | outlist 3 | outlist 7 | digest"
    text += " | local 4 1000 | local 3 1000 | local 4 1000 | digest"
    # every handle, two on one object of each partition; twenty let go, so that four objects have none any more
    text += grouped("new %d 40 0" % p for p in range(16) if p not in (5, 6, 7))
    text += "".join(" | hold %d %d 40 1000" % (h, h % 16) for h in range(32)) + " | hold 32 0 40 1000 | show | digest"
    text += "".join(" | local %d 1000" % p for p in range(16)) + "".join(" | drop %d 1000" % h for h in range(20)) + " | drop 32 1000 | show"
    text += "".join(" | local %d 1000" % p for p in range(16)) + " | hold 31 15 127 65522 | hold 31 15 127 65521 | hold 4294967295 4294967295 4294967295 0 | digest"
    return text.split(" | ")


def logs():
    """Logs that were never written by a call."""
    lines = ["# Recovery of any bytes, into any words of the right length; refused, it leaves zeros. Each log stands before its recovery.", "image 125", "word 0 9", "word 124 9", "buffer 500"]
    for remark, log in LOGS:
        lines += ["# " + remark] if remark else []
        lines += [*given(log), "digest"]
    return lines + ["show", "# a wrong length is 2 before line 2, and zeros too", "image 124", "word 123 5", "recover 30", "digest", "image 0", "recover 30", "recover 0", "digest"]


def faults():
    """Where in the line a recovery finds the fault."""
    lines = ["# The byte of a refused recovery: NUMBER LINE BYTE. Each log stands before its recovery.", "image 125", "buffer 500"]
    front = "heap\t3\t2\t4\nunroot\t0\nend\t1\n"
    for before, after, cases in (("", "", FIRST), (front, "\n", LATER), (front, "", TAILS)):
        for remark, body in cases:
            lines += ["# " + remark] if remark else []
            lines += given(before + body + after)
    lines += ["# the line behind a dropped transaction, and one behind another that has no shape", *given(front + "unroot\t0\nunroot\n"), *given(front + "end\t1x\nxyz\n")]
    lines += ["# 5, 6, 7, 8, 9, 10 and 12: 0, whatever stands behind"]
    return lines + [line for log in ELSE for line in given(log)] + ["digest"]


def editions():
    """What an edition decides: the most slots of a partition, the most bytes of a line and of a tail; a heading's own bytes by what it announces."""
    lines = ["# What the heading's edition decides, and nothing else does. Each log stands before its recovery.", "buffer 200"]
    for edition, (slots, limit) in model.EDITIONS.items():
        lines += ["# Edition %d: S is 1 to %d, into an image of that size." % (edition, slots)]
        for s in (1, 64, 65, 128, 129):
            lines += ["image %d" % model.size_of(1, s), *given("heap\t%d\t1\t%d\n" % (edition, s))]
        lines += ["# Its last slot, and the one behind it: 7.", "image %d" % model.size_of(1, slots)]
        for s in (slots - 1, slots):
            lines += given("heap\t%d\t1\t%d\nnew\t0\t%d\t1\nend\t1\n" % (edition, slots, s))
        lines += ["# A line and a tail have at most %d bytes, 4 beyond; a later heading within them is 5, whichever it announces." % limit, "image 125"]
        for body in LONG:
            lines += [*given("heap\t%d\t2\t4\n%s\n" % (edition, body)), *given("heap\t%d\t2\t4\n%s" % (edition, body))]
        lines += ["# So has its heading: 2 here, 3 beyond."]
        for last in (12, 123, 1234):
            lines += [*given("heap\t%d\t4294967295\t%d\n" % (edition, last)), *given("heap\t%d\t4294967295\t%d" % (edition, last))]
    lines += ["# The longest line that calls write has 21 bytes; its log at every cut.", "image 14405", "format 16 128 0", "new 15 127 4294967295", "commit 14"]
    lines += ["recover %d" % cut for cut in range(14, 43)] + ["read 15 127", "log 42"]
    lines += ["# A log of an older edition is carried on within it: its slots end at 63, so that no line has over 20 bytes."]
    lines += ["image %d" % model.size_of(16, 64), *given("heap\t3\t16\t64\n"), "new 15 64 4294967295", "commit 13", "new 15 63 4294967295", "root 15 15 63", "commit 13"]
    return lines + ["recover 54", "read 15 63", "log 54", "digest"]


class Writer:
    """A random script, led by the model: mostly what is accepted, with all kinds of mistakes among it."""

    def __init__(self, seed):
        self.r = random.Random(seed)
        self.shell, self.lines, self.end = model.Shell(), [], 0

    def say(self, line):
        self.lines.append(line)
        return self.shell.line(line.encode()).decode("latin-1").split()

    def logged(self, line):
        """A call that writes: mostly at the log's end, so that the buffer holds a true log."""
        at = self.end if self.r.random() < 0.93 else self.r.choice([0, len(self.shell.log), len(self.shell.log) - 3, self.r.randrange(70000), model.MOST])
        answer = self.say("%s %d" % (line, max(at, 0)))
        if answer[0] == "done":
            self.end = at + int(answer[1])
        elif self.r.random() < 0.5:
            self.say("digest")
        return answer[0] == "done"

    def name(self, used):
        """A partition and a slot, mostly one in use (or free)."""
        heap = model.Heap(self.shell.words)
        if self.r.random() < 0.04 or not heap.sound():
            return "%d %d" % (self.r.choice([0, 1, 15, 16, 17, model.MOST]), self.r.choice([0, 1, 127, 128, 129, model.MOST]))
        made = {tuple(op[1:3]) for op in self.shell.waiting if op[0] == "new"}
        fit = [(p, s) for p, s, a in heap.objects() if (bool(heap.w[a]) or (p, s) in made) == used]
        fit = fit if fit and self.r.random() < 0.95 else [(p, s) for p, s, _ in heap.objects()]
        return "%d %d" % self.r.choice(fit)

    def operation(self):
        r = self.r
        value = r.choice([0, 1, 7, r.randrange(1000), model.MOST])
        field = r.randrange(4) if r.random() < 0.98 else r.choice([4, model.MOST])
        root = r.randrange(16) if r.random() < 0.98 else r.choice([16, model.MOST])
        kind = r.choices(["new", "set", "clr", "val", "root", "unroot"], [5, 7, 2, 1, 3, 1])[0]
        return {
            "new": "new %s %d" % (self.name(False), value),
            "set": "set %s %d %s" % (self.name(True), field, self.name(True)),
            "clr": "clr %s %d" % (self.name(True), field),
            "val": "val %s %d" % (self.name(True), value),
            "root": "root %d %s" % (root, self.name(True)),
            "unroot": "unroot %d" % root,
        }[kind]

    def commit(self):
        for _ in range(self.r.choice([1, 1, 2, 3, 5, 8, 32, 33, 0]) if self.r.random() < 0.4 else self.r.randrange(1, 6)):
            self.say(self.operation())
        self.logged("commit")

    def phase(self):
        """A phase: opened, traced mostly until every partition is clean, closed; commits between."""
        if not self.logged("open") and self.r.random() < 0.8:
            return
        parts = self.shell.words[0] if self.shell.words else 1
        for _ in range(self.r.randrange(4 * parts + 4)):
            if self.r.random() < 0.25:
                self.r.choice([self.commit, self.commit, self.session])()
            unclean = [p for p in range(min(parts, 16)) if len(self.shell.words) > 36 and not self.shell.words[21 + p]]
            if not unclean and self.r.random() < 0.9:
                break
            self.logged("trace %d" % (self.r.choice(unclean) if unclean and self.r.random() < 0.95 else self.r.randrange(18)))
        if self.r.random() < 0.9:
            self.logged("close")

    def local(self):
        self.logged("local %s" % self.name(True).split()[0])

    def session(self):
        """A hold, often of an object that nothing else leads to, or a drop, mostly of a handle in use; few handles, so that they are met again."""
        heap = model.Heap(self.shell.words)
        handle = self.r.choice([0, 1, 2, 31]) if self.r.random() < 0.96 else self.r.choice([32, 63, model.MOST])
        if self.r.random() < 0.65:
            loose = [(p, s) for p, s, a in heap.objects() if heap.w[a] and not heap.reached(p, s)] if heap.sound() else []
            self.logged("hold %d %s" % (handle, "%d %d" % self.r.choice(loose) if loose and self.r.random() < 0.6 else self.name(True)))
        else:
            held = [h for h, ref in enumerate(heap.w[model.HANDLES]) if ref]
            self.logged("drop %d" % (self.r.choice(held) if held and self.r.random() < 0.7 else handle))

    def recovery(self):
        """Recovery of a cut, at times of a log with a byte changed; mostly the whole log afterwards, so that the script goes on."""
        if self.r.random() < 0.3 and self.end:
            at = self.r.randrange(self.end)
            before = self.shell.log[at]
            self.say("bytes %d %d" % (at, self.r.choice([9, 10, 32, 48, 49, 57, 97, self.r.randrange(256)])))
            self.say("recover %d" % self.r.randrange(at, self.end + 1))
            self.say("digest")
            self.say("bytes %d %d" % (at, before))
        self.say("recover %d" % min(self.r.randrange(self.end + 1), len(self.shell.log)))
        self.say("digest")
        answer = self.say("recover %d" % min(self.end, len(self.shell.log)))
        self.end = int(answer[1]) if answer[0] == "kept" else 0
        if answer[0] != "kept":
            self.start()

    def damage(self):
        """A word changed by hand, every call tried, and the word put back."""
        at = self.r.choice([self.r.randrange(37), self.r.randrange(37, 69), self.r.randrange(len(self.shell.words))])
        before = self.shell.words[at]
        self.say("word %d %d" % (at, self.r.choice([0, 1, 2, 3, 128, 129, model.MOST])))
        for line in ("read %s" % self.name(True), "ask %s" % self.name(True), "show"):
            self.say(line)
        self.logged(self.r.choice(["open", "trace 0", "close", "commit", "local 0", "hold 0 0 0", "drop 0"]))
        self.say("word %d %d" % (at, before))

    def start(self):
        """A formatted heap with one object that a root names."""
        self.logged(self.heading)
        self.say("new %s 1" % self.name(False))
        self.say("root 0 %s" % self.name(True))
        self.logged("commit")

    def script(self):
        r = self.r
        parts, slots = r.choice([(1, 1), (1, 4), (2, 3), (2, 4), (3, 2), (4, 4), (16, 2), (2, 128), (r.randrange(1, 17), r.randrange(1, 9))])
        self.say("image %d" % model.size_of(parts, slots))
        self.say("buffer %d" % r.choice([300, 4000, 20000, 65536]))
        self.heading = "format %d %d" % (parts, slots)
        self.start()
        for _ in range(r.randrange(20, 60)):
            act = r.choices([self.commit, self.phase, self.local, self.session, self.recovery, self.damage, self.asking, self.mistake], [12, 4, 4, 5, 2, 2, 5, 1])[0]
            act()
            if r.random() < 0.3:
                self.say("digest")
        self.say("show")
        self.say("digest")
        self.say("log %d" % min(self.end, len(self.shell.log)))
        return "\n".join(self.lines) + "\n"

    def asking(self):
        for _ in range(self.r.randrange(1, 4)):
            self.say(self.r.choice(["read %s" % self.name(True), "ask %s" % self.name(True), "outlist %s" % self.name(True).split()[0]]))

    def mistake(self):
        self.say(self.r.choice(["read 0", "ask 0 0 0", "set 0 0 0 0", "word 14405 0", "local 0", "hold 0 0 0", "drop 0", "outlist 0 0", "recover 65537", "comit 0", "new 00 0 1", "val 0 -1 3", "bytes 0", "bytes 0 256", "log x", "", "# remark", "  \t", "\tread\t0  0 "]))


if __name__ == "__main__":
    here = Path(__file__).parent
    if len(sys.argv) == 2:
        print(Writer(int(sys.argv[1])).script(), end="")
    else:
        for make in (paper, stars, local, sessions, limits, logs, faults, editions):
            (here / (make.__name__ + ".script")).write_text("\n".join(make()) + "\n")
        for seed in range(1, 25):
            (here / ("random-%02d.script" % seed)).write_text(Writer(seed).script())
        for script in set(here.glob("*.script")) - set(here.glob("w6-*")):
            script.with_suffix(".answers").write_bytes(model.play(script.read_bytes()))
