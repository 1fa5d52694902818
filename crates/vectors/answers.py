#!/usr/bin/env python3
# Makes stdin (bodies at every edge) and stdout (what each is, by the rules of document 01, W1, W4 and W6 alone; nothing here knows the machine).
import os, re

MOST_BYTES = 21  # of a body in a log of edition 4, as this one is
SHAPES = {"new": 3, "set": 5, "clr": 3, "val": 3, "root": 3, "unroot": 1, "end": 1, "open": 0, "trace": 1, "close": 0, "local": 1, "hold": 3, "drop": 1}


def line(body):
    if len(body) > MOST_BYTES:
        return "bad"
    keyword, *numbers = body.split(b"\t")
    keyword = keyword.decode("latin-1")
    if any(not re.fullmatch(rb"0|[1-9][0-9]*", n) or int(n) > 4294967295 for n in numbers):
        return "bad"
    if keyword == "heap":
        good = len(numbers) == 3 and numbers[0] in (b"1", b"2", b"3", b"4")
    else:
        good = SHAPES.get(keyword) == len(numbers)
    return " ".join([keyword] + [n.decode() for n in numbers]) if good else "bad"


def t(*fields):
    return b"\t".join(f if isinstance(f, bytes) else str(f).encode() for f in fields)


MOST = 4294967295
honest = [t("heap", 4, 2, 4), t("new", 0, 0, 10), t("set", 0, 0, 0, 1, 0), t("clr", 0, 0, 3), t("val", 1, 0, 20), t("root", 0, 0, 0), t("unroot", 15), t("end", 6), t("open"), t("trace", 1), t("close"), t("local", 1), t("heap", 1, 2, 4), t("heap", 2, 2, 4), t("hold", 31, 15, 127), t("drop", 31), t("heap", 3, 2, 4)]
bodies = list(honest)
# 20, 21 and 22 bytes, the numbers good in all
for most, more in [
    (t("new", 15, 127, MOST), t("new", 15, 1270, MOST)),
    (t("val", 15, 127, MOST), t("val", 150, 127, MOST)),
    (t("heap", 4, MOST, 128), t("heap", 4, MOST, 1280)),
    (t("heap", 1, MOST, 128), t("heap", 1, MOST, 1280)),
    (t("root", MOST, 15, 12), t("root", MOST, 15, 127)),
    (t("hold", MOST, 15, 12), t("hold", MOST, 15, 127)),
    (t("set", 15, 127, 3, 15, 12700), t("set", 15, 127, 3, 15, 127000)),
    (t("clr", 150, 630, 300000000), t("clr", 150, 630, 3000000000)),
    (t("set", 0, 0, 0, 0, 100000000), t("set", 0, 0, 0, 0, 1000000000)),
]:
    assert len(most) == MOST_BYTES and len(more) == MOST_BYTES + 1
    bodies += [most[:-1], most, more]
bodies += [b"new" * 7, b"open" + b" " * 17, b"open" + b" " * 18, t("end", "9" * 17), t("end", "9" * 18), b"y" * 21, b"y" * 22, t("new", 0, 0, 1) + b"0" * 1000]
# each keyword one byte short, one too long, alone, with a number too few, a tab or a number too many, shouted, and with other bytes at its ends
for body in honest:
    keyword, *numbers = body.split(b"\t")
    for k in [keyword[:-1], keyword + keyword[-1:], keyword + b"x", keyword[1:], b"x" + keyword, keyword.upper(), b" " + keyword, keyword + b" ", keyword + b"\0", keyword + b"\r"]:
        bodies.append(t(k, *numbers))
    bodies += [keyword, keyword + b"\t", body + b"\t", b"\t" + body, body + b"\t0", t(keyword, *numbers[1:]), body + b"\r", b"\r" + body, body + b" ", body + b"\0", body + b"\xff", body.replace(b"\t", b" "), body.replace(b"\t", b"\t\t")]
# numbers at the edges, in each column
for body in honest:
    keyword, *numbers = body.split(b"\t")
    for i in range(len(numbers)):
        for n in ["0", "1", "9", "10", "4294967295", "4294967296", "4294967300", "9999999999", "42949672950", "00", "01", "000", "", "+1", "-0", "-1", " 1", "1 ", "1.", "0x1", "1e1", "a", "/", ":", "\r"]:
            bodies.append(t(keyword, *numbers[:i], n.encode(), *numbers[i + 1 :]))
# headings of other editions, empty bodies, bytes that are no text
bodies += [t("heap", e, 2, 4) for e in (0, 1, 2, 3, 4, 5, 9, 10, 11, "01", "")] + [b"heap", b"heap\t", b"heap\t1", b"heap\t1\t", b"heap\t1\t2", b"heap\t12\t4", b"heap1\t2\t4"]
bodies += [b"", b"\t", b"\r", b"\0", b"\0open", bytes([0xFF]), bytes([0xEF, 0xBB, 0xBF]) + b"open", b" ", b"end\x0b1", b"en", b"e", b"n", b"h"]
# a heading and `hold` start alike
bodies += [b"he", b"ho", b"hea", b"hol", t("held", 0, 1, 2), t("hoap", 1, 2, 4), t("hold", 1, 2, 4), t("heap", 0, 1, 2), t("hold", 1, 2), t("heap", 1, 2)]
tail = t("new", 0, 0)

here = os.path.dirname(os.path.abspath(__file__))
out, at = [], 0
for body in bodies:
    assert b"\n" not in body
    out.append(f"{at} {line(body)}")
    at += len(body) + 1
out.append(f"{at} tail {len(tail)}")
log = b"".join(b + b"\n" for b in bodies) + tail
assert len(log) < 65536
open(here + "/stdin", "wb").write(log)
open(here + "/stdout", "w").write("\n".join(out) + "\n")
print(len(bodies), "bodies,", len(log), "bytes,", sum("bad" not in o for o in out), "not bad")
