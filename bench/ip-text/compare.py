#!/usr/bin/env python3
"""Compares the readers and printers of `ip_text` with Python's ipaddress.

    bench/ip-text/compare.py [N [SEED]]

It makes N texts (100,000 if none is given) of the five forms: random values in many spellings, and
those texts with a few bytes changed. It asks crates/ip_text_check/out/ip_text_check (build it with
`rt run` in that folder) and, for each text, compares accept or refuse, the value, and the printed
form. The place of a fault is checked with Python's reader too: the bytes before it can be completed
to a text of the form, and with one byte more they can't.
It ends with status 1 where an answer differs, and with status 0 and a note where Python's
ipaddress is missing.
"""

import os
import random
import subprocess
import sys

try:
    import ipaddress
except ImportError:
    print("ip-text: no module ipaddress here, so nothing was compared")
    sys.exit(0)

TOP = os.path.dirname(os.path.dirname(os.path.dirname(os.path.abspath(__file__))))
PROGRAM = os.path.join(TOP, "crates", "ip_text_check", "out", "ip_text_check")
FORMS = ["ip", "prefix", "addr", "mac", "hop"]
BYTES = b"0123456789abcdefABCDEF:.:.//@%gx -+_\t\xc3\xa9"
ASCII_DIGITS = set(b"0123456789")


def is_number(word, low, high):
    """Decimal digits without leading zeros, in a range."""
    return (
        len(word) > 0
        and set(word) <= ASCII_DIGITS
        and (word == b"0" or word[:1] != b"0")
        and low <= int(word) <= high
    )


def read_ip(text):
    """The family and number that Python reads, or None. Differences are taken out by hand:
    Python reads a zone behind `%`; before 3.9.5 it read leading zeros in IPv4."""
    if not text.isascii() or b"%" in text or b"/" in text:
        return None
    try:
        ip = ipaddress.ip_address(text.decode("ascii"))
    except ValueError:
        return None
    if ip.version == 4 and not all(is_number(part, 0, 255) for part in text.split(b".")):
        return None
    if ip.version == 6 and b"." in text:
        quad = text.rsplit(b":", 1)[1]
        if not all(is_number(part, 0, 255) for part in quad.split(b".")):
            return None
    return ip.version, int(ip)


def print_ip(family, number):
    """The compressed form. Python's own prints an IPv4-mapped address as RFC 5952, section 5, from
    3.13 on, with a dotted quad: taken out by printing the groups of another address."""
    if family == 4:
        return str(ipaddress.IPv4Address(number))
    printed = str(ipaddress.IPv6Address(number))
    if "." in printed:
        groups = ipaddress.IPv6Address(number).exploded.split(":")
        printed = "::ffff:%x:%x" % (int(groups[6], 16), int(groups[7], 16))
    return printed


def read_sized(text):
    ip_text, slash, word = text.partition(b"/")
    ip = read_ip(ip_text)
    if not slash or ip is None:
        return None
    width = 32 if ip[0] == 4 else 128
    if not is_number(word, 0, width):
        return None
    return ip + (int(word),)


def expected(form, text):
    """What `ip_text_check` should answer, without the place: `at` for a refusal."""
    if form == "ip":
        ip = read_ip(text)
        return "at" if ip is None else "ok %d %d %s" % (*ip, print_ip(*ip))
    if form in ("prefix", "addr"):
        sized = read_sized(text)
        if sized is None:
            return "at"
        family, number, length = sized
        if form == "prefix":
            try:
                kind = ipaddress.IPv4Network if family == 4 else ipaddress.IPv6Network
                kind((number, length))
            except ValueError:
                return "at"
        return "ok %d %d %d %s/%d" % (family, number, length, print_ip(family, number), length)
    if form == "mac":
        pairs = text.split(b":")
        digits = set(b"0123456789abcdefABCDEF")
        if len(pairs) != 6 or not all(len(p) == 2 and set(p) <= digits for p in pairs):
            return "at"
        return "ok %d %s" % (int(b"".join(pairs), 16), text.decode().lower())
    front, mark, word = text.partition(b"@")
    ip = read_ip(front)
    if ip is None:
        return "at"
    if not mark:
        return "ok %d %d - %s" % (*ip, print_ip(*ip))
    if not is_number(word, 1, 2**32 - 1):
        return "at"
    return "ok %d %d %d %s@%d" % (*ip, int(word), print_ip(*ip), int(word))


# Every beginning of an ip has one of these behind it that makes it an ip.
IP_ENDS = (
    ["", ":", "::"]
    + [".0" * k for k in range(1, 4)]
    + ["0" + ".0" * k for k in range(4)]
    + [":0" * k for k in range(1, 8)]
    + ["0" + ":0" * k for k in range(8)]
)
ENDS = {
    "ip": IP_ENDS,
    "addr": ["", "0"] + [end + "/0" for end in IP_ENDS],
    "hop": ["", "1"] + IP_ENDS,
}
MAC = b"00:00:00:00:00:00"


def can_begin(form, front):
    """Whether the bytes begin some text of the form; of a prefix, without the rule on host bits."""
    form = "addr" if form == "prefix" else form
    if form == "mac":
        return expected(form, front + MAC[len(front) :]) != "at"
    return any(expected(form, front + end.encode()) != "at" for end in ENDS[form])


def place_is_right(form, text, at):
    if not 0 <= at <= len(text) or not can_begin(form, text[:at]):
        return False
    return at == len(text) or not can_begin(form, text[: at + 1])


def spell_group(draw, group):
    text = "%x" % group
    text = text.rjust(draw.choice([0, 0, 0, len(text), 4]), "0")
    return text.upper() if draw.random() < 0.2 else text


def spell_ip(draw):
    if draw.random() < 0.4:
        return ".".join(str(draw.choice([0, 1, 9, 10, 99, 100, 255, draw.randrange(256)])) for _ in range(4))
    groups = [draw.choice([0, 0, 0, 1, 0xFFFF, draw.randrange(65536)]) for _ in range(8)]
    words = [spell_group(draw, g) for g in groups]
    if draw.random() < 0.25:
        tail = (groups[6] << 16) + groups[7]
        words[6:] = [str(ipaddress.IPv4Address(tail))]
    runs = [(i, j) for i in range(8) for j in range(i + 1, 9) if not any(groups[i:j])]
    if len(words) == 7:
        runs = [(i, j) for i, j in runs if j <= 6]
    if runs and draw.random() < 0.7:
        i, j = draw.choice(runs)
        return ":".join(words[:i]) + "::" + ":".join(words[j:])
    return ":".join(words)


def clear(text, length):
    """The ip with the bits past the length cleared, spelled by Python."""
    ip = ipaddress.ip_address(text)
    hosts = ip.max_prefixlen - length
    return str(type(ip)(int(ip) >> hosts << hosts))


def spell(draw, form):
    if form == "mac":
        return ":".join(draw.choice(["%02x", "%02X"]) % draw.randrange(256) for _ in range(6))
    text = spell_ip(draw)
    if form == "ip":
        return text
    if form == "hop":
        if draw.random() < 0.5:
            return text
        return text + "@" + str(draw.choice([0, 1, 7, 2**32 - 1, 2**32, draw.randrange(2**33)]))
    width = 32 if ":" not in text else 128
    length = draw.choice([0, 1, 8, 24, width - 1, width, width + 1, draw.randrange(width + 1)])
    if form == "prefix" and length <= width and draw.random() < 0.7:
        text = clear(text, length)
    return "%s/%d" % (text, length)


def mutate(draw, text):
    text = bytearray(text)
    for _ in range(draw.choice([1, 1, 1, 2, 3, 8])):
        at = draw.randrange(len(text) + 1)
        kind = draw.randrange(4)
        if kind == 0:
            text.insert(at, draw.choice(BYTES))
        elif kind == 1 and text:
            del text[min(at, len(text) - 1)]
        elif kind == 2 and text:
            text[min(at, len(text) - 1)] = draw.choice(BYTES)
        elif text:
            text[at:at] = text[max(0, at - draw.randrange(1, 4)) : at]
    return bytes(text).replace(b"\n", b"")


def main():
    count = int(sys.argv[1]) if len(sys.argv) > 1 else 100_000
    draw = random.Random(int(sys.argv[2]) if len(sys.argv) > 2 else 1)
    if not os.path.exists(PROGRAM):
        sys.exit("ip-text: build the program first: rt run in crates/ip_text_check")
    asked = []
    for _ in range(count):
        form = draw.choice(FORMS)
        text = spell(draw, form).encode()
        asked.append((form, mutate(draw, text) if draw.random() < 0.6 else text))
    stdin = b"".join(form.encode() + b" " + text + b"\n" for form, text in asked)
    run = subprocess.run([PROGRAM], input=stdin, stdout=subprocess.PIPE, check=True)
    answers = run.stdout.decode("ascii").splitlines()
    if len(answers) != len(asked):
        sys.exit("ip-text: %d answers to %d texts" % (len(answers), len(asked)))
    accepted, wrong, misplaced = 0, 0, 0
    for (form, text), answer in zip(asked, answers):
        want = expected(form, text)
        got = answer if answer.startswith("ok ") else "at"
        if got != want:
            wrong += 1
            if wrong <= 20:
                print("differs: %s %r: %s, and not %s" % (form, text, answer, want))
        if got != "at":
            accepted += 1
        elif not place_is_right(form, text, int(answer.split()[1])):
            misplaced += 1
            if misplaced <= 20:
                print("place: %s %r: %s" % (form, text, answer))
    print(
        "ip-text: Python %s: %d texts, %d of them accepted, %d differ, %d places wrong"
        % (sys.version.split()[0], len(asked), accepted, wrong, misplaced)
    )
    sys.exit(1 if wrong or misplaced else 0)


if __name__ == "__main__":
    main()
