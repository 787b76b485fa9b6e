"""Scripts and models with random faults put in: in their bytes, words, groups and lines."""

import re

NUMBERS = (
    "-0", "+5", "5.", "5.00", "2", "2.0", "-4", "-5", "000000000005", ".5", "1.5", "5e1", "-", "+", "--5", "5.0.", "0x5", "16384", "-16384",
    "16385", "-16385", "16384.1", "-16384.1", "16383.9", "0.5", "-0.5", "0.1", "0.10", "-0.0", "0.0", "0.25", "1.55", "1.5.", "000000000.5", "1234567890.5", "999999999.9", "524288.1", "524288", "-524288", "524289", "-524289", "999999999", "1000000000", "-999999999", "0" * 70,
)  # fmt: skip
NAMES = ("n" * 64, "n" * 65, ".s", "-s", "s/1", "S", "s.", "s-", "s\u00e9", "zz", "{s}", "{ s }", "{s t}", "{{s}}", "{}")
WORDS = ("{}", "{ }", "u", "-", "+", "^", "n", "l", "in", "sph", "rcc", "comb", "arb8", "V", "H", "r", "{V}", "region", "tree", "rgb", "set", "yes", "#", "@1", "-x", "s", "{l s}", "{0 0 0}")
COMMANDS = (
    "frob", "l s", "l", "l s {t}", "l {s t}", "tree c", "tree", "tree s/", "put a comb region yes", "put a comb", "put a", "put {a b} comb id 0",
    "attr set c a b", "attr set c", "attr get c a", "attr set {c d} a b", "title {Cup}", "title", "units mm", "save a.asc", "save", "save a b", "save {a b}", "SAVE a", "rt p.ppm +x 0 0 0 1 1 1 s",
    "rtcheck +x 0 0 0 1 1 1 s", "rtarea +x 0 0 0 1 1 1 s", "rtarea", "rtedge p.ppm +x 0 0 0 1 1 1 s", "rtedge +x 0 0 0 1 1 1 s", "nirtd 0 0 0 1 1 0 s", "nirtd 0 0 0 2 2 0 s", "nirtd 0 0 0 +x s", "nirtd", "ls s", "LS", "in", "nirt", "{ls}", " @1 ls", "{# x", "@2 # x", "@3", "@1 @2 ls", "@8  ls", "@8 \t{",
)  # fmt: skip
BLANK_LINES = ("", " ", "\t \r", "# ls", "  # \x07 \\ {", "\r", "#")
BYTES = b"\x00\x07\x0b\x1f\x7f\x80\xc3\xff\\\"[]$;{}{}/#@\t\r .-+0"
SEVERE = ("@9 ls", "@0 ls", "@12 ls", "@", "@1\tls", "@2\r", "@ls", "#" * 65_537, "@2 " + " " * 65_534, "\n" * 65_536)  # each is a fault of the whole script
NEAR = ("#" * 65_536, "@2 " + " " * 65_533)  # and each of these none


def mutated(rng, lines, others=None):
    """The bytes of a text of these lines, with some faults. Where other lines are given, they are put in, and else those of
    a script."""
    lines = [line.encode() for line in lines]
    for _ in range(rng.choice((1, 1, 2, 3, 5, 9))):
        at = rng.randrange(len(lines))
        part = rng.random()
        if part < 0.45:
            lines[at] = behind_session(rng, lines[at], in_words)
        elif part < 0.65:
            lines[at] = in_bytes(rng, lines[at])
        elif part < 0.8 and b"{" in lines[at]:
            lines[at] = behind_session(rng, lines[at], in_groups)
        else:
            in_lines(rng, lines, at, others)
    return b"\n".join(lines) + rng.choice((b"\n", b"\n", b"\n", b"", b"\r", b"\n\n"))


def behind_session(rng, line, change):
    """The line changed, mostly without the `@` and the digit that it may begin with."""
    head = line[:3] if line.startswith(b"@") and rng.random() < 0.95 else b""
    return head + change(rng, line[len(head) :])


def in_words(rng, line):
    words = line.split(b" ")
    at, other = rng.randrange(len(words)), rng.randrange(len(words))
    way = rng.randrange(11)
    if way < 2:
        del words[(at, -1)[way]]
    elif way == 2:
        words.insert(other, words[at])
    elif way == 3:
        words[at], words[other] = words[other], words[at]
    elif way < 7:
        alike = NUMBERS if words[at].lstrip(b"-").isdigit() else NAMES if words[at].isalnum() else WORDS
        words[at] = rng.choice(alike if way < 6 else NUMBERS + NAMES + WORDS).encode()
    elif way == 7:
        words.insert(at, rng.choice(NUMBERS + NAMES + WORDS).encode())
    elif way == 8:
        words[at] = rng.choice((b"{%s}", b"{ %s }", b"{\t%s\r}", b"{{%s}}", b"{%s", b"%s}", b"{%s}u", b"u{%s}", b"{%s}{u}")) % words[at]
    elif way == 9:
        first, last = sorted((at, other))
        words[first : last + 1] = [b"{" + b" ".join(words[first : last + 1]) + b"}"]
    else:
        opened = rng.choice((2, 4_099, 4_100, 4_101))
        words[at] = b"{" * opened + words[at] + b"}" * opened
    return b" ".join(words)


def in_groups(rng, line):
    """The line with a group left out, doubled, emptied, without its braces, in further braces, or in place of another one."""
    if b"{" not in line:
        return line
    (start, end), (other, other_end) = (group_at(line, rng.choice([at for at, byte in enumerate(line) if byte == 123])) for _ in range(2))
    group = line[start:end]
    if rng.random() < 0.3:
        return line[:other] + group + line[other_end:]
    return line[:start] + rng.choice((b"", group + b" " + group, b"{}", group[1:-1], b"{%s}" % group, b"{ %s x}" % group)) + line[end:]


def group_at(line, start):
    """Where the group that begins here begins and ends."""
    opened = 0
    for brace in re.finditer(rb"[{}]", line[start:]):
        opened += 1 if brace.group() == b"{" else -1
        if opened == 0:
            return start, start + brace.end()
    return start, len(line)


def in_bytes(rng, line):
    at = rng.randint(0, len(line))
    byte = bytes([rng.choice(BYTES)])
    return rng.choice((line[:at] + byte + line[at:], line[:at] + byte + line[at + 1 :], line[:at] + line[at + 1 :], line + b"\r", line.replace(b" ", b" \t ")))


def in_lines(rng, lines, at, others):
    way = rng.random()
    if way < 0.2:
        lines.insert(rng.randint(0, len(lines)), lines[at])
    elif way < 0.4:
        other = rng.randrange(len(lines))
        lines[at], lines[other] = lines[other], lines[at]
    elif way < 0.55 and len(lines) > 1:
        del lines[at]
    elif way < 0.95 or others:
        lines.insert(at, rng.choice(BLANK_LINES + (others or COMMANDS)).encode())
    else:
        lines.insert(at, rng.choice(SEVERE + NEAR * 2).encode())
