"""A text, and a call, made smaller while something stays true of it."""

import re
import time

SECONDS = 120  # after which a text is small enough


def smaller(text, holds):
    """The text with lines, groups and words left out, as long as `holds` is true of what is left."""
    end = time.monotonic() + SECONDS
    stays = lambda text: time.monotonic() < end and holds(text)
    before = None
    while text != before and time.monotonic() < end:
        before = text
        lines = fewer(text.split(b"\n"), lambda lines: stays(b"\n".join(lines)))
        for at in range(len(lines)):
            stays_with = lambda line: stays(b"\n".join(lines[:at] + [line] + lines[at + 1 :]))
            if time.monotonic() < end:
                lines[at] = with_fewer_words(with_smaller_groups(lines[at], stays_with), stays_with)
        text = b"\n".join(lines)
    return text


def smaller_call(call, holds):
    """The call without the orders, words and files that can be left out, and with smaller texts."""
    for order in ("merge", "broken"):
        without = call._replace(**{order: None})
        if without != call and holds(without):
            call = without
    call = call._replace(words=fewer(call.words, lambda words: holds(call._replace(words=words))))
    for file in call.files:
        others = {name: text for name, text in call.files.items() if name != file}
        without = call._replace(files=others)
        if holds(without):
            call = without
        else:
            text = smaller(call.files[file], lambda text: holds(call._replace(files={**others, file: text})))
            call = call._replace(files={**others, file: text})
    return call._replace(script=smaller(call.script, lambda script: holds(call._replace(script=script))))


def with_smaller_groups(line, stays):
    """The line without some of its groups, or with one in place of a greater one that has it, where that can be: the greatest
    ones are tried, and of what is in them the smallest, the second smallest, the fourth, and so on."""
    groups = groups_of(line)
    for start, end in groups[:8]:
        inner = [group for group in reversed(groups) if start < group[0] and group[1] < end]
        for first, last in [(start, start)] + [inner[2**i - 1] for i in range(len(inner).bit_length())]:
            changed = line[:start] + line[first:last] + line[end:]
            if stays(changed):
                return with_smaller_groups(changed, stays)
    return line


def groups_of(line):
    """Where the groups of a line begin and end, the greatest first."""
    opened, found = [], []
    for brace in re.finditer(rb"[{}]", line):
        if brace.group() == b"{":
            opened.append(brace.start())
        elif opened:
            found.append((opened.pop(), brace.end()))
    return sorted(found, key=lambda group: group[0] - group[1])


def with_fewer_words(line, stays):
    words = re.findall(rb"[ \t\r]*[^ \t\r]+|[ \t\r]+$", line)
    return b"".join(fewer(words, lambda words: stays(b"".join(words))))


def fewer(parts, stays):
    """The parts without those that can be left out: half of them at once, then a quarter, and at last one by one."""
    size = max(1, len(parts) // 2)
    while True:
        at, found = 0, False
        while at < len(parts):
            rest = parts[:at] + parts[at + size :]
            if stays(rest):
                parts, found = rest, True
            else:
                at += size
        if size == 1 and not found:
            return parts
        size = max(1, size // 2)
