"""Texts in quotes, as talk reads and shows them."""
import os
import re

QUOTED = rb'"((?:[^"\\]|\\["\\nt]|\\x[0-9a-fA-F]{2})*)"'
FILE = rb'(?:' + QUOTED + rb'|([^ "]*[^ "0-9][^ "]*))'
PATH = rb"(/[^ ]*)"


def unescaped(match):
    """The byte that an escape of a text in quotes stands for."""
    named = {b"n": b"\n", b"t": b"\t"}
    return bytes.fromhex(match[2].decode()) if match[2] else named.get(match[1], match[1])


def unquoted(text):
    """The bytes that a text in quotes stands for."""
    return re.sub(rb"\\(x([0-9a-fA-F]{2})|.)", unescaped, text)


def quoted(data):
    """The bytes as a text in quotes, or None where they are no text."""
    try:
        text = data.decode("utf-8")
    except UnicodeDecodeError:
        return None
    if not all(letter.isprintable() or letter in "\n\t" for letter in text):
        return None
    for letter, escape in (("\\", "\\\\"), ('"', '\\"'), ("\n", "\\n"), ("\t", "\\t")):
        text = text.replace(letter, escape)
    return f'"{text}"'


def file_name(match, group):
    """The file that a match of FILE names, of which this is the first group."""
    return os.fsdecode(unquoted(match[group]) if match[group] is not None else match[group + 1])


def of_them(count, name, names=None):
    """A count with the name of what is counted: `1 file`, `2 files`."""
    return f"{count} {name if count == 1 else names or name + 's'}"
