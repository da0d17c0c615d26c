#!/usr/bin/env python3
"""Compares the texts of crates/med_suite_input/src/ini.rt with Python's configparser.

Each row of four cells there is a file, a section, an option, and what is told: `=` and the value,
`none`, or `line NUM: KIND`. Rows where both agree are counted. The others must be those listed
here, where this profile differs on purpose.
"""

import configparser
import pathlib
import re
import sys

TABLES = pathlib.Path(__file__).resolve().parent.parent / "crates/med_suite_input/src/ini.rt"
TABLE = re.compile(r'const \w+: &str = "((?:[^"\\]|\\.)*)";', re.DOTALL)
ESCAPES = re.compile(r"\\(u\{[0-9a-f]+\}|x[0-9a-f]{2}|\n\s*|.)")
PLAIN = {"n": "\n", "t": "\t", "r": "\r", "0": "\0", '"': '"', "\\": "\\"}

# Files on which the two differ, and why.
ON_PURPOSE = {
    "[a]\nx=\u00a01\u00a0": "white space is five characters",
    "[a]\nx=1\x1c\u0085\u2003": "white space is five characters",
    "[a]\nx=1\n\u00a02": "white space is five characters",
    "[a]\n\u00c9=1\n\u00e9=2": "letters that aren't ASCII keep their case",
    "[a]b]\nx=1": "the name of a header ends at the first `]`",
    "[a]\n[]]": "the name of a header ends at the first `]`",
    "[a]\nx\n[a]\n=1": "a fault ends the reading: the first one decides",
    "[a]\n=1\n[a]\nx": "a fault ends the reading: the first one decides",
    "[a]\n=1": "an empty key is a fault of its own",
    "[a]\n : 1": "an empty key is a fault of its own",
}


def unescaped(text):
    def char(found):
        code = found.group(1)
        if code[0] == "u":
            return chr(int(code[2:-1], 16))
        if code[0] == "\n":
            return ""
        return chr(int(code[1:], 16)) if code[0] == "x" else PLAIN[code]

    return ESCAPES.sub(char, text)


def rows():
    """The rows of four cells, with a line feed for each `¶`."""
    for table in TABLE.findall(TABLES.read_text("utf-8")):
        for row in unescaped(table).split("\n"):
            cells = row.replace("¶", "\n").split("|")
            if len(cells) == 4:
                yield tuple(cells)


def lines_of(text):
    """The lines by line feed alone, as a file that is opened with newline='\\n'."""
    return [line + "\n" for line in text.split("\n")]


def peer_says(text, section, option):
    parser = configparser.ConfigParser(interpolation=None, strict=True)
    try:
        parser.read_file(lines_of(text))
    except configparser.MissingSectionHeaderError as error:
        return f"line {error.lineno}: no section"
    except configparser.DuplicateSectionError as error:
        return f"line {error.lineno}: duplicate section"
    except configparser.DuplicateOptionError as error:
        return f"line {error.lineno}: duplicate option"
    except configparser.ParsingError as error:
        return f"line {error.errors[0][0]}: no delimiter"
    options = dict(parser.items(section)) if parser.has_section(section) else parser.defaults()
    return "=" + options[option] if option in options else "none"


def main():
    compared, agreed, unlisted, met = 0, 0, 0, set()
    for text, section, option, told in rows():
        compared += 1
        peer = peer_says(text, section, option)
        if peer == told:
            agreed += 1
            continue
        met.add(text)
        reason = ON_PURPOSE.get(text)
        unlisted += reason is None
        print(f"{text!r} [{section}] {option}: {told!r}, configparser {peer!r}")
        print(f"    {reason or 'NOT LISTED'}")
    stale = sorted(ON_PURPOSE.keys() - met)
    for text in stale:
        print(f"{text!r}: listed, but both agree")
    print(f"{compared} rows, {agreed} agree, {unlisted} differ without a reason")
    return 1 if unlisted or stale or not compared else 0


sys.exit(main())
