#!/usr/bin/env python3
"""Makes the manual page of the library, man/cc.3, of its header.

usage: tools/library_manual.py [--write]

Each function of include/cc.h is shown as it is declared, with the comment above it; so are the statuses, the faults and
the sections at the top of the header. Without --write it fails if the page is stale, if a function has no place in it,
or if `man`, where it is here, has a warning.
"""
import pathlib
import re
import shutil
import subprocess
import sys
import textwrap

ROOT = pathlib.Path(__file__).resolve().parent.parent
HEADER, PAGE = ROOT / "include" / "cc.h", ROOT / "man" / "cc.3"
FUNCTION = re.compile(r"((?:/\*(?:(?!\*/).)*\*/\n)?)^(?:static inline )?(uint32_t |void |const char \*)(cc_\w+)\(([^)]*)\)", re.S | re.M)
SECTION = re.compile(r"^ \* (Handles|Threads|Ownership|Errors|Memory|Numbers|Processor) +(.*(?:\n \*  +.*)*)", re.M)
# What the name of a function ends in that tests for null pointers in front of another.
CHECKED = "_checked"
TEXTS = ("cc_status_text", "cc_fault_text")
EXAMPLE = ROOT / "examples" / "embed" / "first.c"


def escaped(text):
    """Text that groff takes for itself."""
    return re.sub(r"^([.'])", r"\\&\1", text.replace("\\", r"\e").replace("-", r"\-"), flags=re.M)


def prose(text):
    """A comment as lines of the page; names of functions and parameters are set apart."""
    words = escaped(" ".join(re.sub(r"^ ?\*", "", line).strip() for line in text.splitlines()).strip())
    words = re.sub(r"`([^`]+)`", r"\\fI\1\\fP", words)
    words = re.sub(r"\b((?:cc|CC)_\w+)", r"\\fB\1\\fP", words)
    return "\n".join(textwrap.wrap(words, 110, break_long_words=False, break_on_hyphens=False))


def body(comment):
    """What stands between the marks of a comment."""
    return re.sub(r"^/\*|\*/\s*$", "", comment)


def declared(answer, name, parameters):
    """A function in bold, its parameters in italics."""
    told = re.sub(r"(\w+)(?=,|$)", r"\\fI\1\\fP", " ".join(parameters.split()))
    return f"{answer.strip()} \\fB{name}\\fP({told if parameters != 'void' else 'void'});".replace("* \\fB", "*\\fB")


def functions(header):
    """Each public function of the header: its declaration, name and comment."""
    for comment, answer, name, parameters in FUNCTION.findall(header):
        if not name.endswith(CHECKED):
            yield declared(answer, name, parameters), name, prose(body(comment))


def enumerated(header, first):
    """The names of an enumeration that begins with this one, each with its comment."""
    block = re.search(r"enum \{([^}]*\b%s\b[^}]*)\}" % first, header)[1]
    for name, told in re.findall(r"^ +(CC_\w+)(?: = \d+)?,?(?: +/\* (.*?) \*/)?$", block, re.M | re.S):
        yield name, prose(told or "all was done")


def listed(pairs):
    return "".join(f".TP\n.B {name}\n{told}\n" for name, told in pairs)


def page():
    """The text of the manual page."""
    header = HEADER.read_text()
    public = list(functions(header))
    commands = header.index("/* ---- the commands")
    parts = {False: [], True: []}
    for told, name, comment in public:
        if name not in TEXTS:
            parts[header.index(f" {name}(") > commands].append(f".TP\n{told}\n{comment}".rstrip())
    version = re.search(r"#define CC_VERSION (\d+)", header)[1]
    sections = "".join(f".SS {name}\n{prose(text)}\n" for name, text in SECTION.findall(header))
    example = escaped(EXAMPLE.read_text().rstrip().split("\n", 1)[1])
    named = "\n".join(textwrap.wrap(", ".join(["cc", *names()]), 110))
    texts = "\n.br\n".join(told for told, name, _ in public if name in TEXTS)
    return f""".\\" The manual page of libcc, made of include/cc.h by tools/library_manual.py.
.TH CC 3 "" "cc, interface {version}" "Library Functions Manual"
.SH NAME
{named} \\-
a page compositor whose frames are proved to be the painting of the page
.SH SYNOPSIS
.nf
#include <cc.h>
.sp
cc \\-std=c11 shell.c $(pkg\\-config \\-\\-cflags \\-\\-libs cc)
.fi
.SH DESCRIPTION
A page of layers is changed by commands, committed, scrolled, drawn and asked what lies under a point. The commands
change a main page, \\fBcc_commit\\fP shows it, \\fBcc_draw\\fP draws what is shown into a frame, and \\fBcc_copy\\fP takes
the pixels of the frame.
{sections}.SH THE OBJECT
{chr(10).join(parts[False])}
.SH COMMANDS
They change the main page. \\fIfault\\fP may be null.
{chr(10).join(parts[True])}
.SH RETURN VALUE
The calls that can fail answer one of these.
{listed(enumerated(header, "CC_DONE"))}.PP
An edit that is \\fBCC_REFUSED\\fP or \\fBCC_BAD\\fP tells one of these in \\fIwhy\\fP of \\fBcc_fault\\fP, with
\\fIfield\\fP, \\fIvalue\\fP and \\fIlimit\\fP where they are named: the first that applies.
{listed(enumerated(header, "CC_UNKNOWN_ID"))}.PP
Both as text:
.br
{texts}
.SH EXAMPLES
Two rects, as a raw portable pixmap:
.PP
.nf
{example}
.fi
.SH SEE ALSO
.BR cc_player (1);
docs/EMBEDDING.md of the sources explains pages, drawing and costs, docs/FORMAT.md the ranges and the faults of all
commands.
"""


def names():
    """The functions that the page is about."""
    return [name for _, name, _ in functions(HEADER.read_text())]


def faults():
    """What is wrong with the page that stands there."""
    text = page()
    if not PAGE.is_file() or PAGE.read_text() != text:
        yield f"{PAGE.relative_to(ROOT)} is stale: tools/library_manual.py --write"
    wanted = {name for name in re.findall(r"\b(cc_\w+)\(\w", HEADER.read_text()) if not name.endswith(CHECKED)}
    yield from (f"no place for {name}" for name in sorted(wanted) if f"\\fB{name}\\fP(" not in text)
    if shutil.which("man"):
        said = subprocess.run(["man", "--warnings", "-l", PAGE], stdout=subprocess.DEVNULL, stderr=subprocess.PIPE, text=True)
        yield from said.stderr.splitlines()


def main():
    if sys.argv[1:] == ["--write"]:
        PAGE.write_text(page())
        return 0
    if sys.argv[1:]:
        sys.exit(__doc__)
    found = list(faults())
    for line in found:
        print(f"library_manual: {line}", file=sys.stderr)
    return 1 if found else 0


if __name__ == "__main__":
    sys.exit(main())
