"""The tokens of texts of machines, codings, programs and tables, cut as the program `quick` cuts them."""

import re

# Where a comment begins, no token does; one that isn't closed is a byte at which nothing begins.
SKIPPED = re.compile(r"[ \t\r\n]+|//[^\n]*|/\*.*?\*/", re.DOTALL)
TOKEN = re.compile(
    r"%?[A-Za-z_][A-Za-z_0-9]*|0x[0-9A-Fa-f]+|[0-9]+|\"[\x20\x21\x23-\x5b\x5d-\x7e]*\"|:=|=>|\.\.|/(?![/*])|[()\[\]{},;:=|&.'@-]"
)


def tokens(text):
    """The place and the text of each token, and the end of the text as the last one, or where no token begins."""
    at, found = 0, []
    while at < len(text):
        match = SKIPPED.match(text, at)
        if match is None:
            match = TOKEN.match(text, at)
            if match is None:
                break
            found.append((at, match.group()))
        at = match.end()
    return [*found, (at, "")]
