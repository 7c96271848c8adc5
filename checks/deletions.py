"""Writes the whole program `checks/ring.c`, without its line marker, once for each of its tokens, which is left out, to a folder, and
prints the names of the files."""
import os
import re
import sys

TOKEN = re.compile(
    r"""/\*.*?\*/|//[^\n]*|\s+"""
    r"""|(?P<token>[A-Za-z_]\w*|\d\w*|'(?:\\.|[^'\\])+'|"(?:\\.|[^"\\])*"|<<=|>>=|\.\.\.|->|\+\+|--|<<|>>|&&|\|\||[-+*/%&|^<>=!]=|.)""",
    re.DOTALL,
)


def main(folder):
    with open(os.path.join(os.path.dirname(os.path.realpath(__file__)), "ring.c"), encoding="utf-8") as file:
        text = "".join(line for line in file if not line.startswith("#"))
    tokens = [it.span() for it in TOKEN.finditer(text) if it["token"]]
    for number, (start, end) in enumerate(tokens):
        name = f"token{number}.c"
        with open(os.path.join(folder, name), "w", encoding="utf-8") as file:
            file.write(text[:start] + text[end:])
        print(name)


main(sys.argv[1])
