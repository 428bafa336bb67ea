"""Prints curdmesa.h as a page in Markdown: each declaration below a heading, with its comment.

    python3 bindings/c/api.py > API.md

`make dist` packs the page. Fails if a declaration has no comment.
"""
import re
import sys
from pathlib import Path

HEADER = Path(__file__).parent / "curdmesa.h"


def prose(comment):
    """The text of a comment: its paragraphs and lists, with each name as code."""
    text = "\n".join(re.sub(r"^ ?\*? ?", "", line).strip() for line in comment.strip().splitlines())
    blocks = [re.sub(r"\n(?!- )", " ", block) for block in re.split(r"\n{2,}", text)]
    spans = re.split(r"(`[^`]*`)", "\n\n".join(blocks))
    spans[::2] = [re.sub(r"\w*_\w+", r"`\g<0>`", span) for span in spans[::2]]
    return "".join(spans)


def code_end(text, begin):
    """Where the code that begins there ends: at a blank line outside of braces."""
    for line in re.finditer(r"\n(?=\n)|\Z", text[begin:]):
        code = re.sub(r"/\*.*?\*/", "", text[begin : begin + line.start()], flags=re.S)
        if code.count("{") == code.count("}"):
            return begin + line.start()


def title(code):
    """The names that a piece of code declares, of an enumeration the first and the last."""
    bare = re.sub(r"/\*.*?\*/", "", code, flags=re.S)
    constants = re.findall(r"^    (CURDMESA_\w+) =", bare, re.M)
    if constants:
        return f"`{constants[0]}` to `{constants[-1]}`"
    names = re.findall(r"\b(curdmesa_\w+)\(|^#define (\w+)|^} (\w+);", bare, re.M)
    return ", ".join(f"`{''.join(name)}`" for name in names)


def page(header):
    """The page of a header."""
    head = re.match(r"/\*(.*?)\*/", header, re.S)
    parts = [f"# curdmesa.h\n\n{prose(head[1])}\n"]
    at = header.index('extern "C" {\n#endif\n') + len('extern "C" {\n#endif\n')
    end = header.index("#ifdef __cplusplus\n}")
    while at < end and header[at:end].strip():
        comment = re.compile(r"\s*/\*(.*?)\*/\n", re.S).match(header, at)
        if not comment:
            raise SystemExit(f"{HEADER}: no comment above {header[at:end].strip().splitlines()[0]}")
        at = comment.end()
        section = re.fullmatch(r" -+ (.*?) -+ ", comment[1])
        if section:
            parts.append(f"## {section[1][0].upper()}{section[1][1:]}\n")
            continue
        stop = code_end(header, at)
        code = header[at:stop].strip("\n")
        parts.append(f"### {title(code)}\n\n```c\n{code}\n```\n\n{prose(comment[1])}\n")
        at = stop
    return "\n".join(parts)


if __name__ == "__main__":
    sys.stdout.write(page(HEADER.read_text()))
