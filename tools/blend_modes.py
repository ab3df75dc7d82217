"""The blend modes of the language, as the row OP of docs/language.md lists them: the programs of tools/ draw from this list.
tools/docs-check compares the row with the enum `Op` of the sources, and with every other list of the blend modes."""
import pathlib
import re

PAGE = pathlib.Path(__file__).resolve().parent.parent / "docs/language.md"


def blend_modes():
    """Their words, in the order of the page."""
    row = re.search(r"^\| OP \| (.*?) \|", PAGE.read_text(encoding="utf-8"), re.M)
    return tuple(re.findall(r"`(\w+)`", row[1]))
