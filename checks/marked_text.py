"""A part of a document that a script measured: it stands between two marks, and only the script writes it."""
import re


def put(path, name, lines):
    """Writes these lines between the marks of this name; an error where the document has no such marks."""
    with open(path, encoding="utf-8") as file:
        text = file.read()
    begin, end = f"<!-- measured: {name} -->\n", "<!-- end -->"
    found = re.subn(re.escape(begin) + ".*?" + end, lambda _: begin + "".join(f"{it}\n" for it in lines) + end, text,
                    flags=re.DOTALL)
    if found[1] != 1:
        raise OSError(f"{path} has {found[1]} parts named {name}")
    with open(path, "w", encoding="utf-8") as file:
        file.write(found[0])
