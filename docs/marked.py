"""Parts of a page that a script writes, between two marker lines:

    <!-- NAME: written by SCRIPT -->
    <!-- end of NAME -->
"""


def place(page, name, script, text, check=False):
    """Puts the text between its markers, or only compares it; answers whether it stood there already."""
    first, last = f"<!-- {name}: written by {script} -->\n", f"<!-- end of {name} -->\n"
    old = page.read_text(encoding="utf-8")
    if old.count(first) != 1 or old.count(last) != 1:
        raise SystemExit(f"{script}: {page.name} has not the two marker lines of '{name}'")
    head, rest = old.split(first)
    tail = rest.split(last)[1]
    new = f"{head}{first}\n{text.strip()}\n\n{last}{tail}"
    if not check and new != old:
        page.write_text(new, encoding="utf-8")
    return new == old
