"""Parts of README.md."""

from options import ROOT

README = (ROOT / "README.md").read_text()


def section(title):
    """The text below a heading."""
    return README.split(f"\n## {title}\n", 1)[1].split("\n## ", 1)[0]


def blocks(text):
    """The indented blocks of a text, each as its lines."""
    found, inside = [], False
    for line in text.split("\n"):
        if line.startswith("    "):
            if not inside:
                found.append([])
            found[-1].append(line[4:])
        inside = line.startswith("    ")
    return found
