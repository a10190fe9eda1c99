"""What tools/design_counts.py and tools/design_changes.py share: the files of a commit or of the working tree, and the brackets of a text."""

import io
import os
import re
import subprocess
import tarfile

NOISE = re.compile(r"//[^\n]*|b?\"(?:\\.|[^\"\\])*\"|b?'(?:\\.[^']*|[^'\\\n])'", re.S)


def files_of(commit, endings):
    """Path and text of the files of crates/ with these endings, of a commit or of the working tree, by path."""
    found = {}
    if commit:
        packed = subprocess.run(["git", "archive", commit, "crates"], check=True, capture_output=True).stdout
        with tarfile.open(fileobj=io.BytesIO(packed)) as tar:
            for member in tar.getmembers():
                if member.isfile() and member.name.endswith(endings):
                    found[member.name] = tar.extractfile(member).read().decode()
    else:
        for top, folders, names in os.walk("crates"):
            folders[:] = [f for f in folders if f != "out"]
            for name in names:
                if name.endswith(endings):
                    with open(os.path.join(top, name), encoding="utf-8") as f:
                        found[os.path.join(top, name)] = f.read()
    return dict(sorted(found.items()))


def plain(text):
    """The text with comments, strings and characters blanked, line by line."""
    return NOISE.sub(lambda m: "".join("\n" if c == "\n" else "_" if m[0][0] != "/" else " " for c in m[0]), text)


def closing(text, start):
    """The place behind the bracket that closes the one at a place."""
    depth = 0
    for i in range(start, len(text)):
        depth += (text[i] in "([{") - (text[i] in ")]}")
        if depth == 0:
            return i + 1
    return len(text)


def parts(text, separator):
    """The parts of a text between separators that stand outside of brackets."""
    found, depth, last = [], 0, 0
    for i, c in enumerate(text):
        depth += (c in "([{<") - (c in ")]}" or c == ">" and text[i - 1] not in "-=")
        if c == separator and depth == 0:
            found.append(text[last:i])
            last = i + 1
    return [" ".join(p.split()) for p in found + [text[last:]] if p.strip()]
