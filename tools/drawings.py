"""Drawings as docs/PRESS.md has them, and what the program `show` writes, as lists of rows: what the other tools of drawings share."""


def row_of(line):
    """The levels of a line: numbers and dots, behind a bar and between bars and brackets where `show` wrote it; None where it has anything else."""
    text = line.split("|", 1)[1] if "|" in line else line
    words = text.translate(str.maketrans({"|": " ", "[": " ", "]": " ", "-": " -"})).split()
    try:
        return [0 if word == "." else int(word) for word in words]
    except ValueError:
        return None


def drawings(text):
    """Of each drawing its words, a dictionary, and its rows; what is no drawing has too few rows."""
    found, words, rows = [], {}, []

    def end():
        nonlocal words, rows
        if words or rows:
            found.append((words, [rows[key] for key in sorted(rows)] if isinstance(rows, dict) else rows))
        words, rows = {}, []

    for line in text.split("\n"):
        bare = line.strip()
        if bare.startswith("#"):
            continue
        if bare in ("", "."):
            end()
        elif "shown" in words:
            if "|" in line:
                rows = rows or {}
                key = int(line.split("|")[0])
                rows[key] = rows.get(key, []) + row_of(line)
        elif bare[0].isalpha():
            word, _, value = bare.partition(" ")
            words[word] = value.strip()
        else:
            rows.append(row_of(line) or [])
    end()
    return found


def shown(text):
    """The blocks in what `show` wrote, one run behind the other, as rows."""
    found = []
    for line in text.split("\n"):
        if line.startswith("accepted: "):
            found.append({})
        elif "|" in line and found:
            key = int(line.split("|")[0])
            found[-1][key] = found[-1].get(key, []) + row_of(line)
    return [[block[key] for key in sorted(block)] for block in found]
