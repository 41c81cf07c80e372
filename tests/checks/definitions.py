"""What tests/checks/pages counts of definitions: the items of a file of specs/, what it imports, and how many
lines a definition leads to. Also the index of docs/definitions.md, which is made of the files of specs/."""
import glob
import os
import re

WORD = r"[^\s(){}\[\],;.]+"


def items_of(text):
    """The lines of each definition of a file of specs/, by name, without remarks."""
    items, now = {}, None
    for line in text.splitlines():
        if not line.strip() or line.lstrip().startswith("--"):
            continue
        if line.startswith(("use ", "mod ", "pub mod ", "pub use ")):
            now = None
        elif not line[0].isspace():
            found = re.match(WORD, re.sub(r"^(?:(?:pub|abbrev|unfoldable|record|data|ruleset|syntax|module) )*", "", line))
            now = found[0] if found else None
        if now is not None:
            items.setdefault(now, []).append(line)
    return items


def imports_of(text):
    """For each name that a file of specs/ imports, its module and its name there."""
    found = {}
    for module, names in re.findall(r"(?m)^(?:pub )?use Rattle\.(\w+\.specs\.[\w.]+?)\.\{([^}]*)\}", text):
        for name in names.split(","):
            there, _, here = name.strip().partition(" as ")
            found[here or there] = (module, there)
    return found


def reached(files, start):
    """How many lines of definitions a definition leads to, and in how many files."""
    seen, waiting = set(), [start]
    while waiting:
        module, name = waiting.pop()
        if (module, name) in seen or name not in files.get(module, ({}, {}))[0]:
            continue
        seen.add((module, name))
        items, imports = files[module]
        for word in set(re.findall(WORD, " ".join(items[name]))):
            waiting += [(module, word)] if word in items else [imports[word]] if word in imports else []
    return sum(len(files[module][0][name]) for module, name in seen), len({module for module, _ in seen})


DEFINED = re.compile(r"(?m)^(?!pub (?:use|mod) )(?:(?:abbrev|unfoldable|record|data|ruleset|syntax|module) )*pub (?:(?:abbrev|unfoldable|record|data|ruleset|syntax|module) )*([^\s(){}\[\],;.:]+)")
INDEX = "## Index\n"


def head_of(text):
    """The comment at the top of a file, as one line."""
    lines = []
    for line in text.splitlines():
        if not line.startswith("--"):
            break
        lines.append(line.removeprefix("--").strip())
    return " ".join(lines)


def index_of(crates, top):
    """The index of docs/definitions.md: each file of specs/, with the comment at its top and the names that it defines."""
    text = f"{INDEX}\nWritten by `tests/checks/pages --links` from the files of `specs/`: the comment at the top of each, and the public names that it defines.\n"
    for crate in crates:
        rows = []
        for path in sorted(glob.glob(f"{top}/crates/{crate}/specs/*.antt")):
            with open(path, encoding="utf-8") as file:
                source = file.read()
            names, name = dict.fromkeys(DEFINED.findall(source)), os.path.basename(path)
            if names and name != "Lib.antt":
                cells = (f"[{name}](../crates/{crate}/specs/{name})", head_of(source), " ".join(f"`{each}`" for each in names))
                rows.append("| " + " | ".join(each.replace("|", "\\|") for each in cells) + " |\n")
        if rows:
            text += f"\n### `{crate}`\n\n| file | holds | names |\n|---|---|---|\n{''.join(rows)}"
    return text
