"""What tests/checks/pages looks up for the index of docs/DIFFERENCES.md: the public items of a crate, each with its members and
traits, and the rows of that page by their headings."""
import glob
import re

INDEX = "## Upstream's items and ours\n"
TOKEN = re.compile(r"""//[^\n]*|/\*.*?\*/|b?"(?:\\.|[^"\\])*"|b?'(?:\\(?:x..|.)|[^'\\\n])'""", re.S)
KINDS = "struct|enum|trait|type|const|static|fn"


def bare(text):
    """A source without remarks, texts and tests."""
    text = TOKEN.sub(lambda found: "" if found[0].startswith("/") else '""', text)
    return re.sub(r"(?ms)^#\[cfg\(test\)\]\n.*?^\}\n", "", text)


def end_of(text, at):
    """Where the bracket that opens at a place closes."""
    depth = 0
    for place in range(at, len(text)):
        depth += (text[place] in "([{") - (text[place] in ")]}")
        if depth == 0:
            return place
    return len(text)


def members_of(text, kind, at):
    """The public fields or the variants of a type whose name ends at a place."""
    opened = re.compile(r"[{;(]").search(text, at)
    body = text[opened.start() + 1:end_of(text, opened.start())]
    if text[opened.start()] == "(":
        return ["0"] if re.search(r"\bpub ", body) else []
    if kind == "struct":
        return re.findall(r"(?m)^\s*pub (\w+)\s*:", body)
    return re.findall(r"(\w+)\s*(?:,|$)", re.sub(r"#\[[^]]*\]|\{[^{}]*\}|\([^()]*(?:\([^()]*\)[^()]*)*\)", "", body))


def trait_of(head):
    """A trait as the page writes it: without its path and without lifetimes."""
    front, opened, behind = head.partition("<")
    kept = [each.strip() for each in re.sub(r"'\w+ ?", "", behind.removesuffix(">")).split(",")] if opened else []
    inner = re.sub(r"<>", "", ", ".join(each for each in kept if each))
    return front.split("::")[-1] + (f"<{inner}>" if inner else "")


def handed_out(text):
    """The names that a lib.rt hands out."""
    return set(re.findall(r"\w+", " ".join(re.findall(r"(?m)^pub use [^;]*;", text))))


def items_of(folder):
    """The public items of a crate, and what each has: fields, variants, methods, traits."""
    items, had, handed = set(), {}, set()
    for path in sorted(glob.glob(f"{folder}/src/**/*.rt", recursive=True)):
        with open(path, encoding="utf-8") as file:
            text = bare(file.read())
        if path == f"{folder}/src/lib.rt":
            handed = handed_out(text) | set(re.findall(rf"(?m)^pub (?:const )?(?:{KINDS}) (\w+)", text))
        for found in re.finditer(rf"(?m)((?:^#\[[^\n]*\]\n)*)^pub (?:const )?({KINDS}) (\w+)", text):
            items.add(found[3])
            derived = re.findall(r"\w+", " ".join(re.findall(r"derive\(([^)]*)\)", found[1])))
            # the macro for errors writes how they are displayed
            more = ["Display"] if "ThisError" in derived else []
            own = members_of(text, found[2], found.end()) if found[2] in ("struct", "enum") else []
            had.setdefault(found[3], set()).update(derived, more, own)
        for found in re.finditer(r"(?m)^impl(?:<[^{]*?>)? ([^{]*?)\{", text):
            trait, is_trait, of = re.sub(r"\s*\bwhere\b.*", "", found[1], flags=re.S).rpartition(" for ")
            body = text[found.end():end_of(text, found.end() - 1)]
            own = [trait_of(trait)] if is_trait else re.findall(r"(?m)^\s*pub (?:const )?fn (\w+)", body)
            had.setdefault(re.match(r"\w+", of.strip())[0], set()).update(own)
    return items & handed, had


# what is derived, or is a trait of the toolchain alone: the page names these only where upstream has them
DERIVED = set("Clone Copy Debug Drop Eq Hash Model PartialEq ThisError".split())
LINK = re.compile(r"\[((?:`[^`]*`|[^]`])*)\]\(#([\w-]+)\)")


def told_in(differences, anchor_of):
    """For each heading of docs/DIFFERENCES.md the rows by their first cells, and the points by the words that they begin with. A
    row without a first cell goes on with the one above it."""
    told, now, above = {}, None, ""
    for line in differences.splitlines():
        if line.startswith("#"):
            now = told.setdefault(anchor_of(line.lstrip("# ")), {})
        elif found := re.match(r"\| (.*?) ?\||- \*\*(.+?)\*\*", line):
            above = (found[1] or found[2] or above).strip().removesuffix(".")
            now[above] = now.get(above, "") + line
    return told


def words(text):
    """The words in a text's ticks, a generic one also without what it is of."""
    found = set(re.findall(r"`([^`]+)`", text))
    return found | set(re.findall(r"\w+", " ".join(found)))


def section(differences, title):
    return differences.partition(f"\n## {title}\n")[2].partition("\n## ")[0]


def wrong_rows(differences, crates, anchor_of):
    """What is wrong with the rows of the index, and how many rows, alike names, other public names of ours and links there are. A
    name that the page gives has to be there, or be named as lacking; a public name of ours has to be in the row of its type, in a
    row that this links to, or among what is added."""
    told, known, wrong, alike, others = told_in(differences, anchor_of), {}, [], 0, 0
    page = differences.partition(INDEX)[2]
    lacking = words(section(differences, "What is left out") + section(differences, "What the toolchain can't have"))
    added = lacking | words(section(differences, "What is added"))
    rows = [row for row in re.findall(r"(?m)^\| (.*) \|$", page) if not row.startswith("upstream |")]
    for row in rows:
        cells = [cell.strip() for cell in row.split(" | ")] if row.count(" | ") == 3 else re.split(r" ?\| ?", row)
        if len(cells) != 4:
            wrong.append(f"a row of {len(cells)} cells: {row[:60]}")
            continue
        names, here, same = (re.findall(r"`([^`]+)`", cell) for cell in cells[:3])
        linked = words(" ".join(told.get(anchor, {}).get(label, "") for label, anchor in LINK.findall(cells[3])))
        crate, _, other = here[0].partition("::") if here else ("", "", "")
        if crate and crate not in known:
            known[crate] = items_of(f"{crates}/{crate}")
        items, had = known.get(crate, (set(), {}))
        ours = [other] if other else names if crate else []
        wrong.extend(f"{crate} has no public {name}" for name in ours if name not in items)
        wrong.extend(f"{ours[0]} of {crate} has no {name}" for name in same if name not in had.get(ours[0], ()))
        if not (same or cells[2] in ("alike", "-")) or not (same or cells[2] == "alike" or cells[3]):
            wrong.append(f"nothing is said of {cells[0][:60]}")
        alike += len(same) or (len(names) if cells[2] == "alike" else 0)
        # names that differ: there, or named as lacking
        there = items.union(*(had.get(name, ()) for name in ours))
        differ = re.findall(r"`([^`]+)`", LINK.sub("", cells[3])) if ours else []
        wrong.extend(f"{ours[0]} of {crate} has no {name}, and nothing says so" for name in differ
                     if name not in there | {each.partition("<")[0] for each in there} | linked | lacking)
        # names of ours: in the row, in one that it links to, or added
        more = {name for each in ours for name in had.get(each, ()) if name not in DERIVED}
        wrong.extend(f"nothing tells of {name} of {ours[0]}" for name in sorted(more)
                     if not {name, name.partition("<")[0]} & (set(same) | set(differ) | words(cells[3]) | linked | added))
        others += len(more - set(same))
        known.setdefault("missing", set()).update(names if not crate else ())
    everything = set()
    for path in sorted(glob.glob(f"{crates}/*/src/lib.rt")):
        crate = path.split("/")[-3]
        items, had = known[crate] if crate in known else items_of(f"{crates}/{crate}")
        wrong.extend(f"{name} is named as lacking, and {crate} has it" for name in sorted(items & known["missing"]))
        everything |= {crate} | items.union(*(had[name] for name in items if name in had))
    wrong.extend(f"{name} is named as added, and no library has it"
                 for name in sorted(set(re.findall(r"`(\w+)`", section(differences, "What is added"))) - everything))
    links = LINK.findall(page)
    wrong.extend(f"no row {label} under {anchor}" for label, anchor in links
                 if label not in told.get(anchor, ()) and label != "what holds everywhere")
    return wrong, (len(rows), alike, others, len(links))
