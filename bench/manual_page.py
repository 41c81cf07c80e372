"""The manual pages, for bench/manual: the texts that `-h` prints, in the form of man(7)."""
import re

BLIND = ("Without a database an audit finds no vulnerability, and without a mirror folder no yanked version. Neither is a "
         "fault. The line \\(lqLoaded 0 security advisories\\(rq on the error stream tells the one, the cause \\(lqabsent\\(rq of each "
         "package the other. cargo\\-audit\\-fresh(1) refuses such audits.")


def plain(text):
    """A text of the help as roff has it: what stands between backticks is bold."""
    text = text.replace("\\", "\\e").replace("-", "\\-")
    text = re.sub(r"`([^`]*)`", r"\\fB\1\\fR", text)
    return "\\&" + text if text.startswith((".", "'")) else text


def words(line):
    """A line of usage: words in capitals stand for others, the rest is typed as it is."""
    parts = re.split(r"([A-Z][A-Z ]*[A-Z]|\b[A-Z]\b|[\[\]]|\.\.| )", line)
    return "".join(f"\\fI{each}\\fR" if re.fullmatch(r"[A-Z ]*[A-Z]", each)
                   else each if not re.fullmatch(r"[a-z-]+", each) else f"\\fB{plain(each)}\\fR" for each in parts)


def entry(head, text):
    return f".TP\n{head}\n{plain(text)}\n"


def option(one):
    spelt = ", ".join(f"\\fB{plain(each)}\\fR" for each in one.spellings())
    text = one.text if one.name != "--help" else "print the help"
    return entry(spelt + (f" \\fI{one.value}\\fR" if one.value else ""), text)


def usage_of(blocks):
    """The lines of usage, each with what it is for."""
    found = []
    for line in next(block for block in blocks if block[0] == "Usage:")[1:]:
        if not line.startswith("   "):
            found.append([line.strip(), ""])
        else:
            found[-1][1] = f"{found[-1][1]} {line.strip()}".strip()
    return found


def named(blocks, head):
    """Entries of a name and what it is."""
    found = []
    for line in next(block for block in blocks if block[0] == head)[1:]:
        if new := re.fullmatch(r" {2}(\S+) {2,}(.*)", line):
            found.append([new[1], new[2]])
        elif line.startswith("   "):
            found[-1][1] += " " + line.strip()
        elif begun := re.fullmatch(r" {2}((?:Under|With) [^:]*): (.*)", line):
            found.append([begun[1], begun[2]])
        else:
            found[-1][1] += " " + line.strip()
    return found


def spoken(blocks, head):
    return " ".join(next(block for block in blocks if block[0].startswith(head)))


def options(manual):
    titles = {"front": "Before audit", "audit": "After audit", "fix": "After fix", "bin": "After bin"}
    text = ".SH OPTIONS\n"
    for place, title in titles.items():
        text += f".SS {title}\n"
        if place == "audit":
            text += "Defaults are those without settings. What \\fB\\-\\-ignore\\fR and \\fB\\-\\-deny\\fR give is added to the lists of the settings.\n"
        text += "".join(option(one) for one in manual.of(place))
    return text + f".SS Values\n{plain(spoken(manual.blocks, 'The value of an option'))}\n"


def page(manual):
    upstream = plain(manual.upstream)
    parts = [f'.\\" Made by bench/manual of the text that -h prints; not to be changed by hand.\n'
             f'.TH CARGO\\-AUDIT 1 "{manual.day}" "{upstream}" "User Commands"\n']
    parts.append(".SH NAME\ncargo\\-audit \\- audit a Cargo.lock for vulnerable and yanked packages\n.SH SYNOPSIS\n")
    usage = usage_of(manual.blocks)
    parts.append("\n.br\n".join(words(line) for line, _ in usage) + "\n")
    parts.append(f".SH DESCRIPTION\n{plain(spoken(manual.blocks, 'Checks each'))}\n")
    parts.append(".SH COMMANDS\n" + "".join(entry(words(line), text) for line, text in usage))
    parts.append(options(manual))
    for title, head, bold in (("EXIT STATUS", "Exit status:", False), ("ENVIRONMENT", "Environment:", True), ("FILES", "Files:", True)):
        parts.append(f".SH {title}\n")
        parts += [entry(f"\\fB{plain(name)}\\fR" if bold or name.isdigit() else plain(name), text) for name, text in named(manual.blocks, head)]
    parts.append(f".SH CAVEATS\n{BLIND}\n")
    parts.append(f".SH VERSION\nThis page is that of version {manual.version} of the port, which follows {upstream} of upstream.\n")
    parts.append(".SH SEE ALSO\n.BR cargo (1),\n.BR cargo\\-audit\\-fresh (1),\n.BR cargo\\-audit\\-mirror (1).\nThe pages for users are listed in docs/use.md of the repository.\n")
    return "".join(parts)


# ---- the programs around it


def sections_of(text):
    """The sections of a help: its first paragraph, and for each head the entries below it, each a head and a text."""
    first, *others = text.split("\n\n")
    found = {}
    for block in others:
        head, *lines = block.split("\n")
        found[head.rstrip(":")] = rows = []
        for line in lines:
            if new := re.fullmatch(r" {2}(\S.*?)(?: {2,}(.*))?", line):
                rows.append([new[1], new[2] or ""])
            else:
                rows[-1][1] = f"{rows[-1][1]} {line.strip()}".strip()
    return " ".join(first.split("\n")), found


def head_of(text):
    """The head of an entry: values are in capitals without `_`, everything else is typed as it is."""
    return re.sub(r"[^ ,]+", lambda word: f"\\fI{word[0]}\\fR" if re.fullmatch(r"[A-Z]{3,}", word[0]) else f"\\fB{plain(word[0])}\\fR", text)


def tool_page(manual, name, about, text):
    """The page of a program around the audit, of its help."""
    first, sections = sections_of(text)
    usage = sections.pop("Usage")
    parts = [f'.\\" Made by bench/manual of the text that -h prints; not to be changed by hand.\n'
             f'.TH {plain(name.upper())} 1 "{manual.day}" "{manual.version}" "User Commands"\n'
             f".SH NAME\n{plain(name)} \\- {about}\n.SH SYNOPSIS\n"]
    parts.append("\n.br\n".join(words(line) for line, _ in usage) + "\n")
    parts.append(f".SH DESCRIPTION\n{plain(first)}\n.PP\n{plain('. '.join(told[:1].upper() + told[1:] for _, told in usage))}.\n")
    for title, rows in sections.items():
        parts.append(f".SH {title.upper()}\n" + "".join(entry(head_of(head), told) for head, told in rows))
    others = sorted({"cargo-audit", "cargo-audit-fresh", "cargo-audit-mirror"} - {name})
    return "".join(parts) + ".SH SEE ALSO\n" + ",\n".join(f".BR {plain(each)} (1)" for each in others) + ".\n"
