"""Transcripts: Markdown pages with console blocks that are run and compared byte for byte.

A block that begins with `console` holds commands and what each of them does:

    ```console over project needs flock
    $ cargo audit --verdicts
    "a" 1.0.0 yanked
    $ cargo audit -f none
    error stream:
    error: none isn't there
    status 2
    ```

`$ ` begins a command of bash; a line with `> ` goes on with it. Behind it stand the lines of its
output, then those of its error stream behind the line `error stream:`, then its status. A stream
that isn't told has to be empty, a status that isn't told is 0. A last line `no newline` says that
the stream doesn't end with one. `[FOLDER]` stands for the folder of the block, `[HOME]` for that of
HOME.

Each block runs in a new folder, with PATH, HOME, LC_ALL and TMPDIR alone in its environment. `over
NAME` copies a folder that lies beside the page into it; `needs TOOL` skips the block where a command
isn't there. A block that begins with `file PATH` lays a file for the blocks behind it, up to the
next heading of its level; one in front of all headings but the first is laid for the whole page.

In the pages for readers a block that begins with `text` and the line `$ ..` is an example: it runs
over a copy of examples/, and its streams are one, as on a terminal."""
import os
import re
import shutil
import subprocess
import tempfile

TESTS = os.path.dirname(os.path.abspath(__file__))
TOP = os.path.dirname(TESTS)
SECONDS = 60
# cargo hands its words on to the program that the first of them names; where a block doesn't ask for
# the real one, this stands for it
CARGO = '#!/bin/sh\nexec "cargo-$1" "$@"\n'


class Command:
    """A command, and what is told of it."""

    def __init__(self, text):
        self.text, self.out, self.err, self.status = text, [], [], 0


class Block:
    """Commands that run one after the other in a folder of their own."""

    def __init__(self, page, line, title, words, files):
        self.page, self.line, self.title, self.files = page, line, title, dict(files)
        self.is_example = words[:1] == ["text"]
        self.over = words[words.index("over") + 1] if "over" in words else None
        self.needs = words[words.index("needs") + 1:] if "needs" in words else []
        self.lines, self.commands = [], []

    def name(self):
        return f"{os.path.relpath(self.page, TOP)}:{self.line}"

    def read(self):
        """Finds the commands in the lines, and what is told of each."""
        part = None
        for line in self.lines:
            if line.startswith("$ "):
                self.commands.append(Command(line[2:]))
                part = self.commands[-1].out
            elif not self.commands:
                raise ValueError(f"{self.name()}: a line in front of the first command: {line}")
            elif line.startswith("> ") and part is self.commands[-1].out and not part:
                self.commands[-1].text += "\n" + line[2:]
            elif self.is_example:
                part.append(line)
            elif line == "error stream:":
                part = self.commands[-1].err
            elif re.fullmatch(r"status \d+", line):
                self.commands[-1].status = int(line[7:])
            else:
                part.append(line)


def lines_of(page):
    with open(page, encoding="utf-8") as text:
        return text.read().splitlines()


def blocks_of(page):
    """The blocks of a page that are run, each with the files that are laid for it."""
    found, title, level, laid = [], "", 0, []
    into, fence = None, None
    for number, line in enumerate(lines_of(page), 1):
        if fence:
            if line == fence:
                fence = None
            elif into is not None:
                into.append(line)
        elif opened := re.match(r"(```+)(.*)$", line):
            fence, words, into = opened[1], opened[2].split(), None
            if words[:1] == ["file"]:
                laid.append((level, words[1], []))
                into = laid[-1][2]
            elif words[:1] == ["console"] or words == ["text"]:
                files = {path: text for _, path, text in laid}
                found.append(Block(page, number, title, words, files))
                into = found[-1].lines
        elif heading := re.match(r"(#+) (.*)$", line):
            level, title = len(heading[1]), heading[2]
            laid = [it for it in laid if it[0] < level]
    found = [it for it in found if not it.is_example or it.lines[:1] and it.lines[0].startswith("$ ")]
    for block in found:
        block.read()
    return found


def text_of(lines):
    """The bytes of lines as a transcript tells them."""
    if lines and lines[-1] == "no newline":
        return "\n".join(lines[:-1]).encode()
    return "".join(it + "\n" for it in lines).encode()


def lay(block, work):
    """What stands in the folder of a block before its first command."""
    if block.is_example:
        shutil.copytree(f"{TOP}/examples", work, dirs_exist_ok=True)
    if block.over:
        shutil.copytree(f"{os.path.dirname(block.page)}/{block.over}", work, dirs_exist_ok=True)
    for path, lines in block.files.items():
        os.makedirs(os.path.dirname(f"{work}/{path}"), exist_ok=True)
        with open(f"{work}/{path}", "wb") as out:
            out.write(text_of(lines))


def programs_in(folder, program, needs):
    """A folder of programs with the tested one in it, and the stand-in for cargo."""
    os.makedirs(folder)
    # a link, since a copy that is being written elsewhere can't be started for a moment
    os.symlink(os.path.abspath(program), f"{folder}/cargo-audit")
    for name in ("cargo-audit-fresh", "cargo-audit-mirror"):
        os.symlink(f"{TOP}/tools/{name}", f"{folder}/{name}")
    if "cargo" not in needs:
        with open(f"{folder}/cargo", "w", encoding="utf-8") as out:
            out.write(CARGO)
        os.chmod(f"{folder}/cargo", 0o755)


def script_of(block, kept, places):
    """The block for bash: the streams and the status of each command go to files of their own."""
    script = []
    for number, command in enumerate(block.commands):
        text = "true" if block.is_example and command.text == "cd examples" else command.text
        for word, place in places.items():
            text = text.replace(word, place)
        err = "2>&1" if block.is_example else f"2> {kept}/{number}.err"
        script += [f"{{ {text}\n}} > {kept}/{number}.out {err}", f"echo $? > {kept}/{number}.status"]
    return "\n".join(script)


def bytes_of(path):
    try:
        with open(path, "rb") as file:
            return file.read()
    except FileNotFoundError:
        return None


def shown(data):
    return "nothing\n" if data in (None, b"") else data.decode(errors="backslashreplace") + ("" if data.endswith(b"\n") else "  (no newline)\n")


def differences(block, kept, places):
    """What each command did otherwise than the block tells."""
    said = []
    for number, command in enumerate(block.commands):
        status = bytes_of(f"{kept}/{number}.status")
        if status is None:
            return said + [f"$ {command.text}\nit didn't end within {SECONDS} seconds, or ended the shell\n"]
        streams = [("output", command.out, f"{kept}/{number}.out")]
        if not block.is_example:
            streams.append(("error stream", command.err, f"{kept}/{number}.err"))
            if int(status) != command.status:
                said.append(f"$ {command.text}\nstatus {int(status)}, and not {command.status}\n")
        for title, told, path in streams:
            wanted, got = text_of(told), bytes_of(path)
            for word, place in places.items():
                wanted = wanted.replace(word.encode(), place.encode())
            if wanted != got:
                said.append(f"$ {command.text}\n--- {title}, as told\n{shown(wanted)}--- {title}, now\n{shown(got)}")
    return said


def lacking(block):
    """Why a block can't be run here, if it can't."""
    for tool in block.needs:
        if not shutil.which(tool):
            return f"{tool} isn't there"
    return None


def run_block(block, program):
    """The differences of a block from what the program does; none where it is as told."""
    room = os.path.realpath(tempfile.mkdtemp(prefix="transcript-"))
    work, home, kept = f"{room}/work", f"{room}/home", f"{room}/kept"
    try:
        for folder in (work, home, kept, f"{room}/tmp"):
            os.makedirs(folder)
        programs_in(f"{room}/bin", program, block.needs)
        lay(block, work)
        places = {"[FOLDER]": work, "[HOME]": home}
        env = {"PATH": f"{room}/bin:{os.environ['PATH']}", "HOME": home, "LC_ALL": "C.UTF-8", "TMPDIR": f"{room}/tmp"}
        shell = subprocess.Popen(["bash", "-c", script_of(block, kept, places)], cwd=work, env=env, stdin=subprocess.DEVNULL,
                                 stdout=subprocess.DEVNULL, stderr=subprocess.DEVNULL, start_new_session=True)
        try:
            shell.wait(timeout=SECONDS)
        except subprocess.TimeoutExpired:
            pass
        finally:
            end_all(shell)
        return differences(block, kept, places)
    finally:
        subprocess.run(["chmod", "-R", "u+rwX", room], stderr=subprocess.DEVNULL, check=False)
        shutil.rmtree(room, ignore_errors=True)


def end_all(shell):
    """Ends the shell and what it left in the background."""
    try:
        os.killpg(shell.pid, 9)
    except ProcessLookupError:
        pass
    shell.wait()
