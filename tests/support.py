"""What the checks share: how a result is told, a folder that goes away, an environment without
strangers, made lockfiles and mirrors, the bytes of a cache's entry, and shims before the C library.

A check is a file of tests/checks that ends with a call of `check`. Without words it runs its short
form, which the gate runs; with `--long` and words of its own the long one, for a release. It prints
a line for each result: `passed: TITLE`, `FAILED: TITLE: why` or `skipped: TITLE: why`, and ends with
status 1 where one has failed. The program is crates/cargo_audit/out/cargo_audit, or the one that
CARGO_AUDIT_PROGRAM names."""
import argparse
import importlib.machinery
import importlib.util
import json
import os
import random
import re
import shutil
import signal
import subprocess
import sys
import tempfile
import traceback
from typing import NamedTuple

TOP = os.path.dirname(os.path.dirname(os.path.abspath(__file__)))
# the current folder before a check went to its own
BEGAN = os.environ.get("PWD", "/")
PROGRAM = os.path.abspath(os.environ.get("CARGO_AUDIT_PROGRAM") or f"{TOP}/crates/cargo_audit/out/cargo_audit")

# ---- results

_failed = []


def _line(word, title, said):
    said = str(said).strip().replace("\n", "\\n")
    print(f"{word}: {title}{': ' if said else ''}{said}", flush=True)


def passed(title, said=""):
    _line("passed", title, said)


def failed(title, why):
    _failed.append(title)
    _line("FAILED", title, why)


def skipped(title, why):
    _line("skipped", title, why)


def told(title, good, said=""):
    """A result: whether what was seen is what has to come."""
    if good:
        passed(title, said)
    else:
        failed(title, said or "otherwise")


# ---- a check


class Given(NamedTuple):
    """What a check was started with."""

    is_long: bool
    seed: int
    words: list

    def random(self):
        return random.Random(self.seed)

    def number(self, at, default):
        """The word at a place as a number."""
        return int(self.words[at]) if len(self.words) > at else default


def _given(seed):
    if sys.argv[1:2] in (["-h"], ["--help"]):
        print(sys.modules["__main__"].__doc__)
        sys.exit(0)
    parser = argparse.ArgumentParser(usage="%(prog)s [--seed N] [--long [WORD ..]]", add_help=False)
    parser.add_argument("--seed", type=int, default=seed)
    parser.add_argument("--long", nargs=argparse.REMAINDER)
    given = parser.parse_args()
    words = given.long or []
    if words[:1] == ["--seed"]:
        given.seed, words = int(words[1]), words[2:]
    return Given(given.long is not None, given.seed, words)


def _stopped(number, _frame):
    sys.exit(128 + number)


def _memory():
    """The folder of a file system in memory, if there is one in which programs may be run."""
    is_one = os.path.isdir("/dev/shm") and os.access("/dev/shm", os.W_OK) and not os.statvfs("/dev/shm").f_flag & os.ST_NOEXEC
    return "/dev/shm" if is_one else None


def check(short, long=None, tools=(), needs_program=True, seed=1, in_memory=False):
    """Runs the short or the long form of a check in a folder of its own, which goes away, and ends.
    Where the disk doesn't matter, the folder of the short form lies in memory, so that no sync waits."""
    given = _given(seed)
    name = os.path.basename(sys.argv[0])
    for each in (signal.SIGTERM, signal.SIGHUP):
        signal.signal(each, _stopped)
    missing = [tool for tool in tools if not shutil.which(tool)]
    if missing:
        skipped(name, f"{', '.join(missing)} isn't on the PATH")
        sys.exit(0)
    if needs_program and not os.access(PROGRAM, os.X_OK):
        failed(name, f"no program is built at {PROGRAM}")
        sys.exit(1)
    above = _memory() if in_memory and not given.is_long else None
    with tempfile.TemporaryDirectory(prefix=f"check-{name}-", dir=above, ignore_cleanup_errors=True) as folder:
        os.chmod(folder, 0o755)
        os.chdir(os.path.realpath(folder))
        try:
            (long if given.is_long and long else short)(given)
        except Exception as error:  # what a check can't do is told as a result
            traceback.print_exc()
            failed(name, f"{type(error).__name__}: {error}")
        finally:
            for child in _children:
                end(child)
            os.chdir("/")
    sys.exit(1 if _failed else 0)


class folder:
    """A new folder below the check's own, which is the current one meanwhile and goes away then."""

    above = None

    def __enter__(self):
        self.before = os.getcwd()
        self.at = tempfile.mkdtemp(dir=self.above or self.before)
        os.chmod(self.at, 0o755)
        os.chdir(self.at)
        return self.at

    def __exit__(self, *_):
        os.chdir(self.before)
        shutil.rmtree(self.at, ignore_errors=True)


def folder_in(above):
    """The same below another folder."""
    made = folder()
    made.above = above
    return made


# ---- processes

# what a program may need of the environment that the check was started in
_KEPT = ("PATH", "LANG", "LC_ALL", "TZ", "TMPDIR", "LD_LIBRARY_PATH", "ASAN_OPTIONS")
_children = []


def environment(**more):
    """An environment with none of the variables that the program reads, but for these; HOME is the current folder."""
    kept = {name: os.environ[name] for name in _KEPT if name in os.environ}
    return kept | {"HOME": os.getcwd()} | more


class Ran(NamedTuple):
    """How a run ended: its status, its output and its errors. Without an end in its time the status is None."""

    status: int | None
    out: str
    err: str


def _text(said):
    return (said or b"").decode("utf-8", "replace")


def start(words, env=None, **more):
    """A process that runs beside the check, and is ended with it."""
    _children[:] = [child for child in _children if child.poll() is None]
    child = subprocess.Popen(words, env=environment() if env is None else env, **more)
    _children.append(child)
    return child


def end(child):
    """Kills a process that was started here, if it still runs."""
    if child.poll() is None:
        child.kill()
        child.wait()


def ended(child, seconds=60, given=None):
    """How a process that was started ends; it is killed where that takes too long."""
    try:
        out, err = child.communicate(given, timeout=seconds)
        return Ran(child.returncode, _text(out), _text(err))
    except subprocess.TimeoutExpired:
        child.kill()
        out, err = child.communicate()
        return Ran(None, _text(out), _text(err))


def run(words, env=None, seconds=60, given=None, **more):
    """Runs a program to its end; `given` is its standard input."""
    more.setdefault("stdin", subprocess.DEVNULL if given is None else subprocess.PIPE)
    more = {"stdout": subprocess.PIPE, "stderr": subprocess.PIPE} | more
    return ended(start(words, env, **more), seconds, given.encode() if isinstance(given, str) else given)


def audit(*words, before=(), seconds=60, given=None, **settings):
    """An audit by the program; `before` are words in front of it, settings are variables."""
    return run([*before, PROGRAM, "audit", *words], environment(**settings), seconds, given)


def start_audit(*words, **settings):
    """An audit that runs beside the check."""
    return start([PROGRAM, "audit", *words], environment(**settings), stdin=subprocess.DEVNULL, stdout=subprocess.PIPE, stderr=subprocess.PIPE)


def as_nobody():
    """The words that run a program as a user to whom a read-only folder is shut: none where the
    check isn't root; None where it is, and setpriv isn't there."""
    if os.geteuid() != 0:
        return []
    if not shutil.which("setpriv"):
        return None
    return ["setpriv", "--reuid=65534", "--regid=65534", "--clear-groups"]


def program_for_all():
    """A copy of the program in the current folder, which every user may run."""
    shutil.copy(PROGRAM, "program")
    os.chmod("program", 0o755)
    return os.path.abspath("program")


def with_mounts(script, env=None):
    """Runs a script of the shell in the current folder with mounts of its own: nobody else sees them, and
    they go away with it. It ends with 77 where they can't be made. None then, and where none can be."""
    if not shutil.which("unshare") or not shutil.which("mount"):
        return None
    spaces = ["unshare", "--mount"] if os.geteuid() == 0 else ["unshare", "--user", "--map-root-user", "--mount"]
    ran = run([*spaces, "bash", "-c", script], env)
    return None if ran.status == 77 or "unshare failed" in ran.err else ran


def on_small_disk(size, script, env=None):
    """The same, where the folder `small` is a disk of this size."""
    os.makedirs("small", exist_ok=True)
    return with_mounts(f"mount -t tmpfs -o size={size} tmpfs small || exit 77\n{script}", env)


def shim(name):
    """The library of tests/shims/NAME.c, which stands before the C library (LD_PRELOAD); None without cc."""
    if not shutil.which("cc"):
        return None
    to = os.path.abspath(f"{name}.so")
    if not os.path.exists(to):
        made = run(["cc", "-O1", "-shared", "-fPIC", "-o", to, f"{TOP}/tests/shims/{name}.c", "-ldl"], {"PATH": os.environ["PATH"]})
        if made.status != 0:
            raise OSError(f"cc: {made.err}")
    return to


def script(path):
    """A script of this repository as a module."""
    loader = importlib.machinery.SourceFileLoader(re.sub(r"\W", "_", os.path.basename(path)), f"{TOP}/{path}")
    module = importlib.util.module_from_spec(importlib.util.spec_from_loader(loader.name, loader))
    loader.exec_module(module)
    return module


def cargo_folder():
    """The folder of the real cargo and rustc, behind rustup if that stands there; None without cargo."""
    if not shutil.which("cargo") or not shutil.which("rustc"):
        return None
    found = subprocess.run(["rustc", "--print", "sysroot"], cwd="/", capture_output=True, text=True, check=False).stdout.strip()
    return f"{found}/bin" if os.access(f"{found}/bin/cargo", os.X_OK) else os.path.dirname(shutil.which("cargo"))


def with_cargo(home, programs="", **more):
    """An environment in which the real cargo runs without a network, with a home of its own and the
    programs of a folder."""
    path = [programs] * bool(programs) + [cargo_folder(), os.environ["PATH"]]
    return environment(PATH=":".join(path), CARGO_NET_OFFLINE="true", CARGO_HOME=os.path.abspath(home), **more)


# ---- programs over tables


def row_word(content):
    """A text or bytes as a word of a row."""
    plain = content.encode() if isinstance(content, str) else content
    if not plain:
        return "''"
    is_safe = set(b"abcdefghijklmnopqrstuvwxyzABCDEFGHIJKLMNOPQRSTUVWXYZ0123456789/.:_+=@") | ({ord("-")} if plain != b"-" else set())
    return "".join(chr(byte) if byte in is_safe else f"\\x{byte:02x}" for byte in plain)


def rows(crate, section, lines):
    """The answers of a program over tables to rows of a section; None where it isn't built."""
    program = f"{TOP}/crates/{crate}/out/{crate}"
    if not os.access(program, os.X_OK):
        return None
    return run([program], given=f"== {section}\n" + "\n".join(lines) + "\n").out.split("\n")[1:]


# ---- files


def put(path, content):
    """Writes a file, and the folders above it."""
    os.makedirs(os.path.dirname(path) or ".", exist_ok=True)
    with open(path, "wb") as out:
        out.write(content.encode() if isinstance(content, str) else content)


def given_path(path):
    """A path that was given as a word, from the folder that the check was started in."""
    return os.path.normpath(os.path.join(BEGAN, path))


def bytes_of(path):
    with open(path, "rb") as file:
        return file.read()


def text_of(path):
    return bytes_of(path).decode()


def files_below(at):
    """The paths of all files below a folder, in order."""
    return sorted(os.path.relpath(f"{above}/{name}", at) for above, _, names in os.walk(at) for name in names)


# ---- crashes, by tests/shims/lose.c


def file_or_none(path):
    return bytes_of(path) if os.path.isfile(path) else None


def names_synced(folder):
    """The names that a folder had at its last sync; None where it never had one."""
    names = file_or_none(f"{folder}/.names")
    return None if names is None else set(names.decode().split("\n"))


# ---- lockfiles, mirrors and lines of verdicts

SOURCE = "registry+https://github.com/rust-lang/crates.io-index"
DIGEST = "0123456789abcdef" * 4


def make_lockfile(count, each=5, path="Cargo.lock"):
    """A made lockfile, by bench/make-lockfile."""
    made = run([sys.executable, f"{TOP}/bench/make-lockfile", str(count), str(each)])
    if made.status != 0:
        raise OSError(f"make-lockfile: {made.err}")
    put(path, made.out)


def make_mirror(at="index-mirror", seed=1, lines=(10, 60), lockfile="Cargo.lock"):
    """A made mirror of a lockfile, by bench/make-mirror; the lines of verdicts that have to come."""
    words = [f"{TOP}/bench/make-mirror", lockfile, at, "--lines", *map(str, lines), "--seed", str(seed)]
    made = run([sys.executable, *words])
    if made.status != 0:
        raise OSError(f"make-mirror: {made.err}")
    return made.out


def lockfile_of(packages):
    """The text of a lockfile of packages of the default registry, each a name and a version."""
    blocks = (f'\n[[package]]\nname = "{name}"\nversion = "{version}"\nsource = "{SOURCE}"\n' for name, version in packages)
    return "version = 4\n" + "".join(blocks)


def index_path(name):
    """The path of a crate's file in an index."""
    name = name.lower()
    if len(name) <= 2:
        return f"{len(name)}/{name}"
    return f"3/{name[0]}/{name}" if len(name) == 3 else f"{name[:2]}/{name[2:4]}/{name}"


def index_line(name="a", version="0.1.0", yanked=True, deps=(), cksum=DIGEST):
    """A line of a crate's file in an index."""
    record = {"name": name, "vers": version, "deps": list(deps), "cksum": cksum, "features": {}, "yanked": yanked}
    return json.dumps(record, separators=(",", ":"))


def verdict(name, version, said):
    """A line of verdicts."""
    return f'"{name}" {version} {said}\n'


# ---- cache files, by docs/cache-entry.md

INDEX = b"sparse+https://index.crates.io/"
HEAD = b"\x04\x02\0\0\0"


def cache_path(name, at="index-cache"):
    """The file of a crate in a cache folder."""
    return f"{at}/.cache/{index_path(name)}"


def entry(lines, revision=b'etag: "x"', url=INDEX, version=b"0.1.0"):
    """An entry of lines that have the same version."""
    pairs = b"".join(version + b"\0" + (line.encode() if isinstance(line, str) else line) + b"\0" for line in lines)
    return HEAD + url + b"\0" + revision + b"\0" + pairs


def older_entry(content):
    """The same entry in version 3, which didn't name its index."""
    return b"\x03" + content[1:5] + content[5:].split(b"\0", 1)[1]


def entry_lines(content, url=INDEX):
    """The lines of an entry, or None where it is refused."""
    if content[:5] != HEAD:
        return None
    parts = content[5:].split(b"\0")
    if parts[-1] == b"":
        parts.pop()
    if len(parts) < 4 or parts[0] != url:
        return None
    try:
        revision = parts[1].decode("utf-8")
    except UnicodeDecodeError:
        return None
    name, colon, _ = revision.partition(": ")
    is_known = name in ("etag", "last-modified") if colon else revision == "Unknown" or re.fullmatch("[0-9a-fA-F]{40}", revision)
    return parts[3::2] if is_known else None


# ---- the lock of a cache folder

LOCK_NAME = ".audit-lock"
WAITS = "Blocking waiting for file lock on cache folder\n"
