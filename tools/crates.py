"""The crates of the repository, how the toolchain proves one of them, what is kept of that, and such work side by side.

tools/build and tests/gate stand on this file. They work on a copy of the sources as they were when the call began. A library is proved
from nothing, over the statements alone of those below it: to load their proofs takes longer. So the compiler is called by its own words;
`rt lib` knows whole libraries only. The statements of a library are kept in its folder out/statements, with the sum of all that they
rest on. `tools/weights` tells what each crate takes; it orders the work and tells how long is left, and nothing else rests on it.
"""

import contextlib
import fcntl
import functools
import hashlib
import os
import pathlib
import re
import shlex
import shutil
import signal
import subprocess
import time

PARTS = ("src", "specs", "proofs")
PROGRAM = "pmfarm"
# (as tools/sources passes over them)
TESTS = re.compile(r"(^|/)(tests(/|\.rt$)|\w*_tests\.rt$)")
# Lines that are a comment alone. Nothing is proved by them, and no string of the sources has such a line.
COMMENTS = {".rt": re.compile(rb"(?m)^[ \t]*//.*\n?"), ".antt": re.compile(rb"(?m)^[ \t]*--(?!\S).*\n?")}
# The room for the version in a program.
ROOM, VERSION = 96, re.compile(rb"\d+\.\d+\.\d+ \(commit [^)]{1,80}\)(?: not proved here)? {0,90}")
TARGET = "x86_64-unknown-linux-gnu"
GIGABYTE = 1_000_000_000
# The share of the free memory that is taken, and what a second processor adds to the memory of a proof.
FREE, SHARE = 0.85, 0.3


class Crates:
    """What a folder's crates.txt lists: the crates, and what each stands on."""

    def __init__(self, top):
        self.top = pathlib.Path(top)
        lines = (self.top / "crates.txt").read_text().splitlines()
        self.lines = {it.split(":")[0].split()[0]: it for it in lines if it.partition("#")[0].partition(":")[0].strip()}
        named = {name: line.partition("#")[0].partition(":")[2].split() for name, line in self.lines.items()}
        self.uses = {name: [it for it in found if it in self.lines] for name, found in named.items()}
        # those of the kit
        self.takes = {name: sorted({"std", *found} - set(self.lines)) for name, found in named.items()}

    def folder(self, name):
        return self.top / "crates" / name

    def all_of(self, uses, name):
        """The crates below one, each after those that it stands on."""
        found = []
        for it in uses[name]:
            found += [low for low in [*self.all_of(uses, it), it] if low not in found]
        return found

    @functools.cached_property
    def rests(self):
        """What each crate's proof stands on: its crates, but for those that its tests alone name."""
        return {name: [it for it in found if not self.is_of_tests(name, it)] for name, found in self.uses.items()}

    def is_of_tests(self, name, other):
        found = [it for part in PARTS for it in (self.folder(name) / part).rglob("*") if it.is_file() and other.encode() in it.read_bytes()]
        return bool(found) and all(TESTS.search(str(it.relative_to(self.folder(name)))) for it in found)

    def is_program(self, name):
        return (self.folder(name) / "src" / "main.rt").is_file()

    def root(self, name):
        return "src/main.rt" if self.is_program(name) else "src/lib.rt"

    def made(self, name):
        """What the proof of a crate makes: the statements of a library, or the program."""
        out = self.folder(name) / "out"
        return out / name if self.is_program(name) else out / "statements" / f"{name}.rlib"

    @property
    def of_program(self):
        """The crates that the program is made of, the lowest first."""
        return [*self.all_of(self.rests, PROGRAM), PROGRAM]

    def copy(self, target):
        """These crates as they are now, in another folder."""
        shutil.copytree(self.top / "crates", target / "crates", ignore=shutil.ignore_patterns("out"))
        for name in ("crates.txt", "HANDLES"):
            if (self.top / name).is_file():
                shutil.copy2(self.top / name, target / name)
        return Crates(target)

    def interface(self, name):
        """A sum of what the crates above a proved library can see of it: its public items with their clauses, and its definitions."""
        return digest(*files(self.made(name) / "interface" / "lang", "src"), *files(self.folder(name), "specs"))

    # What is kept of a library.

    def kept_sum(self, name):
        file = self.made(name).with_suffix(".sum")
        return file.read_text() if not self.is_program(name) and self.made(name).is_dir() and file.is_file() else None

    def take_kept(self, name, other):
        """Takes what another folder has kept of a library, by links: nobody changes such a file."""
        shutil.copytree(other.made(name), self.made(name), copy_function=link_or_copy, dirs_exist_ok=True)

    def keep(self, name, of, found):
        """Keeps what the proof of a library has made in the folder `of`, with the sum of all that it rests on."""
        target = self.made(name)
        (self.top / "out").mkdir(exist_ok=True)
        with open(self.top / "out" / "kept.lock", "w") as lock:
            with contextlib.suppress(OSError):
                # (some file systems have no locks)
                fcntl.flock(lock, fcntl.LOCK_EX)
            target.with_suffix(".sum").unlink(missing_ok=True)
            shutil.rmtree(target, ignore_errors=True)
            new = target.with_name(f"{name}.new")
            shutil.rmtree(new, ignore_errors=True)
            shutil.copytree(of.made(name), new, copy_function=link_or_copy)
            new.replace(target)
            target.with_suffix(".sum").write_text(found)


def link_or_copy(one, other):
    try:
        os.link(one, other)
    except OSError:
        shutil.copy2(one, other)


def command(*words, folder=None):
    """What a command says, or nothing where it fails."""
    ran = subprocess.run(words, cwd=folder, stdin=subprocess.DEVNULL, capture_output=True, text=True, check=False)
    return ran.stdout if ran.returncode == 0 else ""


def digest(*texts):
    found = hashlib.sha256()
    for it in texts:
        data = it if isinstance(it, bytes) else it.encode()
        found.update(b"%d:" % len(data) + data)
    return found.hexdigest()


class Sums:
    """For each crate a sum of all that its proof rests on: the kit, its files but for tests and comments, and all below."""

    def __init__(self, crates, kit):
        self.crates, self.kit, self.known = crates, kit, {}

    def __call__(self, name):
        if name not in self.known:
            self.known[name] = digest(*self.of(name), *map(self, self.crates.rests[name]))
        return self.known[name]

    def of(self, name):
        """What goes into the sum of a crate itself."""
        return [self.kit, self.crates.lines[name], *files(self.crates.folder(name), *PARTS)]


def files(folder, *parts):
    """The names and the bytes of the files in some parts of a folder, but for tests and lines of comments."""
    found = [it for part in parts for it in sorted((folder / part).rglob("*")) if it.is_file()]
    named = [(str(it.relative_to(folder)), it) for it in found]
    return [text for name, it in named if not TESTS.search(name) for text in (name, without_comments(it))]


def without_comments(file):
    data = file.read_bytes()
    return COMMENTS[file.suffix].sub(b"", data) if file.suffix in COMMENTS else data


class Stamp:
    """What a run of ./test has left: its commit, its kit, and for each crate that passed the sums of its proof, its interface, and its edits.

    It has nothing where the file is not there, or a line of it was changed since.
    """

    HEAD = "# Left by `./test`: it proved each crate of these sums from nothing and refused its edits, or the stamp before stood for it.\n"

    def __init__(self, file):
        self.commit, self.kit, self.rows = "", "", []
        with contextlib.suppress(OSError, ValueError):
            *lines, last = [it for it in file.read_text().splitlines() if not it.startswith("#")]
            if last == f"sum {digest(*lines)}":
                self.rows = [(name, proof, interface, edits) for name, proof, interface, edits in map(str.split, lines[2:])]
                self.commit, self.kit = (it.partition(" ")[2] for it in lines[:2])
        self.proofs, self.interfaces, self.edits = ({it[0]: it[at] for it in self.rows} for at in (1, 2, 3))

    @classmethod
    def text(cls, commit, kit, rows):
        lines = [f"commit {commit}", f"kit {kit}", *(" ".join(it) for it in sorted(rows))]
        return cls.HEAD + "".join(f"{it}\n" for it in [*lines, f"sum {digest(*lines)}"])


class Kit:
    """The toolchain's kit: where it lies, by the page that `rt doc` names, and how its compiler is called."""

    def __init__(self, rt):
        self.folder = pathlib.Path(command(rt, "doc").strip()).parent
        self.name = command(rt, "version").strip()

    def words(self, crates, name, verb, jobs, *more, over=None):
        """A call of the compiler on a crate, over what is made of those below, or of these alone."""
        words = [self.folder / "bin" / "rattle", verb, "--crate-name", name, crates.root(name)]
        for it in crates.takes[name]:
            words += ["--extern", f"{it}={self.folder}/rlibs/{it}.rlib"]
        for it in crates.uses[name] if over is None else over:
            words += ["--extern", f"{it}={crates.made(it)}"]
        for it in (self.folder / "rlibs", *(crates.made(it).parent for it in crates.all_of(crates.uses, name))):
            words += ["-L", f"dependency={it}"]
        words += ["--antt-project", self.folder / "rattle" / "logic" / "antt-project.json"]
        words += ["--logic-built", self.folder / "logic_built", "--links", f"{name}=", "--jobs", jobs, *more]
        return [str(it) for it in words]

    def link(self, made, module):
        """The call that links a program."""
        words = [self.folder / "bin" / "rattle-link", "--target", TARGET, "--toolchain", self.folder / "toolchain", "-o", made, module]
        return [str(it) for it in (*words, self.folder / "c" / "libos_c.a", self.folder / "c" / "liblibc_c.a")]

    def program(self, crates, name, jobs, *more, after=("true",), over=None):
        """The crate, or its tests, proved and built into the program out/NAME, and then this command."""
        made = f"out/{name}"
        made_by = ("--toolchain", self.folder / "toolchain", "--backend", "llvm", "-o", f"{made}.o")
        build = self.words(crates, name, "build", jobs, *more, *made_by, over=over)
        return in_turn(build, self.link(made, f"{made}.o"), after)

    def proof(self, crates, name, jobs):
        """The crate proved from nothing, and what is made of it below out/."""
        over, made = crates.rests[name], crates.made(name)
        made.parent.mkdir(parents=True, exist_ok=True)
        if crates.is_program(name):
            return self.program(crates, name, jobs, over=over)
        return self.words(crates, name, "build", jobs, "--statements", "-o", made, over=over)


def in_turn(*commands):
    return ["sh", "-c", " && ".join(shlex.join(map(str, it)) for it in commands)]


class Built:
    """One of the two programs: the proved one, or the one that is made without proofs. Beside it are kept the list of the sources
    that it was built from, and its sum with that of each crate: what else has these bytes is this program."""

    def __init__(self, top, is_proved):
        kind, folder = ("proved", "crates/pmfarm/out") if is_proved else ("quick", "out/quick")
        self.top, self.is_proved, self.file = top, is_proved, top / folder / PROGRAM
        self.list, self.record = top / "out" / f"{kind}.built", top / "out" / f"{kind}.sums"

    def put(self, made, listed, kit, sums):
        """Puts a program that was made, and its object beside it, in its place, and the list last."""
        self.list.unlink(missing_ok=True)
        self.file.parent.mkdir(parents=True, exist_ok=True)
        rows = [f"kit {kit}", *(f"{name} {found}" for name, found in sums.items())]
        self.record.write_text("".join(f"{it}\n" for it in [digest(*self.parts(made.read_bytes())[::2]), *rows]))
        for it in (f"{PROGRAM}.o", PROGRAM):
            new = self.file.with_name(f"{it}.new")
            shutil.copy2(made.with_name(it), new)
            new.replace(self.file.with_name(it))
        # (what the program tells of itself; without it the program is as good)
        subprocess.run([self.top / "tools" / "stamp", self.file], stdin=subprocess.DEVNULL, check=False)
        new = self.list.with_suffix(".new")
        new.write_bytes(listed)
        new.replace(self.list)

    def made_of(self, data):
        """The kit and the sums of the crates of which a program is made, if it is this one."""
        with contextlib.suppress(OSError, ValueError):
            found, kit, *rows = self.record.read_text().splitlines()
            if found == digest(*self.parts(data)[::2]):
                return kit.partition(" ")[2], dict(it.split() for it in rows)
        return None

    @staticmethod
    def parts(data):
        """What stands in a program before its version, the version, and what stands behind it."""
        places = [it.start() for it in VERSION.finditer(data) if len(it.group()) >= ROOM]
        if len(places) != 1:
            raise ValueError("the program has no room for its version")
        return data[: places[0]], data[places[0] : places[0] + ROOM], data[places[0] + ROOM :]


def listed_by(top, kinds, rt):
    """The list of tools/sources, as ./pmfarm compares it, and the kind of the program that is built from these sources, if there is one."""
    words = ["bash", "-c", '. tools/sources && sources "$2" && kind_of "$1" "$2" >&2', "bash", kinds, rt]
    ran = subprocess.run(words, cwd=top, stdin=subprocess.DEVNULL, capture_output=True, check=True)
    if b" crates.txt\n" not in ran.stdout:
        raise FileNotFoundError("find lists no sources")
    return ran.stdout, ran.stderr.decode().strip()


class Weights:
    """What each crate takes: processor seconds of its proof, its tests and its edits, and gigabytes of its proof."""

    NAMES = {"proof": 100.0, "tests": 20.0, "edits": 60.0, "memory": 2.0}
    HEAD = "# Processor seconds of proof, tests and edits, and gigabytes of the proof; written by each whole run.\n"

    def __init__(self, file):
        self.of = {}
        with contextlib.suppress(OSError, ValueError):
            for line in pathlib.Path(file).read_text().splitlines():
                if line and not line.startswith("#"):
                    name, *numbers = line.split()
                    self.of[name] = dict(zip(self.NAMES, map(float, numbers)))

    def __call__(self, name, what):
        """The weight of a crate, or that of a usual one where none is told."""
        return self.of.get(name, self.NAMES).get(what, self.NAMES[what])

    def text(self, names):
        row = lambda name: "".join(f"{self(name, it):>8.{int(it == 'memory')}f}" for it in self.NAMES)
        return self.HEAD + "".join(f"{name:<14}{row(name)}\n" for name in names)


def folder_of_rooms(top):
    """Where rooms may lie: in a folder that neither git nor the toolchain looks into."""
    return top / (".git" if (top / ".git").is_dir() else "out")


def number_in(file, pattern=r"(\d+)"):
    with contextlib.suppress(OSError):
        found = re.search(pattern, pathlib.Path(file).read_text())
        return int(found[1]) if found else None
    return None


def processors():
    """The processors that this process may use, by the quota of its group too."""
    found = len(os.sched_getaffinity(0))
    quota = number_in("/sys/fs/cgroup/cpu.max", r"^(\d+)")
    period = number_in("/sys/fs/cgroup/cpu.max", r"^\d+ (\d+)")
    return max(1, min(found, quota // period)) if quota and period else found


def free_memory():
    """The free memory in bytes, by the limit of the group too, or 0 where it is not known."""
    found = [1024 * (number_in("/proc/meminfo", r"MemAvailable:\s+(\d+)") or 0)]
    limit, held = number_in("/sys/fs/cgroup/memory.max"), number_in("/sys/fs/cgroup/memory.current")
    if limit is not None:
        found.append(limit - (held or 0))
    return max(0, min(found))


class Task:
    """A command for a crate: `words` tell it, in `folder`, and `end` what comes of it. One that spreads takes `--jobs`."""

    phase, spreads, folder = "", False, None

    def __init__(self, name, crate, after=(), seconds=1.0, memory=2.0):
        self.name, self.crate, self.after, self.seconds, self.memory = name, crate, tuple(after), seconds, memory

    def words(self, jobs):
        raise NotImplementedError

    def end(self, status, said, seconds):
        """Returns whether it ended well, and the tasks that come of it."""
        return status == 0, []


class Proof(Task):
    """The proof of a crate from nothing, and what is made of it: the statements of a library, or the program."""

    phase, spreads = "proof", True

    def __init__(self, kit, crates, name, weights):
        super().__init__(name, name, crates.rests[name], weights(name, "proof"), weights(name, "memory"))
        self.kit, self.crates, self.folder = kit, crates, crates.folder(name)

    def words(self, jobs):
        return self.kit.proof(self.crates, self.crate, jobs)


class Running:
    """A task whose command runs."""

    def __init__(self, task, jobs, log):
        self.task, self.jobs, self.begun, self.log = task, jobs, time.monotonic(), log
        words = task.words(jobs)
        with open(log, "wb") as out:
            how = {"cwd": task.folder, "stdin": subprocess.DEVNULL, "stdout": out, "stderr": out, "start_new_session": True}
            self.process = subprocess.Popen(words, **how)

    def seconds(self):
        return time.monotonic() - self.begun

    def stop(self):
        with contextlib.suppress(OSError):
            os.killpg(self.process.pid, signal.SIGTERM)
        with contextlib.suppress(ChildProcessError):
            os.waitpid(self.process.pid, 0)
        self.process.returncode = -signal.SIGTERM


class Work:
    """Tasks side by side: as many as there are processors and memory for, proofs first, and those with the longest chain behind them."""

    def __init__(self, tasks, logs, guard=contextlib.nullcontext):
        """Logs are a folder. No signal that ends this process comes within a guard."""
        self.left, self.running, self.ended = list(tasks), {}, {}
        self.logs, self.guard, self.processors = logs, guard, processors()
        self.memory = FREE * free_memory() / GIGABYTE
        self.done = self.spent = 0.0

    def chains(self):
        """For each task the processor seconds of the longest chain that it begins."""
        known, above = {}, {}
        for task in self.left:
            for it in task.after:
                above.setdefault(it, []).append(task)

        def chain(task):
            if task.name not in known:
                known[task.name] = task.seconds + max(map(chain, above.get(task.name, ())), default=0.0)
            return known[task.name]

        return {task.name: chain(task) for task in [*self.left, *(it.task for it in self.running.values())]}

    def start(self):
        """Starts what may start, and gives up what waits for a task that did not end well."""
        chains = self.chains()
        for task in sorted(self.left, key=lambda it: (it.phase != "proof", -chains[it.name])):
            if any(self.ended.get(it) is False for it in task.after):
                self.left.remove(task)
                self.ended[task.name] = False
            elif all(self.ended.get(it) for it in task.after) and self.has_room(task.memory):
                jobs = 2 if task.spreads and self.is_late(chains[task.name]) and self.has_room(task.memory * (1 + SHARE), 2) else 1
                with self.guard():
                    self.left.remove(task)
                    running = Running(task, jobs, self.logs / f"{task.name}.log")
                    self.running[running.process.pid] = running

    def has_room(self, memory, jobs=1):
        of = self.running.values()
        is_free = sum(it.jobs for it in of) + jobs <= self.processors
        return (not of and jobs == 1) or is_free and sum(it.task.memory for it in of) + memory <= self.memory

    def is_late(self, chain):
        """Whether a chain alone takes longer than its processors' share of all that is left. (By a model, a whole run on four processors
        takes 35 minutes if such work has two of them, and 41 if none has.)"""
        whole = sum(it.seconds for it in [*self.left, *(it.task for it in self.running.values())])
        return chain > whole / self.processors

    def ends(self):
        """Does all of it. Yields each task once it has ended and what may start has: the processor seconds, and whether it is well."""
        self.start()
        while self.running:
            ended = self.wait()
            self.start()
            yield ended

    def wait(self):
        """Waits until a task has ended, and takes what it gave."""
        pid = None
        while pid not in self.running:
            pid, status, used = os.wait3(0)
        with self.guard():
            it = self.running.pop(pid)
            it.process.returncode = os.waitstatus_to_exitcode(status)
            seconds = used.ru_utime + used.ru_stime
            well, more = it.task.end(it.process.returncode, it.log.read_text(errors="replace"), seconds)
            self.left += more
            self.ended[it.task.name] = well
            self.done, self.spent = self.done + it.task.seconds, self.spent + seconds
        return it, seconds, well

    def seconds_left(self):
        """About how long the rest takes: all of it on all processors, but no less than its longest chain."""
        whole = sum(it.seconds for it in self.left)
        whole += sum(max(0.0, it.task.seconds - it.seconds()) for it in self.running.values())
        pace = self.spent / self.done if self.done > 60 else 1.0
        return pace * max(whole / self.processors, max(self.chains().values(), default=0.0))

    def stop(self):
        """Ends each command that runs, with all that it has started."""
        for it in self.running.values():
            it.stop()
        self.running = {}
