"""Runs that are recorded (`record.c`), and the files that a power cut, or the end of the process,
may leave of them.
"""
import collections
import contextlib
import copy
import hashlib
import itertools
import os
import pathlib
import random
import re
import sqlite3
import tempfile
from functools import partial

from support.faults import MarkedScript, mark
from support.model import shown_tables
from support.samples import CREATE, T
from support.shell import Shell
from support.stores import VERSION, expect_whole, insert, literal, read_store, run_sql
from support.trials import FILES, STORE, Command, is_store, run
from support.trials import shown_tables as shown_store

# What a record has of a run: a file is its number, and a name stands without its folder.
Write = collections.namedtuple("Write", "file place content")
Length = collections.namedtuple("Length", "file length")
Sync = collections.namedtuple("Sync", "file")
Create = collections.namedtuple("Create", "file name")
Rename = collections.namedtuple("Rename", "name new_name")
Unlink = collections.namedtuple("Unlink", "name")
Print = collections.namedtuple("Print", "content")

EVENTS = {form.__name__.lower(): form for form in (Write, Length, Sync, Create, Rename, Unlink, Print)}

SECTOR = 512

# Each subset is tried of up to SUBSETS changes. Of more, OTHERS subsets are tried, and as many with
# torn writes.
SUBSETS, OTHERS = 8, 24

# At how many of its borders a write is torn in two.
BORDERS = 32

# How many runs were recorded, at how many points they were cut, how many different files that
# makes, and how many of these the program opened.
counts = collections.Counter(runs=0, points=0, files=0, opened=0)

# The lines by which the program goes on behind a cut.
GOING_ON = ["CREATE TABLE next(n, PRIMARY KEY(n));", "INSERT INTO next VALUES(1);", "SELECT * FROM next;"]

# The files that are applied: those of commands, one of many rows, and one that memory does not hold
# as it is applied.
CHANGESETS = {
    **FILES, "many": T + b"".join(insert(key, b"\x00\xff" * key) for key in range(2, 200)),
    "large": T + b"".join(insert(key, b"\x00\xff" * 50_000) for key in range(10, 100)),
}
APPLIES = [["--conflict", "replace", "many", "apply", "store"], ["--conflict=omit", "many", "apply", "store"]]
LARGE_APPLY = ["large", "apply", "store"]

# A script whose log is copied back before a line that writes, since it is long.
LONG_SCRIPT = [
    CREATE, *(f"INSERT INTO t VALUES({key}, X'{'00ff' * 100_000}');" for key in range(22)), "DELETE FROM t WHERE a=1;",
    "INSERT INTO t VALUES(1, 'short');",
]


def read_record(record):
    """The events of a record."""
    events, at = [], 0
    while at < len(record):
        end = record.index(b"\n", at)
        word, *rest = record[at:end].decode().split(" ")
        told = [int(part) if part.isdigit() else os.path.basename(part) for part in rest]
        at = end + 1
        if word in ("write", "print"):
            count = told.pop()
            told.append(record[at:at + count])
            at += count
        events.append(EVENTS[word](*told))
    return events


def files_of(folder):
    """The files of a folder, by their names."""
    return {path.name: path.read_bytes() for path in pathlib.Path(folder).iterdir()}


def make_files(folder, files):
    """Makes files in a folder."""
    for name, content in files.items():
        pathlib.Path(folder, name).write_bytes(content)


class Recording:
    """A run on files: those that it found, what it did to them, how it ended, and those that it
    left.
    """

    def __init__(self, shim, files, words, stdin, program=None):
        with tempfile.TemporaryDirectory() as folder, tempfile.TemporaryFile() as record:
            make_files(folder, files)
            self.found = {name: (os.stat(os.path.join(folder, name)).st_ino, files[name]) for name in files}
            self.folder = os.stat(folder).st_ino
            loading = {"LD_PRELOAD": shim, "RECORD_TO": str(record.fileno())}
            self.ended = run(folder, words, stdin, loading, program)
            self.left = files_of(folder)
            record.seek(0)
            self.events = read_record(record.read())


class Disk:
    """The files of a folder: what is on the disk for sure, and what was done since, in its order;
    and how many bytes were printed.
    """

    def __init__(self, recording):
        self.folder = recording.folder
        self.names = {name: file for name, (file, _) in recording.found.items()}
        self.contents = dict(recording.found.values())
        self.pending = []
        self.printed = 0

    def take(self, event):
        """What was done next."""
        if isinstance(event, Sync):
            synced = [change for change in self.pending if self.is_of(change, event.file)]
            self.names, self.contents = self.changed(synced)
            self.pending = [change for change in self.pending if not self.is_of(change, event.file)]
        elif isinstance(event, Print):
            self.printed += len(event.content)
        else:
            self.pending.append(event)
        if isinstance(event, Create):
            self.contents[event.file] = b""

    def is_of(self, change, file):
        """Whether a change is of this file, or a name in this folder."""
        return (change.file if isinstance(change, (Write, Length)) else self.folder) == file

    def changed(self, changes):
        """The names and the contents, by the numbers of files, where these changes are on the disk.
        """
        names = dict(self.names)
        contents = {file: bytearray(content) for file, content in self.contents.items()}
        for change in changes:
            if isinstance(change, Create):
                names[change.name] = change.file
            elif isinstance(change, Rename) and change.name in names:
                names[change.new_name] = names.pop(change.name)
            elif isinstance(change, Unlink):
                names.pop(change.name, None)
            elif isinstance(change, (Write, Length)):
                change_content(contents.setdefault(change.file, bytearray()), change)
        return names, contents

    def files(self, choice):
        """The files where so much is on the disk of what was done since, by their names."""
        names, contents = self.changed(itertools.chain.from_iterable(itertools.starmap(kept, choice)))
        return {name: bytes(contents.get(file, b"")) for name, file in names.items()}


def change_content(content, change):
    """Has the bytes of a file written to, or made longer or shorter."""
    start = change.place if isinstance(change, Write) else change.length
    content.extend(bytes(max(0, start - len(content))))
    if isinstance(change, Write):
        content[start:start + len(change.content)] = change.content
    else:
        del content[start:]


def count_sectors(write):
    """In how many sectors of the disk a write is."""
    return (write.place + len(write.content) - 1) // SECTOR - write.place // SECTOR + 1


def kept(change, sectors):
    """What is on the disk of a change: all of it, or of a write these of its sectors, which are
    counted from 0.
    """
    if sectors is None:
        yield change
        return
    for sector in sectors:
        border = (change.place // SECTOR + sector) * SECTOR - change.place
        start = max(border, 0)
        yield Write(change.file, change.place + start, change.content[start:border + SECTOR])


def some(whole, seed):
    """Some of these changes, by chance."""
    chance = random.Random(seed)
    return [part for part in whole if chance.random() < 0.5]


def in_two(whole, sectors):
    """These changes. The last one is a write, and only some of its sectors are there."""
    return [*whole[:-1], (whole[-1][0], sectors)]


def junk(write, end, chance):
    """A write of which the length alone is there: behind what was synced a file has zeros, or any
    bytes.
    """
    start = max(write.place, end)
    size = max(write.place + len(write.content) - start, 0)
    content = chance.choice([0, chance.getrandbits(8 * size + 1) >> 1]).to_bytes(size, "big")
    return write._replace(place=start, content=content)


def torn(whole, ends, seed):
    """Of each of these changes nothing, all of it, or of a write some sectors or the length, by
    chance.
    """
    chance = random.Random(seed)
    parts = []
    for change, _ in whole:
        forms = [[], [(change, None)]]
        if isinstance(change, Write):
            forms.append([(change, [sector for sector in range(count_sectors(change)) if chance.random() < 0.5])])
            forms.append([(junk(change, ends.get(change.file, 0), chance), None)])
        parts += chance.choice(forms)
    return parts


def borders(write, chance):
    """The borders between the sectors of a write, or some of many."""
    places = range(1, count_sectors(write))
    return places if len(places) <= BORDERS else chance.sample(places, BORDERS)


def choices(disk, point):
    """What may be there of what was not synced: for each way a call that makes a list, of changes
    that are there and of which sectors of each, where that are not all.
    """
    pending, whole = disk.pending, [(change, None) for change in disk.pending]
    seeds = [f"{point} {number}" for number in range(OTHERS)]
    yield partial(list, whole)
    if len(whole) <= SUBSETS:
        for size in range(len(whole)):
            yield from (partial(list, parts) for parts in itertools.combinations(whole, size))
    else:
        yield from (partial(some, whole, seed) for seed in seeds)
    if whole and isinstance(pending[-1], Write):
        count = count_sectors(pending[-1])
        for border in borders(pending[-1], random.Random(point)):
            yield partial(in_two, whole, range(border))
            yield partial(in_two, whole, range(border, count))
    if any(isinstance(change, Write) for change in pending):
        ends = {file: len(content) for file, content in disk.contents.items()}
        yield from (partial(torn, whole, ends, seed) for seed in seeds)


def cuts(recording):
    """Each point of a run, and what may be there: the disk, and the call that makes a list of
    changes.
    """
    disk = Disk(recording)
    for point, event in enumerate([Print(b""), *recording.events]):
        disk.take(event)
        for choice in choices(disk, point):
            yield point, disk, choice


def tried(recording, most):
    """Of the cuts of a run so many, each once: the files, how much is printed by then, what tells
    of the cut, and a number by chance, below the count of those that are tried.
    """
    count = sum(1 for _ in cuts(recording))
    chance = random.Random(count)
    picked = set(chance.sample(range(count), min(most, count)))
    points, seen = set(), set()
    for place, (point, disk, choice) in enumerate(cuts(recording)):
        if place not in picked:
            continue
        files = disk.files(choice())
        points.add(point)
        if (digest(files), disk.printed) not in seen:
            seen.add((digest(files), disk.printed))
            told = f"after event {point} of {len(recording.events)}: {described(choice())!r:.500}"
            yield files, disk.printed, told, chance.random() * len(picked)
    counts["runs"] += 1
    counts["points"] += len(points)
    counts["files"] += len(seen)


def digest(files):
    """A digest that distinguishes files."""
    told = hashlib.blake2b()
    for name in sorted(files):
        told.update(f"{name} {len(files[name])} ".encode() + files[name])
    return told.digest()


def described(choice):
    """What of the changes is on the disk, in short."""
    return [
        (type(change).__name__, *(len(part) if isinstance(part, bytes) else part for part in change), sectors)
        for change, sectors in choice
    ]


# ---- stores

class Story:
    """What the model has of lines, where each may have a mark behind its answer: what is printed,
    and the tables.
    """

    def __init__(self, shell, lines, is_marked=False):
        self.shells, self.answers = [shell], []
        self.marks = [mark(number) if is_marked else "" for number in range(len(lines))]
        for line in lines:
            shell = copy.deepcopy(shell)
            self.answers.append("".join(told.decode() + "\n" for told in shell.answer(line.encode())))
            self.shells.append(shell)

    def printed(self):
        """What the lines print."""
        return "".join(answer + behind for answer, behind in zip(self.answers, self.marks))

    def ended(self):
        """How a script of these lines ends, and the tables that it leaves."""
        return (int(self.shells[-1].is_refused), self.printed(), ""), tables_of(self.shells[-1])

    def may_stand(self, printed):
        """The shells whose tables may be there where so much is printed: from before the next line,
        or behind it.
        """
        count = end = 0
        for answer, behind in zip(self.answers, self.marks):
            if printed < end + len(answer or behind):
                break
            end += len(answer + behind)
            count += 1
        return self.shells[count:count + 2]


def tables_of(shell):
    """The tables of a shell, as they are compared."""
    return shown_tables(shell.tables)


def opened_again(shell):
    """The shell of a program that finds these tables."""
    opened = Shell()
    opened.tables = copy.deepcopy(shell.tables)
    return opened


class Run:
    """A run on the store in a folder: the files that it finds, its words and its script, what the
    model has, the version of the store that it finds, and the program, where it is another one.
    """

    def __init__(self, files, words, stdin, story, version=VERSION, program=None):
        self.files, self.words, self.stdin, self.story, self.version = files, words, stdin, story, version
        self.program = program
        names = sorted({name for shell in story.shells for name in tables_of(shell)} - {"next"})
        quoted = [name.replace('"', '""') for name in names]
        self.behind = [f'SELECT * FROM "{name}";' for name in quoted] + GOING_ON

    def going_on(self, shell):
        """What the model has of the lines behind a cut that left a shell."""
        return Story(opened_again(shell), self.behind, True)

    def by_program(self, files):
        """How the program ends that opens files and goes on, and the tables that it leaves."""
        script = MarkedScript(self.behind)
        with tempfile.TemporaryDirectory() as folder:
            make_files(folder, files)
            return run(folder, script.words, script.stdin), found_by_sqlite(files_of(folder))

    def why_not(self, files, printed, opens):
        """Why a cut may not leave these files where so much is printed, or nothing; the program
        opens them, or not.
        """
        shells = self.story.may_stand(printed)
        tables = found_by_sqlite(files)
        as_found = self.version != VERSION and found_by_sqlite(files, self.version) == tables_of(self.story.shells[0])
        if tables not in map(tables_of, shells) and not as_found:
            return f"SQLite finds {tables!r:.2000}"
        if not opens:
            return ""
        counts["opened"] += 1
        ended = self.by_program(files)
        wanted = [self.going_on(shell).ended() for shell in shells]
        return "" if ended in wanted else f"the program ends so: {ended!r:.2000}"

    def again(self, files, printed):
        """The run of the program that opens files and goes on, for each way in which it may."""
        script = MarkedScript(self.behind)
        behind = [self.going_on(shell) for shell in self.story.may_stand(printed)]
        return [Run(files, script.words, script.stdin, story, self.version) for story in behind]


def found_by_sqlite(files, version=VERSION):
    """The tables that SQLite finds, which has to find the file whole, and its records in this
    version. There are none where it is no database yet.
    """
    with tempfile.TemporaryDirectory() as folder:
        make_files(folder, files)
        store = os.path.join(folder, "store")
        try:
            if is_store(store):
                return shown_store(read_store(store, version))
            with contextlib.closing(sqlite3.connect(store)) as base:
                expect_whole(base)
            return {}
        except (sqlite3.DatabaseError, AssertionError) as fault:
            return {} if "file is not a database" in str(fault) else repr(fault)


def script_run(lines):
    """Lines on a store in a new file."""
    script = MarkedScript(lines)
    return Run({}, script.words, script.stdin, Story(Shell(), lines, True))


def apply_run(words, version=VERSION):
    """A command that applies a file to a store that SQLite wrote in a version."""
    file, choices = words[words.index("apply") - 1], re.findall(r"--(\w+)[= ](\w+)", " ".join(words))
    rows = [f"INSERT INTO t VALUES({', '.join(map(literal, row))});" for row in STORE["t"].rows]
    made = Story(Shell(), [CREATE, *rows]).shells[-1]
    made.contents[b"a"] = CHANGESETS[file]
    story = Story(made, [" ".join([".apply a", *map("=".join, choices)])])
    if story.shells[-1].is_refused:
        story.answers = [""]
    return Run({**found_by(words, version), file: CHANGESETS[file]}, words, b"", story, version)


def found_by(words, version=VERSION):
    """The files before a command. The store has the given version."""
    with tempfile.TemporaryDirectory() as folder:
        Command(words).prepare(folder)
        if version != VERSION:
            run_sql(os.path.join(folder, "store"), "DELETE FROM rec WHERE tab = '' AND keyb = X''", records=[version])
        return files_of(folder)
