"""Calls on a store in a new file, which are answered again and again while one allocation or one call
of the system is refused. The model says what they are answered, and which tables they leave.
"""
import copy
import os

from support.calls import CALLS_PROGRAM, call, columns, count, frame, frames, row, sized, text
from support.faults import ENDED, Reopened, is_failed_sync, is_harmless
from support.model import shown_tables
from support.power import Run
from support.samples import INSERT, UPDATE
from support.service import Service, refusal
from support.stores import read_store
from support.trials import Trial, is_store
from support.trials import shown_tables as shown_store

BEGIN, COMMIT, ROLL_BACK = call("begin"), call("commit"), call("roll_back")
TABLE = text("t")
DECLARE = call("declare", TABLE, columns(("a", 1), ("b", 0)))
OMIT = bytes(4)

# The refusals of a call on a disk that fails.
FAULTS = [refusal(38, detail=reason) for reason in (1, 5, 10, 13, 26)]

# How a run ends for which there is no memory before a call is read.
WITHOUT_MEMORY = (1, "", "Error: Kind(OutOfMemory)\n")


def insert(*values):
    return call("insert", TABLE, row(values))


# Runs, by what they show.
RUNS = {
    "calls by themselves": [
        DECLARE, insert(1, "x"), call("apply", sized(UPDATE), b"\x00", OMIT), call("put", TABLE, row([2, "y"])),
        call("rows", TABLE, b"\x00", count(9)), call("schema", TABLE), call("get", TABLE, row([2])), insert(1, "z"),
        call("delete", TABLE, row([2])), call("rehearse", sized(INSERT), b"\x00"),
        call("apply", sized(INSERT), b"\x00", OMIT), call("tables"), call("count", TABLE), b"\x63",
    ],
    "transactions and a session": [
        DECLARE, call("open_session"), call("attach", TABLE), insert(1, "x"), BEGIN, insert(2, b"y"),
        call("apply", sized(UPDATE), b"\x00", OMIT), call("changeset"), call("count", TABLE), COMMIT, call("changeset"),
        BEGIN, insert(5, None), ROLL_BACK, call("changeset"), call("undo"), call("is_empty"), call("count", TABLE),
        call("close_session"),
    ],
    "rows of several pages": [
        DECLARE, BEGIN, *(insert(key, b"\x00\xff" * 3000) for key in range(4)), COMMIT,
        call("update", TABLE, row([1]), row([1, "short"])), BEGIN, call("delete", TABLE, row([2])),
        call("declare", text("u"), columns(("a", 1))), COMMIT, BEGIN, call("delete", TABLE, row([0])), ROLL_BACK,
        call("count", TABLE),
    ],
}


def written_by(printed):
    """The bytes of what a run printed."""
    return printed.encode(errors="surrogateescape")


def printed_of(answers):
    """What a run prints that has these answers."""
    return b"".join(map(frame, answers)).decode(errors="surrogateescape")


class World:
    """A model of the store in a run, and the other tables that a failed disk may have."""

    def __init__(self, service=None, others=()):
        self.service = service or Service()
        self.others = list(others)

    def tables(self):
        return shown_tables(self.service.committed())

    def lefts(self):
        """The tables that the store may have."""
        return [self.tables(), *self.others]

    def answered(self, asked):
        """The world in which a call is answered, and its answer."""
        service = copy.deepcopy(self.service)
        answer = service.answer(asked)
        after = World(service, self.others)
        if after.tables() != self.tables():
            after.others = []
        return after, answer

    def refused(self, asked):
        """The worlds in which a call is refused: it is not carried out, or its transaction has ended,
        too.
        """
        yield self
        if self.service.before is not None and not self.service.has_ended:
            ended = World(copy.deepcopy(self.service), self.others)
            ended.service.end()
            if asked == COMMIT:
                ended.service.answer(asked)
            yield ended

    def faulted(self, asked):
        """The worlds in which a call is refused since the disk failed, which may have been in its
        commit.
        """
        after = self.answered(asked)[0].tables()
        for world in self.refused(asked):
            yield World(world.service, world.others + [after] * (after != world.tables()))


class HostCalls(Trial):
    """Calls on a store in a new file."""

    program = CALLS_PROGRAM

    def __init__(self, asked):
        super().__init__(["store"], b"".join(map(frame, asked)))
        self.asked = asked

    def left(self, folder):
        """The tables of the store: none where it is not yet one."""
        store = os.path.join(folder, "store")
        return shown_store(read_store(store)) if is_store(store) else {}

    def ended(self, world, answers, place):
        """How a run ends whose calls from a place on are answered in a world."""
        for asked in self.asked[place:]:
            world, answer = world.answered(asked)
            answers = [*answers, answer]
        return (0, printed_of(answers), ""), world.tables()

    def ends(self):
        """All ways in which it may end: as with memory, or with one call refused, which may end its
        transaction, or with none carried out.
        """
        world, answers = World(), []
        ends = [self.ended(world, [], 0)]
        for place, asked in enumerate(self.asked):
            ends += [self.ended(other, [*answers, refusal(60)], place + 1) for other in world.refused(asked)]
            world, answer = world.answered(asked)
            answers.append(answer)
        return [*ends, ((1, printed_of(refusal(60) for _ in self.asked), ""), {}), (WITHOUT_MEMORY, {})]


class FaultyCalls(Reopened, HostCalls):
    """Calls while a call of the system is refused."""

    def why_not(self, ended, normal, call, answer):
        """Why a run may not end so where one call had this answer, or nothing."""
        (status, printed, reported), left = ended
        if ended == normal and is_failed_sync(call, answer):
            return "a failed sync is not reported"
        if ended == normal:
            return "" if normal == self.ended(World(), [], 0) else "the model answers otherwise"
        if is_harmless(call, answer, ("read", "write")):
            return "a call that was interrupted, or moved one byte, changes the run"
        answers, rest = frames(written_by(printed))
        is_whole = len(answers) == len(self.asked) and not rest
        if reported or status != (answer != ENDED) and not (status == 0 and is_whole):
            return "no such fault"
        worlds, why = self.replay(answers)
        lefts = [tables for world in worlds for tables in world.lefts()]
        if not is_whole and not why:
            more, why = self.ends_in(worlds, self.asked[len(answers)], rest)
            lefts += more
        return why or ("" if left in lefts else f"the store has {left}, and not one of {lefts}")

    def replay(self, answers):
        """The worlds in which the first calls have these answers, and why there are none, or nothing.
        """
        worlds = [World()]
        for place, (asked, answer) in enumerate(zip(self.asked, answers)):
            after = [world.answered(asked) for world in worlds]
            found = [world for world, wanted in after if answer == wanted]
            if answer in FAULTS:
                found += [other for world in worlds for other in world.faulted(asked)]
            if not found:
                return [], f"call {place} is answered {answer.hex()}, and not {[wanted.hex() for _, wanted in after]}"
            worlds = found
        return worlds, ""

    @staticmethod
    def ends_in(worlds, asked, rest):
        """The tables that the store may have where the run ends in a call, of whose answer a part may
        be printed; and why that is none, or nothing.
        """
        after = [world.answered(asked) for world in worlds]
        wanted = [frame(answer) for _, answer in after] + list(map(frame, FAULTS))
        is_part = any(answer.startswith(rest) for answer in wanted)
        return [world.tables() for world, _ in after], "" if is_part else "what is printed is of no call"


# ---- runs that are cut

class CallStory:
    """What the model has of calls, as `power.Story` has of lines: what is written, and a store that is
    opened again behind each call.
    """

    def __init__(self, asked):
        service = Service()
        self.shells, self.answers = [Service()], []
        for content in asked:
            self.answers.append(frame(service.answer(content)))
            self.shells.append(service.reopened())

    def printed(self):
        """What the calls print."""
        return b"".join(self.answers).decode(errors="surrogateescape")

    def may_stand(self, printed):
        """The tables that may be there where so many bytes are printed: from before the next call, or
        behind it.
        """
        end = place = 0
        while place < len(self.answers) and end + len(self.answers[place]) <= printed:
            end += len(self.answers[place])
            place += 1
        return self.shells[place:place + 2]


def call_run(asked):
    """Calls on a store in a new file, for a run that is cut."""
    trial = HostCalls(asked)
    return Run({}, trial.words, trial.stdin, CallStory(asked), program=CALLS_PROGRAM)
