"""Which kind of neighbourhood is tried next, how many units stay free in it, and within how many nodes: by what came of those before.

Seconds count for one thing alone: the nodes of a trial are doubled or halved where it takes far less or far more time than is meant."""
import math
import threading
from dataclasses import dataclass

# How many units stay free at first: this part of many, and this part of few.
MANY, FEW, FEW_UNITS = 0.15, 0.3, 60
# By how much that part changes: where a neighbourhood was closed within this part of the nodes without a better solution, and where it was not.
GROWTH, SHRINKING = ((0.05, 1.6), (0.2, 1.3), (1.0, 1.1)), 0.93
# How many nodes a trial has at first, at least and at most; how many seconds it is meant to take, and how often the shortest one so far, since
# that is what starting takes; after so many failures one after the other there is so much more of both, up to so many times as much.
NODES, LEAST_NODES, MOST_NODES, SECONDS, STARTS = 100, 20, 30_000, 0.5, 3
FAILURES, MORE, MOST = 6, 1.3, 4.0
# After so many failures one after the other a worker is of more use elsewhere; the next one after so many times as many.
EXHAUSTED, EXHAUSTED_NEXT = 40, 4
# How often any kind is drawn; how much the last gain of a kind counts.
CHANCE, LAST = 0.1, 0.25
# What starting a run costs, in nodes: so many, and one more for so many bytes of the file.
START, START_BYTES = 10, 5000


@dataclass(frozen=True)
class Trial:
    """A neighbourhood to be tried: its kind, the manner of the search, how many units are free, and within how many nodes."""
    kind: str
    manner: str
    wanted: int
    nodes: int


@dataclass(frozen=True)
class Result:
    """What came of a run: the `s` lines of its certificate, how many nodes and seconds it took, and whether it was closed."""
    lines: list
    nodes: int
    seconds: float
    is_closed: bool


@dataclass
class Record:
    """What is known of a kind or a manner: its mean gain by node, how often it was tried, whether that has begun, and of a kind which part of the
    units stays free."""
    share: float = 0.0
    gain: float = 0.0
    trials: int = 0
    begun: bool = False

    def learn(self, gain):
        """Takes note of a gain."""
        self.gain = gain if not self.trials else (1 - LAST) * self.gain + LAST * gain
        self.trials += 1


def chosen(records, draw):
    """The name of a record: one that was never tried, now and then any, else the one that promises most. A record promises its gain, and beside that a
    part of the mean gain of all, which is the greater the less often it was tried."""
    fresh = [name for name, record in records.items() if not record.begun]
    if fresh or draw.random() < CHANCE:
        return draw.choice(fresh or list(records))
    trials = sum(record.trials for record in records.values())
    mean = sum(record.gain * record.trials for record in records.values()) / max(1, trials)
    beside = {name: mean * math.sqrt(math.log(trials + 1) / (record.trials + 1)) for name, record in records.items()}
    return max(records, key=lambda name: (records[name].gain + beside[name], draw.random()))


class Chooser:
    """Chooses the trials of all workers of a run, of so many units in a file of so many bytes. Each worker draws by its own chance."""

    def __init__(self, kinds, manners, units, length):
        self.units, self.start, self.lock = units, START + length // START_BYTES, threading.Lock()
        self.kinds = {kind: Record(FEW if units < FEW_UNITS else MANY) for kind in kinds}
        self.manners = {manner: Record() for manner in manners}
        self.nodes, self.times, self.failures, self.shortest = NODES, 1.0, 0, math.inf

    def seconds(self):
        """How long a trial is meant to take."""
        return max(SECONDS, STARTS * self.shortest if self.shortest < math.inf else 0) * self.times

    def is_exhausted(self, number):
        """Whether a worker of this number, from 0, is of more use elsewhere: where there are few units, the first at once, else after so many
        failures, as many as half of all trials; after many more the next."""
        if number == 0 and self.units < FEW_UNITS:
            return True
        trials = sum(record.trials for record in self.kinds.values())
        return self.failures >= max(trials / 2, EXHAUSTED * EXHAUSTED_NEXT ** number)

    def next(self, draw):
        """The next trial."""
        with self.lock:
            kind, manner = chosen(self.kinds, draw), chosen(self.manners, draw)
            # What is on trial now is not chosen again for want of trials.
            self.kinds[kind].begun, self.manners[manner].begun = True, True
            wanted = min(max(2, round(self.kinds[kind].share * self.units)), self.units)
            return Trial(kind, manner, wanted, round(self.nodes * self.times))

    def learn(self, trial, result, gain):
        """Takes note of what came of a trial, and by which part the objective is better."""
        with self.lock:
            self.take(trial, result, gain)

    def take(self, trial, result, gain):
        """Changes the records by what came of a trial."""
        for record in (self.kinds[trial.kind], self.manners[trial.manner]):
            record.learn(gain / (result.nodes + self.start))
        self.shortest = min(self.shortest, result.seconds)
        if not result.is_closed:
            self.change_nodes(result.seconds / self.seconds())
        self.failures = 0 if gain else self.failures + 1
        if self.failures and self.failures % FAILURES == 0:
            self.times = min(MOST, self.times * MORE)
        if not gain:
            self.change_share(self.kinds[trial.kind], result.nodes / max(1, trial.nodes), result.is_closed)

    def change_nodes(self, part):
        """Changes the nodes of a trial where one that was not closed took another part of the time than is meant."""
        if part > 2 or part < 0.5:
            self.nodes = min(MOST_NODES, max(LEAST_NODES, self.nodes // 2 if part > 2 else self.nodes * 2))

    def change_share(self, record, part, is_closed):
        """Frees more units of a kind where a neighbourhood was closed within a part of its nodes, and fewer where it was not."""
        growth = next((growth for most, growth in GROWTH if part <= most), GROWTH[-1][1]) if is_closed else SHRINKING
        record.share = min(1.0, record.share * growth)
