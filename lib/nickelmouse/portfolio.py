"""Several workers over one file: the run that one worker would make, and others beside it. All of them share what they find.

The first whole run that ends with an answer ends all, and its certificate is that of the file. Where none does until the time is over, the best
solution that any worker has found is the answer: by the certificate of a whole run, or by one that shows solutions alone."""
import queue
import threading
import time
from dataclasses import dataclass

from nickelmouse.counts import counted, printed_items
from nickelmouse.deriving import DERIVE, Deriving
from nickelmouse.ending import Answer
from nickelmouse.running import REJECTED, Ended, say
from nickelmouse.sharing import Shared
from nickelmouse.solving import Search
from nickelmouse.variants import optimising, satisfying, seed_in

# The plain run is alone for so many seconds: most files are solved by then.
ALONE = 0.25
# How long workers that were told to end are waited for.
PATIENCE = 5.0
# Of an optimisation so many of the workers are whole runs where the plain one follows annotations, or where constraints are derived, if there are
# more workers than that.
WHOLE = 2
# How often is looked whether a signal has come: Python handles one only when what it waits for has come to an end.
LOOK = 0.1
# For a file of more bytes there are no neighbourhoods, since each run would take seconds to start, and no more than two workers.
LARGEST = 1 << 23
CUT = object()


@dataclass(frozen=True)
class Setting:
    """What the workers of a run have in common: the programs, the folder, the words for fznsolve and for fzncheck, and whether the certificate is
    kept; how many workers there are; how many solutions a satisfaction wants, or nothing for all; where solutions go as they are found, and
    whether it is told how far the plain run has come; which kinds of neighbourhoods are not tried; words in front of each worker's own."""
    programs: object
    files: object
    words: list
    checking: list
    keeps: bool
    jobs: int
    wanted: int = 1
    shown: object = None
    tells: bool = False
    left_out: tuple = ()
    before: tuple = ()


class Once:
    """What is made when it is first asked for, and once."""

    def __init__(self, make):
        self.make, self.lock, self.made = make, threading.Lock(), None

    def __call__(self):
        with self.lock:
            if self.made is None:
                self.made = (self.make(),)
            return self.made[0]


class Whole(threading.Thread):
    """A whole run in a thread of its own: its search, its last solution, how many it has found, and the fault that it ended with."""

    def __init__(self, setting, name, words, heard, events, model='model.fzn'):
        super().__init__(daemon=True)
        is_plain = name == 'model'
        self.heard, self.events, self.last, self.solutions, self.fault, self.lines = heard, events, None, 0, None, []
        self.keeps_lines = is_plain and setting.shown is not None
        self.search = Search(setting.programs, setting.files, words, setting.checking, setting.keeps, setting.shown if is_plain else None,
                             setting.tells and is_plain, name, self.take, setting.before, not is_plain, model)

    def take(self, line):
        """Takes a solution that it has found."""
        self.last, self.solutions = line, self.solutions + 1
        if self.keeps_lines:
            self.lines.append(line)
        self.heard(line, self.search.name)

    def ended(self, deadline):
        """Waits for its end, but not beyond a moment."""
        self.join(max(0.0, deadline - time.monotonic()))

    def run(self):
        try:
            self.search.run()
        except BaseException as fault:
            self.fault = fault
        self.events.put(self)

    def has_answer(self, wanted):
        """Whether its certificate is an answer to what is asked: closed, or with as many solutions as are wanted."""
        return self.fault is None and (self.search.is_closed() or wanted is not None and self.solutions >= wanted)


class Portfolio:
    """The workers of one run over a folder that has `model.fzn`, in the place of one search. It leaves what a search leaves."""

    def __init__(self, setting, model):
        self.setting, self.model = setting, model
        self.printed = Once(lambda: model.printed or printed_items(setting.programs.check, setting.files.path('model.fzn')))
        self.counts = counted(self.printed())
        self.events, self.is_cut = queue.SimpleQueue(), False
        words, self.shared = list(setting.words), None
        if self.counts.objective is not None:
            if '--hints' not in words:
                setting.files.write('hints', b'')
                words += ['--hints', setting.files.path('hints')]
            self.shared = self.with_hints(words[words.index('--hints') + 1])
        self.plain, self.prepare = self.whole('model', words), None
        self.others, self.neighbours, self.going, self.open = [], [], set(), []
        self.winner, self.deriving = None, None
        self.bound, self.value, self.fault = None, None, None

    def with_hints(self, path):
        """What the workers share by a file of hints, in which a start may stand."""
        with open(path, 'rb') as file:
            lines = file.readlines()
        every, told = '-a' in self.setting.checking, self.tell if self.setting.tells else None
        shared = Shared(self.counts.objective, self.model.goal == 'maximize', path, every, told)
        for line in lines:
            shared.offer(line)
        return shared

    def whole(self, name, words, model='model.fzn'):
        """A whole run."""
        return Whole(self.setting, name, words, self.heard, self.events, model)

    def heard(self, line, name):
        """Takes a solution of a whole run."""
        if self.shared is not None:
            self.shared.offer(line, name)

    def tell(self, name, value):
        """Tells of a better solution that a further worker has found."""
        if name not in (None, 'model'):
            say(f'{name}: best {value}')

    def cut(self):
        """Ends the search now."""
        self.events.put(CUT)

    def run(self):
        """Searches and checks. Gives how the run ended whose certificate is the answer."""
        try:
            self.begin(self.plain)
            ended = self.event(ALONE)
            if ended is None and self.may_derive():
                self.deriving = Deriving(self.setting.programs, self.setting.files, self.setting.before, self.events)
                self.deriving.start()
            elif ended is None:
                self.begin_others()
            while not self.is_settled(ended):
                ended = self.event(LOOK)
        finally:
            self.end()
        return self.result()

    def event(self, seconds):
        """What has happened within so many seconds, or nothing."""
        try:
            return self.events.get(timeout=seconds)
        except queue.Empty:
            return None

    def begin(self, whole):
        """Starts a whole run."""
        self.going.add(whole)
        whole.start()

    def may_derive(self):
        """Whether one of the further workers is for derived constraints, if there are any: of an optimisation, where there are several."""
        return (self.shared is not None and self.setting.shown is None and self.setting.jobs > WHOLE and DERIVE not in self.setting.words
                and len(self.model.text) <= LARGEST)

    def derives(self):
        """Whether constraints were derived for one of them."""
        return self.deriving is not None and self.deriving.derives

    def begin_others(self):
        """Starts the other workers: of a satisfaction whole runs, unless solutions are printed as they are found; of an optimisation also
        workers that search neighbourhoods."""
        setting, count = self.setting, self.setting.jobs - 1
        wanted = self.whole_runs_wanted(count)
        if self.shared is not None and len(self.model.text) <= LARGEST:
            from nickelmouse.items import parsed
            from nickelmouse.neighbourhoods import prepared
            self.prepare = Once(lambda: prepared(parsed(self.printed()), self.model.text, setting.left_out))
        for number in range(2, 2 + wanted):
            self.begin_whole(f'worker{number}')
        if self.prepare is not None:
            self.begin_neighbours(2 + wanted, count - wanted)

    def begin_neighbours(self, first, count):
        """Starts workers that search neighbourhoods. The last one goes on in any case, where others may make whole runs at last."""
        from nickelmouse.neighbourhoods import Neighbourhoods
        setting, seed = self.setting, seed_in(self.setting.words)
        for number in range(count):
            exhausted = self.events.put if number < count - 1 and setting.shown is None else None
            self.neighbours.append(Neighbourhoods(f'worker{first + number}', number, setting.programs, setting.files, self.shared, self.prepare,
                                                  seed, setting.before, exhausted))
            self.neighbours[-1].start()

    def begin_whole(self, name):
        """Starts the next further whole run."""
        words, goal = self.variant(len(self.others))
        model = 'model.fzn'
        if goal is not None:
            model = f'{name}.fzn'
            self.setting.files.write(model, self.prepare().insertion.text([], goal))
        self.others.append(self.whole(name, words, model))
        self.begin(self.others[-1])

    def variant(self, number):
        """The words of a further whole run, by its number from 0, and another solve item or nothing."""
        words = self.plain.search.words
        if self.prepare is None:
            return satisfying(words)[number], None
        # What the first one is follows from annotations alone, where there are any, or from what is derived: so nothing need be prepared for it.
        goal = self.prepare().insertion.by_cost if number or not (self.derives() or self.is_annotated()) else None
        words, by_cost = optimising(words, self.is_annotated(), goal is not None, self.derives())[number]
        return words, goal if by_cost else None

    def is_annotated(self):
        """Whether the file has search annotations."""
        return '\nsearch ' in self.printed()

    def whole_runs_wanted(self, count):
        """How many of so many further workers are whole runs. None is where solutions are printed as they are found."""
        if self.setting.shown is not None:
            return 0
        if len(self.model.text) > LARGEST:
            return min(1, count)
        if self.shared is None:
            return count
        is_other = self.derives() or '-f' not in self.setting.words and self.is_annotated()
        return WHOLE - 1 if is_other and count >= WHOLE else 0

    def is_settled(self, ended):
        """Takes note of what has happened. Whether there is an answer, or no whole run goes on any more."""
        if ended is None:
            return False
        if ended is CUT:
            self.cut_all()
            return not self.going
        if isinstance(ended, Whole):
            self.take(ended)
        elif ended is self.deriving:
            if not self.is_cut:
                self.begin_others()
        elif not self.is_cut:
            self.begin_whole(ended.name)
        return self.winner is not None or not self.going

    def take(self, ended):
        """Takes note of a whole run that has ended."""
        self.going.discard(ended)
        if ended.fault is None:
            self.open.append(ended)
            if ended.has_answer(self.setting.wanted if self.shared is None else None):
                self.winner = ended
            elif ended is self.plain and ended.search.told.status == 0:
                self.cut_all()
        elif ended is self.plain:
            self.take_fault(ended.fault)

    def take_fault(self, fault):
        """Raises the fault of the plain run, unless it is one that other workers make good: its check did not come to its end."""
        if not isinstance(fault, Ended) or REJECTED in fault.lines:
            raise fault
        self.fault = fault

    def cut_all(self):
        """Ends all searches. What the whole runs have found is checked to its end."""
        self.is_cut = True
        for whole in list(self.going):
            whole.search.cut()
        for neighbour in self.neighbours:
            neighbour.cut()
        if self.deriving is not None:
            self.deriving.cut()

    def end(self):
        """Ends all workers, and waits for their ends."""
        self.cut_all()
        for whole in list(self.going):
            whole.search.end()
        deadline = time.monotonic() + PATIENCE
        for worker in [*self.neighbours, *self.going]:
            worker.ended(deadline)
        if self.deriving is not None:
            self.deriving.join(max(0.0, deadline - time.monotonic()))

    def result(self):
        """Leaves the answer, and gives how the run ended that it comes from."""
        answer = Answer(self.setting, self.shared, self.counts)
        told = answer.left(self.plain, self.open if self.winner is None else [self.winner], self.fault)
        self.bound, self.value = answer.bound, answer.value
        for whole in self.others:
            whole.search.remove()
            self.setting.files.remove(f'{whole.search.name}.fzn')
        return told
