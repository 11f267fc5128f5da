"""A worker that searches neighbourhoods of the best solution: most of the model is fixed to it, and fznsolve searches the rest in a run of its
own, within so many nodes. A neighbourhood that is closed says nothing of the whole: of each run the solutions alone are taken."""
import random
import threading
import time
from dataclasses import dataclass

from nickelmouse.adapting import Chooser, Result
from nickelmouse.fixing import Insertion
from nickelmouse.following import CLOSED, solutions_in
from nickelmouse.kinds import View, kinds_for
from nickelmouse.processes import PROCESSES
from nickelmouse.statistics import nodes_in
from nickelmouse.structure import structure_of
from nickelmouse.workers import Worker

# How many nodes a run over the whole file has at first that looks for a solution, and how many seconds at most; how often a trial may take the
# time that it is meant to take. So none is lost in a model of which each node takes long.
NODES, SECONDS, LONGEST = 1000, 5.0, 3
# So many workers look for a solution of their own at first.
FIRST = 2
# A worker ends after so many runs that failed one after the other.
MOST_FAULTS = 5


@dataclass
class Prepared:
    """A model as neighbourhoods need it: its structure, its file, how many variables it has, and the manners in which it can be searched, by
    their names: the words for fznsolve, and another solve item or nothing. `kinds` are those of its neighbourhoods, of which `chooser` chooses."""
    structure: object
    insertion: Insertion
    variables: int
    manners: dict
    kinds: dict
    chooser: Chooser


def prepared(items, text, left_out=()):
    """Prepares a model; some kinds and manners may be left out."""
    structure = structure_of(items)
    insertion = Insertion(items, text, structure)
    manners = {'free': (['-f'], None), 'annotated': ([], None), 'by cost': ([], insertion.by_cost)}
    missing = [] if items.annotated else ['annotated']
    missing += [] if insertion.by_cost is not None else ['by cost']
    manners = {name: manner for name, manner in manners.items() if name not in missing and name not in left_out}
    kinds = {name: kind for name, kind in kinds_for(structure).items() if name not in left_out}
    return Prepared(structure, insertion, len(items.variables), manners, kinds, Chooser(kinds, manners, len(structure.units), len(text)))


class Neighbourhoods(threading.Thread):
    """A worker over the folder of a run, by its number among those of its like. `prepare` gives the model once it is prepared; `exhausted`, if it
    is given, is called once when neighbourhoods are of no more use, and the worker ends then."""

    def __init__(self, name, number, programs, files, shared, prepare, seed, before=(), exhausted=None):
        super().__init__(daemon=True)
        self.name, self.number, self.programs, self.files, self.shared = name, number, programs, files, shared
        self.prepare, self.before, self.exhausted = prepare, before, exhausted
        self.draw = random.Random(f'{seed} {number}')
        self.ending, self.worker, self.faults, self.fault, self.is_preparing = threading.Event(), None, 0, None, True
        self.trials, self.gains = {}, {}

    def cut(self):
        """Ends it soon."""
        self.ending.set()
        if self.worker is not None:
            self.worker.cut()

    def ended(self, deadline):
        """Waits for its end, but not beyond a moment, and not for a model to be prepared: it writes nothing any more then."""
        if not self.is_preparing:
            self.join(max(0.0, deadline - time.monotonic()))

    def run(self):
        """Looks for a first solution, then searches one neighbourhood after the other."""
        try:
            self.search()
        except Exception as fault:
            # It is left out: the answer is as right without it.
            self.fault = fault
        finally:
            self.files.remove(f'{self.name}.fzn', f'{self.name}.fzc')
        if self.fault is None and self.exhausted is not None and not self.ending.is_set():
            self.exhausted(self)

    def goes_on(self):
        """Whether there is still something to be done."""
        PROCESSES.go_on()
        return not self.ending.is_set() and self.faults < MOST_FAULTS

    def search(self):
        """All that it does."""
        model = self.prepare()
        self.is_preparing = False
        self.look_for_first(model)
        while self.goes_on() and len(model.structure.units) > 1:
            if self.exhausted is not None and model.chooser.is_exhausted(self.number):
                return
            solution, trial = self.shared.best, model.chooser.next(self.draw)
            view = View(model.structure, solution.values)
            free = model.kinds[trial.kind](view, trial.wanted, self.draw)
            constraints = model.insertion.neighbourhood(view, solution, free)
            result = self.tried(model, model.manners[trial.manner], constraints, trial.nodes, LONGEST * model.chooser.seconds())
            gain = abs(solution.value - self.best_of(result.lines, solution))
            model.chooser.learn(trial, result, gain / max(1, abs(solution.value)))
            self.note(trial, gain)

    def note(self, trial, gain):
        """Counts the trials of each kind and manner, and those that were better."""
        for name in (trial.kind, trial.manner):
            self.trials[name] = self.trials.get(name, 0) + 1
            self.gains[name] = self.gains.get(name, 0) + bool(gain)

    def best_of(self, lines, solution):
        """Hands on the last of some solutions, and gives its value: that of the one that it should be better than, where there are none."""
        if lines:
            self.shared.offer(lines[-1], self.name)
        return self.shared.value_in(lines[-1]) if lines else solution.value

    def look_for_first(self, model):
        """Searches the whole file in one manner after the other until somebody has a solution; the first workers in one of them in any case."""
        nodes, order = NODES, list(model.manners.values())
        order = order[::-1][self.number % len(order):] + order[::-1][:self.number % len(order)]
        while self.goes_on() and (self.shared.best is None or self.number < FIRST):
            for manner in order:
                result = self.tried(model, manner, [], nodes, SECONDS)
                if result.lines:
                    self.shared.offer(result.lines[-1], self.name)
                if self.shared.best is not None or not self.goes_on():
                    return
            nodes *= 2

    def tried(self, model, manner, constraints, nodes, seconds):
        """Searches the file with these constraints in a manner, within so many nodes and seconds."""
        words, goal = manner
        self.files.write(f'{self.name}.fzn', model.insertion.text(constraints, goal))
        self.files.remove(f'{self.name}.fzc')
        worker = self.worker = Worker(self.programs.solve, [*words, '--nodes', str(nodes), '--progress'], self.files.path(f'{self.name}.fzn'),
                                      self.files.path(f'{self.name}.fzc'), self.before, is_spare=True)
        if self.ending.is_set():
            worker.cut()
        timer, begin = threading.Timer(seconds, worker.cut), time.monotonic()
        timer.daemon = True
        timer.start()
        try:
            told = worker.run()
        finally:
            timer.cancel()
        text = self.files.read(f'{self.name}.fzc')
        text = text[:text.rfind(b'\n') + 1]
        self.faults = self.faults + 1 if told.status != 0 and not worker.is_cut else 0
        lines = [line for line in solutions_in(text) if line.count(b' ') == model.variables]
        return Result(lines, nodes if told.status < 0 else nodes_in(told.said) or 0, time.monotonic() - begin, text.endswith(CLOSED))
