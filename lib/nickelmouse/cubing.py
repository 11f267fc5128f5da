"""The work on cubes: which are searched where, what becomes of what each search leaves, and when it is over."""
import time

from nickelmouse.cubes import close
from nickelmouse.joining import Added, Spoilt
from nickelmouse.queueing import FAILURES, Queue
from nickelmouse.running import say
from nickelmouse.slots import Task, end_of, how_ended
from nickelmouse.splitting import Ends, Opened, split_of
from nickelmouse.statistics import TOLD, without_progress

SECONDS = 0.01
# Literals that hold in the whole file are given to each cube, at most so many; a file has at most so many constraints.
GIVEN, CONSTRAINTS = 1_000, 100_000
# The statuses of the solver where the file or its words are at fault.
REFUSED = (2, 3)


class Cubing:
    """The cubes of one file: `text` is what stands in front of the added items and behind them, `variables` are the file's. `joined` takes
    the certificates. The first cube, which is the whole search with a small budget, is searched on the slots `here`, with some more words;
    so are all where no others are left. `budget` is that of the first cube, `nodes` that of all together, or nothing."""

    def __init__(self, files, text, variables, joined, words, budget, nodes):
        self.files, self.text, self.variables, self.joined, self.words, self.left = files, text, variables, joined, words, nodes
        self.queue, self.tasks, self.number, self.is_cut, self.wrong = Queue(budget), [], 0, False, None
        self.closed, self.totals = 0, [0, 0, 0]

    def cut(self):
        """Ends all searches now."""
        self.is_cut = self.joined.is_stopped = True
        for task in list(self.tasks):
            task.process.kill()

    def is_over(self):
        """Whether nothing is left to be searched, or is to be."""
        return self.is_cut or self.wrong is not None or self.queue.root.closed is not None or self.joined.has_enough()

    def work(self, slots, here, first, tell):
        """Searches all cubes. `tell` is called again and again."""
        self.slots = slots
        self.start(self.queue.next(), here, first)
        while self.tasks and not self.is_over():
            self.pause()
            self.take_ended()
            self.fill(here)
            tell(self)
        self.end_tasks()
        self.joined.end(self.queue.root.closed is not None)

    def pause(self):
        """Lets the searches go on for a while."""
        time.sleep(SECONDS)

    def fill(self, here):
        """Starts searches where there is room."""
        if not self.slots:
            say('no host is left: the rest is searched here')
            self.slots = [here]
        for slots in self.slots:
            while slots.has_room() and self.left != 0 and not self.is_over():
                cube = self.queue.next()
                if cube is None:
                    return
                self.start(cube, slots)

    def given(self):
        """The literals that are known of the whole file, with the steps that give them, newest first."""
        bound = self.joined.bound()
        replaced = {(literal.variable, literal.sign) for literal, _ in bound}
        found = [pair for kind, pair in self.joined.given.items() if kind not in replaced and pair[0].fits()]
        return (*sorted(found, key=lambda pair: -pair[1])[:GIVEN], *bound)

    def start(self, cube, slots, more=()):
        """Starts the search of a cube."""
        self.number += 1
        bounds = tuple(cube.literals())
        added = Added(bounds, self.given()[:max(0, CONSTRAINTS - self.joined.whole.constraints - len(bounds))])
        budget = self.queue.give(cube, sum(one.number for one in self.slots), len(self.tasks), self.left)
        if self.left is not None:
            self.left -= budget
        task = Task(self.number, cube, budget, added)
        self.files.write(task.name('fzn'), self.text[0] + added.items(self.variables).encode() + self.text[1])
        slots.start(task, [*self.words, *more])
        self.tasks.append(task)
        if self.is_cut:
            task.process.kill()

    def take_ended(self):
        """Takes what those searches have left that have ended."""
        for task in [task for task in self.tasks if task.process.poll() is not None]:
            self.tasks.remove(task)
            status, said = task.slots.ended(task)
            self.count(task, said)
            if not self.is_over() and not task.cube.is_over():
                self.take(task, status, without_progress(said))
            elif self.is_cut:
                self.take_solutions(task)
            task.remove(self.files)
            self.joined.flush()

    def take(self, task, status, said):
        """Takes what one search has left. Where it has failed, its cube is taken again."""
        try:
            if status != 0:
                raise Spoilt(how_ended(status, said))
            self.take_certificate(task)
        except (FileNotFoundError, Spoilt) as fault:
            wrong = task.slots.fault(status, said)
            if wrong is None:
                self.take_again(task.cube, status, str(fault))
                return
            if task.slots in self.slots:
                say(wrong)
                self.slots.remove(task.slots)
            self.queue.add(task.cube)
        for other in self.tasks:
            if other.cube.is_over():
                other.process.kill()

    def take_certificate(self, task):
        """Joins the certificate of a cube that is closed, and that of the first, of which all others take what it has learned; halves what
        is open."""
        path, cube = self.files.path(task.name('fzc')), task.cube
        end = end_of(path)
        if not end:
            raise Spoilt('a certificate without an end')
        closing = None
        if end == b'e closed\n' or cube.parent is None:
            with open(path, 'rb') as lines:
                closing = self.joined.join(lines, task.added)
        if closing is not None:
            self.closed += 1
            close(cube, closing, self.joined)
        elif self.is_cut:
            self.take_solutions(task)
        elif not self.joined.has_enough():
            with open(path, 'rb') as lines:
                self.halve(task, Opened(lines, self.joined.found))

    def halve(self, task, opened):
        """Halves a cube that was left open. One that has no variable to be halved is searched again, with a larger budget."""
        cube, whole = task.cube, self.joined.whole
        ends = Ends(self.variables, (*task.added.bounds, *(literal for literal, _ in task.added.given)))
        literal = split_of(opened, ends, whole, self.joined.wanted != 1) if whole.constraints + cube.depth < CONSTRAINTS else None
        if literal is not None:
            self.queue.add(*cube.split(literal))
        else:
            cube.budget *= 2
            self.take_again(cube, 0, 'a cube is left open that cannot be halved')

    def take_again(self, cube, status, said):
        """Takes a cube again, but for one that has failed too often, or whose file is refused: then the search ends."""
        cube.failures += 1
        if cube.failures < FAILURES and status not in REFUSED:
            self.queue.add(cube)
        else:
            # What was found so far is worth something, unless it is the file itself that was refused.
            self.wrong = (status or 5) if cube.parent is None else 5, said

    def take_solutions(self, task):
        """Takes the solutions that a search has found which was cut."""
        try:
            with open(self.files.path(task.name('fzc')), 'rb') as lines:
                Opened(lines, self.joined.found)
        except (FileNotFoundError, Spoilt):
            return

    def end_tasks(self):
        """Ends the searches that go on."""
        for task in self.tasks:
            task.process.kill()
        while self.tasks:
            task = self.tasks.pop()
            self.count(task, task.slots.ended(task)[1])
            if self.is_cut:
                self.take_solutions(task)
            task.remove(self.files)

    def count(self, task, said):
        """Adds up what the searches tell of themselves."""
        told = None
        for told in TOLD.finditer(said):
            pass
        if told is not None:
            self.totals = [total + int(value) for total, value in zip(self.totals, told.groups()[1:4])]
            if self.left is not None:
                self.left += max(0, task.budget - int(told[2]))
