"""The answer of several workers once no whole run has ended with one: by the certificate that shows the best solution, and with the best bound."""
import os

from nickelmouse.bound import BOUND, cut_from, narrowed
from nickelmouse.kept import BOUND_CERTIFICATE
from nickelmouse.running import Ended, Refused, started
from nickelmouse.solving import check_end, told_in
from nickelmouse.workers import Told


NOBODY = 'no worker has come to an end'


class Answer:
    """What is left in the folder: `model.answer`, and `model.fzc` where it is kept. `bound` is what is known of the objective where that is open,
    `value` its value where it is not the one that the run has told of."""

    def __init__(self, setting, shared, counts):
        self.setting, self.shared, self.counts = setting, shared, counts
        self.bound, self.value = None, None

    def left(self, plain, ended, fault):
        """Leaves the answer of these whole runs, each of which was checked. Gives how the one ended that it comes from; raises the fault where
        nobody has anything."""
        if self.shared is None:
            if not ended:
                raise fault or Ended(1, NOBODY)
            return self.adopted(max(ended, key=lambda whole: (whole.solutions, whole is plain)), ended)
        best = self.shared.best
        shows = [whole for whole in ended if best is None or whole.last is not None and self.shared.value_in(whole.last) == best.value]
        if shows:
            return self.adopted(plain if plain in shows else shows[0], ended)
        try:
            if best is None or self.is_shown(plain):
                raise fault or Ended(1, NOBODY)
            self.check_solutions(plain)
        except (Ended, Refused, OSError):
            self.setting.files.remove('solutions.fzc', 'solutions.answer', 'solutions.checking')
            if not ended:
                raise
            return self.adopted(plain if plain in ended else ended[0], ended)
        self.value = best.value
        self.take_bounds([whole.search for whole in ended])
        self.take('solutions')
        return plain.search.told or Told(0, '')

    def is_shown(self, plain):
        """Whether the plain run has printed its one solution already."""
        return not self.shared.every and self.setting.files.read('model.shown') != b''

    def adopted(self, whole, ended):
        """Takes what a whole run has left, with the best bound of all."""
        self.bound = whole.search.bound
        self.take_bounds([other.search for other in ended if other is not whole])
        self.take(whole.search.name)
        return whole.search.told

    def take(self, name):
        """Takes an answer, and its certificate where it is kept."""
        files = self.setting.files
        for ending in ('answer', 'fzc') if name != 'model' else ():
            if os.path.exists(files.path(f'{name}.{ending}')):
                os.replace(files.path(f'{name}.{ending}'), files.path(f'model.{ending}'))

    def take_bounds(self, searches):
        """Takes the best bound that one of these searches has proved, where it is better than that of the answer; and its certificate, where that
        is kept."""
        for search in searches:
            bound = narrowed(self.bound, search.bound)
            if bound != self.bound:
                self.bound = bound
                if self.setting.keeps:
                    os.replace(search.path('fzc'), self.setting.files.path(BOUND_CERTIFICATE))

    def check_solutions(self, plain):
        """Has a certificate checked that shows the solutions alone."""
        files, shared = self.setting.files, self.shared
        front = plain.lines if self.setting.shown is not None and shared.every else []
        files.write('solutions.fzc', shared.certificate(self.counts, front))
        with open(files.path('solutions.answer'), 'wb') as answer, open(files.path('solutions.checking'), 'wb') as checking:
            checker = started([self.setting.programs.check, *self.setting.checking, files.path('model.fzn'), files.path('solutions.fzc')],
                              stdout=answer, stderr=checking)
        check_end(files, 'solutions', told_in(checker, files, 'solutions.checking'))
        if BOUND in self.setting.checking:
            self.bound = cut_from(files.path('solutions.answer'))
