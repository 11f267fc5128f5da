"""From a model to its checked answer, step by step: compile, mend, solve and check, print. What few runs need is imported where it is needed,
since each start pays for what is imported."""
import os
import sys

from nickelmouse.bound import lines_of, tells_bounds
from nickelmouse.kept import PRINTED, Record, write_record
from nickelmouse.mending import mended
from nickelmouse.minizinc import BY_THE_COMPILER, INCONSISTENT, configuration
from nickelmouse.printing import Plain, begins_with, print_rest
from nickelmouse.running import Ended, Refused, say
from nickelmouse.solving import Search
from nickelmouse.statistics import statistics_in


def configured():
    """The path of our configuration."""
    path = configuration()
    if path is None:
        raise Refused(4, 'MiniZinc does not know nickelmouse: run ./install')
    return path


class Answering:
    """One command line over a folder."""

    def __init__(self, asked, programs, files, limits):
        self.asked, self.programs, self.files, self.limits = asked, programs, files, limits
        self.start = None
        if asked.start is not None:
            from nickelmouse.starting import Start
            self.start = Start(asked.start, programs, files, asked.time_limit)

    def run(self):
        """All steps. Ends the run."""
        if self.asked.explaining:
            self.explain()
        if self.asked.is_flat:
            self.solve(self.flat_text(), Plain())
        if self.asked.keep is None and self.asked.report is None:
            self.solve_model(None)
        with open(self.files.path(PRINTED), 'wb') as kept:
            self.solve_model(kept)

    def flat_text(self):
        """The bytes of a FlatZinc file."""
        with open(self.asked.files[0], 'rb') as file:
            return file.read()

    def solve_model(self, kept):
        """Has MiniZinc compile the model, and solves it. Ends the run."""
        from nickelmouse.compiling import Compiler
        compiler = Compiler(self.files, configured(), self.asked.compiling, kept)
        text, warned = compiler.compiled()
        sys.stderr.buffer.write(warned)
        sys.stderr.flush()
        if text is None and INCONSISTENT in warned:
            print('=====UNSATISFIABLE=====')
            raise Ended(1, BY_THE_COMPILER)
        if text is None:
            raise Ended(1, 'not compiled')
        self.solve(text, compiler)

    def solve(self, text, printer):
        """Mends a file, solves it, and prints the answer. Ends the run."""
        model = mended(self.programs.check, text, self.asked.bounds)
        self.files.write('model.fzn', model.text)
        self.answer(model, printer)

    def explain(self):
        """Says why there is no solution, or none better. Ends the run."""
        from nickelmouse.explaining import Explaining
        if self.asked.is_flat:
            Explaining(self.programs, self.files, self.asked, None).explain_text(self.flat_text(), False)
        Explaining(self.programs, self.files, self.asked, configured()).explain_model()

    def record(self, model):
        """What is said of the answer to a file: each better solution where -i wants it, and of an optimisation how good it can be."""
        return Record(self.asked.every or self.asked.intermediate and model.has_objective, self.asked.bounds if model.within else None,
                      model.has_objective and tells_bounds(self.programs.check))

    def search(self, record, model, printer, hints):
        """The search that is asked for, with these words for hints: one run, or several workers."""
        asked, words = self.asked, self.asked.solving + hints
        if record.every and '-a' not in words:
            words.append('-a')
        if asked.statistics and '--progress' not in words:
            words.append('--progress')
        keeps = asked.keep is not None or asked.report is not None
        shown, tells = printer if asked.unchecked else None, '--progress' in asked.solving
        if asked.machines.has_cubes:
            return asked.machines.search(self.programs, self.files, words, record.checking(), keeps, tells)
        if asked.jobs == 1 or model.goal is None:
            return Search(self.programs, self.files, words, record.checking(), keeps, shown, tells, before=self.programs.through)
        from nickelmouse.portfolio import Portfolio, Setting
        return Portfolio(Setting(self.programs, self.files, words, record.checking(), keeps, asked.jobs, asked.wanted, shown, tells,
                                 before=self.programs.through), model)

    def answer(self, model, printer):
        """Solves the file, has the answer checked, and prints it. Ends the run."""
        record = self.record(model)
        search = self.search(record, model, printer, self.start.words(model.text) if self.start is not None else [])
        self.limits.cut = search.cut
        try:
            told = search.run()
        except Refused as fault:
            if fault.status != 2:
                raise
            self.refuse(fault)
        finally:
            if self.start is not None:
                self.start.remove()
        if self.asked.keep is not None:
            write_record(self.files, record)
        self.print_answer(printer, statistics_in(told.said, search.bound, search.value).encode() if self.asked.statistics else b'')
        raise Ended(0, *lines_of(search.bound, self.files), self.programs.checked(record.bounds))

    def refuse(self, fault):
        """Tells why the file is refused. Ends the run."""
        say(fault)
        if not self.asked.is_flat:
            from nickelmouse.explaining import explain_refusal
            explain_refusal(self.programs.check, self.files, str(fault))
        raise Ended(1, 'not solved') from fault

    def print_answer(self, printer, behind):
        """Prints what fzncheck has printed, but for what was shown before, and something behind it."""
        shown = 0
        if self.asked.unchecked:
            if not begins_with(self.files, 'model.answer', 'model.shown'):
                raise Ended(1, 'the certificate shows another answer')
            shown = os.path.getsize(self.files.path('model.shown'))
            self.files.remove('model.shown')
        print_rest(self.files, 'model.answer', printer, shown, behind)
