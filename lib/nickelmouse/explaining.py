"""What is told of a model or a file in the place of an answer: why there is none better, and where a refusal comes from."""
import sys
import tempfile

from nickelmouse import origins, why
from nickelmouse.edits import unbounded
from nickelmouse.items import items_of_text
from nickelmouse.mending import mended
from nickelmouse.minizinc import BY_THE_COMPILER, INCONSISTENT, compile_model
from nickelmouse.running import Ended, Refused, say
from nickelmouse.stated import with_stated_bounds



def table_in(files):
    """The table of what comes from where in the model."""
    return files.read('model.paths').decode('utf-8', 'replace')


def explain_refusal(check, files, said):
    """Says of a refusal where it comes from, and what helps."""
    line = origins.explained(check, said, files.read('model.fzn'), table_in(files))
    if line is not None:
        say(line)


class Explaining:
    """Says over a folder why there is no solution, or none better. `words` has what goes to the compiler, the bounds and the numbers of decisions."""

    def __init__(self, programs, files, words, configuration):
        self.programs, self.files, self.words, self.configuration = programs, files, words, configuration

    def compiled(self, *more):
        """Compiles the model: the file, the compiler's status and what it warns of."""
        words = [*more, '--solver', self.configuration, '--output-paths-to-file', self.files.path('model.paths'), *self.words.compiling]
        status, warned = compile_model(words, self.files.path('compiled.fzn'), self.files.path('warned'))
        text = self.files.read('compiled.fzn')
        if status == 0:
            text = with_stated_bounds(self.programs, text, self.files.folder, self.words.bounds is not None)
        self.files.remove('compiled.fzn', 'warned', 'stated.fzn', 'stated.fzc')
        return text, status, warned

    def explain_model(self):
        """Says it of a MiniZinc model. With -g the compiler states what it would else work into the sets of variables."""
        text, status, warned = self.compiled('-g')
        if status == 0 and self.words.bounds is None and self.leaves_unbounded(text):
            text, status, warned = self.compiled()
        sys.stderr.buffer.write(warned)
        sys.stderr.flush()
        self.files.remove('nickelmouse.msc')
        if status != 0:
            raise Ended(1, 'not compiled')
        if INCONSISTENT in warned:
            raise Ended(1, BY_THE_COMPILER)
        self.explain_text(text, True)

    def explain_text(self, text, is_compiled):
        """Says it of a file, by the places of its model where it was compiled from one."""
        model = mended(self.programs.check, text, self.words.bounds)
        self.files.write('model.fzn', model.text)
        status = self.told(model.text, table_in(self.files) if is_compiled else None)
        raise Ended(status, *([f'within -{self.words.bounds}..{self.words.bounds}'] if model.within else []))

    def leaves_unbounded(self, text):
        """Whether a compiled file has integers without bounds."""
        items = items_of_text(self.programs.check, text)
        return items is not None and bool(unbounded(items))

    def told(self, text, table):
        """Tells why. Returns the status."""
        with tempfile.TemporaryDirectory() as folder:
            asked = why.Asked(self.programs, folder, self.words.nodes, self.words.try_nodes or 100_000, self.words.heard)
            try:
                return why.told(asked, text, table)
            except Refused as fault:
                say(fault)
                if table is not None:
                    explain_refusal(self.programs.check, self.files, str(fault))
                raise Ended(1, 'not solved') from fault
