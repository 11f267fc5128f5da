"""`nickelmouse --report FILE`: what is collected while a command runs, and the page that is written once its answer is checked."""
import sys

from nickelmouse.processes import Interrupted
from nickelmouse.report import target
from nickelmouse.report.growth import Growth
from nickelmouse.running import Ended, say


class Reporting:
    """A page for one command line. `found` and `bounded` may be told of what other workers have found, at which second of the search."""

    def __init__(self, asked, programs):
        self.asked, self.programs, self.text, self.why = asked, programs, None, None
        self.values, self.bounds, self.growth = [], [], None
        asked.heard = self.explained
        target.claim(asked.report)

    def __enter__(self):
        return self

    def __exit__(self, kind, *_):
        if kind is None and self.text is not None:
            target.put(self.asked.report, self.text)

    def clock(self):
        """The second of the search that it is now."""
        return self.growth.clock() if self.growth is not None else 0.0

    def found(self, seconds, value):
        """A worker has found a solution with this value of the objective."""
        self.values.append((seconds, value))

    def bounded(self, seconds, value):
        """A worker has shown that no solution is better than this value, in what becomes part of the certificate that is checked."""
        self.bounds.append((seconds, value))

    def explained(self, why):
        """Takes what `--why` has found."""
        self.why = why

    def around(self, run, files):
        """A run over a folder, with the page behind it. Where that cannot be made, the answer stays as it is, and the status says so."""
        def reported():
            growth = self.growth = Growth(files.folder)
            growth.start()
            try:
                run()
            except Ended as end:
                if end.status != 0:
                    raise
                growth.finish()
                sys.stdout.flush()
                try:
                    self.text = self.page(files, growth, end.lines)
                except Interrupted:
                    raise
                except Exception as fault:
                    say(f'no page: {" ".join(str(fault).split()) or type(fault).__name__}')
                    raise Ended(4, *end.lines) from fault
                raise
        return reported

    def page(self, files, growth, lines):
        """The bytes of the page."""
        from nickelmouse.report.pages import answer_page, why_page
        if self.why is not None:
            return why_page(self.asked, self.programs, files, self.why, lines)
        return answer_page(self, files, growth, lines)
