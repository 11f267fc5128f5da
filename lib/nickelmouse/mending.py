"""What is changed in a compiled file before it is solved: integers without bounds, goals that are constants, empty arrays of sets.

What takes apart a file's items is imported where it is needed, since few files have something to be mended."""
from dataclasses import dataclass

from nickelmouse.counts import counted, printed_items_of_text


@dataclass(frozen=True)
class Mended:
    """A compiled file as the solver takes it, whether an integer needed the bounds, the word of its goal, and what `fzncheck --items` prints of
    it where that is known. A file with a fault that cannot be mended has no goal."""
    text: bytes
    within: bool
    goal: str
    printed: str = None

    @property
    def has_objective(self):
        """Whether something is to be minimized or maximized."""
        return self.goal not in (None, 'satisfy')


def mended(check, text, bounds=None):
    """Mends a compiled file. One with other faults stays as it is."""
    printed = printed_items_of_text(check, text)
    counts = counted(printed) if printed is not None else None
    if counts is None or not counts.mends:
        return Mended(text, False, counts.goal if counts is not None else None, printed)
    from nickelmouse.edits import edits_of, unbounded
    from nickelmouse.items import parsed, replaced
    items = parsed(printed)
    wanting = unbounded(items) if bounds is not None else []
    return Mended(replaced(text, edits_of(items, dict.fromkeys(wanting, f'-{bounds}..{bounds}'))), bool(wanting), counts.goal)
