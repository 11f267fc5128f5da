"""The bytes that a compiled file gets in the place of others, at those that `fzncheck --items` names. Each line stays where it is."""
from nickelmouse.items import Span


def place_of_declaration(items):
    """A byte behind which a further variable may be declared."""
    declared = [span.behind for span in items.declarations()] or [span.behind for _, span in items.parameters]
    return max(declared, default=min(span.first for span in [items.goal.span] + [one.span for one in items.constraints]))


def edits_of_goal(items):
    """What makes a variable with one value of a goal that is a constant."""
    name = items.fresh('nickelmouse_objective').encode()
    value, place = items.goal.constant, place_of_declaration(items)
    declaration = b' var %d..%d: %s; ' % (value, value, name)
    return [(Span(place, place), declaration)] + [(mend.span, name) for mend in items.mends if mend.kind == 'constant']


def edits_of(items, sets_of):
    """What mends a file, where `sets_of` gives integers without bounds their sets, by their names."""
    edits = [(mend.span, b'int') for mend in items.mends if mend.kind == 'sets']
    edits += [(mend.span, sets_of[mend.name].encode()) for mend in items.mends if mend.kind == 'unbounded' and mend.name in sets_of]
    return edits + (edits_of_goal(items) if items.goal.constant is not None else [])


def unbounded(items):
    """The names of the integers without bounds."""
    return [mend.name for mend in items.mends if mend.kind == 'unbounded']
