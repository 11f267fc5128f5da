"""The words of whole runs beside the plain one: other searches of the same file, so that one of them may end sooner."""

from nickelmouse.deriving import DERIVE

VALUED = ('-r', '--learn')


def without(words, *left_out):
    """Words without some of them, and without the values of those."""
    kept, is_value = [], False
    for word in words:
        if is_value or word in left_out:
            is_value = not is_value and word in VALUED
        else:
            kept.append(word)
    return kept


def seed_in(words):
    """The seed that words name, or 0."""
    return int(words[words.index('-r') + 1]) if '-r' in words else 0


def seeded(seed):
    """The words of runs without annotations by other seeds."""
    return [['-f', '-r', str(seed + number)] for number in range(1, 1 << 10)]


def satisfying(words):
    """The words of further runs over a satisfaction, in the order in which they serve: with annotations or without, as the plain run is not, and
    with derived constraints; then by other seeds, and with the plain learned clause."""
    bare, seed = without(words, '-f', '-r', '--learn'), seed_in(words)
    others = seeded(seed)
    derive = [DERIVE] if DERIVE not in words else []
    chosen = [([] if '-f' in words else ['-f']) + derive, *others[:2], ['--learn', 'plain'], ['-r', str(seed + 1)], *others[2:]]
    return [bare + one for one in chosen]


def optimising(words, is_annotated, has_costs, derives=False):
    """The words of further runs over an optimisation, in the order in which they serve, and whether each decides the costs first: with derived
    constraints and without annotations, if some are derived; with annotations, if there are any, or without, as the plain run is not; costs
    first, if there are several; then by other seeds."""
    bare, seed = without(words, '-f', '-r', '--learn'), seed_in(words)
    chosen = [(['-f', DERIVE], False)] * derives + [([] if '-f' in words else ['-f'], False)] * is_annotated + [([], True)] * has_costs
    chosen += [(one, False) for one in seeded(seed)]
    return [(bare + one, by_cost) for one, by_cost in chosen]
