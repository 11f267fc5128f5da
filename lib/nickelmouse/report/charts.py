"""What is drawn, as plain data: charts of the objective's course, of tasks, of what tasks use, of tours. `drawing.py` makes pictures of it.

A chart of many tasks is thinned out, so that a page stays light: up to LABELLED tasks have a row each, up to DRAWN a bar each, and of more
those that touch at the width of the page are drawn as one."""
from nickelmouse.report.course import thinned

LABELLED, DRAWN, LANES, PARTS, STEPS, NAMED = 60, 600, 60, 700, 500, 80
COLOURS = 10


def course_chart(course, name):
    """The chart of a course."""
    # The declared set alone says little, and is far off.
    best, proved = course.best(), [pair for pair in course.proved() if pair[1] != course.declared]
    return {'kind': 'course', 'name': name, 'best': thinned(best, STEPS), 'proved': thinned(proved, STEPS), 'seconds': course.seconds,
            'minimized': course.is_minimized}


def merged(bars, least):
    """The bars of one row, of which those with less than so much between them are one; each a start, an end, a colour and a label."""
    kept = []
    for start, end, colour, label in sorted(bars):
        if kept and start - kept[-1][1] < least:
            first, last, former, _ = kept[-1]
            kept[-1] = first, max(last, end), former if former == colour else 0, ''
        else:
            kept.append((start, end, colour, label))
    return kept


def span_of(tasks):
    """The first start and the last end of tasks."""
    return min(task.start for task in tasks), max(task.end for task in tasks)


def in_lanes(tasks):
    """The tasks in lanes, in each of them one behind the other: each task goes to the first lane that is free at its start."""
    import heapq
    free, busy, lanes = [], [], []
    for task in sorted(tasks, key=lambda task: (task.start, task.end)):
        while busy and busy[0][0] <= task.start:
            heapq.heappush(free, heapq.heappop(busy)[1])
        if free:
            lane = heapq.heappop(free)
        else:
            lane = len(lanes)
            lanes.append([])
        lanes[lane].append(task)
        heapq.heappush(busy, (task.end, lane))
    return lanes


class Colours:
    """A colour for each group of tasks, by the first index of their names, in the order in which the groups are asked for."""

    def __init__(self, names):
        self.names, self.groups = names, {}

    def group(self, task):
        """The group of a task: the first of several indices, or nothing."""
        index = self.names.index(task.variable) if task.variable is not None else []
        return index[0] if len(index) > 1 else None

    def begin_with(self, tasks):
        """Gives the groups of these tasks their colours in the order of their names, numbers by their size."""
        for _, _, task in sorted((len(group), group, place) for place, group in enumerate(map(self.group, tasks)) if group is not None):
            self.of(tasks[task])

    def of(self, task):
        """The number of the colour of a task, 0 for tasks without a group."""
        group = self.group(task)
        if group is None:
            return 0
        return self.groups.setdefault(group, len(self.groups) % COLOURS + 1)


def by_machine(cumulatives, labels, colours):
    """The chart of cumulatives whose tasks stand one behind the other: a row for each."""
    working = [cumulative.working for cumulative in cumulatives]
    colours.begin_with([task for tasks in working for task in tasks])
    begin, end = span_of([task for tasks in working for task in tasks])
    count = sum(map(len, working))
    rows = []
    for tasks in working:
        bars = [(task.start, task.end, colours.of(task), colours.group(task) or '') for task in tasks]
        rows.append(bars if count <= DRAWN else merged(bars, (end - begin) / PARTS))
    bars = [(row, *bar) for row, bars in enumerate(rows) for bar in bars]
    return {'kind': 'tasks', 'rows': labels, 'bars': bars, 'begin': begin, 'end': end, 'load': None, 'capacity': None,
            'merged': count > DRAWN}


def load_of(cumulative):
    """What the tasks use over time, thinned out: of the changes within one part of the time the greatest use counts."""
    steps = cumulative.load()
    if len(steps) <= 2 * PARTS:
        return steps
    begin, end = steps[0][0], steps[-1][0]
    parts = {}
    for moment, use in steps[:-1]:
        part = int(PARTS * (moment - begin) / (end - begin))
        first, greatest = parts.get(part, (moment, use))
        parts[part] = first, max(use, greatest)
    return [parts[part] for part in sorted(parts)] + [steps[-1]]


def of_cumulative(cumulative, names, colours):
    """The chart of one cumulative: its tasks, and below them what they use."""
    tasks = cumulative.working
    begin, end = span_of(tasks)
    rows, bars = [], []
    if len(tasks) <= LABELLED:
        for row, task in enumerate(sorted(tasks, key=lambda task: (task.start, task.end))):
            rows.append(names.variable(task.variable) if task.variable is not None else '')
            bars.append((row, task.start, task.end, colours.of(task), str(task.use)))
    else:
        lanes = in_lanes(tasks)
        each = -(-len(lanes) // LANES)
        rows = [''] * -(-len(lanes) // each)
        least = (end - begin) / PARTS if len(tasks) > DRAWN else 0
        for row in range(len(rows)):
            lane = [(task.start, task.end, colours.of(task), '') for tasks in lanes[each * row:each * row + each] for task in tasks]
            bars += [(row, *bar) for bar in (merged(lane, least) if least else sorted(lane))]
    return {'kind': 'tasks', 'rows': rows, 'bars': bars, 'begin': begin, 'end': end, 'load': load_of(cumulative),
            'capacity': cumulative.capacity, 'merged': len(tasks) > DRAWN}


def of_tour(places):
    """The chart of a tour: the labels of its places in the order of the tour; of many places only some have one."""
    each = -(-len(places) // NAMED)
    return {'kind': 'tour', 'places': [label if place % each == 0 else '' for place, label in enumerate(places)]}
