"""Draws charts as SVG by matplotlib: `python3 -m nickelmouse.report.drawing` reads them as JSON, a list of what `charts.py` makes, and
prints a list of pictures. The status is 3 where matplotlib is not there.

Colours are stand-ins that the page's own take the place of, so that a picture is readable on light and on dark ground. Text stays text. The
same charts give the same bytes."""
import io
import json
import math
import re
import sys

MISSING = 3
WIDTH, ROW, LANE, LOAD, COURSE, TOUR = 860, 22, 9, 120, 260, 420
# A stand-in for each colour of the page's style.
INK, MUTED, LINE, BEST, BOUND, USE = ('#01010%d' % number for number in range(1, 7))
TASKS = ['#0202%02d' % number for number in range(11)]
LABEL, PAPER = '#030301', '#030302'
NAMES = {INK: 'ink', MUTED: 'muted', LINE: 'line', BEST: 'best', BOUND: 'bound', USE: 'use', LABEL: 'label', PAPER: 'paper',
         **{stand_in: f'task{number}' for number, stand_in in enumerate(TASKS)}}
SETTINGS = {'svg.fonttype': 'none', 'svg.hashsalt': 'nickelmouse', 'text.parse_math': False, 'font.family': 'sans-serif', 'font.size': 12,
            'text.color': INK, 'axes.edgecolor': LINE, 'axes.labelcolor': MUTED, 'xtick.color': LINE, 'ytick.color': LINE,
            'xtick.labelcolor': MUTED, 'ytick.labelcolor': INK, 'axes.spines.top': False, 'axes.spines.right': False, 'axes.linewidth': 1,
            'figure.facecolor': 'none', 'axes.facecolor': 'none', 'savefig.facecolor': 'none', 'path.simplify': False, 'axes.grid': False,
            'grid.color': LINE, 'grid.linewidth': 0.6, 'axes.axisbelow': True, 'xtick.major.size': 0, 'ytick.major.size': 0}


def in_place_of_stand_ins(text):
    """A picture in the page's own colours."""
    for stand_in, name in NAMES.items():
        text = text.replace(stand_in, f'var(--{name})')
    return text


def of_a_page(text, number, said):
    """The picture as it stands in a page: without a head of its own, with ids that no other picture has, and with what is said of it."""
    text = text[text.index('<svg'):]
    text = re.sub(r' (id|clip-path|xlink:href)="(url\(#|#)?', lambda found: f' {found[1]}="{found[2] or ""}c{number}-', text)
    text = re.sub(r'<metadata>.*?</metadata>', '', text, flags=re.S)
    _, width, height = re.match(r'<svg ([^>]*?)width="([\d.]+)pt" height="([\d.]+)pt"', text).groups()
    head = (f'<svg xmlns="http://www.w3.org/2000/svg" xmlns:xlink="http://www.w3.org/1999/xlink" viewBox="0 0 {width} {height}" '
            f'width="{width}" height="{height}" role="img" aria-label="{said}">')
    return head + in_place_of_stand_ins(text[text.index('>') + 1:])


def figure_of(height):
    """A figure of the page's width, and so high, both in pixels of the page."""
    from matplotlib.figure import Figure
    return Figure(figsize=(WIDTH / 72, height / 72), dpi=72)


def placed(figure, left, top, right, bottom):
    """Axes at a place of a figure, in pixels from its left and its top."""
    width, height = figure.get_figwidth() * 72, figure.get_figheight() * 72
    return figure.add_axes([left / width, 1 - bottom / height, (right - left) / width, (bottom - top) / height])


def stepped(pairs, end):
    """The numbers of pairs over time up to an end, each up to the next one."""
    return [moment for moment, _ in pairs] + [end], [number for _, number in pairs] + [pairs[-1][1]]


def draw_course(chart):
    """The values found, and the bounds, over time."""
    figure = figure_of(COURSE)
    axes = placed(figure, 60, 14, WIDTH - 110, COURSE - 40)
    end = 1.02 * max([chart['seconds']] + [seconds for seconds, _ in chart['best'] + chart['proved']]) or 1
    for name, colour, label, dash in (('proved', BOUND, 'bound', (4, 3)), ('best', BEST, chart['name'], (None, None))):
        if chart[name]:
            line, = axes.plot(*stepped(chart[name], end), drawstyle='steps-post', color=colour, linewidth=2, solid_capstyle='butt')
            if dash[0]:
                line.set_dashes(dash)
    last = [chart[name][-1][1] for name in ('best', 'proved') if chart[name]]
    if len(set(last)) == 1:
        axes.annotate(f'{last[0]}', (end, last[0]), (8, 0), textcoords='offset points', va='center', weight='bold')
    else:
        for name, colour in (('best', BEST), ('proved', BOUND)):
            if chart[name]:
                value = chart[name][-1][1]
                axes.annotate(f'{value}', (end, value), (8, 0), textcoords='offset points', va='center', color=colour, weight='bold')
    axes.set_xlim(0, end)
    axes.margins(y=0.08)
    axes.grid(axis='y')
    axes.spines['left'].set_visible(False)
    axes.set_xlabel('seconds of the search')
    whole_numbers(axes.yaxis)
    return figure


def whole_numbers(axis):
    """Has an axis marked at whole numbers, which are spelled whole."""
    from matplotlib.ticker import FuncFormatter, MaxNLocator
    axis.set_major_locator(MaxNLocator(nbins='auto', integer=True, steps=[1, 2, 5, 10]))
    axis.set_major_formatter(FuncFormatter(lambda number, _: f'{number:.0f}'))


def shortened(label, most=28):
    """A label that is not too long."""
    return label if len(label) <= most else label[:most - 1] + '…'


def draw_tasks(chart):
    """Tasks as bars, a row for each label, and below them what they use, with the capacity."""
    rows = [shortened(label) for label in chart['rows']]
    row = ROW if any(rows) else LANE
    left = 14 + max([42] + [round(6.6 * len(label)) for label in rows])
    bottom = 14 + row * len(rows)
    has_load = bool(chart['load'])
    figure = figure_of(bottom + (LOAD + 26 if has_load else 0) + 44)
    axes = placed(figure, left, 10, WIDTH - 24, bottom)
    draw_bars(axes, chart, row, WIDTH - 24 - left)
    axes.set_ylim(len(rows) - 0.4, -0.6)
    axes.set_yticks(range(len(rows)) if any(rows) else [], rows if any(rows) else [])
    for side in ('left', 'bottom'):
        axes.spines[side].set_visible(False)
    lower = axes
    if has_load:
        lower = placed(figure, left, bottom + 18, WIDTH - 24, bottom + 18 + LOAD)
        draw_load(lower, chart)
    for each in (axes, lower):
        each.set_xlim(left_of(chart), max(chart['end'], left_of(chart) + 1))
        whole_numbers(each.xaxis)
        each.grid(axis='x')
    if has_load:
        axes.tick_params(labelbottom=False)
    lower.set_xlabel('time')
    return figure


def left_of(chart):
    """The moment at which a chart of tasks begins: 0, unless that is far from the tasks."""
    begin, end = chart['begin'], chart['end']
    return 0 if 0 <= begin <= end - begin else begin


def draw_bars(axes, chart, row, width):
    """The bars, each with its label where there is room."""
    from matplotlib.collections import PolyCollection
    half, scale = 0.39 if row == ROW else 0.5, width / max(1, chart['end'] - left_of(chart))
    shapes, colours = [], []
    for at, start, end, colour, label in chart['bars']:
        shapes.append([(start, at - half), (end, at - half), (end, at + half), (start, at + half)])
        colours.append(TASKS[colour])
        if label and (end - start) * scale > 7 * len(label) + 3:
            axes.text((start + end) / 2, at, label, ha='center', va='center_baseline', fontsize=11, color=LABEL)
    gap = 1 if len(shapes) <= 600 else 0
    for colour in sorted(set(colours)):
        of_one = [shape for shape, other in zip(shapes, colours) if other == colour]
        axes.add_collection(PolyCollection(of_one, facecolors=colour, edgecolors=PAPER if gap else 'none', linewidths=gap))


def draw_load(axes, chart):
    """What the tasks use over time, and the capacity."""
    moments, uses = stepped(chart['load'], chart['end'])
    axes.fill_between(moments, uses, step='post', color=USE, linewidth=0)
    axes.axhline(chart['capacity'], color=BOUND, linewidth=1.5, dashes=(4, 3))
    axes.annotate(f'capacity {chart["capacity"]}', (1, chart['capacity']), (0, 3), xycoords=('axes fraction', 'data'),
                  textcoords='offset points', ha='right', va='bottom', color=BOUND, fontsize=11)
    axes.set_ylim(0, 1.25 * max([chart['capacity'], *uses, 1]))
    axes.set_ylabel('in use')
    axes.spines['left'].set_visible(False)
    whole_numbers(axes.yaxis)
    axes.grid(axis='y')


def draw_tour(chart):
    """The places of a tour on a ring, clockwise from the top."""
    figure = figure_of(TOUR)
    axes = placed(figure, (WIDTH - TOUR) / 2, 0, (WIDTH + TOUR) / 2, TOUR)
    count = len(chart['places'])
    angles = [math.pi / 2 - 2 * math.pi * place / count for place in range(count)]
    points = [(math.cos(angle), math.sin(angle)) for angle in angles]
    ring = points + points[:1]
    axes.plot([x for x, _ in ring], [y for _, y in ring], color=BEST, linewidth=2)
    axes.plot([x for x, _ in points], [y for _, y in points], linestyle='none', marker='o', markersize=5 if count <= 80 else 2, color=BEST)
    for label, angle in zip(chart['places'], angles):
        side = 'center' if abs(math.cos(angle)) < 0.2 else 'left' if math.cos(angle) > 0 else 'right'
        axes.text(1.09 * math.cos(angle), 1.09 * math.sin(angle), shortened(label, 14), ha=side, va='center',
                  fontsize=11 if count <= 40 else 9)
    if count > 1:
        draw_arrow(axes, points)
    axes.set_xlim(-1.25, 1.25)
    axes.set_ylim(-1.25, 1.25)
    axes.axis('off')
    return figure


def draw_arrow(axes, points):
    """An arrow on the first stretch of a ring, in the direction of the tour."""
    (x, y), (next_x, next_y) = points[:2]
    axes.annotate('', (x + 0.62 * (next_x - x), y + 0.62 * (next_y - y)), (x + 0.4 * (next_x - x), y + 0.4 * (next_y - y)),
                  arrowprops={'arrowstyle': '-|>', 'color': BEST, 'mutation_scale': 16})


DRAW = {'course': draw_course, 'tasks': draw_tasks, 'tour': draw_tour}
SAID = {'course': 'the objective and its bound over time', 'tasks': 'tasks over time', 'tour': 'a tour'}


def drawn(charts):
    """The pictures of charts."""
    import matplotlib
    pictures = []
    with matplotlib.rc_context(SETTINGS):
        for number, chart in enumerate(charts):
            file = io.StringIO()
            DRAW[chart['kind']](chart).savefig(file, format='svg', metadata={'Date': None, 'Creator': None})
            pictures.append(of_a_page(file.getvalue(), number, SAID[chart['kind']]))
    return pictures


def main():
    """The command."""
    try:
        import matplotlib
    except ImportError:
        return MISSING
    matplotlib.use('svg')
    json.dump(drawn(json.load(sys.stdin)), sys.stdout)
    return 0


if __name__ == '__main__':
    sys.exit(main())
