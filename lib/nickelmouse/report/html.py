"""Pieces of a page. Whatever comes from a model, an answer or a path is escaped here."""
import html
import re

from nickelmouse.report.style import STYLE
from nickelmouse.report.target import MARK

# What HTML can't say.
CONTROL = re.compile('[\0-\x08\x0b\x0c\x0e-\x1f\x7f-\x9f\ud800-\udfff]')


def escaped(text):
    """A text as it stands in a page."""
    return html.escape(CONTROL.sub('\N{REPLACEMENT CHARACTER}', str(text)))


def plural(count, one, many):
    """A number with its noun."""
    return f'{count:,} {one if count == 1 else many}'


def element(name, inner, **attributes):
    """An element around what is HTML already."""
    words = ''.join(f' {key.rstrip("_")}="{escaped(value)}"' for key, value in attributes.items())
    return f'<{name}{words}>{inner}</{name}>'


def said(name, text, **attributes):
    """An element around a text."""
    return element(name, escaped(text), **attributes)


def table(heads, rows, numbers=(), **attributes):
    """A table of texts; the columns of these numbers, from 0 on, are set to the right."""
    def row(cells, name):
        words = [{'class_': 'number'} if place in numbers else {} for place in range(len(cells))]
        return element('tr', ''.join(said(name, cell, **word) for cell, word in zip(cells, words)))
    body = element('tbody', '\n'.join(row(cells, 'td') for cells in rows))
    return element('div', element('table', element('thead', row(heads, 'th')) + body, **attributes), class_='wide')


def folded(summary, inner):
    """What is shown when a reader asks for it."""
    return element('details', said('summary', summary) + inner)


def section(title, *inner, note=''):
    """A section of a page, with a note below its title."""
    return element('section', said('h2', title) + (said('p', note, class_='note') if note else '') + '\n'.join(inner)) + '\n'


def figure(picture, caption=''):
    """A picture, with what is said of it."""
    return element('figure', element('div', picture, class_='chart') + (said('figcaption', caption) if caption else ''))


def page(title, body):
    """The bytes of a page."""
    text = (MARK.decode() + '<meta name="viewport" content="width=device-width, initial-scale=1">\n'
            '<meta name="color-scheme" content="light dark">\n'
            + said('title', title) + '\n' + element('style', STYLE) + '\n' + element('main', body) + '\n')
    return text.encode('utf-8', 'replace')
