#!/usr/bin/python3
# Needs matplotlib: on Debian, apt-get install python3-matplotlib, and run it by /usr/bin/python3.
"""Makes docs/growth.png of what bench/growth has measured: nanoseconds a cell, by the count of cells.

    target/growth/growth
    /usr/bin/python3 bench/growth/plot.py [CSV [PNG]]
"""
import csv
import io
import os
import sys

import matplotlib
from PIL import Image

matplotlib.use('Agg')
from matplotlib import pyplot
from matplotlib.lines import Line2D
from matplotlib.ticker import FixedLocator, FuncFormatter, LogLocator, NullFormatter

ROOT = os.path.join(os.path.dirname(os.path.abspath(__file__)), '../..')
# Colours that also the colour-blind tell apart, and markers that tell the curves apart without any.
STYLES = {
    'Pal8 surface': ('#0072B2', 'o', 'Pal8 surface, RLE'),
    'Pal8 surface, no RLE': ('#D55E00', 's', 'Pal8 surface, plain rows'),
    'Rgba': ('#009E73', '^', 'Rgba, 4 bytes a cell'),
}
NOTE = '''Hollow and dashed: RLE was asked for, and plain rows were written, since a stream would have been no shorter.
The largest picture has 4096 × 4096 cells: 16 MB as Pal8, 64 MB as Rgba.'''


def curves(path):
    """Of each call and picture the points: cells, nanoseconds a cell, and whether rows are plain though RLE was asked for."""
    found = {}
    with open(path, newline='') as file:
        for row in csv.DictReader(file):
            point = int(row['cells']), float(row['nanoseconds_a_cell']), row['plain_though_rle'] == '1'
            found.setdefault((row['call'], row['picture']), []).append(point)
    return found


def count(number, _=None):
    return f'{number / 1e6:g} M' if number >= 1e6 else f'{number:,.0f}'


def draw(panel, found, call, title):
    # The first picture comes last: where it is written as plain rows it has the second one's points, and is drawn over them.
    for picture, (colour, marker, _) in reversed(STYLES.items()):
        points = found[call, picture]
        for (cells, cost, is_plain), after in zip(points, points[1:]):
            panel.plot([cells, after[0]], [cost, after[1]], color=colour, linewidth=1.8, solid_capstyle='round',
                       linestyle=(0, (2, 1.5)) if is_plain else '-')
        for cells, cost, is_plain in points:
            panel.plot(cells, cost, marker, color=colour, markersize=8.5 if is_plain else 6, markeredgewidth=1.6,
                       markerfacecolor='none' if is_plain else colour)
    panel.set_title(title, fontsize=12, loc='left')
    panel.set_xscale('log')
    panel.set_yscale('log')
    panel.set_xlim(70, 2.4e7)
    panel.xaxis.set_major_locator(FixedLocator([10 ** k for k in range(2, 8)]))
    panel.xaxis.set_major_formatter(FuncFormatter(count))
    panel.xaxis.set_minor_formatter(NullFormatter())
    panel.set_xlabel('cells of the picture')
    panel.grid(True, which='major', color='#dddddd', linewidth=0.8)
    panel.grid(True, which='minor', axis='y', color='#eeeeee', linewidth=0.6)
    panel.set_axisbelow(True)
    panel.tick_params(which='both', color='#999999', labelsize=9)
    for side in ('top', 'right'):
        panel.spines[side].set_visible(False)
    for side in ('left', 'bottom'):
        panel.spines[side].set_color('#999999')


def main():
    source = sys.argv[1] if len(sys.argv) > 1 else os.path.join(ROOT, 'target/growth/growth.csv')
    target = sys.argv[2] if len(sys.argv) > 2 else os.path.join(ROOT, 'docs/growth.png')
    found = curves(source)
    figure, panels = pyplot.subplots(1, 2, figsize=(9, 5.2), sharey=True)
    draw(panels[0], found, 'write', 'Writing')
    draw(panels[1], found, 'read', 'Reading')
    panels[0].set_ylabel('nanoseconds a cell')
    panels[0].yaxis.set_major_locator(LogLocator(subs=(1, 2, 5)))
    panels[0].yaxis.set_major_formatter(FuncFormatter(lambda number, _: f'{number:g}'))
    panels[0].yaxis.set_minor_locator(LogLocator(subs=range(1, 10)))
    panels[0].yaxis.set_minor_formatter(NullFormatter())
    handles = [Line2D([], [], color=colour, marker=marker, linewidth=1.8, label=label)
               for colour, marker, label in STYLES.values()]
    figure.suptitle('What a cell costs, from 100 cells to 64 MB', x=0.012, y=0.975, ha='left', fontsize=15)
    figure.legend(handles=handles, loc='upper left', bbox_to_anchor=(0.003, 0.925), ncol=3, frameon=False, fontsize=10)
    figure.text(0.012, 0.022, NOTE, fontsize=9, color='#666666', linespacing=1.4)
    figure.subplots_adjust(left=0.07, right=0.985, top=0.79, bottom=0.2, wspace=0.07)
    drawn = io.BytesIO()
    figure.savefig(drawn, dpi=200)
    # With 128 colours the file has a third of the bytes.
    Image.open(drawn).convert('RGB').quantize(128).save(target, optimize=True)


if __name__ == '__main__':
    main()
