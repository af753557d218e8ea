"""Tests of the pictures' axes: every label lies inside the picture, apart from the others, and tells its tick from the next."""
import re, unittest
import xml.etree.ElementTree as xml
from case import Case, meshio, set_up
from common import grid

if meshio:
    from sedgepick import axes

DIGIT = 8.3  # pixels of a digit of 13 points in DejaVu Sans
SVG = '{http://www.w3.org/2000/svg}'


def setUpModule():
    set_up()


class Labels(Case):
    def meshes(self):
        """(columns, rows, step, x, y)"""
        return ((6, 5, 1.0, 0.0, 0.0), (6, 5, 0.001, 4567890.125, -5432100.5), (40, 2, 0.1, 123456.25, 7654321.0), (2, 40, 0.1, 123456.25, 7654321.0), (6, 6, 1e-7, 0.0, 0.0),
                (6, 6, 1e7, -3e8, 0.0), (5, 5, 1234.5, -1e6, 1e9))

    def ticks(self, svg):
        """(anchor, x, y, words) of the ticks' labels, and the picture's width."""
        top = xml.fromstring(svg)
        width = float(top.get('viewBox').split()[2])
        every = [(text.get('text-anchor'), float(text.get('x')), float(text.get('y')), text.text) for text in top.iter(SVG + 'text') if text.text]
        number = re.compile(r'-?\d+(\.\d+)?(e[+-]\d+)?$')
        return [label for label in every if label[0] in ('middle', 'end') and number.match(label[3])], width

    def check(self, svg, beside_each_other):
        labels, width = self.ticks(svg)
        below = [label for label in labels if label[0] == 'middle']
        beside = [label for label in labels if label[0] == 'end']
        self.assertTrue(below and beside)
        for anchor, x, _, words in labels:
            low = x - DIGIT * len(words) / (2 if anchor == 'middle' else 1)
            self.assertGreaterEqual(low, 0, words)
            self.assertLessEqual(low + DIGIT * len(words), width, words)
        for y in {label[2] for label in below}:
            row = sorted((x - DIGIT * len(words) / 2, x + DIGIT * len(words) / 2, words) for _, x, at, words in below if at == y)
            for one, other in zip(row, row[1:]):
                self.assertLess(one[1], other[0])
                self.assertTrue(one[2] != other[2] or beside_each_other)

    def test_every_picture(self):
        for columns, rows, step, x, y in self.meshes():
            with self.subTest(step=step, x=x, y=y):
                points, triangles = grid(columns, rows, step)
                given = self.stored([(a + x, b + y, 0.0) for a, b, _ in points], [('triangle', triangles)])
                page, front = self.path('r.html'), self.path('f.svg')
                self.good(given, '-o', self.out, '--size', '0', '--report', page, '--preview', front)
                for path in (page, front):
                    with open(path) as file:
                        content = file.read()
                    self.check(content[content.index('<svg'):content.index('</svg>') + 6], rows > 9 * columns)  # then it is shown in columns

    def test_labels(self):
        self.assertEqual([axes.label(value, 0.05) for value in (0.0, 0.05, -1.0)], ['0.00', '0.05', '-1.00'])
        self.assertEqual([axes.label(value, 2e-7) for value in (0.0, 2e-7, 1.2e-6)], ['0', '2e-07', '1.2e-06'])
        self.assertEqual([axes.label(value, 1e7) for value in (0.0, 1e7, -2.9e8)], ['0', '1e+07', '-2.9e+08'])
        self.assertEqual([axes.label(value, 20.0) for value in (0.0, 20.0, 5432120.0)], ['0', '20', '5432120'])


if __name__ == '__main__':
    unittest.main()
