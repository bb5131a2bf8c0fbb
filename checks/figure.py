"""Writes curves as an SVG: plain text, two axes, a legend."""
from html import escape

WIDTH, HEIGHT = 760, 400
LEFT, RIGHT, TOP, BOTTOM = 70, 20, 40, 50


class Figure:
    """A title, and for each axis its words, its ends, its ticks and the form of their numbers."""

    def __init__(self, title, across, up):
        self.across, self.up = across, up
        self.parts = [
            f'<svg xmlns="http://www.w3.org/2000/svg" viewBox="0 0 {WIDTH} {HEIGHT}" font-family="sans-serif"'
            ' font-size="12">',
            f'<rect width="{WIDTH}" height="{HEIGHT}" fill="white"/>',
            self.text(WIDTH / 2, 20, title, 'text-anchor="middle" font-size="14"'),
        ]
        self.named = 0
        self.axes()

    def text(self, x, y, words, more=""):
        return f'<text x="{x:.0f}" y="{y:.0f}" {more}>{escape(words)}</text>'

    def x(self, value):
        _, low, high, _, _ = self.across
        return LEFT + (value - low) / (high - low) * (WIDTH - LEFT - RIGHT)

    def y(self, value):
        _, low, high, _, _ = self.up
        return HEIGHT - BOTTOM - (min(max(value, low), high) - low) / (high - low) * (HEIGHT - TOP - BOTTOM)

    def line(self, x1, y1, x2, y2, more):
        self.parts.append(f'<line x1="{x1:.1f}" y1="{y1:.1f}" x2="{x2:.1f}" y2="{y2:.1f}" {more}/>')

    def axes(self):
        name, low, high, ticks, form = self.across
        grid = 'stroke="#ddd"'
        for tick in ticks:
            self.line(self.x(tick), TOP, self.x(tick), HEIGHT - BOTTOM, grid)
            self.parts.append(self.text(self.x(tick), HEIGHT - BOTTOM + 16, form % tick, 'text-anchor="middle"'))
        self.parts.append(self.text((self.x(low) + self.x(high)) / 2, HEIGHT - 12, name, 'text-anchor="middle"'))
        name, low, high, ticks, form = self.up
        for tick in ticks:
            self.line(LEFT, self.y(tick), WIDTH - RIGHT, self.y(tick), grid)
            self.parts.append(self.text(LEFT - 8, self.y(tick) + 4, form % tick, 'text-anchor="end"'))
        middle = (self.y(low) + self.y(high)) / 2
        turned = f'text-anchor="middle" transform="rotate(-90 18 {middle:.0f})"'
        self.parts.append(self.text(18, middle, name, turned))

    def curve(self, name, points, stroke):
        """A line through the points, and its name in the legend."""
        path = " ".join(f"{self.x(x):.1f},{self.y(y):.1f}" for x, y in points)
        self.parts.append(f'<polyline fill="none" {stroke} points="{path}"/>')
        y = TOP + 18 + 18 * self.named
        self.named += 1
        self.line(WIDTH - 290, y - 4, WIDTH - 260, y - 4, stroke)
        self.parts.append(self.text(WIDTH - 252, y, name))

    def written(self, path):
        path.write_text("\n".join(self.parts + ["</svg>"]) + "\n")
