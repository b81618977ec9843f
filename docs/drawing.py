"""What pictures are drawn with: boxes, words, lines and arrows, as SVG."""

INK, PALE, WAY, OLD, NEW, OPEN = "#1c1c1c", "#8a8a8a", "#b3261e", "#dfe7f3", "#f6d9a8", "#ececec"


class Picture:
    def __init__(self, width, height):
        self.width, self.height, self.parts = width, height, []

    def add(self, part):
        self.parts.append(part)

    def box(self, x, y, w, h, fill="#ffffff", stroke=INK, dash=None):
        more = f' stroke-dasharray="{dash}"' if dash else ""
        self.add(f'<rect x="{x}" y="{y}" width="{w}" height="{h}" rx="5" fill="{fill}" stroke="{stroke}"{more}/>')

    def text(self, x, y, words, size=14, anchor="middle", fill=INK, bold=False):
        weight = ' font-weight="bold"' if bold else ""
        words = words.replace("&", "&amp;").replace("<", "&lt;")
        at = f'x="{x}" y="{y}" font-size="{size}" text-anchor="{anchor}"'
        self.add(f'<text {at} fill="{fill}"{weight}>{words}</text>')

    def arrow(self, points, colour=WAY):
        path = " ".join(f"{x},{y}" for x, y in points)
        line = f'fill="none" stroke="{colour}" stroke-width="2.5" marker-end="url(#tip)"'
        self.add(f'<polyline points="{path}" {line}/>')

    def badge(self, x, y, number):
        self.add(f'<circle cx="{x}" cy="{y}" r="10" fill="{WAY}"/>')
        self.text(x, y + 5, str(number), 13, fill="#ffffff", bold=True)

    def save(self, path):
        head = (
            f'<svg xmlns="http://www.w3.org/2000/svg" viewBox="0 0 {self.width} {self.height}" '
            f'width="{self.width}" height="{self.height}" font-family="DejaVu Sans Mono, monospace">\n'
            f'<defs><marker id="tip" viewBox="0 0 10 10" refX="9" refY="5" markerWidth="7" markerHeight="7" '
            f'orient="auto"><path d="M0,0 L10,5 L0,10 z" fill="{WAY}"/></marker></defs>\n'
            f'<rect width="{self.width}" height="{self.height}" fill="#ffffff"/>\n'
        )
        path.write_text(head + "\n".join(self.parts) + "\n</svg>\n")
