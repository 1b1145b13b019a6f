"""A drawing as SVG, on white, so that it is read on any page."""
from xml.sax.saxutils import escape, quoteattr


class Drawing:
    def __init__(self, title):
        self.title, self.parts, self.width, self.height = title, [], 0, 0

    def reach(self, x, y):
        self.width, self.height = max(self.width, x), max(self.height, y)

    def add(self, name, inside="", **marks):
        words = "".join(f" {key.replace('_', '-')}={quoteattr(number(value))}" for key, value in marks.items()
                        if value is not None)
        self.parts.append(f"<{name}{words}>{inside}</{name}>")

    def box(self, x, y, width, height, fill, tip=None, **marks):
        self.reach(x + width, y + height)
        self.add("rect", f"<title>{escape(tip)}</title>" if tip else "", x=x, y=y, width=width, height=height, fill=fill,
                 **marks)

    def line(self, x1, y1, x2, y2, stroke, tip=None, **marks):
        self.reach(max(x1, x2), max(y1, y2))
        self.add("line", f"<title>{escape(tip)}</title>" if tip else "", x1=x1, y1=y1, x2=x2, y2=y2, stroke=stroke, **marks)

    def write(self, x, y, text, size=11, **marks):
        self.reach(x + (0.58 * size * len(text) if marks.get("text_anchor") in (None, "start") else 0), y + 4)
        self.add("text", escape(text), x=x, y=y, font_size=size, **marks)

    def __str__(self):
        width, height = number(self.width + 16), number(self.height + 12)
        return (f'<svg xmlns="http://www.w3.org/2000/svg" width="{width}" height="{height}" viewBox="0 0 {width} {height}" '
                f'font-family="DejaVu Sans, Helvetica, sans-serif">\n<title>{escape(self.title)}</title>\n'
                f'<rect width="100%" height="100%" fill="#ffffff"/>\n' + "\n".join(self.parts) + "\n</svg>")


def number(value):
    return f"{value:.1f}".rstrip("0").rstrip(".") if isinstance(value, float) else str(value)
