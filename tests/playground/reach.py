"""Whether letters of a page stand out, for the pages of the playground and of the service."""
import json
import re

# The words of WCAG 2: letters stand out by this ratio at least.
CONTRAST = 4.5


def letters(places):
    """An expression: for each of some places that a page has, the place, the colour of its letters, and of what is under them."""
    return """(() => { const found = []; for (const place of %s) { const element = document.querySelector(place); if (!element) continue;
        let under = element; while (getComputedStyle(under).backgroundColor === 'rgba(0, 0, 0, 0)' && under.parentElement) under = under.parentElement;
        found.push([place, getComputedStyle(element).color, getComputedStyle(under).backgroundColor]); } return found; })()""" % json.dumps(places)


def contrast(one, other):
    """How much two colours differ, as WCAG 2 defines it."""
    def light(colour):
        parts = [int(part) / 255 for part in re.findall(r"\d+", colour)[:3]]
        red, green, blue = [part / 12.92 if part <= 0.04045 else ((part + 0.055) / 1.055) ** 2.4 for part in parts]
        return 0.2126 * red + 0.7152 * green + 0.0722 * blue
    high, low = sorted((light(one), light(other)), reverse=True)
    return (high + 0.05) / (low + 0.05)
