"""Makes the figures of a table bold that miss a limit or what was wanted, by the rules that `made: figures` has in a document.

    [ROW] [@ COLUMN] [[PLACE]] <= LIMIT     in the rows that begin so, and in that column or in all, each figure of a cell or the one at this place;
                                            with >= a figure misses that is below
    LIMIT is NUMBER, or [NUMBER] @ COLUMN [[PLACE]]: a figure of the same row, or so many times it. It stands at that place of its cell, or at the
                                            place of the figure that is judged, or last
"""
import itertools
import re

FIGURE = re.compile(r"(?<![\w.:`-])[0-9]+(?:,[0-9]{3})*(?:\.[0-9]+)?(?![\w:`-]|[.,]\d)")
PLACE = r"(?: ?\[(\d+)\])?"
# The head of a column may have the colon that stands between two rules.
RULES = re.compile(r"(.*?[<>]=.*?)(?: : |$)")
RULE = re.compile(rf"(.*?)(?:@ (.*?))?{PLACE} ([<>]=) ([\d.,]+)?(?: ?@ (.*?){PLACE})?")
# After its point a limit has so many.
DIGITS = 9


def number(figure):
    return float(figure.replace(",", ""))


class Rule:
    """A rule, read of its words."""

    def __init__(self, words, heads, rows):
        self.words = words.strip()
        found = RULE.fullmatch(self.words)
        if not found or not (found[5] or found[6]):
            raise LookupError(f"no rule for bold figures: {self.words}")
        self.begin, self.sign, self.factor = found[1].strip(), found[4], number(found[5] or "1")
        self.place, self.limit_place = (int(word) if word else None for word in (found[3], found[7]))
        self.columns = self.columns_of(found[2], heads)
        self.limit_column = self.columns_of(found[6], heads)[0] if found[6] else None
        if not any(row[0].startswith(self.begin) for row in rows):
            raise LookupError(f"no figure is judged by {self.words}")

    def columns_of(self, head, heads):
        """Where a column stands, or all but the first one, which has words and no figures."""
        found = [at for at, one in enumerate(heads) if at and head in (None, one)]
        if not found:
            raise LookupError(f"no figure is judged by {self.words}")
        return found

    def limit(self, row, place):
        """The limit of the figure at a place of its cell, if there is one."""
        if self.limit_column is None:
            return self.factor
        figures = [number(figure) for figure in FIGURE.findall(row[self.limit_column])]
        at = min((self.limit_place or place) - 1, len(figures) - 1)
        # As 1.4 times 0.02 is a little less than 0.028.
        return round(self.factor * figures[at], DIGITS) if figures else None

    def is_missed(self, row, column, place, figure):
        """Whether a rule judges the figure at a place of a cell, and finds that it misses its limit."""
        if column not in self.columns or self.place not in (None, place) or not row[0].startswith(self.begin):
            return False
        limit = self.limit(row, place)
        return limit is not None and (figure > limit if self.sign == "<=" else figure < limit)


def judged(heads, rows, words):
    """The rows with their bold figures, by all rules of the words."""
    rules = [Rule(each, heads, rows) for each in RULES.findall(words)]

    def shown(row, column):
        places = itertools.count(1)

        def bold(found):
            place = next(places)
            return f"**{found[0]}**" if any(rule.is_missed(row, column, place, number(found[0])) for rule in rules) else found[0]

        return FIGURE.sub(bold, row[column])

    return [[shown(row, column) for column in range(len(row))] for row in rows]
