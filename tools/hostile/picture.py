"""The picture of a schedule, a second time: plain Python, as plain.py, that shares no code with the
product. It was written from the words of the product's contracts and of rows/draw.rows. Only the
looks and the legend, which are fixed texts, are read where the product has them."""

import re

import plain
import steady
from plain import Refused
from program import TOP

STYLE_FILE = f"{TOP}/crates/schedule_picture/src/style.rt"
# Settings that stand side by side before the next ones stand below, and the sizes of what is drawn.
PANEL = 32
COLUMN, HALF, ROW, LABELS, NUMBERS = 32, 28, 64, 128, 24
ABOVE, BESIDE, BELOW, LEAST_WIDTH = 64, 16, 120, 760


def fixed_text(name):
    """A text that the product's source has under this name."""
    with open(STYLE_FILE) as file:
        found = re.search(rf'pub const {name}: &str = "((?:[^"\\]|\\.|\\\n)*)";', file.read())
    text = re.sub(r"\\\n\s*", "", found[1]).replace(r"\n", "\n")
    if "\\" in text:
        raise ValueError(f"{name} has a sign that isn't read here")
    return text


# A range of settings, both ends of which are in it.
RANGE = re.compile(plain.NUMBER + rb"\.\." + plain.NUMBER)

STYLE, EXPLAINED = fixed_text("STYLE"), fixed_text("EXPLAINED")


class Picture:
    """What is drawn: transfers, their settings, the certificate, which names a link or None, or no
    certificate, and the numbers of those settings that are shown. Of the answer that was told the
    number of changes is read that prices show.
    """

    def __init__(self, transfers, settings, certificate, shown, told=b""):
        self.transfers, self.settings, self.shown, self.told = transfers, settings, shown, told
        busiest, named = plain.busiest(transfers)
        self.fewest = len(named)
        self.standing = standing_of(transfers, settings, certificate)
        self.link = (
            certificate[0] if self.standing == "certified" else busiest if transfers else None
        )
        self.modules = sorted({transfer[side] for transfer in transfers for side in (1, 3)})
        self.panels = [range(at, min(at + PANEL, len(shown))) for at in range(0, len(shown), PANEL)]

    def begin(self, panel):
        """Where a panel begins, from the top: each has the numbers of its columns, and all rows."""
        return ABOVE + panel * (NUMBERS + ROW * len(self.modules))

    def top(self, panel, module, end):
        """Where a link's half of a row begins in a panel, link 0 above."""
        row = self.begin(panel) + NUMBERS + ROW * self.modules.index(module)
        return row + (HALF if end == 3 else 0)

    @staticmethod
    def left(column):
        """Where a column begins: left of its panel's columns stand the labels."""
        return BESIDE + LABELS + COLUMN * (column % PANEL)

    def heading(self):
        """How many transfers and settings there are, and whether these are the fewest."""
        count, enough = len(self.settings), "1 is" if self.fewest == 1 else f"{self.fewest} are"
        length = "the fewest" if count == self.fewest else f"where {enough} enough"
        return f"transfers {len(self.transfers)}, settings {count}, {length}"

    def note(self):
        """How often the switch changes, and what is shown of that; which link is framed, how the
        certificate stands, and which settings are shown, unless that are all."""
        changes = steady.bound_words(self.transfers, self.settings, self.told)
        busiest = "link {} module {}".format(*self.link) if self.link else "none"
        return f"{changes}, busiest {busiest}, {self.standing}{self.range_shown()}"

    def range_shown(self):
        """Which settings are shown, unless that are all."""
        if len(self.shown) == len(self.settings):
            return ""
        first, last = self.shown[0], self.shown[-1]
        return f", setting {first} shown" if first == last else f", shown {first} to {last}"

    def text(self):
        legend = self.begin(len(self.panels))
        columns = min(len(self.shown), PANEL)
        width = max(LEAST_WIDTH, 2 * BESIDE + LABELS + COLUMN * columns)
        height = legend + BELOW
        heading, note = self.heading(), self.note()
        parts = [
            (
                f"<svg xmlns='http://www.w3.org/2000/svg' width='{width}' height='{height}' "
                f"viewBox='0 0 {width} {height}'>\n"
            ),
            f"<title>{heading}, {note}</title>\n{STYLE}",
            (
                f"<rect class='paper' width='{width}' height='{height}'/>\n"
                f"<text class='heading' x='16' y='36'>{heading}</text>\n"
            ),
            f"<text class='note' x='16' y='58'>{note}</text>\n",
        ]
        parts += [
            self.row_part(module, number, panel)
            for module in self.modules
            for number, panel in enumerate(self.panels)
        ]
        parts += [
            number_above(BESIDE + 104, self.begin(number), "setting")
            for number in range(len(self.panels))
        ]
        parts += [
            self.rule(column, number) + self.column(column, number)
            for column, number in enumerate(self.shown)
        ]
        parts.append(f"<g transform='translate(16,{legend})'>\n{EXPLAINED}</g>\n</svg>\n")
        return "".join(parts)

    def row_part(self, module, number, panel):
        """A module's label and the grounds of its two links, in the panel of this number."""
        top = self.top(number, module, 0)
        text = (
            rectangle(BESIDE + 8, top, 72, 56, module)
            + writing(BESIDE + 44, top + 32, f"module {module}")
            + "\n"
        )
        for end in (0, 3):
            is_busiest, top = (end, module) == self.link, self.top(number, module, end)
            text += (
                f"<g class='{'busiest' if is_busiest else 'lane'}'>"
                f"<title>{'busiest ' * is_busiest}link {end} module {module}</title>"
            )
            text += (
                rectangle(BESIDE + LABELS, top, COLUMN * len(panel), HALF)
                + writing(BESIDE + 104, top + 18, f"link {end}")
                + "</g>\n"
            )
        return text

    def rule(self, column, number):
        """A line before the first setting, and before each
        that joins other pairs of modules than the one before."""
        pairs = [
            {self.transfers[t][1::2] for t in setting}
            for setting in self.settings[max(number - 1, 0) : number + 1]
        ]
        if len(pairs) == 2 and pairs[0] == pairs[1]:
            return ""
        above, below = self.begin(column // PANEL), self.begin(column // PANEL + 1)
        return (
            f"<path class='change' d='M{self.left(column)} {above + NUMBERS - 8}V{below - 8}'/>\n"
        )

    def column(self, column, number):
        """A setting's number, and two cells for each of its transfers."""
        panel = column // PANEL
        return number_above(self.left(column) + 16, self.begin(panel), number) + "".join(
            self.cell(t, end, column) for t in self.settings[number] for end in (0, 3)
        )

    def cell(self, t, end, column):
        """A transfer as one of its two modules sees it: link 0 starts it, link 3 answers it. The
        words of a push leave the module that starts it, those of a pull the one that answers."""
        kind, initiator, own, responder, far = self.transfers[t]
        module, partner = (initiator, responder) if end == 0 else (responder, initiator)
        leaves = (kind == "push") == (end == 0)
        left, top = self.left(column), self.top(column // PANEL, module, end)
        arrow = "&#8594;" if leaves else "&#8592;"
        way = {"push": "to", "pull": "from"}[kind]
        text = (
            f"<g><title>transfer {t}: {kind} module {initiator} link 0 block {own} {way} module "
            f"{responder} link 3 block {far}</title>"
        )
        return (
            text
            + rectangle(left + 2, top + 2, 28, 24, partner)
            + writing(left + 16, top + 14, f"{arrow}{partner}")
            + f"<text class='transfer' x='{left + 16}' y='{top + 24}'>{t}</text></g>\n"
        )


def standing_of(transfers, settings, certificate):
    """How the certificate of a schedule stands."""
    if certificate is None:
        return "no certificate"
    try:
        plain.check(transfers, settings, certificate)
        return "certified"
    except Refused:
        return "not certified"


def number_above(middle, top, words):
    """What stands above a column of a panel that begins there, or before its first."""
    return f"<text class='number' x='{middle}' y='{top + 14}'>{words}</text>\n"


def rectangle(left, top, width, height, module=None):
    """A rectangle, in the colour of a module if one is named."""
    colour = "" if module is None else f" class='m{module}'"
    return f"<rect{colour} x='{left}' y='{top}' width='{width}' height='{height}'/>"


def writing(left, top, words):
    return f"<text x='{left}' y='{top}'>{words}</text>"


def read_range(text):
    """The first and the last setting of the text of a range."""
    found = RANGE.fullmatch(text)
    if not found or int(found[1]) > int(found[2]):
        raise Refused("settings")
    return int(found[1]), int(found[2])


def answer_draw(batch, schedule, settings=None, told=b""):
    """What `draw` prints of two texts, and of that of a range, if there is one.
    Told is what it printed."""
    try:
        wanted = None if settings is None else read_range(settings)
        transfers = plain.read_batch(batch, plain.WIDEST)
        lists, certificate = plain.read_schedule(schedule)
        plain.check_settings(transfers, lists)
        first, last = wanted or (0, len(lists) - 1)
        if last >= len(lists):
            raise Refused(f"no setting {max(first, len(lists))}")
        return Picture(transfers, lists, certificate, range(first, last + 1), told).text().encode()
    except Refused as why:
        return f"refused {why}\n".encode()
