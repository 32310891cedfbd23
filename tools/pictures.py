"""The pictures of a report, as SVG with text that can be searched.

What is told apart by colour is told apart by a pattern, a line style or a label too.
"""
import dataclasses
import importlib
import io
import re
import textwrap
from collections.abc import Sequence
from typing import Any

importlib.import_module("matplotlib").use("svg")
pyplot: Any = importlib.import_module("matplotlib.pyplot")
ticker: Any = importlib.import_module("matplotlib.ticker")
patches: Any = importlib.import_module("matplotlib.patches")

WIDTH, HEIGHT = 7.5, 3.6
SHADES = ["#a9cbe0", "#3f7ea6", "#f7dc8c", "#7fae6b", "#d8ead0", "#e2a37a", "#8c5a45", "#eeeeee"]
PATTERNS = ["", "", "...", "//", "xx", "\\\\", "", "--"]
DARK = "#1b4965"
STYLE = {"svg.fonttype": "none", "svg.hashsalt": "report", "font.size": 9, "font.family": "sans-serif",
         "axes.spines.top": False, "axes.spines.right": False, "hatch.linewidth": 0.5}
KEY_SHARE = 95
# So many letters of a label stand on one line.
LETTERS_OF_A_LABEL = 40
# So many bars have room at least, so that few are no broader.
FEWEST_BARS = 8


@dataclasses.dataclass(frozen=True)
class Series:
    """A name with a figure for each year."""
    name: str
    figures: Sequence[float]


@dataclasses.dataclass(frozen=True)
class Points:
    """A name with years, and of each a figure with its low and its high."""
    name: str
    years: Sequence[int]
    figures: Sequence[tuple[float, float, float]]


class Pictures:
    """Makes pictures, whose ids differ from one to the next."""

    def __init__(self) -> None:
        self.count = 0

    def svg(self, drawn: Any) -> str:
        """A figure as SVG without a head of its own."""
        self.count += 1
        written = io.StringIO()
        drawn.savefig(written, format="svg", bbox_inches="tight", metadata={"Date": None, "Creator": None})
        pyplot.close(drawn)
        text = written.getvalue()
        text = text[text.index("<svg"):]
        mark = f"p{self.count}-"
        text = re.sub(r'\bid="', f'id="{mark}', text)
        text = re.sub(r'href="#', f'href="#{mark}', text)
        text = text.replace("url(#", f"url(#{mark}")
        text = re.sub(r"<metadata>.*?</metadata>", "", text, flags=re.DOTALL)
        return re.sub(r'<svg [^>]*?viewBox="(0 0 (\S+) [^"]*)"[^>]*>',
                      r'<svg role="img" viewBox="\1" style="max-width: \2pt">', text, count=1)

    def areas(self, years: Sequence[int], parts: Sequence[Series], lines: Sequence[Series], unit: str) -> str:
        """Stacked areas, removals below zero, with lines over them."""
        with pyplot.rc_context(STYLE):
            drawn, axes = pyplot.subplots(figsize=(WIDTH, HEIGHT))
            for sign in (1, -1):
                heights = [[max(sign * at, 0) * sign for at in part.figures] for part in parts]
                if any(map(any, heights)):
                    fill_areas(axes, years, heights)
            handles = [patch(part.name, at) for at, part in enumerate(parts)]
            for line, style in zip(lines, ("-", "--", ":")):
                handles += axes.plot(years, line.figures, color="black", linestyle=style, linewidth=1.3,
                                     label=line.name)
            finish(axes, unit)
            axes.xaxis.set_major_locator(ticker.MaxNLocator(integer=True))
            axes.margins(x=0)
            below(axes, handles)
            return self.svg(drawn)

    def lines(self, years: Sequence[int], lines: Sequence[Series], unit: str) -> str:
        """Lines over years, each with a style and a mark of its own."""
        with pyplot.rc_context(STYLE):
            drawn, axes = pyplot.subplots(figsize=(WIDTH, HEIGHT * 0.75))
            for at, line in enumerate(lines):
                axes.plot(years, line.figures, color=(DARK, "#a0522d")[at % 2], linestyle=("-", "--")[at % 2],
                          marker="os"[at % 2], markersize=3, label=line.name)
            finish(axes, unit)
            axes.xaxis.set_major_locator(ticker.MaxNLocator(integer=True))
            below(axes, axes.get_lines()[:len(lines)])
            return self.svg(drawn)

    def points(self, title: str, parts: Sequence[Points], unit: str) -> str:
        """Points with their bounds over years, the first filled and the others open, as a file of its own."""
        with pyplot.rc_context(STYLE):
            drawn, axes = pyplot.subplots(figsize=(WIDTH, HEIGHT))
            for at, part in enumerate(parts):
                sides = [[value - low for value, low, _ in part.figures],
                         [high - value for value, _, high in part.figures]]
                axes.errorbar(part.years, [point[0] for point in part.figures], yerr=sides, linestyle="none",
                              color=(DARK, "#a0522d")[at % 2], marker="os"[at % 2], markersize=4, capsize=2,
                              markerfacecolor=(DARK, "white")[at % 2], label=part.name)
            finish(axes, unit)
            axes.xaxis.set_major_locator(ticker.MaxNLocator(integer=True))
            axes.set_title(title, loc="left")
            axes.legend(loc="upper left", bbox_to_anchor=(0, -0.1), ncol=2, frameon=False)
            written = io.StringIO()
            drawn.savefig(written, format="svg", bbox_inches="tight", metadata={"Date": None, "Creator": None})
            pyplot.close(drawn)
            return written.getvalue()

    def key_categories(self, names: Sequence[str], shares: Sequence[float], cumulative: Sequence[float],
                       is_key: Sequence[bool]) -> str:
        """The shares of categories, the greatest first, with their cumulative line and that of 95 percent."""
        with pyplot.rc_context(STYLE):
            drawn, axes = pyplot.subplots(figsize=(WIDTH, HEIGHT))
            for at, (share, key) in enumerate(zip(shares, is_key)):
                axes.bar(at, share, color=DARK if key else "white", edgecolor="black", linewidth=0.6,
                         hatch="" if key else "///")
            axes.plot(range(len(names)), cumulative, color="black", marker="o", markersize=3, linewidth=1,
                      label="cumulative")
            axes.axhline(KEY_SHARE, color="black", linestyle="--", linewidth=0.8)
            axes.annotate(f"{KEY_SHARE} %", (1.01, KEY_SHARE), va="center",
                          xycoords=("axes fraction", "data"))
            axes.set_xticks(range(len(names)), names, rotation=60, ha="right", rotation_mode="anchor")
            axes.set_ylim(0, 104)
            axes.set_xlim(-0.6, max(len(names), FEWEST_BARS) - 0.4)
            finish(axes, "percent")
            handles = [patch_of("key", DARK, ""), patch_of("not key", "white", "///"),
                       axes.get_lines()[0]]
            axes.legend(handles=handles, loc="lower left", bbox_to_anchor=(0, 1), ncol=3, frameon=False)
            return self.svg(drawn)

    def bars(self, names: Sequence[str], figures: Sequence[float], said: Sequence[str], unit: str,
             most: float | None = None) -> str:
        """Bars from left to right, the first on top, each with what is said of it."""
        with pyplot.rc_context(STYLE):
            drawn, axes = pyplot.subplots(figsize=(WIDTH, 0.6 + 0.19 * len(names)))
            drawn_to = [figure if most is None else max(-most, min(most, figure)) for figure in figures]
            axes.barh(range(len(names)), drawn_to, color=SHADES[0], edgecolor="black", linewidth=0.5)
            for at, (length, text) in enumerate(zip(drawn_to, said)):
                axes.annotate(text, (max(length, 0), at), xytext=(3, 0), textcoords="offset points",
                              va="center")
            axes.axvline(0, color="black", linewidth=0.6)
            axes.set_yticks(range(len(names)), names)
            axes.invert_yaxis()
            axes.set_xlabel(unit)
            axes.margins(y=0.01)
            return self.svg(drawn)


def fill_areas(axes: Any, years: Sequence[int], heights: Sequence[Sequence[float]]) -> None:
    """Fills areas one on the other, each with its shade and its pattern."""
    below = [0.0] * len(years)
    for at, part in enumerate(heights):
        top = [base + height for base, height in zip(below, part)]
        axes.fill_between(years, below, top, facecolor=SHADES[at % len(SHADES)], linewidth=0.4,
                          edgecolor="black", hatch=PATTERNS[at % len(PATTERNS)])
        below = top


def patch(name: str, at: int) -> Any:
    """What stands for an area in a legend."""
    return patch_of(name, SHADES[at % len(SHADES)], PATTERNS[at % len(PATTERNS)])


def patch_of(name: str, colour: str, pattern: str) -> Any:
    """What stands for a colour with a pattern in a legend."""
    return patches.Patch(facecolor=colour, hatch=pattern, edgecolor="black", linewidth=0.5, label=name)


def below(axes: Any, handles: Sequence[Any]) -> None:
    """The legend below the axes, in two columns that are no broader than these."""
    for handle in handles:
        handle.set_label(textwrap.fill(handle.get_label(), LETTERS_OF_A_LABEL))
    axes.legend(handles=handles, loc="upper left", bbox_to_anchor=(0, -0.1), ncol=2, frameon=False)


def finish(axes: Any, unit: str) -> None:
    """The vertical axis with its unit and a line at zero."""
    axes.set_ylabel(unit)
    axes.axhline(0, color="black", linewidth=0.6)
    axes.yaxis.set_major_formatter(ticker.FuncFormatter(lambda value, _: f"{value:g}"))
