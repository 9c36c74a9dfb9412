"""What pictures share: matplotlib, which is imported only when one is asked for, a style of their own, texts and legends.

A picture is made in memory and then written whole or not at all. An .svg keeps its texts as texts, and the same answer gives the same
bytes. What is drawn is rounded as pixels are; the exact numbers are those of the answer.
"""

from __future__ import annotations

import io
import sys
import warnings
from typing import TYPE_CHECKING, Any, Callable, Sequence

from . import files

if TYPE_CHECKING:
    from matplotlib.axes import Axes
    from matplotlib.figure import Figure

SUFFIXES = (".svg", ".png")
DOTS = 150  # to an inch, of a .png
PANEL = 8.4  # inches, the width of what is drawn beside a legend
INK, REFUSED, REFUSED_INK = "#111111", "#F7DADA", "#A32020"
REFUSED_FILL: dict[str, Any] = {"facecolor": REFUSED, "edgecolor": REFUSED_INK, "hatch": "/", "linewidth": 0}
DASHED: dict[str, Any] = {"color": INK, "linewidth": 1.2, "linestyle": "--"}

STYLE: dict[str, Any] = {
    "svg.fonttype": "none",
    "svg.hashsalt": "shahfureel",
    "font.size": 11,
    "axes.titlesize": 13,
    "axes.titlelocation": "left",
    "axes.spines.top": False,
    "axes.spines.right": False,
    "axes.unicode_minus": False,
    "hatch.linewidth": 0.7,
    "lines.markeredgewidth": 0.8,
    "legend.frameon": False,
    "legend.fontsize": 10.5,
    "legend.handlelength": 2.2,
    "legend.handleheight": 1.1,
}


class NoPicture(Exception):
    """Why there is no picture, and what to do."""


def check(path: str, inputs: Sequence[str] = ()) -> None:
    """Refuses what cannot become a picture, before anything is computed: another suffix, one of the inputs, or no matplotlib."""
    if not path.lower().endswith(SUFFIXES):
        raise NoPicture(f"{path}: a picture is an .svg or a .png file: let its name end so")
    files.apart(path, inputs, "picture")
    files.check_place(path)
    try:
        import matplotlib.figure  # noqa: F401
    except (ImportError, AttributeError, OSError, RuntimeError, ValueError) as error:  # missing, or made for another numpy
        raise NoPicture(
            f"a picture needs matplotlib, and {sys.executable or 'this Python'} has none that works ({error}): on Debian, apt install"
            " python3-matplotlib, and /usr/bin/python3 has it; elsewhere, pip install matplotlib"
        ) from None


def written(path: str, inputs: Sequence[str], draw: Callable[[], Figure]) -> list[str]:
    """Draws by matplotlib's own settings, whatever a user has set elsewhere."""
    check(path, inputs)
    import matplotlib

    form = "svg" if path.lower().endswith(".svg") else "png"
    sink = io.BytesIO()
    with matplotlib.rc_context(), warnings.catch_warnings(record=True) as told:
        warnings.simplefilter("always")
        matplotlib.rcdefaults()
        matplotlib.rcParams.update(STYLE)
        figure = draw()
        metadata = {"Date": None} if form == "svg" else None
        figure.savefig(sink, format=form, dpi=DOTS, bbox_inches="tight", pad_inches=0.12, facecolor="white", metadata=metadata)
    files.write(path, sink.getvalue(), inputs, "picture")
    boxes = form == "png" and any("missing from" in str(warning.message) for warning in told)
    return [f"{path}: letters that no font here has are drawn as boxes; an .svg has them as text"] if boxes else []


# ---- texts


def literal(text: str, most: int) -> str:
    """A text as it stands, for matplotlib: between two $ it would see mathematics, and XML has no control characters. A long one lacks
    its middle, since names alike differ at their ends."""
    plain = "".join(letter if letter.isprintable() else " " for letter in text)
    if len(plain) > most:
        half = (most - 1) // 2
        plain = plain[: most - 1 - half].rstrip() + "…" + plain[-half:].lstrip()
    return plain.replace("$", r"\$")


def counted(number: int, what: str) -> str:
    return f"{number} {what}{'' if number == 1 else 's'}"


def legend(axes: Axes, entries: Sequence[tuple[Any, str]], columns: int, **more: Any) -> None:
    """A legend outside of a panel. Its texts are set afterwards: matplotlib leaves out what begins with _."""
    handles = [handle for handle, _ in entries]
    made = axes.legend(handles, ["?"] * len(handles), ncol=columns, borderaxespad=0, borderpad=0.1, columnspacing=1.2, **more)
    for text, (_, label) in zip(made.get_texts(), entries):
        text.set_text(label)


def beside(axes: Axes) -> tuple[float, float]:
    """The place to the right of a panel, at its top."""
    return 1 + 0.13 / axes.figure.get_figwidth(), 1


def darker(colour: str) -> str:
    return "#" + "".join(f"{int(colour[k : k + 2], 16) * 45 // 100:02X}" for k in (1, 3, 5))
