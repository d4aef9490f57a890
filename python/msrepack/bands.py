"""The rows of a picture, each drawn as one image: a column of pixels is as blue as the part of its time that has data."""
# matplotlib has types from 3.8 on.
# mypy: no-warn-unused-ignores
import importlib
from typing import TYPE_CHECKING, Any, List, Sequence, Tuple

from matplotlib.artist import Artist  # type: ignore[import]

from msrepack.channels import Row
from msrepack.report import DAY
from msrepack.sources import Span

if TYPE_CHECKING:
    from matplotlib.axes import Axes as Axes  # type: ignore[import]
    from matplotlib.backends.backend_pdf import PdfPages as PdfPages  # type: ignore[import]
    from matplotlib.figure import Figure as Figure  # type: ignore[import]

# Its types need the newest Python.
numpy: Any = importlib.import_module("numpy")
# Half the height of a bar, and the height of the overlaps in it. How blue a column is that has nearly nothing, and one that
# stands alone, which is drawn two pixels wide.
HALF, OVERLAPS, LEAST, ALONE = 0.32, 0.2, 0.35, 0.8


class Bands(Artist):  # type: ignore[misc]
    """The bars of rows over a window, the first at 0. It knows nothing of the size of its pixels until it is drawn."""

    def __init__(self, rows: Sequence[Row], window: Span, colours: Tuple[str, str, str]) -> None:
        super().__init__()
        self.window = window
        self.spans = [(_sums(row.stretches), _sums(row.overlaps)) for row in rows]
        self.colours = [numpy.array([int(colour[at : at + 2], 16) for at in (1, 3, 5)] + [255]) for colour in colours]
        self.set_gid("bands")

    def shares(self, place: int, edges: Any) -> Any:
        """The part of the time between two edges that has data in a row, in microseconds from 1970 on."""
        return _shares(self.spans[place][0], edges)

    def draw(self, renderer: Any) -> None:
        """Draws all rows; matplotlib calls it."""
        if not self.get_visible():
            return
        axes: Any = self.axes
        scale = renderer.get_image_magnification()
        graphics = renderer.new_gc()
        graphics.set_clip_rectangle(axes.bbox)
        left, right = (axes.transData.transform((micros / DAY, 0))[0] for micros in self.window)
        left, right = max(left, axes.bbox.x0), min(right, axes.bbox.x1)
        width = max(1, round((right - left) * scale))
        days = axes.transData.inverted().transform([(left + (right - left) * at / width, 0) for at in (0, width)])[:, 0]
        edges = numpy.round(numpy.linspace(*days, width + 1) * DAY).astype("int64")
        for place, (data, overlaps) in enumerate(self.spans):
            low, high = sorted(axes.transData.transform((0, place + side))[1] for side in (-HALF, HALF))
            columns = self._columns(_shares(data, edges))
            image = numpy.repeat(columns[numpy.newaxis], max(1, round((high - low) * scale)), axis=0)
            is_over = _shares(overlaps, edges) > 0
            # The first row of the image is its lowest.
            image[: max(1, round(len(image) * OVERLAPS / (2 * HALF))), is_over] = self.colours[2]
            renderer.draw_image(graphics, left, low, image)
        graphics.restore()
        self.stale = False

    def _columns(self, shares: Any) -> Any:
        """The colour of each column: what has any data is seen."""
        nothing, data, _ = self.colours
        blue = numpy.where(shares > 0, LEAST + (1 - LEAST) * shares, 0)
        # One or two columns that stand alone: where such a run begins, and the column after it.
        empty = numpy.concatenate([[True], shares == 0, [True, True]])
        [alone] = numpy.nonzero(empty[:-3] & ~empty[1:-2] & (empty[2:-1] | empty[3:]))
        for columns in (alone, numpy.where(alone + 1 < len(shares), alone + 1, alone - 1)):
            blue[columns] = numpy.maximum(blue[columns], ALONE)
        return numpy.round(nothing + (data - nothing) * blue[:, numpy.newaxis]).astype("uint8")


def _sums(spans: List[Span]) -> Tuple[Any, Any, Any]:
    """Starts and ends of spans that are made disjoint, and how much there is before each."""
    both = numpy.array(sorted(spans), dtype="int64").reshape(-1, 2)
    starts, ends = both[:, 0], numpy.maximum.accumulate(both[:, 1]) if len(both) else both[:, 1]
    starts = numpy.maximum(starts, numpy.concatenate([starts[:1], ends[:-1]]))
    return starts, ends, numpy.concatenate([[0], numpy.cumsum(ends - starts)])


def _shares(sums: Tuple[Any, Any, Any], edges: Any) -> Any:
    starts, ends, before = sums
    if not len(starts):
        return numpy.zeros(len(edges) - 1)
    at = numpy.searchsorted(starts, edges, side="right")
    over = numpy.maximum(0, ends[numpy.maximum(at - 1, 0)] - edges) * (at > 0)
    return numpy.diff(before[at] - over) / numpy.maximum(1, numpy.diff(edges))
