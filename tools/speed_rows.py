"""What tools/speed and tools/speed-plots share: the rows of a run, which tools/speed leaves in target/speed/rows.json, and the costs against a size."""
import json
from pathlib import Path

ROOT = Path(__file__).resolve().parent.parent
PLACE = ROOT / "target" / "speed"
ROWS = PLACE / "rows.json"

STARTS = (1, 10, 100, 500, 1000, 1999)

# File of the plot, title, the size's name and letter, the sizes, and the name of the row at a size.
SERIES = (
    ("reading-d", "Point and learn, k 8, a reading", "channels d", "d", (1, 2, 4, 8, 16), "point and learn, d {}, k 8"),
    ("reading-k", "Point and learn, d 1, a reading", "readings of a shingle k", "k", (1, 2, 4, 8, 16, 32, 64), "point and learn, d 1, k {}"),
    ("drain-start", "Drain, d 1, k 8, a call", "initial values (start)", "start", STARTS, "drain, start {}"),
    ("save-start", "Save, d 1, k 8, a call", "initial values (start)", "start", STARTS, "save, start {}"),
    ("restore-start", "Restore, d 1, k 8, a call", "initial values (start)", "start", STARTS, "restore, start {}"),
    ("turn-back-blocks", "Turn-back, NORMALIZE_DIFFERENCE, 16 channels, a call", "blocks", "blocks", (1, 100, 250, 500, 1000, 2000),
     "turn-back, NORMALIZE_DIFFERENCE, 16 by {}"),
)

# Sizes of a series that are rows of the large table too.
ALSO_ROWS = {"point and learn, d 1, k 8", "point and learn, d 4, k 8", "point and learn, d 16, k 8", "drain, start 1999", "save, start 1999",
             "restore, start 1999", "turn-back, NORMALIZE_DIFFERENCE, 16 by 1000"}


def load():
    return json.loads(ROWS.read_text())


def points(rows, series, column):
    """(size, cost of a whole call) where the row has the figure: column is "ours", "rust" or "instructions"."""
    by_name = {row["name"]: row for row in rows}
    sizes, name = series[4], series[5]
    found = ((size, by_name.get(name.format(size))) for size in sizes)
    return [(size, row[column]) for size, row in found if row and row.get(column) is not None]


def straight(pairs):
    """Least squares: where the line begins, its slope, and R squared."""
    n = len(pairs)
    mean_x, mean_y = sum(x for x, _ in pairs) / n, sum(y for _, y in pairs) / n
    slope = sum((x - mean_x) * (y - mean_y) for x, y in pairs) / sum((x - mean_x) ** 2 for x, _ in pairs)
    begin = mean_y - slope * mean_x
    left = sum((y - begin - slope * x) ** 2 for x, y in pairs)
    whole = sum((y - mean_y) ** 2 for _, y in pairs)
    return begin, slope, 1 - left / whole if whole else 1.0


def short(x):
    """A number with what its size lets one read."""
    if abs(x) >= 100:
        return f"{x:,.0f}"
    return f"{x:.1f}" if abs(x) >= 10 else f"{x:.2f}"


def share(r):
    """R squared, never rounded up to 1."""
    return "1" if r == 1 else f"{int(r * 10000) / 10000:.4f}"


def formula(pairs, letter):
    begin, slope, r = straight(pairs)
    sign = "+" if slope >= 0 else "−"
    return f"{'−' if begin < 0 else ''}{short(abs(begin))} {sign} {short(abs(slope))} {letter}, R² {share(r)}"
