"""How a verdict's time grows with r, n and m: measured in both languages, and drawn as an SVG of three panels."""
import sets

# A panel: the letter that grows, its values, and the set's (r, n, m) for a value.
PANELS = [
    ("read points r", range(0, 17, 2), "n = 8, m = 32", lambda x: (x, 8, 32)),
    ("outputs n", range(2, 13), "r = 8, m = 32", lambda x: (8, x, 32)),
    ("constraints m", range(0, 65, 8), "r = 8, n = 8", lambda x: (8, 8, x)),
]
LANGUAGES = [("C", "#1f5fa8"), ("Rattle", "#d0561b")]
WIDTH, HEIGHT = 900, 320
LEFT, TOP, PANEL_WIDTH, PANEL_HEIGHT, GAP = 70, 50, 230, 220, 45
LONG = 0.1  # seconds
LOWEST, HIGHEST = -7, 0  # powers of ten, in seconds
POWERS = {-7: "100 ns", -6: "1 µs", -5: "10 µs", -4: "100 µs", -3: "1 ms", -2: "10 ms", -1: "100 ms", 0: "1 s"}


def measured_long(measure, file):
    """The times of one verdict, done so often that all of them take long enough for starting not to count."""
    times = 1
    while True:
        c, rattle = measure(times, file)
        if LONG <= times * min(c, rattle):
            return c, rattle
        times = max(2 * times, int(1.5 * LONG / max(min(c, rattle), 1e-7)))


def measured(measure):
    """For each panel a list of (value, time in C, time in Rattle)."""
    for _, values, _, shape in PANELS:
        points = []
        for x in values:
            r, n, m = shape(x)
            c, rattle = measured_long(measure, sets.falling(r, n, m, 1, 7).file())
            points.append((x, c, rattle))
            print(f"r {r}, n {n}, m {m}: C {c:.3g} s, Rattle {rattle:.3g} s", flush=True)
        yield points


def text(x, y, words, more=""):
    return f'<text x="{x:.1f}" y="{y:.1f}" {more}>{words}</text>'


def y_of(seconds):
    from math import log10
    return TOP + PANEL_HEIGHT * (HIGHEST - log10(seconds)) / (HIGHEST - LOWEST)


def panel(left, label, values, note, points):
    low, high = min(values), max(values)
    at = lambda x: left + 8 + (PANEL_WIDTH - 16) * (x - low) / (high - low)
    bottom = TOP + PANEL_HEIGHT
    for power in range(LOWEST, HIGHEST + 1):
        y = y_of(10.0 ** power)
        yield f'<line x1="{left}" x2="{left + PANEL_WIDTH}" y1="{y:.1f}" y2="{y:.1f}" stroke="#ddd"/>'
    yield f'<rect x="{left}" y="{TOP}" width="{PANEL_WIDTH}" height="{PANEL_HEIGHT}" fill="none" stroke="#444"/>'
    for x in values:
        yield f'<line x1="{at(x):.1f}" x2="{at(x):.1f}" y1="{bottom}" y2="{bottom + 4}" stroke="#444"/>'
        yield text(at(x), bottom + 17, x, 'text-anchor="middle"')
    yield text(left + PANEL_WIDTH / 2, bottom + 38, label, 'text-anchor="middle"')
    yield text(left + PANEL_WIDTH / 2, TOP - 8, note, 'text-anchor="middle" fill="#555"')
    for k, (_, colour) in enumerate(LANGUAGES):
        line = " ".join(f"{at(p[0]):.1f},{y_of(p[1 + k]):.1f}" for p in points)
        yield f'<polyline points="{line}" fill="none" stroke="{colour}" stroke-width="1.5"/>'
        for p in points:
            yield f'<circle cx="{at(p[0]):.1f}" cy="{y_of(p[1 + k]):.1f}" r="{3.5 - k}" fill="{colour}"/>'


def picture(panels):
    yield f'<svg xmlns="http://www.w3.org/2000/svg" viewBox="0 0 {WIDTH} {HEIGHT}" font-family="sans-serif" font-size="12">'
    yield f'<rect width="{WIDTH}" height="{HEIGHT}" fill="white"/>'
    yield text(LEFT, 20, "Time of one verdict (logarithmic), by the size of the set", 'font-size="14"')
    for power, words in POWERS.items():
        yield text(LEFT - 8, y_of(10.0 ** power) + 4, words, 'text-anchor="end"')
    for k, ((label, values, note, _), points) in enumerate(zip(PANELS, panels)):
        yield from panel(LEFT + k * (PANEL_WIDTH + GAP), label, values, note, points)
    for k, (name, colour) in enumerate(LANGUAGES):
        x = WIDTH - 150 + 60 * k
        yield f'<circle cx="{x}" cy="16" r="4" fill="{colour}"/>'
        yield text(x + 9, 20, name)
    yield "</svg>"


def draw(measure, path):
    panels = list(measured(measure))
    with open(path, "w") as f:
        f.write("\n".join(picture(panels)) + "\n")
