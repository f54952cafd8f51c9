#!/usr/bin/env python3
"""Draws the pictures of this example and makes its colour table: draw_pictures.py FOLDER

The pictures are PNG with indexes and without a palette, as they are broadcast: their colours are those of the page.
"""

import math
import sys
from pathlib import Path

sys.path.insert(0, str(Path(__file__).resolve().parents[2] / "tools" / "users"))

from generated_pages import clut_of, png_of

WIDTH, HEIGHT, ICON = 360, 200, 48
CLEAR = 8
SKY, SHADES = 128, 24  # the first index of the sky, and how many shades it has
SUN, GLOW, CLOUD, SHADOW, NEAR, FAR, SNOW, RAIN, BAR, PANEL, ROW, CHOSEN = range(152, 164)
COLOURS = [(40 + 7 * shade, 110 + 5 * shade, 200 + 2 * shade, 255) for shade in range(SHADES)]
COLOURS += [(255, 214, 60, 255), (255, 236, 150, 255), (250, 250, 255, 255), (206, 214, 228, 255), (52, 120, 62, 255), (104, 160, 112, 255)]
COLOURS += [(240, 246, 255, 255), (64, 96, 200, 255), (20, 36, 92, 255), (12, 20, 48, 176), (38, 60, 128, 255), (236, 122, 34, 255)]


# The circles of a cloud: their middles and radii, where its size is 1.
CIRCLES = [(-0.9, 0.2, 0.5), (0, -0.1, 0.75), (0.9, 0.2, 0.5), (0.3, 0.3, 0.5), (-0.4, 0.3, 0.5)]


def is_cloud(x, y, size):
    """Whether a place is in a cloud, seen from its middle."""
    return any(math.hypot(x - left * size, y - down * size) < radius * size for left, down, radius in CIRCLES)


def weather_of(name, x, y, size):
    """Returns the colour of the weather at a place, seen from its middle, or None where there is none."""
    if name == "sun":
        return SUN if math.hypot(x, y) < size else GLOW if math.hypot(x, y) < 1.35 * size else None
    if is_cloud(x, y, size):
        return CLOUD if is_cloud(x, y + 0.25 * size, size) or y < 0 else SHADOW
    step = max(8, size // 3)  # from one drop or flake to the next
    if 0.6 * size < y < 1.9 * size and abs(x) < 1.2 * size:
        if name == "rain" and int(x + y / 3) % step < 2:
            return RAIN
        if name == "snow" and int(x + y) % step < 3 and int(y) % step < 3:
            return SNOW
    return None


def landscape(name, x, y):
    """Returns the colour of a landscape at a place."""
    if y > 150 + 14 * math.sin(x / 47 + 1):
        return SNOW if name == "snow" else NEAR
    if y > 128 + 22 * math.sin(x / 31) * math.cos(x / 83):
        return SHADOW if name == "snow" else FAR
    size = 34 if name == "sun" else 40
    return weather_of(name, x - 250, y - 62, size) or SKY + min(SHADES - 1, y * SHADES // 150)


def main(words):
    folder = Path(words[0])
    (folder / "page.clut").write_bytes(clut_of(SKY, COLOURS))
    for name in ("sun", "rain", "snow"):
        rows = [bytes(landscape(name, x, y) for x in range(WIDTH)) for y in range(HEIGHT)]
        (folder / f"{name}.png").write_bytes(png_of(rows))
        rows = [bytes(weather_of(name, x - ICON // 2, y - (24 if name == "sun" else 16), 14) or CLEAR for x in range(ICON)) for y in range(ICON)]
        (folder / f"{name}-icon.png").write_bytes(png_of(rows))


if __name__ == "__main__":
    main(sys.argv[1:])
