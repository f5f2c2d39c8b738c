"""Draws the spot of the rays that pass, from the rows of trace-json on standard input, as SVG on standard output."""
import json
import sys

rows = [json.loads(line) for line in sys.stdin]
boxes = [[float(end) for side in "xy" for end in row["surfaces"][-1][side]] for row in rows if row["word"] == "passes"]
left, right = min(box[0] for box in boxes), max(box[1] for box in boxes)
low, high = min(box[2] for box in boxes), max(box[3] for box in boxes)
size = 400 / max(right - left, high - low)
print('<svg xmlns="http://www.w3.org/2000/svg" width="420" height="420">')
for x0, x1, y0, y1 in boxes:
    place = f'x="{10 + (x0 - left) * size:.2f}" y="{10 + (high - y1) * size:.2f}"'
    print(f'<rect {place} width="{max(1, (x1 - x0) * size):.2f}" height="{max(1, (y1 - y0) * size):.2f}" fill="none" stroke="black"/>')
print("</svg>")
