#!/usr/bin/env python3
"""Draws a variable of a log over time, as an SVG picture on standard output.

    tools/picture.py MODEL LOG REPORT VARIABLE > picture.svg

MODEL is the model's text, LOG a log of one session, REPORT what `hamon check MODEL < LOG` wrote. Samples are dots. Values at which
an unsafe location lets the variable stand are shaded. The first run that the report has, if it has one, is a line. The verdicts
stand along the axis of time.
"""
import csv
import re
import sys
from fractions import Fraction
from html import escape

WIDTH, HEIGHT = 900, 360
LEFT, RIGHT, TOP, BOTTOM = 60, 20, 20, 70
COLOURS = {"safe": "#3a9d5d", "alarm": "#d1332e", "impossible": "#7a7a7a", "overflow": "#c98a00", "refused": "#bbbbbb"}


def variables_of(model):
    """The variables of the first automaton."""
    for line in model:
        words = line.split("#")[0].strip()
        if words.startswith("var "):
            return [name.strip() for name in words[4:].split(",")]
    sys.exit("picture: the model has no variables")


def unsafe_bounds(model, variable):
    """For each unsafe location of the first automaton the lower and the upper bound of the variable alone."""
    bounds, inside = [], False
    for line in model:
        words = line.split("#")[0].strip()
        if words.startswith("loc "):
            inside = words.split()[-1] == "unsafe"
            if inside:
                bounds.append([None, None])
        elif words == "end":
            break
        elif inside and words.startswith("inv "):
            for sign, number in re.findall(r"\b%s\s*(>=|<=|>|<)\s*(-?[0-9.]+)" % re.escape(variable), words):
                bounds[-1][0 if sign.startswith(">") else 1] = float(number)
    return [b for b in bounds if b != [None, None]]


def samples_of(log, variable):
    """The line number, the time and the value of each sample; a blank cell is no value."""
    rows = list(csv.reader(log))
    column = rows[0].index(variable) if variable in rows[0] else None
    for number, row in enumerate(rows[1:], 2):
        try:
            value = float(row[column]) if column is not None and row[column] else None
            yield number, float(row[0]), value
        except (ValueError, IndexError):
            continue


def verdicts_of(report):
    """The verdict of each line, and the lines of the first run with the line that it explains."""
    verdicts, run, explained, last = {}, [], None, None
    for line in report:
        line = line.rstrip("\n")
        if line.startswith("+ "):
            if explained in (None, last):
                explained = last
                run.append(line[2:])
        elif "," in line:
            fields = line.split(",")
            last = int(fields[0])
            verdicts[last] = fields[1]
    return verdicts, explained, run


def corners_of(run, times, place):
    """The times and values of a run at the ends of its legs; times are those of the samples that it explains."""
    corners, gap, den, now = [], -1, 1, Fraction(0)
    for line in run:
        word, *numbers = line.split()
        if word == "gap":
            gap, den = gap + 1, int(numbers[0])
            now = Fraction(str(times[gap - 1])) if gap else Fraction(0)
        elif word == "stay":
            now += Fraction(int(numbers[0]), den)
        elif word == "at":
            corners.append((float(now), int(numbers[place]) / den))
    return corners


def main():
    if len(sys.argv) != 5:
        sys.exit(__doc__)
    with open(sys.argv[1], encoding="utf-8") as file:
        model = file.read().splitlines()
    with open(sys.argv[2], encoding="utf-8") as file:
        samples = list(samples_of(file, sys.argv[4]))
    with open(sys.argv[3], encoding="utf-8") as file:
        verdicts, explained, run = verdicts_of(file)
    variable = sys.argv[4]
    accepted = [s for s in samples if verdicts.get(s[0], "refused") != "refused"]
    times = [time for number, time, _ in accepted if explained is None or number <= explained]
    corners = corners_of(run, times, variables_of(model).index(variable)) if run else []
    bounds = unsafe_bounds(model, variable)

    values = [v for _, _, v in samples if v is not None] + [v for _, v in corners] + [b for pair in bounds for b in pair if b is not None]
    if not samples or not values:
        sys.exit("picture: nothing to draw")
    low, high = min(values), max(values)
    margin = (high - low or 1) * 0.08
    low, high = low - margin, high + margin
    first, last = samples[0][1], samples[-1][1]

    def x(time):
        return LEFT + (time - first) / ((last - first) or 1) * (WIDTH - LEFT - RIGHT)

    def y(value):
        return HEIGHT - BOTTOM - (value - low) / (high - low) * (HEIGHT - TOP - BOTTOM)

    out = ['<svg xmlns="http://www.w3.org/2000/svg" viewBox="0 0 %d %d" font-family="sans-serif" font-size="12">' % (WIDTH, HEIGHT)]
    out.append('<rect width="%d" height="%d" fill="white"/>' % (WIDTH, HEIGHT))
    for below, above in bounds:
        top = y(high if above is None else above)
        foot = y(low if below is None else below)
        out.append('<rect x="%d" y="%.1f" width="%d" height="%.1f" fill="#fbe3e1"/>' % (LEFT, top, WIDTH - LEFT - RIGHT, foot - top))
        out.append('<text x="%d" y="%.1f" fill="#a33">unsafe</text>' % (LEFT + 6, top + 14))
    for step in range(5):
        value = low + margin + (high - low - 2 * margin) * step / 4
        out.append('<line x1="%d" x2="%d" y1="%.1f" y2="%.1f" stroke="#e4e4e4"/>' % (LEFT, WIDTH - RIGHT, y(value), y(value)))
        out.append('<text x="%d" y="%.1f" text-anchor="end">%.4g</text>' % (LEFT - 6, y(value) + 4, value))
    if corners:
        path = " ".join("%.1f,%.1f" % (x(time), y(value)) for time, value in corners)
        out.append('<polyline points="%s" fill="none" stroke="#d1332e" stroke-width="1.5"/>' % path)
    for _, time, value in samples:
        if value is not None:
            out.append('<circle cx="%.1f" cy="%.1f" r="2" fill="#234"/>' % (x(time), y(value)))
    for at, (number, time, _) in enumerate(samples):
        until = samples[at - 1][1] if at else time
        colour = COLOURS.get(verdicts.get(number, "refused"), "#bbbbbb")
        out.append('<rect x="%.1f" y="%d" width="%.1f" height="10" fill="%s"/>' % (x(until), HEIGHT - BOTTOM + 6, max(x(time) - x(until), 1), colour))
    for step in range(6):
        time = first + (last - first) * step / 5
        out.append('<text x="%.1f" y="%d" text-anchor="middle">%.4g</text>' % (x(time), HEIGHT - BOTTOM + 32, time))
    seen = [word for word in COLOURS if word in verdicts.values()]
    for at, word in enumerate(seen):
        out.append('<rect x="%d" y="%d" width="10" height="10" fill="%s"/>' % (LEFT + at * 110, HEIGHT - 22, COLOURS[word]))
        out.append('<text x="%d" y="%d">%s</text>' % (LEFT + at * 110 + 15, HEIGHT - 13, word))
    out.append('<text x="%d" y="%d" text-anchor="end">%s over time</text>' % (WIDTH - RIGHT, HEIGHT - 13, escape(variable)))
    out.append("</svg>")
    print("\n".join(out))


main()
