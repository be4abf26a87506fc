"""The plots of docs/SPEED.md, which gnuplot draws."""
from __future__ import annotations

import subprocess

from support.model.methods import MD5CRYPT, SCRYPT, SHA256CRYPT, SHA512CRYPT
from support.model.settings import recommended_setting
from support.model.work import LONGEST_PASSWORD, cost, login_limit

from .failure import Stop
from .intervals import Interval, Ratio
from .page import OURS, format_ratio
from .results import Comparison, Part, Results

METHODS = ("md5crypt", "sha256crypt", "sha512crypt", "scrypt, N = 2^14, r = 32")
OUR_COLOUR, OTHER_COLOUR = "0x1f5f99", "0x9fb4c7"

# The limit of a login by the recommended policy, and the budget of an audit.
LIMIT = login_limit(SHA512CRYPT, None, 0)
BUDGET = cost(recommended_setting(SHA512CRYPT, None), LONGEST_PASSWORD)

TERMINAL = "set terminal svg size {width},{height} font 'sans-serif,13' background '#ffffff'\n"
PANELS = """\
set multiplot layout 2,2 margins 0.1,0.99,0.02,0.86 spacing 0.14,0.13 \
title 'Time of a hash, mkpasswd = 1, with intervals' font ',16'
set style fill solid
set border 0
unset key
unset xtics
set ytics scale 0
{panels}
"""
# The columns of $bars are those of format_bar(), and $0 is the number of a row, from 0. The middle
# of a bar is at the height -$0 - 1, and the bar extends 0.36 above and below it.
PANEL = """\
set title '{row}' offset 0,-0.6 noenhanced
set xrange [0:{most}]
set yrange [{last}:-0.5]
$bars << EOD
{bars}EOD
plot $bars using 2:(-$0 - 1):(0):2:(-$0 - 1.36):(-$0 - 0.64):5:ytic(1) \
with boxxyerror lc rgb variable, \\
    $bars using 2:(-$0 - 1):3:4 with xerrorbars pt -1 lc rgb '#1d2733', \\
    $bars using 4:(-$0 - 1):6 with labels left
"""
# The lengths of passwords at which the labels of the curves stand.
SHA_LABELS, OTHER_LABELS = 560, 800
# The bytes between two points of a curve.
STEP = 8
LENGTHS = """\
set title 'Cost of a hash by the length of its password, with the recommended rounds' font ',16'
set xrange [0:{most}]
set yrange [0:1.4e9]
set xlabel 'Length of the password in bytes'
set xtics 128
set ytics ('0' 0, '500 million bytes' 5e8, '1 billion bytes' 1e9)
set border 3 lc rgb '#9fb4c7'
set tics nomirror scale 0.5 textcolor rgb '#1d2733'
unset key
set arrow from 0,{limit} to {most},{limit} nohead dashtype 2 lw 1.5 lc rgb '#b3261e'
set arrow from 0,{budget} to {most},{budget} nohead dashtype 2 lw 1.5 lc rgb '#b3261e'
set arrow from {longest},0 to {longest},{limit} nohead dashtype 3 lc rgb '#b3261e'
set label 'limit of a login with sha512crypt: {limit:,}' at {most},{limit} right offset -1,0.7 \
textcolor rgb '#b3261e'
set label 'budget of an audit: {budget:,}' at 0,{budget} offset 1,-0.8 textcolor rgb '#b3261e'
set label '{longest} bytes' at {longest},0 offset 0.6,0.9 textcolor rgb '#b3261e'
set label 'sha512crypt' at {sha_labels},{sha512crypt} right offset -1,0.6 textcolor rgb '#1f5f99'
set label 'sha256crypt' at {sha_labels},{sha256crypt} offset 1.5,-0.7 textcolor rgb '#2e8b57'
set label 'scrypt' at {other_labels},{scrypt} offset 0,0.7 textcolor rgb '#7a4fb5'
set label 'md5crypt' at {other_labels},0 offset 0,0.7 textcolor rgb '#5c6773'
$costs << EOD
{costs}EOD
plot $costs using 1:2 with lines lw 2.5 lc rgb '#5c6773', \
'' using 1:3 with lines lw 2.5 lc rgb '#2e8b57', \\
    '' using 1:4 with lines lw 2.5 lc rgb '#1f5f99', \
'' using 1:5 with lines lw 2.5 lc rgb '#7a4fb5'
"""


def draw(width: int, height: int, script: str) -> str:
    """Returns the SVG that a script of gnuplot draws."""
    terminal = TERMINAL.format(width=width, height=height)
    try:
        done = subprocess.run(
            ["gnuplot"], input=terminal + script, capture_output=True, text=True, check=False
        )
    except FileNotFoundError:
        raise Stop("gnuplot is missing: install Debian's gnuplot-nox") from None
    if done.returncode != 0 or done.stderr:
        raise Stop(f"gnuplot: {done.stderr}")
    return done.stdout


def format_panel(rows: list[Comparison], method: str) -> str:
    """Returns the script for the panel of a method, with a bar for each program."""
    ours = Comparison(method, OURS, Ratio(1, Interval(1, 1), 0))
    bars = [ours, *(row for row in rows if row.row == method)]
    # To the right of the bars there is space for their labels.
    most = 1.75 * max(row.ratio.bounds.upper for row in bars)
    return PANEL.format(
        row=method,
        most=f"{most:.6g}",
        last=-0.5 - len(bars),
        bars="".join(map(format_bar, bars)),
    )


def format_bar(row: Comparison) -> str:
    """Returns the columns of a bar: name, median, interval, colour and label."""
    is_ours = row.name == OURS
    colour = OUR_COLOUR if is_ours else OTHER_COLOUR
    label = "1" if is_ours else format_ratio(row.ratio)
    bounds = Interval(1, 1) if is_ours else row.ratio.bounds
    numbers = f"{row.ratio.median:.6g} {bounds.lower:.6g} {bounds.upper:.6g}"
    return f'"{row.name}" {numbers} {colour} "   {label}"\n'


def plot_methods(results: Results) -> str:
    """Draws the time of a hash by each method, in comparison with other programs."""
    rows = results.rows(Part.RATIOS, Comparison)
    panels = "".join(format_panel(rows, method) for method in METHODS)
    return draw(880, 520, PANELS.format(panels=panels))


def plot_lengths() -> str:
    """Draws the cost of a hash by the length of its password."""
    in_order = (MD5CRYPT, SHA256CRYPT, SHA512CRYPT, SCRYPT)
    settings = {method: recommended_setting(method, None) for method in in_order}
    costs = ""
    for length in range(0, LONGEST_PASSWORD + 1, STEP):
        numbers = [length, *(cost(setting, length) for setting in settings.values())]
        costs += " ".join(map(str, numbers)) + "\n"
    allowed = [n for n in range(LONGEST_PASSWORD + 1) if login_limit(SHA512CRYPT, None, n)]
    script = LENGTHS.format(
        most=LONGEST_PASSWORD,
        limit=LIMIT,
        budget=BUDGET,
        longest=max(allowed),
        sha_labels=SHA_LABELS,
        other_labels=OTHER_LABELS,
        scrypt=cost(settings[SCRYPT], OTHER_LABELS),
        sha256crypt=cost(settings[SHA256CRYPT], SHA_LABELS),
        sha512crypt=cost(settings[SHA512CRYPT], SHA_LABELS),
        costs=costs,
    )
    return draw(880, 460, script)
