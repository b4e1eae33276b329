"""Pictures of timetables as docs/formats.md draws them, in plain Python. A shop is as in reference.py."""

import itertools

from reference import spans


def heaviest_path(timetable):
    """The bars of the heaviest path that docs/formats.md names, as places in the order and machines, from the last."""
    place, machine, path = len(timetable) - 1, len(timetable[0]) - 1, set()
    while place >= 0 and machine >= 0:
        path.add((place, machine))
        begin = timetable[place][machine][0]
        is_job = machine == 0 or place > 0 and timetable[place - 1][machine][1] == begin
        place, machine = (place - 1, machine) if is_job else (place, machine - 1)
    return path


def frame_of(shop, value, wide, lower):
    """A picture up to its bars, by docs/formats.md, where the makespan is so wide."""
    jobs, machines, _ = shop
    bottom, right = 5_900 + 3_000 * machines, 13_500 + wide
    heading = f"optimal {value}" if lower == value > 0 else f"makespan {value}"
    if 0 < lower < value:
        heading += f", lower bound {lower}"
    heading += f", jobs {jobs}, machines {machines}"
    steps = wide // 8_000
    step = next(lead * 10**power for power in range(19) for lead in (1, 2, 5) if value <= steps * lead * 10**power)
    text = (
        f'<svg xmlns="http://www.w3.org/2000/svg" width="{right // 100}" height="{(bottom + 3_400) // 100}" '
        f'viewBox="0 0 {right} {bottom + 3_400}" font-family="sans-serif" font-size="1200">\n<title>{heading}</title>\n'
        f'<path d="M0 0H{right}V{bottom + 3_400}H0z" fill="#ffffff"/>\n'
        f'<text x="9000" y="2400" font-size="1600">{heading}</text>\n<text x="9000" y="4700">'
        f"outlined: these operations leave no room; together they take the whole time</text>\n"
    )
    for time in range(0, value + 1, step):
        x = 9_000 + time * wide // max(1, value)
        line = f'x1="{x}" y1="5900" x2="{x}" y2="{bottom + 500}" stroke="#bbbbbb" stroke-width="60"'
        text += f'<line {line}/><text x="{x}" y="{bottom + 2_000}" text-anchor="middle">{time}</text>\n'
    text += f'<text x="8000" y="{bottom + 2_000}" text-anchor="end">time</text>\n'
    for machine in range(1, machines + 1):
        text += f'<text x="8000" y="{4_850 + 3_000 * machine}" text-anchor="end">machine {machine}</text>\n'
    return text + '<g text-anchor="middle" font-size="1000">\n'


COLOURS = "#004C7F #F0C800 #8F2D00 #7CC4F0 #00594A #F2A65A #5B2A86 #F2B6D2".split()


def plain_picture(shop, sequence, lower=0):
    """The picture of a sequence with a lower bound, where that is not 0, by docs/formats.md."""
    jobs, machines, _ = shop
    timetable = spans(shop, sequence)
    value, path = timetable[-1][-1][1], heaviest_path(timetable)
    wide = max(96_000, 3_600 * (jobs + machines))
    text = frame_of(shop, value, wide, lower)
    for place, machine in itertools.product(range(jobs), range(machines)):
        start, end = timetable[place][machine]
        if start == end:
            continue
        job, top = sequence[place], 6_200 + 3_000 * machine
        left, right = [9_000 + time * wide // value for time in (start, end)]
        width = right - left - min(80, (right - left) // 4)
        outline = f'" stroke="#000000" stroke-width="300" stroke-dasharray="{width} 2400'
        text += (
            f'<rect x="{left}" y="{top}" width="{width}" height="2400" fill="{COLOURS[place % 8]}'
            f'{outline if (place, machine) in path else ""}"><title>job {job}, machine {machine + 1}, '
            f"start {start}, end {end}</title></rect>\n"
        )
        if width >= 640 * len(str(job)) + 160:
            ink = "" if place % 2 else ' fill="#ffffff"'
            text += f'<text x="{left + width // 2}" y="{top + 1_560}"{ink}>{job}</text>\n'
    return (text + "</g></svg>\n").encode()
