"""What bench/run prints, and the file that bench/plot reads."""

FULL = {'1024': 'random'}  # the input of the whole filter whose side is not its name


def ours(rows, row):
    """gong's row on the same input."""
    return next(other for other in rows if (other.call, other.given, other.name) == (row.call, row.given, 'gong'))


def whole(rows, scan):
    """gong's whole filter on the levels that a scan brings row by row."""
    side = scan.given.partition('-')[0]
    return next(row for row in rows if (row.call, row.given, row.name) == ('filter', FULL.get(side, side), 'gong'))


def ratio(rows, row):
    """gong's time over the row's: below 1 gong is faster. A scan's is its time over the whole filter's."""
    return row.least / whole(rows, row).least if row.call == 'scan' else ours(rows, row).least / row.least


def figure(value):
    """Three digits that count, two where the value is small."""
    if value < 0.1:
        return f'{value:#.2g}'
    return f'{value:.0f}' if value >= 100 else f'{value:.1f}' if value >= 10 else f'{value:.2f}'


def show_pictures(rows):
    """The median filter on the large pictures: everyone."""
    print(f'{"":44}{"random":>8}{"ratio":>8}{"smooth":>10}{"ratio":>8}   at the edge')
    full = [row for row in rows if row.call == 'filter' and row.given in ('random', 'smooth')]
    for name in dict.fromkeys(row.name for row in full):
        both = sorted((row for row in full if row.name == name), key=lambda row: row.given)
        cells = [figure(value) for row in both for value in (row.least, ratio(rows, row))]
        print(f'{name:44}{cells[0]:>8}{cells[1]:>8}{cells[2]:>10}{cells[3]:>8}   {both[0].edge or "our rule"}')


def show_pairs(rows):
    """gong beside plain C, a line for each input."""
    print(f'{"":44}{"gong":>8}{"plain C":>10}{"ratio":>8}')
    for row in rows:
        if row.name == 'plain C':
            given = f'{row.given} × {row.given}' if row.given.isdigit() else row.given.replace('-', ' ')
            name = f'{row.call}, {given}'
            times = f'{figure(ours(rows, row).least):>8}{figure(row.least):>10}'
            print(f'{name + ", a " + row.unit:44}{times}{figure(ratio(rows, row)):>8}')


def show_scans(rows):
    """Scans beside the whole filter, a line for each size and number of rows a call."""
    print(f'{"":44}{"scan":>8}{"whole":>10}{"ratio":>8}')
    for row in rows:
        if row.call == 'scan':
            side, a_call = row.given.split('-by-')
            name = f'{int(side):,} × {int(side):,}, {a_call} row{"" if a_call == "1" else "s"} a call'
            print(f'{name:44}{figure(row.least):>8}{figure(whole(rows, row).least):>10}{figure(ratio(rows, row)):>8}')


def calm(rows):
    """How far the middle turn of gong on the random picture lies above the least: 1.00 is a quiet machine."""
    times = sorted(next(row for row in rows if row.name == 'gong').times)
    return times[len(times) // 2] / times[0]


def show(rows, missing, turns):
    """The whole table."""
    print(f'\nns, the least of {turns} turns; ratio = gong\'s time over the row\'s: below 1 gong is faster')
    print('\nmedian filter, 1,024 × 1,024, a pixel and pass (gong and plain C make three passes, the others one)')
    show_pictures(rows)
    for line in missing:
        print(line)
    print('\ngong beside plain C, by size and by call')
    show_pairs([row for row in rows if row.name in ('gong', 'plain C') and row.given not in ('random', 'smooth')])
    print("\na scan beside the whole filter, a pixel and pass; ratio = the scan's time over the whole filter's")
    show_scans(rows)
    print(f'\nthe middle turn of gong on the random picture took {calm(rows):.2f} times the least')


def write_rows(rows, path):
    """A line for each row, tabs between: call, input, unit, name, ns, ratio."""
    lines = [f'{row.call}\t{row.given}\t{row.unit}\t{row.name}\t{row.least:.4f}\t{ratio(rows, row):.5f}\n' for row in rows]
    path.write_text(''.join(lines), encoding='utf-8')
