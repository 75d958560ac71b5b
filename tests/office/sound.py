"""Refusals 1 to 6 of a file and a query, written for the tests from documents 01 and 02 alone; 0 is sound."""
PAIR = 2


def u16(data, at):
    return data[at] | data[at + 1] << 8


def u32(data, at):
    return u16(data, at) | u16(data, at + 2) << 16


def of_tables(data, at, classes, end):
    """The refusal of the class blocks, and where they end."""
    for _ in range(classes):
        if at + PAIR > end:
            return 2, at
        delay = u16(data, at)
        if delay > 120:
            return 3, at
        if at + PAIR + PAIR * (delay + 1) > end:
            return 2, at
        shares = [u16(data, at + PAIR + PAIR * late) for late in range(delay + 1)]
        if sum(shares) != 4096 or shares[delay] == 0:
            return 3, at
        at += PAIR + PAIR * (delay + 1)
    return 0, at


def of_rows(rows, stops, classes):
    for number, (board, land, departs, arrives, trip, kind) in enumerate(rows):
        if board >= stops or land >= stops or board == land or departs >= arrives or arrives > 10079 or trip >= 2000 or kind >= classes:
            return 4
        if number and departs < rows[number - 1][2]:
            return 5
        for earlier in reversed(rows[:number]):
            if earlier[4] == trip:
                if earlier[1] != board or earlier[3] > departs:
                    return 5
                break
    return 0


def of_sailings(data):
    if len(data) < 20 or len(data) > 27920:
        return 1
    end = len(data) - 16
    version, stops, count, classes = (u16(data, end + PAIR * place) for place in range(4))
    if version != 1 or stops < 2 or stops > 200 or count > 2000 or classes < 1 or classes > 16:
        return 1
    row_start, table_start = u32(data, end + 8), u32(data, end + 12)
    refused, table_end = of_tables(data, table_start, classes, end)
    if refused:
        return refused
    row_end = row_start + 12 * count
    rows_ahead = row_start == 0 and table_start == row_end and table_end == end
    tables_ahead = table_start == 0 and row_start == table_end and row_end == end
    if not rows_ahead and not tables_ahead:
        return 2
    rows = [tuple(u16(data, row_start + 12 * row + PAIR * place) for place in range(6)) for row in range(count)]
    return of_rows(rows, stops, classes)


def of_query(query, stops):
    if len(query) != 8 and len(query) != 10 and len(query) != 12:
        return 6
    source, target, minute, code = (u16(query, PAIR * place) for place in range(4))
    margin = u16(query, 8) if len(query) > 8 else 1
    gate = u16(query, 10) if len(query) > 10 else 0
    known = source < stops and target < stops and source != target and minute <= 10079
    return 0 if known and (code == 0 or 4 <= code <= 16) and 1 <= margin <= 2560 and gate <= 30 else 6


def refusal(sailings, query):
    return of_sailings(sailings) or of_query(query, u16(sailings, len(sailings) - 14))
