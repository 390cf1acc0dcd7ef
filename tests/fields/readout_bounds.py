"""Readouts at the ends of every range: position, place, variable, plan, and distances around half and whole metres."""

from reference import fields, words

FAR = 1_000_000
CORNERS = [(east, north) for east in (-FAR, 0, FAR) for north in (-FAR, 0, FAR)]
# The ends of the range, one beyond them, and the ends of 28 bits.
COORDINATES = [-FAR - 1, -FAR, -1, 0, FAR, FAR + 1, -(1 << 27), (1 << 27) - 1]


def position(east, north):
    return words.easting(east), words.northing(north)


def corner_sheet():
    """One station with eight corners, then one with the last corner."""
    return fields.sheet([CORNERS[:8], CORNERS[8:]], [])


def positions(both):
    """Every coordinate against every corner."""
    sheet = corner_sheet()
    for east in COORDINATES:
        for north in COORDINATES:
            for value in range(8):
                both.readout(sheet, [value, 0], 0, *position(east, north))
            both.readout(sheet, [0, 0], 1, *position(east, north))


def position_words(both):
    """The position's words with other kinds, and with every bit flipped."""
    sheet = corner_sheet()
    east, north = position(300, -400)
    for kind in range(16):
        both.readout(sheet, [0, 0], 0, words.word(kind, 300), north)
        both.readout(sheet, [0, 0], 0, east, words.word(kind, 300))
    for bit in range(32):
        both.readout(sheet, [0, 0], 0, east ^ 1 << bit, north)
        both.readout(sheet, [0, 0], 0, east, north ^ 1 << bit)


def variables(both):
    for stations in (0, 1, 2, 12):
        sheet = fields.sheet([[(100 * station, 0)] for station in range(stations)], [])
        for variable in list(range(14)) + [255, 256, (1 << 31), (1 << 32) - 1]:
            both.readout(sheet, [0] * stations, variable, *position(0, 0))


def plans(both):
    """Bytes too few and too many, and values at the bound of the station asked for and of another."""
    sheet = corner_sheet()
    for plan in ([], [0], [7], [0, 0], [7, 0], [8, 0], [255, 0], [0, 1], [0, 255], [7, 1], [8, 1], [0, 0, 0], [0] * 12):
        for variable in (0, 1, 2):
            both.readout(sheet, plan, variable, *position(FAR, FAR))


def half_metres(both):
    """Squares just below, at and above those of half and whole metres, up to the longest distance: 28,284 m."""
    sheet = fields.sheet([[(-FAR, -FAR), (0, 0)]], [])
    for halves in (1, 2, 3, 4, 5, 10, 199, 200, 201, 9_999, 10_000, 19_999, 20_000):
        for east in range(50 * halves - 2, min(50 * halves + 2, FAR + 1)):
            for north in (-1, 0, 1, 10, 14, 15):
                both.readout(sheet, [1], 0, *position(east, north))
    for east in range(FAR - 100, FAR + 1):
        both.readout(sheet, [0], 0, *position(east, FAR))


def input_first(both):
    """The sheet's faults come before 8."""
    sheet = corner_sheet()
    for length in range(len(sheet)):
        both.readout(sheet[:length], [], 99, 0, 0)
    for front in ([], [words.head(13)], [0]):
        both.readout(front + sheet[1:], [], 99, 0, 0)
    for end in ([words.binding(0, 0)], [words.cost(65_536)], [words.cost(0)] * 4_089, [words.cost(0)] * 4_088):
        both.readout(sheet + end, [], 99, 0, 0)


def compare(both):
    positions(both)
    position_words(both)
    variables(both)
    plans(both)
    half_metres(both)
    input_first(both)
