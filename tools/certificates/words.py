"""Certificates as words. Reading tests front to back, so that the fault named is the first."""

from common.fault import Fault
from common.words import PAYLOADS, WORD_BYTES, Reader, unpacked, whole_words

from .certificate import MAX_WORDS, Certificate, Other, Step

PAIR = 3
COST_KINDS = (6, 12)    # of the words of the cost, the low bits first
STEP = 7

STATION = 1 << 8        # a pair has its spot below its station
SPOTS = 8               # that three bits can name
ROWS = 1 << 12          # a step's second row, its first row above that, and its station

# The numbers under which such a certificate is refused.
BAD_CERTIFICATE = 7
TOO_LONG = 10


def read_words(data):
    """The certificate that a file's bytes hold."""
    if len(data) > WORD_BYTES * MAX_WORDS:
        raise Fault(f"word {MAX_WORDS}", f"a certificate has {MAX_WORDS:,} words at most (refusal {TOO_LONG})")
    whole_words(len(data), f" (refusal {BAD_CERTIFICATE})")
    reader = Reader(unpacked(data), "certificate")
    stations = reader.take_stations(BAD_CERTIFICATE)
    spots = tuple(read_spot(reader, station) for station in range(stations))
    cost = read_cost(reader)
    return Certificate(spots, cost, read_derivation(reader))


def read_spot(reader, station):
    payload = reader.take_kind(PAIR, BAD_CERTIFICATE, f"the spot of station {station}")
    found, spot = divmod(payload, STATION)
    if found != station:
        reader.refuse(BAD_CERTIFICATE, f"a pair of station {found:,} where that of station {station} is due")
    if spot >= SPOTS:
        reader.refuse(BAD_CERTIFICATE, "a pair with a set bit outside its station and spot")
    return spot


def read_cost(reader):
    low, high = (reader.take_kind(kind, BAD_CERTIFICATE, f"cost word {place}") for place, kind in enumerate(COST_KINDS))
    return low + high * PAYLOADS


def read_derivation(reader):
    """All words behind the cost."""
    taken = []
    while not reader.ended():
        kind, payload = reader.take(BAD_CERTIFICATE, "a step")
        taken.append(read_step(payload) if kind == STEP else Other(reader.taken - 1, kind, payload))
    return tuple(taken)


def read_step(payload):
    station_and_first, second = divmod(payload, ROWS)
    return Step(*divmod(station_and_first, ROWS), second)
