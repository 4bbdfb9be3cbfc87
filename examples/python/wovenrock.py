"""The calls of the verified library from Python, by ctypes and with no other module.

    library = Library(path)                    the shared object that the script `shared` makes
    settings = library.settings(2, 1, 17, 1)   degree, depth, modulus, bound; a fifth number is that of rows, 1 where it is left out
    library.commit(settings, key, message)     [15, 4]

Tables are lists of numbers, and every list has exactly the length that the settings give: `settings.table` and so on. A key has its rows one after the other, a
commitment has one element for each row, and a round polynomial has c0 of every row, then c1 of every row, then c2. A call that is refused raises `Refused`,
which has the number of the refusal and its word, and changes no list. That a call is not refused does not say that anything was accepted: see what it returns.
"""

import ctypes
from collections import namedtuple

WORDS = (
    "long text degree depth modulus bound size residue tall challenge turn twin branch growth slack rows".split()
)
PARTS = ("key", "message", "commitment", "rounds", "challenges", "last", "claims")
LONGEST_TEXT = 65536
RECORD = 527
SETTINGS = 5
HOLDS, ACCEPTED = 1, 2


class Refused(Exception):
    """A call was refused, by this number of the table of refusals."""

    def __init__(self, number):
        self.number = number
        self.word = WORDS[number - 1]
        super().__init__(f"refused {number}: {self.word}")


class Settings(namedtuple("Settings", "degree depth modulus bound rows")):
    """Settings that are allowed, and the lengths that follow from them. `Library.settings` and `Library.look` give them."""

    element = property(lambda s: s.degree)
    commitment = property(lambda s: s.rows * s.element)
    polynomial = property(lambda s: 3 * s.commitment)
    table = property(lambda s: s.degree << s.depth)
    key = property(lambda s: s.rows * s.table)
    rounds = property(lambda s: s.depth * s.polynomial)
    challenges = property(lambda s: s.depth)
    claims = property(lambda s: s.depth * s.commitment)
    leaves = property(lambda s: 3**s.depth)
    nodes = property(lambda s: s.leaves // 2)
    slack = property(lambda s: 4**s.depth)


class Opened(namedtuple("Opened", "commitment rounds last accepted key message")):
    """A whole opening; key and message are folded."""


def _numbers(kind, low, high):
    def lend(values):
        values = list(values)
        if not all(isinstance(x, int) and low <= x <= high for x in values):
            raise ValueError(f"numbers from {low} to {high} are wanted")
        # one place more, so that an empty list has an address too; it is not lent
        return (kind * (len(values) + 1))(*values), len(values)

    return lend


_u32 = _numbers(ctypes.c_uint32, 0, 2**32 - 1)
_u64 = _numbers(ctypes.c_uint64, 0, 2**64 - 1)
_i32 = _numbers(ctypes.c_int32, -(2**31), 2**31 - 1)
_i64 = _numbers(ctypes.c_int64, -(2**63), 2**63 - 1)
_LEND = {"key": _u64, "message": _i32, "commitment": _u64, "rounds": _u64, "challenges": _u32, "last": _i32, "claims": _u64}


def _lent(slices):
    """The arguments for some slices: an address and a length for each."""
    for room, count in slices:
        yield room
        yield ctypes.c_size_t(count)


def _word(number):
    _u32([number])
    return ctypes.c_uint32(number)


def _five(settings):
    """The arguments for settings: the modulus alone has 64 bits."""
    degree, depth, modulus, bound, rows = settings
    _u64([modulus])
    return _word(degree), _word(depth), ctypes.c_uint64(modulus), _word(bound), _word(rows)


def _taken(slice_):
    room, count = slice_
    return room[:count]


class Library:
    """The library in a shared object."""

    def __init__(self, path):
        self._library = ctypes.CDLL(str(path))

    def _call(self, name, *arguments):
        function = getattr(self._library, "wovenrock_" + name)
        function.restype = ctypes.c_uint32
        number = function(*arguments)
        if number != 0:
            raise Refused(number)

    def settings(self, degree, depth, modulus, bound, rows=1):
        """Settings, refused by 3 to 6 and 16."""
        settings = Settings(degree, depth, modulus, bound, rows)
        self._call("settings", *_five(settings))
        return settings

    def commit(self, settings, key, message):
        """The commitment, one element for each row. Refusals 7 to 9."""
        out = _u64([0] * settings.commitment)
        self._call("commit", *_five(settings), *_lent([_u64(key), _i32(message), out]))
        return _taken(out)

    def round(self, settings, done, key, message):
        """The round polynomial of round done + 1. Refusals 7 to 9, 11."""
        out = _u64([0] * settings.polynomial)
        self._call("round", *_five(settings), _word(done), *_lent([_u64(key), _i32(message), out]))
        return _taken(out)

    def fold(self, settings, done, exponent, key, message):
        """Key and message, folded by X^exponent; the lists that are given stay. Refusals 7 to 11."""
        key, message = _u64(key), _i32(message)
        self._call("fold", *_five(settings), _word(done), _word(exponent), *_lent([key, message]))
        return _taken(key), _taken(message)

    def end(self, settings, done, message):
        """The final element of a message that was folded to its end. Refusals 7, 9, 11."""
        out = _i32([0] * settings.element)
        self._call("end", *_five(settings), _word(done), *_lent([_i32(message), out]))
        return _taken(out)

    def open(self, settings, key, message, challenges):
        """The whole opening. Refusals 7 to 10."""
        key, message, rounds = _u64(key), _i32(message), _u64([0] * settings.rounds)
        commitment, last = _u64([0] * settings.commitment), _i32([0] * settings.element)
        verdict = ctypes.c_uint32()
        slices = [key, message, _u32(challenges), rounds, commitment, last]
        self._call("open", *_five(settings), *_lent(slices), ctypes.byref(verdict))
        return Opened(*map(_taken, (commitment, rounds, last)), verdict.value == ACCEPTED, *map(_taken, (key, message)))

    def start(self, settings, commitment):
        """A session's record, 527 numbers, to be kept by the caller. Refusals 7, 8."""
        record = _u64([0] * RECORD)
        self._call("session_start", *_five(settings), *_lent([_u64(commitment), record]))
        return _taken(record)

    def session_round(self, record, polynomial, exponent):
        """The next record, and whether the round holds. Refusals 3 to 8, 10, 11, 16."""
        record, verdict = _u64(record), ctypes.c_uint32()
        self._call("session_round", *_lent([_u64(polynomial)]), _word(exponent), *_lent([record]), ctypes.byref(verdict))
        return _taken(record), verdict.value == HOLDS

    def session_end(self, record, last, key):
        """The closed record, and whether the opening is accepted. Refusals 3 to 8, 10, 11, 16."""
        record, verdict = _u64(record), ctypes.c_uint32()
        self._call("session_end", *_lent([_i32(last), _u64(key), record]), ctypes.byref(verdict))
        return _taken(record), verdict.value == ACCEPTED

    def check(self, settings, commitment, last, key, rounds, challenges):
        """Whether a transcript is accepted. Refusals 7, 8, 10."""
        verdict = ctypes.c_uint32()
        slices = [_u64(commitment), _i32(last), _u64(key), _u64(rounds), _u32(challenges)]
        self._call("check", *_five(settings), *_lent(slices), ctypes.byref(verdict))
        return verdict.value == ACCEPTED

    def judge(self, settings, commitment, slack, key, w):
        """Whether w opens slack times the commitment in every row, within its bound. Refusals 7, 8, 14, and 15, also where the slack shares a factor with q."""
        yes = ctypes.c_uint32()
        arguments = (*_lent([_u64(commitment)]), _word(slack), *_lent([_u64(key), _i64(w)]))
        self._call("judge", *_five(settings), *arguments, ctypes.byref(yes))
        return yes.value == 1

    def extract(self, settings, commitment, key, rounds, challenges, leaves):
        """The vector w of a full tree of accepted transcripts. Refusals 7, 8, 10, 12, 13, 14."""
        w = _i64([0] * settings.table)
        slices = [_u64(commitment), _u64(key), _u64(rounds), _u32(challenges), _i32(leaves), w]
        self._call("extract", *_five(settings), *_lent(slices))
        return _taken(w)

    def look(self, text):
        """The settings of a text, which is bytes. Refusals 1 to 6, 16."""
        out = _u64([0] * SETTINGS)
        self._call("look", bytes(text), ctypes.c_size_t(len(text)), *_lent([out]))
        return Settings(*_taken(out))

    def read(self, text, parts):
        """The settings of a text, and a dictionary of the parts that are named; the text has these and no others. Refusals 1 to 10, 16."""
        found = self.look(text)
        lengths = dict(zip(PARTS, (found.key, found.table, found.commitment, found.rounds, found.challenges, found.element, found.claims)))
        tables = {name: _LEND[name]([0] * (lengths[name] if name in parts else 0)) for name in PARTS}
        out = _u64([0] * SETTINGS)
        slices = [out, *tables.values()]
        self._call("read", _bits(parts), bytes(text), ctypes.c_size_t(len(text)), *_lent(slices))
        return Settings(*_taken(out)), {name: _taken(tables[name]) for name in PARTS if name in parts}

    def write(self, settings, tables):
        """The text, as bytes, of the tables in a dictionary. Refusals 7 to 10, then 1."""
        out, count = ctypes.create_string_buffer(LONGEST_TEXT), ctypes.c_size_t()
        slices = [_LEND[name](tables.get(name, [])) for name in PARTS]
        self._call(
            "write", *_five(settings), _bits(tables), *_lent(slices), out, ctypes.c_size_t(LONGEST_TEXT), ctypes.byref(count)
        )
        return out.raw[: count.value]

    def prove(self, text):
        """The listing of the opening in a text, its claims among it. Refusals 1 to 10, 16, then 1."""
        out, count = ctypes.create_string_buffer(LONGEST_TEXT), ctypes.c_size_t()
        self._call("prove", bytes(text), ctypes.c_size_t(len(text)), out, ctypes.c_size_t(LONGEST_TEXT), ctypes.byref(count))
        return out.raw[: count.value]

    def verify(self, text):
        """Whether the transcript in a text is accepted; a claim that is not the one of its round is a reason to reject. Refusals 1 to 8, 10, 16."""
        verdict = ctypes.c_uint32()
        self._call("verify", bytes(text), ctypes.c_size_t(len(text)), ctypes.byref(verdict))
        return verdict.value == ACCEPTED


def _bits(parts):
    """The number that says which parts are there."""
    unknown = set(parts) - set(PARTS)
    if unknown:
        raise ValueError(f"no such part: {sorted(unknown)}")
    return _word(sum(1 << PARTS.index(name) for name in set(parts)))
