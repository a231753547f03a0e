"""The calls of the library as include/flowc.h declares them, and what their answers come to."""
import ctypes
import ctypes.util
import os
from typing import Callable, Optional, Union

Text = Union[bytes, str]

DONE, REFUSED, NO_HOST, NO_MEMORY, TOO_SHORT = range(5)
TEXTS = ('hierarchy', 'source', 'bytes', 'code', 'world', 'event')
WORDS = 64
NO_PRINCIPAL, PRINCIPAL_NO_MEMORY = 2 ** 32 - 1, 2 ** 32 - 2


class Handle(ctypes.Structure):
    _fields_ = [('at', ctypes.c_void_p), ('full', ctypes.c_bool)]


class SentPair(ctypes.Structure):
    _fields_ = [('channel', ctypes.c_uint32), ('number', ctypes.c_int32)]


_PLACE = [('status', ctypes.c_uint32), ('number', ctypes.c_uint32), ('text', ctypes.c_uint32), ('procedure', ctypes.c_uint32),
          ('line', ctypes.c_size_t), ('column', ctypes.c_size_t), ('offset', ctypes.c_size_t), ('length', ctypes.c_size_t)]


class Outcome(ctypes.Structure):
    _fields_ = _PLACE


class Answer(ctypes.Structure):
    _fields_ = _PLACE + [('id', ctypes.c_uint64), ('taken', ctypes.c_uint64), ('run', ctypes.c_uint32), ('thrown', ctypes.c_uint32)]


def _load() -> ctypes.CDLL:
    beside = os.path.join(os.path.dirname(os.path.abspath(__file__)), '..', '..', 'lib', 'libflowc.so')
    named = os.environ.get('FLOWC_LIBRARY') or (beside if os.path.exists(beside) else ctypes.util.find_library('flowc'))
    if not named:
        raise ImportError('libflowc.so is not found: build it by tools/library, or name it in FLOWC_LIBRARY')
    loaded = ctypes.CDLL(named)
    text, place, host = [ctypes.c_char_p, ctypes.c_size_t], [ctypes.c_void_p, ctypes.c_size_t], [ctypes.POINTER(Handle)]
    session = host + [ctypes.c_uint64]
    for name, result, given in (
            ('version', Outcome, place), ('check', Outcome, 2 * text + place), ('compile', Outcome, 2 * text + place),
            ('explain', Outcome, 2 * text + place), ('list', Outcome, text + place), ('principal', ctypes.c_uint32, 2 * text),
            ('host_new', ctypes.c_uint32, host), ('host_free', None, host), ('host_open', Answer, host + 2 * text + place),
            ('host_open_under', Answer, host + 3 * text + place),
            ('host_turn', Answer, session + [ctypes.c_uint64]), ('host_status', Answer, session),
            ('host_view', Answer, session + [ctypes.c_uint32] + place), ('host_sent', Answer, session + place),
            ('host_close', Answer, session)):
        call = getattr(loaded, 'flowc_' + name)
        call.restype, call.argtypes = result, given
    return loaded


library = _load()


class Refused(Exception):
    """What was given is refused: for which number, with which words, and where.

    `text` is 'hierarchy' or 'source', at `line` and `column`; 'bytes' of a module, at `offset`; 'code' of the procedure `procedure` of a
    module, at `offset`; 'world', at `line`; or 'event': what a host was asked, which has no place. `chain` is the text of the chain of a
    refused flow, where `explain` was asked.
    """

    def __init__(self, outcome: Union[Outcome, Answer], words: str, chain: Optional[str] = None):
        self.number: int = outcome.number
        self.text: str = TEXTS[outcome.text]
        self.line: int = outcome.line
        self.column: int = outcome.column
        self.offset: int = outcome.offset
        self.procedure: int = outcome.procedure
        self.words: str = words
        self.chain = chain
        fault = '%d %s' % (self.number, words)
        super().__init__('%s: %s' % (self.where, fault) if self.where else fault)

    @property
    def where(self) -> str:
        """The place, as the program prints it behind the path; nothing for an event."""
        return {'bytes': '%d' % self.offset, 'code': '%d:%d' % (self.procedure, self.offset), 'world': '%d' % self.line,
                'event': ''}.get(self.text, '%d:%d' % (self.line, self.column))


class NoHost(Exception):
    """The host was closed."""


def in_bytes(text: Text) -> bytes:
    return text.encode() if isinstance(text, str) else bytes(text)


def words_of(*texts: bytes) -> list:
    """The pointers and lengths of texts."""
    return [word for text in texts for word in (text, len(text))]


def ask(function: Callable, given: list, kind, guess: int):
    """Calls with a place for `guess` items of a kind, and once more where that was too short. Gives the outcome and the place."""
    while True:
        place = (kind * guess)()
        outcome = function(*given, place, guess)
        if outcome.status == NO_MEMORY:
            raise MemoryError('flowc is out of memory')
        if outcome.status == NO_HOST:
            raise NoHost('the host was closed')
        if outcome.length <= guess and outcome.status != TOO_SHORT:
            return outcome, place
        guess = outcome.length


def ask_bytes(function: Callable, given: list, guess: int):
    """The same for a place of bytes. Gives the outcome and the bytes."""
    outcome, place = ask(function, given, ctypes.c_char, guess)
    return outcome, place.raw[:outcome.length]
