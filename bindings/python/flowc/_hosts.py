"""Hosts and their sessions."""
import ctypes
import threading
from types import TracebackType
from typing import Callable, List, NamedTuple, Optional, Tuple, Type, Union

from . import _calls
from ._calls import Answer, Handle, NoHost, Refused, SentPair, Text, in_bytes, library, words_of

RUNS = ('running', 'finished', 'threw', 'deep', 'out of memory')
_WORDS_OF_EVENTS = {153: 'unknown principal', 902: 'unknown id'}


class Pair(NamedTuple):
    """What was sent: the number of the channel, and what was sent on it."""
    channel: int
    number: int


class Turn(NamedTuple):
    """What a turn came to: how many steps it took, and how the run then stands.

    `run` is 'running'; 'finished'; 'threw', with the number of the exception in `thrown`; 'deep'; or 'out of memory': a further turn takes
    the step for which there was no memory.
    """
    taken: int
    run: str
    thrown: Optional[int]


def principal(module: bytes, name: Text) -> Optional[int]:
    """The number by which a module knows the principal of this name; None where it has none, or the bytes spell no module."""
    number = library.flowc_principal(*words_of(bytes(module), in_bytes(name)))
    if number == _calls.PRINCIPAL_NO_MEMORY:
        raise MemoryError('flowc is out of memory')
    return None if number == _calls.NO_PRINCIPAL else number


def _within(number: int, bits: int) -> int:
    if not 0 <= number < 1 << bits:
        raise ValueError('%d is not from 0 to 2^%d - 1' % (number, bits))
    return number


class Session:
    """An open session of a host: a run of a module on a world of its own. `Host.open` makes one."""

    def __init__(self, host: 'Host', number: int, named: bytes):
        self._host = host
        # A module whose principals are those of the session.
        self._named = named
        self.id: int = number

    def turn(self, steps: int) -> Turn:
        """Lets the session take at most `steps` steps."""
        return self._host._turned(library.flowc_host_turn, [self.id, _within(steps, 64)])

    def status(self) -> Turn:
        """How the run stands, as a turn of 0 steps says it."""
        return self._host._turned(library.flowc_host_status, [self.id])

    def view(self, observer: Union[int, str]) -> List[Pair]:
        """What a principal sees of what was sent so far, in order. It is named, or given by its number.

        Raises Refused, 153, where there is no such principal.
        """
        number = principal(self._named, observer) if isinstance(observer, str) else _within(observer, 32)
        return self._host._pairs(library.flowc_host_view, [self.id, _calls.NO_PRINCIPAL if number is None else number])

    def sent(self) -> List[Pair]:
        """All that was sent so far, for the operator: no label is looked at."""
        return self._host._pairs(library.flowc_host_sent, [self.id])

    def close(self) -> None:
        """Closes the session. Its id is not given again, and each later call of it raises Refused, 902."""
        self._host._asked(library.flowc_host_close, [self.id])


class Host:
    """A host of at most 64 open sessions.

        with flowc.Host() as host:
            session = host.open(module, world)
            session.turn(10000)
            print(session.view('Staff'))

    A call that is refused has changed no session. Threads may share a host: a lock lets one call of it happen at a time.
    """

    def __init__(self) -> None:
        self._handle = Handle()
        self._lock = threading.Lock()
        if library.flowc_host_new(self._handle) != _calls.DONE:
            raise MemoryError('flowc is out of memory')

    def open(self, module: bytes, world: Text, hierarchy: Optional[Text] = None) -> Session:
        """Opens a session of a module on the world that a text writes: under the module's hierarchy, or under one that contains it, whose
        principals then view the session.

        Raises Refused for the bytes, the code, the world or the hierarchy, by 903 where the hierarchy does not contain the module's, and by
        901 where 64 sessions are open.
        """
        module = bytes(module)
        texts = [module, in_bytes(world)] + ([] if hierarchy is None else [in_bytes(hierarchy)])
        call = library.flowc_host_open if hierarchy is None else library.flowc_host_open_under
        answer, place = self._ask(call, words_of(*texts), ctypes.c_char, _calls.WORDS)
        if answer.status == _calls.REFUSED:
            raise Refused(answer, place.raw[:answer.length].decode())
        return Session(self, answer.id, module if hierarchy is None else _nothing_under(texts[2]))

    def close(self) -> None:
        """Closes all sessions and gives the host back. Each later call raises NoHost, but for this one, which does nothing."""
        with self._lock:
            library.flowc_host_free(self._handle)

    def __enter__(self) -> 'Host':
        return self

    def __exit__(self, kind: Optional[Type[BaseException]], fault: Optional[BaseException], trace: Optional[TracebackType]) -> None:
        self.close()

    def __del__(self) -> None:
        if hasattr(self, '_lock'):
            self.close()

    def _ask(self, function: Callable, given: list, kind, guess: int) -> Tuple[Answer, ctypes.Array]:
        with self._lock:
            return _calls.ask(function, [self._handle] + given, kind, guess)

    def _asked(self, function: Callable, given: list) -> Answer:
        """A call without a place."""
        with self._lock:
            answer = function(self._handle, *given)
        if answer.status == _calls.NO_HOST:
            raise NoHost('the host was closed')
        return _accepted(answer)

    def _turned(self, function: Callable, given: list) -> Turn:
        answer = self._asked(function, given)
        run = RUNS[answer.run]
        return Turn(answer.taken, run, answer.thrown if run == 'threw' else None)

    def _pairs(self, function: Callable, given: list) -> List[Pair]:
        answer, place = self._ask(function, given, SentPair, 64)
        return [Pair(pair.channel, pair.number) for pair in place[:_accepted(answer).length]]


def _nothing_under(hierarchy: bytes) -> bytes:
    """A module under a hierarchy: it knows the principals by their numbers there."""
    return _calls.ask_bytes(library.flowc_compile, words_of(hierarchy, b'void main() { }'), 1024 + len(hierarchy))[1]


def _accepted(answer: Answer) -> Answer:
    if answer.status == _calls.REFUSED:
        raise Refused(answer, _WORDS_OF_EVENTS.get(answer.number, 'refused'))
    return answer
