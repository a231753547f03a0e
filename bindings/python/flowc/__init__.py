"""flowc: checks, compiles, explains and lists programs whose types say who may read each datum, and runs their modules in a host.

    import flowc
    module = flowc.compile(hierarchy, source)
    with flowc.Host() as host:
        session = host.open(module, world)
        session.turn(10000)
        print(session.view('Alice'))

The library is looked for as the environment variable FLOWC_LIBRARY says, then as lib/libflowc.so beside the folder of this package, then
as the system finds it.
"""
from typing import List, NamedTuple

from . import _calls
from ._calls import NoHost, Refused, Text, in_bytes, library, words_of
from ._hosts import Host, Pair, Session, Turn, principal

__all__ = ['Channel', 'Host', 'NoHost', 'Pair', 'Refused', 'Session', 'Text', 'Turn', 'channels', 'check', 'compile', 'explain', 'listing',
           'principal', 'version']


class Channel(NamedTuple):
    """A channel of a module: 'input' or 'output', its name, and its label."""
    direction: str
    name: str
    label: str


def version() -> str:
    """The version of the library."""
    return _calls.ask_bytes(library.flowc_version, [], _calls.WORDS)[1].decode()


def check(hierarchy: Text, source: Text) -> None:
    """Checks a source under a hierarchy. Raises Refused with their first fault."""
    outcome, words = _calls.ask_bytes(library.flowc_check, words_of(in_bytes(hierarchy), in_bytes(source)), _calls.WORDS)
    if outcome.status == _calls.REFUSED:
        raise Refused(outcome, words.decode())


def compile(hierarchy: Text, source: Text) -> bytes:
    """The bytes of the module of a source under a hierarchy. Raises Refused with their first fault."""
    source = in_bytes(source)
    outcome, result = _calls.ask_bytes(library.flowc_compile, words_of(in_bytes(hierarchy), source), 1024 + len(source))
    if outcome.status == _calls.REFUSED:
        raise Refused(outcome, result.decode())
    return result


def explain(hierarchy: Text, source: Text) -> str:
    """A line for each local that is written without a label, with its least label. Raises Refused, with the chain of a refused flow."""
    given = words_of(in_bytes(hierarchy), in_bytes(source))
    outcome, result = _calls.ask_bytes(library.flowc_explain, given, 1024)
    if outcome.status == _calls.REFUSED:
        _, words = _calls.ask_bytes(library.flowc_check, given, _calls.WORDS)
        raise Refused(outcome, words.decode(), result.decode())
    return result.decode()


def listing(module: bytes) -> str:
    """The channels and the code of a module. Raises Refused where the bytes spell no module, or one that is refused."""
    outcome, result = _calls.ask_bytes(library.flowc_list, words_of(bytes(module)), 4096)
    if outcome.status == _calls.REFUSED:
        raise Refused(outcome, result.decode())
    return result.decode()


def channels(module: bytes) -> List[Channel]:
    """The channels of a module, in the order of their numbers. Raises Refused as `listing` does."""
    lines = [line.split(' ', 2) for line in listing(module).splitlines()]
    return [Channel(*words) for words in lines if words[0] in ('input', 'output')]


__version__ = version()
