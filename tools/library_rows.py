"""Rows of crates/rows/data, answered by the library through Python. crates/rows/data/README.md says how rows are written."""
import os

CHANGES = {'text', 'like', 'file', '|', '+', '&', '*', '%', 'at', 'cut', 'swap'}
TEXTS = {'check': 2, 'build': 3, 'explain': 2, 'list': 1, 'run': 2}
MOST_STEPS = 10 ** 12  # of the program's words
RUNS = {'finished': 0, 'threw': 4, 'deep': 5, 'running': 6}


class Texts(dict):
    """The texts of a file of rows."""

    def __init__(self, folder):
        super().__init__()
        self.folder = folder

    def change(self, line):
        word, _, rest = line.partition(' ')
        if word == 'text':
            self.newest = rest
            self[rest] = b''
        elif word == 'like':
            self.newest, other = rest.split(' ')
            self[self.newest] = self[other]
        elif word == 'file':
            self.newest, path = rest.split(' ')
            with open(os.path.join(self.folder, path), 'rb') as file:
                self[self.newest] = file.read()
        else:
            self[self.newest] = self.changed(self[self.newest], word, rest)

    def changed(self, text, word, rest):
        if word == '|':
            return text + rest.encode() + b'\n'
        if word == '+':
            return text + rest.encode()
        if word == '&':
            name, *ends = rest.split(' ')
            return text + (self[name][int(ends[0]):int(ends[1])] if ends else self[name])
        if word == '*':
            times, _, piece = rest.partition(' ')
            return text + int(times) * piece.encode()
        if word == '%':
            return text + bytes.fromhex(rest)
        if word == 'at':
            offset, _, digits = rest.partition(' ')
            put = bytes.fromhex(digits)
            return text[:int(offset)] + put + text[int(offset) + len(put):]
        if word == 'cut':
            return text[:int(rest)]
        old, _, new = rest.partition(' =>')
        return text.replace(old.encode(), new[1:].encode())


def lines_of(sign, text):
    return [sign + ' ' + line if line else sign for line in text.split('\n')[:-1]]


def exceptions(module):
    """The names of the exceptions of a module, by number: those of the language, and then those that its bytes declare."""
    def number(at):
        return int.from_bytes(module[at:at + 4], 'big'), at + 4

    def names(at):
        found = []
        count, at = number(at)
        for _ in range(count):
            length, at = number(at)
            found.append(module[at:at + length].decode())
            at += length
        return found, at
    _, at = names(8)
    pairs, at = number(at)
    return ['Arith', 'Bounds', 'End'] + names(at + 8 * pairs)[0]


class Answers:
    """What the library answers rows with, as their answers are written. None stands for what it has no call for."""

    def __init__(self, flowc, texts):
        self.flowc, self.texts, self.host = flowc, texts, flowc.Host()

    def answer(self, words):
        if words[0] == 'flowc':
            return self.command(words[1:])
        return self.event(words[1:]) if words[0] == 'host' else None

    def command(self, words):
        task = (words or [''])[0]
        count = TEXTS.get(task, 0)
        names, rest = words[1:count + 1], words[count + 1:]
        if not count or len(names) < count or any(name not in self.texts for name in names[:2]) or (rest and task != 'run'):
            return None
        try:
            return self.run(names, rest) if task == 'run' else ['= 0'] + lines_of('>', self.done(task, names))
        except self.flowc.Refused as refused:
            return ['= 1'] + lines_of('>', refused.chain or '') + [self.fault(refused, names, rest)]

    def fault(self, refused, names, rest):
        """The line of a fault, with the name of the text that it is in."""
        name, where = names[1] if refused.text in ('source', 'world') else names[0], refused.where
        if '--under' in rest and (refused.text == 'hierarchy' or refused.number == 903):
            name, where = rest[rest.index('--under') + 1], where or '1:1'
        return '! %s:%s: %d %s' % (name, where, refused.number, refused.words)

    def done(self, task, names):
        given = [self.texts[name] for name in names[:2]]
        if task == 'check':
            self.flowc.check(*given)
            return 'ok\n'
        if task == 'build':
            self.texts[names[2]] = self.flowc.compile(*given)
            return ''
        return self.flowc.explain(*given) if task == 'explain' else self.flowc.listing(*given)

    def run(self, names, rest):
        """A run by a session: what it sent, or what an observer sees of that, and how it ended."""
        flags = dict(zip(rest[::2], rest[1::2]))
        steps = flags.get('--steps', '1000000')
        if len(rest) != 2 * len(flags) or set(flags) - {'--observer', '--steps', '--under'}:
            return None
        if not steps.isdigit() or int(steps) > MOST_STEPS:
            return None
        module, observer, under = self.texts[names[0]], flags.get('--observer'), flags.get('--under')
        if under is not None and under not in self.texts:
            return None
        hierarchy = None if under is None else self.texts[under]
        with self.flowc.Host() as host:
            session = host.open(module, self.texts[names[1]], hierarchy)
            named = module if under is None else self.flowc.compile(hierarchy, 'void main() { }')
            if observer is not None and self.flowc.principal(named, observer) is None:
                return ['= 1', '! %s: 153 unknown principal' % observer]
            turn = session.turn(int(steps))
            channels = self.flowc.channels(module)
            pairs = session.sent() if observer is None else session.view(observer)
        shown = ['> %s %d' % (channels[pair.channel].name, pair.number) for pair in pairs]
        if observer is not None:
            return ['= 0'] + shown
        end = 'threw %s' % exceptions(module)[turn.thrown] if turn.run == 'threw' else turn.run
        return ['= %d' % RUNS[turn.run]] + shown + ['! ' + end]

    def event(self, words):
        """An event of a host. A list of events has no call, nor has a world that was read for another module."""
        if words == ['new']:
            self.host.close()
            self.host = self.flowc.Host()
            return ['= new']
        if words[0] == 'many':
            for _ in range(int(words[1])):
                answered = self.event(words[2:])
            return answered
        if words[0] == 'run' or len(words) > {'open': 3, 'open_under': 4}.get(words[0], 3):
            return None
        try:
            return self.asked(words[0], words[1:])
        except self.flowc.Refused as refused:
            place = refused.where + ': ' if refused.where and refused.number != 903 else ''
            return ['= refused', '! %s%d %s' % (place, refused.number, refused.words)]

    def asked(self, event, words):
        if event in ('open', 'open_under'):
            return ['= opened %d' % self.host.open(*[self.texts[name] for name in words]).id]
        session = self.flowc.Session(self.host, int(words[0]), b'')
        if event == 'close':
            session.close()
            return ['= closed']
        if event == 'view':
            pairs = session.view(int(words[1]))
            return ['= viewed %d' % len(pairs)] + ['> %d %d' % pair for pair in pairs]
        turn = session.turn(int(words[1]))
        run = 'threw %d' % turn.thrown if turn.run == 'threw' else turn.run.replace('out of', 'no')
        return ['= %d %s' % (turn.taken, run)]


def rows(flowc, folder, name):
    """Gives for each row of a file its line, what the library answers, and what is wanted; leaves out what it has no call for."""
    texts = Texts(folder)
    answers, row, wanted = Answers(flowc, texts), None, []
    with open(os.path.join(folder, name), encoding='utf-8') as file:
        lines = file.read().split('\n') + ['# end']
    for number, line in enumerate(lines, 1):
        head = line.split(' ')[0]
        if head in ('=', '>', '!', '\\'):
            wanted.append(line)
            continue
        if row and line:
            answered = answers.answer(row[1])
            if answered is not None:
                yield row[0], answered, wanted
            row = None
        if head in ('flowc', 'host'):
            row, wanted = (number, line.split(' ')), []
        elif head in CHANGES:
            texts.change(line)
