"""`python -m flowc check|build|explain|list ..`, which says what the program says, with its statuses."""
import sys

import flowc

USAGE = 'usage: python -m flowc check HIER SRC | build HIER SRC OUT | explain HIER SRC | list MODULE'


def read(path: str) -> bytes:
    with open(path, 'rb') as file:
        return file.read()


def perform(task: str, paths: 'list[str]') -> None:
    texts = [read(path) for path in (paths[:2] if task == 'build' else paths)]
    if task == 'check':
        flowc.check(*texts)
        print('ok')
    elif task == 'build':
        code = flowc.compile(*texts)
        with open(paths[2], 'wb') as file:
            file.write(code)
    elif task == 'explain':
        print(flowc.explain(*texts), end='')
    else:
        print(flowc.listing(*texts), end='')


def main(words: 'list[str]') -> int:
    needs = {'check': 2, 'build': 3, 'explain': 2, 'list': 1}
    if not words or needs.get(words[0]) != len(words) - 1:
        print(USAGE, file=sys.stderr)
        return 2
    task, paths = words[0], words[1:]
    try:
        perform(task, paths)
        return 0
    except flowc.Refused as refused:
        if refused.chain:
            print(refused.chain, end='')
        path = paths[1] if refused.text == 'source' else paths[0]
        print('%s:%s: %d %s' % (path, refused.where, refused.number, refused.words), file=sys.stderr)
        return 1
    except (OSError, MemoryError) as fault:
        print(fault, file=sys.stderr)
        return 3


if __name__ == '__main__':
    sys.exit(main(sys.argv[1:]))
