"""A host with the modules of two parties: runs them by turns, and prints what each principal sees. Run it at the top of the repository."""
import flowc


def read(name: str, file: str) -> bytes:
    with open('examples/%s/%s' % (name, file), 'rb') as opened:
        return opened.read()


def compiled(name: str) -> bytes:
    return flowc.compile(read(name, 'hierarchy.txt'), read(name, name + '.flow'))


def print_view(name: str, module: bytes, session: flowc.Session, principal: str) -> None:
    channels = flowc.channels(module)
    pairs = ['%s %d' % (channels[pair.channel].name, pair.number) for pair in session.view(principal)]
    print('%s: %s sees %s' % (name, principal, ' '.join(pairs)))


payroll, survey = compiled('payroll'), compiled('survey')
with flowc.Host() as host:
    first = host.open(payroll, read('payroll', 'november.txt'))
    second = host.open(survey, read('survey', 'spring.txt'))
    while 'running' in (first.turn(5).run, second.turn(5).run):
        pass
    print('payroll: %s\nsurvey: %s' % (first.status().run, second.status().run))
    print_view('payroll', payroll, first, 'Office')
    print_view('payroll', payroll, first, 'Staff')
    print_view('survey', survey, second, 'Institute')
    print_view('survey', survey, second, 'Ann')
    try:
        host.open(b'no module', '')
    except flowc.Refused as refused:
        print("a stranger's bytes: %s" % refused)
