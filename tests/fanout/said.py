"""Rows about what is said: the report, the line a second, and what is refused."""
import csv
import json
import os
import re
import subprocess

from common import SECONDS, driver, expect, feed, fill, moody, read_until

NAMES = ['quo"te', 'back\\slash', 'line\nfeed', 'escape\x1b[31m', 'control\x9b', 'tab\t', 'ümlaut, space']
SHOWN = ['quo"te', 'back\\slash', 'line\\nfeed', 'escape\\x1b[31m', 'control\\u{9b}', 'tab\\t', 'ümlaut, space']


def progress():
    """--progress writes a line a second, whatever the report is: the buffer of a sink that is stuck is full, and the other goes on."""
    reader = driver.pipe('slack')
    fill('slack')
    process = driver.start('copy', '--lossy', 'slack', '--linger', '0', '--progress', '--cap', '4')
    fed, said, lines = 0, b'', []
    # A line comes each second: up to one that tells that all was taken by the sink that is read, and before it another one.
    for _ in range(SECONDS):
        if len(lines) >= 2 and lines_in(lines) >= fed and lines[-1][2:] == (b'0', b'4'):
            break
        if lines_in(lines) == fed and (not lines or lines[-1][3] != b'4'):
            # Of what came before the thread of the stuck sink ran it has got no more than a buffer has, which it has taken since.
            process.stdin.write(b'a line of some length\n' * 20000)
            process.stdin.flush()
            fed += 20000
        said += read_until(process.stderr.fileno(), lambda said: said.endswith(b'\n'))
        lines = re.findall(rb'(?m)^fanout: (\d+) lines/s, (\d+) bytes/s; copy (\d+)/4; slack (\d+)/4$', said)
    process.stdin.close()
    run = driver.end(process)
    os.close(reader)
    expect('progress', 'whether two lines are in %r' % said, len(lines) >= 2, True)
    expect('progress', 'the lines', lines_in(lines), fed)
    expect('progress', 'the bytes', sum(int(line[1]) for line in lines), 22 * fed)
    expect('progress', 'the last line', lines[-1][2:], (b'0', b'4'))
    expect('progress', 'what is reported', (run.sink('copy')['lines'], run.sink('slack')['end']), (fed, 'not ended'))


def lines_in(told):
    """How many lines were published in all the seconds of which this is told."""
    return sum(int(second[0]) for second in told)


def wrong_words():
    """What is refused on the command line, and that nothing is written then."""
    for words in ([], ['--grep', 'x'], ['a', '--grep', 'x'], ['--cap', '0', 'a'], ['--workers', '9', 'a'],
                  ['--report', 'xml', 'a'], ['--none'], ['--from'], ['--cap', '65537', 'a'],
                  ['s%d' % n for n in range(65)], ['a'] + [word for n in range(65) for word in ('--from', 's%d' % n)]):
        process = subprocess.run([driver.program, *words], cwd=driver.folder, input=b'', capture_output=True, timeout=SECONDS)
        expect('wrong words %r' % words[:3], 'the status', process.returncode, 2)
        expect('wrong words %r' % words[:3], 'whether it is said', process.stderr != b'', True)
    help_of = subprocess.run([driver.program, '--help'], cwd=driver.folder, input=b'', capture_output=True, timeout=SECONDS)
    expect('help', 'the status', help_of.returncode, 0)
    expect('help', 'the examples', help_of.stdout.count(b'fanout') >= 3, True)


def formats():
    """The report as text and as CSV."""
    for form, wanted in (
            ('text', b'fanout: source -: 2 lines, 3 bytes, complete\n'
                     b'fanout: sink copy: 2 lines, 3 bytes, 0 left out, 0 lost, backlog N, complete\n'),
            ('csv', b'kind,name,lines,bytes,left_out,lost,backlog,end\nsource,"-",2,3,,,,complete\n'
                    b'sink,"copy",2,3,0,0,N,complete\n'),
            ('none', b'')):
        process = subprocess.run([driver.program, 'copy', '--report', form], cwd=driver.folder, input=b'a\nb',
                                 capture_output=True, timeout=SECONDS)
        said = process.stderr
        for number in range(10):
            said = said.replace(b'backlog %d' % number, b'backlog N').replace(b'0,0,%d,' % number, b'0,0,N,')
        expect('formats', form, said, wanted)


def names():
    """A name with a quotation mark, a backslash or a control character is whole in JSON and in CSV, and forges no line of text."""
    status, _, said = driver.plain(b'line\n', *NAMES, '--report', 'json')
    expect('names', 'the status', status, 0)
    expect('names', 'JSON', [row['name'] for row in json.loads(said)['sinks']], NAMES)
    for name in NAMES:
        expect('names', 'the file %r' % name, driver.read(name), b'line\n')
    _, _, said = driver.plain(b'line\n', *NAMES, '--report', 'csv')
    rows = list(csv.reader(said.decode().splitlines(keepends=True), strict=True))
    expect('names', 'CSV', [row[1] for row in rows], ['name', '-', *NAMES])
    expect('names', 'the columns of CSV', {len(row) for row in rows}, {8})
    _, _, said = driver.plain(b'line\n', *NAMES)
    wanted = ['fanout: source -: 1 lines, 5 bytes, complete']
    wanted += ['fanout: sink %s: 1 lines, 5 bytes, 0 left out, 0 lost, backlog N, complete' % name for name in SHOWN]
    expect('names', 'text', re.sub('backlog [01]', 'backlog N', said.decode()).splitlines(), wanted)
    name = 'no\nfolder/\x1b'
    status, _, said = driver.plain(b'', name, '--report', 'none')
    expect('names', 'what fails', said, b'fanout: no\\nfolder/\\x1b: No such file or directory\n')
    status, _, said = driver.plain(b'', name, name)
    expect('names', 'what is named twice', said, b'fanout: no\\nfolder/\\x1b and no\\nfolder/\\x1b are the same file\n')


def any_bytes():
    """TEXT may have any bytes, whether these are UTF-8 or not; a FILE whose name is no UTF-8 fails by itself."""
    data = b'a\xffb\nab\n\xc3\xbc\n'
    words = [b'--grep', b'\xff', b'with', b'--not', b'\xff', b'without', b'--grep', b'\xc3\xbc', b'\xc3\xbc', b'-', b'no\xff']
    status, output, said = driver.plain(data, *words, b'--report', b'json')
    expect('any bytes', 'the status', status, 3)
    expect('any bytes', 'the output', output, data)
    for name, wanted in (('with', b'a\xffb\n'), ('without', b'ab\n\xc3\xbc\n'), ('ü', b'\xc3\xbc\n')):
        expect('any bytes', 'the file %r' % name, driver.read(name), wanted)
    first, report = said.split(b'\n', 1)
    expect('any bytes', 'what is said', first, b'fanout: no\\xff: invalid filename')
    expect('any bytes', 'JSON', [row['name'] for row in json.loads(report)['sinks']], ['with', 'without', 'ü', '-', 'no\ufffd'])
    _, _, said = driver.plain(data, b'no\xff', b'with')
    expect('any bytes', 'text', b'fanout: sink no\\xff: 0 lines' in said, True)
    _, _, said = driver.plain(data, b'no\xff', b'with', b'--report', b'csv')
    expect('any bytes', 'CSV', 'sink,"no\ufffd",0,'.encode() in said, True)
    status, _, said = driver.plain(b'', b'--from', b'no\xff', b'copy', b'--report', b'none')
    expect('any bytes', 'a source', (status, said), (1, b'fanout: no\\xff: invalid filename\n'))


def end_words():
    """What has not ended, could not be opened and failed later has three words in each format, with those of the system."""
    reader = driver.pipe('deaf')
    fill('deaf')
    words = ['--lossy', 'deaf', 'no/folder', '/dev/full', 'copy', '--linger', '0', '--report']
    data = b'a line of some length\n' * 20000
    wanted = ['not ended', 'cannot open: No such file or directory', 'cannot write: No space left on device', 'complete']
    status, _, said = driver.plain(data, *words, 'json')
    expect('end words', 'the status', status, 3)
    expect('end words', 'JSON', [row['end'] for row in json.loads(said.splitlines()[-1])['sinks']], wanted)
    _, _, said = driver.plain(data, *words, 'csv')
    expect('end words', 'CSV', [line.rsplit(',', 1)[1] for line in said.decode().splitlines()[-4:]], wanted)
    _, _, said = driver.plain(data, *words, 'text')
    expect('end words', 'text', [line.rsplit(', ', 1)[1] for line in said.decode().splitlines()[-4:]], wanted)
    os.close(reader)
    for code, words in ((531, 'Unknown error 531'), (5, 'Input/output error')):
        env = {**os.environ, 'LD_PRELOAD': moody, 'ODD_ERROR': str(code)}
        status, _, said = driver.plain(b'line\n', '-', '--report', 'csv', env=env)
        expect('end words', 'the status of an odd error', status, 3)
        expect('end words', 'an odd error', said.decode().splitlines()[-1].rsplit(',', 1)[1], 'cannot write: ' + words)
        expect('end words', 'an odd error at once', said.decode().splitlines()[0], 'fanout: -: ' + words)


def no_report():
    """A report that can't be written is a failure."""
    with open('/dev/full', 'wb') as full:
        for form, wanted in (('text', 1), ('json', 1), ('csv', 1), ('none', 0)):
            status, _, _ = driver.plain(b'line\n', 'copy', '--report', form, stderr=full)
            expect('no report', 'the status of ' + form, status, wanted)
            expect('no report', 'the copy', driver.read('copy'), b'line\n')


def progress_names():
    """--progress tells that a sink has ended, and escapes the names."""
    process = driver.start('/dev/full', 'line\nfeed\x1b', '--progress')
    process.stdin.write(b'line\n')
    process.stdin.flush()
    said = read_until(process.stderr.fileno(), lambda said: b'ended; line' in said and said.endswith(b' 0/16\n'))
    feed(process.stdin, b'')
    process.stdin = None
    process.communicate(timeout=SECONDS)
    lines = said.splitlines()
    expect('progress names', 'what failed', lines.count(b'fanout: /dev/full: No space left on device'), 1)
    expect('progress names', 'a line', bool(re.fullmatch(rb'fanout: \d+ lines/s, \d+ bytes/s; /dev/full ended; line\\nfeed\\x1b 0/16', lines[-1])), True)
