"""Judges a run of fanout by what docs/FANOUT.md says, from the files, the report and the status."""
import json

REASONS = {
    'missing': 'No such file or directory',
    'folder': 'Is a directory',
    'full': 'No space left on device',
}
# The most bytes that one write of a sink has.
LAST_WRITE = 16384


def split(data):
    parts = data.split(b'\n')
    return [part + b'\n' for part in parts[:-1]] + ([parts[-1]] if parts[-1] else [])


def owner(line):
    """The number of the source that a line is of."""
    return int(line.split(b':', 1)[0])


def judge(plan, done):
    """What is wrong with a run."""
    if done.status is None:
        return ['it does not end']
    if done.status not in (0, 1, 3):
        return ['the status is %d, and said is %r' % (done.status, done.said[-300:])]
    wrong = []
    said = done.said.decode().splitlines()
    report = json.loads(said[-1])
    wrong += judge_report(plan, report, said[:-1])
    status = status_of(report)
    if done.status != status:
        wrong.append('the status is %d, and not %d' % (done.status, status))
    published = [published_by(plan, source, row, len(plan.sources) > 1) for source, row in zip(plan.sources, report['sources'])]
    for source, row, lines in zip(plan.sources, report['sources'], published):
        wrong += judge_source(plan, source, row, lines)
    total = sum(row['lines'] for row in report['sources'])
    for sink, row in zip(plan.sinks, report['sinks']):
        if row['lines'] + row['left_out'] + row['lost'] != total:
            wrong.append('the sum of %s is not %d: %r' % (sink.name, total, row))
        if row['backlog'] > buffer_of(plan) + 16:
            wrong.append('the backlog of %s is %d' % (sink.name, row['backlog']))
        found = done.found[sink.name]
        if sink.kind == 'file' and plan.preset:
            if not found.startswith(plan.preset):
                wrong.append('%s has lost what it had' % sink.name)
            found = found[len(plan.preset):]
        wrong += ['%s: %s' % (sink.name, text) for text in judge_sink(plan, sink, row, found, published, report)]
    return wrong + judge_order(plan, done, report)


def buffer_of(plan):
    """How many texts wait in a sink's buffer, at most: a power of two."""
    size = 1
    while size < (plan.cap or 16):
        size *= 2
    return size


def status_of(report):
    """The status that the ends in a report give."""
    if any(row['end'] not in ('complete', 'no sink was left', 'not ended') for row in report['sources']):
        return 1
    return 3 if any(row['end'] != 'complete' for row in report['sinks']) else 0


def judge_report(plan, report, said):
    """The names, in their order, and what was said at once of those that failed."""
    wrong = []
    for kind, planned in (('sources', plan.sources), ('sinks', plan.sinks)):
        names = [row['name'] for row in report[kind]]
        if names != [one.name for one in planned]:
            wrong.append('the %s are %r' % (kind, names))
    wanted = []
    for row in report['sources'] + report['sinks']:
        if row['end'].startswith('cannot'):
            wanted.append('fanout: %s: %s' % (row['name'], row['end'].split(': ', 1)[1]))
    wanted += ['fanout: %s: given up' % row['name'] for row in report['sinks'] if row['end'] == 'not ended']
    if sorted(said) != sorted(wanted):
        wrong.append('it said %r, and not %r' % (said, wanted))
    return wrong


def published_by(plan, source, row, is_one_of_several):
    """The lines that a source publishes if it comes to its end: the last of one of several has a line feed."""
    lines = split(source.data)
    if plan.read_fails is not None and source.kind == 'input':
        lines = [line for line in split(source.data[:plan.read_fails]) if line.endswith(b'\n')]
    elif is_one_of_several and lines and not lines[-1].endswith(b'\n'):
        lines[-1] += b'\n'
    return lines


def judge_source(plan, source, row, lines):
    """A source was published up to its end, or says why not."""
    end = row['end']
    if end in ('no sink was left', 'not ended'):
        return []
    if source.kind in REASONS:
        wanted = ('cannot open: ' if source.kind == 'missing' else 'cannot read: ') + REASONS[source.kind]
        return [] if (end, row['lines'], row['bytes']) == (wanted, 0, 0) else ['%s has %r' % (source.name, row)]
    if plan.read_fails is not None and source.kind == 'input':
        return [] if end == 'cannot read: Input/output error' and len(lines) <= row['lines'] <= len(lines) + 1 else ['%s has %r' % (source.name, row)]
    if (end, row['lines'], row['bytes']) != ('complete', len(lines), sum(len(line) for line in lines)):
        return ['%s has %r, and %d lines' % (source.name, row, len(lines))]
    return []


def judge_end(plan, sink, row, wanted_bytes):
    """How a sink may have ended."""
    allowed = {'complete'}
    if sink.kind == 'missing':
        allowed = {'cannot open: No such file or directory'}
    elif sink.kind == 'full':
        allowed = {'cannot write: No space left on device'} if wanted_bytes and not sink.is_lossy else {'complete', 'cannot write: No space left on device'}
    elif sink.kind == 'leaves':
        allowed.add('cannot write: Broken pipe')
    elif sink.kind == 'file' and plan.limit and wanted_bytes and len(plan.preset) + wanted_bytes > plan.limit:
        allowed = {'cannot write: File too large'} | (allowed if sink.is_lossy else set())
    if sink.is_lossy and sink.kind != 'missing':
        # On busy processors a file may be given up, too, if it is not waited for.
        allowed.add('not ended')
    return [] if row['end'] in allowed else ['it ended so: %r' % row['end']]


def is_in_order(part, whole):
    """Whether some lines are of these, in their order."""
    rest = iter(whole)
    return all(line in rest for line in part)


def judge_sink(plan, sink, row, found, published, report):
    """What a sink has written is of the lines that pass, and what it tells is what its file has."""
    wanted = [[line for line in lines if sink.passes(line)] for lines in published]
    # A source that has failed in a line may have left a part of it.
    has_failed_source = plan.read_fails is not None
    was_stopped = any(row['end'] in ('no sink was left', 'not ended') for row in report['sources'])
    wrong = []
    if not was_stopped and not has_failed_source:
        wrong += judge_end(plan, sink, row, sum(len(line) for lines in wanted for line in lines))
    is_complete = row['end'] == 'complete'
    lines = split(found)
    tail = lines.pop() if lines and not lines[-1].endswith(b'\n') else b''
    if sink.kind != 'leaves' or (not is_complete and row['bytes'] == len(found)):
        if sink.kind in ('file', 'pipe', 'output', 'deaf'):
            is_last = bool(tail) and is_complete and not has_failed_source
            # What the last write of one that was given up does after the report isn't counted.
            is_later = row['end'] == 'not ended' and 0 < len(found) - row['bytes'] <= LAST_WRITE
            if row['bytes'] != len(found) and not is_later:
                wrong.append('it has %d bytes, and tells %d' % (len(found), row['bytes']))
            if row['lines'] != len(lines) + is_last and not (is_later and row['lines'] < len(lines)):
                wrong.append('it has %d lines, and tells %d' % (len(lines) + is_last, row['lines']))
        if plan.limit and sink.kind == 'file' and row['end'] == 'cannot write: File too large' and len(found) + len(plan.preset) < plan.limit:
            wrong.append('it has %d bytes, and ended at its limit' % len(found))
    if sink.kind == 'leaves':
        # Its reader left in the middle of a line.
        tail = b''
    if tail and len(plan.sources) > 1 and is_complete:
        wrong.append('it ends in %r' % tail[-40:])
    if tail and len(plan.sources) == 1 and is_complete and not has_failed_source and tail != published[0][-1]:
        wrong.append('it ends in the part %r' % tail[:40])
    if is_complete and tail and not has_failed_source:
        lines.append(tail)
    for number, lines_wanted in enumerate(wanted):
        own = [line for line in lines if owner(line) == number]
        if not is_in_order(own, lines_wanted):
            wrong.append('its lines of source %d are not those that pass, in order' % number)
        elif sink.is_lossy or (was_stopped and not is_complete):
            pass
        elif is_complete and sink.kind not in ('leaves', 'full') and own != lines_wanted:
            wrong.append('it has %d lines of source %d, and not %d' % (len(own), number, len(lines_wanted)))
        elif own != lines_wanted[:len(own)]:
            wrong.append('its lines of source %d are not the first that pass' % number)
    if not sink.is_lossy and is_complete and not has_failed_source and row['lost']:
        wrong.append('it waits, and has lost %d' % row['lost'])
    if is_complete and not sink.is_lossy and not has_failed_source:
        passing = sum(len(lines_wanted) for lines_wanted in wanted)
        if row['lines'] != passing:
            wrong.append('%d lines pass, and it tells %d' % (passing, row['lines']))
    return wrong


def judge_order(plan, done, report):
    """The lines of several sources mix in the same order in all sinks."""
    whole = [done.found[sink.name][len(plan.preset) if sink.kind == 'file' else 0:] for sink, row in zip(plan.sinks, report['sinks'])
             if row['end'] == 'complete' and not sink.is_lossy and not sink.rules and sink.kind in ('file', 'pipe', 'output')]
    return [] if len(set(whole)) <= 1 else ['the order is not the same in all sinks']
