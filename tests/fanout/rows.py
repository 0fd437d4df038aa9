"""The rows of tests/fanout/rows.sh: each runs fanout and says what is wrong.

usage: rows.py PROGRAM FOLDER [ROW..]
"""
import faulthandler
import sys

import ends
import ports
import said
import slow
import taken
import texts
from common import SECONDS, wrong

rows = [texts.copies, texts.bytes_at_a_time, texts.pauses, texts.filters, texts.many_in_one, texts.edges, texts.moods, texts.long_lines,
        slow.counts_lines, ends.appends, ends.full_disk, ends.nothing_to_write, ends.reader_leaves, ends.all_fail, ends.stopped_source, ends.both_fail,
        ends.no_input, ends.last_lines, ends.two_sources, ends.many_sources, slow.stuck, slow.flat, slow.slow, slow.lingers, ends.signals,
        taken.file_limit, taken.no_space, taken.given_up, taken.lingers_alone, taken.lossy_alone, taken.said_at_once, taken.sums,
        ports.closed_streams, ports.not_blocking, ports.one_file, said.progress, said.wrong_words, said.formats, said.names, said.any_bytes,
        said.end_words, said.no_report, said.progress_names]
for row in rows:
    if len(sys.argv) < 4 or row.__name__ in sys.argv[3:]:
        # No row waits for ever, also if the program does.
        faulthandler.dump_traceback_later(4 * SECONDS, exit=True)
        row()
for text in wrong:
    print(text)
print('fanout: %d rows, %d wrong' % (len(rows), len(wrong)))
sys.exit(1 if wrong else 0)
