"""Writes the cases of crates/qmdb_rows and what they are to tell: its stdin and stdout.

    python3 make_cases.py FOLDER        # FOLDER/stdin and FOLDER/stdout

Replies are the worked rows' or this model's; those of failing calls, stores with a start or
a head, words and the limit are worked by hand and stand below.
"""

import os
import sys

sys.path.insert(0, os.path.dirname(os.path.abspath(__file__)))
sys.setrecursionlimit(10000)

import check_rows  # noqa: E402
import fuzz  # noqa: E402
import model  # noqa: E402
import qmdb  # noqa: E402

STAGE = qmdb.stage_number('remaining')
DURABLE = qmdb.stage_number('durable')
SCRIPTS = qmdb.stage_number('ordered')
DELAYED = qmdb.stage_number('delayed-merge')
# the program has no numbers of workers, which that stage has
fuzz.UNSAID.add('workers')
WORDS = 'run any unordered mmr'
ORDERED = 'run any ordered mmr'
inp, out = [], []
# what the model says of words and input over trees whose merges are delayed
DONE = {}
def section(text):
    inp.append('')
    inp.append('# ' + text)
def put(name, said, text, status, start, count, items=None, begin='case'):
    """said: lines of stdin after the first"""
    inp.append('')
    inp.append('%s %s' % (begin, name))
    inp.extend(said)
    if items is not None: inp.append('items')
    out.append('case ' + name)
    if text:
        assert text.endswith('\n')
        out.extend(text[:-1].split('\n'))
    out.append('status %d' % status)
    out.append('store %d %d' % (start, count))
    for i in items or []: out.append('item ' + i)
def lines_of(data):
    """stdin lines for these bytes"""
    said = []
    feed = data.endswith(b'\n')
    parts = data.split(b'\n')
    for p in parts[:-1]:
        try:
            t = p.decode('utf-8'); plain = '\r' not in t and all(c >= ' ' or c == '\t' for c in t)
        except UnicodeDecodeError: plain = False
        if plain: said.append('| ' + t if t else '|')
        else: said.append('hex ' + (p + b'\n').hex())
    if parts[-1]: said.append('hex ' + parts[-1].hex())
    return said
def delayed(name, data, words):
    """Puts the case of these words over trees whose merges are delayed, where a database is opened; returns whether it did."""
    if not (words.startswith('run ') and words.endswith(' mmr')): return False
    words = words[:-3] + 'mmb'
    store = model.Store()
    status, text = qmdb.run_program(words.split(' '), data, store, DELAYED)
    if b'open 1 ' not in text: return False
    DONE[words, data] = status, text.decode()
    put(name + ', delayed', ['words ' + words] + lines_of(data), text.decode(), status, store.start, len(store.items))
    return True
def twin(name, data, words, text, status, store, items=None):
    """Puts the case of these words, and before it that of the same input over trees whose merges are delayed."""
    if delayed(name, data, words): put(name, ['words ' + words], text, status, store.start, len(store.items), items, begin='again')
    else: put(name, ([] if words == WORDS else ['words ' + words if words else 'words']) + lines_of(data), text, status, store.start, len(store.items), items)
def modelled(name, data, words=WORDS, items=False, stage=STAGE):
    if isinstance(data, str): data = data.encode()
    store = model.Store()
    status, text = qmdb.run_program(words.split(' ') if words else [], data, store, stage)
    twin(name, data, words, text.decode(), status, store, [i.hex() for i in store.items] if items else None)
    return text.decode(), status, store

# ---- worked rows
section('Worked rows.')
for row in check_rows.load_rows():
    first, last = check_rows.stages_of(row)
    if first > STAGE or last < STAGE or 'initial' in row or row['store'] == 'mem' or len(row['runs']) > 1: continue
    run, = row['runs']
    if ' '.join(run['words']) != WORDS: continue
    if 'repeat' in run['input']: continue
    data = check_rows.row_input(run)
    name = row['name'].replace(' any unordered mmr', '')
    store = model.Store()
    status, text = qmdb.run_program(run['words'], data, store, STAGE)
    assert (status, text.decode()) == (run['status'], run['output'])
    twin(name, data, WORDS, run['output'], run['status'], store, [i.hex() for i in store.items] if name in ('one put', 'put and delete') else None)

section('Worked rows of ordered databases.')
for row in check_rows.load_rows():
    first, last = check_rows.stages_of(row)
    if first > STAGE or last < STAGE or 'initial' in row or row['store'] == 'mem' or len(row['runs']) > 1: continue
    run, = row['runs']
    data = check_rows.row_input(run)
    if ' '.join(run['words']) != ORDERED: continue
    t, s, _ = modelled(row['name'].replace(' any ordered mmr', ''), data, words=ORDERED)
    assert (s, t) == (run['status'], run['output'])

# ---- inputs of the tests before
section('Inputs and their replies.')
def worked(name, data, status, replies, count):
    t, s, store = modelled(name, data)
    assert (s, t, len(store.items)) == (status, replies, count), (name, s, t, len(store.items))
worked('no database', "get 61\ninfo\nops 1\nbatch\napply 1\nput 1 61 01\nmerkleize 1 prop none\n", 0,
  "refused NoDatabase\nrefused NoDatabase\nrefused NoSuchHandle 1\nrefused NoDatabase\nrefused NoDatabase\nrefused NoSuchHandle 1\nrefused NoDatabase\n", 0)
worked('no database, other lines', "root\nmeta\ndel 1 61\ntip\nmany 6b\nget 6b from=1\nproof 1\nchild 1 keep=2\ninfo 1\nroot 1\nprove 1 0 1\npins 0\n", 0,
  "refused NoDatabase\nrefused NoDatabase\nrefused NoSuchHandle 1\nrefused NoDatabase\nrefused NoDatabase\nrefused NoDatabase\nrefused NoDatabase\nrefused NoSuchHandle 1\nrefused NoSuchHandle 1\nrefused NoSuchHandle 1\nrefused NoDatabase\nrefused NoDatabase\n", 0)
worked('one key, and then none', "open\nbatch\nput 1 6b 76\nmerkleize 1 prop none\napply 1\nbatch\ndel 2 6b\nmerkleize 2 prop none\nops 2\napply 2\nget 6b\ninfo\n", 0,
  "open 1 0 1\nbatch 1\nok\nmerkleized 1 1 4 2\napplied 4\nbatch 2\nok\nmerkleized 2 4 6 5\nops 4 D:6b C:none@5\napplied 6\nread none\ninfo 0 6 5 5 empty\n", 6)
worked('metadata, and the root after each list', "open\nmeta\nroot\nbatch\ndel 1 6b\nmerkleize 1 prop AAbb\nops 1\nmeta\napply 1\nmeta\nbatch\nmerkleize 2 prop -\napply 2\nmeta\nroot\ndel 2 6b\n", 0,
  "open 1 0 1\nmeta none\nroot 8ed63975392a90390c0a9fc1e4a522d28a7e99c0b62ef9e3bb2c3da3964a77f5 8ed63975392a90390c0a9fc1e4a522d28a7e99c0b62ef9e3bb2c3da3964a77f5\nbatch 1\nok\nmerkleized 1 1 2 1\nops 1 C:aabb@1\nmeta none\napplied 2\nmeta aabb\nbatch 2\nmerkleized 2 2 3 2\napplied 3\nmeta -\nroot 31074da561e7e89f41b13c5bad13d7ae7f60ad8d966a3487e8d1dcbafe2c6ea0 31074da561e7e89f41b13c5bad13d7ae7f60ad8d966a3487e8d1dcbafe2c6ea0\nrefused NoSuchHandle 2\n", 3)
worked('a stale batch of the size of the list', "open\nbatch\nbatch\nput 1 61 01\nput 2 61 02\nmerkleize 1 prop none\nmerkleize 2 prop none\napply 1\napply 2\nget 61\n", 0,
  "open 1 0 1\nbatch 1\nbatch 2\nok\nok\nmerkleized 1 1 4 2\nmerkleized 2 1 4 2\napplied 4\nrefused StaleBatch\nread 01\n", 4)
worked('proofs and pins, and a bad line', "open\nbatch\nput 1 6b 76\nmerkleize 1 prop none\napply 1\nprove 4 1 2\npins 4\nprove 4 0 0\n", 2,
  "open 1 0 1\nbatch 1\nok\nmerkleized 1 1 4 2\napplied 4\nproof 4 0 6e290ec1b71d702d95e7193ca20dc9da03b9bcdc2645c140bddcd6d81480bb3a 8843d42fc32ad0efbba7c0f8559d761ce243a6023f95981b717d52c5a70055db / U:6b=76 U:6b=76\npins cbb112f8deafdd1075d117a89941c39dd819d40a0e76f2e0ee154a2d1053dcb6\nbad line 8\n", 4)
worked('reads through batches', "open\nbatch\nput 1 61 01\nbatch\nput 2 61 02\nmerkleize 1 prop none\nmerkleize 2 prop none\nget 61 from=2\napply 1\napply 2\nget 61 from=2\nget 61 from=1\nmany 61 62 from=1\nmany 62 61\n", 0,
  "open 1 0 1\nbatch 1\nok\nbatch 2\nok\nmerkleized 1 1 4 2\nmerkleized 2 1 4 2\nread 02\napplied 4\nrefused StaleBatch\nrefused StaleRead\nread 01\nread 01 none\nread none 01\n", 4)
worked('a child in one step with its parent, and the database as a batch', "open\nbatch\nput 1 61 01\nmerkleize 1 prop none\nchild 1\nput 2 62 02\nget 61 from=2\nmany 62 61 63 from=2\nmerkleize 2 prop none\nops 2\napply 2\napply 1\ntip\nops 3\napply 3\ninfo 2\nget 62 from=1\nget 62 from=3\n", 0,
  "open 1 0 1\nbatch 1\nok\nmerkleized 1 1 4 2\nbatch 2\nok\nread 01\nread 02 01 none\nmerkleized 2 4 7 3\nops 4 U:62=02 U:61=01 C:none@3\napplied 7\nrefused StaleBatch\nbatch 3\nops 7\napplied 7\ninfo 4 7 3 3\nrefused StaleRead\nread 02\n", 7)
worked('a child that keeps its parent alone', "open\nbatch\nput 1 61 01\nmerkleize 1 prop none\nchild 1\nput 2 62 02\nmerkleize 2 prop none\nchild 2 keep=0\nget 62 from=3\nmerkleize 3 prop none\nput 3 63 03\napply 1\nchild 2 keep=0\nput 4 63 03\nmerkleize 4 prop none\napply 4\n", 0,
  "open 1 0 1\nbatch 1\nok\nmerkleized 1 1 4 2\nbatch 2\nok\nmerkleized 2 4 7 3\nbatch 3\nread 02\nrefused StaleBatch\nrefused NoSuchHandle 3\napplied 4\nbatch 4\nok\nmerkleized 4 7 10 5\napplied 10\n", 10)
DIGEST_0 = '6e290ec1b71d702d95e7193ca20dc9da03b9bcdc2645c140bddcd6d81480bb3a'
DIGEST_3 = 'cbb112f8deafdd1075d117a89941c39dd819d40a0e76f2e0ee154a2d1053dcb6'
ROOT_4 = '183c19a0b6f42584bf2d68552da389bc980511207befe92fc296ae89c8aa6d14'
ROOT_7 = '980ea5716c66fd1574182b934e2ac2077948dd397a6d677ce73d4ef20dc2e853'
worked('proofs, numbers and roots of batches', "open\nbatch\nput 1 6b 76\nchild 1\nproof 1\nmerkleize 1 prop none\nproof 1\nroot 1\nproof 2\ninfo 1\nchild 1\nput 2 6c 77\nmerkleize 2 prop none\nproof 2\ninfo 2\napply 1\nproof 2\napply 2\nproof 1\nroot\nroot 2\ninfo 9\nroot 0\n", 0,
  f"open 1 0 1\nbatch 1\nok\nrefused NoSuchHandle 1\nrefused NoSuchHandle 1\nmerkleized 1 1 4 2\nproof 4 0 {DIGEST_0} / {DIGEST_0}\nroot {ROOT_4} {ROOT_4}\nrefused NoSuchHandle 2\ninfo 1 4 2 2\nbatch 2\nok\nmerkleized 2 4 7 3\nproof 7 0 {DIGEST_3} / {DIGEST_3}\ninfo 4 7 3 3\napplied 4\nproof 7 0 {DIGEST_3} / {DIGEST_3}\napplied 7\nrefused StaleRead\nroot {ROOT_7} {ROOT_7}\nroot {ROOT_7} {ROOT_7}\nrefused NoSuchHandle 9\nrefused NoSuchHandle 0\n", 7)

# ---- lines
section('Each form of a line, with no database.')
modelled('lines', ''.join(x + '\n' for x in (
 'batch', 'info', 'root', 'meta', 'tip', 'put 1 6b 76', 'put 0 00fF -', 'del 7 6B', 'merkleize 1 prop none', 'merkleize 1 prop -', 'merkleize 1 prop 0f',
 'merkleize 1 hold none', 'merkleize 1 bounded:0:18446744073709551615 none', 'merkleize 1 rule:2:9 none', 'merkleize 1 rule:2:9:drop=02 none', 'merkleize 1 rule:2:9:stop=-:swap=0A>%s none' % ('62' * 64), 'merkleize 1 rule:2:9:drop=%s:stop=02:swap=->- 0f' % ('61' * 64),
 'stage 1 6b', 'stage 0 6B 6c 6b', 'expand 1 6b', 'expand 18446744073709551615 6b 6b', 'resolve 1 prop none', 'resolve 1 hold 0f keep del put:- put:0F', 'resolve 1 rule:2:9 - 6b=none 6B=- 6c=none', 'resolve 0 prop none put:%s 00fF=0f' % ('62' * 64),
 'apply 10', 'ops 18446744073709551615', 'get 4a4A', 'get 4a from=3', 'many 4a', 'many 4a 6b 4a from=0', 'child 2', 'child 2 keep=0', 'child 2 keep=18446744073709551615',
 'next 4a', 'next 4a4A from=3', 'prev 4A', 'prev 4a from=0', 'span 4a', 'all 4a', 'range * *', 'range [4a 4b]', 'range (4a 4b)', 'keys [4A *', 'keys * 4b)',
 'info 1', 'root 1', 'proof 1', 'prove 4 0 9', 'prove 18446744073709551615 0 18446744073709551615', 'pins 0', 'prune 0', 'prune 18446744073709551615', 'held 6B', 'absent 6b6c', 'chunks 0 1', 'chunks 18446744073709551615 18446744073709551615', 'witness', 'open', 'held 6b', 'absent 6b', 'chunks 0 1', 'witness')))
modelled('keys of 32 bytes, values of 64', 'open\nbatch\nput 1 %s %s\nmerkleize 1 prop %s\nops 1\napply 1\nget %s\nmeta\n' % ('61' * 32, '62' * 64, '63' * 64, '61' * 32), items=True)
modelled('numbers past the end', 'open\nprove 18446744073709551615 0 1\nprove 4611686018427387905 0 1\nprove 4611686018427387904 0 1\nprove 1 18446744073709551615 1\nprove 1 0 18446744073709551615\npins 18446744073709551615\npins 4611686018427387905\npins 4611686018427387904\nget 61 from=18446744073709551615\nchild 18446744073709551615\n')
section('Lines that are none.')
for bad in ('', ' ', 'Open', 'open ', ' open', 'open x', 'apply', 'apply ', 'apply 01', 'apply +1', 'apply -1', 'apply 18446744073709551616', 'ops 1 2', 'evicted', 'evicted 1 2', 'evicted 01',
 'get', 'get -', 'get 6', 'get 6g', 'put  1 6b 76', 'put 1 6b', 'put 1 - 76', 'put 1 6b 767', 'put 1 6b 76 77', 'merkleize 1 prop', 'merkleize 1 prop non',
 'merkleize 1 prop none ', 'del 1', 'del 1 -', 'del 1 6b 76', 'get 4a 6b', 'get from=3', 'many', 'many from=3', 'many 4a from=3 6b', 'many 4a from=', 'many 4a from=03',
 'child 2 keep', 'child 2 keep=', 'child 2 from=1', 'tip 1', 'batch 1', 'info 1 2', 'proof', 'prove 4 0 0', 'prove 4 0', 'prove 4 0 01', 'pins', 'prune', 'prune 01', 'prune 1 2', 'held', 'held 6', 'held 61 from=1', 'absent -', 'absent 61 62', 'chunks', 'chunks 0', 'chunks 0 0', 'chunks 0 1 2', 'witness 1', 'nothing', 'next', 'next 61 62', 'next 61 from=', 'prev from=1', 'span', 'span 61 from=1', 'all', 'all 61 62', 'range', 'range *', 'range [61', 'range 61 *', 'range [61 62', 'range * [61', 'range 61] *', 'range [ *', 'range * )', 'range [61 62] 63', 'range [61] *', 'keys ** *', 'keys [6 *', 'keys [%s *' % ('61' * 33),
 'stage', 'stage 2', 'stage 2 6', 'stage 61 -', 'stage 2 61 from=1', 'expand 2', 'expand 2 61 keep', 'resolve 2 hold', 'resolve 2 hold none keep:', 'resolve 2 hold none put', 'resolve 2 hold none put:', 'resolve 2 hold none put:none',
 'resolve 2 hold none 61', 'resolve 2 hold none keep 61=', 'resolve 2 hold none 61=01=02', 'resolve 2 hold none =01', 'resolve 2 hold none 61=01 keep', 'resolve 2 hold none 61=del', 'resolve 2 hold none keep  keep',
 'get ' + '61' * 33, 'put 1 %s 76' % ('61' * 33), 'put 1 6b ' + '61' * 65, 'merkleize 1 prop ' + '61' * 65):
    t, s, _ = modelled('bad line: ' + (bad if len(bad) < 40 else bad[:20] + '.. (%d characters)' % len(bad)), bad + '\n')
    assert (t, s) == ('bad line 1\n', 2)
section('Words that are no policy.')
for bad in ('held', 'Hold', '', 'prop:', 'prop:1', 'hold:1:1', 'bounded', 'bounded:1', 'bounded:1:', 'bounded:1:2:3', 'bounded:01:2', 'bounded:1:18446744073709551616', 'rule', 'rule:1',
 'rule:1:1:', 'rule:1:1:drop', 'rule:1:1:drop=', 'rule:1:1:drop=0', 'rule:1:1:drop=02:', 'rule:1:1:drop=01:drop=02', 'rule:1:1:stop=01:drop=02', 'rule:1:1:swap=01>02:stop=03', 'rule:1:1:swap=01',
 'rule:1:1:swap=01>', 'rule:1:1:swap=>01', 'rule:1:1:swap=01>02>03', 'rule:1:1:spare', 'rule:1:1:spare=', 'rule:1:1:spare=01', 'rule:1:1:spare=-', 'rule:1:1:spare=18446744073709551616', 'rule:1:1:spare=1:', 'rule:1:1:spare=1:spare=1', 'rule:1:1:spare=1:swap=01>02', 'rule:1:1:keep=01', 'rule:1:1:drop=' + '61' * 65):
    t, s, _ = modelled('no policy: ' + (bad if len(bad) < 40 else bad[:20] + '.. (%d characters)' % len(bad)), 'merkleize 1 %s none\n' % bad)
    assert (t, s) == ('bad line 1\n', 2)
section('Bytes that are no lines of text.')
for name, data in (('a carriage return', b'open\r\n'), ('a zero byte', b'open\0\n'), ('no UTF-8', b'open\nbatch\n\xff\n'), ('a tab', b'get\t61\n')):
    t, s, _ = modelled(name, data); assert s == 2
modelled('no line feed at the end', b'open\nbatch\ninfo')
modelled('an empty line at the end', b'open\n\n')
modelled('a bad line without its line feed', b'open\ninfo\nput 1 6')

# ---- the limit
section('An input of 16,777,216 bytes, and one of a byte more.')
put('as long as may be', ['fill 16777216 78'], 'bad line 1\n', 2, 0, 0)
put('too long', ['hex 78'], '', 7, 0, 0, begin='again')
put('too long, in lines', ['fill 3355444 6f70656e0a'], '', 7, 0, 0)

# ---- other words
section('Other words.')
ONE = "open\nbatch\nput 1 6b 76\nmerkleize 1 prop none\napply 1\nops 1\nget 6b\ninfo\n"
modelled('one put, once more', ONE)
for words in ('', 'run', 'run any unordered', 'run any unordered mmr mmr', 'run any unordered mmB', 'run any ordered mmbs', 'run any Ordered mmr', 'walk any unordered mmr', 'run any unordered MMR', 'fill any unordered mmr 1 1', 'fill', 'fill 0 1', 'fill 01 1 any unordered mmr', 'fill 4294967296 1 any unordered mmr', 'fill 0 0 any unordered mmr', 'fill 0 10001 any unordered mmr', 'fill 0 any unordered mmr', 'fill 0 1 any unordered', 'fill 0 1 any unordered mmr mmr', 'fill 0 1 run any unordered mmr', '--help'):
    put('words: ' + words if words else 'no words', ['words ' + words if words else 'words'], '', 1, 0, 0, begin='again')
put('other words before a source that fails', ['words run', 'fail source 0'], '', 1, 0, 0, begin='again')

# ---- fills
FILL = qmdb.stage_number('fill')
def filled(words, said=(), begin='case', store=None, name=None):
    """what the model makes of a fill; said: lines of stdin after its words"""
    store = store or model.Store()
    status, text = qmdb.run_program(words.split(' '), b'', store, DELAYED if words.endswith(' mmb') else FILL)
    put(name or words, ['words ' + words] + list(said), text.decode(), status, store.start, len(store.items), begin=begin)
    return text.decode()
section('Fills: large runs that are computed from a number. The source is not read, whatever it has.')
for words in ('fill 0 1 any unordered mmr', 'fill 0 1 any ordered mmr', 'fill 0 1 current unordered mmr', 'fill 0 1 current ordered mmr', 'fill 4294967295 1 any unordered mmr', 'fill 7 15 current unordered mmr', 'fill 7 16 any ordered mmr', 'fill 7 17 current ordered mmr', 'fill 1 60 any unordered mmr', 'fill 123456789 60 current ordered mmr'):
    filled(words[:-3] + 'mmb')
    filled(words)
filled('fill 0 1 any unordered mmr', ['| open', '| put 1 6', 'fail source 0'], name='a fill over a source that would fail')
section('A fill whose sink fails, and whose store fails: the fault is told alone.')
put('a fill, sink call 0 fails', ['fail sink 0'], '', 4, 0, 0, begin='again')
for call, n in ((0, 0), (1, 0), (2, 1), (3, 1)):
    put('a fill, store call %d fails' % call, ['fail store %d' % call], 'store fault\n', 6, 0, n, begin='again')
put('a fill, store call 0 and sink call 0 fail', ['fail store 0', 'fail sink 0'], '', 4, 0, 0, begin='again')

# ---- calls that fail
section('Each call in turn that fails.')
PROVED = "open\nbatch\nput 1 6b 76\nmerkleize 1 prop none\napply 1\nprove 4 0 9\n"
REPLIES = "open 1 0 1\nbatch 1\nok\nmerkleized 1 1 4 2\napplied 4\nproof 4 0 / C:none@0 U:6b=76 U:6b=76 C:none@2\n"
APPLIED = "open 1 0 1\nbatch 1\nok\nmerkleized 1 1 4 2\napplied 4\n"
worked('one put, proved', PROVED, 0, REPLIES, 4)
for call in range(3):
    put('source call %d fails' % call, ['fail source %d' % call], '' if call < 2 else REPLIES, 3 if call < 2 else 0, 0, 0 if call < 2 else 4, begin='again')
for call in range(2):
    put('sink call %d fails' % call, ['fail sink %d' % call], '' if call < 1 else REPLIES, 4 if call < 1 else 0, 0, 4, begin='again')
table = ["", "", "", "open 1 0 1\nbatch 1\nok\n", "open 1 0 1\nbatch 1\nok\nmerkleized 1 1 4 2\n"] + [APPLIED] * 5
for call in range(11):
    n = 0 if call < 2 else 1 if call < 5 else 4
    if call < 10: put('store call %d fails' % call, ['fail store %d' % call], table[call] + 'store fault\n', 6, 0, n, begin='again')
    else: put('store call %d fails' % call, ['fail store %d' % call], REPLIES, 0, 0, 4, begin='again')
STEP = "open\nbatch\nput 1 6b 76\nmerkleize 1 prop none\nchild 1\nput 2 6c 77\nmerkleize 2 prop none\nget 6b from=2\napply 2\nget 6c from=1\napply 1\n"
STEPPED = "open 1 0 1\nbatch 1\nok\nmerkleized 1 1 4 2\nbatch 2\nok\nmerkleized 2 4 7 3\nread 76\napplied 7\nrefused StaleRead\nrefused StaleBatch\n"
BEFORE = "open 1 0 1\nbatch 1\nok\nmerkleized 1 1 4 2\nbatch 2\nok\nmerkleized 2 4 7 3\nread 76\nstore fault\n"
section('A batch and its child are appended at once: call 4 is the only append after that of the opening.')
worked('two batches in one step', STEP, 0, STEPPED, 7)
for call, text, n in ((0, 'store fault\n', 0), (1, 'store fault\n', 0), (2, 'store fault\n', 1), (3, 'open 1 0 1\nbatch 1\nok\nstore fault\n', 1), (4, BEFORE, 1)):
    put('one step, store call %d fails' % call, ['fail store %d' % call], text, 6, 0, n, begin='again')
put('one step, store call 5 would fail', ['fail store 5'], STEPPED, 0, 0, 7, begin='again')
section('More than one fails, and failing calls beside bad lines.')
put('a fault that the sink does not take', lines_of(PROVED.encode()) + ['fail store 3', 'fail sink 0'], '', 4, 0, 1)
put('a source that fails before the store', ['fail store 0', 'fail source 1'], '', 3, 0, 0, begin='again')
put('a bad line behind a fault', lines_of(b'open\nput 1 6\n') + ['fail store 1'], 'store fault\n', 6, 0, 0)
put('a bad line before the call that fails', lines_of(b'info\nput 1 6\nopen\n') + ['fail store 0'], 'refused NoDatabase\nbad line 2\n', 2, 0, 0)
put('a bad line that the sink does not take', ['fail sink 0'], '', 4, 0, 0, begin='again')
section('An input of two pieces: its end is the third call.')
for call in range(4):
    put('5,000 bytes, source call %d fails' % call, (['fill 5000 78'] if call == 0 else []) + ['fail source %d' % call], '' if call < 3 else 'bad line 1\n', 3 if call < 3 else 2, 0, 0, begin='case' if call == 0 else 'again')

section('Keys that are read and then written are read once more where they are merkleized, staged ones are not: call 3 appends, and then come the reads.')
HELD = 'open\nbatch\nput 1 61 01\nput 1 62 02\nmerkleize 1 hold none\napply 1\nbatch\n'
for name, rest, faults in (('keys read and written', 'get 61 from=2\nget 62 from=2\nput 2 61 03\nput 2 62 03\nmerkleize 2 hold none\n', (7, 8, 11, 11)), ('keys staged and resolved', 'stage 2 61 62\nresolve 2 hold none put:03 put:03\n', (7, 7))):
    text, status, store = modelled(name, HELD + rest)
    replies = text.splitlines(keepends=True)
    for call, count in enumerate(faults, 4):
        put('%s, store call %d fails' % (name, call), ['fail store %d' % call], ''.join(replies[:count]) + 'store fault\n', 6, 0, 4, begin='again')
    put('%s, store call %d would fail' % (name, 4 + len(faults)), ['fail store %d' % (4 + len(faults))], text, 0, 0, 4, begin='again')
section('A batch under hold reads nothing, also where its floor is a live update: call 4 appends the batch before it, and call 5 its own.')
NOTHING_MOVED = 'open\nbatch\nput 1 6b 76\nmerkleize 1 prop none\napply 1\nbatch\nput 2 6c 77\nmerkleize 2 hold none\napply 2\n'
text, status, store = modelled('nothing is moved', NOTHING_MOVED)
put('nothing is moved, store call 5 fails', ['fail store 5'], ''.join(text.splitlines(keepends=True)[:8]) + 'store fault\n', 6, 0, 4, begin='again')
put('nothing is moved, store call 6 would fail', ['fail store 6'], text, 0, 0, 6, begin='again')

# ---- stores
LASTING = 'open\ncommit\nsync\ncrash 0\nopen\ndestroy\n'
section('Commits, syncs, crashes, openings of an item, and a destroy, each call in turn that fails: those of the first opening are 0 to 2.')
lasted = ['open 1 0 1\n', 'ok\n', 'ok\n', 'ok\n', 'open 2 0 1\n', 'ok\n']
put('what lasts', lines_of(LASTING.encode()), ''.join(lasted), 0, 0, 0)
for call, replies in ((3, 1), (4, 2), (5, 3), (6, 4), (7, 4), (8, 4), (9, 4), (10, 4), (11, 4), (12, 5)):
    put('what lasts, store call %d fails' % call, ['fail store %d' % call], ''.join(lasted[:replies]) + 'store fault\n', 6, 0, 1, begin='again')
PRUNED = 'open\nbatch\nput 1 6b 76\nmerkleize 1 prop none\napply 1\nprune 3\nprune 2\ninfo\nget 6b\n'
pruned = ['open 1 0 1\nbatch 1\nok\n', 'merkleized 1 1 4 2\n', 'applied 4\nrefused PruneBeyondMinRequired 3 2\n', 'ok\ninfo 2 4 2 2 live\n', 'read 76\n']
section('A prune, each call in turn that fails: the fourth reads what a batch moves, the next one appends it, and then a commit, the prune and a read.')
put('a prune', lines_of(PRUNED.encode()), ''.join(pruned), 0, 2, 2)
for call, replies, start, count in ((3, 1, 0, 1), (4, 2, 0, 1), (5, 3, 0, 4), (6, 3, 0, 4), (7, 4, 2, 2)):
    put('a prune, store call %d fails' % call, ['fail store %d' % call], ''.join(pruned[:replies]) + 'store fault\n', 6, start, count, begin='again')
put('a prune, store call 8 would fail', ['fail store 8'], ''.join(pruned), 0, 2, 2, begin='again')
put('a pruned store for later', lines_of(PRUNED.encode()), ''.join(pruned), 0, 2, 2)
put('kept, pruned, and opened', ['keep', '| open', '| info', '| get 6b', '| prove 4 1 1', '| pins 1', '| open max=3', '| open max=4'],
    'open 1 2 4\ninfo 2 4 2 2 live\nread 76\nrefused Journal ItemPruned 1\nrefused Merkle ElementPruned 0\nrefused DataCorrupted no retained commit\nopen 2 2 4\n', 0, 2, 2)
modelled('what a batch proves over a pruned list', PRUNED + 'proof 1\ntip\nproof 2\nchild 1\nput 3 6c 77\nmerkleize 3 prop none\nproof 3\napply 3\nprune 3\nproof 3\nproof 1\npins 4\npins 3\npins 2\npins 8\nprove 7 4 9\nprove 4 0 1\nprove 3 0 1\nroot\ncrash 0\nopen\nmany 6b 6c\n')
# ---- stores
section('Stores with a start or a head.')
ASK = b'open\ninfo\nbatch\nget 61\n'
NONE = 'refused NoDatabase\n' * 3
put('a start', lines_of(ASK) + ['start 2'], 'refused DataCorrupted no retained commit\n' + NONE, 0, 2, 0)
put('the last start', ['start 4611686018427387904'], 'refused DataCorrupted no retained commit\n' + NONE, 0, 4611686018427387904, 0, begin='again')
put('a start with a head', ['start 1', 'head 07'], 'refused DataCorrupted no retained commit\n' + NONE, 0, 1, 0, begin='again')
put('a head at start 0', ['head 07'], 'refused DataCorrupted head does not match the start\n' + NONE, 0, 0, 0, begin='again')
put('a head of the length of a digest', ['head ' + '00' * 32], 'refused DataCorrupted head does not match the start\n' + NONE, 0, 0, 0, begin='again')
put('a head that can not be read', ['head 07', 'fail store 0'], 'store fault\n', 6, 0, 0, begin='again')
put('a head, opened twice', lines_of(b'open\nopen\nput 1 6') + ['head 07'], 'refused DataCorrupted head does not match the start\n' * 2 + 'bad line 3\n', 2, 0, 0)
section('Runs over one store.')
put('nothing done', [], '', 0, 0, 0)
put('kept, and opened', ['keep', '| open', '| open', '| info'], 'open 1 0 1\nopen 2 0 1\ninfo 0 1 0 0 empty\n', 0, 0, 1, items=['03000000000000000000'])
put('kept, with an item', ['keep', '| open', '| info'], 'open 1 0 1\ninfo 0 1 0 0 empty\n', 0, 0, 1, items=['03000000000000000000'])
put('kept, with other words', ['keep', 'words run', '| open'], '', 1, 0, 1)
put('an opening whose append fails', ['fail store 1 3', '| open'], 'store fault\n', 6, 0, 0)
put('kept, and fails once more', ['keep', '| open'], 'store fault\n', 6, 0, 0)
put('kept, and opened at last', ['keep', '| open', '| info'], 'open 1 0 1\ninfo 0 1 0 0 empty\n', 0, 0, 1)
SETTLED = 'open\nbatch\nput 1 6b 76\nmerkleize 1 prop none\napply 1\ncommit\nbatch\nput 2 6c 77\nmerkleize 2 prop none\napply 2\n'
SETTLED_REPLIES = 'open 1 0 1\nbatch 1\nok\nmerkleized 1 1 4 2\napplied 4\nok\nbatch 2\nok\nmerkleized 2 4 7 3\napplied 7\n'
for keep, size in ((0, 4), (5, 4), (6, 4), (7, 7), (9, 7)):
    worked('a crash that is asked to keep %d' % keep, SETTLED + 'crash %d\nopen\ninfo\n' % keep, 0, SETTLED_REPLIES + 'ok\nopen 2 0 %d\n' % size + ('info 0 7 3 3 live\n' if size == 7 else 'info 0 4 2 2 live\n'), size)
worked('a crash of what was not committed', SETTLED.replace('commit\n', '') + 'crash 3\nopen\ninfo\n', 0, SETTLED_REPLIES.replace('applied 4\nok\n', 'applied 4\n') + 'ok\nopen 2 0 1\ninfo 0 1 0 0 empty\n', 1)
worked('bounds', SETTLED + 'open max=0\ninfo\nopen max=6\napply 2\nopen max=7\nopen max=1\nopen\n', 0, SETTLED_REPLIES + 'refused InvalidInitializationBound\nrefused NoDatabase\nopen 2 0 4\napplied 7\nopen 3 0 7\nopen 4 0 1\nopen 5 0 1\n', 1)
worked('closed and destroyed', SETTLED + 'close\nget 6b\nopen\nget 6b\nsync\ndestroy\nsync\nopen\ninfo\n', 0, SETTLED_REPLIES + 'ok\nrefused NoDatabase\nopen 2 0 7\nread 76\nok\nok\nrefused NoDatabase\nopen 3 0 1\ninfo 0 1 0 0 empty\n', 1)
put('a store for later', lines_of(SETTLED.encode()), SETTLED_REPLIES, 0, 0, 7)
put('kept, and read', ['keep', '| open max=4', '| many 6b 6c'], 'open 1 0 4\nread 76 none\n', 0, 0, 4)
section('What an opening rebuilds of a list: keys that are deleted or written again, of which the first stands at the floor, and many of them.')
def batch_of(h, lines): return 'batch\n' + ''.join('%s\n' % l for l in lines) + 'merkleize %d hold none\napply %d\n' % (h, h)
for words in (WORDS, ORDERED):
    kind = 'an ordered list' if words == ORDERED else 'a list'
    begun = 'open\n' + batch_of(1, ['put 1 61 01', 'put 1 62 02', 'put 1 63 03'])
    opened = 'commit\nclose\nopen\ninfo\nroot\n'
    modelled(kind + ' with a deleted key, opened again', begun + batch_of(2, ['del 2 62']) + opened + 'many 61 62 63\n' + batch_of(3, ['put 3 62 04']) + 'ops 3\nmany 61 62 63\n', words=words)
    modelled(kind + ' of keys written twice, opened again', begun + batch_of(2, ['put 2 61 04', 'put 2 62 05']) + opened + 'many 61 62 63\nbatch\nmerkleize 3 prop none\nops 3\n' + batch_of(4, ['del 4 61', 'del 4 62', 'del 4 63']) + 'ops 4\ninfo\nmany 61 62 63\n', words=words)
    keys = ['%04x' % (7 * i) for i in range(100)]
    modelled(kind + ' of a hundred keys written twice, opened again', 'open\n' + batch_of(1, ['put 1 %s 01' % k for k in keys]) + batch_of(2, ['put 2 %s 02' % k for k in reversed(keys)]) + opened + 'many %s\n' % ' '.join(keys) + batch_of(3, ['del 3 %s' % k for k in keys[:99]]) + 'info\nmany %s\n' % ' '.join(keys), words=words)
section('Policies: three keys written under hold, then an empty batch under each of these, and what is left after it.')
HELD = 'open\nbatch\nput 1 61 01\nput 1 62 02\nput 1 63 03\nmerkleize 1 hold none\napply 1\n'
for policy in ('prop', 'hold', 'bounded:0:9', 'bounded:9:0', 'bounded:9:1', 'bounded:2:1', 'bounded:2:2', 'bounded:9:9', 'bounded:18446744073709551615:18446744073709551615',
 'rule:9:9', 'rule:9:9:drop=01', 'rule:9:9:drop=02', 'rule:9:9:drop=03', 'rule:1:9:drop=02', 'rule:0:9:drop=01', 'rule:9:9:stop=01', 'rule:9:9:stop=02', 'rule:9:9:drop=01:stop=01', 'rule:9:9:drop=01:stop=03',
 'rule:9:9:swap=01>03', 'rule:9:9:drop=03:swap=01>03', 'rule:9:9:swap=02>-', 'rule:9:9:drop=02:stop=03:swap=01>0a'):
    modelled('policy ' + policy, HELD + 'batch\nmerkleize 2 %s none\nops 2\napply 2\nmany 61 62 63\ninfo\nbatch\nput 3 62 04\nmerkleize 3 prop none\nops 3\napply 3\nmany 61 62 63\nroot\n' % policy)
for policy in ('rule:9:9:drop=01:spare=9', 'rule:9:9:drop=01:spare=8', 'rule:3:9:drop=03:spare=0', 'rule:3:9:drop=03:spare=1', 'rule:3:9:drop=02:spare=2', 'rule:9:9:spare=0', 'rule:9:9:drop=01:stop=01:spare=9', 'rule:9:9:drop=01:swap=01>03:spare=9', 'rule:9:9:drop=03:swap=01>03:spare=6', 'rule:18446744073709551615:9:drop=01:spare=18446744073709551615', 'rule:18446744073709551615:9:drop=01:spare=18446744073709551614'):
    for words in (WORDS, ORDERED):
        modelled('policy %s, %s' % (policy, words.split(' ')[2]), HELD + 'batch\nput 2 62 01\nmerkleize 2 %s none\nops 2\nevicted 2\nbatch\nput 3 62 04\nstage 3 61 63\nresolve 3 %s none put:01 del 64=03\nops 3\nevicted 3\napply 3\nmany 61 62 63 64\ninfo\nroot\n' % (policy, policy), words=words)
EVICTING = HELD + 'batch\nput 2 62 01\nevicted 2\nmerkleize 2 rule:9:9:drop=01 none\nevicted 2\nchild 2\nstage 3 61 62 63\nevicted 3\nresolve 3 rule:9:9:drop=03 none keep put:03 keep 64=03\nevicted 3\ntip\nevicted 4\nevicted 1\nevicted 9\napply 3\nevicted 3\nevicted 2\ntip\nevicted 5\nclose\nevicted 3\nevicted 5\nbatch\nopen\nevicted 2\n'
for words in (WORDS, ORDERED, 'run current unordered mmr', 'run current ordered mmr'):
    modelled('what steps evicted, ' + words[4:], EVICTING, words=words)
modelled('spared in rounds of candidates', 'open\n' + 'batch\n' + ''.join('put 1 %04x 01\n' % i for i in range(2100)) + 'merkleize 1 hold none\napply 1\n' + ''.join('batch\nmerkleize %d rule:2090:9999:drop=01:spare=%d none\nevicted %d\n' % (i + 2, n, i + 2) for i, n in enumerate((2088, 1066, 1065, 2090))) + 'child 2\nmerkleize 6 rule:2000:9999:drop=01:spare=1998 none\nevicted 6\n')
modelled('all keys dropped', HELD + 'batch\nput 2 62 01\nput 2 63 01\nmerkleize 2 rule:9:9:drop=01 none\nops 2\napply 2\ninfo\nbatch\nmerkleize 3 prop none\nops 3\n')
modelled('what an ancestor made inactive is passed', HELD + 'batch\nput 2 61 04\ndel 2 62\nmerkleize 2 hold none\nchild 2\nmerkleize 3 bounded:1:9 none\nops 3\nchild 3 keep=0\nmerkleize 4 rule:9:9:drop=04 none\napply 3\nchild 3\nmerkleize 5 rule:9:9:drop=04 none\nops 5\napply 5\nmany 61 62 63\ninfo\n')
modelled('rounds of candidates', 'open\n' + 'batch\n' + ''.join('put 1 %04x 01\n' % i for i in range(1100)) + 'merkleize 1 hold none\napply 1\nbatch\n' + ''.join('del 2 %04x\n' % i for i in range(3, 1090)) + 'merkleize 2 hold none\napply 2\nbatch\nput 3 0001 02\nmerkleize 3 rule:8:1085 none\nops 3\nbatch\nmerkleize 4 bounded:10:2186 none\nops 4\nbatch\nmerkleize 5 bounded:14:9999 none\nops 5\napply 5\ninfo\nroot\n')
section('Staged reads: slots, other writes, and batches that are stale or of another kind.')
STAGED = 'open\nbatch\nput 1 61 01\nmerkleize 1 prop none\napply 1\nbatch\nstage 2 61 61 61\n'
READ = 'open 1 0 1\nbatch 1\nok\nmerkleized 1 1 4 2\napplied 4\nbatch 2\nread 01 01 01\n'
worked('more staged keys, and other counts of slots', STAGED + 'expand 2 62\nresolve 2 prop none keep keep keep\nget 61 from=2\nstage 2 61\nresolve 1 prop none\nexpand 2 61 62\nresolve 2 hold none keep keep keep keep keep keep keep\nresolve 2 hold none keep keep keep put:05 put:06 keep\nops 2\nexpand 2 61\n', 0,
  READ + 'read 3 4 none\nrefused SlotCount 4 3\nrefused NoSuchHandle 2\nrefused NoSuchHandle 2\nrefused NoSuchHandle 1\nread 4 6 01 none\nrefused SlotCount 6 7\nmerkleized 2 4 7 2\nops 4 U:61=06 U:62=05 C:none@2\nrefused NoSuchHandle 2\n', 4)
worked('a staged batch is no other', STAGED + 'put 2 62 02\ndel 2 61\nmerkleize 2 prop none\napply 2\nops 2\nget 61 from=2\nmany 61 from=2\ninfo 2\nroot 2\nproof 2\nchild 2\nbatch\nexpand 3 61\nresolve 3 prop none keep\nstage 3 61\nexpand 1 61\nstage 1 61\nstage 9 61\nresolve 9 prop none\n', 0,
  READ + 'refused NoSuchHandle 2\n' * 11 + 'batch 3\nrefused NoSuchHandle 3\nrefused NoSuchHandle 3\nread 01\nrefused NoSuchHandle 1\nrefused NoSuchHandle 1\nrefused NoSuchHandle 9\nrefused NoSuchHandle 9\n', 4)
worked('staged reads of stale batches', 'open\nbatch\nput 1 61 01\nbatch\nput 2 62 02\nbatch\nstage 3 61\nbatch\nstage 4 61 62\nmerkleize 1 prop none\napply 1\nstage 2 61\nstage 2 61\nput 2 62 02\nexpand 3 61\nexpand 3 61\nresolve 4 hold none keep\nresolve 4 hold none keep put:05\nresolve 4 hold none keep put:05\nget 61\nbatch\nstage 5 61\n', 0,
  'open 1 0 1\nbatch 1\nok\nbatch 2\nok\nbatch 3\nread none\nbatch 4\nread none none\nmerkleized 1 1 4 2\napplied 4\nrefused StaleRead\nrefused NoSuchHandle 2\nrefused NoSuchHandle 2\nrefused StaleRead\nrefused NoSuchHandle 3\nrefused SlotCount 2 1\nrefused StaleBatch\nrefused NoSuchHandle 4\nread 01\nbatch 5\nread 01\n', 4)
worked('recorded writes, slots and other writes', 'open\nbatch\nput 1 61 01\nput 1 62 02\nput 1 63 03\nput 1 64 04\nmerkleize 1 hold none\napply 1\nbatch\nput 2 61 11\ndel 2 62\nput 2 65 15\nstage 2 61 62 63 65 66\nexpand 2 64 61\nresolve 2 hold aa keep put:22 del del keep put:- keep 66=26 61=31 66=none\nops 2\napply 2\nmany 61 62 63 64 65 66\nmeta\n', 0,
  'open 1 0 1\nbatch 1\nok\nok\nok\nok\nmerkleized 1 1 6 0\napplied 6\nbatch 2\nok\nok\nok\nread 11 none 03 15 none\nread 5 7 04 11\nmerkleized 2 6 11 0\nops 6 U:61=31 U:62=22 D:63 U:64=- C:aa@0\napplied 11\nread 31 22 none - none none\nmeta aa\n', 11)
section('Scripts of an independent model, without the longest.')
for seed in range(100):
    size = (12, 25, 25, 40, 60)[seed % 5]
    lines = fuzz.script('rows %d' % seed, 'any unordered mmr', SCRIPTS, size, bad=seed % 3 == 0)
    said = '\n'.join(lines) + ('\n' if seed % 7 else '')
    if len(said) <= 1800: modelled('script %d' % seed, said)
section('Scripts of ordered databases.')
for seed in range(40):
    lines = fuzz.script('ordered rows %d' % seed, 'any ordered mmr', SCRIPTS, (12, 25, 40)[seed % 3], bad=seed % 4 == 0)
    said = '\n'.join(lines) + '\n'
    if len(said) <= 1800: modelled('ordered script %d' % seed, said, words=ORDERED)
section('Scripts with commits, crashes, closings and openings.')
for words, count in ((WORDS, 40), (ORDERED, 20)):
    for seed in range(count):
        lines = fuzz.script('lasting rows %d' % seed, words[4:], DURABLE, (12, 25, 40)[seed % 3], bad=False)
        said = ''.join(x + '\n' for x in lines)
        if len(said) <= 1800: modelled('lasting script %d, %s' % (seed, words.split(' ')[2]), said, words=words)
section('Chains of three batches: what the second and the third keep, which are applied before each is made, and before the third is asked.')
def chain(keep2, keep3, before2, before3, before_asked):
    lines = ['open', 'batch', 'put 1 6b6b6b6b01 01', 'merkleize 1 prop none']
    applied = 0
    def go(to):
        nonlocal applied
        if to > applied:
            lines.append('apply %d' % to)
            applied = to
    for h, keep, before in ((2, keep2, before2), (3, keep3, before3)):
        go(before)
        lines.extend(['child %d%s' % (h - 1, '' if keep is None else ' keep=%d' % keep), 'put %d 6b6b6b6b0%d 0%d' % (h, h, h), 'merkleize %d prop none' % h])
    go(before_asked)
    lines.extend(['many 6b6b6b6b01 6b6b6b6b02 6b6b6b6b03 from=3', 'info 3', 'proof 3', 'child 3', 'del 4 6b6b6b6b01', 'get 6b6b6b6b01 from=4', 'merkleize 4 prop none', 'apply 3', 'apply 4', 'many 6b6b6b6b01 6b6b6b6b02 6b6b6b6b03', 'root'])
    return lines
for keep2 in (None, 0):
    for keep3 in (None, 0, 1):
        for before2 in (0, 1):
            for before3 in (0, 1, 2):
                for before_asked in (0, 1, 2, 3):
                    if not (before2 <= before3 or before3 == 0): continue
                    if before3 < before2 or before_asked < max(before2, before3): continue
                    said = lambda k: 'all' if k is None else str(k)
                    modelled('chain: keep %s and %s, applied %d, %d, %d' % (said(keep2), said(keep3), before2, before3, before_asked), ''.join(x + '\n' for x in chain(keep2, keep3, before2, before3, before_asked)))

# ---- lists of commands
section('Lists of commands: the replies of the same lines.')
def listed(name, data, text, status, start, count):
    put(name, lines_of(data) + ['list'], text, status, start, count)
for row in check_rows.load_rows():
    first, last = check_rows.stages_of(row)
    if first > STAGE or last < STAGE or 'initial' in row or row['store'] == 'mem' or len(row['runs']) > 1: continue
    run, = row['runs']
    if ' '.join(run['words']) != WORDS or 'repeat' in run['input'] or run['status'] != 0: continue
    data = check_rows.row_input(run)
    store = model.Store()
    status, text = qmdb.run_program(run['words'], data, store, STAGE)
    listed('a list: ' + row['name'].replace(' any unordered mmr', ''), data, text.decode(), status, store.start, len(store.items))
listed('an empty list', b'', '', 0, 0, 0)
put('a list whose opening fails', lines_of(b'info\nopen\ninfo\n') + ['list', 'fail store 1'], 'refused NoDatabase\n', 6, 0, 0)

# ---- current databases
CURRENT = 'run current unordered mmr'
CURRENT_ORDERED = 'run current ordered mmr'
section('Worked rows of current databases.')
for row in check_rows.load_rows():
    first, last = check_rows.stages_of(row)
    if first > STAGE or last < STAGE or 'initial' in row or len(row['runs']) > 1: continue
    run, = row['runs']
    words = ' '.join(run['words'])
    if words not in (CURRENT, CURRENT_ORDERED): continue
    t, s, _ = modelled(row['name'], check_rows.row_input(run), words=words)
    assert (s, t) == (run['status'], run['output'])
section('What is asked of current databases: without a database, of a fresh one, and of one key that is written, deleted and written again.')
ASKED = 'held 6b\nabsent 6b\nchunks 0 1\nchunks 1 1\nwitness\n'
ONE_PUT = 'batch\nput %d 6b 76\nmerkleize %d prop none\napply %d\n'
ONE_KEY = ASKED + 'open\n' + ASKED + ONE_PUT % (1, 1, 1) + ASKED + 'held 6c\nabsent 6c\nchunks 3 9\nbatch\ndel 2 6b\nmerkleize 2 hold none\napply 2\n' + ASKED + ONE_PUT % (3, 3, 3) + ASKED + 'close\n' + ASKED
for words in (CURRENT, CURRENT_ORDERED):
    modelled('asked, ' + words[4:], ONE_KEY, words=words)
section('A prune and a sync of a current database, each call in turn that fails: 266 batches of a key make 1,066 calls, then come commit, metadata and prune, then sync and metadata. Where the log was not pruned after the metadata was put, the store is opened.')
LONG = 'open\n' + ''.join('batch\nput %d 6b %02x\nmerkleize %d prop none\napply %d\n' % (i, i % 256, i, i) for i in range(1, 267))
text, status, store = modelled('current, pruned', LONG + 'prune 768\ninfo\nsync\n', words=CURRENT)
long_replies = text.splitlines(keepends=True)
for call, replies, start, count in ((1065, 1064, 0, 796), (1066, 1065, 0, 799), (1067, 1065, 0, 799), (1069, 1067, 768, 31), (1070, 1067, 768, 31), (1068, 1065, 0, 799)):
    put('current, pruned, store call %d fails' % call, ['fail store %d' % call], ''.join(long_replies[:replies]) + 'store fault\n', 6, start, count, begin='again')
put('current, opened after store call 1068 failed', ['keep', 'words ' + CURRENT, '| open', '| info'], 'open 1 0 799\ninfo 0 799 797 768 live\n', 0, 0, 799)
section('A prune of a current database that a crash follows: whole, or stopped at the metadata (call 1067) or at the log (call 1068). The list was committed before, so the root is the same.')
CRASHED = LONG + 'root\nprune 768\nroot\ncrash 0\nopen\nroot\n'
for words in (CURRENT, CURRENT_ORDERED):
    text, _, _ = modelled('pruned and crashed, ' + words[4:], CRASHED, words=words)
    pruned_replies = text.splitlines(keepends=True)
    assert pruned_replies[1065] == pruned_replies[1067] == pruned_replies[1070] and pruned_replies[1069] == 'open 2 768 799\n'
    for call in (1067, 1068):
        put('%s, pruned, store call %d fails, before a crash' % (words[4:], call), ['words ' + words] + lines_of((LONG + 'root\nprune 768\n').encode()) + ['fail store %d' % call], ''.join(pruned_replies[:1066]) + 'store fault\n', 6, 0, 799)
        put('%s, crashed after store call %d failed' % (words[4:], call), ['keep', 'words ' + words, '| crash 0', '| open', '| root', '| get 6b'], 'ok\nopen 1 0 799\n' + pruned_replies[1065] + 'read 0a\n', 0, 0, 799)
section('A prune of an any database, its commit (call 1065) and the prune of its log (call 1066) failing: what is left is opened, as it is, and after a crash where the list was committed.')
text, status, store = modelled('pruned', LONG + 'root\nprune 768\nroot\ncrash 0\nopen\nroot\n')
long_replies = text.splitlines(keepends=True)
assert long_replies[1065] == long_replies[1067] == long_replies[1070] and long_replies[1069] == 'open 2 768 799\n'
for call in (1066, 1065):
    put('pruned, store call %d fails' % call, ['fail store %d' % call], ''.join(long_replies[:1066]) + 'store fault\n', 6, 0, 799, begin='again')
put('opened after store call 1065 failed', ['keep', '| open', '| root'], 'open 1 0 799\n' + long_replies[1065], 0, 0, 799)
put('pruned, store call 1066 fails, before a crash', lines_of((LONG + 'root\nprune 768\n').encode()) + ['fail store 1066'], ''.join(long_replies[:1066]) + 'store fault\n', 6, 0, 799)
put('crashed after store call 1066 failed', ['keep', '| crash 0', '| open', '| root', '| get 6b'], 'ok\nopen 1 0 799\n' + long_replies[1065] + 'read 0a\n', 0, 0, 799)
section('Proofs over several chunks, after a prune, after a crash of a list that is pruned, and by a second run over its store.')
SHOWN = 'held 6b\nchunks 0 799\nchunks 255 2\nchunks 767 2\nchunks 768 31\nchunks 798 9\nchunks 799 1\nwitness\n'
modelled('current, proofs before and after a prune', LONG + SHOWN + 'prune 768\n' + SHOWN + 'batch\nput 267 6c 01\nmerkleize 267 prop none\napply 267\n' + SHOWN + 'crash 0\nopen\n' + SHOWN, words=CURRENT)
put('current, proofs of a second run', ['keep', 'words ' + CURRENT] + lines_of(('open\n' + SHOWN).encode()), 'open 1 768 799\nheld 797 yes\nrefused OperationPruned 0\nrefused OperationPruned 255\nrefused OperationPruned 767\nchunks 31 1 yes\nchunks 1 1 yes\nrefused Merkle RangeOutOfBounds 799\nwitness yes\n', 0, 768, 31)
section('A sync of a current database makes its operations stable (call 6) and then puts metadata (call 7): what is left where one of them fails is told by a crash and an opening.')
SYNCED = 'open\nbatch\nput 1 6b 76\nmerkleize 1 prop none\napply 1\nsync\ninfo\n'
text, status, store = modelled('current, synced', SYNCED, words=CURRENT)
put('current, synced, store call 8 would fail', ['fail store 8'], text, status, store.start, len(store.items), begin='again')
for call, opened in ((6, 'open 1 0 1\ninfo 0 1 0 0 empty\n'), (7, 'open 1 0 4\ninfo 0 4 2 0 live\n')):
    put('current, synced, store call %d fails' % call, ['words ' + CURRENT] + lines_of(SYNCED.encode()) + ['fail store %d' % call], ''.join(text.splitlines(keepends=True)[:5]) + 'store fault\n', 6, 0, 4)
    put('current, crashed after store call %d failed' % call, ['keep', 'words ' + CURRENT, '| crash 0', '| open', '| info'], 'ok\n' + opened, 0, 0, int(opened.split()[3]))
section('A batch of an earlier opening is refused before anything is read: call 18 would be the first of its look-ups.')
LATE = 'open\nbatch\nput 1 61 01\nmerkleize 1 prop none\napply 1\ncommit\nbatch\nput 2 61 02\nopen\nmerkleize 2 prop none\n'
text, status, store = modelled('current, a batch of an earlier opening', LATE, words=CURRENT)
put('current, a batch of an earlier opening, store call 18 would fail', ['fail store 18'], text, status, store.start, len(store.items), begin='again')
section('Scripts of current databases.')
for words in (CURRENT, CURRENT_ORDERED):
    for seed in range(16):
        lines = fuzz.script('current rows %d' % seed, words[4:], DURABLE, (12, 25, 40)[seed % 3], bad=seed % 4 == 0)
        said = ''.join(x + '\n' for x in lines)
        if len(said) <= 1800: modelled('current script %d, %s' % (seed, words.split(' ')[2]), said, words=words)
section('Scripts with spared entries and evicted keys.')
for words in (WORDS, ORDERED, CURRENT, CURRENT_ORDERED):
    for seed in range(10):
        lines = fuzz.script('spared rows %d' % seed, words[4:], STAGE, (12, 25, 40)[seed % 3], bad=seed % 5 == 0)
        said = ''.join(x + '\n' for x in lines)
        if len(said) <= 1800: modelled('spared script %d, %s' % (seed, words[4:-4]), said, words=words)
section('Lines of ordered databases, of an unordered current one.')
modelled('no neighbours', 'open\nnext 61\nprev 61\nspan 61\nall 61\nrange * *\nkeys * *\nnext 61 from=1\n', words=CURRENT)
section('Other words, with current in them.')
for words in ('run current', 'run current mmr', 'run current unordered mbm', 'run Current unordered mmr', 'run any current mmr', 'current run unordered mmr', 'run current unordered mmr mmr'):
    modelled('words: ' + words, b'', words=words)

# ---- damaged stores
section('Stores that something else left: each is opened, and opened once more over what that opening left of it.')
def given(store):
    """stdin lines for a store of its own"""
    said = []
    if store.start: said.append('start %d' % store.start)
    if store.head: said.append('head ' + store.head.hex())
    said.extend(('item ' + i.hex()).rstrip() for i in store.items)
    for name, entries in store.metas.items():
        said.append('meta ' + name)
        said.extend(('entry %s %s' % (k.hex(), v.hex())).rstrip() for k, v in entries)
    return said
def damaged(name, words, store, first=None, items=True):
    """first: what the opening answers, where it is worked by hand"""
    asked = b'open\ninfo\nroot\n'
    said, before = given(store), store.copy()
    status, text = qmdb.run_program(words.split(' '), asked, store, STAGE)
    text = text.decode()
    assert status == 0 and (first is None or text.split('\n')[0] == first), (name, text)
    if text.startswith('refused'): assert store.content() == before.content(), name
    shown = lambda: [i.hex() for i in store.items] if items else None
    put('damaged: ' + name, ['words ' + words] + lines_of(asked) + said, text, status, store.start, len(store.items), shown())
    status, text = qmdb.run_program(words.split(' '), asked, store, STAGE)
    put('damaged and opened again: ' + name, ['keep', 'words ' + words] + lines_of(asked), text.decode(), status, store.start, len(store.items), shown())
for row in check_rows.load_rows():
    if row['stage'] != 'damaged': continue
    run, = row['runs']
    damaged(row['name'][9:], ' '.join(run['words']), check_rows.initial_store(row, False), run['output'].split('\n')[0])
ends = lambda floor: model.encode(('C', None, floor))
puts = model.encode(('U', b'k', b'v'))
links = lambda key, following: model.encode(('U', key, b'\1', following))
counted = lambda count, *pins: {'grafted': [(b'\1' + model.x8(0), count)] + [(b'\0' + model.x8(i), pin) for i, pin in enumerate(pins)]}
FOUR = [ends(0), puts, puts, ends(2)]
def bordering(name, words, first, start=0, head=b'', items=(), metas=None):
    damaged(name, words, model.Store(start, head, items, metas), first)
REFUSED = 'refused DataCorrupted '
bordering('no commit, and a head at start 0', WORDS, REFUSED + 'no retained commit', head=b'\7', items=[puts])
bordering('a start with the head that it needs', WORDS, 'open 1 2 3', 2, bytes(32), [ends(2)])
bordering('a start with a head of two digests', WORDS, REFUSED + 'head does not match the start', 2, bytes(64), [ends(2)])
bordering('a floor at the start', WORDS, 'open 1 2 4', 2, bytes(32), [puts, ends(2)])
bordering('a floor at its own commit', WORDS, 'open 1 0 2', items=[ends(0), ends(1)])
bordering('a floor right behind its commit', WORDS, REFUSED + 'inactivity floor exceeds commit location', items=[ends(0), ends(2)])
bordering('an item that does not decode below the floor', WORDS, 'open 1 0 3', items=[ends(0), b'\xff', ends(2)])
bordering('an item that does not decode, and a head at start 0', WORDS, REFUSED + 'head does not match the start', head=b'\7', items=[ends(0), b'\xff', ends(0)])
bordering('an empty item', WORDS, REFUSED + 'item does not decode', items=[ends(0), b'', ends(0)])
bordering('links under an unordered database', WORDS, REFUSED + 'item does not decode', items=[ends(0), links(b'a', b'c'), links(b'c', b'a'), ends(0)])
bordering('a ring', ORDERED, 'open 1 0 4', items=[ends(0), links(b'a', b'c'), links(b'c', b'a'), ends(0)])
bordering('a key that names itself beside another', ORDERED, REFUSED + 'links form no ring', items=[ends(0), links(b'a', b'a'), links(b'c', b'a'), ends(0)])
bordering('metadata under an any database', WORDS, 'open 1 0 4', items=FOUR, metas=counted(bytes(7)))
bordering('a commit whose floor is past 2^62', WORDS, 'open 1 0 1', items=[ends(0), ends(2 ** 62 + 1)])
bordering('the greatest count, without its pin', CURRENT, REFUSED + 'missing pinned node in grafted tree metadata', items=FOUR, metas=counted(model.x8(2 ** 54)))
bordering('a count of no chunk', CURRENT, 'open 1 0 4', items=FOUR, metas=counted(model.x8(0)))
bordering('a wrong pin before a missing one', CURRENT, REFUSED + 'missing pinned node in grafted tree metadata', items=FOUR, metas=counted(model.x8(3), bytes(31)))
bordering('metadata of another name', CURRENT, 'open 1 0 4', items=FOUR, metas={'other': counted(bytes(7))['grafted']})
section('The pruned store of one key: without metadata a current database has lost what it knew of three chunks.')
pruned_store = model.Store()
qmdb.run_program(CURRENT.split(' '), (LONG + 'prune 768\n').encode(), pruned_store, STAGE)
def left(head=None, metas=None):
    return model.Store(pruned_store.start, pruned_store.head if head is None else head, pruned_store.items, metas)
damaged('pruned, under an any database', WORDS, left(), 'open 1 768 799', items=False)
damaged('pruned, and a byte of the head gone', WORDS, left(head=pruned_store.head[:-1]), REFUSED + 'head does not match the start', items=False)
damaged('pruned, with its metadata', CURRENT, left(metas=pruned_store.metas), 'open 1 768 799', items=False)
damaged('pruned, with metadata of another name behind its own', CURRENT, left(metas=dict(pruned_store.metas, other=[(bytes(9), b'')])), 'open 1 768 799', items=False)
section('The items that a store is given are stable, so a crash takes none of them away.')
store = model.Store(0, b'', FOUR)
status, text = qmdb.run_program(WORDS.split(' '), b'crash 0\nopen\ninfo\n', store, STAGE)
put('given, and crashed before it is opened', lines_of(b'crash 0\nopen\ninfo\n') + given(model.Store(0, b'', FOUR)), text.decode(), status, store.start, len(store.items))
section('Metadata of one name that are given twice: the last are read.')
TWICE = ['words ' + CURRENT, '| open'] + ['item ' + i.hex() for i in FOUR]
COUNT = 'entry 01' + '00' * 8
put('damaged: a good count after a bad one', TWICE + ['meta grafted', COUNT + ' ' + '00' * 7, 'meta grafted', COUNT + ' ' + '00' * 8], 'open 1 0 4\n', 0, 0, 4)
put('damaged: a bad count after a good one', TWICE + ['meta grafted', COUNT + ' ' + '00' * 8, 'meta grafted', COUNT + ' ' + '00' * 7], REFUSED + 'pruned chunks value not a valid u64\n', 0, 0, 4)

# ---- each call that fails
section('Tables of failing calls: which calls of the store each line makes is worked by hand. Until the first run that ends well each writes the replies before the line whose call failed, and what it left is opened.')
def failing(name, words, lines, calls):
    """calls: how many calls of the store each line makes that makes some, by its number"""
    data = ''.join(x + '\n' for x in lines)
    text, status, store = modelled(name, data, words=words)
    assert status == 0
    replies = text.splitlines(keepends=True)
    # of the first opening only the commit comes after the append of the first operation
    opening = calls[0]
    def had(at, call):
        """what the store has when a call of this line fails"""
        store = model.Store()
        if at: qmdb.run_program(words.split(' '), ''.join(x + '\n' for x in lines[:at]).encode(), store, STAGE)
        elif call == opening - 1: store.append([ends(0)])
        return store
    k = 0
    for at in sorted(calls):
        for call in range(calls[at]):
            store = had(at, call)
            put('%s, store call %d fails' % (name, k), ['fail store %d' % k], ''.join(replies[:at]) + 'store fault\n', 6, store.start, len(store.items), begin='again')
            status, text = qmdb.run_program(words.split(' '), b'open\ninfo\n', store, STAGE)
            put('%s, opened after store call %d failed' % (name, k), ['keep', 'words ' + words, '| open', '| info'], text.decode(), status, store.start, len(store.items))
            k += 1
    store = model.Store()
    status, text = qmdb.run_program(words.split(' '), data.encode(), store, STAGE)
    put('%s, store call %d would fail' % (name, k), ['fail store %d' % k], text.decode(), status, store.start, len(store.items), begin='again')
    for call in range(3):
        put('%s, source call %d fails' % (name, call), ['fail source %d' % call], '' if call < 2 else text.decode(), 3 if call < 2 else 0, store.start if call == 2 else 0, len(store.items) if call == 2 else 0, begin='again')
    for call in range(2):
        put('%s, sink call %d fails' % (name, call), ['fail sink %d' % call], '' if call < 1 else text.decode(), 4 if call < 1 else 0, store.start, len(store.items), begin='again')
RULED = 'open\nbatch\nput 1 61 01\nput 1 62 02\nput 1 63 03\nmerkleize 1 hold none\nops 1\napply 1\nbatch\nmerkleize 2 rule:2:9:drop=02 none\nops 2\napply 2\ninfo'.split('\n')
failing('table: one put', WORDS, ONE.split('\n')[:-1], {0: 3, 3: 1, 4: 1, 6: 1})
failing('table: the ordered rule', ORDERED, RULED, {0: 3, 7: 1, 9: 4, 11: 1})
failing('table: one put, current', CURRENT, ONE.split('\n')[:-1], {0: 4, 3: 1, 4: 1, 6: 1})
TWO_KEYS = 'open\nbatch\nput 1 61 01\nput 1 63 03\nmerkleize 1 hold aa\nops 1\napply 1\nget 61\nget 63\nbatch\ndel 2 61\nmerkleize 2 hold none\napply 2\nget 61\ninfo'.split('\n')
# to delete a key reads where it is live; an ordered database looks for the update before it in the key's own bucket, then round the ring
for words in (CURRENT, CURRENT_ORDERED):
    failing('table: two keys under hold, ' + words[4:], words, TWO_KEYS, {0: 4, 6: 1, 7: 1, 8: 1, 11: 1 if words == CURRENT else 3, 12: 1})
HUNDRED = ['open', 'batch'] + ['put 1 %02x %02x' % (i, i) for i in range(1, 101)] + ['merkleize 1 prop none', 'apply 1', 'batch'] + ['put 2 %02x %02x' % (i, i) for i in range(2, 51)] + ['merkleize 2 prop none', 'apply 2', 'get 01', 'info']
# the second batch looks 49 keys up, and its walk comes to each operation from location 2 to 100
failing('table: a hundred keys, and 49 of them written again', CURRENT, HUNDRED, {0: 4, 102: 1, 103: 1, 154: 49 + 99, 155: 1, 156: 1})

# ---- trees whose merges are delayed
KINDS = tuple('run %s %s mmb' % (a, b) for a in ('any', 'current') for b in ('unordered', 'ordered'))
section('A chunk that waits for its node, with proofs of it, and a boundary that waits for a pair; mountain ranges have neither.')
ONE_BY_ONE = 'open\n' + ''.join('batch\nput %d 6b 76\nmerkleize %d prop none\napply %d\n' % (i, i, i) for i in range(1, 101)) + 'info\nheld 6b\nchunks 0 9\nwitness\nroot\n'
ranges, _, _ = modelled('a key in 100 batches', ONE_BY_ONE, words=CURRENT)
for text, boundary in ((ranges, 256), (DONE['run current unordered mmb', ONE_BY_ONE.encode()][1], 0)):
    assert 'info 0 301 299 %d live\nheld 299 yes\nchunks 9 1 yes\nwitness yes\n' % boundary in text
for words in ('run current unordered mmb', 'run current ordered mmb'):
    text, _, _ = modelled('pruned up to a pair, ' + words[4:], LONG + 'info\nprune 513\nprune 512\ninfo\n' + SHOWN + 'crash 0\nopen\ninfo\n' + SHOWN, words=words, stage=DELAYED)
    assert 'info 0 799 797 512 live\nrefused PruneBeyondMinRequired 513 512\nok\ninfo 512 799 797 512 live\n' in text
section('Proofs, pins and forks over trees whose merges are delayed.')
for words in KINDS:
    modelled('proofs and pins, ' + words[4:], 'open\nbatch\nput 1 61 01\nput 1 62 02\nmerkleize 1 prop none\napply 1\nproof 1\npins 5\npins 4\npins 0\nprove 5 0 9\nprove 4 2 1\nchild 1\nput 2 63 03\nmerkleize 2 hold aa\nchild 2\ndel 3 61\nmerkleize 3 prop none\nproof 3\napply 3\nroot\nroot 3\ncommit\nprune 2\npins 5\nprove 9 5 9\nclose\nopen\nroot\n', words=words, stage=DELAYED)
section('Scripts over trees whose merges are delayed.')
for words in KINDS:
    for seed in range(8):
        lines = fuzz.script('delayed rows %d' % seed, words[4:], DELAYED, (12, 25, 40)[seed % 3], bad=seed % 5 == 0)
        said = ''.join(x + '\n' for x in lines)
        if len(said) <= 1800: modelled('delayed script %d, %s' % (seed, words[4:]), said, words=words, stage=DELAYED)

# ---- checks of proofs
CLIENT = qmdb.stage_number('client')
def exports(kind, lines, keys):
    """the canonical root of a database after these lines, and what it exports of keys"""
    asked = 'open\n' + lines + 'root\n' + ''.join('export %s\n' % key for key in keys)
    _, text = qmdb.run_program(('run ' + kind).split(' '), asked.encode(), model.Store(), CLIENT)
    said = text.decode().split('\n')[:-1][-len(keys) - 1:]
    return said[0].split(' ')[1], [x.split(' ')[2] for x in said[1:]]
def checked(name, words, data, said=(), answer=None, begin='case'):
    """what the model answers to a check; answer: text and status where a port fails"""
    status, text = qmdb.run_program(words.split(' '), data, model.Store(), CLIENT)
    if answer is None: answer = text.decode(), status
    put(name, ['words ' + words] + lines_of(data) + list(said), answer[0], answer[1], 0, 0, begin=begin)
    return answer[0]
TWO = 'batch\nput 1 61 01\nput 1 63 03\nmerkleize 1 hold aa\napply 1\n'
section('Checks of proofs: the worked rows, over either family, and each byte of a proof changed in turn.')
for trees in ('mmr', 'mmb'):
    ROOT, (HELD_61, ABSENT_62) = exports('current ordered ' + trees, TWO, ('61', '62'))
    for what, claim, spelled, answer in (
        ('held', 'held 61 01', HELD_61 + '\n', 'yes'), ('held, no line feed', 'held 61 01', HELD_61, 'yes'), ('held, capitals', 'held 61 01', HELD_61.upper(), 'yes'), ('wrong value', 'held 61 02', HELD_61, 'no'), ('wrong key', 'held 62 01', HELD_61, 'no'),
        ('other kind', 'absent 62', HELD_61, 'no'), ('absent', 'absent 62', ABSENT_62, 'yes'), ('absent, the other kind', 'held 61 01', ABSENT_62, 'no'), ('a live key is not absent', 'absent 61', ABSENT_62, 'no'), ('absent, outside the span', 'absent 64', ABSENT_62, 'no'),
        ('empty input', 'held 61 01', '', 'no proof'), ('a byte more', 'held 61 01', HELD_61 + '00', 'no proof'), ('a byte less', 'held 61 01', HELD_61[:-2], 'no proof'), ('two line feeds', 'held 61 01', HELD_61 + '\n\n', 'no proof'), ('an odd digit', 'held 61 01', '0', 'no proof'), ('no digit', 'held 61 01', HELD_61[:-1] + 'g', 'no proof')):
        assert checked('check %s: %s' % (trees, what), 'check %s %s %s' % (trees, ROOT, claim), spelled.encode()) == answer + '\n'
    other = 'check %s %s held 61 01' % ('mmb' if trees == 'mmr' else 'mmr', ROOT)
    checked('check %s: by the other family' % trees, other, HELD_61.encode())
    for name, digits, claim in (('held', HELD_61, 'held 61 01'), ('absent', ABSENT_62, 'absent 62')):
        for at in range(0, len(digits) // 2, 3):
            wrong = digits[:2 * at] + '%02x' % (int(digits[2 * at:2 * at + 2], 16) ^ 1 << at % 8) + digits[2 * at + 2:]
            assert checked('check %s: %s, byte %d' % (trees, name, at), 'check %s %s %s' % (trees, ROOT, claim), wrong.encode()) != 'yes\n'
    LONE, (HELD, ) = exports('current unordered ' + trees, TWO, ('63', ))
    assert checked('check %s: of an unordered database' % trees, 'check %s %s held 63 03' % (trees, LONE), HELD.encode()) == 'yes\n'
    EMPTY, (NONE, ) = exports('current ordered ' + trees, '', ('61', ))
    assert checked('check %s: absent from an empty database' % trees, 'check %s %s absent 61' % (trees, EMPTY), NONE.encode()) == 'yes\n'
section('Words that are those of no check, and ports that fail.')
ROOT, (HELD_61, ) = exports('current ordered mmr', TWO, ('61', ))
for words in ('check', 'check mmr', 'check mmr ' + ROOT, 'check mmr %s held' % ROOT, 'check mmr %s held 61' % ROOT, 'check mmr %s held 61 01 01' % ROOT, 'check mmr %s absent' % ROOT, 'check mmr %s absent 61 01' % ROOT, 'check mms %s absent 61' % ROOT, 'check mmr %s absent 6' % ROOT,
    'check mmr %s absent 6g' % ROOT, 'check mmr %s absent %s' % (ROOT, '61' * 33), 'check mmr %s held 61 %s' % (ROOT, '61' * 65), 'check mmr %s absent -' % ROOT, 'check mmr %s Absent 61' % ROOT, 'check mmr %s absent 61' % ROOT[2:], 'check mmr %s00 absent 61' % ROOT, 'mmr %s absent 61' % ROOT):
    checked('words: ' + words, words, b'')
WORDS_61 = 'check mmr %s held 61 01' % ROOT
for name, words in (('a value of no bytes', 'check mmr %s held 61 -' % ROOT), ('the longest key and value', 'check mmr %s held %s %s' % (ROOT, '61' * 32, '01' * 64)), ('capitals', 'check mmr %s held 61 01' % ROOT.upper())):
    checked('check: ' + name, words, HELD_61.encode())
checked('check: source call 0 fails', WORDS_61, HELD_61.encode(), ['fail source 0'], ('', 3))
checked('check: sink call 0 fails', WORDS_61, HELD_61.encode(), ['fail sink 0'], ('', 4))
checked('check: a store that would fail', WORDS_61, HELD_61.encode(), ['fail store 0'], ('yes\n', 0))

# each worked row of these stands above
for row in check_rows.load_rows():
    first, last = check_rows.stages_of(row)
    if first > DELAYED or last < DELAYED or 'initial' in row or len(row['runs']) > 1: continue
    run, = row['runs']
    words = ' '.join(run['words'])
    asked = words, check_rows.row_input(run)
    # (that of a rebuild by workers)
    if words not in KINDS or row['name'] == 'rebuild mmb': continue
    assert DONE[asked] == (run['status'], run['output']), row['name']

dest = sys.argv[1]
open(dest + '/stdin', 'w').write('\n'.join(inp).lstrip('\n') + '\n')
open(dest + '/stdout', 'w').write('\n'.join(out) + '\n')
print(sum(1 for x in out if x.startswith('case ')), 'cases', sum(map(len, inp)) + len(inp), 'in', sum(map(len, out)) + len(out), 'out')
