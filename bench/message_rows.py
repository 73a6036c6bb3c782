#!/usr/bin/env python3
"""Writes the file of rows messages.rows: payloads that Python's `pickle` makes of the tuples of docs/PROTOCOL.md, and
the messages that they are. It is no part of the gate:

    bench/message_rows.py > messages.rows
    bench/message_rows.py check messages.rows

The second form reads each payload of the file that is a message by `pickle.loads`, and prints the tuple that it
is beside the message; it ends with status 1 where a tuple isn't the one that the message says.

A pickler that is told to remember nothing (`fast`) writes the one spelling of a tuple; `pickle.dumps` puts what it
wrote into its memo, which is another spelling of the same tuple, and so no message.
"""
import hashlib
import io
import pickle
import sys

T0 = 0x03f58e0000000000


def plain(value, protocol=3):
    """The pickle of a value, with nothing remembered."""
    file = io.BytesIO()
    pickler = pickle.Pickler(file, protocol)
    pickler.fast = True
    pickler.dump(value)
    return file.getvalue()


def oid(n):
    return n.to_bytes(8, 'big')


def text8(b):
    return 'Text8 { bytes: [%s] }' % ', '.join(str(x) for x in b)


def list_of(items):
    return 'ListOf { items: [%s] }' % ', '.join(items)


def oids(ns):
    return list_of('Oid(%d)' % n for n in ns)


def tids(ns):
    return list_of('Tid(%d)' % n for n in ns)


def truth(b):
    return 'true' if b else 'false'


def maybe_tid(n):
    return 'None' if n is None else 'Some(Tid(%d))' % n


def maybe(n):
    return 'None' if n is None else 'Some(%d)' % n


def asked(number, flag, method, arguments, call):
    return (number, flag, method, arguments), 'Asked { number: %d, call: %s }' % (number, call)


def answered(number, value, answer):
    return (number, 0, '.reply', value), 'Answered { number: %d, answer: %s }' % (number, answer)


def refused(name, fields, refusal, number=1):
    return (number, 0, '.error', (name,) + fields), 'Answered { number: %d, answer: Refused { refusal: %s } }' % (number, refusal)


def told(method, arguments, notice):
    return (0, 1, method, arguments), 'Told { notice: %s }' % notice


def calls():
    yield asked(1, 0, 'register', ('1', False), 'Register { again: false }')
    yield asked(2, 0, 'register', ('2', False), 'Register { again: true }')
    yield asked(3, 0, 'loadBefore', (oid(1), oid(T0 + 2)), 'LoadBefore { oid: Oid(1), front: Tid(%d) }' % (T0 + 2))
    for count in 1, 100:
        yield asked(4, 0, 'new_oids', (count,), 'NewOids { count: %d }' % count)
    for user, description, extension in (b'', b'', b''), (b'u', b'd' * 255, b'e' * 256), (b'\x00' * 65535, b'\xff', b'x' * 65535):
        yield asked(5, 1, 'tpc_begin', (user, description, extension), 'TpcBegin { user: %s, description: %s, extension: %s }' % (text8(user), text8(description), text8(extension)))
    for record in b'a', b'r' * 255, b'r' * 256:
        yield asked(6, 1, 'storea', (oid(5), oid(0), record), 'Storea { oid: Oid(5), base: Tid(0), bytes: %s }' % text8(record))
    yield asked(7, 1, 'deleteObject', (oid(2 ** 64 - 1), oid(T0 + 1)), 'DeleteObject { oid: Oid(%d), base: Tid(%d) }' % (2 ** 64 - 1, T0 + 1))
    yield asked(8, 1, 'checkCurrentSerialInTransaction', (oid(1), oid(0)), 'CheckCurrentSerial { oid: Oid(1), serial: Tid(0) }')
    yield asked(9, 0, 'vote', (), 'Vote')
    for list in [T0], [T0 + 2, T0 + 1, T0], [2000 - n for n in range(1000)]:
        yield asked(10, 0, 'undoa', (b'u', b'd', [oid(n) for n in list]), 'Undoa { user: %s, description: %s, tids: %s }' % (text8(b'u'), text8(b'd'), tids(list)))
    yield asked(11, 0, 'tpc_finish', (), 'TpcFinish')
    yield asked(12, 0, 'tpc_abort', (), 'TpcAbort')
    yield asked(13, 0, 'history', (oid(7),), 'History { oid: Oid(7) }')
    yield asked(14, 0, 'undoInfo', (), 'UndoInfo')
    for method, call in ('pack', 'Pack'), ('packBegin', 'PackBegin'):
        yield asked(15, 0, method, (oid(T0),), '%s { tid: Tid(%d), collect: true }' % (call, T0))
        yield asked(16, 0, method + 'NoGc', (oid(T0),), '%s { tid: Tid(%d), collect: false }' % (call, T0))
    yield asked(17, 0, 'packTurn', (), 'PackTurn')
    yield asked(18, 0, 'sync', (), 'Sync')
    yield asked(19, 0, 'lastTransaction', (), 'LastTransaction')
    for changes in 0, 255, 256, 65535, 65536, 2 ** 31 - 1, 2 ** 31, 2 ** 39 - 1, 2 ** 39, 2 ** 47 - 1, 2 ** 47, 2 ** 55 - 1, 2 ** 55, 2 ** 63 - 1, 2 ** 63, 2 ** 64 - 1:
        yield asked(20, 0, 'getInvalidations', (oid(T0), changes), 'GetInvalidations { tid: Tid(%d), changes: %d }' % (T0, changes))
    for number in 0, 255, 256, 65535, 65536, 2 ** 31 - 1:
        yield asked(number, 0, 'vote', (), 'Vote')


def replies():
    yield answered(1, None, 'Done')
    yield answered(2, oid(T0), 'OneTid { tid: Tid(%d) }' % T0)
    for record, end in (b'a', None), (b'', T0 + 1), (b'r' * 300, T0 + 2):
        yield answered(3, (record, oid(T0), None if end is None else oid(end), oid(T0 + 3)), 'Loaded { bytes: %s, serial: Tid(%d), end: %s, upto: Tid(%d) }' % (text8(record), T0, maybe_tid(end), T0 + 3))
    for switches in 0, 70000, 2 ** 64 - 1:
        yield answered(4, (None, switches), 'Nothing { switches: %d }' % switches)
    yield answered(5, [], 'EmptyList')
    for list in [1], [1, 2], range(100):
        yield answered(6, [oid(n) for n in list], 'Oids { oids: %s }' % oids(list))
    for list in [(T0, None, b'u', b'd')], [(T0 + 1, 0, b'', b''), (T0, 2 ** 32, b'u' * 256, b'd' * 65535)], [(T0, 300, b'', b'')] * 3:
        yield answered(7, [(oid(t), size, bytes(bytearray(user)), bytes(bytearray(description))) for t, size, user, description in list], 'Revisions { list: %s }' % list_of('Revision { tid: Tid(%d), size: %s, user: %s, description: %s }' % (t, maybe(size), text8(user), text8(description)) for t, size, user, description in list))
    for list in [(T0, b'u', b'd')], [(T0 + 1, b'', b''), (T0, b'u' * 256, b'd' * 65535)], [(T0 + 1, b'u' * 300, b''), (T0, b'', b'')]:
        yield answered(8, [(oid(t), user, description) for t, user, description in list], 'LogLines { list: %s }' % list_of('LogLine { tid: Tid(%d), user: %s, description: %s }' % (t, text8(user), text8(description)) for t, user, description in list))
    for list in [(T0, [])], [(T0, [1])], [(T0, [1, 2, 3]), (T0 + 1, []), (T0 + 2, [4])]:
        yield answered(9, [(oid(t), [oid(n) for n in ns]) for t, ns in list], 'Commits { list: %s }' % list_of('NewsCommit { tid: Tid(%d), oids: %s }' % (t, oids(ns)) for t, ns in list))
    yield answered(10, (4, 2 ** 31), 'Packed { kept: 4, dropped: %d }' % 2 ** 31)
    for name in 'marking', 'marked', 'copying', 'copied':
        yield answered(11, (name, 64), 'Turned { stage: %s, count: 64 }' % name.capitalize())
    yield answered(12, ('packed', 4, 0), 'Switched { kept: 4, dropped: 0 }')
    yield answered(13, (oid(T0 + 1), 3), 'TidAndCount { tid: Tid(%d), count: 3 }' % (T0 + 1))


def refusals():
    for name in 'TidsSpent StoreFault NoTransaction InTransaction NotVoted Voted OidsSpent NotOpen BadMessage LinkFault Closed NoPack BadKey ReadFault StepsSpent Memory'.split():
        yield refused(name, (), name)
    for name, field in ('TooLong', 'length'), ('JournalFull', 'count'), ('NoSavepoint', 'number'), ('Mixed', 'stores'):
        for n in 0, 2 ** 64 - 1:
            yield refused(name, (n,), '%s { %s: %d }' % (name, field, n))
    for name, field in ('Busy', 'holder'), ('PackRunning', 'session'), ('TooManySessions', 'count'), ('FrameTooLong', 'length'), ('Connected', 'session'):
        for n in 0, 2 ** 32 - 1:
            yield refused(name, (n,), '%s { %s: %d }' % (name, field, n))
    for name, field in ('UndoUnknown', 'tid'), ('UndoPacked', 'tid'), ('PackedAlready', 'packed'):
        yield refused(name, (oid(T0),), '%s { %s: Tid(%d) }' % (name, field, T0))
    for name in 'NotATree', 'NodeMissing':
        yield refused(name, (oid(1),), '%s { oid: Oid(1) }' % name)
    for name, field in ('UndoConflict', 'later'), ('Overtaken', 'tid'), ('Unreadable', 'tid'), ('NothingToDelete', 'current'):
        yield refused(name, (oid(1), oid(T0)), '%s { oid: Oid(1), %s: Tid(%d) }' % (name, field, T0))
    for packed in False, True:
        yield refused('Missing', (oid(1), packed), 'Missing { oid: Oid(1), packed: %s }' % truth(packed))
    places = 'oid: Oid(1), base: Tid(0), current: Tid(%d)' % T0
    fields = (oid(1), oid(0), oid(T0))
    yield refused('ReadConflict', fields, 'ReadConflict { %s }' % places)
    for why in 'NoRule Gone NoOld Unreadable NotEmbedded Link EmptySide FirstKey Overflow'.split():
        yield refused('Conflict', fields + (why,), 'Conflict { %s, why: %s }' % (places, why))
    for key in 5, -1, 255, 256, 65536, 2 ** 31, -2 ** 31 - 1, 2 ** 127 - 1, -2 ** 127, b'k', b'', b'k' * 300, 'k', '', '\u00e9\u20ac\U0001f600':
        spelled = plain(key)[2:-1]
        yield refused('Conflict', fields + ('Key', key), 'Conflict { %s, why: Key(%s) }' % (places, text8(spelled)))


def notices():
    for list in [], [1], [1, 2]:
        yield told('invalidateTransaction', (oid(T0), [oid(n) for n in list]), 'Invalidate { tid: Tid(%d), oids: %s }' % (T0, oids(list)))
    yield told('forget', (oid(T0),), 'Forget { front: Tid(%d) }' % T0)
    yield told('packed', (oid(T0),), 'Packed { tid: Tid(%d) }' % T0)


def alone(value):
    """The value with no object standing in it twice, so that a pickler has nothing to share."""
    if isinstance(value, tuple):
        return tuple(alone(x) for x in value)
    if isinstance(value, list):
        return [alone(x) for x in value]
    if isinstance(value, bytes):
        return bytes(bytearray(value))
    return value


def just_outside():
    """Tuples that are no message, though a pickler writes them in the spelling of one."""
    yield 'a number that no call has', (2 ** 31, 0, 'vote', ())
    yield 'a number below 0', (-1, 0, 'vote', ())
    yield 'a flag 1 on a call that is answered', (1, 1, 'vote', ())
    yield 'a flag 0 on a call that is not', (1, 0, 'storea', (oid(5), oid(0), b'a'))
    yield 'a flag that is a truth value', (1, False, 'vote', ())
    yield 'a flag 1 on an answer', (1, 1, '.reply', None)
    yield 'a notice with a number', (1, 1, 'forget', (oid(T0),))
    yield 'a notice with flag 0', (0, 0, 'forget', (oid(T0),))
    yield 'no such method', (1, 0, 'votes', ())
    yield 'a method of bytes', (1, 0, b'vote', ())
    yield 'arguments that are a list', (1, 0, 'vote', [])
    yield 'an argument too many', (1, 0, 'vote', (None,))
    yield 'an argument too few', (1, 0, 'loadBefore', (oid(1),))
    yield 'an object of seven bytes', (1, 0, 'history', (b'1234567',))
    yield 'an object of nine bytes', (1, 0, 'history', (b'123456789',))
    yield 'an object that is a number', (1, 0, 'history', (7,))
    yield 'no new number', (1, 0, 'new_oids', (0,))
    yield 'too many new numbers', (1, 0, 'new_oids', (101,))
    yield 'another profile', (1, 0, 'register', ('3', False))
    yield 'a profile that may not be written to', (1, 0, 'register', ('1', True))
    yield 'a store of no byte', (1, 1, 'storea', (oid(5), oid(0), b''))
    yield 'a user that is too long', (1, 1, 'tpc_begin', (b'u' * 65536, b'', b''))
    yield 'a user that is a text', (1, 1, 'tpc_begin', ('u', b'', b''))
    yield 'nothing to undo', (1, 0, 'undoa', (b'', b'', []))
    yield 'transactions to undo that rise', (1, 0, 'undoa', (b'', b'', [oid(1), oid(2)]))
    yield 'one transaction to undo twice', (1, 0, 'undoa', (b'', b'', [oid(1), oid(1)]))
    yield 'a count of more than 64 bits', (1, 0, 'getInvalidations', (oid(T0), 2 ** 64))
    yield 'no refusal', (1, 0, '.error', ('Refused',))
    yield 'a refusal without its field', (1, 0, '.error', ('TooLong',))
    yield 'a holder of more than 32 bits', (1, 0, '.error', ('Busy', 2 ** 32))
    yield 'a truth value that is a number', (1, 0, '.error', ('Missing', oid(1), 0))
    yield 'no reason', (1, 0, '.error', ('Conflict', oid(1), oid(0), oid(T0), 'Because'))
    yield 'a key of more than 128 bits', (1, 0, '.error', ('Conflict', oid(1), oid(0), oid(T0), 'Key', 2 ** 127))
    yield 'a key that is None', (1, 0, '.error', ('Conflict', oid(1), oid(0), oid(T0), 'Key', None))
    yield 'a list of two kinds', (1, 0, '.reply', [oid(1), (oid(1), b'', b'')])
    yield 'a stage that is none', (1, 0, '.reply', ('finding', 1))
    yield 'a number alone', (1, 0, '.reply', 5)
    yield 'three items', (1, 0, 'vote')
    yield 'five items', (1, 0, 'vote', (), None)
    yield 'a list of four', [1, 0, 'vote', ()]
    yield 'a list in two batches', (1, 0, '.reply', [oid(n) for n in range(1001)])


def length_of(number, flag, method, value):
    """How long the payload is, with its number in five bytes; what is sent without being asked has the number 0."""
    if method in ('invalidateTransaction', 'forget', 'packed'):
        return len(plain((number, flag, method, value)))
    number_size = {0x4b: 2, 0x4d: 3, 0x4a: 5}[plain(number)[2]]
    return len(plain((number, flag, method, value))) - number_size + 5


def shown(payload):
    """A field of a row: pieces of digits, runs of one byte shortened."""
    if not payload:
        return '-'
    pieces, at, run = [], 0, 0
    while at < len(payload):
        end = at
        while end < len(payload) and payload[end] == payload[at]:
            end += 1
        if end - at > 40:
            if run < at:
                pieces.append(payload[run:at].hex())
            pieces.append('%02x*%d' % (payload[at], end - at))
            run = end
        at = end
    if run < len(payload):
        pieces.append(payload[run:].hex())
    return '+'.join(pieces)


def payload_of(field):
    """The payload of such a field."""
    if field == '-':
        return b''
    pieces = [(piece + '*1').split('*')[:2] for piece in field.split('+')]
    return b''.join(bytes.fromhex(digits) * int(times) for digits, times in pieces)


MOST = 2000


def row(payload, lines):
    print('message', shown(payload))
    for line in lines:
        print('=', line)


def is_long(text):
    return len(text) > MOST


def write():
    print('# Written by bench/message_rows.py. Payloads as Python\'s `pickle` writes the tuples of the protocol, and what they are.')
    print('#')
    print('# message PAYLOAD: the message, whether it is written as this payload again, and its counted length. A message of more')
    print('# than %d letters is told by how many they are and by their SHA-256.' % MOST)
    for title, rows in ('What clients send', calls()), ('Answers', replies()), ('Refusals', refusals()), ('What is told without being asked', notices()):
        print('\n# %s.' % title)
        for value, message in rows:
            value = alone(value)
            payload = plain(value)
            assert pickle.loads(payload) == value
            told = message if not is_long(message) else '%d letters %s' % (len(message), hashlib.sha256(message.encode()).hexdigest())
            row(payload, ['%s; again true; counted %d' % (told, length_of(*value))])
    print('\n# The same tuples as `pickle.dumps` writes them: it remembers what it wrote.')
    for rows in calls(), replies(), refusals(), notices():
        for value, message in rows:
            if is_long(message):
                continue
            payload = pickle.dumps(alone(value), 3)
            assert pickle.loads(payload) == value and payload != plain(alone(value))
            row(payload, ['BadMessage'])
    print('\n# Other protocols, and what stands around a pickle.')
    vote = (1, 0, 'vote', ())
    for protocol in 0, 1, 2, 4, 5:
        row(plain(vote, protocol), ['BadMessage'])
    row(plain(vote) + b'.', ['BadMessage'])
    row(plain(vote)[:-1], ['BadMessage'])
    row(b'', ['BadMessage'])
    row(bytes.fromhex('80034e2e'), ['BadMessage'])
    print('\n# Other spellings of one number, of one tuple and of one list, all of which `pickle.loads` reads alike.')
    spelled = plain((1, 0, 'new_oids', (1,)))
    for old, new in ((b'K\x01K\x00', b'M\x01\x00K\x00'), (b'K\x01K\x00', b'J\x01\x00\x00\x00K\x00'),
                     (b'K\x01K\x00', b'\x8a\x01\x01K\x00'), (b'K\x01K\x00', b'\x8b\x01\x00\x00\x00\x01K\x00'),
                     (b'K\x01K\x00', b'I1\nK\x00'), (b'K\x01K\x00', b'K\x01q\x00K\x00'),
                     (b'K\x01\x85', b'(K\x01t'), (b'K\x01\x85', b'K\x010K\x01\x85'), (b'\x80\x03', b'\x80\x03\x80\x03')):
        payload = spelled.replace(old, new)
        assert payload != spelled and pickle.loads(payload) == (1, 0, 'new_oids', (1,))
        row(payload, ['BadMessage'])
    spelled = plain((1, 0, '.reply', [oid(1)]))
    one = b']C\x08' + oid(1) + b'a'
    for new in b'](C\x08' + oid(1) + b'e', b'(C\x08' + oid(1) + b'l', b']B\x08\x00\x00\x00' + oid(1) + b'a':
        payload = spelled.replace(one, new)
        assert payload != spelled and pickle.loads(payload) == (1, 0, '.reply', [oid(1)])
        row(payload, ['BadMessage'])
    print('\n# Tuples that are no message.')
    for why, value in just_outside():
        print('# %s' % why)
        row(plain(alone(value)), ['BadMessage'])


def check(path):
    by_message = {}
    for rows in calls(), replies(), refusals(), notices():
        for value, message in rows:
            by_message[message if not is_long(message) else '%d letters %s' % (len(message), hashlib.sha256(message.encode()).hexdigest())] = value
    count, bad, payload = 0, 0, None
    for line in open(path):
        words = line.rstrip('\n').split(' ', 1)
        if words[0] == 'message':
            payload = payload_of(words[1])
        elif words[0] == '=' and 'again true' in words[1]:
            message = words[1].rsplit('; again', 1)[0]
            value = pickle.loads(payload)
            count += 1
            good = value == by_message.get(message)
            bad += not good
            text = repr(value)
            print('ok ' if good else 'BAD', text if len(text) < 200 else text[:150] + ' ..', '|', message if len(message) < 200 else message[:150] + ' ..')
    print('%d payloads, %d of them other tuples' % (count, bad))
    return bad == 0 and count > 0


if __name__ == '__main__':
    if sys.argv[1:2] == ['check']:
        sys.exit(0 if check(sys.argv[2]) else 1)
    write()
