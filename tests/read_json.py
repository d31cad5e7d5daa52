# Reads what `aps2 list|check|run --json` prints, with Python's own parser, and prints the answer as the command says it without.
# Usage: read_json.py list|check|run older|current < OBJECTS. A name that is missing or one too many is an error, and so is another firmware.
import json
import sys

HEADS = {'WAVEFORM': ['op', 'ta', 'count', 'address'], 'MARKER': ['op', 'transition', 'state', 'count'], 'LOAD_REPEAT': ['count'],
         'REPEAT': ['address'], 'GOTO': ['address'], 'CALL': ['address'], 'PREFETCH': ['address'], 'CMP': ['code', 'mask'],
         'MODULATOR': ['op', 'nco', 'payload']}
FIRMWARE = sys.argv[2]
ENGINES = ['waveform', 'marker_0', 'marker_1', 'marker_2', 'marker_3', 'modulator']


def only(thing, names):
    assert list(thing) == names, (list(thing), names)
    return [thing[name] for name in names]


def line(word):
    name = word['name']
    bad = ['number', 'kind', 'bit'] if word.get('number') == 11 else ['number']
    names = ['place', 'name'] + (bad if name == 'BAD' else [] if name == 'NOOP' else ['engine', 'write'] + HEADS.get(name, []))
    return '\t'.join(str(value) for value in only(word, names))


def told(number, bit):
    """Beside 111 to 113 the bit, which is 0 beside every other number."""
    if 111 <= number <= 113:
        return ', bit %d' % bit
    assert bit == 0, (number, bit)
    return ''


def listed(a):
    file, status, firmware, words = only(a, ['file', 'status', 'firmware', 'listing'])
    assert firmware == FIRMWARE
    return ['aps2-listing\t1'] + [line(word) for word in words]


def checked(a):
    if a['status'] == 2:
        return [only(a, ['file', 'status'])[0] + ': no answer']
    file, status, number, place, bit, words, wave, firmware = only(a, ['file', 'status', 'number', 'place', 'bit', 'words', 'wave', 'firmware'])
    assert status == (number != 0) and firmware == FIRMWARE
    said = 'accepted: %d words' % words if number == 0 else 'refused: %d' % number + (' at word %d' % place if words else '')
    return [file + ': ' + said + told(number, bit)]


def engines(counts):
    return ['\t%s\t%d' % (name.replace('_', ' '), n) for name, n in zip(ENGINES, only(counts, ENGINES))]


def ran(a):
    core = ['address', 'steps', 'messages_used', 'trace_length', 'repeat_counter', 'register', 'condition', 'held', 'stack_depth']
    values = only(a, ['file', 'status', 'end', 'bit', 'words', 'wave', 'firmware'] + core + ['stack', 'trigger_waits', 'quad_samples', 'trace'])
    said = [name.replace('_', ' ') + '\t' + str(value) for name, value in zip(core, values[7:16])]
    for depth, entry in enumerate(a['stack']):
        said.append('\tentry %d\treturns to %d\tcounter\t%d' % tuple([depth] + only(entry, ['returns_to', 'counter'])))
    assert a['firmware'] == FIRMWARE
    assert len(a['stack']) == a['stack_depth'] and len(a['trace']) == a['trace_length']
    said += ['trigger waits'] + engines(a['trigger_waits']) + ['quad-samples'] + engines(a['quad_samples'])
    return ['end %d' % a['end'] + told(a['end'], a['bit'])] + said + ['trace %d' % len(a['trace'])] + a['trace']


says = {'list': listed, 'check': checked, 'run': ran}[sys.argv[1]]
for text in sys.stdin:
    for said in says(json.loads(text)):
        print(said)
