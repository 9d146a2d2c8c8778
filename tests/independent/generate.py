"""Random cases, deterministic for a random.Random: labels, runs, picks, faults, raw attribute values, sheets and buffer
sizes."""

from functools import cache
from random import Random

import attributes
import edges
import labels
import sheets
from edges import (BAD_ENTRIES, BAD_REFERENCES, CHARACTER_NUMBERS, EDGE_CHARACTERS, ESCAPED, GOOD_ENTRIES, GOOD_REFERENCES,
                   GRIN, ILL_FORMED, LONG_NUMBERS, MAX, MIN, NOT_XML, ODD_NUMBERS, ODD_UNITS, SIZE_MAX, THAI, WRAPPED_NUMBERS)
from labels import FONT, Limits

# ---- Pieces ------------------------------------------------------------------------------------------

def character(rng):
    """One XML character, a letter in most cases."""
    r = rng.random()
    if r < .6:
        return 'ABCflow'[int(r * 11)]
    if r < .75:
        return rng.choice(EDGE_CHARACTERS)
    if r < .85:
        return rng.choice((GRIN, THAI, '\u0baa', '{', '}'))
    if r < .92:
        return chr(rng.randint(0xE000, 0xFFFD) if r < .88 else rng.randint(0x80, 0xD7FF))
    return chr(rng.randint(0x10000, 0x10FFFF))

def utf16(text):
    data = text.encode('utf-16-le')
    return [data[i] | data[i + 1] << 8 for i in range(0, len(data), 2)]

def value(rng):
    """A size in thousandths, often where its spelling changes."""
    r = rng.random()
    if r < .4:
        return rng.choice((0, 1, 9, 10, 99, 100, 500, 999, 1000, 1001, 1010, 1100, 10000, 10500, 55500, 999000, 999999,
                           1000000, 999999000, 999999999, 1000000000, 100000000, 123456789))
    return rng.randint(0, 1000) if r < .6 else rng.randint(0, 99999) if r < .8 else rng.randint(0, Limits.THOUSANDTHS)

def glyph(rng, named):
    """A glyph record; the font chooses its index only where `named` is false."""
    r = rng.random()
    if not named and r < .6:
        index = FONT
    else:
        index = rng.choice((0, 5, 9, 10, 191, 65534, 65535)) if r < .8 else rng.randint(0, 65535)
    advance = FONT if rng.random() < .6 else value(rng)
    u = 0 if rng.random() < .6 else value(rng) * rng.choice((1, -1))
    v = 0 if rng.random() < .6 else value(rng) * rng.choice((1, -1))
    return [index, advance, u, v]

def decimal(rng, m, power):
    """Some spelling of m * 10^power without a sign, in at most 18 digits where m has no more."""
    f = rng.randint(0, 17) if rng.random() < .5 else max(0, min(17, -power))
    digits = str(m).rjust(f, '0')
    if rng.random() < .3:
        digits = digits.rjust(rng.randint(len(digits), max(18, len(digits))), '0')
    before, behind = digits[:len(digits) - f], digits[len(digits) - f:]
    spelled, e = before + ('.' + behind if behind else ''), power + f
    if e or rng.random() < .1:
        sign = '-' if e < 0 else rng.choice(('', '+'))
        spelled += rng.choice('eE') + sign + str(abs(e)).rjust(rng.randint(1, 2), '0')
    return spelled

def spelling(rng, size):
    """Some spelling of a size in thousandths, often with digits that rounding takes away; a half goes to an even size only."""
    if rng.random() < .3:
        return labels.write_value(size)
    extra = rng.randint(0, 17 - len(str(size))) if rng.random() < .5 else 0
    half = 10 ** extra // 2
    most = half if size % 2 == 0 else half - 1
    noise = max(-most, rng.choice((0, most, -most, rng.randint(-half, half - 1)))) if half else 0
    return decimal(rng, max(0, size * 10 ** extra + noise), -3 - extra)

def near_whole(rng):
    """A number without a sign, exact about as often as rounded: its last digit that isn't 0 counts about thousandths, or
    far less; or it is zero. In any count of digits."""
    r = rng.random()
    if r < .1:
        return decimal(rng, 0, rng.randint(-99, 82))
    if r < .15:
        return decimal(rng, rng.randint(1, 10 ** 18 - 1), rng.randint(-99, -14))
    trailing = rng.choice((0, 0, 1, 2, 3, 8, 14, rng.randint(0, 17)))
    m = rng.choice((1, 2, 4, 5, 15, 25, 123, 1001, 4999, rng.randint(1, 10 ** rng.randint(1, 9)))) % 10 ** (18 - trailing) or 1
    return decimal(rng, m * 10 ** trailing, rng.choice((-2, -1, -1, -1, 0, 0, 0, 0, 1)) - 3 - trailing)

def zeros(rng):
    return '0' * rng.randint(1, 25) if rng.random() < .1 else ''

# ---- Runs, each as its places: (units, cluster numbers, glyph numbers) --------------------------------

def sound_run(rng, characters=None):
    if characters is None:
        characters = 0 if rng.random() < .08 else 1 + int(rng.expovariate(.25))
    units = utf16(''.join(character(rng) for _ in range(characters)))[:Limits.UNITS]
    if units and 0xD800 <= units[-1] <= 0xDBFF:
        units[-1] = 0x41
    if not units:
        count = 1 + int(rng.expovariate(.4))
        return [], [0, 1] * count, [n for _ in range(count) for n in glyph(rng, True)]
    clusters, glyphs, used, spare = [], [], 0, Limits.GLYPHS - len(units)
    while used < len(units):
        r = rng.random()
        a = min(1 if r < .7 else 2 if r < .9 else rng.randint(1, 12), len(units) - used)
        a += labels.inside_pair(units, used + a)
        b = 1 if rng.random() < .75 else min(rng.choice((2, 2, 3, 11)), a + spare)
        clusters += [a, b]
        for _ in range(b):
            glyphs += glyph(rng, (a, b) != (1, 1))
        used, spare = used + a, spare + a - b
    if rng.random() < .4:                                           # the last 1:1 clusters and 2:1 pairs wholly the font's
        for k in range(1, rng.randint(1, len(clusters) // 2) + 1):
            a, b = clusters[len(clusters) - 2 * k:][:2]
            used -= a
            if b != 1 or a != 1 + labels.inside_pair(units, used + 1):
                break
            at = len(glyphs) - 4 * k
            glyphs[at:at + 4] = labels.WHOLLY_FONT
    return units, clusters, glyphs

def tail_character(rng):
    """A character above U+FFFF, as often as not."""
    r = rng.random()
    if r < .5:
        return rng.choice((GRIN, GRIN, '\U00010000', '\U0010FFFF', chr(rng.randint(0x10000, 0x10FFFF))))
    return rng.choice(('A', 'B', '{', '\u0451', THAI)) if r < .9 else character(rng)

def font_cluster(text):
    """A cluster of a tail, with its units and its record."""
    units = utf16(text)
    return units, (len(units), 1), [labels.WHOLLY_FONT]

def tail_clusters(rng):
    """Clusters of a sound run with their units and records: some of any kind, then some wholly the font's, pairs among them."""
    units, clusters, glyphs = sound_run(rng, rng.choice((0, 0, 1, 2, 3)))
    pieces, records = [], labels.grouped(glyphs, 4)
    for a, b in labels.grouped(clusters, 2) if units else ():
        pieces.append((units[:a], (a, b), records[:b]))
        units, records = units[a:], records[b:]
    return pieces + [font_cluster(tail_character(rng)) for _ in range(1 + int(rng.expovariate(.4)))]

def tail_run(rng):
    return edges.joined(tail_clusters(rng))

def nearly_tail_run(rng):
    """A run of tail_clusters with a cluster or two changed, put in, left out, moved, joined or divided. It may be sound
    still."""
    pieces = tail_clusters(rng)
    for _ in range(1 if rng.random() < .8 else 2):
        at, r = rng.randrange(len(pieces)), rng.random()
        units, (a, b), records = pieces[at]
        if r < .35:
            changed = rng.choice((edges.NAMED_INDEX, edges.GIVEN, (FONT, FONT, 1, 0), (FONT, FONT, 0, -1), labels.WHOLLY_FONT))
            pieces[at] = units, (a, b), [changed] + records[1:]
        elif r < .55:
            pieces.insert(rng.choice((at, len(pieces))), rng.choice(edges.BEFORE_TAIL + edges.NEVER_SOUND))
        elif r < .65:
            other = rng.randrange(len(pieces))
            pieces[at], pieces[other] = pieces[other], pieces[at]
        elif r < .75 and a == 2:
            pieces[at] = rng.choice((edges.LETTERS, edges.LOW + edges.HIGH, edges.PAIR)), (a, b), records
        elif r < .8 and len(pieces) > 1:
            del pieces[at]
        elif r < .9 and at:
            before, cluster, glyphs = pieces[at - 1]
            pieces[at - 1:at + 1] = [(before + units, (cluster[0] + a, 1), glyphs[:1])]
        elif r < .95 and a == 2:
            pieces[at:at + 1] = [(units[:1], (1, 1), records[:1]), (units[1:], (1, 1), records[:1])]
        else:
            a, b = rng.choice(((2, 1), (2, 2), (2, 0), (1, 1), (3, 1)))
            pieces[at] = units, (a, b), (records * 2)[:b]
    return edges.joined(pieces)

def random_tail_run(rng):
    """Letters and pairs in clusters that mostly fit them, most of the last wholly the font's."""
    units, pieces = utf16(''.join(rng.choices(('A', GRIN), k=rng.randint(1, 5)))), []
    written = rng.randint(-4, len(units))
    while units:
        a, b = 1 + labels.inside_pair(units, 1), 1
        if rng.random() < .1:
            a, b = rng.choice(((1, 1), (2, 1), (3, 1), (1, 2), (2, 2), (2, 0)))
        record = edges.NAMED_INDEX if len(pieces) < written else labels.WHOLLY_FONT
        if rng.random() < .1:
            record = rng.choice((edges.NAMED_INDEX, labels.WHOLLY_FONT, edges.GIVEN, (FONT, FONT, -1, 0)))
        pieces.append((units[:a], (a, b), [record] * b))
        units = units[a:]
    return edges.joined(pieces)

def clamp(number):
    return max(MIN, min(MAX, number))

def nearly_run(rng):
    """A sound run with a number or two changed, dropped, added or moved."""
    run = (sound_run if rng.random() < .8 else tail_run)(rng)
    for _ in range(1 if rng.random() < .8 else 2):
        which = rng.choice((0, 1, 1, 2))
        numbers, size = run[which], (1, 2, 4)[which] if rng.random() < .5 else 1
        at = rng.randrange(len(numbers) + 1)
        at -= at % size
        odd = rng.choice(ODD_UNITS if which == 0 else ODD_NUMBERS)
        r = rng.random()
        if r < .4:
            numbers[at:at + 1] = [odd]
        elif r < .5 and numbers:
            at = rng.randrange(len(numbers))
            numbers[at] = clamp(numbers[at] + rng.choice((-1, 1))) if which else numbers[at] ^ 1
        elif r < .65:
            del numbers[at:at + size]
        elif r < .8:
            more = [[], [[0, 1], [1, 1], [1, 0], [2, 1]], [list(labels.WHOLLY_FONT)]][which]
            numbers[at:at] = rng.choice([numbers[at:at + size], [odd] * size] + more)
        elif r < .87 and run[2]:
            at = rng.randrange(len(run[2]))
            run[2][at - at % 4] = FONT
        elif r < .95 and len(run[1]) >= 4:                          # counts moved, or adding up modulo 2^31 or 2^32
            i, j = rng.sample(range(rng.randrange(2), len(run[1]), 2), 2)
            shift = rng.choice((1, -1, 2, MAX, MIN))
            run[1][i], run[1][j] = clamp(run[1][i] + shift), clamp(run[1][j] - shift)
            if shift in (MAX, MIN):
                run[1][0:0] = [MAX, 1] if i % 2 == 0 else [1, MAX]
        elif numbers:
            i, j = rng.randrange(len(numbers)), rng.randrange(len(numbers))
            numbers[i], numbers[j] = numbers[j], numbers[i]
    return run

def random_run(rng):
    """Small clusters without a plan, with about as many units and glyphs as they say."""
    shapes = (1, 1), (1, 1), (2, 1), (1, 2), (2, 2), (0, 1), (1, 0), (3, 1)
    clusters = [n for _ in range(rng.randint(0, 4)) for n in rng.choice(shapes)]
    if rng.random() < .1:
        clusters.append(rng.choice(ODD_NUMBERS))
    counts = [min(max(0, sum(clusters[side::2])), 8) if rng.random() < .9 else rng.randint(0, 5) for side in (0, 1)]
    units = [rng.choice((0x41, 0x42, 0x7B, 0xD83D, 0xDE00)) if rng.random() < .5 else 0x43 for _ in range(counts[0])]
    glyphs = [(rng.choice((5, 5, 5, FONT)), rng.choice((FONT, 0, 7)), 0, rng.choice((0, -5))) for _ in range(counts[1])]
    return units, clusters, [n for record in glyphs for n in record]

def large_run(rng):
    """About as many units or glyphs as the limits allow, or one more."""
    count, record, kind = rng.choice((4095, 4096, 4097)), glyph(rng, True), rng.randrange(6)
    if kind == 0:
        return [], [0, 1] * count, record * count
    if kind == 1:
        return [0x41] * count, [1, 1] * count, record * count
    if kind == 2:
        return [0x41] * count, [count, 1], record
    if kind == 3:
        return [0x7B], [1, count], record * count
    if kind == 4:
        pieces = [edges.FONT_PAIR] * (count // 2)
        pieces[rng.randrange(len(pieces))] = rng.choice((edges.FONT_PAIR, edges.FONT_LETTER, edges.NAMED_PAIR, edges.GIVEN_LETTER))
        return edges.joined(pieces)
    return sound_run(rng, rng.randint(1000, 4096))

# ---- Labels ------------------------------------------------------------------------------------------

def spelled_label(rng, run):
    """A label that reads as the sound run, in any writing."""
    units, clusters, glyphs = run
    text = ''.join(map(chr, labels.characters_of(units)))
    if text.startswith('{') or rng.random() < .1:
        text = '{}' + text
    entries = []
    for at, (a, b) in enumerate(labels.grouped(clusters, 2)):
        if a == 2 and glyphs[4 * len(entries)] == FONT:             # a pair that no entry can give, before others of the tail
            clusters = clusters[:2 * at]
            break
        for k in range(b):
            index, advance, u, v = glyphs[4 * len(entries):4 * len(entries) + 4]
            head = '' if index == FONT else zeros(rng) + str(index)
            if k == 0 and a and head and ((a, b) != (1, 1) or rng.random() < .2):
                second = '' if b == 1 and rng.random() < .5 else f':{zeros(rng)}{b}'
                head = f'({zeros(rng)}{a}{second}){head}'
            fields = [head, '' if advance == FONT else rng.choice(('', '', '+')) + spelling(rng, advance)]
            for offset in (u, v):
                sign = '-' if offset < 0 else rng.choice(('', '', '+') if offset else ('', '+', '-'))
                fields.append('' if offset == 0 and rng.random() < .7 else sign + spelling(rng, abs(offset)))
            while len(fields) > 1 and fields[-1] == '' and rng.random() < .8:
                fields.pop()
            entries.append(','.join(fields))
    while entries and clusters[-2:] == [1, 1] and not entries[-1].strip(',') and rng.random() < .6:
        entries, clusters = entries[:-1], clusters[:-2]
    return text.encode(), ';'.join(entries).encode()

def valid_label(rng):
    return spelled_label(rng, sound_run(rng))

ANY_BYTE, INDICES_BYTES = range(256), b'0123456789;;,,..::(())+-eE5 {}\0\r\tx\x80'

def damaged(rng, data, alphabet):
    """One byte put in, left out or changed, the end cut off, or a stretch doubled."""
    at, byte, r = rng.randrange(len(data) + 1), bytes((rng.choice(alphabet),)), rng.random()
    if r < .3:
        return data[:at] + byte + data[at:]
    if r < .55:
        return data[:at] + data[at + 1:]
    if r < .8:
        return data[:at] + byte + data[at + 1:]
    return data[:at] if r < .9 else data[:at + rng.randint(1, 4)] + data[at:]

def damaged_label(rng):
    """A valid label with a small mutation or two."""
    text, indices = valid_label(rng)
    for _ in range(1 if rng.random() < .8 else 2):
        if rng.random() < .3:
            text = damaged(rng, text, rng.choice((b'\x80\xbf\xc2\xe0\xed\xef\xf0\xf4\xff', b'{}A\0\x1f', ANY_BYTE)))
        else:
            indices = damaged(rng, indices, INDICES_BYTES if rng.random() < .95 else ANY_BYTE)
    return text, indices

# Entries to stand behind those of a label: at a pair or in its middle, or behind the end.
MORE_ENTRIES = [b''] + b'''
    , 5 ; ;; ,40 ,,1 (2) (2)9 (1)9 (3)9 (4)9 (1:2)5;6 (2:2)5;6 (2:2)5 (3:2)5;6 (2)9; ;(2)9 (2)9;(2)9 (2)9,40 (2),40 x'''.split()

def tail_label(rng):
    """A label whose tail has pairs, in any writing; often with an entry or two more, now and then damaged."""
    text, indices = spelled_label(rng, tail_run(rng))
    r = rng.random()
    if r < .5:
        more = rng.choice(MORE_ENTRIES)
        indices = indices + b';' + more if indices or r < .2 else more
    elif r < .6:
        indices = damaged(rng, indices, INDICES_BYTES)
    return text, indices

def clean_text(rng):
    if rng.random() < .25:
        return 'AB' * rng.randint(0, 3)
    return rng.choice(('', '', '', '{}', '{}{')) + ''.join(
        rng.choice(('A', 'B', 'A', 'B', GRIN, THAI, '}', '\u0baa\u0bcb', '\r')) for _ in range(rng.randint(0, 5)))

def mixed_label(rng):
    """Texts and entries drawn from pools of good and bad ones: the order of the checks."""
    text = clean_text(rng).encode()
    if rng.random() < .1:
        at = rng.randrange(len(text) + 1)
        text = text[:at] + rng.choice((rng.choice(ILL_FORMED), rng.choice(NOT_XML).encode(), b'{', b'{a')) + text[at:]
    bad = rng.choice((0, 0, .1, .4))
    entries = [rng.choice(BAD_ENTRIES if rng.random() < bad else GOOD_ENTRIES) for _ in range(int(rng.expovariate(.4)))]
    return text, b';'.join(entries)

def number_label(rng):
    """One entry with a number of any shape, or one at and around a border of rounding or of size."""
    if rng.random() < .5:
        extra = rng.randint(0, 9)
        half = 10 ** extra // 2
        size = rng.choice((Limits.THOUSANDTHS, Limits.THOUSANDTHS, 0, 1, rng.randint(0, Limits.THOUSANDTHS))) * 10 ** extra
        number = decimal(rng, max(0, size + rng.choice((-1, 0, 1, half - 1, half, half + 1, -half, -half - 1))), -3 - extra)
    else:
        digits = ''.join(rng.choice('00123456789') for _ in range(rng.choice((1, 2, 3, 8, 17, 18, 19, 20))))
        point = rng.choice((None, None, 0, rng.randint(0, len(digits))))
        number = digits if point is None else digits[:point] + '.' + digits[point:]
        if rng.random() < .7:
            exponent = str(rng.randint(0, 99)).rjust(rng.choice((1, 1, 1, 2, 3)), '0')
            number += rng.choice('eE') + rng.choice(('', '+', '-')) + exponent
    return b'A', ('5,' + ',' * rng.randint(0, 2) + rng.choice(('', '', '+', '-')) + number).encode()

def rounded_label(rng):
    """Exact and rounded fields in clusters of one and of several glyphs; a tail; now and then a refusal behind them."""
    text, entries = '', []
    shapes = ((1, 1), (1, 1), (1, 1), (2, 1), (1, 2), (2, 3)) if rng.random() < .9 else ((0, 1),)
    for _ in range(1 + int(rng.expovariate(.5))):
        a, b = rng.choice(shapes)
        text += 'A' * a
        for k in range(b):
            head = '6' if k or not a else rng.choice(('', '5')) if (a, b) == (1, 1) else f'({a}:{b})5'
            fields = ['' if rng.random() < .3 else rng.choice(signs) + near_whole(rng)
                      for signs in (('', '+'), ('', '+', '-'), ('', '+', '-'))]
            entries.append(','.join([head] + fields[:rng.choice((1, 2, 3, 3, 3))]))
    text, indices = text + rng.choice(('', 'B', 'BB', GRIN, 'B' + GRIN)) if text else '', ';'.join(entries).encode()
    if rng.random() < .15:
        indices = damaged(rng, indices, INDICES_BYTES) if rng.random() < .5 else indices + b';' + rng.choice(BAD_ENTRIES)
    return text.encode(), indices

def utf8_label(rng):
    """Texts whose bytes lie at and around the borders of Table 3-7."""
    text = b''.join(character(rng).encode() for _ in range(rng.randint(0, 3)))
    for _ in range(rng.randint(1, 3)):
        row = rng.choice(labels.TABLE_3_7)
        piece = bytearray(rng.choice((low, high, rng.randint(low, high))) for low, high in row)
        if rng.random() < .4:
            at = rng.randrange(len(row))
            piece[at] = rng.choice((row[at][0] - 1 & 0xFF, row[at][1] + 1 & 0xFF, rng.randrange(256)))
        text += piece[:rng.randint(0, len(piece))] if rng.random() < .2 else piece
    if rng.random() < .2:
        text += rng.choice(NOT_XML).encode()
    return (text if rng.random() < .9 else b'{}' + text), rng.choice((b'', b'', b'5', b'(2)9', b'(3)9'))

def large_label(rng):
    """About as many bytes, units, entries or glyphs as the limits allow, or one more."""
    kind, count = rng.randrange(9), rng.choice((4095, 4096, 4097))
    if kind == 0:
        return ((rng.choice(('', '{}')) + character(rng) * count).encode(),
                rng.choice((b'', b'5', b'(%d)5' % count, b'(2)5;;(1:2)6;7')))
    if kind == 1:
        return rng.choice((b'', b'{}', b'A', b'A' * count)), b';'.join([rng.choice(GOOD_ENTRIES)] * count)
    if kind == 2:
        return rng.choice((b'A', b'AB')), b'(1:%d)5' % count + b';6' * (count + rng.randint(-2, 1))
    if kind == 3:
        return (rng.choice((b'A', b'{', THAI.encode(), b'\xff')) * 16385)[:Limits.TEXT_BYTES + rng.randrange(2)], b'5'
    if kind == 4:
        size = Limits.INDICES_BYTES + rng.randrange(2)
        return (rng.choice((b'', b'A', b'\xff')),
                rng.choice((b'0' * (size - 1) + b'5', b';' * size, (b'5;' * size)[:size], b'5,.' + b'0' * (size - 3))))
    if kind == 5:
        return rng.choice((b'', b'A' * 4096)), b';'.join([b'5'] * rng.randint(4000, 9000) + [rng.choice(BAD_ENTRIES)])
    if kind == 8:
        pairs, glyphs = count // 2 + rng.randrange(2), rng.randint(2047, 2051)
        return (rng.choice((b'', b'', b'{}', b'A')) + GRIN.encode() * pairs,
                rng.choice((b'', b'(2)9', b';', b'(2)9;(2)9;', b'(2:%d)9' % glyphs + b';6' * (glyphs - 1))))
    run = large_run(rng) if kind == 6 else None
    return spelled_label(rng, run if run and labels.sound(*run) else sound_run(rng, rng.randint(50, 600)))

# ---- Raw attribute values ----------------------------------------------------------------------------

NAME_OF = {given: name for name, given in attributes.NAMES.items()}
RAW_BYTES = b'&&&&##xX;;;<<\t\n\r\r amplgtquos0123456789AaFfGg\0\x80\xff'

def number_reference(rng, number):
    """A reference to a number, with any count of zeros before it, its hexadecimal digits in either case."""
    before = '0' * rng.choice((0, 0, 0, 1, 2, 6, 7, 8, rng.randint(0, 40), rng.randint(0, 300)))
    if rng.random() < .5:
        return f'&#{before}{number};'.encode()
    return ('&#x' + before + ''.join(rng.choice((digit, digit.upper())) for digit in f'{number:x}') + ';').encode()

def reference(rng, character):
    name = NAME_OF.get(character.encode())
    return b'&%s;' % name if name and rng.random() < .6 else number_reference(rng, ord(character))

def spelled_raw(rng, data):
    """A raw value that resolves to these bytes: characters raw or referenced, spaces as any raw white space. Bytes that are
    no XML character can only be raw."""
    pieces, at, often = [b''], 0, rng.choice((0, .1, .1, .5, 1))
    while at < len(data):
        character, length = labels.character_at(data, at) or (0, 1)
        piece = data[at:at + length]
        if piece in (b'&', b'<', b'\t', b'\n', b'\r') or labels.is_xml_char(character) and rng.random() < often:
            piece = reference(rng, chr(character))
        elif piece == b' ':
            piece = rng.choice((b' ', b'\t', b'\n', b'\r', b'\r\n'))
            if pieces[-1] == b'\r' and piece == b'\n':
                piece = b' '
        pieces.append(piece)
        at += length
    return b''.join(pieces)

def plain_text(rng):
    """Bytes to be spelled or escaped: characters, those that are escaped, spaces; now and then no UTF-8 or no XML."""
    pieces = [rng.choice(ESCAPED + ">' ; #") if rng.random() < .4 else character(rng) for _ in range(int(rng.expovariate(.15)))]
    data = ''.join(pieces).encode()
    if rng.random() < .15:
        at = rng.randrange(len(data) + 1)
        data = data[:at] + rng.choice(ILL_FORMED + [c.encode() for c in NOT_XML]) + data[at:]
    return data

def valid_raw(rng):
    return spelled_raw(rng, plain_text(rng))

def damaged_raw(rng):
    """A raw value with a small mutation or two."""
    raw = valid_raw(rng)
    for _ in range(1 if rng.random() < .8 else 2):
        raw = damaged(rng, raw, RAW_BYTES if rng.random() < .9 else ANY_BYTE)
    return raw

def mixed_raw(rng):
    """Pieces drawn from pools of good and bad ones: what stands next to each other, and the first fault."""
    bad = rng.choice((0, 0, .1, .4))
    plain = (b'A', b'amp;', b'lt', b';', b'#', b'>', b'"', b"'", b' ', b'\t', b'\n', b'\r', b'\r', b'\r\n', b'\n\r', b'\xff',
             THAI.encode(), b'&amp;lt;', b'&#38;#60;', b'&amp;amp;')
    pieces = []
    for _ in range(int(rng.expovariate(.25))):
        if rng.random() < bad:
            pieces.append(rng.choice(BAD_REFERENCES) if rng.random() < .7 else b'<')
        else:
            pieces.append(rng.choice(GOOD_REFERENCES) if rng.random() < .5 else rng.choice(plain))
    return b''.join(pieces)

def number_raw(rng):
    """A reference to a number at and around every border, or any; now and then damaged."""
    r = rng.random()
    if r < .35:
        number = rng.choice(CHARACTER_NUMBERS)
    elif r < .55:
        number = rng.choice(WRAPPED_NUMBERS if r < .47 else LONG_NUMBERS) + rng.choice((0, 0, 0, 1, -1))
    elif r < .75:
        number = rng.randint(0, 0x120000)
    elif r < .85:
        number = rng.randint(0, 0x10FFFF) + (rng.randint(1, 300) << rng.choice((16, 20, 21, 24, 31, 32, 63, 64, 128)))
    else:
        number = rng.randrange(10 ** rng.randint(1, 45))
    raw = number_reference(rng, number)
    r = rng.random()
    if r < .18:
        raw = damaged(rng, raw, RAW_BYTES) if r < .15 else raw.replace(b'x', b'X')
    return rng.choice((b'', b'', b'a', b'&amp;', b'\r')) + raw + rng.choice((b'', b'', b'b', b'&gt;', b'\n', b'<'))

def random_raw(rng):
    """Random bytes, or random ones of those that mean something."""
    alphabet = rng.choice((ANY_BYTE, RAW_BYTES, b'&#x41;', b'&lt;<', b'\r\n\t &#13;', b'&amp;#38'))
    return bytes(rng.choices(alphabet, k=int(rng.expovariate(.08))))

def large_raw(rng):
    """Some thousand bytes and more; now and then a fault at the end, or anywhere."""
    size = rng.choice((1000, 4096, 16384, 65536, 200000))
    piece = rng.choice((b'A', THAI.encode(), b'&lt;', b'&#x1F600;', b'\r\n', b'\xff', b'A&#9; \t', valid_raw(rng) or b'A'))
    raw, r = (piece * (size // len(piece) + 1))[:size // len(piece) * len(piece)], rng.random()
    if r < .2:
        raw += rng.choice((b'<', b'&', b'&#', b'&lt', b'&#xD800;'))
    elif r < .4:
        raw = damaged(rng, raw, RAW_BYTES)
    elif r < .5:
        raw = b'&#' + b'0' * size + rng.choice((b'65;', b'0;', b'4294967361;', b'65'))
    return raw

def raw_label(rng):
    """(raw text, raw indices): a label in any raw spelling; now and then damaged."""
    text, indices = rng.choice((valid_label, valid_label, damaged_label, mixed_label, tail_label))(rng)
    if rng.random() < .3:
        text = rng.choice((b'', b'', b'{}', b'{')) + plain_text(rng)
    raw = [spelled_raw(rng, text), spelled_raw(rng, indices)]
    if rng.random() < .2:
        which = rng.randrange(2)
        raw[which] = damaged(rng, raw[which], RAW_BYTES)
    return tuple(raw)

def escaped_run(rng):
    """A run whose text has what is escaped; now and then not sound."""
    r = rng.random()
    if r > .8:
        return nearly_run(rng) if r < .93 else nearly_tail_run(rng) if r < .97 else random_run(rng)
    units, clusters, glyphs = (sound_run if r < .6 else tail_run)(rng)
    often = rng.choice((.1, .4, 1))
    units = [ord(rng.choice(ESCAPED + ">'{A")) if rng.random() < often and not 0xD800 <= unit <= 0xDFFF else unit for unit in units]
    return units, clusters, glyphs

# ---- Sheets: lists of labels, and files ---------------------------------------------------------------

@cache
def label_pool():
    """Labels by the number of their answer, up to 100 of each: those of the edges, then generated ones, below 200 bytes but
    where the number takes more. The same for every rng."""
    rng = Random(0)
    pool = {number: [label for label in group if sum(map(len, label)) < 20_000] for number, group in edges.ANSWERED.items()}
    parts = edges.slips, edges.text_edges, edges.entry_edges, edges.rounding_edges, edges.tail_edges
    fixed = [label for part in parts for label in part()] + list(edges.half_edges())[::7]       # of these many a seventh
    draw = chooser(rng, {kind: made for kind, made in LABEL_KINDS.items() if kind != 'large'})
    for label in dict.fromkeys(rng.sample(fixed, 1500) + [draw()[1] for _ in range(1500)]):
        group = pool[sheets.answer_to(*label)[0]]
        if len(group) < 100 and sum(map(len, label)) < 200 and label not in group:
            group.append(label)
    return pool

def sheet_label(rng):
    """A label of the pool, about half of them accepted, now and then another."""
    r = rng.random()
    if r < .03:
        return rng.choice((valid_label, damaged_label, mixed_label, utf8_label, rounded_label, tail_label))(rng)
    number = 0 if r < .5 else rng.choice((1, 5, 15)) if r < .52 else rng.choice((2, 3, 4, 6, 7, 8, 9, 10, 11, 12, 13, 14))
    return rng.choice(label_pool()[number])

def sheet(rng, count=None):
    """A list of labels, a few in most cases."""
    if count is None:
        count = int(rng.expovariate(.2))
    return [sheet_label(rng) for _ in range(count)]

def long_sheet(rng):
    """Some hundreds of labels; now and then all equal but for a few."""
    count, one = rng.randint(100, 600), sheet_label(rng)
    if rng.random() < .8 or sum(map(len, one)) > 300:
        return sheet(rng, count)
    listed = [one] * count
    for at in (0, rng.randrange(count), count - 1):
        listed[at] = sheet_label(rng)
    return listed

def sized_label(rng):
    """A label that costs little to read, with sizes around a border of the fields or of the limits."""
    text, indices = rng.choice((0, 1, 255, 256, 4096, 16384, 65534)), rng.choice((1, 255, 256, 65535, 65536, 262143))
    return (rng.choice((b'A', b'{', b'\xff')) * (text + rng.randrange(2)),
            rng.choice((b'0', b'5', b'x')) * (indices + rng.randrange(3)))

def large_sheet(rng):
    """Short labels with one or two large ones among them."""
    listed = sheet(rng)
    for _ in range(rng.randint(1, 2)):
        listed.insert(rng.randrange(len(listed) + 1), sized_label(rng))
    return listed

# Lengths that are likely where one is read wrong, or past the end.
ODD_LENGTHS = (0, 1, 2, 5, 6, 7, 255, 256, 257, 65535, 65536, 2 ** 24, 2 ** 31, 2 ** 32 - 7, 2 ** 32 - 6, 2 ** 32 - 1)

def damaged_record(rng, text, indices):
    """A record whose lengths are not those of its text and indices; now and then their sum is."""
    lengths, which, r = [len(text), len(indices)], rng.randrange(2), rng.random()
    if r < .3:
        border = rng.randint(0, len(text + indices)) % 2 ** 16
        lengths = [border, len(text + indices) - border]
    elif r < .6:
        lengths[which] = max(0, lengths[which] + rng.choice((-6, -2, -1, 1, 2, 6, 7)))
    elif r < .8:
        lengths[which] = rng.choice(ODD_LENGTHS)
    elif r < .9:
        lengths.reverse()
    else:
        lengths[1] = 2 ** 32 - lengths[0] - rng.randint(1, 20)
    return sheets.write_lengths(lengths[0] % 2 ** 16, lengths[1]) + text + indices

def damaged_sheet(rng):
    """A file that is cut off, has bytes behind, a wrong header or a wrong length, or a byte or two changed."""
    listed = sheet(rng)
    records, header = [sheets.write_record(*label) for label in listed], sheets.HEADER
    for _ in range(1 if rng.random() < .7 else 2):
        r = rng.random()
        if r < .2:
            at = rng.randrange(len(header) + 1)
            header = header[:at] + rng.choice((b'', rng.randbytes(1), header[at:at + 1].lower(), header[::-1])) + header[at + 1:]
        elif r < .55 and listed:
            at = rng.randrange(len(listed))
            records[at:at + 1] = [damaged_record(rng, *listed[at])]
        elif r < .75:
            records.append(rng.choice((bytes, rng.randbytes))(rng.randint(1, 14)))
        elif r < .9 and records:
            records[-1] = records[-1][:rng.randrange(len(records[-1]) + 1)]
        else:
            records = [damaged(rng, b''.join(records), ANY_BYTE)]
    return header + b''.join(records)

def random_sheet(rng):
    """Random bytes behind the header, so many of them zeros that they make records; now and then any bytes."""
    alphabet = rng.choice((bytes(20) + b'\1\2A', bytes(50) + b'\1\2\3\6\7A5;x,', bytes(200) + b'\1\6\xff', ANY_BYTE))
    body = bytes(rng.choices(alphabet, k=int(rng.expovariate(.03))))
    return (sheets.HEADER if rng.random() < .95 else rng.choice((b'SLB', b'SLB\0\1', b'slb\1\0', b'', b'SL'))) + body

def cut_sheet(rng):
    """A file's beginning, cut anywhere, often at a record's border."""
    file, borders = sheets.HEADER, [rng.randrange(6)]
    for label in sheet(rng):
        file += sheets.write_record(*label)
        borders.append(len(file))
    near_border = rng.choice(borders) + rng.choice((-1, 0, 0, 1, 5, 6, 7))
    return file[:max(0, near_border) if rng.random() < .7 else rng.randrange(len(file) + 1)]

# ---- Picks, faults, buffer sizes ---------------------------------------------------------------------

def pick_case(rng):
    """(run, first, end): borders of clusters, both sides of the end, empty and reversed."""
    r = rng.random()
    make = sound_run if r < .6 else tail_run if r < .85 else nearly_run if r < .95 else nearly_tail_run
    run, side = make(rng), rng.randrange(2)
    count, borders = (len(run[0]), len(run[2]) // 4)[side], [0]
    for number in run[1][side::2]:
        borders.append(max(0, borders[-1] + number))
    first, end = sorted((rng.choice(borders), rng.choice(borders)))
    r = rng.random()
    if r < .4:
        first, end = first + rng.choice((-1, 0, 1)), end + rng.choice((-1, 0, 1))
    elif r < .6:
        first, end = rng.randint(0, count), rng.randint(0, count + 1)
    elif r < .7:
        first, end = 0, count
    elif r < .8:
        ends = (0, 1, count - 1, count, count + 1, 2 ** 31, 2 ** 32 - 1, 2 ** 32, 2 ** 32 + 1, 2 ** 63, SIZE_MAX)
        first, end = rng.choice(ends), rng.choice(ends)
    return run, max(0, first), max(0, end)

def fault_case(rng):
    """(text, indices, number, place): every number, places around every edge."""
    text, indices = rng.choice((valid_label, damaged_label, mixed_label, mixed_label, tail_label))(rng)
    answer = labels.read(text, indices)
    if answer[0] == 'no' and rng.random() < .4:
        return text, indices, *answer[1:]
    r, entries = rng.random(), len(labels.split_entries(indices))
    number = rng.choice((2, 3, 4, 7, 8, 9, 10, 11, 12, 14)) if r < .6 else rng.randint(0, 40)
    if r > .97:
        number = rng.choice((2 ** 32 - 1, 2 ** 32 - 2, 258, 263, 65538))
    place = rng.choice((0, 1, len(text) - 1, len(text), len(text) + 1, entries - 1, entries, entries + 1, len(indices),
                        rng.randint(0, 20), 2 ** 31, 2 ** 32, 2 ** 32 + 1, SIZE_MAX))
    return text, indices, number, max(0, place)

def around(rng, needed, step):
    """A buffer size in bytes: exact, roomy or too short for `needed` bytes in places of `step` bytes."""
    r = rng.random()
    if r < .6:
        return needed
    if r < .82:
        return needed + (rng.randint(1, step + 1) if r < .75 else rng.randint(0, 64))
    return max(0, needed - (1 if r < .9 else step if r < .95 else rng.randint(1, 2 * step) if r < .98 else needed))

# ---- Kinds, with their weights -----------------------------------------------------------------------

LABEL_KINDS = {'valid': (30, valid_label), 'damaged': (25, damaged_label), 'mixed': (30, mixed_label),
               'numbers': (8, number_label), 'rounded': (8, rounded_label), 'utf8': (7, utf8_label), 'tails': (12, tail_label),
               'large': (.05, large_label)}
RUN_KINDS = {'sound': (15, sound_run), 'nearly': (30, nearly_run), 'random': (10, random_run), 'tail-runs': (5, tail_run),
             'tail-nearly': (12, nearly_tail_run), 'tail-random': (8, random_tail_run), 'large-runs': (.05, large_run)}
PICK_KINDS = {'picks': (25, pick_case)}
FAULT_KINDS = {'faults': (20, fault_case)}
RAW_KINDS = {'raw': (8, valid_raw), 'raw-damaged': (8, damaged_raw), 'raw-mixed': (10, mixed_raw), 'raw-numbers': (8, number_raw),
             'raw-bytes': (5, random_raw), 'raw-large': (.05, large_raw)}
RAW_LABEL_KINDS = {'raw-labels': (4, raw_label)}
ESCAPED_KINDS = {'escaped': (8, escaped_run)}
SHEET_KINDS = {'sheets': (6, sheet), 'sheets-long': (.25, long_sheet), 'sheets-large': (.1, large_sheet)}
FILE_KINDS = {'sheets-damaged': (6, damaged_sheet), 'sheets-cut': (3, cut_sheet), 'sheets-bytes': (3, random_sheet)}

def chooser(rng, kinds):
    """A function that draws (name of the kind, case) by weight."""
    names, weights = list(kinds), []
    for weight, _ in kinds.values():
        weights.append(weight + (weights[-1] if weights else 0))

    def draw():
        name = rng.choices(names, cum_weights=weights)[0]
        return name, kinds[name][1](rng)
    return draw
