"""Fixed cases: every refusal, every limit from both sides, and pools that generate.py draws from."""

from itertools import product

import labels
import sheets
from labels import FONT

GRIN, THAI = '\U0001F600', '\u0e33'
MAX, MIN, SIZE_MAX = 2 ** 31 - 1, -2 ** 31, 2 ** 64 - 1

# First and last character of each row of Table 3-7 and of each range of XML's Char, and some others.
EDGE_CHARACTERS = [chr(c) for c in (
    0x9, 0xA, 0xD, 0x20, 0x7B, 0x7D, 0x7F, 0x80, 0x9F, 0x7FF, 0x800, 0xFFF, 0x1000, 0xCFFF, 0xD000, 0xD7FF, 0xE000,
    0xFDD0, 0xFEFF, 0xFFFD, 0x10000, 0x1FFFE, 0x3FFFF, 0x40000, 0xFFFFF, 0x100000, 0x10FFFF)]
NOT_XML = [chr(c) for c in (0x0, 0x1, 0x8, 0xB, 0xC, 0xE, 0x1F, 0xFFFE, 0xFFFF)]
ILL_FORMED = [bytes.fromhex(h) for h in '''
    80 BF C0 C080 C1BF C2 C27F C2C0 DF DFC0 E0 E09F80 E08080 E0A0 E0A07F E0C080 E180 E18041 E17F80 ED EDA080 EDAFBF
    EDB080 EDBFBF EDA080EDB080 EF EFBF EFBFC0 F0 F08080 F08FBFBF F090 F09080 F0908041 F09F98 F1808041 F3BFBF F4
    F4908080 F48FBF F48FBFC0 F5808080 F7BFBFBF F8 F888808080 FC FE FF'''.split()]

GOOD_ENTRIES = [b'', b''] + '''
    5 6 7 , ,, ,,, ,40 ,0 ,,0 ,,.5 ,,,-1 5, 5,0 5,,, 5,,,16 5,,-1 0 65535 065535 00000000000000000000005
    5,.5,+.5,-.5 07,+55.50,,0 5,1e6 5,1000000.0004 5,.0005 5,.0004 5,,-0 5,,-.0004 5,,-.0005 5,0e99 5,.000e+99
    5,1E-99 5,1e01 5,000000000000000001 (1)5 (1:1)5 (01:001)5 (2)5 (2:1)192 (002)5,1 (3)9 (1:2)5 (1:2)124 (2:2)5
    (2:3)34 (1:3)5 (3:2)7,1,2,3'''.encode().split()
NOT_WELL_FORMED = [b' ', b' 5', b'5 ', b'5,1 ', b'5, 1', b'(1 )5', b'\t', b'\r', b'5\r', b'\0', b'5\0', b'5\x80'] + '''
    x 5,-1 5,-0 5,-.0 5,,,, ,,,, 5,1. 5,. 5,1..5 5,1.5.5 5,e5 5,.e5 5,1e 5,1e+ 5,1e- 5,1e+-1 5,1e1.5 5,1e1e1 5,++1
    5,+ 5,,+ 5,,- 5,,--1 5,,+-1 5,,-+1 5,0x1 5,1f 5,inf 5,,nan 5,1_0 +5 -5 5.0 5e0 ( ) () ()5 (1 (1) (1:2) (1)x (1),5
    (1:)5 (:1)5 (:)5 (1:1:1)5 (1.0)5 (+1)5 (-1)5 (1,1)5 ((1))5 (1)(1)5 5(1) 1:2 5:1 {} 70000,x 5,1e001x'''.encode().split()
LARGE_COUNTS = [n.encode() for n in (
    '4097', '65537', '4294967295', '4294967296', '4294967297', '4294967298', '18446744073709551615', '18446744073709551616',
    '18446744073709551617', '18446744073709551618', '340282366920938463463374607431768211457', '9' * 20, '9' * 50)]
BAD_ENTRIES = NOT_WELL_FORMED + '''
    65536 065536 70000 99999999999999999999 4294967296 4294967301 18446744073709551621 (0)70000 (9)65536 70000,1e9
    5,1e9 5,1e001 5,1e+000 5,0e100 5,0000000000000000001 5,.0000000000000000001 5,1.000000000000000000 5,1e99 (0)5,1e9
    5,1000000.0006 5,,1000000.001 5,,-1000000.0006 5,,,1e7 5,1,1,-1E+07
    (0)5 (00)5 (0:1)5 (1:0)5 (0:0)5 (1:000)5 (2:0)5 (9)5'''.encode().split() \
    + [pattern % count for count in LARGE_COUNTS for pattern in (b'(%s)5', b'(1:%s)5')]

# What may stand in a raw attribute value, and what may not.
NAMED = b'&amp; &lt; &gt; &quot; &apos;'.split()
GOOD_REFERENCES = NAMED + b'''
    &#9; &#10; &#13; &#x9; &#xA; &#xd; &#32; &#38; &#x26; &#60; &#x3C; &#123; &#x7d; &#0065; &#x000041; &#x7F; &#128; &#x7FF;
    &#x800; &#xD7FF; &#xE000; &#65533; &#x10000; &#x1F600; &#1114111; &#x10fffF;'''.split()
BAD_REFERENCES = b'''
    & &; &# &#; &#x &#x; &#X41; &#X; &x41; &41; &nbsp; &copy; &AMP; &Amp; &amP; &LT; &lT; &GT; &Gt; &QUOT; &Quot; &APOS; &Apos;
    &a; &am; &ap; &amp &ampp; &aamp; &amp: &amp, &l; &t; &lt &ltt; &llt; &g; &gt &gtt; &q; &quo; &quot &quott; &apo; &apos
    &aposs; &ltgt; &amplt; &#65 &#x41 &#65: &#65, &65; &#x;41; &#;65; &#+65; &#-65; &#x+41; &#x-41; &#0x41; &#x0x41; &#xx41;
    &##65; &#&#65;; &#65.; &#6.5; &#6_5; &#1e2; &#65a; &#A; &#a5; &#xg; &#x4G; &#x4h; &&amp; && &&& &amp&amp; &lt&gt; &am&amp;p;
    &#6&#53;; &#x4&#x31;; &lt< &#60 &#60< &#0; &#00; &#x0; &#1; &#8; &#xB; &#11; &#12; &#xE; &#x1F; &#31; &#xD800; &#55296;
    &#xDBFF; &#xDC00; &#xDFFF; &#57343; &#xFFFE; &#xFFFF; &#65534; &#65535; &#x110000; &#1114112; &#4294967361;
    &#18446744073709551681; &#x100000041;'''.split() + [
    b'& amp;', b'&amp ;', b'&a mp;', b'&\tlt;', b'&lt\n;', b'&# 65;', b'&#65 ;', b'&#6 5;', b'& #65;', b'&#\r65;', b'&#x 41;',
    b'&# x41;', b'&#x41\t;', b'&\0;', b'&amp\0;', b'&#65\0;', b'&#65\x80;', b'&\xe1mp;', b'&am\xf0;', b'&#\xb6\xb5;', b'&amp\xbb;',
    '&#\u0666\u0665;'.encode(), '&#\uff16\uff15;'.encode(), '&#x\uff14\uff11;'.encode(), '&amp\uff1b'.encode(), '&\u0e33;'.encode()]

ODD_NUMBERS = (-2, -1, 0, 1, 2, 3, 4, 65535, 65536, 999999999, 10 ** 9, 10 ** 9 + 1, -10 ** 9, -10 ** 9 - 1,
               MAX, MAX - 1, MIN, MIN + 1)
ODD_UNITS = (0, 1, 9, 10, 13, 0x1F, 0x20, 0x7B, 0xD7FF, 0xD800, 0xDBFF, 0xDC00, 0xDFFF, 0xE000, 0xFFFD, 0xFFFE, 0xFFFF)

# ---- Labels ------------------------------------------------------------------------------------------

def slips():
    """The labels of "Where readers of this standard slip"."""
    for text, indices in (
            # "Counting characters in place of units."
            (GRIN, '(1)9 (2)9'), (GRIN + 'A', '(2)9;5 (2)9;5;6 (2)9'), (GRIN * 2, '(2)9 (3)9 (4)9 (2)9;(2)9'),
            ('A' + GRIN, '5 ;(2)9'), (THAI * 3, '5;6;7 5;6;7;8'),
            # "Taking a trailing `;` for nothing."
            ('A', '5; ; (1:2)5; (1:2)5;6;'), ('AB', '5; ; 5;6; (1:2)5;6;'), ('ABC', '5;;'), ('', '5; ;'),
            # "Reading an absent advance as 0."
            ('A', '5 5, 5,0 5,,0 5,,1 5,0,1 ,0 ,'),
            # "Dropping `{}` again in `{}{}`."
            ('{}{}', '5;6 5 ;6'), ('{}{}{}', '; 5;6;7;8'), ('{}{', '5'), ('{}', '5'), ('{}A', '5'), ('{', '5'), ('{A', '5'),
            ('A{}', '5;6;7'), ('{}{}A', '5;;6'),
            # "Writing half of a run before a late refusal."
            ('ABCD', '5;6;7;x 5;6;7;65536 5;6;(1:2)7;8;9;10 5;6;7;(1:2)8 5;6;7;8,1e9 5;6;7;(0)8 5;6;7;(2)8 5;(1:3)6;7;'),
            ('ABC' + GRIN, '5;6;7;8 5'),
            # "Dropping a font entry in the middle."
            ('ABC', '5;;6 ;;6 ;5 ;;,0 5;,;6'), ('ABCD', '5;;;6 5;;6; (1:2)5;6;;7')):
        yield text.encode(), b''
        for one in indices.split():
            yield text.encode(), one.encode()

def size_edges():
    """1, with what would be refused later."""
    for size in (16383, 16384, 16385, 20000):
        for text in (b'A' * size, (b'{}' + b'A' * size)[:size], b'{' + b'A' * (size - 1), b'A' * (size - 1) + b'\xff',
                     b'\1' * size):
            yield text, b'5'
    for size in (262143, 262144, 262145):
        many = (b'5;' * size)[:size]
        for text in (b'', b'{}', b'\xff', b'\0', b'{A', b'AB', GRIN.encode()):
            yield text, many
        for first, filler, last in (
                (b'', b'0', b'5'), (b'', b'9', b''), (b'', b';', b''), (b'5,', b'0', b''), (b'5,1e', b'0', b''),
                (b'(', b'9', b')5'), (b'(1:', b'9', b')5'), (b'(', b'0', b'1)5'), (b'5,.', b'1', b''), (b'', b'(', b''),
                (b'', b',', b'')):
            yield b'A', first + filler * (size - len(first + last)) + last
        yield b'', many[:-1] + b'x'

def text_edges():
    """2, 3 and 4, and each border of Table 3-7 and of XML's Char."""
    for bad in ILL_FORMED + [c.encode() for c in NOT_XML]:
        for before in (b'', b'A', b'{}', b'{', GRIN.encode(), THAI.encode()):
            for after in (b'', b'A', b'\x80', b'\xff', b'\0'):
                yield before + bad + after, b'5'
    for row in labels.TABLE_3_7:
        lowest = [low for low, high in row]
        for at, (low, high) in enumerate(row):
            for byte in (low - 1, low, low + 1, high - 1, high, high + 1, 0, 0x7F, 0x80, 0xBF, 0xC0, 0xFF):
                piece = bytes(lowest[:at] + [byte & 0xFF] + lowest[at + 1:])
                for text in (piece, b'A' + piece + b'B', b'{}' + piece, piece[:-1], piece[:-1] + b'A'):
                    yield text, b'(2)5'
    for c in list(range(0x30)) + list(map(ord, EDGE_CHARACTERS)):
        yield chr(c).encode(), b''
        yield ('A' + chr(c)).encode(), b';(2)5'
    yield b'{' + b'A' * 5000, b''

def count_edges():
    """5, 6 and 15, and 13 among many units."""
    for count in (4095, 4096, 4097):
        fives = b';'.join([b'5'] * count)
        for text in (b'A' * count, b'{}' + b'A' * count, '\u0800'.encode() * count, b'A' * (count - 2) + GRIN.encode()):
            for indices in (b'', b'5', b'(%d)5' % count, b'(%d)5' % (count - 1), b'(2:2)5;6', b'(1:2)5;6', b'(1:3)5;6;7', b'(2)5',
                            b'(%d:2)5;6' % (count - 2), b';' * (count - 2), b';' * (count - 1), b';' * count, fives, fives + b';5',
                            b'(2:%d)5' % count):
                yield text, indices
        yield GRIN.encode() * (count // 2), b';'.join([b'(2)5'] * (count // 2))
        yield GRIN.encode() * (count // 2), b''
        for more in (b'', b';x', b';', b';(0)5', b';65536', b';5,1e9', b';6'):
            yield b'', fives + more
            yield b'{}', fives + more
        for text in (b'A', b'AB', b'ABC'):
            for entries in (count - 1, count, count + 1):
                yield text, b'(1:%d)5' % count + b';6' * (entries - 1)
                yield text, b'5;(1:%d)5' % (count - 1) + b';6' * (entries - 2)
        yield b'AB', b'(1:%d)5' % count + b';6' * (count - 1) + b';x'
        yield b'A' * 10, b'(1:%d)5' % (count - 9) + b';6' * (count - 10)        # `count` glyphs with the tail
    yield b'A' * 4096, b';'.join([b'5'] * 5000)
    yield b'A', b'(1:5000)5' + b';6' * 4500                                     # 14 before 15
    yield b'AB' + GRIN.encode(), b'(1:4500)5' + b';6' * 4499                    # 15, a pair in the tail
    yield b'', b';'.join([b'5'] * 5000 + [b'x'])
    for text in (b'', b'{}'):
        yield text, b''
        for indices in b'; , 5 5;6 5; ;5 (1)5 (0)5 (1:2)5;6 ,5 5,1,2,3;6 65536 x 5;(1:1)5 5;6;7,,-1'.split():
            yield text, indices

def entry_edges():
    """7 to 14: each good and bad entry in several surroundings, counts of any size, pairs."""
    for entry in BAD_ENTRIES + GOOD_ENTRIES:
        for text, before, after in (
                ('A', '', ''), ('A', '5;', ''), ('ABCDE', '5;', ''), ('ABCDE', '', ';5'), ('AB', '(1:2)5;', ''),
                ('ABC', '(1:3)5;', ';6'), ('AB', '(2:2)5,1;', ';x'), ('', '', ''), ('', '5;', ';6'), (GRIN, '', ''),
                ('A' + GRIN, '5;', ''), (GRIN + 'A', '(2)9;', '')):
            yield text.encode(), before.encode() + entry + after.encode()
    for number in range(65520, 65550):
        yield b'A', b'%d' % number
        yield b'A', b'(1)%025d' % number
    for n in [b'0', b'00', b'1', b'2', b'3', b'4', b'5', b'4096', b'0' * 50 + b'1'] + LARGE_COUNTS:
        for text in ('A', 'ABC', 'AB' + GRIN, GRIN + 'A'):
            for indices in b'(N)5 (N:1)5 (1:N)5 (N:N)5 (1:N)5;6 (2:N)5;6 5;(N)6 5;(1:N)6;7;8 (2:N)6;7;x'.split():
                yield text.encode(), indices.replace(b'N', n)
    for text in (GRIN, 'A' + GRIN, GRIN + 'B', GRIN * 2, 'AB' + GRIN, '{}' + GRIN, '{}{' + GRIN):
        yield text.encode(), b''
        for indices in b'''5 ; (2)5 (3)5 (4)5 (1:2)5 (1:2)5;x (1:2)5;6 (2:2)5;6 (2:2)5 5;(1:3)6;7 5;(2)6 ;; 5;6 (2)5;(1:2)6
                           (2)5;(2:2)6 (1)5;x'''.split():
            yield text.encode(), indices

def number_edges():
    """9: digit counts, exponents and sizes from both sides of the limits, in each field."""
    numbers = []
    for e in range(-99, 100):
        for digits in ('1', '5', '0', '.5', '9' * 18, '0' * 17 + '1', '.' + '0' * 17 + '1', '4' + '9' * 17, '123456789.123456789'):
            numbers.append(f'{digits}e{e}')
        for m in '''1 5 4 15 999999999 1000000000 1000000001 4999999999 9999999994 9999999995 10000000004 10000000005
                    100000000000000000'''.split():
            if abs(len(m) + e - 7) <= 8:
                numbers.append(f'{m}E{e:+03d}')
    for k in range(20):
        z = '0' * k
        for digits in '''1 1000000 1000000.0004 1000000.0005 1000000.00049999999 1000000.00050000000 999999.9995 .0005 .0004
                         1e06'''.split():
            numbers.append(z + digits)
        numbers += [f'1{z}', f'1.{z}5', f'.{z}5', f'.{z}5e20', f'1e{z}6', f'1{z}e{6 - k}', f'1{z}5e{5 - k}', f'.{z}1e{7 + k}',
                    f'.{z}10000000004e{7 + k}', f'.{z}10000000005e{7 + k}']
    nine = '9' * 9
    numbers += f'''{nine * 2} {nine * 2}9 .{nine * 2} .{nine * 2}9 {nine}.{nine} {nine}.{nine}9 1e-99 1e-100 1e99 1e100 0e99 0e100
                   0e099 .000e+99 1e+06 1e+006'''.split()
    for number in numbers:
        yield b'A', b'5,' + number.encode()
    for number in numbers[::7] + '1000000 1000000.0004 1000000.0005 .0004 .0005 0 1e6 1000000.0005000000'.split():
        for before in '5,+ 5,- 5,, 5,,+ 5,,- 5,,, 5,,,- 5,0,0,+ , ,,-'.split():
            yield b'A', (before + number).encode()

def in_digits(m, f, e):
    """The digits m, f of them behind the point and zeros put before them where there are fewer, with exponent e."""
    digits = m.rjust(f, '0')
    before, behind = digits[:len(digits) - f], digits[len(digits) - f:]
    return before + ('.' + behind if f else '') + (f'e{e}' if e else '')

def rounding_edges():
    """The count of rounded fields: both sides of the border between exact and rounded, zeros, the limit of size, and
    labels of several counted fields, accepted and refused."""
    # the last digit that isn't 0 counts tenths of a thousandth, thousandths or tens of them, in turn in each field
    for f in range(19):
        for zeros in (0, 1, 2, 3, 6, 11, 14, 17):
            m = ('1', '25', '1024', '4999')[(f + zeros) % 4][:18 - zeros] + '0' * zeros
            fields = [in_digits(m, f, f - 3 - zeros + (f + zeros + k) % 3 - 1) for k in range(3)]
            yield b'A', ('5,' + ','.join(fields)).encode()
    # zeros are exact, in any count of digits and with any exponent
    for e in range(-99, 100, 3):
        counts = [1 + (e + k) % 18 for k in range(3)]
        fields = [in_digits('0' * count, (e + 7 * k) % (count + 1), e) for k, count in enumerate(counts)]
        yield b'A', ('5,' + ',-'.join(fields)).encode()
    for number in '''
            1000000 1e6 1000000.0000 1000000.0004 1000000.0005 1000000.00000000000 1000000.00000000001 1000000.00049999999
            999999.999 999999.9990 999999.9994 999999.9995 999999999999999999e-12 10000000004e-4 10000000005e-4
            1000000000000e-6 100000000000000000e-11 100000000000000001e-11 .1e7 .10000000004e7 .100000000000000000e7
            .000001e12 1.5000 100e-5 10e-5 5e-3 5E-04 1000e-6 100e-6 123000000000000e-12 123000000000000e-16 1e-99'''.split():
        for before in ('5,', '5,,-', '5,,,+'):
            yield b'A', (before + number).encode()
    for text, indices in (
            ('A', '5,.0005,,1e-4 5,1.5,.0005,-1e-4 5,.0005,-.0005,+.0005 ,.0005 ,,.0005 5,,,.0001 5,+.0001,, 5,.0005,x 65536,.0005'),
            ('A', '5,.0005,1e7 5,1e7,.0005 5,1000000.0004,1000000.0005 (0)5,.0005 (2)5,.0005 (1:2)5,.0005 5,.0005;6,.0005'),
            ('A', '(1:3)5,.0005;6,1e-4,1.0000;7,,.0004,-.0005 (1:2)5;6,.0005 (1:2)5,.0005;,.0005 (1:2)5;(1)6,.0005'),
            ('ABC', '5,.0005 ;6,.0005;, (2:2)5,.5;6,.0005,.5;7,.0005 5,.0005;6;x 5,.0005;(1:3)6,.0005;7,.0005 5,.0005;65536;x'),
            ('', '5,.0005 5,.0005;6,1;7,.0001,,.0001 5,.0005; ,.0005'), ('A' + GRIN, '5,.0005 5,.0005;6,.0005 5,.0005;(2)6,.0005')):
        for one in indices.split():
            yield text.encode(), one.encode()
    for count in (4096, 4097):
        yield b'', b';'.join([b'5,.0001,.0001,-.0001'] * count)                 # no label has more rounded fields
        yield b'A' * count, b';'.join([b',.0005'] * 4096)

def tail_edges():
    """Change request 4: pairs at the start, in the middle and at the end of the tail; entries that end before, at and inside
    a pair, and one entry more; 5 and 15 counted with pairs."""
    texts = [''.join(pieces) for count in range(1, 5) for pieces in product('A' + GRIN, repeat=count)]
    for pair in (GRIN, '\U00010000', '\U0010FFFF'):
        texts += (pattern.replace('_', pair) for pattern in ('\u0e33_', '_\u0e33', '\u0451_\u0451_', '{}_', '{}{_', '{}_{}'))
    texts += ('\U00010000\U0010FFFF', '\uFFFD\U00010000\uE000', '\uD7FF\U0010FFFF\uE000' + GRIN)
    more = ([], [''], ['', ''], [','], ['5'], ['(2)9'], ['(2:2)9', '6'], ['(1:2)5', '6'], ['(1:2)5', '(2)6'], ['(3)9'],
            ['(3:2)9', '6'], ['(2:3)9', '6'], [',40'], [',,-1'], ['', '(2)9'], ['(2)9', ''], ['(2)'])
    for text in texts:
        written = ['5' if character <= '\uFFFF' else '(2)9' for character in text.removeprefix('{}')]
        for used, further in product(range(len(written)), more):
            yield text.encode(), ';'.join(written[:used] + further).encode()
        yield text.encode(), ';'.join(written).encode()
    yield b'{' + GRIN.encode(), b''
    for pairs in (GRIN.encode() * count for count in (2047, 2048, 2049)):
        yield from ((text, b'') for text in (pairs, b'{}' + pairs, b'{}{' + pairs, b'A' + pairs, pairs + b'A'))
    pairs, written = GRIN.encode() * 2048, b'(2)9' + b';(2)9' * 2046
    for indices in (b'(2)9', b';', written, written + b';', written + b';(2)9', b'(4095)9'):
        yield pairs, indices
    for glyphs in (4096, 4097):                                                 # a pair of the tail counts one
        for text, a, tail in ((pairs, 2, 2047), (b'A' + pairs[4:] + b'B', 1, 2048)):
            yield text, b'(%d:%d)9' % (a, glyphs - tail) + b';6' * (glyphs - tail - 1)

# Whole thousandths below a half, even and odd in turn. The limit's half is the largest number that is accepted.
LIMIT = labels.Limits.THOUSANDTHS
WHOLE_BELOW = 0, 1, 2, 9, 10, 99, LIMIT - 2, LIMIT - 1

def half_shapes():
    """Every shape of a number that can be an exact half of a thousandth: its count of digits, up to 18, how many of these are
    behind the point, the exponent, and how many count less than a thousandth. Of the latter the first is the 5."""
    for f, e in product(range(19), range(-99, 100)):
        lower = f - e - 3
        for count in range(max(1, f, lower), 19) if lower > 0 else ():
            yield count, f, e, lower

def fitting(wholes, shape):
    """Those of the whole thousandths that the shape has digits for."""
    count, _, _, lower = shape
    return [whole for whole in wholes if whole < 10 ** (count - lower)]

def exponents(e):
    """Spellings of an exponent."""
    signs = ('-',) if e < 0 else ('', '+') if e else ('', '+', '-')
    spelled = [mark + sign + digits for mark in 'eE' for sign in signs for digits in (str(abs(e)), f'{abs(e):02}')]
    return spelled if e else [''] + spelled

def around_half(shape, whole, steps, turn):
    """The number of that shape that is a half above the whole thousandths, or so many steps of its last place away from it.
    The spellings of the exponent take turns."""
    count, f, e, lower = shape
    m, spelled = whole * 10 ** lower + 10 ** lower // 2 + steps, exponents(e)
    return in_digits(str(m).rjust(count, '0'), f, 0) + spelled[turn % len(spelled)]

def in_fields(numbers, turn):
    """A label with one of three numbers in each field. Fields and signs take turns, signs more slowly, so that in each field
    each sign meets halves above even and odd thousandths."""
    signs = ('', '+')[turn // 72 % 2], ('-', '', '+')[turn // 6 % 3], ('-', '-', '+', '')[turn // 18 % 4]
    fields = [sign + numbers[(turn + k) % 3] for k, sign in enumerate(signs)]
    return b'A', ('5,' + ','.join(fields)).encode()

def half_edges():
    """Change request 6: halves in every shape, above even and odd thousandths and above the limit, and the numbers next to
    them; values that a half makes 0."""
    for turn, shape in enumerate(half_shapes()):
        wholes, slow = fitting(WHOLE_BELOW, shape), turn // 6                   # exponents take turns as slowly as signs
        wholes = [wholes[(turn + k) % len(wholes)] for k in range(3)]
        yield in_fields([around_half(shape, whole, 0, slow + k) for k, whole in enumerate(wholes)], turn)
        yield in_fields([around_half(shape, whole, steps, slow) for whole, steps in zip(wholes, (-1, 1, 0))], turn)
        if fitting([LIMIT], shape):
            half, below = (around_half(shape, LIMIT, steps, slow) for steps in (0, -1))
            yield in_fields([half, half, below], turn)
            above = ((LIMIT, 1), (LIMIT + 1, -1), (LIMIT + 1, 0), (LIMIT + 1, 1), (LIMIT + 2, 0))[turn % 5]
            yield in_fields([half, around_half(shape, *above, slow), below], turn)
    for number in '''
            1000000.0005 1000000.00050000000 1000000.000500000000 1000000.00050000001 1000000.0006 01000000.0005
            00000001000000.0005 000000001000000.00050 1.0000000005E+06 .10000000005e7 10000000005e-4 100000000050000000e-11
            1000000000500000000e-12 999999.9985 999999.9995'''.split():
        for before, after in (('5,', ''), ('5,,-', ''), ('5,,,+', ''), ('5;6,', ';7'), ('(1:2)5;6,,', '')):
            yield b'ABC', (before + number + after).encode()
    for text, indices in (
            ('A', '5,.0005 5,,.0005 5,,-.0005 5,,,-.0005 5,,.0005,-.0005 5,.0015,-.0015,.0015 5,.0025,-.0025,.0025 5,,.0015,.0005'),
            ('A', ',.0005 ,,.0005 ,,-.0005,+.0005 ,,.0015 ,,,-.0025 (1:2)5,,.0005;6,.0005 (1:2)5,.0015;6,,,-.0005'),
            ('AB', ',,.0005;,,-.0005 5;,,.0005 ,,.0005;5 5;,.0005 ,,.0015;,,.0005 (2)5,,.0005,-.0005 (2:2)5,.0025;6,,.0005'),
            ('', '5,,.0005;6,.0005 5,.0015;6,,-.0025'), ('A' + GRIN, ',,.0005 ,,.0015 ,.0005 5,,,-.0005 5;(2)6,,.0005')):
        for one in indices.split():
            yield text.encode(), one.encode()

def base_edges():
    for part in (slips, text_edges, entry_edges, number_edges, count_edges, size_edges):
        yield from part()

def label_edges():
    yield from base_edges()
    yield from rounding_edges()
    yield from tail_edges()
    yield from half_edges()

def line_edges():
    """Labels whose lines are at and above the limits of the programs."""
    for size in (32766, 32767, 32768, 32769, 32770, 65536, 262144, 262145):
        for text in (b'A', b'', b'\xff', b'A' * 16385):
            for first, filler, last in ((b'', b'0', b'5'), (b'5,', b'0', b''), (b'', b'x', b''), (b'', b';', b'')):
                yield text, first + filler * (size - len(first + last)) + last
            yield text, (b'5;' * size)[:size]
    for text in (b'A' * 4096, b'{}' + b'A' * 4096, b'A' * 4097, THAI.encode() * 4096, THAI.encode() * 4097, b'A' * 16384,
                 b'A' * 16385, b'\xff' * 16384, b'\xff' * 16385, b'A' * 40000, b'A' * 300000):
        for indices in (b'', b'5', b'x'):
            yield text, indices

# Whole inputs of a program that reads one label: lines missing, unended, too many, ended as on other systems.
INPUTS = (b'', b'\n', b'\n\n', b'\n\n\n', b'A', b'A\n', b'A\n5', b'A\n5\n', b'A\n5\nx', b'A\n5\n\n', b'\n5', b'\n5\n', b'\n5\nx',
          b'A\n\n5', b'A\r\n5', b'A\r\n5\r\n', b'A\n5\r\n', b'A\r', b'\r\n\r\n', b'{}\n', b'{}\n5', b'A\0\n5', b'A\n5\0\n')

# ---- Runs --------------------------------------------------------------------------------------------

def longest_writing():
    """The sound run with the longest normal indices: 4,096 units and glyphs, all fields full, most bytes in maps."""
    return [0x800] * 4096, [2, 1] * 1364 + [1, 2] * 1365 + [3, 2], [65535, 999999999, -999999999, -999999999] * 4096

def run_edges():
    """Each rule of soundness kept and broken."""
    a, named, font = [0x41], [5, 10, 0, 0], list(labels.WHOLLY_FONT)
    yield from (([], [], []), (a, [1, 1], named), (a, [1, 1], font), ([], [0, 1], named), ([], [0, 1, 0, 1], named * 2))
    yield from ((a * k, [1, 1] * k, (named + font * (k - 1))[:4 * k]) for k in range(1, 5))
    yield from (
        ([], [1, 1], named), (a, [], named), (a, [1, 1], []), (a, [1], named), (a, [1, 1], named[:3]), (a, [1, 1], named * 2),
        (a * 2, [1, 1], named), (a, [1, 1, 1], named), (a, [1, 1, 0, 1], named * 2), (a, [0, 1, 1, 1], named * 2),
        (a, [1, 1, 1, 0], named), (a, [1, 2, 0, -1], named), (a, [2, 1, -1, 0], named), ([], [0, 1], font), ([], [0, 2], named * 2),
        ([], [1, 1, -1, 0], named), ([], [0, 1], named[:3]), ([], [0, 0], []), ([], [0, 0, 0, 1], named), (a, [1, 0], []),
        (a, [MAX, 1, MAX, 1, 3, 1], named * 3), (a, [1, MAX, 1, MAX, 1, 3], named), (a, [MIN, 1, MIN, 1, 1, 1], named * 3))
    for clusters, glyphs in (([2, 1], 1), ([1, 2, 1, 1], 3), ([1, 1, 1, 2], 3), ([2, 2], 2), ([2, 3], 3), ([1, 1, 1, 1], 2)):
        yield a * 2, clusters, named * glyphs
        for k in range(glyphs):
            for other in (font, [FONT, 0, 0, 0], [FONT, FONT, 0, -1], [0, FONT, 0, 0]):
                yield a * 2, clusters, named * k + other + named * (glyphs - k - 1)
    high, low = 0xD83D, 0xDE00
    for units in ([high, low], [low, high], [high], [low], [high, 0x41], [0x41, low], [high, high, low], [0xD83F, 0xDFFE],
                  [0x41, high, low], [high, low, 0x42], [high, low, low], [high, low, high, low]):
        n = len(units)
        for clusters in ([n, 1], [1, 1] * n, [1, 1, n - 1, 1], [n - 1, 1, 1, 1], [2, 1] * (n // 2)):
            yield units, clusters, named * (len(clusters) // 2)
    for unit in [*range(0x30), *ODD_UNITS]:
        yield [unit], [1, 1], named
        yield [0x41, unit, 0x42], [3, 1], named
    for at in range(4):
        for number in ODD_NUMBERS:
            yield a, [1, 1], named[:at] + [number] + named[at + 1:]
            yield a * 2, [2, 2], named + named[:at] + [number] + named[at + 1:]
    for count in (4095, 4096, 4097):
        yield [], [0, 1] * count, named * count
        yield a * count, [1, 1] * count, font * count
        yield a * count, [count, 1], named
        yield a, [1, count], named * count
        yield a * count, [1, 2, 2, 1] + [1, 1] * (count - 3), named * count
        yield a * count, [1, 2] + [1, 1] * (count - 1), named * (count + 1)
        yield [high, low] * (count // 2), [2, 1] * (count // 2), named * (count // 2)
    yield longest_writing()
    yield from main_tail_runs()

# Clusters with their units and records, to join. Those of BEFORE_TAIL may stand before what is wholly the font's; no run with
# one of NEVER_SOUND is sound.
WHOLLY, NAMED_INDEX, GIVEN = labels.WHOLLY_FONT, (5, FONT, 0, 0), (FONT, 0, 0, 0)
LETTER, LETTERS, PAIR, HIGH, LOW = [0x41], [0x41, 0x42], [0xD83D, 0xDE00], [0xD83D], [0xDE00]
FONT_LETTER, FONT_PAIR = (LETTER, (1, 1), [WHOLLY]), (PAIR, (2, 1), [WHOLLY])
NAMED_LETTER, NAMED_PAIR = (LETTER, (1, 1), [NAMED_INDEX]), (PAIR, (2, 1), [NAMED_INDEX])
GIVEN_LETTER, MOVED_LETTER = (LETTER, (1, 1), [GIVEN]), (LETTER, (1, 1), [(FONT, FONT, 0, -1)])
BEFORE_TAIL = [NAMED_LETTER, NAMED_PAIR, GIVEN_LETTER, MOVED_LETTER, (LETTER, (1, 1), [(FONT, FONT, 1, 0)])] + [
    (units, (a, b), [NAMED_INDEX] * b) for units, a, b in ((PAIR, 2, 2), (LETTERS, 2, 1), (LETTER + PAIR, 3, 1), (LETTER, 1, 2))]
NEVER_SOUND = [(PAIR, (2, 1), [record]) for record in (
    GIVEN, (FONT, 7, 0, 0), (FONT, FONT, 1, 0), (FONT, FONT, -1, 0), (FONT, FONT, 0, 1), (FONT, FONT, 0, -1), (FONT, 0, 1, -1),
    (-2, FONT, 0, 0), (FONT, -2, 0, 0))]
NEVER_SOUND += [(units, (a, b), [WHOLLY] * b) for units, a, b in (
    (LETTERS, 2, 1), (PAIR, 2, 2), (PAIR, 2, 0), (PAIR, 1, 1), (HIGH, 1, 1), (LOW, 1, 1), (LOW + HIGH, 2, 1), (HIGH * 2, 2, 1),
    (HIGH + LETTER, 2, 1), (LETTER + LOW, 2, 1), (PAIR + LETTER, 3, 1), (LETTER + PAIR, 3, 1), (PAIR * 2, 4, 1), (PAIR * 2, 4, 2),
    (LETTER, 1, 2), (LETTER, 1, 0), ([], 0, 1))]
NEVER_SOUND += [(PAIR, (2, 2), records) for records in ([WHOLLY, NAMED_INDEX], [NAMED_INDEX, WHOLLY])]

def joined(pieces):
    """The run of these clusters, as its places."""
    units, clusters, glyphs = [], [], []
    for more_units, cluster, records in pieces:
        units += more_units
        clusters += cluster
        glyphs += [n for record in records for n in record]
    return units, clusters, glyphs

def main_tail_runs():
    """One run for each thing to know of change request 4, and the limits."""
    pair, letter, named = FONT_PAIR, FONT_LETTER, NAMED_LETTER
    for pieces in (
            [pair], [pair, pair], [letter, pair], [pair, letter], [pair, pair, letter, pair, letter, letter], [named, pair],
            [NAMED_PAIR, pair], [GIVEN_LETTER, pair], [MOVED_LETTER, pair], [letter, named, letter, pair], [BEFORE_TAIL[-2], pair],
            [BEFORE_TAIL[-1], pair], [pair, named], [pair, NAMED_PAIR], [pair, GIVEN_LETTER], [pair, MOVED_LETTER],
            [pair, pair, letter, named], [pair, BEFORE_TAIL[-1]], [named, pair, letter, NAMED_PAIR, pair],
            *([named, piece, pair] for piece in NEVER_SOUND[:4]), *([piece] for piece in NEVER_SOUND[9:13])):
        yield joined(pieces)
    yield PAIR * 2, [1, 1, 2, 1, 1, 1], list(WHOLLY) * 3                        # over the low and the high half of neighbours
    for count in (2047, 2048, 2049):
        yield joined([pair] * count)
    yield joined([pair] * 2047 + [NAMED_PAIR])
    yield joined([NAMED_PAIR] + [pair] * 2047)
    for glyphs in (2049, 2050):                                                 # 4,096 and 4,097 with the tail
        yield joined([(PAIR, (2, glyphs), [NAMED_INDEX] * glyphs)] + [pair] * 2047)

def tail_runs():
    """Change request 4: clusters next to each other in twos, some in threes and fours, each anywhere in a tail; borders of
    clusters inside pairs."""
    pieces, few = BEFORE_TAIL + [FONT_LETTER, FONT_PAIR] + NEVER_SOUND, [NAMED_LETTER, NAMED_PAIR, FONT_LETTER, FONT_PAIR]
    yield from (joined([piece]) for piece in pieces)
    for piece, other in product(pieces, few + [GIVEN_LETTER, MOVED_LETTER]):
        yield joined([piece, other])
        yield joined([other, piece])
    yield from map(joined, product(few, repeat=3))
    yield from map(joined, product(few[1:], repeat=4))
    tail = [FONT_PAIR, FONT_LETTER, FONT_PAIR]
    yield from (joined(tail[:at] + [piece] + tail[at:]) for piece, at in product(pieces, range(4)))
    for counts in ((1, 2, 1), (1, 3), (3, 1), (1, 1, 2), (2, 1, 1), (1, 1, 1, 1), (4,), (2, 2), (2,), (2, 2, 2), (2, 1), (1, 2)):
        yield PAIR * 2, [n for a in counts for n in (a, 1)], list(WHOLLY) * len(counts)

# ---- Faults ------------------------------------------------------------------------------------------

def fault_edges():
    """(text, indices, number, place): every number, and places on both sides of each end."""
    for text, indices in ((b'', b''), (b'A', b''), (b'', b';'), (b'{a', b'(1:2)5;'), (b'AB\xff', b'5;;x,1;'),
                          (b'A' * 20000, b';' * 300000)):
        for number in (*range(41), 258, 263, 65538, 2 ** 32 - 1):
            for place in (0, 1, 2, 3, 4, 5, 19999, 20000, 300000, 300001, 2 ** 32, 2 ** 32 + 1, SIZE_MAX):
                if len(text) < 9 or number in (1, 2, 4, 5, 7, 13, 14, 15):
                    yield text, indices, number, place

# ---- Raw attribute values ----------------------------------------------------------------------------

# Numbers around the borders of XML's Char and of the lengths of UTF-8 ..
CHARACTER_NUMBERS = sorted({n + k for n in (
    0, 0x9, 0xD, 0x20, 0x26, 0x3C, 0x7F, 0xFF, 0x100, 0x7FF, 0xFFF, 0xD7FF, 0xDBFF, 0xDFFF, 0xFDD0, 0xFEFF, 0xFFFD, 0xFFFF,
    0x1FFFF, 0x3FFFF, 0xFFFFF, 0x10FFFF, 0x11FFFF, 0x1FFFFF) for k in range(-2, 3) if n + k >= 0} | set(range(0x24)))
# .. and far above them: sums that give a character where a number wraps, and both sides of where one may be held back.
WRAPPED_NUMBERS = sorted({2 ** k * m + n for k in (
    8, 16, 20, 21, 22, 24, 31, 32, 33, 36, 40, 48, 52, 53, 60, 62, 63, 64, 65, 96, 127, 128, 256)
    for m in (1, 3, 10, 15) for n in (-1, 0, 9, 0x41, 0x10FFFF)})
LONG_NUMBERS = sorted(
    {10 ** k + n for k in range(1, 45) for n in (-1, 0, 65)}
    | {base * n + k for base in (10, 16) for n in (0x10FFFF, 0x110000, 2 ** 31, 2 ** 32, 2 ** 64) for k in range(-1, base)}
    | {n // base + k for base in (10, 16) for n in (2 ** 31, 2 ** 32, 2 ** 63, 2 ** 64) for k in range(-1, 3)})

# One value for each thing to know.
MAIN_RAW = (
    b'', b'&amp;&lt;&gt;&quot;&apos;', b'A&lt', b'&nbsp;', b'&AMP;', b'&;', b'&#;', b'&#x;', b'&#X41;', b'&#65;&#x4a;&#x4A;',
    b'&#0000000000065;', b'&#x10FFFF;', b'&#1114112;', b'&#8;', b'&#xD800;', b'&#xFFFE;', b'&#x7F;&#x80;&#x7FF;&#x800;&#x10000;',
    b'&#4294967361;', b'&#18446744073709551681;', b'&amp;lt;&#38;#60;', b'&#60;&#xFFFD;', b'a<b', b'&amp;<', b'aaa&<', b'>"\'',
    b'\t\n\r\r\n\n\r', b'\r&#10;&#13;\n&#9;', b'\xff\0\xed\xa0\x80', b'&#123;&#125;a')

def name_edges():
    """The five names, and what comes near them."""
    yield from GOOD_REFERENCES + BAD_REFERENCES
    for name in (b'amp', b'lt', b'gt', b'quot', b'apos'):
        for at in range(len(name) + 1):
            yield b'&' + name[:at] + b';' + name[at:]
            yield b'&' + name[:at] + name[at + 1:] + b';'
            yield b'&' + name[:at] + name[at:at + 1].upper() + name[at + 1:] + b';'
            for byte in b'\t\n\r &#;<x0\0\x80':
                yield b'&%s%c%s;' % (name[:at], byte, name[at:])
    for first, second in product(NAMED + [b'&lt', b'amp;', b'&', b';'], repeat=2):
        yield first + second

def number_reference_edges():
    """Decimal and hexadecimal references to every number at a border, with any count of zeros before it."""
    for number in CHARACTER_NUMBERS + WRAPPED_NUMBERS + LONG_NUMBERS:
        yield b'&#%d;' % number
        yield b'&#x%x;' % number
        yield b'A&#x%X;B' % number
    for zeros in (*range(1, 40), 63, 64, 65, 127, 128, 255, 256, 257, 1000, 5000, 65536, 100000):
        numbers = (0, 9, 65, 0xD800, 0x10FFFF, 0x110000, 2 ** 32 + 65, 2 ** 64 + 65) if zeros < 6000 else (65, 2 ** 32 + 65)
        for number in numbers:
            yield b'&#%s%d;' % (b'0' * zeros, number)
            yield b'&#x%s%x;' % (b'0' * zeros, number)
        yield b'&#%s;' % (b'9' * zeros)
        yield b'&#x%s;' % (b'f' * zeros)
        yield b'&#%s' % (b'1' * zeros)
        yield b'&#x41%s;' % (b'0' * zeros)

def byte_edges():
    """Every byte by itself and at each kind of place in a reference."""
    for byte in range(256):
        patterns = b'_ A_B __ &_; &_lt; &lt_ &lt_; &#_; &#6_; &#_65; &#x_; &#x4_; &#x_41; &#65_ &amp;_'.split()
        for pattern in patterns + [b'\r_', b'_\n']:
            yield pattern.replace(b'_', bytes((byte,)))

CUT = (b'&amp;', b'&lt;', b'&gt;', b'&quot;', b'&apos;', b'&#65;', b'&#1114111;', b'&#00065;', b'&#x41;', b'&#x10FFFF;', b'\r\n',
       b'A\r\n\r\nB', b'a&lt;b&#13;\r\n&#x20;', GRIN.encode() + b'&#128512;', b'&am&amp;p;', b'a&#60;<b')

def cut_edges():
    """References and line ends cut off by the end at every length, and their ends alone."""
    for whole in CUT:
        for at in range(len(whole) + 1):
            yield whole[:at]
            yield whole[at:]
            yield b'A' + whole[:at]

def space_edges():
    """White space, raw and referenced."""
    for count in range(4):
        pieces = b'\r', b'\n', b'\t', b' ', b'A', b'&#9;', b'&#10;', b'&#13;', b'&#32;'
        yield from map(b''.join, product(pieces, repeat=count))
    yield from map(b''.join, product((b'\r', b'\n', b'&#xA;'), repeat=5))

def pass_edges():
    """What a reference gives is not looked at again."""
    for first in (b'&amp;', b'&#38;', b'&#x26;', b'&#0000038;', b'&amp;amp;', b'&lt;', b'&#60;', b'&#x3c;'):
        for rest in (b'', b'lt;', b'amp;', b'#60;', b'#x3C;', b'#0;', b'nbsp;', b'amp;lt;', b';', b'#', b'&', b'<', b'!--'):
            yield first + rest
    for first in (b'&#123;', b'{', b'&#x7B;'):
        for second in (b'', b'}', b'&#125;', b'&#x7d;', b'a', b'&#123;', b'{}'):
            yield first + second

def first_fault_edges():
    """Two faults, before and after each other and among what takes more raw bytes than it gives."""
    faults = b'<', b'&', b'&nbsp;', b'&#0;', b'&#xD800;', b'&lt', b'&#x110000;'
    for first, second in product(faults, repeat=2):
        for before in (b'', b'aaa', b'&amp;&#65;\r\n', b'\xff\0'):
            yield before + first + second
            yield before + first + b'AB' + second + b'C'
    for fault in faults:
        for before in (b'aaa', b'&lt;' * 9, b'\r\n\r\n', THAI.encode(), b'&#x10FFFF;'):
            yield before + fault
            yield before + fault + b'&amp;'

def plain_edges():
    """Bytes that stay as they are."""
    yield from b'''> " ' ]]> ; # #65; amp; a"b'c>d < a< <a <!----> %amp; {} !"#$%'''.split() + [b'', b' ']
    for piece in ILL_FORMED + [c.encode() for c in NOT_XML + EDGE_CHARACTERS]:
        yield from (piece, b'A' + piece + b'&lt;' + piece, piece + b'<', piece[:-1] + b'&amp;')
    yield bytes(byte for byte in range(256) if byte not in b'&<')

def long_raw_edges():
    """There is no limit of size."""
    for size in (255, 256, 257, 4096, 16384, 16385, 65535, 65536, 65537, 262145, 300000):
        yield b'A' * size
        yield b'A' * (size - 1) + b'<'
        yield b'<' + b'A' * (size - 1)
    yield from (b'&amp;' * 20000, b'&#x10FFFF;' * 9000, b'\r\n' * 40000, b'\n\r' * 40000, b'&' * 5000, b'&amp;' * 5000 + b'&amp',
                b'\xff' * 70000, b'&' + b'a' * 70000 + b';')

RAW_EDGES = {'names': name_edges, 'numbers': number_reference_edges, 'bytes': byte_edges, 'cut': cut_edges, 'spaces': space_edges,
             'passes': pass_edges, 'faults': first_fault_edges, 'plain': plain_edges, 'long': long_raw_edges}

def raw_edges():
    yield from MAIN_RAW
    for part in RAW_EDGES.values():
        yield from part()

ESCAPED = '&<"\t\n\r'

def escape_edges():
    """Runs whose text has what is escaped, at every place and as often as can be."""
    named, font = [5, 10, 0, 0], list(labels.WHOLLY_FONT)
    texts = ['', ESCAPED, 'A'.join(ESCAPED), THAI + '&' + THAI, '\r\n\n\r', ''.join(map(chr, range(0x20, 0x80)))]
    texts += '''A { {} {& {}& &{ A&B &A A& &amp; &#9; &lt;< <&>'" '''.split()
    texts += map(''.join, product(ESCAPED + ">'{A", repeat=2))
    for text in texts:
        units = list(map(ord, text))
        yield units, [1, 1] * len(units) or [0, 1], font * len(units) or named
        yield units, [len(units), 1], named
    yield [0xD83D, 0xDE00, 0x26], [2, 1, 1, 1], named * 2
    yield [0x26, 0xD83D, 0xDE00, 0x26], [1, 1, 2, 1, 1, 1], named + font * 2    # a pair wholly the font's ..
    yield [0x26, 0xD83D, 0xDE00, 0x26], [1, 1, 2, 1, 1, 1], font * 2 + named    # .. before what is not
    yield [0x26, 0xD83D, 0x26], [3, 1], named                                   # a lone half
    yield [0x26, 0x26], [1, 1], named                                           # counts that don't add up
    yield [0x26, 0, 0x26], [3, 1], named                                        # no XML character
    for count in (4095, 4096, 4097):
        for text in [*ESCAPED, '{', 'A', THAI, ESCAPED + 'A' + THAI]:
            yield ([ord(c) for c in text] * count)[:count], [1, 1] * count, font * count
    yield [0x22] * 4096, *longest_writing()[1:]

# ---- Sheets ------------------------------------------------------------------------------------------

# The labels that document 02 speaks of; what would be a reference, were it not resolved already.
LATER_PAPER = [(b'A', b'5,' + number) for number in b'.0005 .0015 .0025 1000000.0005 1000000.0006 150000 15e4'.split()] + [
    (GRIN.encode(), b'5'), (b'A' + GRIN.encode(), b';'), (GRIN.encode() * 2, b'(2)9'), (b'&lt;', b';;;'), (b'&lt;', b'(4)5;'),
    (b'&amp;', b'(1)5;;;;6'), (b'<', b'5'), (b'&', b''), (b'&#65;', b';;;;5'), (b'A\tB\r\nC', b';;;;;5'), (b'A', b'&#53;')]

# Labels by the number of their answer, 0 for those accepted, with places of one and of two bytes.
ANSWERED = {
    0: [(b'A', b'5'), (b'fl', b'(2:1)192'), (b'', b'5;6'), (b'{}flow', b'(2:1)192;07,+55.50,,0'), (THAI.encode(), b''),
        (GRIN.encode(), b''), (b'AB' + GRIN.encode(), b'5'), (b'A' * 4096, b'')],
    1: [(b'A' * 16385, b''), (b'\xff' * 16385, b'x'), (b'A', b'0' * 262144 + b'5')],
    2: [(b'A\xff', b'5'), (b'\x80', b''), (b'A' * 300 + b'\xc2', b'x')],
    3: [(b'\1', b'5'), (b'AB\0', b''), (b'A' * 255 + b'\xef\xbf\xbf', b'')],
    4: [(b'{', b''), (b'{a', b'5')],
    5: [(b'A' * 4097, b''), (b'{}' + b'A' * 4097, b'x')],
    6: [(b'', b''), (b'{}', b'')],
    7: [(b'A', b'x'), (b'ABC', b'5;;x'), (b'', b'5;' * 256 + b'x')],
    8: [(b'A', b'65536'), (b'ABC', b'5;;70000')],
    9: [(b'A', b'5,1e7'), (b'AB', b';5,1e001')],
    10: [(b'A', b'(0)5'), (b'AB', b'5;(1:0)5')],
    11: [(b'', b';'), (b'AB', b'(2:2)5;')],
    12: [(b'A', b';'), (b'A', b'(2)5'), (b'A' * 257, b';' * 257)],
    13: [(GRIN.encode(), b'5'), (b'A' + GRIN.encode(), b';'), (b'A' * 255 + GRIN.encode(), b';' * 255)],
    14: [(b'AB', b'(2:2)5'), (b'AB', b'5;(1:2)5')],
    15: [(b'A' * 4096, b'(1:2)5;6'), (b'', b'5' + b';5' * 4096)],
}

# Sheets whose files are cut at every byte.
SMALL_SHEETS = (
    [], [(b'', b'')], [(b'A', b'5')], [(b'', b''), (b'', b'')], [(b'AB', b''), (b'', b'5;6')],
    [(b'A', b';'), (b'A', b'5'), (b'{', b'')], [(b'', b''), (b'fl', b'(2:1)192'), (b'', b'')],
    [ANSWERED[number][0] for number in (2, 3, 4, 6, 7, 8, 9, 10, 11, 12, 13, 14)], [(sheets.HEADER, sheets.HEADER)],
    [(b'A' * 255, b''), (b'A', b'0' * 256)])

def header_edges():
    """25: each byte of mark and version changed, other marks, versions and beginnings, before good records and cut ones."""
    for at, byte in product(range(5), range(256)):
        yield sheets.HEADER[:at] + bytes((byte,)) + sheets.HEADER[at + 1:] + sheets.write_record(b'A', b'5')
    for rest in (b'', sheets.write_record(b'A', b'5'), b'\1', bytes(6)):
        for at, byte in product(range(5), (0x00, 0x01, 0x20, 0xFF)):
            yield sheets.HEADER[:at] + bytes((sheets.HEADER[at] ^ byte,)) + sheets.HEADER[at + 1:] + rest
        for version in (0, 1, 2, 255, 256, 257, 258, 511, 513, 65279, 65280, 65281, 65535):
            yield sheets.MARK + version.to_bytes(2, 'little') + rest
        for mark in b'slb Slb sLB SLb SL SB LB S SLB. .SLB SSLB SLBB SLLB BLS LSB SLBSLB S.L.B. GLB SLC'.split() + [
                b'', b' SLB', b'SLB ', b'\0SLB', b'SLB\0', b'\xef\xbb\xbfSLB', '\uff33\uff2c\uff22'.encode()]:
            for version in (b'\1\0', b'\0\1', b'\1', b'\1\0\0\0', b'1', b'1.0', b''):
                yield mark + version + rest
        yield from (rest, rest + sheets.HEADER, sheets.HEADER * 2 + rest)

def cut_sheets():
    """25 and 26: files cut at every byte, and records that begin too late."""
    for sheet in SMALL_SHEETS:
        file = sheets.write_sheet(sheet)
        for at in range(len(file) + 1):
            yield file[:at]
            yield sheets.HEADER + file[at:]

def behind_edges():
    """26, or further records: bytes behind the last record, and left out before its end."""
    for sheet in SMALL_SHEETS[:7]:
        file = sheets.write_sheet(sheet)
        for byte in (0x00, 0x01, 0x41, 0xFF):
            for count in (*range(1, 14), 18, 19, 60, 100, 300, 1000):
                yield file + bytes((byte,)) * count
        for count in range(1, 7):
            yield file[:-count]
            yield file + b'\1\0\0\0\0\0'[:count]
            yield file + b'\0\0\1\0\0\0'[:count]

def length_edges():
    """Lengths around each border of their bytes and of the limits, first, in the middle and last; a place of three bytes."""
    few, other = (b'A', b';'), (b'fl', b'(2:1)192')
    above = [(filler * size, b'5') for filler in (b'A', b'\xff') for size in (16383, 16384, 16385, 32767, 32768, 65534, 65535)]
    long = [(b'A' * size, b'5') for size in (0, 1, 127, 128, 255, 256, 257, 511, 513, 4095, 4096, 4097)] + above
    long += [(b'A', b'0' * size + b'5') for size in (
        0, 126, 127, 254, 255, 256, 257, 65534, 65535, 65536, 65537, 262142, 262143, 262144, 262145, 299999)]
    long += [(b'A' * text, b'x' * size) for text in (16384, 16385, 65535) for size in (262144, 262145)]
    long += [(b'', b'5;' * 65537 + b'x'), *ANSWERED[1], *ANSWERED[5], *ANSWERED[15]]
    for one in long:
        yield from map(sheets.write_sheet, ([one], [one, few], [few, one], [other, one, few]))
    yield sheets.write_sheet([few, *above, other])

def too_long_edges():
    """26: lengths that pass the end by one byte, or by so much that a sum of 32 or 16 bits wraps; and lengths that just don't."""
    for before in ([], [(b'A', b';')], [(b'A', b'5')] * 3):
        file = sheets.write_sheet(before)
        for text, indices in ((0, 0), (1, 0), (0, 1), (3, 4), (255, 1), (256, 256), (0, 65536), (65535, 65536)):
            whole = file + sheets.write_lengths(text, indices) + b'5' * (text + indices)
            yield from (whole, whole[:-1], whole + b'5', whole[:len(file) + 6], whole[:len(file) + 6 + text])
        for text in (0, 1, 6, 300, 65535):
            past = {2 ** 32 - less for less in (1, 2, 4, 5, 6, 7, 8, 10, 11, 12, 16, 256, 65535, 65536, 65541, 65542, 2 ** 24)}
            past |= {2 ** 32 - text - less for less in range(-8, 20)} | {2 ** 32 - len(file) - text - less for less in range(-2, 8)}
            past |= {2 ** 31 + more for more in (-1, 0, 1)} | {2 ** 16 - text, 2 ** 16, 2 ** 24, 2 ** 24 - 1, 2 ** 16 - text - 6}
            for indices in sorted(size for size in past if 0 < size < 2 ** 32):
                for there in (0, text, text + 9) if text < 1000 else (text,):
                    yield file + sheets.write_lengths(text, indices) + b'5' * there

def position_edges():
    """Labels of every answer, first, in the middle and last, next to each other, and in long sheets."""
    few, other = (b'A', b''), (b'AB', b'5;x')
    for one in (label for group in ANSWERED.values() for label in group):
        for sheet in ([one], [one, other, few], [few, one, other], [other, few, one], [one, one, few, one]):
            yield sheets.write_sheet(sheet)
    firsts = [group[0] for group in ANSWERED.values()]
    yield from (sheets.write_sheet(pair) for pair in product(firsts, repeat=2))
    for at in range(len(firsts)):
        yield sheets.write_sheet(firsts[at:] + firsts[:at])
        long = [firsts[0]] * 300
        long[at] = long[150] = long[-1 - at] = [label for label in ANSWERED[at] if sum(map(len, label)) < 20_000][-1]
        yield sheets.write_sheet(long)

def many_edges():
    """Sheets of many short labels: counts of labels and of answers around the borders of a byte and of two."""
    for count in (127, 128, 129, 255, 256, 257, 300, 999):
        yield sheets.write_sheet(([(b'A', b'5'), (b'', b''), (b'A', b'5;x')] * count)[:count])
    for count in (8192, 32768, 65537):
        yield sheets.HEADER + bytes(6 * count)
        yield sheets.HEADER + bytes(6 * count + 5)

def order_edges():
    """25 before 26, at every record: a wrong header before whole and cut records."""
    for sheet in SMALL_SHEETS[1:6]:
        file = sheets.write_sheet(sheet)
        for header in (b'SLB\2\0', b'SLB\0\1', b'slb\1\0', b'SL', b''):
            yield from (header + rest for rest in (file[5:], file[5:-1], file[5:] + b'\0', file[5:] + b'\xff' * 6))

SHEET_EDGES = {'headers': header_edges, 'cut': cut_sheets, 'behind': behind_edges, 'lengths': length_edges,
               'too long': too_long_edges, 'positions': position_edges, 'many': many_edges, 'order': order_edges}

def sheet_edges():
    for part in SHEET_EDGES.values():
        yield from part()
