"""Raw attribute values after change request 2: references resolved, and the writing escaped.

Like labels.py, each function quotes the words it implements; XML stands for XML 1.0. An answer is ('ok', ...) or
('no', number, place).
"""

import re

import labels

# ---- Resolving ---------------------------------------------------------------------------------------

# "resolves `&amp;` `&lt;` `&gt;` `&quot;` `&apos;`"
NAMES = {b'amp': b'&', b'lt': b'<', b'gt': b'>', b'quot': b'"', b'apos': b"'"}
# XML, 4.1: EntityRef ::= '&' Name ';' and CharRef ::= '&#' [0-9]+ ';' | '&#x' [0-9a-fA-F]+ ';'
REFERENCE = re.compile(rb'&(?:(amp|lt|gt|quot|apos)|#([0-9]+)|#x([0-9a-fA-F]+));')
# "raw tab, line feed and carriage return become a space each, a carriage return with its line feed one"
WHITE_SPACE = re.compile(rb'\r\n|[\t\n\r]')
# Any other byte stands for itself, whether or not it is part of a character. "A raw `<` is bad."
PLAIN = re.compile(rb'[^&<\t\n\r]+')

# The number that digits spell. The largest character, 1114111 or 10FFFF, has seven digits at most.
def number_of(digits, base):
    digits = digits.lstrip(b'0') or b'0'
    return int(digits, base) if len(digits) <= 7 else 0x110000

# What a well-formed reference gives; None where it names no character. XML, 4.1: "Characters referred to using
# character references MUST match the production for Char."
def referenced(name, decimal, hexadecimal):
    if name:
        return NAMES[name]
    character = number_of(decimal, 10) if decimal else number_of(hexadecimal, 16)
    return chr(character).encode('utf-8') if labels.is_xml_char(character) else None

# What the raw value gives at that place, with the count of raw bytes that this takes; None for what is bad.
def piece_at(raw, at):
    if plain := PLAIN.match(raw, at):
        return plain[0], len(plain[0])
    if space := WHITE_SPACE.match(raw, at):
        return b' ', len(space[0])
    reference = REFERENCE.match(raw, at)
    given = referenced(*reference.groups()) if reference else None
    return None if given is None else (given, len(reference[0]))

# From the left, each piece once: "a referenced one stays". 23: "bad reference or raw `<`, place the first byte of the
# first".
def resolve(raw):
    given, at = [], 0
    while at < len(raw):
        piece = piece_at(raw, at)
        if piece is None:
            return 'no', 23, at
        given.append(piece[0])
        at += piece[1]
    return 'ok', b''.join(given)

# 24: "lent buffer too short, place the bytes needed", after 23 for the whole value.
def resolve_into(raw, room):
    return fit_resolving(resolve(raw), room)

def fit_resolving(answer, room):
    return ('no', 24, len(answer[1])) if answer[0] == 'ok' and len(answer[1]) > room else answer

# "It works on one attribute a call, text before indices, [...] and the reading is of what comes out."
def read_raw(raw_text, raw_indices):
    resolved = []
    for raw in (raw_text, raw_indices):
        answer = resolve(raw)
        if answer[0] == 'no':
            return answer
        resolved.append(answer[1])
    return labels.read(*resolved)

# ---- Escaping ----------------------------------------------------------------------------------------

# "`&`, `<`, `"`, tab, line feed, carriage return become `&amp;` `&lt;` `&quot;` `&#9;` `&#10;` `&#13;`"
ESCAPES = {b'&': b'&amp;', b'<': b'&lt;', b'"': b'&quot;', b'\t': b'&#9;', b'\n': b'&#10;', b'\r': b'&#13;'}

def escape(data):
    return re.sub(rb'[&<"\t\n\r]', lambda found: ESCAPES[found[0]], data)

# "A caller may ask the writer to escape": ('ok', text, indices) or ('no', 19, 0).
def write_escaped(units, cluster_numbers, glyph_numbers):
    answer = labels.write(units, cluster_numbers, glyph_numbers)
    return ('ok', *map(escape, answer[1:])) if answer[0] == 'ok' else answer

# "counted in 20 and 21"
def write_escaped_into(units, cluster_numbers, glyph_numbers, text_bytes, indices_bytes):
    return labels.fit_writing(write_escaped(units, cluster_numbers, glyph_numbers), text_bytes, indices_bytes)
