"""Prints each number of the table in include/glyph_label.h with its cause, as `test_calls causes` does."""

lines = open('include/glyph_label.h').read().splitlines()
head = next(k for k, line in enumerate(lines) if line.split() == ['*', 'number', 'cause', 'place'])
start, end = lines[head].index('cause'), lines[head].index('place')
rows = []
for line in lines[head + 2:lines.index(' *', head)]:
    number, words = line[:start].strip(' *'), line[start:end].strip()
    if number:
        rows.append(number)
    rows[-1] += ' ' + words
print('\n'.join(rows))
