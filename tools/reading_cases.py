#!/usr/bin/env python3
"""Writes the standard input of crates/read_trials and what it must print: reading_cases.py VECTORS..

VECTORS are folders of NAME.in / NAME.out pairs, inputs of asfnorm and what it prints, without a library: `readings` and `two` of
rust/reference/vectors. Those refused by 1 to 5 are taken, without their first line. To these come the sizes of document 01, each at its limit
and one beyond, with the place that document 01 gives, counted here.
A case is a line `NAME SIZE` and then SIZE bytes; what is printed is `NAME 0 ENTRIES` for a text that is read, `NAME NUMBER PLACE` else."""
import glob
import os
import sys

cases = []


def at(text):
    """the text without its mark, and the mark's place"""
    place = text.index('|')
    return text[:place] + text[place + 1:], place


def limit(name, accepted, entries, beyond):
    cases.append((name + '-at', accepted, 0, entries))
    text, place = at(beyond)
    cases.append((name + '-beyond', text, 4, place))


def module(body):
    return 'module M begin ' + body + ' end M'


def many(count, item, mark=','):
    return mark.join([item] * count)


def equation(body):
    return module('equations [e] ' + body)


# modules: an entry each
limit('modules',
      ' '.join('module M%d begin end M%d' % (i, i) for i in range(64)), 64,
      ' '.join('module M%d begin end M%d' % (i, i) for i in range(64)) + ' |module N begin end N')
# names
limit('names', 'module %s begin end %s' % ('x' * 40, 'x' * 40), 1, 'module |%s begin end %s' % ('x' * 41, 'x' * 41))
limit('tags', module('equations [%s] a = b' % ('t' * 40)), 1 + 1 + 2 + 1, module('equations [|%s] a = b' % ('t' * 41)))
# arguments, in a type and in a term
limit('inputs', module('functions f : %s -> A' % many(8, 'A', '#')), 1 + 1 + 8 + 1, module('functions f : %s#|A -> A' % many(8, 'A', '#')))
limit('arguments', equation('f(%s) = b' % many(8, 'a')), 2 + 1 + 8 + 1 + 1 + 1, equation('f(%s,|a) = b' % many(8, 'a')))
# brackets
limit('brackets', equation('f(' * 15 + 'a' + ')' * 15 + ' = b'), 2 + 15 + 1 + 15 + 1 + 1, equation('f(' * 15 + 'f|(a' + ')' * 16 + ' = b'))
limit('plain-brackets', equation('(' * 15 + 'a' + ')' * 15 + ' = b'), 2 + 1 + 1 + 1, equation('(' * 15 + '|(a' + ')' * 16 + ' = b'))
# imports, bindings, pairs
limit('imports', module('imports ' + many(16, 'A')), 1 + 16, module('imports ' + many(16, 'A') + ',|A'))
binding = 'P bound by [a -> b] to B'
limit('bindings', module('imports A { %s }' % many(4, binding, ' ')), 2 + 4 * 4, module('imports A { %s |%s }' % (many(4, binding, ' '), binding)))
limit('bindings-renamed', module('imports A { renamed by [a -> b] %s }' % many(4, binding, ' ')), 2 + 3 + 4 * 4,
      module('imports A { renamed by [a -> b] %s |%s }' % (many(4, binding, ' '), binding)))
limit('pairs', module('imports A { renamed by [%s] }' % many(32, 'a->b')), 2 + 1 + 64, module('imports A { renamed by [%s,|a->b] }' % many(32, 'a->b')))
# conditions, in both source forms
limit('conditions', equation('a = b when ' + many(8, 'c=d')), 2 + 9 * 3, equation('a = b when ' + many(8, 'c=d') + ',|c=d'))
limit('conditions-before', equation(many(8, 'c=d') + ' ==> a = b'), 2 + 9 * 3, equation(many(8, 'c=d') + ',|c=d ==> a = b'))
# nodes of an equation: 8 sides of 8 arguments at most
eight = 'f(%s)' % many(7, 'a')
limit('nodes', equation(eight + '=' + eight + ' when ' + many(3, eight + '=' + eight)), 2 + 8 * 9 + 4,
      equation(eight + '=' + eight + ' when ' + many(3, eight + '=' + eight) + ',|a=b'))
# operators: bytes, in a declaration and in a term; each is a node where it stands, and its entry stands before its operands', which nothing closes
limit('operator-bytes', module('functions _%s_ : A # A -> A' % ('+' * 40)), 1 + 1 + 2 + 1,
      module('functions _|%s_ : A # A -> A' % ('+' * 41)))
limit('dotted-bytes', module('functions .%s. _ : A -> A' % ('x' * 38)), 1 + 1 + 1 + 1, module('functions |.%s. _ : A -> A' % ('x' * 39)))
limit('operator-bytes-in-terms', equation('a %s b = c' % ('*' * 40)), 2 + 3 + 1 + 1, equation('a |%s b = c' % ('*' * 41)))
limit('operator-nodes', equation('b = a' + '+a' * 31), 2 + 64 + 1, equation('b = a' + '+a' * 31 + '|+a'))
limit('prefix-nodes', equation('-b = -a' + '+a' * 30), 2 + 64 + 1, equation('-b = -a' + '+a' * 30 + '|+a'))
limit('operator-arguments', equation('f(%s) = b' % many(8, '-a')), 2 + 1 + 16 + 1 + 1 + 1, equation('f(%s,|-a) = b' % many(8, '-a')))
limit('operator-conditions', equation('a = b when ' + many(8, '-c=d')), 2 + 3 + 8 * 4, equation('a = b when ' + many(8, '-c=d') + ',|-c=d'))
limit('operator-pairs', module('imports A { renamed by [%s] }' % many(32, '-_->_+_')), 2 + 1 + 64,
      module('imports A { renamed by [%s,|-_->_+_] }' % many(32, '-_->_+_')))
limit('infix-pairs', module('imports A { %s }' % ('P bound by [%s] to B' % many(32, '_+_->a'))), 2 + 1 + 64 + 1,
      module('imports A { %s }' % ('P bound by [%s,|_+_->a] to B' % many(32, '_+_->a'))))
limit('operator-brackets', equation('-(' * 15 + 'a' + ')' * 15 + ' = b'), 2 + 15 + 1 + 1 + 1, equation('-(' * 15 + '-|(a' + ')' * 16 + ' = b'))
# the whole text
start, stop = 'module M begin sorts ', ' end M'
full = start + 'a,' * ((32768 - len(start) - len(stop) - 2) // 2) + 'bb' + stop
full = full + ' ' * (32768 - len(full))
cases.append(('bytes-at', full, 0, full.count(',') + 2))
cases.append(('bytes-beyond', full + ' ', 4, 32768))
# operands in a row: the most entries that a text can give, where a list of sorts has one for two bytes
row, start = '[e]' + 'a+' * 31 + 'a=a', 'module M begin equations '
rows = (32768 - len(start) - len(stop)) // len(row)
full = start + row * rows + stop
cases.append(('operators-to-the-brim', full + ' ' * (32768 - len(full)), 0, 1 + rows * (1 + 64 + 1)))
cases.append(('comment-at-byte-0', '-- c -- module M begin end M', 1, 0))
cases.append(('comment-after-layout', ' -- c -- module M begin end M', 0, 1))
text, place = at(module('functions |.-a._ : A -> A'))
cases.append(('hyphen-behind-a-dot', text, 1, place))

taken = []
for f in sorted(f for folder in sys.argv[1:] for f in glob.glob(folder + '/*.in')):
    out = dict(l.split('=', 1) for l in open(f[:-3] + '.out', encoding='latin1').read().split('\n') if '=' in l)
    text = open(f, encoding='latin1', newline='').read()
    if out['answer'] in ('1', '2', '3', '4', '5') and text.startswith('normalise=') and '\n' in text and len(text.split('\n')[0]) <= 50:
        body = text.split('\n', 1)[1]
        taken.append((os.path.basename(f)[:-3], body, int(out['answer']), int(out['at'])))
cases = taken + cases

here = os.path.join(os.path.dirname(os.path.abspath(__file__)), '..', 'crates', 'read_trials')
with open(here + '/stdin', 'wb') as i, open(here + '/stdout', 'w') as o:
    for name, text, number, place in cases:
        body = text.encode('latin1')
        i.write(b'%s %d\n' % (name.encode(), len(body)) + body)
        o.write('%s %d %d\n' % (name, number, place))
print('%d cases, %d of them vectors' % (len(cases), len(taken)))
