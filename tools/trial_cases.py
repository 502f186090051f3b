#!/usr/bin/env python3
"""Writes the standard input of crates/trials and what it must print: trial_cases.py REFERENCE

REFERENCE is the program `reference-asfnorm` (rust/README.md). The cases: every vector of rust/reference/vectors, with the output that stands
there; every example of docs/ANSWERS.md; and sizes at their limit and one beyond. What these last must print is what the reference prints, and
where less is lent than the program lends, 19 if the listing is longer or the working memory shorter.
A case is a line `MEMORY OUTPUT INPUT PRINTED NAME`, four numbers of seven digits, and then its input and what must be printed."""
import glob
import os
import re
import subprocess
import sys

MEMORY, OUTPUT = 1048576, 65536
here = os.path.dirname(os.path.dirname(os.path.abspath(__file__)))
cases = []


def reference(given):
    return subprocess.run([sys.argv[1]], input=given, stdout=subprocess.PIPE, check=True).stdout


def case(name, given, printed, memory=MEMORY, output=OUTPUT):
    cases.append((name, memory, output, given, printed))


def tried(name, given, answer):
    """a case whose number is known beforehand"""
    given = given.encode()
    printed = reference(given)
    assert printed.startswith(b'answer=%d\n' % answer), (name, printed[:60])
    case(name, given, printed)


def refused(answer, modules, module):
    return b'answer=%d\nmodules=%d\nmodule=%s\nname=\nat=0\n' % (answer, modules, module)


# ---- the vectors

for path in sorted(glob.glob(here + '/rust/reference/vectors/*/*.in')):
    given, printed = open(path, 'rb').read(), open(path[:-3] + '.out', 'rb').read()
    case(os.path.basename(path)[:-3], given, printed)

# ---- the help sheet: the input below a number gives it

number = None
for title, block in re.findall(r'^#+ (\d+):|^```\n(.*?)^```', open(here + '/docs/ANSWERS.md').read(), re.M | re.S):
    if title:
        number = int(title)
    elif block.startswith('normalise='):
        tried('answer-%d' % number, block, number)

# ---- sizes at their limit, and one beyond


def chain(count):
    """so many modules, each of which imports the one before"""
    modules = ['module M0 begin exports begin sorts S end end M0']
    modules += ['module M%d begin imports M%d end M%d' % (i, i - 1, i) for i in range(1, count)]
    return 'normalise=M%d\n' % (count - 1) + '\n'.join(modules) + '\n'


tried('modules-64', chain(64), 0)
tried('modules-65', chain(65), 4)


def named(size):
    name = 'N' * size
    return 'module %s begin exports begin sorts %s functions f : %s -> %s end end %s\n' % ((name,) * 5)


tried('name-40', 'normalise=' + 'N' * 40 + '\n' + named(40), 0)
tried('name-41', 'normalise=M\n' + named(41), 4)
tried('asked-40', 'normalise=' + 'M' * 40 + '\n' + named(40), 6)
tried('asked-41', 'normalise=' + 'N' * 41 + '\n' + named(40), 2)


def items(count):
    return 'normalise=M\nmodule M begin exports begin sorts ' + ','.join('s%d' % i for i in range(count)) + ' end end M\n'


tried('items-512', items(512), 0)
tried('items-513', items(513), 18)


def spaced(size):
    text = 'module M begin exports begin sorts S end end M'
    return 'normalise=M\n' + text + ' ' * (size - len(text))


tried('text-32768', spaced(32768), 0)
tried('text-32769', spaced(32769), 4)

# ---- two texts: the 64 over both. Their own sizes at the limit and beyond are among the vectors


def divided(given, at):
    """the input with the text's first bytes as the library"""
    first, text = given.split('\n', 1)
    return '%s\nlibrary=%d\n%s' % (first, at, text)


def halved(count):
    """so many modules, half of them in the library"""
    given = chain(count)
    return divided(given, given.index('module M%d ' % (count // 2)) - given.index('module M0 '))


tried('divided-64', halved(64), 0)
tried('divided-65', halved(65), 4)
tried('library-shorter-than-told', 'normalise=M\nlibrary=32768\nmodule M begin end M\n', 2)

# ---- operators: names of 42 bytes told, terms as deep as they go, one operator in two texts. Their sizes are among the vectors


def declared_twice(name, inputs):
    declared = '%s : %s -> A' % (name, inputs)
    return 'normalise=M\nmodule M begin exports begin sorts A functions %s %s end end M\n' % (declared, declared)


tried('infix-told', declared_twice('_ %s _' % ('+' * 40), 'A#A'), 9)
tried('prefix-told', declared_twice('.%s. _' % ('x' * 38), 'A'), 9)

ground = 'exports begin sorts A functions a : -> A _ +\n_ : A#A -> A - _ : A -> A end'
deep = '-(' * 15 + '-a' + '+a' * 23 + ')' * 15 + ' = a'
over = 'module N begin imports M { renamed by [ _+_ -> _.and._ ] } end N\n'
tried('operators-deep', 'normalise=N\nmodule M begin %s equations [e] %s end M\n%s' % (ground, deep, over), 0)
tried('operators-too-many', 'normalise=M\nmodule M begin %s equations [e] %s+a end M\n' % (ground, deep), 4)
joined = 'normalise=N\nmodule M begin %s end M\n' % ground + 'module N begin imports M equations [e] a+a = - (a + -- c -- a) end N\n'
tried('operators-divided', divided(joined, joined.index('module N') - joined.index('module M')), 0)

# ---- parameters that arrive twice: where a type's sort is shown, the least of several in the order of names, and the 8


def listed(parameters):
    return 'parameters ' + ', '.join('%s begin %s end %s' % (name, inside, name) for name, inside in parameters)


base = 'module Ground begin exports begin sorts N end end Ground\n'
both = listed([('P', 'sorts X'), ('Q', 'functions f : X -> X')])
bound = 'P bound by [ X -> N ] to '
top = 'module M begin imports H { %sA } end M\n' % bound
tried('parameters-by-actual', 'normalise=M\n%smodule H begin %s end H\nmodule A begin imports H { %sGround } end A\n%s'
      % (base, both, bound, top), 0)
tried('parameters-two-origins', 'normalise=M\n%smodule H begin %s exports begin sorts N end end H\n'
      'module A begin imports H { renamed by [ N -> K ] %sGround } end A\n%s' % (base, both, bound, top), 15)
least = listed([('P10', 'sorts A'), ('P9', 'sorts B'), ('P1', 'sorts C')])
tried('parameters-least', 'normalise=M\nmodule N begin %s end N\nmodule M begin imports N, N { renamed by [ A -> D, B -> E ] } end M\n' % least, 15)


def shared(count):
    """so many parameters, all but one of which arrive by two ways"""
    most = listed([('P%d' % i, '') for i in range(count - 1)])
    return ('normalise=M\nmodule N begin %s end N\nmodule K begin parameters Q begin end Q end K\n'
            'module O begin imports N end O\nmodule M begin imports N, K, O end M\n') % most


tried('parameters-8', shared(8), 0)
tried('parameters-9', shared(9), 18)

# ---- mistakes in a binding: names as long as they may be, the last pair that there may be, formals of the library


def bound(last, formals, pairs):
    """a module that binds these formals, and the sort X, by the pairs"""
    return ('normalise=%s\nmodule N begin parameters P begin sorts X functions %s end P end N\n'
            'module O begin exports begin sorts A functions a : -> A end end O\n'
            'module %s begin imports N { P bound by [ %s ] to O } end %s\n') % (last, formals, last, ', '.join(pairs), last)


def in_library(given):
    """the input with its first module in the library"""
    return divided(given, given.index('module O') - given.index('module N'))


longest = tuple('_%s_' % (symbol * 40) for symbol in '+*')
tried('mistake-names-long', bound('M' * 40, '%s : X#X -> X' % longest[0], ['X -> A', '%s -> %s' % longest]), 24)
constants = ' '.join('c%d : -> X' % i for i in range(31))
pairs = ['X -> A'] + ['c%d -> a' % i for i in range(31)]
tried('mistake-none-in-32', bound('M', constants, pairs), 0)
tried('mistake-in-pair-32', bound('M', constants, pairs[:-1] + ['c30 -> A']), 25)
tried('mistake-divided', in_library(bound('M', 'f : X -> X', ['X -> A', 'f -> a'])), 26)
tried('unpaired-divided', in_library(bound('M', 'c10 : -> X c9 : -> X', ['X -> A'])), 27)

# ---- the listing's size: all that the program lends, and one byte more. An equation's tag makes it longer byte by byte


def wide(functions, tags):
    declared = ' '.join('f%d : S#S#S#S#S#S#S#S -> S' % i for i in range(functions))
    equations = ' '.join('[%s] c = c' % ('t' * size) for size in tags)
    return ('normalise=Wide\nmodule Slim begin exports begin sorts S functions c : -> S %s end end Slim\n'
            'module Wide begin imports Slim { renamed by [ S -> %s ] } equations %s end Wide\n') % (declared, 'W' * 40, equations)


def size_printed(printed):
    """the listing's size, behind the two lines before it"""
    return len(printed) - len(b''.join(printed.splitlines(True)[:2]))


def listing_size(given):
    """one more than the program lends, if that is not enough"""
    printed = reference(given.encode())
    return size_printed(printed) if printed.startswith(b'answer=0\n') else OUTPUT + 1


def filled(size):
    """an input whose listing has so many bytes"""
    functions = 1
    while listing_size(wide(functions + 1, [1])) <= size - 60:
        functions += 1
    tags = [1]
    while True:
        left = size - listing_size(wide(functions, tags))
        if left < 40:
            tags[0] += left
            return wide(functions, tags)
        tags.append(1)


exact = filled(OUTPUT)
assert listing_size(exact) == OUTPUT
tried('listing-65536', exact, 0)
tried('listing-65537', exact.replace(' equations [t', ' equations [tt', 1), 19)

# ---- less is lent: output of the listing's size and one byte less, no output, and a word of working memory less

for name in ['L', 'I.1.18', '3.1-Nstrings']:
    given, printed = [(g, p) for n, m, o, g, p in cases if n == name][0]
    modules = int(re.search(rb'modules=(\d+)', printed).group(1))
    asked = given[10:given.index(b'\n')]
    size = size_printed(printed)
    case(name + '-exact', given, printed, output=size)
    case(name + '-one-byte-short', given, refused(19, modules, asked), output=size - 1)
    case(name + '-no-output', given, refused(19, modules, asked), output=0)
    case(name + '-one-word-short', given, refused(19, 0, asked), memory=MEMORY - 1)
    case(name + '-no-memory', given, refused(19, 0, asked), memory=0)
case('no-request-no-memory', b'normalise', refused(19, 0, b''), memory=0)
case('no-library-no-memory', b'normalise=M\nlibrary=999999999\n', refused(19, 0, b'M'), memory=0)

with open(here + '/crates/trials/stdin', 'wb') as f:
    for name, memory, output, given, printed in cases:
        f.write(b'%07d %07d %07d %07d %s\n' % (memory, output, len(given), len(printed), name.encode()) + given + printed)
with open(here + '/crates/trials/stdout', 'w') as f:
    f.write(''.join(name + ' ok\n' for name, *rest in cases) + '%d of %d\n' % (len(cases), len(cases)))
