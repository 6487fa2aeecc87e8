#!/usr/bin/env python3
"""Makes texts.txt and ../stdout. It knows no grammar: the refusals are marked by hand, and the canonical texts come from
striking out words.

Each line of marked.txt is a text. A token between « and » is refused as not supported. Before ¦ the text stands, and what
comes next is refused. Before † the text stands, and what comes next is nested too deep. A line without a mark is a module,
but for the lines from the first one of BYTES on, where ¦ stands before a byte that begins no token, and the lines from the
first one of STRINGS on, where it stands before the quote of a string without an end.

shortened.marked.txt marks the same of shortened.ll where it is cut off: behind • a module may end; a word that is cut off
is refused as not supported behind «, and as one with which no module goes on behind ¦; behind ‹ a type stands where an
attribute may, so of its beginnings those with a digit are not supported; and a word behind • is an attribute of what
stands before it if it is cut off. Any other part is refused at its end, since more of the program may follow there."""
import os
import re

BYTES, STRINGS, DEEP = '%x = type i32 ¦^', 'source_filename = ¦"a', '%x = type {'
PROGRAMS = ['programs.ll', 'shortened.ll', 'counter.debug.ll', 'queue.debug.ll', 'pipeline.ll', 'barrier.ll']
WORDS = ['private', 'internal', 'dso_local', 'unnamed_addr', 'local_unnamed_addr', 'noundef', 'nsw', 'nuw', 'inbounds',
         'signext', 'zeroext', 'volatile', 'noalias']


def answer(line, kind):
    text = re.sub('[«»¦†]', '', line)
    if '«' in line:
        start, end = line.index('«'), line.index('»') - 1
        return text, f'what stands at Span {{ start: {start}, end: {end} }} is not supported'
    if '†' in line:
        return text, f'what opens at byte {line.index("†")} is nested too deep'
    if '¦' in line:
        return text, kind.format(line.index('¦'))
    return text, 'a module'


def stripped(line):
    line = re.sub(r'\s*;.*$', '', line).rstrip()
    line = re.sub(r',? ![a-z.]+ !\d+', '', line)
    line = re.sub(r', align \d+', '', line)
    line = re.sub(r' align \d+', '', line)
    line = re.sub(r' #\d+', '', line)
    for word in WORDS:
        line = re.sub(rf'(?<![\w.%@]){word} ', '', line)
        line = re.sub(rf' {word}(?=[,)])', '', line)
    return line


def canonical(text):
    kept = [stripped(line) for line in text.split('\n')]
    kept = [line for line in kept if line and not line.startswith(('!', 'attributes', 'source', 'target'))]
    kept = [line for line in kept if not line.startswith('  call void @llvm.dbg.')]
    parts = {'%': [], '@': [], 'declare': [], 'define': []}
    inside = False
    for at, line in enumerate(kept):
        if inside or line.startswith('define'):
            parts['define'].append(line)
            inside = line != '}'
            if line.startswith('define') and not re.match(r'\S+:$', kept[at + 1]):
                used = [int(n) for n in re.findall(r'%(\d+)', line)]
                parts['define'].append(f'{max(used) + 1 if used else 0}:')
        elif line.startswith('declare'):
            parts['declare'].append(line)
        else:
            parts[line[0]].append(line)
    return '\n'.join(parts['%'] + parts['@'] + parts['declare'] + parts['define']) + '\n'


def cuts(marked):
    """What reading gives of the beginnings of a program, but for those that are refused at their end."""
    text = re.sub('[«¦‹•]', '', marked)
    tokens, at, mark, joined = [(0, '', '', True)], 0, '', False
    for part in re.findall(r';[^\n]*|\s+|[«¦‹•]|[%@]?"[^"]*"|[%@!#]?[-\w$.+]+|.', marked):
        if part == '•' and joined:
            tokens[-1] = tokens[-1][:3] + (True,)
        elif part in '«¦‹•':
            mark = part
        else:
            joined = part[0] not in '; \n'
            if joined:
                tokens.append((at, part, mark, False))
            at, mark = at + len(part), ''
    for end in range(len(text)):
        said = cut(text[:end], *[token for token in tokens if token[0] < end or token == tokens[0]][-1])
        if said:
            yield f'cut at byte {end}: {said}\n'


def cut(text, start, token, mark, whole):
    part = text[start:][:len(token)]
    if part != token and '"' in part:
        return f'the string at byte {start + part.index(chr(34))} has no end'
    if part != token and part in '%@#':
        return f'no token begins at byte {start}'
    if part != token and part.isidentifier() and part not in ('i1', 'i8', 'i16', 'i32', 'i64'):
        if mark == '«' or mark == '‹' and re.search(r'\d', part):
            return f'what stands at Span {{ start: {start}, end: {len(text)} }} is not supported'
        if mark == '¦':
            return f'no module goes on with what stands at byte {start}'
        whole = whole or mark == '•'
    return 'a module' if whole else None


def main():
    os.chdir(os.path.dirname(os.path.abspath(__file__)))
    kind = 'no module goes on with what stands at byte {}'
    texts, answers = [], []
    for line in open('marked.txt').read().split('\n')[:-1]:
        if line == BYTES:
            kind = 'no token begins at byte {}'
        if line == STRINGS:
            kind = 'the string at byte {} has no end'
        if line.startswith(DEEP + '{{{'):
            kind = 'no module goes on with what stands at byte {}'
        text, said = answer(line, kind)
        texts.append(text + '\n')
        answers.append(f'{said}: {text}\n')
    open('texts.txt', 'w').write(''.join(texts))
    for name in PROGRAMS:
        answers.append(canonical(open(name).read()))
    answers += cuts(open('shortened.marked.txt').read())
    open('../stdout', 'w').write(''.join(answers))


main()
