#!/usr/bin/env python3
"""Makes checks.txt and the part of ../stdout from its line `checks.txt` to the rows of sessions.txt. It knows no rule of the checks:
the refusals are marked by hand.

A line of marked_checks.txt that isn't empty and doesn't begin with # has what is wanted, a colon, and a text in which ⏎ stands
for a line feed. Where the text is refused, the kind of its refusal is wanted, and ¦ stands before the refused token, for
Unsupported behind it too. Else the end of the run is wanted, whose two turns are the start and the end of main."""
import os

SENTENCES = {
    'UnknownName': 'program refused {line}:{column} UnknownName',
    'Doubled': 'program refused {line}:{column} Doubled',
    'WrongType': 'program refused {line}:{column} WrongType',
    'NoBlock': 'program refused {line}:{column} NoBlock',
    'BadPhi': 'program refused {line}:{column} BadPhi',
    'Unsupported': 'program refused {line}:{column} Unsupported {token}',
    'BadSignature': 'program refused {line}:{column} BadSignature',
    'TooLarge': 'program refused {line}:{column} TooLarge',
    'NoMain': 'program refused {line}:{column} NoMain',
    'Unexpected': 'program refused {line}:{column} Unexpected',
    'BadByte': 'program refused {line}:{column} BadByte',
    'OpenString': 'program refused {line}:{column} OpenString',
    'TooDeep': 'program refused {line}:{column} TooDeep',
}


def answer(wanted, marked):
    if wanted not in SENTENCES:
        return f'{wanted} after 2 turns'
    before, behind = marked.split('¦', 1)
    lines = before.split('⏎')
    column = len(lines[-1].encode()) + 1
    return SENTENCES[wanted].format(line=len(lines), column=column, token=behind.split('¦')[0].replace('⏎', '\n'))


def main():
    os.chdir(os.path.dirname(os.path.abspath(__file__)))
    texts, answers = [], ['checks.txt\n']
    for line in open('marked_checks.txt').read().split('\n'):
        if line and not line.startswith('#'):
            wanted, marked = line.split(': ', 1)
            text = marked.replace('¦', '')
            texts.append(text + '\n')
            answers.append(f'{answer(wanted, marked)}: {text}\n')
    open('checks.txt', 'w').write(''.join(texts))
    written, first = open('../stdout').read(), open('sessions.txt').readline().rstrip('\n')
    rows, sessions = written[:written.index('checks.txt\n')], written[written.index(f'{first}: '):]
    open('../stdout', 'w').write(rows + ''.join(answers) + sessions)


main()
