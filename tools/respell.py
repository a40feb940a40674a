#!/usr/bin/env python3
"""Respells this repository's own definitions and lemmas: words in snake case, facts in upper camel case.

    python3 tools/respell.py

Run once, at the top, after the toolchain's own port.py. It goes by whole words over specs/, proofs/, the clauses in src/,
the must-fail edits and the pages, and writes each file that changes. Code has no word of the old spelling, so a file of
src/ changes in its clauses alone. Names that the checker makes of a variant (as in-SetUp) are left.
"""
import os
import re
import subprocess
import sys

# a name that would fall together with a function's of src/, or that is a fact
OWN = {
    'advanceAll': 'all_advanced',
    'classCount': 'class_count_of',
    'coinCell': 'cell_of_coins',
    'countsOf': 'number_of_counts',
    'fewCounts': 'has_few_counts',
    'firstOver': 'first_above',
    'noiseAt': 'noise_after',
    'notTaken': 'kind_not_taken',
    'publishedRecord': 'record_of_published',
    'publishAll': 'all_published',
    'replyTo': 'reply_of',
    'handedBack': 'HandedBack',
    'borrowsOf': 'RecordBorrows',
}
# one name with two meanings: the fact of the law, beside the reader's answer
OWN_IN = {('runs', 'answerTo'): 'AnswerTo'}
LEFT = {'xFE', 'xFF', 'in-SetUp', 'returns-in-SetUp'}

WORD = re.compile(r"(?<![\w'-])[A-Za-z_][\w']*(?:-[\w']+)*")


def snake(word):
    return re.sub(r'(?<=[a-z0-9])([A-Z])', lambda m: '_' + m.group(1).lower(), word)


def respelled(word, crate):
    if word in LEFT or not word[0].islower() or not re.search(r'[a-z0-9][A-Z]', word):
        return word
    return OWN_IN.get((crate, word)) or OWN.get(word) or snake(word)


def turn(path, text):
    crate = path.split('/')[1] if path.startswith('crates/') else ''
    return WORD.sub(lambda m: respelled(m.group(0), crate), text)


def files():
    listed = subprocess.run(['git', 'ls-files', '-co', '--exclude-standard'], capture_output=True, text=True).stdout
    for path in listed.split('\n'):
        if not os.path.isfile(path):
            continue
        if re.match(r'crates/\w+/(specs|proofs)/.*\.antt$|crates/\w+/src/.*\.rt$|crates/\w+/must-fail/.*\.edit$', path):
            yield path
        elif re.match(r'docs/(?!PORT)[A-Z]+\.md$|README\.md$', path):
            yield path


def main():
    changed = 0
    for path in files():
        with open(path, encoding='utf-8') as f:
            old = f.read()
        new = turn(path, old)
        if new != old:
            with open(path, 'w', encoding='utf-8') as f:
                f.write(new)
            changed += 1
    print('respell: %d files' % changed)


if __name__ == '__main__':
    sys.exit(main())
