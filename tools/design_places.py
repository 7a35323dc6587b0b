#!/usr/bin/env python3
"""The places that docs/DESIGN-PASS.md counts, point by point, in the sources of a commit or of this checkout.
  tools/design_places.py [COMMIT] [--list]   with --list each place, else the counts alone"""
import collections
import os
import re
import subprocess
import sys

ROOT = os.path.join(os.path.dirname(os.path.abspath(__file__)), '..')
FUNCTION = re.compile(r'^( *)(?:pub )?(?:extern "C" )?(?:const )?fn (\w+)[^\n]*(?:\n(?!\1\{)[^\n]*)*\n\1\{\n((?:.*\n)*?)\1\}$', re.M)
WORDS_KEPT = {'if', 'else', 'while', 'loop', 'return', 'let', 'mut', 'match', 'break', 'for', 'in', 'true', 'false', 'as'}
TOGETHER = {
    'the lists of a sheet': ['window', 'coefficients', 'weights', 'lengths'],
    'the lists of its Goertzel rows': ['window', 'coefficients', 'weights'],
    'the lists of its constant-Q rows': ['lengths', 'coefficients', 'windows'],
    'frame rows': ['centres', 'values', 'energies'],
    'frames that are heard': ['centres', 'values'],
    'estimate rows': ['middles', 'numbers', 'certainties'],
    'segment rows': ['starts', 'ends', 'keys', 'confidences'],
    'stretches': ['starts', 'ends', 'keys'],
    'a set with its summary': ['set', 'summary'],
}
BY_HAND = r'fn (same_key|same_numbers|same_bytes|tonic_number|key_number|key_from_index|stored_key|one_if|fewer|fewest|less|word_of|number_or|is_found|layout_or_1|place_before|number_of|widened)\b'
COUNTED = re.compile(r'\b(count|frames|found|left|samples|rows|size|n): usize')


def sources(commit):
    """Each source of the crates, by its path."""
    if commit:
        names = subprocess.run(['git', 'ls-tree', '-r', '--name-only', commit, 'crates'], cwd=ROOT, capture_output=True, text=True, check=True).stdout.split()
        names = [name for name in names if re.fullmatch(r'crates/\w+/src/.*\.rt', name)]
        return {name: subprocess.run(['git', 'show', f'{commit}:{name}'], cwd=ROOT, capture_output=True, text=True, check=True).stdout for name in names}
    found = {}
    for folder, _, files in os.walk(os.path.join(ROOT, 'crates')):
        path = os.path.relpath(folder, ROOT)
        if '/src' in path and '/out' not in path:
            for name in files:
                if name.endswith('.rt'):
                    found[f'{path}/{name}'] = open(os.path.join(folder, name), encoding='utf-8').read()
    return found


def lines_with(texts, pattern):
    return [f'{path}:{k}: {line.strip()}' for path, text in sorted(texts.items()) for k, line in enumerate(text.split('\n'), 1)
            if re.search(pattern, line.split('//')[0])]


def own_enums(texts):
    """Enums of which a case has a value: those whose cases have none are kinds."""
    found = []
    for path, text in sorted(texts.items()):
        for match in re.finditer(r'^(?:pub )?enum (\w+) \{\n((?:.*\n)*?)\}', text, re.M):
            if '(' in match.group(2):
                found.append(f'{path}: {match.group(1)}')
    return found


def flags_beside(texts):
    return [f'{path}: {match.group(1)}.{field}' for path, text in sorted(texts.items())
            for match in re.finditer(r'^(?:pub )?struct (\w+)[^\n]*\{\n((?:.*\n)*?)\}', text, re.M)
            for field in re.findall(r'(\w+): bool', match.group(2))]


def twins(texts):
    """Functions of four lines or more whose bodies are one text once names, types and numbers are taken off."""
    groups = collections.defaultdict(list)
    for path, text in sorted(texts.items()):
        for match in FUNCTION.finditer(text):
            body = re.sub(r'//.*', '', match.group(3))
            if len(body.strip().splitlines()) < 4:
                continue
            names = {}
            bare = re.sub(r'-?\b[0-9][0-9_a-fA-Fx.]*\b', 'N', body)
            bare = re.sub(r'\b[A-Za-z_]\w*\b', lambda word: word.group(0) if word.group(0) in WORDS_KEPT else names.setdefault(word.group(0), f'v{len(names)}'), bare)
            groups[' '.join(bare.split())].append(f'{path.split("/")[1]}::{match.group(2)}')
    return [' '.join(group) for group in groups.values() if len(group) > 1]


def signatures(texts):
    for path, text in sorted(texts.items()):
        for match in re.finditer(r'fn (\w+)(?:<[^>]*>)?\(([^)]*)\)', text, re.S):
            yield f'{path.split("/")[1]}::{match.group(1)}', match.group(2)


def travelling(texts):
    found = []
    for name, parameters in signatures(texts):
        words = re.findall(r'(\w+):', parameters)
        found += [f'{what}: {name}' for what, needed in TOGETHER.items() if all(word in words for word in needed)]
    return found


def repeated_facts(texts):
    facts = collections.Counter(part.strip().strip('()') for text in texts.values() for clause in re.findall(r'^\s*requires\s*\{(.*)\}$', text, re.M) for part in clause.split(' × '))
    return [f'{count} times: {fact}' for fact, count in facts.most_common() if count >= 3]


def counted_slices(texts):
    return [name for name, parameters in signatures(texts) if '&' in parameters and '[' in parameters and COUNTED.search(parameters)]


def main():
    arguments = [word for word in sys.argv[1:] if word != '--list']
    texts = sources(arguments[0] if arguments else None)
    points = [
        ('1 own enums of the shape of Option or Result', own_enums(texts)),
        ('1 numbers of refusals in the code', lines_with(texts, r'\b(Refused|refused|unchanged|unmended|unread_card|keyless|no_rows)\([0-9]+|refusal: [1-9]')),
        ('1 a count or a limit that says "none"', lines_with(texts, r'break (count|PLACES)\b|== PLACES')),
        ('1 a flag beside values', flags_beside(texts)),
        ('2 groups of twins', twins(texts)),
        ('3 loops', lines_with(texts, r'^\s*(while|loop)\b')),
        ('4 by hand what a derive or std has', lines_with(texts, BY_HAND)),
        ('5 parameters that travel together', travelling(texts)),
        ('5 facts in three or more contracts', repeated_facts(texts)),
        ('6 a slice with a count beside it', counted_slices(texts)),
        ('7 a number that says which step to run', lines_with(texts, r'\bengine == |mode: usize|by_rule')),
    ]
    for title, places in points:
        print(f'{len(places):4}  {title}')
        if '--list' in sys.argv:
            for place in places:
                print(f'        {place}')


if __name__ == '__main__':
    main()
