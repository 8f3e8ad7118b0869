#!/usr/bin/env python3
"""The places of the design pass in src/: python3 tools/places.py [COMMIT]

Prints, for each point, each function, type or file head of crates/*/src that has a line of the point's patterns,
with the number of such lines, of a commit or of the tree. docs/DESIGN-PASS.md says what became of each.
Comments and contracts are left out, but for point 5, which counts clauses."""
import collections
import pathlib
import re
import subprocess
import sys

POINTS = {
    '1 flags, sentinels and cases taken apart by hand in place of Option and Result': [
        r'Result<bool, (Fault|AllocError)>|Result<Option<Vec|fn push.*-> bool|pub (low|high): u16',
        r'\b(Ok|Some|None|Err)(\([A-Za-z_]*\))? => (Ok|Some|None|Err|open\b|false|0\b)'],
    '2 the same lines in several functions, and functions that stand twice': [
        r'(self|other)\.plan\.is_none|if (g|n) (>=|==) (self|0)|if p >= self|if !all_below|let span = inward',
        r'for p in (\(0\.\.self\.width\)\.rev\(\)|0\.\.self\.width)|_ if left <',
        r'fn (plan_line|refused_line|add_stop|digit|add_part|decode|tell_[a-z]+|run_case|strike_loaded|bind_loaded|keep_loaded|run_kept|run_piled)\b',
        r'const (INPUT|ROOM)'],
    '3 loops': [r'^ *(while|for|loop) '],
    '4 conversion, comparison and printing by hand': [
        r' as (usize|u16|u64)\b', r'let number = .*number\(\)|\.number\(\)\)', r'fn is_head|fn (done|yes)\(|fn word\('],
    '4b types that derive no more than Clone, Copy or Drop': [r'derive\((Clone, Copy|Drop)\)'],
    '6 buffers with a length beside, parallel arrays': [r'^ +(pub(\(crate\))? )?[a-z]+: (&.a mut )?\[[^;]*(;.*)?\],$'],
    '7 a switch on which step to run': [r'match (job|kind|field\.kind) '],
}
ITEM = re.compile(r'^\s*(?:pub(?:\([a-z]+\))? )?(?:final )?(fn|struct|enum|trait|const) ([A-Za-z_]+)')


def files(commit):
    if commit:
        names = subprocess.run(['git', 'ls-tree', '-r', '--name-only', commit], capture_output=True, text=True, check=True).stdout.split('\n')
        for name in sorted(names):
            if re.fullmatch(r'crates/[^/]+/src/.*\.rt', name):
                yield name, subprocess.run(['git', 'show', f'{commit}:{name}'], capture_output=True, text=True, check=True).stdout
    else:
        for path in sorted(pathlib.Path('crates').glob('*/src/**/*.rt')):
            yield str(path), path.read_text()


def main():
    texts = dict(files(sys.argv[1] if len(sys.argv) > 1 else None))
    for point, patterns in POINTS.items():
        found = collections.Counter()
        for name, text in texts.items():
            lines = text.split('\n')
            item = 'head'
            for at, line in enumerate(lines):
                if line.startswith('}'):
                    item = 'head'
                head = ITEM.match(line)
                if head:
                    item = head.group(2)
                elif line.startswith('#[derive'):
                    after = next((m for m in map(ITEM.match, lines[at:at + 6]) if m), None)
                    item = after.group(2) if after else item
                if re.match(r' *(//|ghost |requires|ensures)', line):
                    continue
                if any(re.search(p, line) for p in patterns):
                    found[f'{name}: {item}'] += 1
        print(f'== {point}: {sum(found.values())} lines in {len(found)} places')
        for place, n in sorted(found.items()):
            print(f'   {place}' + (f' ({n})' if n > 1 else ''))
    facts = collections.Counter()
    for text in texts.values():
        for line in text.split('\n'):
            clause = re.match(r' *(requires|ensures) *[a-z_]* *\{ *(.*?) *\};?$', line)
            if clause:
                facts[clause.group(1) + ' { ' + clause.group(2) + ' }'] += 1
    often = [(fact, n) for fact, n in facts.most_common() if n >= 3]
    print(f'== 5 facts that three clauses or more have: {len(often)}')
    for fact, n in often:
        print(f'   {n} {fact}')


main()
