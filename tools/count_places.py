#!/usr/bin/env python3
"""Lists the places that docs/DESIGN-PASS.md counts, for each of its points.

    python3 tools/count_places.py [FOLDER] [--list]

FOLDER is a checkout (this one, if none is given). Without --list only the counts are printed. The finding goes by text: a
place that is found need not be one to change, and what the text does not show (a twin under other names, a flag that goes
with a value) is found by reading. The page says which is which."""
import collections
import pathlib
import re
import sys

args = [a for a in sys.argv[1:] if not a.startswith('--')]
root = pathlib.Path(args[0] if args else '.')
show = '--list' in sys.argv


def sources():
    for path in sorted(root.glob('crates/*/src/**/*.rt')):
        yield path.relative_to(root / 'crates'), path.read_text()


def report(what, places):
    print(f'{what}: {len(places)}')
    if show:
        for place in places:
            print(f'    {place}')


def lines_with(pattern, code_only=True):
    found = []
    for name, text in sources():
        for number, line in enumerate(text.split('\n'), 1):
            bare = line.strip()
            if code_only and (bare.startswith('//') or bare.startswith('ghost ') or re.match(r'(ensures|requires)\b', bare)):
                continue
            if re.search(pattern, line):
                found.append(f'{name}:{number}: {bare}')
    return found


def over_text(pattern):
    """As lines_with, for a pattern that may span lines."""
    found = []
    for name, text in sources():
        for match in re.finditer(pattern, text):
            number = text.count('\n', 0, match.start()) + 1
            found.append(f'{name}:{number}: {" ".join(match.group(0).split())}')
    return found


def functions():
    """Each function with its parameters and its contract."""
    for name, text in sources():
        for match in re.finditer(r'^ *(?:pub(?:\(crate\))? )?fn (\w+)(?:<[^(]*>)?\(', text, re.M):
            depth, at = 1, match.end()
            while depth:
                depth += {'(': 1, ')': -1}.get(text[at], 0)
                at += 1
            contract = []
            for line in text[at:].split('\n'):
                contract.append(line)
                if re.search(r'(\{|\{\}|;)$', line.rstrip()):
                    break
            parameters = ' '.join(text[match.end():at - 1].split())
            yield f'{name}:{match.group(1)}', parameters, '\n'.join(contract)


print('-- 1: what Option, Result and `?` say')
report('own enums', lines_with(r'^(pub |pub\(crate\) )?enum '))
report('matches that pass an Err or a None on, or keep an Ok or a Some', over_text(
    r'(Err\((\w+)\) => (return )?Err\([^=]*?\2\)*[,;\n]|None => (return )?None\b|None => (return )?Err\(|Some\((\w+)\) => \6,|Ok\((\w+)\) => \7,'
    r'|Ok\(\w+\) => Ok\(|Some\((\w+)\) => Some\()'))
report('let .. else that only turn an Option or a Result into an Err', over_text(r'else \{\s*return Err\([^;]*\);\s*\}'))
report('numbers for refusals', lines_with(r'number: u8'))

print('-- 2: twins')
report('structs that are an array and how much of it counts', over_text(r': \[[A-Za-z]\w*; ?\w+\],\n\s*(pub\(crate\) )?(len|count|entered|secret_count)'))
bodies = collections.defaultdict(list)
for name, text in sources():
    for match in re.finditer(r'^( *)(?:pub(?:\(crate\))? )?(fn|impl|struct|enum) [^\n]*', text, re.M):
        end = re.compile(r'^' + match.group(1) + r'\}', re.M).search(text, match.end())
        if not end:
            continue
        block = text[match.start():end.end()]
        brace = re.compile(r'^ *\{$', re.M).search(block)
        body = block[brace.end():] if brace else block[block.find('{'):]
        shape = re.sub(r'[A-Za-z_]\w*|\d\w*', 'x', re.sub(r'"[^"\n]*"', 's', re.sub(r'//[^\n]*', '', body)))
        shape = ' '.join(shape.split())
        if len(shape) > 60:
            bodies[match.group(2), shape].append(f'{name}:{match.group(0).strip()[:70]}')
report('blocks with the same text but for names and numbers', [' = '.join(b) for b in bodies.values() if len(b) > 1])

print('-- 3: loops that count')
report('for over a range of numbers', lines_with(r'\bfor \w+ in [^{]*\.\.'))
report('while', lines_with(r'^\s*(while|loop)\b'))

print('-- 4: written by hand')
report('a value turned into a word, or a word into a value', lines_with(
    r'fn (\w+_)?(word|name|letter|reason|replies|of|is|row|column|next_load|next_censor|next_number|choice)\(')
)
report('comparisons', lines_with(r'fn (same|differ\w*|is|equal\w*)\('))

print('-- 5: facts and parameters')
facts = collections.defaultdict(set)
for name, parameters, contract in functions():
    for clause in re.findall(r'requires(?: \w+)? \{(.*)\}', contract):
        for part in clause.split('×'):
            fact = part.strip()
            while fact.startswith('(') and fact.endswith(')'):
                fact = fact[1:-1].strip()
            facts[fact.strip('() ')].add(name)
report('facts that three or more functions require', [f'{k}: {", ".join(sorted(v))}' for k, v in sorted(facts.items()) if len(v) > 2])
groups = collections.defaultdict(set)
for name, parameters, contract in functions():
    named = tuple(p.strip() for p in re.split(r', (?=\w+:|&)', parameters) if ':' in p)
    for i in range(len(named)):
        for j in range(i + 2, len(named) + 1):
            groups[named[i:j]].add(name)
largest = {k: v for k, v in groups.items() if len(v) > 2
           and not any(len(o) > len(k) and set(k) <= set(o) and groups[o] == v for o in groups)}
report('neighbouring parameters that three or more functions have', [f'{", ".join(k)}: {", ".join(sorted(v))}' for k, v in sorted(largest.items())])

print('-- 6: arrays')
report('arrays in types', lines_with(r': \[[^]]*; ?\w+\]'))

print('-- 7: steps')
report('dyn, function pointers, enums of calls and stages', lines_with(r'\bdyn\b|: fn\(|enum \w*(Call|Command|Stage|Step)\w*'))
report('closures and parameters that are called', lines_with(r'\|[^|]*\| |: Fn|impl Fn'))

print('-- 8: proofs')
answers = sorted(root.glob('crates/*/proofs/**/Answers.antt'))
report('files of answers', [str(p.relative_to(root)) for p in answers])
print('answers:', sum(len(re.findall(r'^(?:pub )?(\S+) :', p.read_text(), re.M)) for p in answers))
print('files of invariants:', len(list(root.glob('crates/*/proofs/**/Invariants.antt'))))
print('proofs by hand:', len(list(root.glob('crates/*/proofs/**/Proof.antt'))))
lemmas = [p for p in root.glob('crates/*/proofs/*.antt') if p.name != 'Lib.antt']
print('files of lemmas:', len(lemmas), 'with', sum(p.read_text().count('\n') for p in lemmas), 'lines')
