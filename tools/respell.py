#!/usr/bin/env python3
"""Brings this repository's own definitions and lemmas to today's spelling: words in snake case, types and facts in
camel case. Run once at the top, right after the toolchain's port.py. Functions and fields of src/, exported names,
strings, inputs and outputs keep their names, and so do the names that the toolchain makes for goals and steps."""
import os
import re
import subprocess
import sys

CRATES = [line.split(':')[0].split()[0] for line in open('crates.txt') if ':' in line and not line.startswith('#')]
# Names that the general rule would not give, or that would fall together with one of the library.
CHOSEN = {
    'reasonOf': 'reason_of',
    'getD-other': 'get_or_other',
    'ascending-getD': 'ascending_get_or',
    'bit-xor': 'xor_bit',
}
NAME = r"[A-Za-z][^\s(){}\[\];,.λ≡→×↦|\"=:∷⟦⟧]*"
DECLARED = re.compile(r"^ *(?:pub )?(?:abbrev |unfoldable )?(?:pub )?(?:data |record )?(" + NAME + r")(?: [^=\n]*?)? : (.*)$", re.M)
OWN_USE = re.compile(r"^ *(?:ghost )?use Rattle\.(\w+)\.(?![^{\n]*\.(?:Goals|Given|Needs)\.)[^{\n]*\{([^}]*)\}", re.M)
BOUND = re.compile(r"(?:let|λ) \(?(" + NAME + r")(?= |\.)")


def text_of(path):
    with open(path, encoding='utf-8') as file:
        return file.read()


def respelled(name):
    if name in CHOSEN:
        return CHOSEN[name]
    if name[0].isupper():
        return ''.join(part[0].upper() + part[1:] for part in name.split('-'))
    return name.replace('-', '_')


def wants(name):
    return name in CHOSEN or re.search(r"[A-Za-z0-9]-[A-Za-z0-9]", name) is not None


def own_names(texts):
    names = set()
    for text in texts.values():
        bare = re.sub(r"(?m)(?:^|(?<=\s))--(?:\s.*)?$", '', text)
        for match in DECLARED.finditer(bare):
            if not re.match(r"(goal|need|given)\.", match.group(2)):
                names.add(match.group(1))
        for match in BOUND.finditer(bare):
            names.add(match.group(1))
        for match in OWN_USE.finditer(bare):
            if match.group(1) in CRATES:
                for item in match.group(2).split(','):
                    names.add(item.strip().split(' as ')[-1])
    return {name for name in names if wants(name)}


def main():
    paths = [os.path.join(top, name) for top, _, names in os.walk('crates') for name in names]
    proofs = {path: text_of(path) for path in paths if path.endswith('.antt')}
    sources = {path: text_of(path) for path in paths if path.endswith('.rt')}
    names = own_names(proofs)
    taken = {}
    for name in sorted(names):
        new = respelled(name)
        if new in taken:
            sys.exit(f'respell: {name} and {taken[new]} would both be {new}')
        taken[new] = name
    token = re.compile(r"(?<![^\s(){}\[\];,.λ≡→×↦|\"=:∷⟦⟧])(" + '|'.join(sorted(map(re.escape, names), key=len, reverse=True)) + r")(?![^\s(){}\[\];,.λ≡→×↦|\"=:∷⟦⟧])")
    for path, text in {**proofs, **sources}.items():
        lines = []
        for line in text.split('\n'):
            comment = re.match(r"\s*(//|--)", line)
            outside_library = not re.match(r" *(ghost )?use (?!Rattle\.(" + '|'.join(CRATES) + r")\.)", line)
            if outside_library and not comment:
                line = token.sub(lambda m: respelled(m.group(1)), line)
            lines.append(line)
        new = '\n'.join(lines)
        for name in re.findall(r"^ *use (?!Rattle\.(?:" + '|'.join(CRATES) + r")\.)[^{\n]*\{([^}]*)\}", new, re.M):
            for item in name.split(','):
                item = item.strip().split(' as ')[-1]
                if item in taken and path.endswith('.antt') and re.search(r"(?m)^ *(?:pub )?(?:abbrev |unfoldable )?(?:pub )?" + re.escape(item) + r" ", re.sub(r"(?m)^ *use .*$", '', new)):
                    print(f'respell: look at {item} in {path}')
        if new != text:
            with open(path, 'w', encoding='utf-8') as file:
                file.write(new)
    print(f'respell: {len(names)} names')


main()
