#!/usr/bin/env python3
"""Brings the names that the toolchain makes for goals and steps to today's spelling in the files that answer them: a
name of the source keeps its underscores, and the toolchain's own words have them too. Was run once, after respell.py;
what it missed was mended by hand, as the check said."""
import os
import re

MADE = [
    (re.compile(r"(?<![^-])overflow-(add|sub|mul|shl|shr|cast|step)(?![^-])"), r"overflow_\1"),
    (re.compile(r"(?<![^-])nonzero-(div|rem)(?![^-])"), r"nonzero_\1"),
    (re.compile(r"(?<![^-])(offset|slice)-bounds(?![^-])"), r"\1_bounds"),
    (re.compile(r"(?<![^-])(invariant-of|type-inv|in-default|in-ok|in-err)(?![^-])"), lambda m: m.group(1).replace('-', '_')),
]
TOKEN = re.compile(r"[^\s(){}\[\];,.λ≡→×↦|\"=:∷⟦⟧]+")


def text_of(path):
    with open(path, encoding='utf-8') as file:
        return file.read()


def source_names():
    names = set()
    for top, _, files in os.walk('crates'):
        for file in files:
            if file.endswith('.rt'):
                text = re.sub(r"(?m)^ghost use .*$|//.*$|\"(?:[^\"\\]|\\.)*\"", '', text_of(os.path.join(top, file)))
                names |= {name for name in re.findall(r"\b[a-z]\w*\b", text) if '_' in name}
    return sorted(names, key=len, reverse=True)


def main():
    kept = re.compile(r"(?<![^-])(" + '|'.join(re.escape(n.replace('_', '-')) for n in source_names()) + r")(?![^-])")
    for top, _, files in os.walk('crates'):
        for file in files:
            if file not in ('Answers.antt', 'Invariants.antt', 'Proof.antt'):
                continue
            path = os.path.join(top, file)
            text = text_of(path)
            library = set()
            for module, items in re.findall(r"(?m)^use (\S*?)\.\{([^}]*)\}", text):
                if not re.search(r"\.(Goals|Given)$", module):
                    library |= {item.strip().split(' as ')[-1] for item in items.split(',')}

            def spelled(match):
                name = match.group(0)
                if name in library or '-' not in name.strip('-'):
                    return name
                for pattern, by in MADE:
                    name = pattern.sub(by, name)
                return kept.sub(lambda m: m.group(1).replace('-', '_'), name)

            new = '\n'.join(
                line if re.match(r"\s*--|use (?!\S*\.(Goals|Given)\b)", line) else TOKEN.sub(spelled, line) for line in text.split('\n')
            )
            if new != text:
                with open(path, 'w', encoding='utf-8') as file_:
                    file_.write(new)


main()
