#!/usr/bin/env python3
"""Keeps the lists of files in docs/contributing.md true: variant_files.py checks them, variant_files.py --write makes them anew.

A list is between two lines of the page,

    <!-- files that name Mine -->
    <!-- end of files -->

and has each file of code, definitions or proofs that names this word, one line a crate, with the functions, definitions and lemmas that do.
Left out are imports, comments, tests, test vectors and answers to goals. Several words may be named, and behind `in` the crates to look at,
by the beginning of their names. The must-fail edits and test vectors that the page names have to be there, too.
"""
import functools
import os
import re
import sys

TOP = os.path.dirname(os.path.dirname(os.path.abspath(__file__)))
PAGE = os.path.join(TOP, 'docs', 'contributing.md')
BEGINS = re.compile(r'<!-- files that name (.+?)(?: in (.+?))? -->')
ENDS = '<!-- end of files -->'

# What begins a function or a type of code, a definition or lemma, and one inside a module of lemmas; and an import or a comment.
IN_CODE = re.compile(r'\s*(?:pub(?:\([a-z]+\))? )?(?:fn|enum|struct|type) +(\w+)')
IN_PROOFS = re.compile(r'(?:(?:abbrev|unfoldable|data|record|pub) )*([a-zA-Z][^\s:(]*)')
IN_MODULE = re.compile(r'  (?:(?:abbrev|record|pub) )*([a-zA-Z][^\s:(]*)')
IMPORTS = re.compile(r'\s*(?:pub |ghost )?use ')
COMMENTS = re.compile(r'\s*(?:--|//|#)')

# Files that no change has to touch: tests, test vectors, answers to goals, and what is built.
PASSED_OVER = re.compile(r'/out/|/tests/|^tests_|^theory_\w*values/|/(?:Worked\w*|Verdicts\w*|Answers|Invariants|\w*Vectors)\.antt$')


@functools.cache
def texts():
    """The files of all crates that a change may have to touch, with their texts, in order."""
    crates, found = os.path.join(TOP, 'crates'), []
    for folder, inner, files in os.walk(crates):
        inner[:] = sorted(name for name in inner if name != 'out')
        for name in sorted(files):
            place = os.path.relpath(os.path.join(folder, name), crates)
            if name.endswith(('.rt', '.antt')) and not PASSED_OVER.search(place):
                with open(os.path.join(crates, place)) as it:
                    found.append((place, it.read()))
    return found


def without_imports(text):
    """The lines of a text that are neither part of an import nor a comment."""
    importing = False
    for line in text.splitlines():
        if importing or IMPORTS.match(line):
            importing = (importing or '{' in line) and '}' not in line
        elif not COMMENTS.match(line):
            yield line


def headings(place, text):
    """The lines of a text, each with the name of the function, definition or lemma that it is of."""
    in_code, name, in_module = place.endswith('.rt'), '', False
    for line in without_imports(text):
        found = IN_CODE.match(line) if in_code else IN_PROOFS.match(line)
        if found and not in_code:
            in_module = found.group(1) == 'module'
        if not found and in_module:
            found = IN_MODULE.match(line)
        name = found.group(1) if found else name
        yield line, name


def list_of(words, crates):
    """The lines of a list."""
    word = re.compile(r'\b(?:' + '|'.join(map(re.escape, words)) + r')\b(?!-)')
    files = {}
    for place, text in texts():
        crate, rest = place.split('/', 1)
        if place.startswith(tuple(crates)) and any(name in text for name in words):
            names = list(dict.fromkeys(name for line, name in headings(place, text) if word.search(line)))
            if names:
                shown = ', '.join(name for name in names if name != 'module')
                files.setdefault(crate, []).append(f'`{rest}` {shown}'.rstrip())
    return [f'- {crate}: {"; ".join(named)}' for crate, named in files.items()]


def with_lists(page):
    """The page with all its lists made anew."""
    lines, skipped = [], False
    for line in page.splitlines():
        begins = BEGINS.fullmatch(line)
        skipped = skipped and line != ENDS
        if not skipped:
            lines.append(line)
        if begins:
            lines += list_of(begins.group(1).split(), (begins.group(2) or '').split() or [''])
            skipped = True
    return '\n'.join(lines) + '\n'


def gone(page):
    """The must-fail edits and test vectors that the page names and that aren't there."""
    edits = [f'crates/{crate}/must-fail/{name}.edit' for crate, name in re.findall(r'`(\w+)/must-fail/(\w+)`', page)]
    vectors = [f'{name}.out' for name in re.findall(r'`(vectors/(?!contracts/)\w+/\w+)`', page)]
    return [place for place in edits + vectors if not os.path.exists(os.path.join(TOP, place))]


def main():
    with open(PAGE) as it:
        page = it.read()
    wanted = with_lists(page)
    if sys.argv[1:] == ['--write']:
        with open(PAGE, 'w') as it:
            it.write(wanted)
        page = wanted
    there = page.splitlines()
    for line in wanted.splitlines():
        if line not in there:
            print('lacks', line)
    for place in gone(page):
        print('names what is gone:', place)
    if wanted != page:
        sys.exit('docs/contributing.md: a list of files is no longer true; tools/variant_files.py --write makes it anew')
    if gone(page):
        sys.exit('docs/contributing.md: it names files that are gone')


if __name__ == '__main__':
    main()
