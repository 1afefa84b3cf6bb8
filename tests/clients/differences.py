"""Why lines with what two symbolizers say may differ, and how each reason is seen.

Names of one address are looked up in the symbol tables of the files that stand below the name that
the variable SYMBOLS has, one a line.
"""

import functools
import os
import re
import subprocess

SAID = {
    'symbols': 'both names are symbols of one address; of aliases in assembly llvm-symbolizer takes the last entry, a2l the first',
    'mangled': 'LLVM\'s tool leaves a name mangled that c++filt reads',
    'more': 'llvm-symbolizer has no name there, and a2l-symbolizer that of a symbol',
    'variable': 'llvm-symbolizer has the place of a variable from its debug information, which a2l doesn\'t read',
    'told': 'llvm-symbolizer writes of a file that it can\'t open into the report',
}
# Names in GNU's style as LLVM's tools write them: lambdas, empty packs, pointers to members, closing brackets.
STYLE = [(re.compile(r'\{lambda(\([^{}]*\))?#(\d+)\}'), lambda found: f"'lambda{_number(found[2])}'{found[1] or ''}"),
         (re.compile(r'<, '), '<'), (re.compile(r', (?=, |>)'), ''), (re.compile(r'::\* \('), '::*('),
         (re.compile(r'> +(?=>)'), '>')]
VARIABLE = re.compile(r"( defined in '[^':]*)[:\d]*'")
FRAME = re.compile(r'^( *#\d+ +0x[0-9a-f]+) ')


def _number(of_gnu):
    return '' if of_gnu == '1' else int(of_gnu) - 2


def of_llvm(text):
    """Names in GNU's style as LLVM's tools write them."""
    for pattern, instead in STYLE:
        text = pattern.sub(instead, text)
    return text


@functools.cache
def symbols():
    """The addresses of each name, with the file."""
    found = {}
    for path in os.environ.get('SYMBOLS', '').split('\n'):
        if not os.path.exists(path):
            continue
        shown = subprocess.run(['readelf', '-sW', path], check=False, capture_output=True, text=True, errors='replace').stdout
        for address, name in re.findall(r'^ *\d+: (\w+) +\w+ +FUNC +\w+ +\w+ +\w+ ([^\s@]+)', shown, re.MULTILINE):
            found.setdefault(name, set()).add((path, address))
    return found


def are_of_one_address(name, other):
    return bool(symbols().get(name, set()) & symbols().get(other, set()))


@functools.cache
def readable(name):
    """What c++filt makes of a name."""
    return subprocess.run(['c++filt', name], check=True, capture_output=True, text=True).stdout


def is_left_mangled(theirs, ours):
    """Of words that differ, each of theirs is a mangled name, which c++filt reads as one with ours in it."""
    unlike = [(word, other) for word, other in zip(theirs, ours) if word != other]
    return len(theirs) == len(ours) and all(word.startswith('_Z') and other in readable(word) for word, other in unlike)


def reason(theirs, ours):
    """Why two lines differ; else none."""
    words, others = theirs.split(), ours.split()
    unlike = [(word, other) for word, other in zip(words, others) if word != other]
    if len(words) == len(others) and all(are_of_one_address(word, other) for word, other in unlike):
        return 'symbols'
    if is_left_mangled(words, others):
        return 'mangled'
    if FRAME.match(theirs) and len(words) == 3 and words[2].startswith('(') and others[:2] == words[:2] and others[2] in symbols():
        return 'more'
    if VARIABLE.sub(r"\1'", theirs) == VARIABLE.sub(r"\1'", ours):
        return 'variable'
    return None
