"""Why GNU addr2line and llvm-symbolizer answer otherwise than a2l: each reason that is known, and how it is seen.

A reason is found for a difference only where facts of the file bear it out, or where the peer itself answers otherwise
when it is asked for the address alone; `reasons` gives none where no reason explains all of the difference.
"""

import answers

SAID = {
    'no unit': 'no unit covers the address: the peer names it by the symbol table, where a2l says ??',
    'no range': 'the address lies in no range of a unit, but behind a row of its table (between functions): GNU takes the row, if it has read the unit',
    'skipped unit': 'the address lies in a unit of another version or kind, which a2l skips',
    'dropped code': 'the address lies in no code: the linker dropped it and left its ranges; a2l takes the first of them, LLVM another, GNU none',
    'skeleton': 'the unit is a skeleton: the peer reads its functions in another file, or GNU nothing at all of gcc\'s',
    'supplementary': 'the name stands in a supplementary file, which the peer reads',
    'directory 0': 'directory 0 is relative, as the directory in which the unit was compiled: the peer puts it behind itself',
    'ranges by index': 'GNU knows no ranges of a function by DW_FORM_rnglistx, so it begins at a function around it',
    'other units': 'GNU knows no functions of a program with type units or partial units in .debug_info',
    'file 1': 'GNU takes file 0 for file 1 in rows of a sequence before any other file',
    'no linkage name': 'the function has no DW_AT_linkage_name: GNU names it by the symbol table, and not by DW_AT_name',
    'no row': 'no row is at the address: the peer names the file by the symbol table',
    'no function': 'no function holds the address: GNU names it by the symbol table',
    'other format': 'the unit names a line table of the other format, which GNU reads by the format of the unit',
    'others before': 'GNU answers as a2l where it is asked for this address alone: what it says depends on what was asked before',
    'outermost': 'LLVM names the outermost frame by the symbol table',
}


def bare(name):
    return name.split('@')[0]


def is_behind_row(program, a, path, line):
    """Whether a row of this path and line is the last before an address."""
    for table in program.tables.values():
        for row in table.rows(a):
            files = (row[1], 0) if row[3] else (row[1],)
            if row[2] == line and any(path.endswith(table.path(n).removeprefix('./')) for n in files):
                return True
    return False


def of_chain(peer, program, a, theirs, why):
    """The functions as the peer knows them: all, or those from one outwards; or none where that explains nothing."""
    chain = program.chain(a)
    unit = program.units[program.unit_at[a]]
    if unit.kind == 'skeleton':
        why.append('skeleton')
        return None
    if peer != 'gnu':
        return chain
    has_others = any(other.is_type or other.kind == 'partial' for other in program.units)
    if has_others and len(theirs) == 1 and bare(theirs[0][0]) in program.symbols_at(a) | {'??'}:
        why.append('other units')
        return []
    known = [n for n, entry in enumerate(chain) if not entry.is_indexed()]
    from_here = known[0] if known else len(chain)
    if from_here == 0 or max(len(chain) - from_here, 1) != len(theirs):
        return chain
    why.append('ranges by index')
    return chain[from_here:]


def name_reason(peer, program, a, chain, n, wanted, got, why):
    """Why the name of frame n differs."""
    entry = chain[n] if n < len(chain) else None
    last = n == max(len(chain) - 1, 0)
    if peer == 'llvm' and last and got in program.symbols_at(a):
        return 'outermost'
    if entry is None:
        if 'other units' in why:
            return 'other units'
        return 'no function' if got in program.symbols_at(a) else None
    if wanted == '??' and program.units[program.unit_at[a]].is_supplied:
        return 'supplementary'
    if peer == 'gnu' and program.named(entry)[1] != 'DW_AT_linkage_name' and got in program.symbols_over(program.ranges[entry.offset]):
        return 'no linkage name'
    return None


def path_reason(peer, program, a, n, wanted, got):
    """Why the path of frame n differs."""
    table, row = program.table(a), program.row(a)
    if n == 0 and row is None and got in program.files:
        return 'no row'
    directory = program.units[program.unit_at[a]].root.values.get('DW_AT_comp_dir')
    if directory and not directory[1].startswith('/') and got == directory[1] + '/' + wanted:
        return 'directory 0'
    if peer == 'gnu' and n == 0 and row and row[3] and table.path(0) in (got, got.removeprefix((directory or ['', ''])[1] + '/')):
        return 'file 1'
    return None


def of_file(peer, program, a, ours, theirs):
    """The reasons of a difference that the file bears out, or none."""
    if not program.is_code(a):
        return ['dropped code']
    if a not in program.unit_at:
        if program.is_skipped(a):
            return ['skipped unit']
        (name, path, line), *others = theirs
        if peer == 'gnu' and not others and line > 0 and is_behind_row(program, a, path, line):
            return ['no range']
        named = name == '??' or bare(name) in program.symbols_at(a)
        return ['no unit'] if named and not others and line == 0 and path in program.files else []
    table = program.table(a)
    if peer == 'gnu' and table and table.is_wide != program.units[program.unit_at[a]].is_wide:
        return ['other format'] if all(path == '??' or path in program.files for _, path, _ in theirs) else []
    why = []
    chain = of_chain(peer, program, a, theirs, why)
    if chain is None:
        in_table = peer == 'gnu' and theirs[0][2] == 0 and theirs[0][1] in program.files
        return why if in_table or theirs[0][1:] == ours[0][1:] else []
    wanted = program.frames(a, chain)
    if len(wanted) != len(theirs):
        return []
    for n, (mine, other) in enumerate(zip(wanted, theirs)):
        found = []
        if mine[0] != other[0]:
            found.append(name_reason(peer, program, a, chain, n, mine[0], bare(other[0]), why))
        if mine[1] != other[1]:
            found.append(path_reason(peer, program, a, n, mine[1], other[1]))
        if mine[2] != other[2] or None in found:
            return []
        why += found
    return why


def reasons(peer, program, a, ours, theirs):
    """The reasons of a difference, or none."""
    found = of_file(peer, program, a, ours, theirs)
    if not found and peer == 'gnu' and answers.gnu(program.path, [a]) == [ours]:
        return ['others before']
    return found
