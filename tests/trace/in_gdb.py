"""Is run by gdb: writes the frames of each stop of a program, or of each thread of a core file, that which crashed first,
as JSON. The variables TRACE_OUT, TRACE_RUN and TRACE_STOPS say where to, how to run the program (nothing for a core
file), and gdb's commands that stop it but at signals. At the first signal a core file is made where TRACE_CORE isn't
set, and mappings and a backtrace are written."""
import json
import os
import shutil
import traceback

import gdb

OUT = os.environ['TRACE_OUT']


def frames():
    """The frames of the thread that stopped, innermost first."""
    found, frame = [], gdb.newest_frame()
    while frame is not None and len(found) < 200:
        place = frame.find_sal()
        kinds = {gdb.INLINE_FRAME: 'inline', gdb.SIGTRAMP_FRAME: 'signal', gdb.TAILCALL_FRAME: 'tail call'}
        found.append({'pc': frame.pc(), 'function': frame.name(), 'kind': kinds.get(frame.type(), 'normal'),
                      'file': place.symtab.fullname() if place.symtab else None,
                      'line': place.line if place.symtab else 0})
        try:
            frame = frame.older()
        except gdb.error:
            break
    return found


def of_core():
    selected = gdb.selected_thread()
    stops = [frames()]
    for thread in gdb.selected_inferior().threads():
        if thread.num != selected.num:
            thread.switch()
            stops.append(frames())
    return stops


def of_process():
    for command in filter(None, os.environ.get('TRACE_STOPS', '').split(';')):
        gdb.execute(command, to_string=True)
    gdb.execute('handle SIGUSR1 nostop noprint pass', to_string=True)
    gdb.execute(f'run {os.environ["TRACE_RUN"]} > {OUT}.stdout 2> {OUT}.log', to_string=True)
    stops, has_core = [], 'TRACE_CORE' in os.environ
    while gdb.selected_inferior().pid:
        if len(stops) == 16:
            gdb.execute('delete')
        stops.append(frames())
        pid = gdb.selected_inferior().pid
        shutil.copyfile(f'/proc/{pid}/maps', OUT + '.maps')
        if 'SIG' in gdb.execute('info program', to_string=True) and not has_core:
            gdb.execute(f'generate-core-file {OUT}.core', to_string=True)
            with open(OUT + '.live', 'w') as live:
                live.write(gdb.execute('info proc mappings', to_string=True))
                live.write(gdb.execute('bt', to_string=True))
            if command := os.environ.get('TRACE_LIVE'):
                os.system(command.replace('PID', str(pid)))
            has_core = True
        try:
            gdb.execute('continue', to_string=True)
        except gdb.error:
            # it ended meanwhile
            break
    return stops


for setting in ['breakpoint pending on', 'pagination off', 'confirm off', 'print frame-arguments none',
                'backtrace past-main on', 'backtrace past-entry on']:
    gdb.execute('set ' + setting)
try:
    found = of_process() if 'TRACE_RUN' in os.environ else of_core()
    with open(OUT + '.frames', 'w') as text:
        json.dump(found, text)
except Exception:
    traceback.print_exc()
finally:
    gdb.execute('quit')
