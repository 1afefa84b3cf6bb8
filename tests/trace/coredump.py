"""Writes the message that systemd-coredump has for the journal, of a core file. It runs in a mount namespace of its own
(unshare -m), in which it takes the journal's place, so that nothing of the system sees any of it. The words are the
core file and the program."""
import array
import os
import socket
import struct
import subprocess
import sys

COREDUMP = '/lib/systemd/systemd-coredump'


def fields(program):
    """What the kernel would say of the process."""
    known = {'PID': os.getpid(), 'UID': os.getuid(), 'GID': os.getgid(), 'SIGNAL': 11, 'TIMESTAMP': 1764500000,
             'RLIMIT': 1 << 40, 'HOSTNAME': 'host', 'DUMPABLE': 1, 'COMM': os.path.basename(program), 'EXE': program}
    return [f'COREDUMP_{name}={value}'.encode() for name, value in known.items()]


def message(journal):
    """The text of the entry, which may be in a file that is passed."""
    while True:
        data, passed, _, _ = socket.recv_fds(journal, 1 << 20, 1)
        if passed:
            with open(f'/proc/self/fd/{passed[0]}', 'rb') as entry:
                data = entry.read()
        while data:
            line, _, data = data.partition(b'\n')
            name, equals, value = line.partition(b'=')
            if not equals:
                size, = struct.unpack_from('<Q', data)
                value, data = data[8:8 + size], data[9 + size:]
            if name == b'MESSAGE' and b'dumped core' in value:
                return value


def main():
    core, program = sys.argv[1:]
    with open(core, 'rb') as opened:
        for place in ['/run', '/var/lib/systemd']:
            subprocess.run(['mount', '-t', 'tmpfs', 'none', place], check=True)
        os.makedirs('/run/systemd/journal')
        os.makedirs('/var/lib/systemd/coredump')
        os.chmod('/var/lib/systemd/coredump', 0o777)
        journal = socket.socket(socket.AF_UNIX, socket.SOCK_DGRAM)
        journal.bind('/run/systemd/journal/socket')
        os.chmod('/run/systemd/journal/socket', 0o777)
        journal.settimeout(60)
        ours, theirs = socket.socketpair(socket.AF_UNIX, socket.SOCK_SEQPACKET)
        if os.fork() == 0:
            os.dup2(theirs.fileno(), 3)
            os.execve(COREDUMP, [COREDUMP], {'LISTEN_FDS': '1', 'LISTEN_PID': str(os.getpid())})
        for field in fields(program):
            ours.send(field)
        ours.sendmsg([b''], [(socket.SOL_SOCKET, socket.SCM_RIGHTS, array.array('i', [opened.fileno()]))])
        sys.stdout.buffer.write(message(journal) + b'\n')


main()
