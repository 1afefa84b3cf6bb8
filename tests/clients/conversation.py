"""Conversations with symbolizers as their clients have them: line by line, each after a reply.

A reply in LLVM's style ends with an empty line. In GNU's style a client writes a second line, for
which nothing can be found, and reads until the reply to that one.
"""

import os
import selectors
import signal
import subprocess
import time

UNKNOWN = b'??\n??:0\n'


class NoReply(Exception):
    """No whole reply came in time, or the tool ended."""


class Conversation:
    """A symbolizer that runs. `sentinel` is GNU's second line; without it the style is LLVM's."""

    def __init__(self, words, sentinel=None, seconds=20, **how):
        self.sentinel, self.seconds = sentinel, seconds
        how.setdefault('stderr', subprocess.DEVNULL)
        self.tool = subprocess.Popen(words, bufsize=0, stdin=subprocess.PIPE, stdout=subprocess.PIPE, **how)
        self.selector = selectors.DefaultSelector()
        self.selector.register(self.tool.stdout, selectors.EVENT_READ)

    def __enter__(self):
        return self

    def __exit__(self, *error):
        self.end()

    def write(self, line):
        """Writes a line, without its end. What the tool writes meanwhile has to fit into a pipe."""
        self.tool.stdin.write(line + b'\n')

    def is_whole(self, reply):
        """Whether a reply has ended. The one to the sentinel comes after a whole reply of at least two lines."""
        if self.sentinel is None:
            return reply == b'\n' or reply.endswith(b'\n\n')
        return reply.endswith(UNKNOWN) and reply.count(b'\n') >= 4

    def read(self):
        """The reply to what was written."""
        reply, end = b'', time.monotonic() + self.seconds
        while not self.is_whole(reply):
            if not self.selector.select(max(0, end - time.monotonic())):
                raise NoReply(f'no whole reply within {self.seconds} s, but {reply[-200:]!r}')
            more = os.read(self.tool.stdout.fileno(), 1 << 16)
            if not more:
                raise NoReply(f'the tool ended with status {self.tool.wait()} after {reply[-200:]!r}')
            reply += more
        return reply

    def ask(self, line):
        """The reply to a line: in GNU's style without the one to the sentinel."""
        self.write(line)
        if self.sentinel is None:
            return self.read()
        self.write(self.sentinel)
        return self.read().removesuffix(UNKNOWN)

    def end(self):
        """Closes the input, and returns the status of the tool; a tool that doesn't end is killed."""
        self.selector.close()
        if not self.tool.stdin.closed:
            self.tool.stdin.close()
        try:
            status = self.tool.wait(self.seconds)
        except subprocess.TimeoutExpired:
            self.tool.send_signal(signal.SIGKILL)
            status = self.tool.wait()
        self.tool.stdout.close()
        return status
