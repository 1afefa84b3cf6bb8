"""Runs the model as the program."""
import os.path
import sys

sys.path.insert(0, os.path.dirname(os.path.dirname(os.path.abspath(__file__))))
from model.program import run


def load(path):
    with open(path, 'rb') as file:
        return file.read()


outcome = run(sys.argv[1:], load, sys.stdin.buffer.read)
sys.stdout.buffer.write(outcome.output)
sys.stderr.buffer.write(outcome.errors)
sys.exit(outcome.status)
