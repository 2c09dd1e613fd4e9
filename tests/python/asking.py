"""Asking the module and the command."""
import os
import subprocess

from rota import Refused


def refusal(call, *given, **named):
    """The refusal of a call that must be refused."""
    try:
        answer = call(*given, **named)
    except Refused as refused:
        return refused
    raise AssertionError(f"not refused, but answered {answer!r}")


def shown(plan):
    """A plan's slots and callouts."""
    return tuple(plan), plan.callouts


def command(*arguments, given=b""):
    """(standard output, standard error, status) of the command rota."""
    done = subprocess.run([os.environ["ROTA_COMMAND"], *arguments], input=given, stdout=subprocess.PIPE, stderr=subprocess.PIPE)
    return done.stdout, done.stderr.decode("ascii"), done.returncode
