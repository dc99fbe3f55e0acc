"""The standard streams as a command finds them: closed ones, and readers that have ended."""
import os
import signal
import sys


def fill() -> None:
    """Puts a device in the place of each stream that is closed. Else the next file that is opened
    would get its number, and what is printed would be lost without a word. Standard input and
    output then fail where they are used; what nobody can read goes nowhere."""
    for number, name in enumerate(("stdin", "stdout", "stderr")):
        if getattr(sys, name) is None:
            place = os.open("/dev/null" if number == 2 else "/dev/full", os.O_WRONLY)
            if place != number:
                os.dup2(place, number)
                os.close(place)
            setattr(sys, name, open(number, "w" if number else "r", closefd=False))


def end_with_reader() -> None:
    """Ends as other filters do where nobody reads the output any more: by SIGPIPE, in silence."""
    signal.signal(signal.SIGPIPE, signal.SIG_DFL)
    os.kill(os.getpid(), signal.SIGPIPE)
