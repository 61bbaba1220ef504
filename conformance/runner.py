"""How a reader is run on an image. Used by run and compare.

A reader has a time limit and a limit to what it may print. It is started in a process group of its own, so that what it
starts itself ends with it.
"""
import errno
import os
import selectors
import shutil
import signal
import subprocess
import time

import commandline
import listing

SECONDS = 5
# The longest listing of a region of 32,768 bytes is below 100,000 bytes.
MOST_PRINTED = 1_000_000
# Of what a reader says on standard error the end is kept: so many bytes, of which so many lines are shown.
MOST_SAID = 4096
LINES_SAID = 5
WIDTH_SAID = 110


class Answer:
    """What a reader printed, the end of what it said on standard error, and a fault if it did not end as it should."""

    def __init__(self):
        self.printed, self.said, self.fault, self.late = b'', b'', None, False

    def take_printed(self, piece):
        self.printed += piece
        if len(self.printed) > MOST_PRINTED:
            self.fault = f'it printed more than {MOST_PRINTED} bytes'

    def take_said(self, piece):
        self.said = (self.said + piece)[-MOST_SAID:]

    def print_said(self):
        """Prints the last lines of what it said, if there are any: they may tell why it failed."""
        if self.said.strip():
            print('  its standard error ends with')
            for line in self.said.rstrip(b'\n').split(b'\n')[-LINES_SAID:]:
                print(f'    {listing.escaped(line, WIDTH_SAID)}')


def no_program(word):
    """Why a command's first word names nothing that can be started; none if it does."""
    if shutil.which(word):
        return None
    if not word:
        return 'the command is empty'
    if os.path.isdir(word):
        return f'{word}: is a directory'
    if not os.path.exists(word):
        return f'{word}: there is no such program'
    if not os.access(word, os.X_OK):
        return f'{word}: is not executable'
    # Without a slash a program is looked for in PATH alone.
    return f'{word}: there is no such program in PATH; the file here is ./{word}'


def not_started(word, error):
    """Why a program that is there could not be started."""
    if error.errno == errno.ENOEXEC:
        return f'{word}: is no program that can be started here; a script begins with a line such as #!/bin/sh'
    if error.errno == errno.ENOENT:
        return f'{word}: cannot be started: the program that its first line names is not there'
    return f'{word}: cannot be started: {error.strerror}'


def hear(process, answer, limit):
    """Takes what a reader writes until its output is closed and it has ended; whether that was before the limit."""
    # Standard error is read along, since a reader would wait for ever before a full pipe.
    takers = {process.stdout: answer.take_printed, process.stderr: answer.take_said}
    with selectors.DefaultSelector() as pipes:
        for pipe in takers:
            pipes.register(pipe, selectors.EVENT_READ)
        while takers and not answer.fault:
            left = limit - time.monotonic()
            if left <= 0:
                return False
            # What the reader has started may hold standard error open behind its end, which is then looked for.
            ready = pipes.select(left if process.stdout in takers else min(left, 0.01))
            for key, _ in ready:
                piece = os.read(key.fd, 65536)
                takers[key.fileobj](piece)
                if not piece:
                    pipes.unregister(key.fileobj)
                    del takers[key.fileobj]
            if not ready and process.stdout not in takers and process.poll() is not None:
                break
    return bool(answer.fault) or ends(process, limit)


def ends(process, limit):
    try:
        process.wait(max(0, limit - time.monotonic()))
    except subprocess.TimeoutExpired:
        return False
    return True


def status_fault(status):
    if status < 0:
        return f'it was ended by signal {-status} ({signal.strsignal(-status) or "without a name"})'
    return f'it ended with status {status}' if status else None


def finish(process):
    """Ends what is still running of a reader and of what it has started."""
    process.stdout.close()
    process.stderr.close()
    # As long as its end has not been taken note of, the number of the process and of its group is its own.
    if process.returncode is None:
        os.killpg(process.pid, signal.SIGKILL)
        process.wait()


def read(command, image, seconds=SECONDS):
    """Runs a command, given as a list of words, with an open file as its standard input."""
    answer = Answer()
    limit = time.monotonic() + seconds
    process = None
    try:
        with commandline.signals_held():
            process = subprocess.Popen(command, stdin=image, stdout=subprocess.PIPE, stderr=subprocess.PIPE,
                                       start_new_session=True)
        answer.late = not hear(process, answer, limit)
    finally:
        if process:
            finish(process)
    if answer.late:
        answer.fault = f'it had not ended after {seconds:g} s'
    answer.fault = answer.fault or status_fault(process.returncode)
    return answer
