"""The words that run and compare are given, and how both end. Used by both."""
import contextlib
import math
import signal
import sys

# A wait of more than some days is refused by the system.
MOST_SECONDS = 86400


class Trouble(Exception):
    """Why nothing could be done; said on standard error, with status 2."""


class Misuse(Trouble):
    """Words that are not as the usage has them, which is shown too."""


def options(words, known):
    """The options in front, as pairs, and the words behind them. Known are their names, each with what it needs."""
    pairs, words = [], list(words)
    while words and words[0].startswith('-'):
        name, equals, value = words.pop(0).partition('=')
        if name == '--' and not equals:
            break
        if name not in known:
            raise Misuse(f'{name}: there is no such option')
        if known[name] is None and equals:
            raise Misuse(f'{name} takes nothing behind it')
        if known[name] is not None and not equals:
            if not words:
                raise Misuse(f'{name} needs {known[name]}')
            value = words.pop(0)
        pairs.append((name, value))
    return pairs, words


def seconds(text):
    """A time limit. One of 0 would fail every reader, and one without end would wait for ever."""
    try:
        value = float(text)
    except ValueError:
        value = math.nan
    if not 0 < value <= MOST_SECONDS:
        raise Misuse(f'--seconds {text}: it needs a number above 0, {MOST_SECONDS} at most')
    return value


def count(name, text):
    if not (text.isascii() and text.isdecimal() and len(text) < 10 and int(text) > 0):
        raise Misuse(f'{name} {text}: it needs a whole number of at least 1')
    return int(text)


class Signals:
    """Whether signals are held for now, and one that has come meanwhile."""
    held, came = False, None


def by_signal(which, frame):
    """Ends as a signal does, but so that a reader which is under way is ended too."""
    if not Signals.held:
        sys.exit(128 + which)
    Signals.came = which


@contextlib.contextmanager
def signals_held():
    """Lets signals wait while a reader is started: one that came in between would leave it running, known to nobody."""
    Signals.held = True
    try:
        yield
    finally:
        Signals.held = False
    if Signals.came:
        sys.exit(128 + Signals.came)


def settle_signals():
    # So that `... | head` ends quietly.
    signal.signal(signal.SIGPIPE, signal.SIG_DFL)
    for which in (signal.SIGINT, signal.SIGTERM, signal.SIGHUP):
        if signal.getsignal(which) != signal.SIG_IGN:
            signal.signal(which, by_signal)


def start(name, main, usage):
    """Runs main over the words that were given, and ends with its status."""
    settle_signals()
    try:
        sys.exit(main(sys.argv[1:]))
    except Trouble as why:
        print(f'{name}: {why}' + (f'\n{usage}' if isinstance(why, Misuse) else ''), file=sys.stderr)
        sys.exit(2)
