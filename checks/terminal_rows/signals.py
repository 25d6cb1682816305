"""What keys, signals and a closed terminal leave of a run that a person has begun."""
import signal

from parts.asking import answered, ends_well, finds
from parts.pair import FEW_FRAMES
from parts.rows import Skipped, holds, same
from parts.terminal import CTRL_BACKSLASH, CTRL_C, CTRL_D, Terminal


def keys_send_signals(setting):
    """The terminal of these rows is one: its keys, and its closing, end a program that does not ignore them."""
    for name, act, number in (
        ("Ctrl-C", lambda run: run.type(CTRL_C), signal.SIGINT),
        ("Ctrl-\\", lambda run: run.type(CTRL_BACKSLASH), signal.SIGQUIT),
        ("the closing", Terminal.close, signal.SIGHUP),
    ):
        with Terminal(["cat"], setting.folder()) as run:
            answered(run, "here", "here")
            act(run)
            same(run.status(), -number, f"the status of cat after {name}")


def key_in_the_middle(key):
    """The row of a key that is pressed between requests, and behind half of one, which the terminal drops then."""

    def row(setting):
        pair = setting.pair()
        with pair.terminal("serve", "image", "disk") as run:
            answered(run, "create /before", "ok 2")
            run.type(key)
            answered(run, "create /between", "ok 3")
            run.type("create /half" + key)
            answered(run, "create /behind", "ok 4")
            ends_well(run)
        finds(pair, "before", "between", "behind")

    return row


def signal_to_the_program(number):
    """The row of a signal that is sent to the program, which goes on."""

    def row(setting):
        pair = setting.pair()
        with pair.terminal("serve", "image", "disk") as run:
            answered(run, "create /before", "ok 2")
            run.program.send_signal(number)
            answered(run, "create /behind", "ok 3")
            ends_well(run)
        finds(pair, "before", "behind")

    return row


def closed_terminal(setting):
    """The closing is the end of the input, and what stands in the line that was not sent counts for nothing."""
    pair = setting.pair()
    with pair.terminal("serve", "image", "disk") as run:
        answered(run, "create /kept", "ok 2")
        run.type("create /half")
        run.close()
        same(run.status(), 0, "the status")
    finds(pair, "kept")


def ends_of_the_input(setting):
    """Ctrl-D at the beginning of a line ends the run; behind letters it sends them, and they are a line of the end."""
    pair = setting.pair()
    with pair.terminal("serve", "image", "disk") as run:
        answered(run, "create /first", "ok 2")
        run.type("create /last" + CTRL_D + CTRL_D)
        same(run.rest(), "ok 3\n", "the reply to the last line")
        same(run.status(), 0, "the status")
    finds(pair, "first", "last")


def killed(run, number):
    """Sends the signal, which has to end the run, and counts the replies that were written behind those that were read."""
    run.program.send_signal(number)
    replies = run.rest().count("\n")
    same(run.status(), -number, "the status")
    return replies


def term_between_requests(setting):
    pair = setting.pair()
    with pair.terminal("serve", "image", "disk") as run:
        answered(run, "create /notes", "ok 2")
        answered(run, "write /notes 0 68656c6c6f", "ok 5")
        same(killed(run, signal.SIGTERM), 0, "replies behind the last one")
    same(pair.serve("read /notes 0 100"), ["ok 68656c6c6f"], "what the next run finds")
    finds(pair, "notes")


def kill_in_a_stream(setting):
    """Kills a run as soon as it was sent 2,000 requests, each of which makes a file longer by a byte. The next run has to find
    as many bytes as were answered, or one more. It tells whether all were answered before the kill."""
    pair = setting.pair()
    digits = [f"{number % 256:02x}" for number in range(2000)]
    with pair.terminal("serve", "image", "disk") as run:
        answered(run, "create /file", "ok 2")
        run.type("".join(f"write /file {at} {digit}\n" for at, digit in enumerate(digits)))
        replies = killed(run, signal.SIGTERM)
    found = pair.serve("read /file 0 2000")[0].removeprefix("ok ")
    same(found, "".join(digits)[: len(found)], "the bytes that the next run finds")
    holds(replies <= len(found) / 2 <= replies + 1, f"{replies} bytes were answered, and {len(found) / 2} are found")
    finds(pair, "file")
    return replies == len(digits)


def term_in_the_middle(setting):
    """A kill while requests are answered and others wait. Where the machine is slow to send it, another run is tried."""
    for _ in range(20):
        if not kill_in_a_stream(setting):
            return
    raise Skipped("each signal came behind the last request")


def term_with_few_frames(setting):
    """Where there are more pages than frames, blocks have left memory for the disk before the kill: nothing is lost of them."""
    pair = setting.pair(FEW_FRAMES)
    names = [f"n{number:02}" for number in range(60)]
    with pair.terminal("serve", "image", "disk") as run:
        for number, name in enumerate(names):
            answered(run, f"create /{name}", f"ok {2 + number}")
            answered(run, f"write /{name} 4094 {number:04x}", "ok 2")
        same(killed(run, signal.SIGTERM), 0, "replies behind the last one")
    found = pair.serve(*[f"read /{name} 4090 100" for name in names])
    same(found, [f"ok 00000000{number:04x}" for number in range(60)], "what the next run reads")
    finds(pair, *names)


def term_in_a_transaction(setting):
    """What a transaction changed that was not committed is undone."""
    pair = setting.pair()
    with pair.terminal("serve", "image", "disk") as run:
        answered(run, "region /bank 1 1", "ok 2")
        for first, reply in (("begin /bank", "ok"), ("range /bank 0 8", "ok"), ("put /bank 0 6400000000000000", "ok 8")):
            answered(run, first, reply)
        answered(run, "commit /bank", "ok")
        for second, reply in (("begin /bank", "ok"), ("range /bank 0 8", "ok"), ("put /bank 0 5a00000000000000", "ok 8")):
            answered(run, second, reply)
        same(killed(run, signal.SIGTERM), 0, "replies behind the last one")
    same(pair.serve("get /bank 0 8", "txns"), ["ok 6400000000000000", "ok 0"], "what the next run finds")


def rows():
    """The rows by their names."""
    return {
        "keys and the closing of a terminal send signals": keys_send_signals,
        "Ctrl-C does no harm": key_in_the_middle(CTRL_C),
        "Ctrl-\\ does no harm": key_in_the_middle(CTRL_BACKSLASH),
        "SIGINT does no harm": signal_to_the_program(signal.SIGINT),
        "SIGQUIT does no harm": signal_to_the_program(signal.SIGQUIT),
        "SIGHUP does no harm": signal_to_the_program(signal.SIGHUP),
        "a closed terminal is the end of the input": closed_terminal,
        "Ctrl-D is the end of the input": ends_of_the_input,
        "SIGTERM between requests loses nothing": term_between_requests,
        "SIGTERM in the middle of requests loses nothing": term_in_the_middle,
        "SIGTERM with too few frames loses nothing": term_with_few_frames,
        "SIGTERM undoes an open transaction": term_in_a_transaction,
    }
