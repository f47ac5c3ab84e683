"""A client of the storage engine pagemem: a store of pairs of key and value, for a service in Python.

    from pagemem import Store

    with Store("/var/lib/fruit") as store:
        store.put(0, b"apple", b"red")
        print(store.get(0, b"apple"))

A `Store` starts the program over a folder, sends it a line for each call, and reads the reply. What a call promises:

- Once it has returned, what it changed is on the disk. A killed process, a killed program and a power cut leave it there.
- After a `RunEnded` nobody has read the reply: the line may be done or not. Calls that had returned before are done. So are calls
  of a batch whose results are there, and of the others a prefix, in their order.
- After any other exception of this module, a ValueError or a TypeError nothing was sent, or nothing was changed.
- Where something from outside stops a call, as a KeyboardInterrupt, the line may be done or not, and the run is ended.

Once a run has ended, each call raises a `ClosedError` until `reopen()` has started another.
"""

import collections
import os
import pathlib
import re
import select
import subprocess
import tempfile
import threading
from collections.abc import Callable, Iterator, Sequence
from contextlib import contextmanager
from typing import Any, NamedTuple

CACHES = 16
LONGEST_KEY = 64
LONGEST_VALUE = 900

# The most bytes that one system call sends or reads: what a pipe holds where nobody has set it otherwise.
_PIECE = 65_536
# What the program writes as itself. All else, and what begins with `x:`, is `x:` and hexadecimal digits; so are no bytes at all.
_PLAIN = re.compile(rb"(?!x:)[!-~]+")

Pair = tuple[bytes, bytes]


class StoreError(Exception):
    """What this module raises of its own."""


class FullError(StoreError):
    """A put of a new key met a partition with the most rows that the store's shape allows. Nothing was changed."""


class ClosedError(StoreError):
    """No run is under way: the store was closed, or its run has ended, and then the cause is what ended it. Nothing was sent."""


class ReplyError(StoreError):
    """The program answered what isn't a reply to the line: it isn't pagemem. The run is ended."""


class RunEnded(StoreError):
    """The run ended before it had answered all that was sent, or ended otherwise than with 0 once its input had ended.

    A status below 0 is the signal that killed the process, as -9. The store opens again after `reopen()`.
    """

    def __init__(self, status: int, fault: str, said: str) -> None:
        """Of the process's status, the `fault` line that it printed without that word, and its last line on standard error."""
        super().__init__(f"the run ended with status {status}: {said or fault or 'no reason was given'}")
        self.status = status
        self.fault = fault
        self.said = said


class UsageError(RunEnded):
    """Status 1: the folder's name is empty, begins with `-` or isn't UTF-8, or `program` has words that aren't the program's."""


class ConfigError(RunEnded):
    """Status 2: `config.json` is refused, and no file was changed. Mend the field, or take it out, and reopen."""

    @property
    def field(self) -> str:
        """The name of the field, or `text` or `unknown` where the file isn't such an object."""
        return self.fault.removeprefix("config ")


class HostError(RunEnded):
    """Status 3: a call of the system failed, which the message names, or another run has the folder. Mend that, and reopen.

    After a failed write or force reopen only once the file system was mounted anew.
    """


class OutOfMemoryError(RunEnded):
    """Status 4: memory, page frames or numbers ran out, as `said` says. The line that met it has no effect."""


class DamagedError(RunEnded):
    """Status 5: a record of the log or a page of the store is bad. Restore the folder from a copy."""

    @property
    def what(self) -> str:
        """What is bad: `record S:O` by its segment and its offset in bytes, or `page P`."""
        return self.fault


class TooLongError(RunEnded):
    """Status 6: the run was sent more lines or bytes than one may have. The lines within the limits are done. Reopen.

    It doesn't come as long as `Store.lines_per_run` is what it is here.
    """


class NotBuiltError(RunEnded):
    """Status 70, of a checkout's launcher: it couldn't build the program. The message says why."""


_ENDS: dict[int, type[RunEnded]] = {
    1: UsageError,
    2: ConfigError,
    3: HostError,
    4: OutOfMemoryError,
    5: DamagedError,
    6: TooLongError,
    70: NotBuiltError,
}


class Batch:
    """Calls that are sent together, so that the disk is asked once for many; see `Store.batch`."""

    def __init__(self, store: "Store") -> None:
        self._store = store
        self._commands: list[_Command] = []
        self.results: list[Any] = []
        """What each call gives, in order, once the block has ended. A put that was refused has its FullError here."""

    def put(self, cache: int, key: bytes, value: bytes) -> None:
        """Adds a put, whose result is None, or a FullError."""
        self._commands.append(_put(cache, key, value))

    def get(self, cache: int, key: bytes) -> None:
        """Adds a get, whose result is the value, or None."""
        self._commands.append(_get(cache, key))

    def remove(self, cache: int, key: bytes) -> None:
        """Adds a removal, whose result is whether the key had a value."""
        self._commands.append(_remove(cache, key))

    def scan(self, cache: int) -> None:
        """Adds a scan, whose result is a list of pairs by rising key."""
        self._commands.append(_scan(cache))

    def checkpoint(self) -> None:
        """Adds a checkpoint, whose result is None."""
        self._commands.append(_CHECKPOINT)

    def __enter__(self) -> "Batch":
        return self

    def __exit__(self, kind: type[BaseException] | None, *_: object) -> None:
        commands, self._commands = self._commands, []
        if kind is None:
            self._store._exchange(commands, self.results)
            _raise_refused(self.results)


class Store:
    """A store in a folder, with a run of the program over it.

    Any thread may call it. A lock has the calls wait for each other; a batch is sent as a whole. After a fork one of the two
    processes has to leave it alone. The program gets its own process, whose standard error is kept: its last line is the
    message of a RunEnded.
    """

    lines_per_run = 3_900_000
    """After how many lines a run is ended and the next one started, within a call. One may have 4,000,000, and 17,179,869,184 bytes,
    which these don't reach: a line has 1,941 at most."""

    def __init__(self, folder: str | os.PathLike[str], program: str | os.PathLike[str] | Sequence[str] | None = None) -> None:
        """Opens the store in a folder, which is made where it isn't there.

        `program` is a path, or a command as a list of words, to which `run` and the folder are added. Without it the program is what
        the environment's PAGEMEM says, or else the launcher of the checkout that this file stands in, or else `pagemem` on the PATH.

        Raises a RunEnded where the store can't be opened, as a ConfigError, a HostError or a DamagedError, and an OSError
        where the program can't be started.
        """
        if program is None:
            program = default_program()
        words = [os.fspath(program)] if isinstance(program, (str, os.PathLike)) else [*program]
        self._command = [*words, "run", os.fspath(folder)]
        self._lock = threading.Lock()
        self._run: _Run | None = None
        self._cause: BaseException | None = None
        self.reopen()

    def put(self, cache: int, key: bytes, value: bytes) -> None:
        """Has a key's value be this one. When it returns, it is on the disk.

        A cache is 0 to 15, a key has 1 to 64 bytes and a value at most 900: a ValueError comes of all else. A FullError comes of a new
        key in a full partition.
        """
        self._call(_put(cache, key, value))

    def get(self, cache: int, key: bytes) -> bytes | None:
        """The value of a key, or None where it has none."""
        return self._call(_get(cache, key))

    def remove(self, cache: int, key: bytes) -> bool:
        """Takes a key's value away, and gives whether it had one. When it returns, that is on the disk."""
        return self._call(_remove(cache, key))

    def scan(self, cache: int) -> list[Pair]:
        """The pairs of a cache by rising key, byte by byte. All are in memory, here and in the program."""
        return self._call(_scan(cache))

    def checkpoint(self) -> None:
        """Makes a checkpoint. When it returns, no call before it is applied again at the next opening, which so is a quick one."""
        self._call(_CHECKPOINT)

    def batch(self) -> Batch:
        """Calls that are sent together when a `with` block ends:

            with store.batch() as batch:
                batch.put(0, b"apple", b"red")
                batch.get(0, b"pear")
            nothing, pear = batch.results

        Lines share a force of the disk, up to 1,024 of them, so that many puts take little longer than one. The batch isn't one
        change: a crash may leave a prefix of it. A block that raises sends nothing. At the end of the block the first FullError is
        raised, if any, after all calls were sent and have their results; after a RunEnded the results are those that came before.
        """
        return Batch(self)

    def reopen(self) -> None:
        """Starts a run where none is under way, and raises what `Store` does."""
        with self._lock:
            if self._run is None:
                with self._ends_if_raised():
                    self._start()

    def close(self) -> None:
        """Ends the run's input, and waits for the run. Raises a RunEnded where its status isn't 0. Does nothing without a run."""
        with self._lock:
            if self._run is not None:
                with self._ends_if_raised():
                    self._run.finish()
                self._run, self._cause = None, None

    def kill(self) -> bool:
        """Kills the program's process, as a crash of it would, and gives whether there was one. It waits for no call of other threads.

        It is for tests: a call that is under way, or else the next one, raises a RunEnded with the status -9.
        """
        run = self._run
        return run is not None and run.kill()

    def __enter__(self) -> "Store":
        return self

    def __exit__(self, *_: object) -> None:
        self.close()

    def _call(self, command: "_Command") -> Any:
        results: list[Any] = []
        self._exchange([command], results)
        _raise_refused(results)
        return results[0]

    def _exchange(self, commands: Sequence["_Command"], results: list[Any]) -> None:
        """Sends commands, and appends what each one gives, as its reply comes."""
        with self._lock:
            if self._run is None:
                raise ClosedError(f"no run is under way, reopen() starts one: {self._cause or 'it was closed'}") from self._cause
            with self._ends_if_raised():
                done = 0
                while done < len(commands):
                    done += self._exchange_some(commands[done:], results)

    def _exchange_some(self, commands: Sequence["_Command"], results: list[Any]) -> int:
        """Does `_exchange` for as many as the run may be sent, a new one if it may be sent no more, and gives how many."""
        if self._run.lines >= self.lines_per_run:
            self._run.finish()
            self._start()
        some = commands[: self.lines_per_run - self._run.lines]
        self._run.send([command.line for command in some])
        for command in some:
            results.append(command.read(self._run.line))
        return len(some)

    def _start(self) -> None:
        """Starts a run. A line that says nothing is answered once the store is open, so that what is wrong with it is raised here."""
        self._run = _Run(self._command)
        self._run.send([b"\n"])
        _expect(self._run.line(), b"error line")

    @contextmanager
    def _ends_if_raised(self) -> Iterator[None]:
        """Leaves no run behind where something is raised: a reply that wasn't read would be taken for that of the next line."""
        try:
            yield
        except BaseException as error:
            run, self._run, self._cause = self._run, None, error
            if run is not None:
                run.abandon()
            raise


def default_program() -> str:
    """What the environment's PAGEMEM says, or else this checkout's launcher, or else `pagemem` on the PATH."""
    launcher = pathlib.Path(__file__).resolve().parents[2] / "pagemem"
    return os.environ.get("PAGEMEM") or (str(launcher) if launcher.is_file() else "pagemem")


class _Run:
    """A process of the program, with its pipes. It is sent lines while its replies are read, so that neither waits for ever."""

    def __init__(self, command: Sequence[str]) -> None:
        self.lines = 0
        self._said = tempfile.TemporaryFile()
        try:
            self._process = subprocess.Popen(command, stdin=subprocess.PIPE, stdout=subprocess.PIPE, stderr=self._said, bufsize=0)
        except BaseException:
            self._said.close()
            raise
        self._input, self._output = self._process.stdin.fileno(), self._process.stdout.fileno()
        os.set_blocking(self._input, False)
        self._either = select.poll()
        self._either.register(self._input, select.POLLOUT)
        self._either.register(self._output, select.POLLIN)
        self._unsent = memoryview(b"")
        self._replies: collections.deque[bytes] = collections.deque()
        self._piece_of_line = b""

    def send(self, lines: Sequence[bytes]) -> None:
        """Sends lines as far as the pipe takes them at once; `line` sends the rest."""
        self.lines += len(lines)
        self._unsent = memoryview(b"".join(lines))
        self._write()

    def line(self) -> bytes:
        """The next line of the output. Raises a RunEnded where it is a `fault`, or the output has ended."""
        while not self._replies and self._move():
            pass
        if not self._replies or self._replies[0].startswith(b"fault "):
            raise self._end()
        return self._replies.popleft()

    def finish(self) -> None:
        """Ends the input, and waits for the process. Raises a RunEnded where its status isn't 0."""
        end = self._end()
        if end.status != 0:
            raise end

    def kill(self) -> bool:
        """Kills the process, and gives whether it was there."""
        was_there = self._process.poll() is None
        self._process.kill()
        return was_there

    def abandon(self) -> None:
        """Ends the process at once. One that has ended stays as it is."""
        self._process.kill()
        self._close()

    def _end(self) -> RunEnded:
        """Waits for the process, and gives how it ended."""
        self._process.stdin.close()
        self._unsent = memoryview(b"")
        while self._read():
            pass
        status = self._process.wait()
        fault = self._replies[-1] if self._replies else b""
        said = self._last_said()
        self._close()
        return _ENDS.get(status, RunEnded)(status, _text(fault).removeprefix("fault "), said)

    def _close(self) -> None:
        self._process.stdin.close()
        self._process.stdout.close()
        self._process.wait()
        self._said.close()

    def _last_said(self) -> str:
        """The last line on standard error, or nothing."""
        length = self._said.seek(0, os.SEEK_END)
        self._said.seek(max(0, length - _PIECE))
        lines = self._said.read().split(b"\n")
        return _text(next((line for line in reversed(lines) if line.strip()), b"")).strip()

    def _move(self) -> bool:
        """Waits until there is output, or room for more input, and moves it. Gives whether the output goes on."""
        if self._unsent:
            ready = [pipe for pipe, _ in self._either.poll()]
            if self._input in ready:
                self._write()
            if self._output not in ready:
                return True
        return self._read()

    def _write(self) -> None:
        try:
            sent = os.write(self._input, self._unsent[:_PIECE])
        except BlockingIOError:
            return
        except BrokenPipeError:
            # The process has ended. Its output may have replies still, and says why.
            sent = len(self._unsent)
        self._unsent = self._unsent[sent:]

    def _read(self) -> bool:
        """Reads what there is of the output, and gives whether it goes on. A line that it ends in is left out."""
        piece = os.read(self._output, _PIECE)
        *lines, self._piece_of_line = (self._piece_of_line + piece).split(b"\n")
        self._replies.extend(lines)
        return bool(piece)


class _Command(NamedTuple):
    """A line, and what reads its reply, given what gives the next line of the output."""

    line: bytes
    read: Callable[[Callable[[], bytes]], Any]


def _put(cache: int, key: bytes, value: bytes) -> _Command:
    return _Command(b"put %b %b %b\n" % (_cache(cache), _key(key), _value(value)), _read_put)


def _get(cache: int, key: bytes) -> _Command:
    return _Command(b"get %b %b\n" % (_cache(cache), _key(key)), _read_get)


def _remove(cache: int, key: bytes) -> _Command:
    return _Command(b"remove %b %b\n" % (_cache(cache), _key(key)), _read_remove)


def _scan(cache: int) -> _Command:
    return _Command(b"scan %b\n" % _cache(cache), _read_scan)


def _read_put(line: Callable[[], bytes]) -> FullError | None:
    reply = line()
    if reply == b"error full":
        return FullError("the partition of this new key has the most rows that the store's shape allows")
    _expect(reply, b"ok")
    return None


def _read_get(line: Callable[[], bytes]) -> bytes | None:
    reply = line()
    if reply == b"none":
        return None
    _expect(reply[:6], b"value ")
    return _bytes_of(reply[6:])


def _read_remove(line: Callable[[], bytes]) -> bool:
    reply = line()
    if reply != b"false":
        _expect(reply, b"true")
    return reply == b"true"


def _read_scan(line: Callable[[], bytes]) -> list[Pair]:
    pairs = []
    while (reply := line()).startswith(b"pair "):
        _, key, value = reply.split(b" ")
        pairs.append((_bytes_of(key), _bytes_of(value)))
    _expect(reply, b"end %d" % len(pairs))
    return pairs


def _read_checkpoint(line: Callable[[], bytes]) -> None:
    _expect(line(), b"ok")


_CHECKPOINT = _Command(b"checkpoint\n", _read_checkpoint)


def _expect(reply: bytes, wanted: bytes) -> None:
    if reply != wanted:
        raise ReplyError(f"the program answered {_text(reply)!r} where {_text(wanted)!r} was to come")


def _raise_refused(results: Sequence[Any]) -> None:
    """Raises the first FullError, if any."""
    for result in results:
        if isinstance(result, FullError):
            raise result


def _cache(cache: int) -> bytes:
    if cache not in range(CACHES):
        raise ValueError(f"a cache is 0 to {CACHES - 1}, not {cache!r}")
    return b"%d" % cache


def _key(key: bytes) -> bytes:
    if not 1 <= len(_checked(key)) <= LONGEST_KEY:
        raise ValueError(f"a key has 1 to {LONGEST_KEY} bytes, not {len(key)}")
    return _spelled(key)


def _value(value: bytes) -> bytes:
    if len(_checked(value)) > LONGEST_VALUE:
        raise ValueError(f"a value has at most {LONGEST_VALUE} bytes, not {len(value)}")
    return _spelled(value)


def _checked(field: bytes) -> bytes:
    if not isinstance(field, (bytes, bytearray)):
        raise TypeError(f"keys and values are bytes, not {type(field).__name__}")
    return field


def _spelled(field: bytes) -> bytes:
    """A field's bytes as a line has them."""
    return bytes(field) if _PLAIN.fullmatch(field) else b"x:" + field.hex().encode()


def _bytes_of(field: bytes) -> bytes:
    """The bytes for which a field of a reply stands."""
    return bytes.fromhex(_text(field[2:])) if field.startswith(b"x:") else field


def _text(line: bytes) -> str:
    return line.decode("utf-8", "replace")
