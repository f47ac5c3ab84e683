"""Tries the client, and tools/power-cut, over the program that PAGEMEM names, or the checkout's.

`python3 -m unittest` takes some seconds. With PAGEMEM_WHOLE=1 in the environment it makes a hundred thousand drawn calls, as many puts
in a batch and a hundred kills, and has a run pass its limit of lines.
"""

import json
import os
import pathlib
import random
import signal
import subprocess
import sys
import tempfile
import threading
import time
import unittest

import pagemem
from numbered import KEYS, Missing, NumberedPuts
from pagemem import Store

IS_WHOLE = bool(os.environ.get("PAGEMEM_WHOLE"))
CALLS = 100_000 if IS_WHOLE else 2_000
PUTS = 100_000 if IS_WHOLE else 20_000
KILLS = 100 if IS_WHOLE else 6
POWER_CUT = pathlib.Path(__file__).resolve().parents[2] / "tools" / "power-cut"

# Fields at which a spelling may go wrong.
EDGES = [
    *(bytes([byte]) for byte in range(256)),
    *(b"x:", b"x:61", b"x:6", b"x:zz", b"x", b"X:", b"xx:", b":", b"a x:", b"0", b"15", b"put", b"end 1", b"none", b"value v"),
    *(b"\r\n", b" a", b"a ", b"\x00" * 64, b"\xff" * 64, b"x" * 64, b"x:" + b"6" * 62),
]


def answers(*replies: str, status: int = 0, said: str = "") -> list[str]:
    """A program that opens, answers the first line with these lines, and ends."""
    lines = "\n".join(replies)
    return ["bash", "-c", 'read; echo "error line"; read; [[ -z $1 ]] || echo "$1"; echo "$2" >&2; exit "$3"', "fake", lines, said, str(status)]


class WithFolder(unittest.TestCase):
    """A test with a folder that isn't there yet."""

    def setUp(self) -> None:
        scratch = tempfile.TemporaryDirectory()
        self.addCleanup(scratch.cleanup)
        self.folder = pathlib.Path(scratch.name) / "store"

    def configure(self, **fields: int) -> None:
        self.folder.mkdir(exist_ok=True)
        (self.folder / "config.json").write_text(json.dumps(fields))

    def ends(self, kind: type[pagemem.RunEnded], *program: str, folder: pathlib.Path | str | None = None) -> pagemem.RunEnded:
        """How a store ends that is opened and asked for a key."""
        with self.assertRaises(kind) as caught:
            with Store(folder or self.folder, program or None) as store:
                store.get(0, b"key 1")
        return caught.exception


class Answers(WithFolder):
    def test_drawn_calls_answer_as_a_dict_does(self) -> None:
        draw = random.Random(1)
        wanted: dict[tuple[int, bytes], bytes] = {}
        keys = [draw.randbytes(draw.choice([1, 2, 63, 64])) for _ in range(500)] + EDGES
        with Store(self.folder) as store:
            store.lines_per_run = max(CALLS // 4, 1)
            for _ in range(CALLS):
                place = draw.choice([0, 1, 15]), draw.choice(keys)
                match draw.choices(["put", "get", "remove", "scan", "checkpoint"], [50, 30, 20, 0.2, 0.1])[0]:
                    case "put":
                        value = draw.choice([b"", draw.choice(EDGES), draw.randbytes(draw.choice([1, 40, 899, 900]))])
                        self.assertIsNone(store.put(*place, value))
                        wanted[place] = value
                    case "get":
                        self.assertEqual(store.get(*place), wanted.get(place))
                    case "remove":
                        self.assertIs(store.remove(*place), wanted.pop(place, None) is not None)
                    case "scan":
                        self.assertEqual(store.scan(place[0]), pairs_of(wanted, place[0]))
                    case "checkpoint":
                        self.assertIsNone(store.checkpoint())
        with Store(self.folder) as store:
            for cache in range(pagemem.CACHES):
                self.assertEqual(store.scan(cache), pairs_of(wanted, cache))

    def test_a_batch_gives_each_result_in_order(self) -> None:
        with Store(self.folder) as store:
            with store.batch() as batch:
                for number in range(PUTS):
                    batch.put(0, b"%d" % (number % 5_000), b"%d" % number * 20)
                    if number % 1_000 == 0:
                        batch.get(0, b"%d" % (number % 5_000))
                batch.scan(0)
                batch.remove(0, b"7")
                batch.remove(0, b"7")
                batch.checkpoint()
            *results, scanned, first, second, made = batch.results
            self.assertEqual(results.count(None), PUTS)
            self.assertEqual([found for found in results if found is not None], [b"%d" % number * 20 for number in range(0, PUTS, 1_000)])
            self.assertEqual(len(scanned), 5_000)
            self.assertEqual((first, second, made), (True, False, None))

    def test_a_batch_goes_on_in_the_next_run(self) -> None:
        with Store(self.folder) as store:
            store.lines_per_run = 100
            with store.batch() as batch:
                for number in range(1_050):
                    batch.put(0, b"%d" % number, b"")
            self.assertEqual(batch.results, [None] * 1_050)
            self.assertEqual(len(store.scan(0)), 1_050)

    def test_replies_longer_than_a_pipe_are_read_while_lines_are_sent(self) -> None:
        with Store(self.folder) as store:
            with store.batch() as batch:
                batch.put(0, b"key", bytes(900))
                for _ in range(3_000):
                    batch.get(0, b"key")
                    batch.put(1, b"key", bytes(900))
            self.assertEqual(batch.results[1::2], [bytes(900)] * 3_000)

    def test_a_block_that_raises_sends_nothing(self) -> None:
        with Store(self.folder) as store:
            with self.assertRaises(KeyError), store.batch() as batch:
                batch.put(0, b"key", b"value")
                raise KeyError
            self.assertEqual((batch.results, store.scan(0)), ([], []))

    def test_two_stores_answer_at_once(self) -> None:
        with Store(self.folder) as one, Store(self.folder.with_name("other")) as other:
            for number in range(100):
                one.put(0, b"key", b"%d" % number)
                other.put(0, b"key", b"%d" % -number)
                self.assertEqual((one.get(0, b"key"), other.get(0, b"key")), (b"%d" % number, b"%d" % -number))

    def test_threads_share_a_store(self) -> None:
        def put_and_get(store: Store, cache: int) -> None:
            for number in range(100):
                store.put(cache, b"key", b"%d" % number)
                found.append(store.get(cache, b"key") == b"%d" % number)

        found: list[bool] = []
        with Store(self.folder) as store:
            threads = [threading.Thread(target=put_and_get, args=(store, cache)) for cache in range(4)]
            for thread in threads:
                thread.start()
            for thread in threads:
                thread.join()
        self.assertEqual(found, [True] * 400)

    def test_what_no_line_can_say_is_refused_before_it_is_sent(self) -> None:
        with Store(self.folder) as store:
            for cache, key, value in [(16, b"k", b""), (-1, b"k", b""), (0, b"", b""), (0, bytes(65), b""), (0, b"k", bytes(901))]:
                with self.assertRaises(ValueError):
                    store.put(cache, key, value)
            with self.assertRaises(TypeError):
                store.put(0, "key", b"")
            with self.assertRaises(TypeError):
                store.put(0, b"key", 900)
            self.assertEqual(store.scan(0), [])


class Errors(WithFolder):
    def test_a_full_partition_refuses_a_new_key_alone(self) -> None:
        self.configure(partitions=1, max_rows=1)
        with Store(self.folder) as store:
            store.put(0, b"a", b"1")
            with self.assertRaises(pagemem.FullError):
                store.put(0, b"b", b"1")
            with self.assertRaises(pagemem.FullError), store.batch() as batch:
                batch.put(0, b"c", b"2")
                batch.put(0, b"a", b"2")
            self.assertIsInstance(batch.results[0], pagemem.FullError)
            self.assertEqual(store.scan(0), [(b"a", b"2")])

    def test_a_folder_that_is_no_word_is_a_usage_error(self) -> None:
        self.assertEqual(self.ends(pagemem.UsageError, folder="-x").status, 1)

    def test_a_refused_field_is_named(self) -> None:
        self.configure(workers=1, frames=63)
        self.assertEqual(self.ends(pagemem.ConfigError).field, "frames")

    def test_a_folder_that_cannot_be_made_is_a_host_error(self) -> None:
        self.folder.write_text("a file")
        end = self.ends(pagemem.HostError, folder=self.folder / "store")
        self.assertEqual(end.status, 3)
        self.assertTrue(end.said.startswith("pagemem: "))

    def test_a_second_run_over_a_folder_is_a_host_error(self) -> None:
        with Store(self.folder) as store:
            self.ends(pagemem.HostError)
            store.put(0, b"key", b"value")

    def test_memory_that_runs_out_has_an_error(self) -> None:
        self.assertEqual(self.ends(pagemem.OutOfMemoryError, *answers(status=4, said="pagemem: memory ran out")).status, 4)

    def test_a_damaged_page_is_named(self) -> None:
        with Store(self.folder) as store:
            store.put(0, b"key 1", b"value")
            store.checkpoint()
        for file in self.folder.glob("part-*.pages"):
            file.write_bytes(b"\x55" * file.stat().st_size)
        self.assertRegex(self.ends(pagemem.DamagedError).what, "^page [0-9a-f]{16}$")

    def test_a_damaged_record_is_named(self) -> None:
        end = self.ends(pagemem.DamagedError, *answers("fault record 1:37", status=5))
        self.assertEqual(end.what, "record 1:37")

    def test_too_many_lines_have_an_error(self) -> None:
        self.ends(pagemem.TooLongError, *answers("fault long", status=6))

    @unittest.skipUnless(IS_WHOLE, "PAGEMEM_WHOLE")
    def test_a_run_that_is_sent_too_many_lines_answers_those_within_the_limit(self) -> None:
        with Store(self.folder) as store:
            store.lines_per_run = 5_000_000
            with self.assertRaises(pagemem.TooLongError), store.batch() as batch:
                for _ in range(4_000_010):
                    batch.get(0, b"k")
            self.assertEqual(len(batch.results), 3_999_999)

    def test_a_launcher_that_cannot_build_has_an_error(self) -> None:
        self.assertEqual(self.ends(pagemem.NotBuiltError, *answers(status=70, said="pagemem: no rt")).said, "pagemem: no rt")

    def test_a_program_that_ends_early_or_is_another_one_is_an_error(self) -> None:
        self.assertEqual(self.ends(pagemem.RunEnded, "true").status, 0)
        with self.assertRaises(pagemem.ReplyError):
            Store(self.folder, ["echo"])
        with self.assertRaises(OSError):
            Store(self.folder, self.folder / "no_program")

    def test_a_batch_has_the_results_from_before_the_end(self) -> None:
        with Store(self.folder, answers("ok", "ok", "fault page 0000000000000001", status=5)) as store:
            with self.assertRaises(pagemem.DamagedError), store.batch() as batch:
                for _ in range(9):
                    batch.put(0, b"key", b"value")
            self.assertEqual(batch.results, [None, None])

    def test_a_store_without_a_run_says_so_until_it_is_reopened(self) -> None:
        store = Store(self.folder)
        store.put(0, b"key", b"value")
        self.assertTrue(store.kill())
        with self.assertRaises(pagemem.RunEnded) as caught:
            store.get(0, b"key")
        self.assertEqual(caught.exception.status, -signal.SIGKILL)
        for _ in range(2):
            with self.assertRaises(pagemem.ClosedError) as closed:
                store.get(0, b"key")
            self.assertIs(closed.exception.__cause__, caught.exception)
        self.assertFalse(store.kill())
        store.reopen()
        store.reopen()
        self.assertEqual(store.get(0, b"key"), b"value")
        store.close()
        store.close()
        with self.assertRaises(pagemem.ClosedError):
            store.get(0, b"key")

    def test_an_interrupted_call_ends_the_run(self) -> None:
        class Interrupt(BaseException):
            pass

        def interrupt(*_: object) -> None:
            raise Interrupt

        before = signal.signal(signal.SIGALRM, interrupt)
        self.addCleanup(signal.signal, signal.SIGALRM, before)
        store = Store(self.folder, ["bash", "-c", 'read; echo "error line"; exec sleep 60', "fake"])
        signal.setitimer(signal.ITIMER_REAL, 0.1)
        with self.assertRaises(Interrupt):
            store.get(0, b"key")
        with self.assertRaises(pagemem.ClosedError):
            store.get(0, b"key")


class Kills(WithFolder):
    def test_each_acknowledged_put_is_there_after_a_kill(self) -> None:
        self.configure(segment_bytes=1 << 20, checkpoint_bytes=1 << 20)
        with Store(self.folder) as store:
            puts = NumberedPuts(store)
            for _ in range(KILLS):
                killer = threading.Timer(random.uniform(0, 0.4), store.kill)
                killer.start()
                with self.assertRaises(pagemem.RunEnded) as caught:
                    while True:
                        puts.send(random.randint(1, 2_000))
                self.assertEqual(caught.exception.status, -signal.SIGKILL)
                killer.join()
                store.reopen()
                puts.check()
            self.assertGreater(puts.count, 0)

    def test_a_put_that_is_missing_is_named(self) -> None:
        with Store(self.folder) as store:
            puts = NumberedPuts(store)
            puts.send(KEYS + 10)
            puts.check()
            store.remove(0, b"key 9")
            with self.assertRaisesRegex(Missing, f"^put {KEYS + 9} was acknowledged"):
                puts.check()
            with self.assertRaisesRegex(Missing, f"^put {KEYS + 9} came before put {KEYS + 10}"):
                NumberedPuts(store).check()

    def test_power_cut_looks_up_what_it_sent(self) -> None:
        notes, pid = self.folder.with_name("notes"), self.folder.with_name("pid")
        program = ["bash", "-c", f'echo $$ > {pid}; exec "$0" "$@"', pagemem.default_program()]
        sender = subprocess.Popen([sys.executable, POWER_CUT, "send", notes, self.folder, *program], stdout=subprocess.PIPE, text=True)
        while not (notes.exists() and notes.stat().st_size > 0):
            self.assertIsNone(sender.poll())
            time.sleep(0.01)
        os.kill(int(pid.read_text()), signal.SIGKILL)
        said, _ = sender.communicate()
        self.assertEqual(sender.returncode, 0)
        self.assertIn("was the last acknowledged one", said)
        self.assertEqual(self.power_cut_checks(notes), (0, True))
        with Store(self.folder) as store:
            store.remove(0, b"key 1")
        self.assertEqual(self.power_cut_checks(notes), (1, False))

    def power_cut_checks(self, notes: pathlib.Path) -> tuple[int, bool]:
        """The status of a check, and whether it says that each put is there rather than blames the disk."""
        done = subprocess.run([sys.executable, POWER_CUT, "check", notes, self.folder], stdout=subprocess.PIPE, text=True)
        self.assertNotEqual("each put is there" in done.stdout, "the disk" in done.stdout)
        return done.returncode, "each put is there" in done.stdout


def pairs_of(wanted: dict[tuple[int, bytes], bytes], cache: int) -> list[pagemem.Pair]:
    return sorted((key, value) for (of, key), value in wanted.items() if of == cache)


if __name__ == "__main__":
    unittest.main()
