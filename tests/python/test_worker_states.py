"""`puzzles.Worker` as a machine of states: whatever happens to it, the next answer is the one of the text that was asked.

Hypothesis makes sequences of: an answer, a stream, one that is cut off, a search that the clock ends, Ctrl-C in a search, a
killed process, `close`, a fork whose child asks too, answers in threads, and a Worker that is dropped. The program is real; one
text is a search that doesn't end. The sequences are the same ones each time. Three machines leave out two of the last kinds each,
so that one defect doesn't hide another.
"""
import contextlib
import gc
import multiprocessing
import os
import signal
import threading

import pytest

hypothesis = pytest.importorskip("hypothesis", reason="no hypothesis")
from hypothesis import HealthCheck, Phase, settings, strategies as st  # noqa: E402
from hypothesis.stateful import RuleBasedStateMachine, invariant, rule, run_state_machine_as_test  # noqa: E402

import puzzles  # noqa: E402

LONG = "120x120:" + 553 * "z" + "v"  # Light Up without an end
KNOWN = {"2x2:2c": "one", "2x2:Bc": "several", "2x2:1c": "none", "3x3:aBBa1aBb": "one", "nonsense": "refused", "": "refused"}
TEXTS = st.sampled_from(sorted(KNOWN))
BOUND = 120.0  # seconds for what takes milliseconds, on a busy machine too
CLOCKS = (0.5, 4.0, BOUND)  # of a stream: the next one where a busy machine was late with a known text


def processes():
    """The children of this process that live or wait to be buried."""
    found = set()
    for name in os.listdir("/proc"):
        with contextlib.suppress(OSError, IndexError):
            if name.isdigit():
                with open(f"/proc/{name}/stat") as file:
                    if int(file.read().rpartition(") ")[2].split()[1]) == os.getpid():
                        found.add(int(name))
    return found


def asked_in_child(worker, text, sink):
    sink.send(str(worker.solve(text).verdict))


class CtrlC:
    """Raises what Ctrl-C raises in this thread, in so many seconds and within `with` alone. Another signal than that of Ctrl-C,
    so that one which comes too late doesn't end the tests."""

    def __init__(self, seconds):
        self.is_due = False
        self.timer = threading.Timer(seconds, signal.pthread_kill, (threading.main_thread().ident, signal.SIGUSR1))

    def __enter__(self):
        self.former = signal.signal(signal.SIGUSR1, self.come)
        self.is_due = True
        self.timer.start()

    def come(self, *_):
        if self.is_due:
            self.is_due = False
            raise KeyboardInterrupt

    def __exit__(self, *_):
        self.is_due = False
        self.timer.cancel()
        self.timer.join()
        signal.signal(signal.SIGUSR1, self.former)


class Machine(RuleBasedStateMachine):
    def __init__(self):
        super().__init__()
        self.before = processes()
        self.worker = puzzles.Worker("lightup", budget=2**64 - 1, seconds=BOUND)

    @rule(text=TEXTS)
    def solve(self, text):
        found = self.worker.solve(text)
        assert found.verdict == KNOWN[text], f"{text!r}: {found.verdict}"

    @rule(texts=st.lists(TEXTS, max_size=8))
    def stream(self, texts):
        assert [(text, str(found.verdict)) for text, found in self.worker.solve_all(texts)] == [(t, KNOWN[t]) for t in texts]

    @rule(texts=st.lists(TEXTS, min_size=2, max_size=8), taken=st.integers(0, 2))
    def cut_stream(self, texts, taken):
        stream = self.worker.solve_all(texts)
        for _ in range(taken):
            next(stream, None)
        stream.close()

    @contextlib.contextmanager
    def clock(self, seconds):
        self.worker.seconds = seconds
        try:
            yield
        finally:
            self.worker.seconds = BOUND

    @rule()
    def late(self):
        with self.clock(0.2):
            assert self.worker.solve(LONG).verdict == "late"

    @rule(texts=st.lists(TEXTS, max_size=3), more=st.lists(TEXTS, max_size=3))
    def late_in_stream(self, texts, more):
        wanted = [*(KNOWN[text] for text in texts), "late", *(KNOWN[text] for text in more)]
        for seconds in CLOCKS:
            with self.clock(seconds):
                found = [str(answer.verdict) for _, answer in self.worker.solve_all([*texts, LONG, *more])]
            if found == wanted:
                return
            assert all(one in (two, "late") for one, two in zip(found, wanted)) and len(found) == len(wanted), found
        raise AssertionError(f"{found}, wanted {wanted}")

    @rule(after=st.sampled_from([0.001, 0.02, 0.1]))
    def interrupted(self, after):
        """Ctrl-C, as a notebook sends it."""
        with pytest.raises(KeyboardInterrupt), CtrlC(after):
            self.worker.solve(LONG)

    @rule()
    def killed(self):
        if self.worker.kept.process:
            self.worker.kept.process.child.kill()
            self.worker.kept.process.child.wait()

    @rule()
    def closed(self):
        self.worker.close()

    @rule(text=TEXTS, in_a_turn=st.booleans())
    def forked(self, text, in_a_turn):
        """Also while another thread has its turn, which the fork hasn't."""
        source, sink = multiprocessing.Pipe(False)
        child = multiprocessing.get_context("fork").Process(target=asked_in_child, args=(self.worker, text, sink))
        with self.worker.lock if in_a_turn else contextlib.nullcontext():
            child.start()
        try:
            assert source.poll(BOUND / 2), "the child of a fork hangs"
            assert source.recv() == KNOWN[text]
        finally:
            child.kill()
            child.join()

    @rule(texts=st.lists(TEXTS, min_size=2, max_size=6))
    def threads(self, texts):
        found = [None] * len(texts)

        def ask(at):
            found[at] = str(self.worker.solve(texts[at]).verdict)
        some = [threading.Thread(target=ask, args=(at,)) for at in range(len(texts))]
        for one in some:
            one.start()
        for one in some:
            one.join()
        assert found == [KNOWN[text] for text in texts]

    @rule()
    def dropped(self):
        """A Worker without `close` takes its process along."""
        self.worker.solve("2x2:2c")
        pid = self.worker.kept.process.child.pid
        self.worker = puzzles.Worker("lightup", budget=2**64 - 1, seconds=BOUND)
        gc.collect()
        assert pid not in processes(), "the process of a dropped Worker is left"

    @invariant()
    def one_process(self):
        assert len(processes() - self.before) <= 1, "more processes than the one that is kept"

    def teardown(self):
        self.worker.close()


def machine_without(*names):
    """The machine but for some rules: so that each defect is found by itself."""
    return type("Machine", (Machine,), {name: None for name in names})


HOW = settings(deadline=None, max_examples=25, stateful_step_count=12, derandomize=True, suppress_health_check=list(HealthCheck),
               phases=[Phase.generate], report_multiple_bugs=False)  # one that fails isn't shortened: each try may take its clock


@pytest.mark.parametrize("without", [("forked", "dropped"), ("interrupted", "dropped"), ("interrupted", "forked")],
                         ids=["ctrl-c", "fork", "dropped"])
def test_worker(program, monkeypatch, without):
    monkeypatch.setenv("PUZZLES", str(program))
    run_state_machine_as_test(machine_without(*without), settings=HOW)
