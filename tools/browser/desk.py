"""One store's session, in a thread of its own: what windows ask is done one after the other, and between two pieces of a run."""

import concurrent.futures
import queue
import threading
import time
import traceback

from replies.chunks import BLANKS
from replies.evaluations import Clocks, Evaluations
from replies.expressions import BEGIN, INTERRUPT, is_open
from replies.image import Wrong as NoStore
from replies.live import Live
from replies.hints import meaning_in
from replies.meanings import RUNS, meaning_of
from replies.script import COURSES, SEEN, Line, Wrong, header_of, read_script, why_no_method
from replies.session import Ended, Session, unescape

from .log import Log, shown
from .texts import Texts

WAITING = 500  # what may wait to be done
FIRST_PIECE, LEAST_PIECE, GREATEST_PIECE = 20000, 1000, 1000000  # bytecodes
PIECE_SECONDS = 0.05
PAUSE = 0.02  # seconds between two looks at a delay that waits
WITHOUT_END = 10**15


class Refused(Exception):
    """What was asked isn't done, with an HTTP status and a sentence."""

    def __init__(self, status, why):
        super().__init__(why)
        self.status = status


class Pieces:
    """How many bytecodes a piece of a run has, so that one takes about as long as `PIECE_SECONDS`."""

    def __init__(self):
        self.size = FIRST_PIECE

    def took(self, seconds):
        factor = min(max(PIECE_SECONDS / max(seconds, 0.0001), 0.25), 4)
        self.size = min(max(int(self.size * factor), LEAST_PIECE), GREATEST_PIECE)


class Desk:
    """A store's session with its transcript."""

    def __init__(self, store, kernels=()):
        self.store, self.name = store, str(store)
        self.texts = Texts(store, kernels)
        self.log, self.jobs, self.pieces = Log(), queue.Queue(WAITING), Pieces()
        self.session = self.live = self.going = self.thread = None
        self.opening = threading.Lock()
        self.cycles, self.stopping, self.unfinished, self.changes = 0, False, False, 0
        self.log.show(store=self.name, open=False, going=False, unfinished=False, cycles=0, changes=0)

    # What other threads call

    def begin(self):
        """Opens the store and begins to work, where that isn't done yet; `Ended` where it can't be opened."""
        with self.opening:
            if self.thread is None:
                self.open()
                self.thread = threading.Thread(target=self.work, daemon=True)
                self.thread.start()

    def begin_or_refuse(self):
        """The same, where what is wrong is said in the state and as a refusal."""
        try:
            self.begin()
        except Ended as end:
            why = self.why_ended(end)
        except (OSError, NoStore) as reason:
            why = f"the store can't be opened: {reason}"
        else:
            return
        self.log.show(ended=why)
        raise Refused(409, why)

    def ask(self, action, given):
        """The answer to what a window asks: `action` is done with this desk and what is given."""
        self.begin_or_refuse()
        answer = concurrent.futures.Future()
        try:
            self.jobs.put_nowait((action, given, answer))
        except queue.Full:
            raise Refused(503, "too much waits to be done; ask again") from None
        return answer.result()

    def ask_to_end(self):
        """Has the session end, once what was asked before is done."""
        if self.thread:
            self.jobs.put((None, None, None))

    def wait_for_end(self, seconds):
        if self.thread:
            self.thread.join(seconds)

    # The thread's own

    def work(self):
        while True:
            try:
                action, given, answer = self.jobs.get(block=self.going is None)
            except queue.Empty:
                self.go_on()
                continue
            if action is None:
                break
            self.do(action, given, answer)
        if self.session:
            self.session.close()

    def do(self, action, given, answer):
        try:
            answer.set_result(action(self, given))
        except Refused as reason:
            answer.set_exception(reason)
        except Ended as end:
            self.end(end)
            answer.set_exception(Refused(409, self.why_ended(end)))
        except (OSError, NoStore) as reason:
            answer.set_exception(Refused(500, str(reason)))
        except Exception as reason:  # a mistake of ours, which mustn't end the thread: all that is asked later would wait for ever
            traceback.print_exc()
            self.log.show(going=self.going is not None)
            answer.set_exception(Refused(500, f"{type(reason).__name__}: {reason}"))

    def open(self):
        session = Session(self.store)
        self.session, self.live = session, Live(session, self.store)
        self.evaluations, self.clocks = Evaluations(session), Clocks(session, self.live, is_real=True)
        self.texts.forget()
        self.cycles, self.going, self.stopping, self.unfinished = 0, None, False, False
        again, lost = self.session.opened.split()[1:]
        self.log.add("note", f"{self.session.opened}: {RUNS['opened'].format(again, lost)}")
        for line in self.session.lost:
            self.log.add("refused", f"{line}: {meaning_of('refused ' + line.split(' ', 2)[2])}")
        self.log.show(open=True, ended=None, dead=None, room=list(self.live.room))
        self.settle()

    def why_ended(self, end):
        if end.line:
            return f"the session has ended: {end.line}: {end.complaint or meaning_of(end.line)}"
        if end.status < 0:
            return f"the session has ended: the program was stopped by signal {-end.status}"
        return f"the session has ended: {end.complaint or 'no line came'}"

    def end(self, end):
        """The session is over; what was acknowledged is in the store."""
        self.going, self.session = None, None
        self.log.add("refused", self.why_ended(end))
        self.log.show(open=False, going=False, unfinished=False, ended=self.why_ended(end))

    def need_session(self):
        if self.session is None:
            raise Refused(409, "the session has ended; open it again")

    def need_rest(self):
        self.need_session()
        if self.going:
            raise Refused(409, "a run goes on; stop it first")

    def settle(self):
        """Something was done: what is known of objects is forgotten, and the state is shown."""
        self.live.forget()
        self.changes += 1
        used = self.session.ask("used")[0]
        if used.startswith("used"):
            self.log.show(used=[int(it) for it in used.split()[1:3]])
        self.log.show(cycles=self.cycles, going=self.going is not None, unfinished=self.unfinished, changes=self.changes)

    # Runs

    def begin_course(self, course):
        """Has a course go on, a piece at a time."""
        self.going, self.stopping = course, False
        self.log.show(going=True)

    def go_on(self):
        """Does the next piece."""
        try:
            next(self.going)
            self.log.show(cycles=self.cycles)
        except StopIteration:
            self.going = None
            self.settle()
        except Ended as end:
            self.end(end)
        except Exception as reason:  # as in `do`
            traceback.print_exc()
            self.going = None
            self.log.add("refused", f"{type(reason).__name__}: {reason}")
            self.log.show(going=False)

    def take(self, lines, watch=None):
        """Puts what a run says in the transcript, and answers its last line."""
        line = ""
        for line in lines:
            word, _, rest = line.partition(" ")
            if word == "say":
                self.log.add("said", shown(unescape(rest)))
            elif word == "snapshot":
                self.log.add("told", f"{line}: the image saved itself")
            elif word == "at" and watch is not None:
                watch.append(line)
        self.cycles += int(line.split()[1]) if line != "not found" else 0
        self.live.forget()
        return line

    def in_pieces(self, cycles, between=lambda: None):
        """Runs so many bytecodes, with a stop after each piece where others are answered; `between` two is called. Answers the last line."""
        end = "ran 0"
        while cycles > 0 and end.startswith("ran"):
            if self.stopping:
                return "stopped"
            begun, before = time.monotonic(), self.cycles
            end = self.take(self.session.run(min(cycles, self.pieces.size)))
            self.pieces.took(time.monotonic() - begun)
            cycles -= self.cycles - before
            if end.startswith("ran"):
                between()
            yield
        return end

    def judge(self, end):
        """Says how a run ended, where that is no plain end, and what it leaves."""
        word = end.split()[0]
        self.unfinished = self.unfinished and word not in ("quit", "dead")
        if word == "dead":
            self.log.show(dead=meaning_of(end))
        if word != "quit":
            self.log.add("refused" if word in ("dead", "space") else "told", MEANINGS[word](end))

    def run(self, cycles):
        before = self.cycles
        end = yield from self.in_pieces(cycles)
        self.judge(end)
        self.log.add("told", f"{self.cycles - before} bytecodes")

    def evaluation(self):
        end = yield from self.in_pieces(WITHOUT_END, self.clocks.go_on)
        while end.startswith("quit") and (delay := self.clocks.first_end()) is not None:
            while not self.clocks.is_due(delay) and not self.stopping:
                time.sleep(PAUSE)
                yield
            self.clocks.tick(delay)
            end = yield from self.in_pieces(WITHOUT_END, self.clocks.go_on)
        self.judge(end)

    def evaluate(self, text):
        """Defines `doIt` and begins it; answers why that is refused, if it is."""
        if is_open(text):
            raise Refused(400, "a bracket or a quote is open at the end")
        if why := self.evaluations.why_not(text):
            raise Refused(400, why)
        if self.unfinished:
            raise Refused(409, "the last evaluation isn't finished: `Run` goes on with it, `Interrupt` ends it")
        self.log.show(going=True)
        self.log.add("asked", text)
        self.clocks.set()
        reply, source = self.evaluations.define(text)
        if not reply.startswith("accepted"):
            answer = self.refuse(reply, source)
            self.settle()
            return answer
        self.session.ask(f"input {BEGIN}")
        self.unfinished = True
        self.begin_course(self.evaluation())
        return {}

    def interrupt(self):
        """Ends an evaluation that goes on or waits; where there is none, nothing comes of it."""
        self.session.ask(f"input {INTERRUPT}")
        if not self.going:
            self.begin_course(self.evaluation())
        return {}

    # Definitions and scripts

    def refuse(self, reply, source):
        """Shows why a method is refused, with its place in the text."""
        words = reply.split()
        place = int(words[2]) if words[0] == "refused" and words[1] in ("syntax", "code") else 0
        text = source.strip(BLANKS)
        refusal = {"line": reply, "meaning": meaning_in(reply, text), "source": text, "place": place}
        if words[0] == "dead":
            self.log.show(dead=refusal["meaning"])
        self.log.add("refused", f"{reply}: {refusal['meaning']}", source=refusal["source"], place=place)
        return {"refused": refusal}

    def define(self, header, text):
        """Defines a method, and says what came of it."""
        reply = self.session.define(header, text.strip(BLANKS))
        self.live.forget()
        if not reply.startswith("accepted"):
            return self.refuse(reply, text)
        self.log.add("told", reply)
        return {"accepted": reply}

    def define_in(self, key, category, text):
        of_class, meta, _ = key
        header = header_of(of_class, meta, category)
        why = why_no_method(header, text)
        if why:
            raise Refused(400, why)
        answer = self.define(header, text)
        self.settle()
        return answer

    def follow(self, text):
        """Follows the lines and methods of a script, if all of it is one."""
        try:
            items = read_script(text)
        except Wrong as reason:
            raise Refused(400, str(reason)) from None
        self.begin_course(self.script(items))
        self.log.add("asked", text)
        return {}

    def script(self, items):
        for it in items:
            if not isinstance(it, Line):
                self.define(it.header, it.text)
            elif it.word == "run":
                yield from self.run(int(it.text.split()[1]))
            elif it.word == "end":
                raise Ended("end", self.session.close(), "the script ended it")
            else:
                self.tell(it)
            if self.stopping:
                return
            yield

    def tell(self, line):
        """Says a line's replies."""
        if line.word in COURSES:
            rows = []
            end = self.take(self.session.course(line.text), rows)
            for row in rows:
                self.log.add("told", row)
            self.log.add("told", end)
        else:
            self.log.add("told", "\n".join(self.session.ask(line.text)))
        if line.word not in SEEN:
            self.live.forget()


MEANINGS = {
    "ran": lambda end: "the run is over; `Run` goes on",
    "stopped": lambda end: "stopped; `Run` goes on, `Interrupt` ends an evaluation",
    "debugger": lambda end: "halted; `Run` goes on",
    "space": lambda end: "{}: after {} bytecodes the next one wants {} objects of {} words, and {} and {} are free".format(end, *end.split()[1:]),
    "dead": lambda end: f"{end}: {meaning_of(end)}",
}
