"""A manager's session with one clock."""

from __future__ import annotations

import contextlib
import threading
from dataclasses import replace
from types import TracebackType
from typing import Iterator, Optional, Type

from . import _header as header
from .answers import Error, SessionAnswer
from .asker import Asker
from .asking import Answerer, NoAnswer, judge_seconds, no_answer
from .clock import port_number
from .driver import Driver
from .identity import PortIdentity
from .ids import Action, IdLike, id_of
from .members import DataField, data_field
from .named_port import NamedPort, is_beyond_session, not_kept
from .nobody import ask_as_nobody, draw, refuse_nobody
from .report import Report
from .requests import Requests, SessionSettings, begin_request
from .session_file import DamagedFileError, SessionFile
from .session_image import EVERY_PORT, Request, domain_of, first_number, is_same, latest_number, unanswered
from .transport import Transport


class Session(Requests):
    """One request at a time to one clock, which carries it out once, however often it is sent.

    `ask` sends a request until it is answered. It first makes sure that its number is new, so it never reports an answer that the
    clock had cached for an earlier session. With a file the next session continues from this one. A request is in the file before
    it is sent, and until the caller goes on after its answer. If it had no answer, the next session finishes it first, and has
    its result in `earlier`. A SET or a COMMAND is finished in the domain in which it was asked, whatever the session's own.

    Threads that ask in one session take turns: a request is answered before the next one begins.
    """

    def __init__(self, settings: SessionSettings, file: Optional[SessionFile] = None, *, wait: float = 3.0) -> None:
        """`wait` is how many seconds a session without a number waits before it asks, until no copy of an earlier request is on
        its way. A manager's port is below 61440: the ports from there on are for requests outside a session, such as those of
        `get` and `survey`."""
        refuse_nobody(PortIdentity.of(settings.manager))
        judge_seconds("wait", wait)
        octets = None if file is None else file.octets
        self._asking = threading.RLock()
        self._asker: Optional[Asker] = None  # it has the session, unless calls of Requests changed that one
        self._saved: Optional[bytes] = None  # what it goes on from after a failure; None if the next number is not known
        self._in_file: Optional[bytes] = None
        self._told: Optional[Report] = None
        self._answerer = Answerer()
        self._file = file
        self._wait = wait
        self.is_under_way = False
        """Whether a request of an earlier run has no answer yet."""
        self.earlier: Optional[Report] = None
        """What came of it."""
        self.earlier_domain = settings.domain
        """The domain in which it is sent again."""
        super().__init__(replace(settings, first=draw()) if settings.first is None else settings)
        if octets is not None:
            self._open(octets)
        elif settings.first is not None:
            self._saved = self._image()
        if file is not None:
            file.keep_for(self)

    def _open(self, octets: bytes) -> None:
        """Goes on from what a file has."""
        settings = self.settings
        try:
            left, there = Asker(settings, octets).earlier(settings.domain)
        except Error as error:
            if self._file is None:
                raise
            if error.number == header.PTPM_DAMAGED:
                raise DamagedFileError(self._file.path) from None
            error.args = (f"{error.name}: {self._file.path}",)
            raise
        self._saved = self._in_file = octets
        self._go_on_from(octets)
        self.is_under_way = left in (header.PTPM_GET_LEFT, header.PTPM_CHANGE_LEFT)
        if self.is_under_way:
            self.earlier_domain = there
        self.retune(self.earlier_domain)

    def __exit__(
        self, kind: Optional[Type[BaseException]], error: Optional[BaseException], trace: Optional[TracebackType]
    ) -> None:
        if kind is not None:
            self._leave_file()  # what was answered may not be reported yet
        self.close()

    def _leave_file(self) -> None:
        if self._file is not None:
            self._file.let_go_of(self)
        self._file = None

    def close(self) -> None:
        """Stops the session. Its file then has it without the request whose answer was reported."""
        with self._asking:
            if self._file is not None and self._file.is_open:
                if self._asker is not None:
                    self._note(self._asker)
                image = self._image()
                if self._in_file is not None and unanswered(image) is None and not is_same(image, self._in_file):
                    self._file.write(image)  # calls of Requests changed it
            self._leave_file()
            super().close()

    # ---- the session, which calls of Requests see as it is between two requests of the asker

    def _go_on_from(self, image: bytes) -> None:
        self.settings, port = replace(self.settings, first=first_number(image)), self._port
        self.restore(image)
        self._port = port

    def _holder(self, attempts: Optional[int] = None) -> Asker:
        """An asker that has the session as it is."""
        settings = self.settings if attempts is None else replace(self.settings, attempts=attempts)
        asker, image = self._asker, self._image()
        if asker is None or asker.attempts != settings.attempts or not is_same(image, asker.image()):
            if self._saved is not None or unanswered(image) is not None:
                self._saved = image
            self._asker = asker = Asker(settings, self._saved)
        return asker

    def is_busy(self) -> bool:
        """Whether a request is unanswered. A freshness check does not count."""
        return super().is_busy() and self._holder().earlier(0)[0] != header.PTPM_QUESTION_LEFT

    def report(self) -> Report:
        is_askers = self._asker is not None and is_same(self._image(), self._asker.image())
        return self._told if is_askers and self._told is not None else super().report()

    def give_up(self) -> None:
        super().give_up()
        self._come_back()

    def receive(self, octets: bytes) -> SessionAnswer:
        answer = super().receive(octets)
        if answer == SessionAnswer.ANSWERED:
            self._come_back()
        return answer

    def _come_back(self) -> None:
        """Asks in the session's own domain again, once a call has finished the request of an earlier run."""
        if self.is_under_way:
            self.is_under_way = False
            self.retune(self.settings.domain)

    # ---- what the asker hands out

    def _save(self, asker: Asker) -> None:
        image = asker.image()
        if self._file is not None:
            self._file.write(image)
            self._in_file = image
        self._saved = image
        asker.saved()

    def _note(self, asker: Asker) -> None:
        """The caller goes on, so it has noted the answer. The file then has the session without the request."""
        if asker.next == header.PTPM_NOTE_ANSWER:
            asker.noted()
        if asker.next == header.PTPM_SAVE_IT:
            self._save(asker)

    @contextlib.contextmanager
    def _turn_of(self, asker: Asker) -> Iterator[None]:
        """In its `with` the session is as the asker leaves it. If that fails, it is as it was saved, as another run
        would have it."""
        self._told = None
        try:
            yield
        except BaseException:
            self._asker = None
            if self._saved is None:
                self._start(replace(self.settings, first=draw()))
            else:
                self._go_on_from(self._saved)
            raise
        self._go_on_from(asker.image())
        self._come_back()

    def _carry_out(self, asker: Asker, way: Transport, timeout: float, request: Request, is_begun: bool) -> Report:
        """Carries out what was asked, or what is settled."""
        driver = Driver(asker, way, self._answerer, self._port, timeout, self._wait, self._save, is_begun)
        with self._turn_of(asker):
            if not driver.run():
                raise driver.why or self._why(asker, driver, way, request, timeout)
            self._told = asker.report(request)
        return self._told

    def _why(self, asker: Asker, driver: Driver, way: Transport, request: Request, timeout: float) -> NoAnswer:
        """Why there is no answer."""
        known = self._answerer.why_none(way)
        if driver.is_begun or driver.sent == 0:
            return no_answer(driver.sent, known)
        image = asker.image()
        if self._saved is None:
            what, is_read = "each of four numbers", asker.is_read_answered
        else:
            what, is_read = f"number {latest_number(image)}", self._is_read(way, image, request.port, timeout)
        why = f"the clock answers reads, and drops {what} of manager {PortIdentity.of(self.settings.manager)}"
        what = why if is_read else "no answer, and to no read either"
        return NoAnswer(f"{what}: the request itself was not sent{known}", was_sent=False)

    def _is_read(self, way: Transport, image: bytes, port: int, timeout: float) -> bool:
        """Whether the clock answers a read outside the session of what its freshness check asks."""
        question, settings = unanswered(image), replace(self.settings, domain=domain_of(image))
        assert question is not None
        try:
            ask_as_nobody(way, settings, Action.GET, question.id, b"", port, timeout=timeout)
        except OSError:  # NoAnswer is one, too
            return False
        return True

    # ---- what a caller asks

    def _judge(self, request: Request) -> None:
        """Refuses a request that a file would keep for a different port, and one that the library would refuse after an earlier
        one is finished."""
        if self._file is not None and is_beyond_session(request.port):
            raise not_kept(request.port)
        if self.is_under_way:
            probe = Requests(self.settings)
            begin_request(probe, request.action, request.id, request.data, request.port)
            probe.close()

    def _leave_question(self, asker: Asker, port: int) -> None:
        """Gives up a freshness check that names a different port, unless the library refuses to. A clock without that port never
        answers it."""
        question = unanswered(asker.image())
        if question is None or asker.earlier(0)[0] != header.PTPM_QUESTION_LEFT or self._port.outside(question.port) == port:
            return
        with contextlib.suppress(Error):
            self.give_up()

    def ask(
        self,
        way: Transport,
        action: int,
        named: IdLike,
        value: DataField = None,
        port: int = 0,
        *,
        timeout: float = 0.2,
    ) -> Report:
        """Asks until it is answered; `timeout` is how long each answer is waited for, in seconds. `value` is a dataField, the
        value of an id's one member, or the value of each member by its name. A port that is not 0 is named to the clock, whatever
        the id. A port above 255 is asked only without a file; otherwise it is a ValueError. If no answer came, NoAnswer says
        whether the request itself was sent; if it was, `go_on` asks the same again."""
        judge_seconds("timeout", timeout)
        number = id_of(named)
        request = Request(Action(action), number, port_number(port), data_field(number, value))
        place = NamedPort(0 if port == EVERY_PORT else port)
        with self._asking:
            self._judge(request)
            if self.is_under_way:
                self.finish(way, timeout=timeout)
            self._note(self._holder())
            self._leave_question(self._holder(), place.named)
            asker = self._holder()
            asker.ask(replace(request, port=place.inside), domain_of(self._image()))
            self._port = place
            return self._carry_out(asker, way, timeout, request, False)

    def _settle(self, way: Transport, timeout: float, attempts: Optional[int] = None) -> Report:
        """Sends the unanswered request again."""
        judge_seconds("timeout", timeout)
        if not self.is_busy():
            raise Error(header.PTPM_IDLE)
        asker, image = self._holder(attempts), self._image()
        request = unanswered(image)
        assert request is not None
        asker.settle(domain_of(image))
        return self._carry_out(asker, way, timeout, request, True)

    def finish(self, way: Transport, *, timeout: float = 0.2) -> Report:
        """Sends the request of an earlier run until it is answered, and returns its result. `ask` also does this, but then
        the file no longer has that request when `earlier` can be read."""
        with self._asking:
            try:
                self.earlier = self._settle(way, timeout)
            except NoAnswer as error:
                where = "" if self.earlier_domain == self.settings.domain else f" in domain {self.earlier_domain}"
                why = f"{error} of an earlier request{where}: the request itself was not sent"
                raise NoAnswer(why, was_sent=False) from None
            return self.earlier

    def go_on(self, way: Transport, attempts: int = 30, *, timeout: float = 0.2) -> Report:
        """Asks the unanswered request again. The clock still carries it out once. If it is one of an earlier run, its result
        is in `earlier` too."""
        with self._asking:
            is_earlier = self.is_under_way
            report = self._settle(way, timeout, attempts)
            if is_earlier:
                self.earlier = report
            return report

    def let_go(self) -> None:
        """Continues with the next number, without the request that has no answer. Once the clock has answered a later request,
        the abandoned one was carried out, or never will be. It is refused if 32,767 requests in succession had no answer
        (OUT_OF_REACH)."""
        with self._asking:
            asker = self._holder()
            asker.let_go()
            with self._turn_of(asker):
                self._save(asker)
