"""What the binding does beyond the library: it lays settings and observations out, takes octets and numbers, and names answers.
Expected octets are those of IEEE 1588-2019, clauses 13.3, 15.4 and 15.5."""

from __future__ import annotations

import copy
import dataclasses
import doctest
import os
import signal
import socket
import tempfile
import unittest
from decimal import Decimal
from typing import Any

import ptpm
from ptpm import ClockMembers, HandleAnswer, PortMembers, SessionAnswer, SurveyAnswer
from ptpm import _header as header
from ptpm._library import library

from . import CLOCK, MANAGER

PLACES = dict(
    domain=0x2A, user_description="Rack 4", two_step=True, priority1=0x43, clock_class=0x44, clock_accuracy=0x22, variance=0x3132,
    priority2=0x46, steps_removed=0x4142, offset_from_master=0x0102030405060708, mean_path_delay=0x1112131415161718,
    parent_port="b0b1b2b3b4b5b6b7/29042", parent_stats=True, observed_variance=0x5152, observed_rate=0x21222324,
    grandmaster="c0c1c2c3c4c5c6c7", grandmaster_priority1=0x53, grandmaster_class=0x54, grandmaster_accuracy=0x23,
    grandmaster_variance=0x6162, grandmaster_priority2=0x56, utc_offset=0x1920, leap61=True, utc_valid=True,
    frequency_traceable=True, time_source=0x90,
)
PORT = ptpm.PortSettings(0x0A0B0C0D0E0F1A1B, ptpm.PortState.PRE_MASTER, -11, 3, 7, -6, ptpm.DelayMechanism.P2P, 4)


def load_tests(_loader: unittest.TestLoader, tests: unittest.TestSuite, _pattern: object) -> unittest.TestSuite:
    """The examples of the module too."""
    for name in ("device", "identity", "members", "clock", "saving_clock", "site", "data_sets"):
        tests.addTests(doctest.DocTestSuite(f"ptpm.{name}"))
    return tests


def request(number: int, target: str, hops: int, action: int, tlv: str) -> bytes:
    """A request by MANAGER: its number, target, hops, actionField, and id with dataField."""
    head = f"0d12{52 + len(tlv) // 2:04x}{'0' * 32}00112233445566770001{number:04x}047f{target}{hops:02x}{hops:02x}{action:02x}00"
    return bytes.fromhex(f"{head}0001{len(tlv) // 2:04x}{tlv}")


def clock(ports: int = 2) -> ptpm.Clock:
    return ptpm.Clock(ptpm.ClockSettings(CLOCK), [ptpm.PortSettings()] * ports, [ptpm.Manager(MANAGER)])


class Clocks(unittest.TestCase):
    def test_a_signal_handler_handles_and_saves_in_a_turn(self) -> None:
        """It comes between any two steps of the turn that it interrupts."""
        asked_many = [request(number, "aabbccfffeddee01ffff", 1, 0, "2005") for number in range(1, 400)]
        with clock() as asked:
            def save(*_: object) -> None:
                asked.handle(1, bytes(54))
                images.append(asked.image())

            images: "list[bytes]" = []
            before = signal.signal(signal.SIGALRM, save)
            self.addCleanup(signal.signal, signal.SIGALRM, before)
            signal.setitimer(signal.ITIMER_REAL, 0.001, 0.0005)
            try:
                handled = [asked.handle(1, octets) for octets in asked_many]
            finally:
                signal.setitimer(signal.ITIMER_REAL, 0)
            self.assertTrue(images)
            self.assertEqual([one.messages[0][1][30:32] for one in handled], [octets[30:32] for octets in asked_many])

    def test_a_handler_in_the_middle_of_a_turn(self) -> None:
        with clock() as asked, asked._turn:
            self.assertEqual(asked.handle(1, bytes(54)).messages, [])

    def test_a_set_is_carried_out_once(self) -> None:
        with clock() as asked:
            set_priority1 = request(7, "aabbccfffeddee01ffff", 1, 1, "20056400")
            handled = asked.handle(1, set_priority1)
            self.assertEqual(handled.answer, HandleAnswer.ANSWERED_NEW)
            self.assertEqual(handled.changed.clock, ClockMembers.PRIORITY1 | ClockMembers.GRANDMASTER_PRIORITY1)
            again = asked.handle(1, set_priority1)
            self.assertEqual((again.answer, bool(again.changed)), (HandleAnswer.ANSWERED_REPEAT, False))
            self.assertEqual(again.messages, handled.messages)
            [(port, octets)] = again.messages
            self.assertEqual((port, octets[30:].hex()), (1, "0007047f00112233445566770001" + "0000020000010004" + "20056400"))
            self.assertEqual(asked.read("priority1"), b"\x64\0")

    def test_a_device_objects_to_a_value_that_it_lacks(self) -> None:
        limits = [ptpm.Limit("LOG_SYNC_INTERVAL", values=(-4, 1)), ptpm.Limit("DOMAIN", 1)]
        for wrong, error in (((0, 300), OverflowError), ((-129, 0), OverflowError), ({300}, OverflowError), ((5, 4), ValueError)):
            self.assertRaises(error, ptpm.Limit, "PRIORITY1", values=wrong)
        self.assertEqual([octet for octet in range(-300, 300) if octet in limits[0]], [-4, -3, -2, -1, 0, 1, 0xFC, 0xFD, 0xFE, 0xFF])
        self.assertRaises(OverflowError, ptpm.Limit, "DOMAIN", 70000)
        self.assertRaises(OverflowError, ptpm.Limit, "DOMAIN", 1, {256})
        self.assertIsNone(ptpm.Limit.objection([], ptpm.Asked(ptpm.PortIdentity.of(MANAGER), 7, ptpm.Action.SET, 1, 0x200B, b"\xf8\0")))
        with clock() as asked:
            set_interval = request(7, "aabbccfffeddee010001", 1, 1, "200bf800")
            change = asked.ask(1, set_interval)
            wanted = ptpm.Asked(ptpm.PortIdentity.of(MANAGER), 7, ptpm.Action.SET, 1, 0x200B, b"\xf8\0")
            self.assertEqual(change, wanted)
            objection = ptpm.Limit.objection(limits, wanted)
            self.assertEqual(objection, ptpm.Objection.WRONG_VALUE)
            handled = asked.handle(1, set_interval, say=objection)
            self.assertEqual((handled.answer, bool(handled.changed)), (HandleAnswer.ANSWERED_NEW, False))
            self.assertEqual(handled.messages[0][1][48:].hex(), "000200080004200b00000000")  # MANAGEMENT_ERROR_STATUS, WRONG_VALUE
            self.assertIsNone(asked.ask(1, set_interval))
            with self.assertRaises(ptpm.PtpmError):
                asked.ask(3, set_interval)

    def test_a_device_gives_a_value_that_the_clock_lacks(self) -> None:
        with clock() as asked:
            get = request(8, "aabbccfffeddee010001", 1, 0, "c000")
            self.assertEqual(asked.ask(1, get), ptpm.Asked(ptpm.PortIdentity.of(MANAGER), 8, ptpm.Action.GET, 1, 0xC000, b""))
            for octets in b"odd", bytes(1420):
                with self.assertRaises(ptpm.PtpmError):
                    asked.handle(1, get, say=ptpm.Gives(octets))
            handled = asked.handle(1, get, say=ptpm.Gives(b"4711"))
            self.assertEqual((handled.answer, bool(handled.changed)), (HandleAnswer.ANSWERED_NEW, False))
            self.assertEqual(handled.messages[0][1][48:].hex(), "00010006c00034373131")  # MANAGEMENT, RESPONSE of c000
            self.assertIsNone(asked.ask(1, get))

    def test_settings_have_their_places(self) -> None:
        with ptpm.Clock(ptpm.ClockSettings(CLOCK, **PLACES), [PORT]) as started:  # type: ignore[arg-type]
            for named, wanted in {
                "USER_DESCRIPTION": "065261636b203400",
                "DEFAULT_DATA_SET": "01000001434422313246aabbccfffeddee012a00",
                "CURRENT_DATA_SET": "414201020304050607081112131415161718",
                "PARENT_DATA_SET": "b0b1b2b3b4b5b6b771720100515221222324535423616256c0c1c2c3c4c5c6c7",
                "TIME_PROPERTIES_DATA_SET": "19202590",
                "PORT_DATA_SET": "aabbccfffeddee01000105f50a0b0c0d0e0f1a1b0307fa020402",
            }.items():
                self.assertEqual(started.read(named, 1).hex(), wanted, named)

    def test_observations_have_their_places(self) -> None:
        grandmaster = ptpm.ObservedGrandmaster("c0c1c2c3c4c5c6c7", 0x53, 6, 0x21, 0x6162, 0x56, "b0b1b2b3b4b5b6b7-29042")
        observed = ptpm.ObservedClock(
            steps_removed=2, offset_from_master=-2, mean_path_delay=ptpm.TimeInterval.from_nanoseconds(1), parent_stats=True,
            observed_variance=0x5152, observed_rate=0x21222324, grandmaster=grandmaster, utc_offset=37, leap59=True,
            ptp_timescale=True, time_traceable=True, time_source=0x20,
        )
        with clock() as told:
            self.assertEqual(told.observe(observed), set())
            self.assertEqual(told.read("CURRENT_DATA_SET").hex(), "0002fffffffffffffffe0000000000010000")
            parent = "b0b1b2b3b4b5b6b771720100515221222324530621616256c0c1c2c3c4c5c6c7"
            self.assertEqual(told.read("PARENT_DATA_SET").hex(), parent)
            self.assertEqual(told.read("TIME_PROPERTIES_DATA_SET").hex(), "00251a20")
            self.refused("NO_PORT", lambda: told.observe(observed, [ptpm.ObservedPort()] * 3))
            self.refused("BAD_LEAP59", lambda: told.observe(ptpm.ObservedClock(leap61=True, leap59=True)))
            self.assertEqual(told.observe(ptpm.ObservedClock(is_grandmaster=True)), set())

    def test_a_disabled_port_stays_disabled(self) -> None:
        with clock() as asked:
            handled = asked.handle(1, request(1, "aabbccfffeddee010002", 0, 3, "200e"))
            self.assertEqual(handled.changed.ports[:2], (PortMembers(0), PortMembers.STATE))
            self.assertEqual(asked.observe(ptpm.ObservedClock(), [ptpm.ObservedPort(ptpm.PortState.SLAVE)] * 2), {2})

    def test_a_clock_goes_on_from_its_image(self) -> None:
        with clock() as saved:
            set_priority1 = request(7, CLOCK + "ffff", 0, 1, "20056400")
            handled = saved.handle(1, set_priority1)
            image = saved.image()
        managers = [ptpm.Manager(MANAGER)]
        back, gone = ptpm.Clock.restore(CLOCK, 2, managers, image)
        with back:
            self.assertEqual((gone, back.image()), (0, image))
            again = back.handle(1, set_priority1)
            self.assertEqual((again.answer, again.messages), (HandleAnswer.ANSWERED_REPEAT, handled.messages))
        back, gone = ptpm.Clock.restore(CLOCK, 2, [], image)
        back.close()
        self.assertEqual(gone, 1)
        self.refused("OTHER_PORTS", lambda: ptpm.Clock.restore(CLOCK, 3, managers, image))
        self.refused("OTHER_CLOCK", lambda: ptpm.Clock.restore("aabbccfffeddee02", 2, managers, image))
        self.refused("MANAGER_TWICE", lambda: ptpm.Clock.restore(CLOCK, 3, managers * 2, image))

    def test_a_switch_has_64_ports(self) -> None:
        with ptpm.Clock(ptpm.ClockSettings(CLOCK), [ptpm.PortSettings()] * 64, [ptpm.Manager(MANAGER)]) as switch:
            self.assertEqual(switch.most_sent(), 127)
            every = switch.handle(1, request(7, CLOCK + "ffff", 0, 1, "200bff00"))
            self.assertEqual([octets[28:30].hex() for _, octets in every.messages], [f"{port:04x}" for port in range(1, 65)])
            self.assertEqual(every.changed.ports, (PortMembers.LOG_SYNC,) * 64)
            switch.handle(1, request(8, CLOCK + "0040", 0, 3, "200e"))
            self.assertEqual(switch.observe(ptpm.ObservedClock(), [ptpm.ObservedPort(ptpm.PortState.SLAVE)] * 64), {64})
            image = switch.image()
        back, _ = ptpm.Clock.restore(CLOCK, 64, [ptpm.Manager(MANAGER)], image)
        with back:
            self.assertEqual(back.image(), image)

    def test_refusals_have_names(self) -> None:
        def start(ports: int, managers: int = 0, text: str = "") -> None:
            settings = ptpm.ClockSettings(CLOCK, user_description=text)
            ptpm.Clock(settings, [ptpm.PortSettings()] * ports, [ptpm.Manager(MANAGER)] * managers).close()

        self.refused("NO_PORTS", lambda: start(0))
        self.refused("TOO_MANY_PORTS", lambda: start(65))
        self.refused("TOO_MANY_MANAGERS", lambda: start(1, 65))
        self.refused("MANAGER_TWICE", lambda: start(1, 2))
        for size in (129, 130, 255, 256, 300):
            self.refused("BAD_USER_DESCRIPTION", lambda: start(1, 0, "a" * size))
        with clock() as asked:
            self.refused("NO_PORT", lambda: asked.handle(3, b""))
            self.assertEqual(asked.handle(1, b"").answer, HandleAnswer.TOO_SHORT)
        self.refused("NO_CLOCK", lambda: asked.handle(1, b""))
        asked.close()

    def test_numbers_that_do_not_fit_are_refused(self) -> None:
        with clock() as asked:
            for call in (
                lambda: asked.handle(65537, b""),
                lambda: asked.handle(-1, b""),
                lambda: asked.read(0x12005),
                lambda: ptpm.ClockSettings(CLOCK, priority1=256).as_in_c(),
                lambda: ptpm.PortSettings(log_sync=200).as_in_c(),
                lambda: ptpm.SessionSettings(MANAGER, CLOCK, 65536).as_in_c(),
            ):
                self.assertRaises(OverflowError, call)

    def test_a_number_is_no_octets(self) -> None:
        asking = ptpm.Requests(ptpm.SessionSettings(MANAGER, CLOCK, 7))
        number: Any = 2  # bytes(2) would be two zeros, a priority1 of 0
        with clock() as asked, ptpm.Survey(ptpm.SurveySettings("0a0b0c0d0e0f1011/9", 3, "PRIORITY1")) as survey:
            for call in (
                lambda: asked.set(ptpm.Action.SET, "PRIORITY1", 0xFFFF, number), lambda: asked.handle(1, number),
                lambda: asked.ask(1, number), lambda: ptpm.Clock.restore(CLOCK, 2, [], number),
                lambda: asking.begin(ptpm.Action.SET, "PRIORITY1", number),
                lambda: asking.begin_at(ptpm.Action.SET, "PRIORITY1", 1, number),
                lambda: asking.receive(number), lambda: asking.restore(number), lambda: survey.receive(number),
                lambda: ptpm.PassedOn(1).is_first(number, 0, 1), lambda: asked.handle(1, b"", ptpm.Gives(number)),
            ):
                self.assertRaises(TypeError, call)
            self.assertEqual((asked.read("PRIORITY1"), asking.is_busy()), (b"\x80\0", False))
            self.assertEqual(asked.handle(1, bytearray(54)).answer, HandleAnswer.NOT_MANAGEMENT)
        fraction: Any = 100.7
        self.assertRaises(TypeError, ptpm.data_field, "PRIORITY1", fraction)
        self.assertRaises(TypeError, ptpm.data_field, "PRIORITY1", {"priority1": fraction})

    def test_numbers_of_ports_fit(self) -> None:
        for port in (-1, 65536, 70000):
            self.assertRaises(OverflowError, ptpm.PortIdentity, ptpm.Identity.of(CLOCK), port)
        self.assertRaises(OverflowError, ptpm.Rate, -1, 0)

    def test_data_sets_have_their_types(self) -> None:
        with ptpm.Clock(ptpm.ClockSettings(CLOCK, **PLACES), [PORT]) as asked:
            default = asked.data_set(ptpm.DefaultDataSet)
            self.assertEqual((default.number_ports, default.clock_quality.clock_class, default.domain_number), (1, 0x44, 0x2A))
            self.assertEqual(asked.data_set(ptpm.CurrentDataSet).steps_removed, 0x4142)
            self.assertEqual(asked.data_set(ptpm.ParentDataSet).grandmaster_clock_quality.clock_accuracy, 0x23)
            self.assertEqual(asked.data_set(ptpm.TimePropertiesDataSet).time_source.name, "OTHER")
            port = asked.data_set(ptpm.PortDataSet, 1)
            self.assertEqual((port.port_state, port.delay_mechanism), (ptpm.PortState.PRE_MASTER, "P2P"))
            answered = ptpm.Report(ptpm.ManagementId.PORT_DATA_SET, asked.read("PORT_DATA_SET", 1))
        self.assertEqual(answered.data_set(ptpm.PortDataSet), port)
        self.assertIsNone(answered.data_set(ptpm.DefaultDataSet))
        for other in (ptpm.Report(answered.id, b"", error=6), ptpm.Report(answered.id, answered.octets[:-2])):
            self.assertIsNone(other.data_set(ptpm.PortDataSet))
        with ptpm.SavingClock(clock()) as saving:
            self.assertEqual(saving.data_set(ptpm.DefaultDataSet).priority1, 128)

    def test_a_saving_clock_shows_what_is_saved(self) -> None:
        set_priority1 = request(7, f"{CLOCK}0001", 0, 1, "20056400")
        stranger = request(7, f"{CLOCK}0001", 0, 0, "2005").replace(bytes.fromhex("0011223344556677"), bytes(7) + b"\1")
        self.refused("NO_ROOM", lambda: ptpm.SavingClock(clock(), 2))
        with ptpm.SavingClock(clock(), 6) as saving:
            self.refused("UNSAVED", lambda: saving.take(1, stranger))
            image, token = saving.image()
            self.assertEqual((saving.saved(token), saving.is_unsaved(), saving.free()), (([], False), False, 6))
            asked = saving.ask(1, set_priority1)
            assert asked is not None
            self.assertEqual(asked.octets, b"d\0")
            taken = saving.take(1, set_priority1)
            self.assertEqual((taken.answer, taken.messages, taken.waiting), (HandleAnswer.ANSWERED_NEW, [], 1))
            self.assertIn(ptpm.ClockMembers.PRIORITY1, taken.changed.clock)
            self.assertEqual((saving.is_unsaved(), saving.free(), saving.read("PRIORITY1").hex()), (True, 5, "8000"))
            [(_, octets)] = saving.take(1, stranger).messages
            self.assertEqual(octets[-2:].hex(), "8000")
            _, token = saving.image()
            _, later = saving.image()
            saving.set(ptpm.Action.SET, "PRIORITY2", octets=b"e\0")
            [(port, octets)] = saving.saved(later).messages
            self.assertEqual((port, octets[-2:].hex(), saving.read("PRIORITY1").hex()), (1, "6400", "6400"))
            self.assertEqual((saving.is_unsaved(), saving.read("PRIORITY2").hex()), (True, "8000"))
            owners = saving.take(2, stranger, of_owner=True)
            self.assertEqual((owners.answer, owners.messages, owners.waiting), (HandleAnswer.ANSWERED_UNNUMBERED, [], 1))
            image, token = saving.image()
            self.refused("OTHER_IMAGE", lambda: saving.saved(later))
            self.assertEqual(len(saving.saved(token).messages), 1)
            objected = saving.take(1, request(8, f"{CLOCK}0001", 0, 1, "200b0000"), say=ptpm.Objection.WRONG_VALUE)
            self.assertEqual((objected.answer, objected.waiting), (HandleAnswer.ANSWERED_NEW, 1))
        back, _ = ptpm.Clock.restore(CLOCK, 2, [ptpm.Manager(MANAGER)], image)
        with ptpm.SavingClock(back) as saving:
            [(_, octets)] = saving.take(1, set_priority1).messages
            self.assertEqual(octets[-2:].hex(), "6400")

    def test_a_change_is_under_way_until_the_device_says(self) -> None:
        set_priority1 = request(7, f"{CLOCK}0001", 0, 1, "20056400")
        with ptpm.SavingClock(clock(), 6) as saving:
            self.refused("UNSAVED", lambda: saving.undertake(1, set_priority1))
            saving.saved(saving.image()[1])
            self.refused("NO_PORT", lambda: saving.undertake(3, set_priority1))
            self.assertIsNone(saving.undertake(1, request(7, f"{CLOCK}0001", 0, 0, "2005")))
            self.refused("NOTHING_UNDER_WAY", saving.decide)
            self.assertEqual(saving.undertake(1, set_priority1), saving.under_way())
            self.refused("UNDER_WAY", lambda: saving.undertake(1, set_priority1))
            self.refused("UNDER_WAY", lambda: saving.take(1, set_priority1))
            image, token = saving.image()
            self.assertEqual(saving.saved(token), ([], True))
            self.refused("BAD_SAY", lambda: saving.decide(ptpm.Gives(b"d")))
            decided = saving.decide()
            self.assertEqual((decided.answer, decided.messages, decided.waiting), (HandleAnswer.ANSWERED_NEW, [], 1))
            self.assertIn(ptpm.ClockMembers.PRIORITY1, decided.changed.clock)
            self.assertIsNone(saving.under_way())
        back, _ = ptpm.Clock.restore(CLOCK, 2, [ptpm.Manager(MANAGER)], image)
        with ptpm.SavingClock(back) as saving:
            found = saving.under_way()
            assert found is not None
            self.assertEqual((found.number, found.octets), (7, b"d\0"))
            self.assertEqual(saving.saved(saving.image()[1]), ([], False))
            saving.decide(ptpm.Objection.GENERAL_ERROR)
            [(_, octets)] = saving.saved(saving.image()[1]).messages
            self.assertEqual(octets[-8:].hex(), "fffe200500000000")

    def test_places_of_a_medium(self) -> None:
        with clock() as asked:
            image = asked.image()
        place = len(image) + header.PTPM_SEAL_OCTETS
        octets = bytearray(place) + ptpm.sealed(image, 5)
        self.assertEqual(ptpm.newest_image(octets, place), (1, image, 5))
        self.assertEqual(ptpm.unsealed(octets[place:]), (image, 5))
        for none in (0, -1, -place):
            self.assertIsNone(ptpm.newest_image(octets, none))

    def test_an_offset_is_no_number_of_nanoseconds(self) -> None:
        """CURRENT_DATA_SET has it times 2^16 (15.5.3.4.1). What a data set gives back in nanoseconds is not taken for that."""
        for wrong in (1.5, Decimal("-0.5")):
            with clock() as asked, self.assertRaisesRegex(TypeError, "TimeInterval.from_nanoseconds"):
                asked.observe(ptpm.ObservedClock(offset_from_master=wrong))  # type: ignore[arg-type]
            with self.assertRaisesRegex(TypeError, "TimeInterval.from_nanoseconds"):
                ptpm.ClockSettings(CLOCK, mean_path_delay=wrong).as_in_c()  # type: ignore[arg-type]
        with clock() as asked:
            asked.observe(ptpm.ObservedClock(offset_from_master=ptpm.TimeInterval.from_nanoseconds(Decimal("-0.5"))))
            self.assertEqual(asked.read("CURRENT_DATA_SET").hex(), "0000" + "ffffffffffff8000" + "0" * 16)

    def test_managers_that_no_clock_hears_are_refused(self) -> None:
        for rights in (8, 255, 256, -1):
            with self.assertRaisesRegex(ValueError, "a sum of the three"):
                ptpm.Manager(MANAGER, ptpm.Rights(rights) if rights > 0 else rights).as_in_c()  # type: ignore[arg-type]
        own = [ptpm.Manager(f"{CLOCK}/2")]
        with self.assertRaisesRegex(ValueError, "the identity of the clock"):
            ptpm.Clock(ptpm.ClockSettings(CLOCK), [ptpm.PortSettings()], own)
        with clock() as asked, self.assertRaisesRegex(ValueError, "the identity of the clock"):
            ptpm.Clock.restore(CLOCK, 2, own, asked.image())

    def test_errors_have_one_class(self) -> None:
        for kind in (ptpm.Error, ptpm.NoAnswer, ptpm.SessionFileError, ptpm.DamagedFileError, ptpm.SiteError):
            self.assertTrue(issubclass(kind, ptpm.PtpmError))

    def test_a_handle_is_not_copied(self) -> None:
        with clock() as asked:
            self.assertRaises(TypeError, copy.copy, asked)
            self.assertRaises(TypeError, copy.deepcopy, asked)

    def test_ids_of_the_device(self) -> None:
        own = ptpm.RelayedId(0xD010, {ptpm.Action.SET}, (2, 2), ptpm.Rights.PORT_SET)
        with clock() as asked:
            asked.relay([own])
            question = asked.ask(1, request(7, "aabbccfffeddee01ffff", 1, 1, "d0106400"))
            self.assertEqual(question and question.octets, b"\x64\0")
            self.refused("CLOCK_HAS_ID", lambda: asked.relay([dataclasses.replace(own, id="PRIORITY1")]))
            self.assertRaisesRegex(ValueError, "a sum of the three", asked.relay, [dataclasses.replace(own, right=8)])
            self.assertRaisesRegex(ValueError, "not a valid Action", asked.set, "PRIORITY1", 1)

    def refused(self, name: str, call: object) -> None:
        assert callable(call)
        with self.assertRaises(ptpm.Error) as caught:
            call()
        self.assertEqual(caught.exception.name, name)
        self.assertRegex(str(caught.exception), f"^{name}: .")


class Managers(unittest.TestCase):
    def test_a_session_is_answered(self) -> None:
        with clock() as asked, ptpm.Session(ptpm.SessionSettings(MANAGER, CLOCK, 0xFFFF, attempts=1)) as session:
            self.assertRaisesRegex(ptpm.Error, "NEEDS_PORT", session.begin, ptpm.Action.GET, "PORT_DATA_SET")
            self.assertRaisesRegex(ptpm.Error, "BAD_VALUE", session.begin, ptpm.Action.SET, "PRIORITY1", b"\1")
            session.begin(ptpm.Action.SET, "LOG_SYNC_INTERVAL", b"\x64\0", 1)
            self.assertEqual((session.is_busy(), session.next_number), (True, 0))
            [(_, octets)] = asked.handle(2, session.send()).messages
            self.assertRaisesRegex(ptpm.Error, "GAVE_UP", session.send)
            self.assertEqual(session.receive(octets[:-1]), SessionAnswer.BAD_LENGTH)
            self.assertEqual(session.receive(octets), SessionAnswer.ANSWERED)
            self.assertEqual((str(session.report()), session.is_busy()), ("refused WRONG_VALUE", False))
            session.begin(ptpm.Action.COMMAND, "DISABLE_PORT", b"", 2)
            [(_, octets)] = asked.handle(1, session.send()).messages
            session.receive(octets)
            self.assertEqual(str(session.report()), "done")

    @unittest.skipUnless(hasattr(library, "ptpm_session_image"), "the library makes no images")
    def test_a_request_goes_on_from_an_image(self) -> None:
        settings = ptpm.SessionSettings(MANAGER, CLOCK, 7)
        with clock() as asked, ptpm.Session(settings) as session, ptpm.Session(settings) as restored:
            session.begin(ptpm.Action.SET, "PRIORITY1", b"\x64\0")
            image = session.image()
            self.assertRaisesRegex(ptpm.Error, "DAMAGED", restored.restore, image[:-1])
            self.assertRaisesRegex(ptpm.Error, "NOT_AN_IMAGE", restored.restore, b"")
            restored.restore(image)
            self.assertEqual((restored.is_busy(), restored.send()), (True, session.send()))
            [(_, octets)] = asked.handle(1, restored.send()).messages
            restored.receive(octets)
            self.assertEqual(restored.report().members, {"priority1": 100})

    def test_a_request_at_a_port_is_given_up(self) -> None:
        with clock() as asked, ptpm.Session(ptpm.SessionSettings(MANAGER, CLOCK, 7)) as session:
            self.assertRaisesRegex(ptpm.Error, "IDLE", session.give_up)
            self.assertRaisesRegex(ptpm.Error, "NEEDS_PORT", session.begin_at, ptpm.Action.SET, "PRIORITY1", 0, b"\x64\0")
            session.begin_at(ptpm.Action.SET, "PRIORITY1", 2, b"\x64\0")
            message = session.send()
            self.assertEqual(message, request(7, "aabbccfffeddee010002", 1, 1, "20056400"))
            [(_, octets)] = asked.handle(1, message).messages
            session.give_up()
            self.assertEqual(session.receive(octets), SessionAnswer.NOTHING_ASKED)
            session.begin(ptpm.Action.GET, "PRIORITY1")
            [(_, octets)] = asked.handle(1, session.send()).messages
            session.receive(octets)
            self.assertEqual((session.report().members, session.issued), ({"priority1": 100}, 2))

    def test_a_clock_in_another_folder_can_answer(self) -> None:
        with tempfile.TemporaryDirectory() as folder, socket.socket(socket.AF_UNIX, socket.SOCK_DGRAM) as of_clock:
            of_clock.bind(f"{folder}/clock")
            with ptpm.UnixTransport(os.path.relpath(f"{folder}/clock")) as way:
                self.assertTrue(way.send(b"asked"))
                octets, sender = of_clock.recvfrom(100)
                self.assertEqual((octets, os.path.dirname(sender)), (b"asked", os.path.realpath(folder)))

    def test_a_path_that_is_too_long_for_a_socket_is_named(self) -> None:
        with self.assertRaisesRegex(OSError, "File name too long: '/tmp/a{200}"):
            ptpm.UnixTransport("/tmp/" + "a" * 200)

    def test_a_survey_of_one_clock_hears_no_other(self) -> None:
        settings = ptpm.SurveySettings("0a0b0c0d0e0f1011/9", 3, "PRIORITY1")
        self.assertRaisesRegex(ptpm.Error, "TARGET_IS_EVERY", ptpm.Survey, settings, "ff" * 8)
        with clock() as asked, ptpm.Survey(settings, CLOCK) as survey:
            [(_, octets)] = asked.handle(1, survey.send()).messages
            other = octets[:27] + b"\2" + octets[28:]  # of the sourcePortIdentity
            self.assertEqual(survey.receive(other), SurveyAnswer.OTHER_SOURCE)
            self.assertEqual((survey.receive(octets), len(survey)), (SurveyAnswer.TAKEN, 1))

    def test_a_survey_keeps_first_answers(self) -> None:
        with clock() as asked, ptpm.Survey(ptpm.SurveySettings("0a0b0c0d0e0f1011/9", 3, "PORT_DATA_SET")) as survey:
            for became in (SurveyAnswer.TAKEN, SurveyAnswer.AGAIN):
                handled = asked.handle(1, survey.send())
                self.assertEqual(handled.answer, HandleAnswer.ANSWERED_UNNUMBERED)
                for octets in (octets for port, octets in handled.messages if port == 1):
                    self.assertEqual(survey.receive(octets), became)
            told = [(str(report.source), report.members["portState"]) for report in survey]
            self.assertEqual(told, [(f"{CLOCK}/1", ptpm.PortState.MASTER), (f"{CLOCK}/2", ptpm.PortState.MASTER)])


@unittest.skipUnless(hasattr(library, "ptpm_passed_on_is_first_of"), "the library has no tables of a host's size")
class Passing(unittest.TestCase):
    def test_a_message_is_passed_on_once_in_its_time(self) -> None:
        get, table = request(7, "aabbccfffeddee01ffff", 1, 0, "2005"), ptpm.PassedOn(7)
        self.assertEqual([table.is_first(get, now, 1000) for now in (0, 999, 1000)], [True, False, True])
        self.assertTrue(table.is_first(request(8, "aabbccfffeddee01ffff", 1, 0, "2005"), 1000, 1000))
        self.assertFalse(table.is_first(b"", 1000, 1000))

    def test_a_table_has_as_many_places_as_its_host_gives_it(self) -> None:
        table = ptpm.PassedOn(7, places=16)
        passed = [table.is_first(request(number, "aabbccfffeddee01ffff", 1, 0, "2005"), 0, 1000) for number in range(17)]
        self.assertEqual(sum(passed), 16)
        for places in (15, 1_048_577):
            self.assertRaises(ValueError, ptpm.PassedOn, 7, places)

    def test_a_rate_gives_as_many_tokens_as_a_second_brings(self) -> None:
        rate = ptpm.Rate(3, 0)
        self.assertEqual([sum(rate.take(now) for _ in range(5)) for now in (0, 1000)], [3, 3])


class Texts(unittest.TestCase):
    def test_texts_that_are_no_identity_are_refused(self) -> None:
        pointed = ("aabbcc.fffeddee01", "aabb.ccfffe.ddee01", "aabbcc.fffe.ddee0x")
        for text in ("", CLOCK[:-1], f"{CLOCK}1", "aabbccfffeddee\u0661\u0662", f"{CLOCK[:-1]}\udcff", *pointed):
            self.assertRaisesRegex(ValueError, "is not an identity, such as", ptpm.Identity.of, text)
        for text in (CLOCK, f"{CLOCK}/", f"{CLOCK}/+1", f"{CLOCK}/65536", f"{CLOCK}/1/1", "1/1"):
            self.assertRaisesRegex(ValueError, "is not an identity of a port, such as", ptpm.PortIdentity.of, text)

    def test_numbers_of_a_newer_library_are_kept(self) -> None:
        self.assertEqual((HandleAnswer(29), int(HandleAnswer(29))), (HandleAnswer(29), 29))
        self.assertEqual((ptpm.error_name(0xC001), ptpm.id_name(0xC001), ptpm.id_of("c001")), ("0xc001", "c001", 0xC001))

    def test_ids_of_other_clocks_have_names(self) -> None:
        named = {"CLOCK_DESCRIPTION": 0x0001, "time_status_np": 0xC000, "PORT_STATS_NP": 0xC005}
        self.assertEqual({name: ptpm.id_of(name) for name in named}, named)

    def test_ids_by_their_names_and_numbers(self) -> None:
        for text in ("PRIORITY1", "priority1", "2005", "0x2005", "0X2005"):
            self.assertEqual(ptpm.id_of(text), ptpm.ManagementId.PRIORITY1)
        for text in ("", "PRIORITY3", "205", "02005", "0x", "0xPRIORITY1", "200\udcff"):
            self.assertRaisesRegex(ValueError, "neither the name of a managementId nor four", ptpm.id_of, text)

    def test_constants_have_the_names_of_the_library(self) -> None:
        for named in ptpm.ManagementId:
            self.assertEqual((ptpm.id_name(named), ptpm.id_of(named.name.lower())), (named.name, named))
        for error in ptpm.Objection:
            self.assertEqual(ptpm.error_name(error), error.name)
        for members, first in ((ClockMembers, header.PTPM_BAD_IDENTITY), (PortMembers, header.PTPM_BAD_STATE)):
            for place, member in enumerate(members):
                self.assertEqual((ptpm.answer_name(first + place), 1 << place), (f"BAD_{member.name}", member))

    def test_answers_have_the_names_of_the_library(self) -> None:
        names = {number: name for number in range(200) if not (name := ptpm.answer_name(number)).isdigit()}
        for number, name in names.items():
            self.assertEqual(getattr(header, f"PTPM_{name}"), number)
        for answer in (*HandleAnswer, *SessionAnswer, *SurveyAnswer):
            self.assertEqual(names.get(answer), answer.name if answer else None)
        for constant, value in vars(header).items():
            if constant.startswith("PTPM_") and isinstance(value, int) and 32 <= value < 200 and "PTPM_MOST_" not in constant:
                self.assertTrue(constant == "PTPM_VERSION_NUMBER" or constant.endswith(names[value]), constant)

    def test_names_of_numbers_are_those_of_the_library(self) -> None:
        for names, kind, named, key, place, size in (
            (header.PTPM_PORT_STATES, ptpm.PortState, ptpm.ManagementId.PORT_DATA_SET, "portState", 10, 26),
            (header.PTPM_DELAY_MECHANISMS, ptpm.DelayMechanism, ptpm.ManagementId.DELAY_MECHANISM, "delayMechanism", 0, 2),
            (header.PTPM_TIME_SOURCES, ptpm.TimeSource, ptpm.ManagementId.TIME_PROPERTIES_DATA_SET, "timeSource", 3, 4),
        ):
            for member in kind:
                name = member.name.encode()
                self.assertEqual(library.ptpm_number_named(names, name, len(name)), member)
            for number in range(256):
                octets = bytes(place) + bytes((number,)) + bytes(size - place - 1)
                self.assertEqual(ptpm.members(named, octets)[key], number)

    def test_a_value_is_refused_with_what_its_member_takes(self) -> None:
        for named, takes in {
            "PRIORITY1": "a number from 0 to 255, or 0x and two hexadecimal digits",
            "LOG_SYNC_INTERVAL": "a number from -128 to 127",
            "SLAVE_ONLY": "true or false",
            "VERSION_NUMBER": "a number from 0 to 15, or 0x and two hexadecimal digits",
            "DELAY_MECHANISM": "E2E, P2P, COMMON_P2P, SPECIAL, NO_MECHANISM or a number from 0 to 255",
        }.items():
            self.assertRaisesRegex(ValueError, f"^it takes {takes}$", ptpm.data_field, ptpm.id_of(named), "?")
        utc = {"currentUtcOffset": 32768, "leap61": 0, "leap59": 0, "currentUtcOffsetValid": 0}
        with self.assertRaisesRegex(ValueError, "^currentUtcOffset 32768: it takes a number from -32768 to 32767$"):
            ptpm.data_field(ptpm.ManagementId.UTC_PROPERTIES, utc)
        with self.assertRaisesRegex(ValueError, "leap59 2: it takes true or false$"):
            ptpm.data_field(ptpm.ManagementId.UTC_PROPERTIES, {**utc, "currentUtcOffset": 37, "leap59": 2})

    def test_members_of_another_length_are_left_as_they_are(self) -> None:
        self.assertEqual(ptpm.members(ptpm.ManagementId.PRIORITY1, bytes(4)), {})
        self.assertEqual(str(ptpm.Report(ptpm.ManagementId.PRIORITY1, bytes(4))), "value 00000000")

    def test_texts_are_shown_as_ptpm_manage_shows_them(self) -> None:
        shown_as = {"\u3164\u2800": r"\xe3\x85\xa4\xe2\xa0\x80", "\xdb\xa0\ue000": "\xdb\xa0\ue000", "\\\x9b": r"\x5c\xc2\x9b"}
        for text, shown in shown_as.items():
            octets = ptpm.data_field(ptpm.ManagementId.USER_DESCRIPTION, text)
            self.assertEqual(str(ptpm.Report(ptpm.ManagementId.USER_DESCRIPTION, octets)), f"userDescription {shown}")

    def test_members_of_ids_that_only_other_clocks_have(self) -> None:
        # A CLOCK_DESCRIPTION (15.5.3.1.2) with a text that is not UTF-8, an address of four octets and one of none.
        octets = bytes.fromhex("4000 0161 0004 0a000001 0001 0000 001b19 00 0262ff 00 00 001b19000100 00")
        values = ptpm.members(1, octets)
        self.assertEqual((values["clockType"], values["productDescription"], values["userDescription"]), (0x4000, "b\\xff", ""))
        self.assertEqual((values["physicalAddress"], values["addressField"]), (bytes([10, 0, 0, 1]), b""))
        path = ptpm.members(0x2015, bytes.fromhex("aabbccfffeddee01 0011223344556677"))["pathSequence"]
        self.assertEqual(path, (ptpm.Identity.of("aabbccfffeddee01"), ptpm.Identity.of("0011223344556677")))
        with self.assertRaisesRegex(ValueError, "as octets"):
            ptpm.data_field(0x2013, 1)
        with self.assertRaisesRegex(ValueError, "only be read"):
            ptpm.data_field(ptpm.ManagementId.DEFAULT_DATA_SET, 1)

    def test_a_rollout_says_what_is_done_next(self) -> None:
        journal = bytes.fromhex("5054504a001501020201001122334455667700070002036f6e6500c57eb3bb001702aabbccfffeddee010002000020050002"
                                "800000024000e363edf8001702aabbccfffeddee02000200012009000201000002000012a3de78")
        rollout = ptpm.Rollout(journal + bytes(1))
        self.assertEqual(rollout.whole, len(journal))
        action = rollout.turn(header.PTPM_EVENT_BEGIN)
        self.assertEqual((action.what, action.lane, action.step), (header.PTPM_DO_LOOK, 0, header.PTPM_NO_STEP))
        with self.assertRaisesRegex(ptpm.Error, "OUT_OF_TURN"):
            rollout.turn(header.PTPM_EVENT_DONE)
        self.assertEqual(rollout.turn(header.PTPM_EVENT_FOUND).lane, 1)
        self.assertEqual(rollout.turn(header.PTPM_EVENT_FOUND).what, header.PTPM_DO_READ)
        self.assertEqual(rollout.turn(header.PTPM_EVENT_VALUE, bytes.fromhex("8000")).what, header.PTPM_DO_ASK)
        self.assertEqual(rollout.turn(header.PTPM_EVENT_BEGINS, number=1001).what, header.PTPM_DO_NOTE)
        self.assertEqual(rollout.record()[:7].hex(), "000d03000003e9")
        with self.assertRaisesRegex(ptpm.Error, "DAMAGED"):
            ptpm.Rollout(journal[:80])

    def test_values_have_the_types_of_their_members(self) -> None:
        octets = bytes.fromhex("4142434445464748" "0001" "0a" "ff" "0000000000018000" "01" "03" "00" "02" "02" "12")
        self.assertEqual(
            list(ptpm.members(ptpm.ManagementId.PORT_DATA_SET, octets).values()),
            [ptpm.PortIdentity.of("4142434445464748/1"), 10, -1, Decimal("1.5"), 1, 3, 0, ptpm.DelayMechanism.P2P, 2, 2],
        )
        self.assertEqual(ptpm.members(ptpm.ManagementId.PORT_DATA_SET, octets)["portState"].name, "0x0a")
        sources = [ptpm.members(0x2013, bytes((8, number)))["timeSource"] for number in (0x20, 0x11)]
        self.assertEqual((sources, [source.name for source in sources]), ([ptpm.TimeSource.GNSS, 0x11], ["GNSS", "0x11"]))
        octets = bytes.fromhex("02000001" "80f8fe4e5d80" "0000000000000010" "0000")
        values = ptpm.members(ptpm.ManagementId.DEFAULT_DATA_SET, octets)
        self.assertEqual((values["slaveOnly"], values["clockQuality.clockAccuracy"]), (True, 0xFE))
        self.assertEqual(values["clockIdentity"], ptpm.Identity(bytes(7) + b"\x10"))  # its text is of decimal digits

    def test_data_fields_by_their_members(self) -> None:
        utc = {"currentUtcOffsetValid": True, "currentUtcOffset": -2, "leap59": "true", "LEAP61": 0}
        self.assertEqual(ptpm.data_field(ptpm.ManagementId.UTC_PROPERTIES, utc), bytes.fromhex("fffe0600"))
        for wrong in ({}, {**utc, "leap60": 0}, {**utc, "currentUtcOffset": 32768}, {**utc, "leap59": "no"}):
            self.assertRaises(ValueError, ptpm.data_field, ptpm.ManagementId.UTC_PROPERTIES, wrong)
        for text in ("a\\x41", "\0", "\u00e9"):     # each as it is
            octets = ptpm.data_field(ptpm.ManagementId.USER_DESCRIPTION, text)
            self.assertEqual(octets[1 : 1 + octets[0]].decode(), text)


if __name__ == "__main__":
    unittest.main()
