"""PTP management (IEEE 1588-2019, clause 15) over the shared library libptpm: an agent of one clock, a manager's session, and a
survey.

What does a ptp4l of this machine say?

    import ptpm

    with ptpm.UnixTransport("/var/run/ptp4l") as way:
        for report in ptpm.survey(way, "DEFAULT_DATA_SET"):
            print(report.source, report.members.get("priority1", report))

The calls start no thread and open no socket. Make none from a signal handler that interrupts one, nor in a forked child of a
process with threads.
"""

from ._header import PTPM_VERSION as __version__, ClockMembers, PortMembers
from .answers import Error, HandleAnswer, PtpmError, SessionAnswer, SurveyAnswer, answer_name
from .asking import NoAnswer
from .clock import Changed, Clock, Handled
from .data_sets import (
    ClockQuality, CurrentDataSet, DefaultDataSet, ParentDataSet, PortDataSet, TimeInterval, TimePropertiesDataSet,
)
from .device import Asked, ChangeRefused, Gives, Limit, Objection, RelayedId, Say
from .identity import Identity, PortIdentity
from .ids import Action, ManagementId, error_name, id_name, id_of
from .members import data_field, members
from .nobody import ask_as_nobody, get
from .observation import ObservedClock, ObservedGrandmaster, ObservedPort
from .passing import PassedOn, Rate
from .report import Report
from .requests import Requests, SessionSettings
from .rollout import Rollout
from .saving_clock import Saved, SavingClock
from .seal import newest_image, sealed, unsealed
from .session import Session
from .session_file import DamagedFileError, OpenApplyError, SessionFile, SessionFileError, usual_path
from .settings import ClockSettings, DelayMechanism, Manager, PortSettings, PortState, Rights, TimeSource
from .site import AskedDomain, Domain, DomainIdentity, Finding, Grandmaster, Lack, Site, SiteClock, read_site
from .site_programs import SiteError, site
from .survey import SURVEY_PORT, Survey, SurveySettings, survey
from .transport import Transport, UdpTransport, UnixTransport

__all__ = [
    "__version__", "Action", "answer_name", "ask_as_nobody", "Asked", "AskedDomain", "Changed", "ChangeRefused", "Clock",
    "ClockMembers", "ClockQuality", "ClockSettings", "CurrentDataSet", "DamagedFileError", "data_field", "DefaultDataSet",
    "DelayMechanism", "Domain", "DomainIdentity", "Error", "error_name", "Finding", "get", "Gives", "Grandmaster",
    "HandleAnswer", "Handled", "id_name", "id_of", "Identity", "Lack", "Limit", "ManagementId", "Manager", "members",
    "newest_image", "NoAnswer", "Objection", "ObservedClock", "ObservedGrandmaster", "ObservedPort", "OpenApplyError",
    "ParentDataSet", "PassedOn", "PortDataSet", "PortIdentity", "PortMembers", "PortSettings", "PortState", "PtpmError", "Rate",
    "read_site", "RelayedId", "Report", "Requests", "Rights", "Rollout", "Saved", "SavingClock", "Say", "sealed", "Session", "SessionAnswer",
    "SessionFile", "SessionFileError", "SessionSettings", "Site", "site", "SiteClock", "SiteError", "Survey", "survey",
    "SURVEY_PORT", "SurveyAnswer", "SurveySettings", "TimeInterval", "TimePropertiesDataSet", "TimeSource", "Transport",
    "UdpTransport", "UnixTransport", "unsealed", "usual_path",
]
