#include "names.h"
#include "ptpm.h"
#include "task.h"
#include <stdint.h>
#include <stdio.h>
#include <stdlib.h>
#include <string.h>

enum { WIDTH = 98 };        /* columns */

static const char help_text[] =
    "ptpm-manage [OPTION].. --target IDENTITY[-PORT] get ID\n"
    "ptpm-manage [OPTION].. --target IDENTITY[-PORT] set ID VALUE\n"
    "ptpm-manage [OPTION].. --target IDENTITY[-PORT] set ID NAME VALUE ..\n"
    "\n"
    "ptpm-manage [OPTION].. --target IDENTITY[-PORT] command ID\n"
    "ptpm-manage [OPTION].. survey ID\n"
    "\n"
    "ptpm-manage [OPTION].. collect\n"
    "ptpm-manage [OPTION].. status\n"
    "\n"
    "ptpm-manage [OPTION].. plan FILE\n"
    "ptpm-manage [OPTION].. apply FILE\n"
    "ptpm-manage [OPTION].. resume\n"
    "ptpm-manage [OPTION].. rollback APPLY\n"
    "ptpm-manage [OPTION].. applies [APPLY]\n"
    "\n"
    "Reads a data set of a PTP clock, sets a value, or sends a command, and prints the answer. The\n"
    "request is sent again until it is answered. survey asks every clock and port. NAME is a member's\n"
    "name, as the answer prints it. An id with one member needs no NAME: set PRIORITY1 100. Others do:\n"
    "set UTC_PROPERTIES currentUtcOffset 37 leap61 false leap59 false currentUtcOffsetValid true.\n"
    "\n"
    "collect asks every clock of a site, and prints the answers in hexadecimal.\n"
    "status shows who is grandmaster, who follows whom, and what is wrong. It needs the program ptpm.\n"
    "\n"
    "plan shows what FILE would change at several clocks, and in which order. It only reads. apply also\n"
    "sends the SETs, one after another. A kill or missing answer leaves an apply open, and resume\n"
    "continues it. rollback restores the values from before an apply. applies lists all applies.\n"
    "\n"
    "Transport:\n"
    "  -i, --interface NAME    over UDP at this interface, to every clock there, with IPv4; collect and\n"
    "                          status take several\n"
    "  -6, --ipv6              with IPv6\n"
    "  -2, --ethernet          at this interface in frames of IEEE 802.3, and not over UDP\n"
    "      --udp ADDRESS       over UDP to this address; needs no --interface\n"
    "      --any-source        over UDP, also accepts what comes from addresses that are not on the link\n"
    "      --ttl-security      over UDP, ignores unicast with a TTL below 255: a router may have forwarded it.\n"
    "                          ptpm-clock sends with 255\n"
    "  -u, --unix PATH         on a Unix socket, such as /var/run/ptp4l\n"
    "\n"
    "Target and request:\n"
    "  -T, --target IDENTITY   the clock, such as aabbccfffeddee01 or aabbcc.fffe.ddee01. A port of it may\n"
    "                          follow: aabbccfffeddee01/1. An id of a port needs one\n"
    "      --names FILE        your names for clocks: lines of an identity, a space and a name. IDENTITY may then\n"
    "                          be such a name, and status shows these names\n"
    "  -p, --port PORT         the clock's port, if none follows IDENTITY; with get, all means every port\n"
    "  -d, --domain N          domainNumber, 0 to 255 (0). For collect and status also a range such as\n"
    "                          0-7, or all: 0, 127, and each domain in which clocks are heard or answer\n"
    "      --sdo N             sdoId for collect and status, 0 to 4095 or 0x000 to 0xfff (0); 0x100 in 802.1AS.\n"
    "                          Or all: 0, and each sdoId in which clocks are heard\n"
    "  -b, --hops N            how many boundary clocks may forward the request, 0 to 255 (1; 7 for collect,\n"
    "                          status, plan, apply, resume and rollback)\n"
    "  -x, --hexadecimal       VALUE and answers are octets of the dataField in hexadecimal\n"
    "      --text              VALUE is a text, for USER_DESCRIPTION\n"
    "      --json              each answer as a line, an object of JSON; status as one object\n"
    "\n";

static const char site_text[] =
    "Several clocks from one file:\n"
    "      --probe             finds clocks that take no SETs. With plan each clock gets a SET that changes\n"
    "                          nothing. With apply each member first gets a SET of its present value\n"
    "      --status-if-changes plan ends with status 8 if there are changes\n"
    "      --expect PLAN       apply sends nothing unless its plan's name is PLAN, eight digits\n"
    "      --skip-unreached    apply leaves out clocks that can't be reached, and names them\n"
    "      --keep-going        apply goes on at other clocks if one fails; so does resume\n"
    "      --limit CLOCK,..    apply changes only these clocks\n"
    "      --keep N            apply, resume and rollback keep only the N latest journals of ended applies\n"
    "      --check PROGRAM     apply runs PROGRAM before it goes on at another clock; a status other than\n"
    "                          0 ends the apply\n"
    "      --dry-run           rollback only says what it would restore\n"
    "      --give-up           resume ends the apply, whose last step may have been carried out\n"
    "\n"
    "A whole site:\n"
    "      --listen SECONDS    how long collect and status listen for clocks first (0; 4 with --domain all or\n"
    "                          --sdo all)\n"
    "      --max-offset NS     offsets above this limit, in nanoseconds, are findings (1000000). The word\n"
    "                          none means no limit\n"
    "      --max-delay NS      delays above this limit are findings too\n"
    "      --tai-utc S         how many seconds TAI is ahead of UTC (37)\n"
    "      --settle SECONDS    a port that has not locked or settled after this time is a finding (10)\n"
    "      --profile NAME      members that this profile does not allow are findings too: default,\n"
    "                          st2059-2, aes67 or gptp\n"
    "      --expect FILE       differences from this inventory of the site are findings too\n"
    "      --ignore NAME,..    findings of these names are left out\n"
    "      --all               also lists each finding that follows from another\n"
    "      --draw              status as an SVG file\n"
    "      --html              status as a page in HTML\n"
    "      --openmetrics       status as numbers for Prometheus\n"
    "      --nagios            status as a line for Nagios or Icinga, with a plugin's exit status\n"
    "      --output FILE       status writes to FILE, which each poll replaces as a whole\n"
    "      --lines FILE        status writes the lines of its latest poll to FILE, as collect prints them\n"
    "      --once              status does not poll a second time for findings that may be momentary\n"
    "      --for SECONDS       status polls every 2 seconds for this long, and then prints once\n"
    "      --watch SECONDS     status polls at this interval, and prints the changes\n"
    "      --forget SECONDS    in a watch, a clock that no longer answers is a finding for this long (86400)\n"
    "\n";

static const char asking_text[] =
    "Manager, session and retries:\n"
    "  -m, --manager ID-PORT   the manager's own identity and port, below 61440. By default the identity is\n"
    "                          the interface's MAC with its local bit inverted, so that no clock has it,\n"
    "                          and the port is 1.\n"
    "                          On a Unix socket the identity is 0. Requests outside a session use a\n"
    "                          portNumber that no manager has\n"
    "  -k, --numbers FILE      keeps the session of this manager with this clock from run to run.\n"
    "                          Without -k its file is in $XDG_STATE_HOME/ptpm, /var/lib/ptpm or\n"
    "                          ~/.local/state/ptpm. Over UDP or Ethernet each set and command\n"
    "                          is in a session; with -k or -m, each get too\n"
    "      --give-up           abandons the unanswered request of an earlier run, which is otherwise\n"
    "                          sent again first\n"
    "  -w, --wait MILLIS       how many milliseconds a session without a file waits before it asks (3000)\n"
    "  -a, --attempts N        how often a request is sent at most, 1 to 255 (30). For collect and status,\n"
    "                          how often a clock is asked for what it has not answered (10)\n"
    "  -t, --timeout MILLIS    how long each answer is waited for, in milliseconds (200)\n"
    "  -n, --times N           makes the request N times, for trials (1)\n"
    "  -q, --quiet             shows no progress. Without it, progress is shown on a terminal\n"
    "  -h, --help              this text\n"
    "      --version           the version\n"
    "\n";

static const char help_end[] =
    "Exit status: 0 answered; for status, no findings. 1 the clock refuses, or there are findings.\n"
    "2 nothing was asked or sent; 3 no answer came; 4 the answer could not be printed. 5 a set was\n"
    "answered with a different value. 128 plus a signal's number: that signal ended it.\n"
    "\n"
    "For plan, apply, resume and rollback: 0 done, or nothing to do; 1 refused by a clock. 2 the command\n"
    "line or FILE is refused; 3 nothing was sent. 4 a file could not be read or written; 5 somebody else\n"
    "changed a value; 6 the apply is open: resume continues it. 7 done in part; 8 there are changes.\n";

/* Prints the names of all ids that a call gives, in the call's order. */
static void print_ids(uint32_t id_at(size_t place)) {
    int column = WIDTH;
    for (size_t place = 0; id_at(place) != PTPM_NO_ID; place++) {
        const char *name = read_id_name((uint16_t)id_at(place));
        int size = (int)strlen(name) + 1;
        if (column + size > WIDTH) column = printf("\n ") - 1;
        column += size;
        printf(" %s", name);
    }
}

_Noreturn void print_help(void) {
    fputs(help_text, stdout);
    fputs(site_text, stdout);
    fputs(asking_text, stdout);
    printf("ID, in either case, or four hexadecimal digits:");
    print_ids(ptpm_id_at);
    printf("\n\nget and survey also take these, which ptpm-clock answers only with --give:");
    print_ids(ptpm_other_id_at);
    printf("\n\n%s", help_end);
    exit(fflush(stdout) == 0 ? 0 : 4);
}

_Noreturn void print_version(void) {
    puts("ptpm-manage " PTPM_VERSION);
    exit(fflush(stdout) == 0 ? 0 : 4);
}
