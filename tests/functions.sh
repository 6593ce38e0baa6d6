# What the commands of the pages share. bash reads this file before each of them.
# shellcheck shell=bash disable=SC2034 # the pages use the names

# GET PRIORITY1, sequenceId 7, from the manager 0011223344556677/1 to the clock aabbccfffeddee01 at each port, and the clock's
# RESPONSE: priority1 is 128.
REQUEST=0d12003600000000000000000000000000000000001122334455667700010007047faabbccfffeddee01ffff01010000000100022005
REPLY=0d12003800000000000000000000000000000000aabbccfffeddee0100010007047f00112233445566770001000002000001000420058000
# The same GET to each clock.
TO_EVERY_CLOCK=0d12003600000000000000000000000000000000001122334455667700010007047fffffffffffffffffffff01010000000100022005
# A MANAGEMENT_ERROR_STATUS in place of that RESPONSE: WRONG_VALUE, with the displayData `no`.
REFUSAL=0d12004000000000000000000000000000000000aabbccfffeddee0100010007047f00112233445566770001000002000002000c0004200500000000026e6f00
# One of an ACKNOWLEDGE, in domain 5 and sdoId abc, whose managementErrorId has no name.
UNNAMED=ad12003c05bc0000000000000000000000000000aabbccfffeddee0100020007047f0011223344556677000103020400000200081234200e00000000
# A GET with two octets of data, of an id that the standard's table lacks.
UNKNOWN=0d12003800000000000000000000000000000000001122334455667700010007047faabbccfffeddee01ffff01010000000100042fff0102
# SET PRIORITY1 to 100 with sequenceId 8, and GET PRIORITY1 with sequenceId 9.
SET=0d12003800000000000000000000000000000000001122334455667700010008047faabbccfffeddee01ffff010101000001000420056400
GET=0d12003600000000000000000000000000000000001122334455667700010009047faabbccfffeddee01ffff01010000000100022005
# An Announce message: messageType b, with its header and body (13.3.1, 13.5.1).
ANNOUNCE=0b02004000000000000000000000000000000000aabbccfffeddee01000100010501
ANNOUNCE+=0000000000000000000000250080f821ffff80aabbccfffeddee01000020

# changed DATAGRAM [PLACE=OCTET | +OCTETS]..: the datagram with an octet at a place replaced, or with octets appended.
changed() {
    local datagram=$1 place
    shift
    for change; do
        if [ "${change#+}" != "$change" ]; then
            datagram+=${change#+}
        else
            place=$((2 * ${change%=*}))
            datagram=${datagram:0:place}${change#*=}${datagram:place+2}
        fi
    done
    echo "$datagram"
}

# edited FILE [OLD NEW]..: the file with the first OLD replaced by NEW, and so on. Each OLD has to be there.
edited() {
    local text
    text=$(cat "$1" && echo .) && text=${text%.} && shift
    while [ $# -gt 1 ]; do
        if [ "$1" ] && [ "$text" = "${text#*"$1"}" ]; then
            echo "edited: the file lacks $1" >&2
            return 3
        fi
        text=${text%%"$1"*}$2${text#*"$1"}
        shift 2
    done
    printf %s "$text"
}

# events LINE..: a script of the network on standard input and these lines.
events() { cat && echo %% && { [ $# = 0 ] || printf '%s\n' "$@"; }; }

# zeros N: N digits 0.
zeros() { printf "%0${1}d" 0; }

# asks FIRST LAST REQUEST..: events of the session m, which asks from the FIRSTth time to the LASTth, for each REQUEST in turn. Each
# request is delivered, and its reply. If COPIES is set, a copy of each comes again that many requests later.
asks() {
    local first=$1 last=$2
    shift 2
    printf '%s\n' "$@" | awk -v first="$first" -v last="$last" -v copies="${COPIES-0}" '{ asks[NR - 1] = $0 } END {
        for (n = first; n <= last; n++) {
            printf "begin m %s\nsend m\ndeliver %d\ndeliver %d\n", asks[(n - first) % NR], 2 * n - 1, 2 * n
            if (copies && n >= first + copies) printf "deliver %d\n", 2 * (n - copies) - 1
        }
    }'
}

# Of a trace: what each event did, without the numbers of its frames; the reports; and the number of the last frame.
outcomes() { sed -n '/^[0-9]/s/ frames .*//;/^[0-9]/p'; }
reports() { sed -n /^report/p; }
last_frame() { sed -n 's/.* frames .*-/last frame /p' | tail -n 1; }

# Of a picture: what a screen reader says of each row.
aloud() { sed -n 's/.*\(<title>.*<\/title><desc>.*<\/desc>\).*/\1/p'; }

# lines_in FILE: the lines of standard input that no line of the file has in it.
lines_in() { while IFS= read -r line; do grep -qF -- "$line" "$1" || echo "not in $1: $line"; done; }

# Of what `ptpm site` prints: # in place of the first fourteen digits of a clockIdentity of bin/site; and the findings alone, without
# what is open and the description that bin/site gives a clock.
short() { sed 's/020000fffe0000/#/g'; }
findings() { sed -n '/^"\{0,1\}findings/,$p' | sed '/^not judged: /d; s/^\(findings: none\) that .*/\1/; /^open: /,$d; s/ "clock"$//' | short; }

# Of what `ptpm site --json` prints: each finding that follows, and from which.
followers() {
    short | sed -n -e 's/"before":\({[^}]*}\|"[^"]*"\|[^,{]*\),//' \
        -e 's/.*"because":{"clockIdentity":"\([^"]*\)","finding":"\([^"]*\)"},"clockIdentity":"\([^"]*\)".*"finding":"\([^"]*\)".*/\4 \3 < \2 \1/p'
}

# Of lines for `ptpm site`: a note of the host that asked. And ten clocks more, each with these words.
host() { echo "#ptpm own=#ee $1"; }
slaves() { for clock in 02 03 04 05 06 07 08 09 0a 0b; do printf '; %s %s' $clock "$1"; done; }

# play NETWORK: runs the events on standard input in a network of data/ and prints what each did. Its trace is then in the file
# trace.
play() { { cat "data/$1.network" && echo %% && cat; } | ptpm run > trace && outcomes < trace; }

# checked: what `ptpm check` says of the script on standard input; and whether `ptpm run` ends with another status.
checked() {
    local status=0 ran=0
    cat > script
    ptpm check < script || status=$?
    ptpm run < script > trace 2> fault || ran=$?
    [ $ran = $status ] || echo "run: status $ran"
    return $status
}

# trace_and_picture: what `ptpm run` and `ptpm draw` print for the network on standard input with a few events.
trace_and_picture() {
    local script
    script=$(events 'begin m get PRIORITY1 - -' 'send m' 'send m' 'send m' 'deliver 1' 'deliver 3')
    ptpm run <<< "$script" && ptpm draw <<< "$script"
}

# network CLOCKS SESSIONS EACH LINKS [ENDS]: a network of clocks c0, c1 .. with eight ports, of sessions of which EACH have the same
# target, and of links between two ports of a clock, or of one link with ENDS ends.
network() {
    awk -v clocks="$1" -v sessions="$2" -v each="$3" -v links="$4" -v ends="${5--1}" 'BEGIN {
        print "version = 1"
        for (n = 0; n < clocks; n++)
            printf "[[clock]]\nname = \"c%d\"\nidentity = \"%016x\"\ndomain = 0\nports = 8\n", n, n
        for (n = 0; n < sessions; n++) {
            printf "[[session]]\nname = \"s%d\"\nidentity = \"f%015x/1\"\n", n, n
            printf "target = \"c%d\"\nfirst = 1\nhops = 1\nattempts = 1\n", n / each
        }
        for (n = 0; n < links; n++) {
            port = n % 4 * 2 + 1
            printf "[[link]]\nends = [\"c%d.%d\", \"c%d.%d\"]\n", n / 4, port, n / 4, port + 1
        }
        if (ends >= 0) printf "[[link]]\nends = ["
        for (n = 0; n < ends; n++) printf "\"c%d.%d\", ", n / 8, n % 8 + 1
        if (ends >= 0) print "]"
    }'
}

# unsettled SCRIPT TRACE SESSION ATTEMPTS: the session is named if a request has no report, except the last one, after this many attempts
# and four more for each `resume`.
unsettled() {
    awk -v name="$3" -v attempts="$4" '$2 != name { next }
        FILENAME == ARGV[1] && $1 == "begin" { begun++; sent = resumed = 0 }
        FILENAME == ARGV[1] && $1 == "send" { sent++ }
        FILENAME == ARGV[1] && $1 == "resume" { resumed++ }
        FILENAME == ARGV[2] && $1 == "report" { answered++ }
        END {
            is_last_open = answered + 1 == begun && sent == attempts + 4 * resumed
            if (answered != begun && !is_last_open) print name ": " answered " of " begun " are answered"
        }' "$1" "$2"
}

# What a site has that is open, or else its findings: of what `ptpm site` prints, without the description of a clock.
undecided() { sed -n '/^\(findings\|open\): [1-9]/,$p' | sed '/^not judged: /d; s/ "clock"$//' | short; }

# hosted WORDS..: ptpm monitor with these words, and the answers of a host on standard input.
hosted() { cat > host && ptpm monitor "$@" < host; }

# told: of what ptpm monitor says to a host, of the text of a look the findings alone.
told() { short | grep -aE '^(monitor|look|listen|watch|open|expect|own|show|print)( |$)|^[-+=0-9{]|^20[0-9-]*T|^findings|"finding"|^left out|^PTP'; }
