# Read by the scripts of this checkout, not run: messages, temporary files, and commands that are stopped when the script is.
# Before it is read, `me` is the script's name for its messages and `home` the checkout's folder.
# shellcheck shell=sh

LC_ALL=C
export LC_ALL
unset CDPATH

say() { printf '%s: %s\n' "$me" "$*" >&2; }

# Every script ends so when it could not do what it was asked.
die() {
    say "$*"
    exit 2
}

# Prints what the script's own `usage` says.
help() { usage 2>/dev/null || die "standard output can't be written"; }

# All that is missing is said at once, before anything is proved.
need() { # TOOL...
    lacking=
    for tool; do
        command -v "$tool" >/dev/null && continue
        [ "$tool" != rt ] || tool='rt (the Rattle kit)'
        lacking="$lacking${lacking:+, }$tool"
    done
    [ -z "$lacking" ] || die "not on the path: $lacking (README.md says what each script needs)"
}

version() {
    found=$(sed -n 's/^#define SAVUNECO_VERSION "\([0-9.]*\)".*/\1/p' "$home/include/savuneco.h")
    [ -n "$found" ] || die "include/savuneco.h has no line with SAVUNECO_VERSION"
    echo "$found"
}

# ---- temporary files, and what is running: both go when the script is stopped

scratch='' rooms='' child='' stop=''

tidy() { rm -rf "$scratch" "$rooms"; }

# `scratch` is a folder for the script alone; in `rooms` rt keeps what is its own.
temporary() {
    scratch=$(mktemp -d 2>/dev/null) && rooms=$(mktemp -d 2>/dev/null) || die "no temporary folder can be made"
}

# Ends what was started, with all that it has started. A child that has no group yet is ended by its own number.
end_child() {
    [ -n "$child" ] || return 0
    kill -s KILL -- "-$child" || kill -s KILL "$child"
    wait "$child"
    # the others of the group are gone a moment later
    for again in 1 2 3 4 5; do
        kill -s KILL -- "-$child" || break
        sleep 0.1
    done
    child=
} 2>/dev/null

stopped() {
    trap '' HUP INT QUIT TERM PIPE
    end_child
    die "stopped"
}

catch_signals() { trap "$1" HUP INT QUIT TERM PIPE; }

# Starts a command in a process group of its own. A signal that comes meanwhile is kept until the group's number is known.
start() { # WORDS...
    exec 3<&0
    catch_signals 'stop=yes'
    setsid "$@" <&3 3<&- &
    child=$!
    catch_signals stopped
    [ -z "$stop" ] || stopped
    exec 3<&-
}

# Waits for the command's end and has its status. What is left of its group goes.
finish() {
    wait "$child"
    status=$?
    kill -s KILL -- "-$child" 2>/dev/null
    child=
    return "$status"
}

# Says every nine seconds that a command is still going on, and goes with the command's group.
ticking='
    (took=0; while sleep 9; do took=$((took + 9)); echo "$0 ($took s)" >&2; done) </dev/null >/dev/null &
    "$@"'

# Runs a command to its end; at a terminal it is never silent for more than ten seconds.
attend() { # DOING WORDS...
    doing=$1
    shift
    [ ! -t 2 ] || set -- sh -c "$ticking" "$me: still $doing" "$@"
    start "$@"
    finish
}

# The same for one command of several in a row, which would be silent together: at a terminal each is told when it begins.
step() { # DOING WORDS...
    [ ! -t 2 ] || say "$1"
    attend "$@"
}

# ---- at once, for every script

# A closed descriptor would be given to the next file that is opened, so none is left closed.
true 3>&2 || exec 2>/dev/null
true 2>/dev/null 3>&1 || die "standard output is closed"
input=open
true 2>/dev/null 3<&0 || { input=closed; exec </dev/null; }

trap tidy EXIT
catch_signals stopped
