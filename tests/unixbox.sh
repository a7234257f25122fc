#!/bin/sh
# Whether programs see under unixbox what they see natively.
# usage: tests/unixbox.sh out/libjaywardrobe.a
#
# Builds unixbox, and runs the programs of tests/unixbox natively and under it: by slices of one
# file and by whole passes, with all places recounted and checked after each call. The outputs are
# the same, and unixbox finds nothing wrong. With the collector off, the check of a cycle fails. The
# statuses of unixbox are tried, and what ends it. All of it is done again with unixbox under the
# sanitizers. What cannot be run here is left out, with a line that says so. The first that fails
# ends the script.
set -eu
if [ $# -ne 1 ] || [ ! -f "$1" ]; then
    echo "usage: tests/unixbox.sh out/libjaywardrobe.a (make lib builds it)" >&2
    exit 2
fi
library=$(cd "$(dirname "$1")" && pwd)/$(basename "$1")
cd "$(dirname "$0")/.."
room=$(mktemp -d)
trap 'rm -rf "$room"' EXIT
chmod 755 "$room"
cc=${CC:-cc}
checks="-std=c11 -O1 -g -Wall -Wextra -Werror"
sanitizers="-fsanitize=address,undefined -fno-sanitize-recover=all"
# Much is allowed to the privileged alone, so some programs run as a user of their own.
user=
if [ "$(id -u)" = 0 ]; then
    user="setpriv --reuid $((60000 + $$ % 5000)) --regid 60000 --clear-groups"
fi

fails() {
    echo "unixbox: $1" >&2
    cat "$room/layer" "$room/said" >&2
    exit 1
}

# Runs a command natively and under this build of unixbox, as this user.
same() {
    box=$1
    as=$2
    shift 2
    : > "$room/layer"
    timeout 60 $as "$@" > "$room/native" 2> "$room/said" || fails "status $? natively: $*"
    for how in "--gc=slice --budget=1" --gc=pass; do
        timeout 60 $as "$box" $how --verify --check -- "$@" > "$room/layer" 2> "$room/said" ||
            fails "status $?: $box $how -- $*"
        diff "$room/native" "$room/layer" || fails "not as natively: $box $how -- $*"
        case $(grep "files left" "$room/said") in
        "" | *[1-9]*) fails "unixbox finds something wrong: $box $how -- $*" ;;
        esac
    done
}

# A call that frees nothing is followed by a recount too.
recounts() {
    timeout 60 "$1" --check --script "$room/steps" -- sh -c "exec 9>&1" > "$room/layer" 2> "$room/said"
    grep -A 1 " dup2 1 9\$" "$room/steps" | grep -q "^check\$" || fails "no recount after a dup2"
}

# A filter can tell calls that do not concern the layer.
spares() {
    timeout 60 "$1" -- "$room/spared" > "$room/layer" 2> "$room/said" || fails "status $?: spared"
    [ "$(sed -n 's/^unixbox: \([0-9]*\) calls.*/\1/p' "$room/said")" -lt 1000 ] || fails "calls are not spared"
}

# An instance of epoll(7) that is inherited tells edges, too.
inherits() {
    timeout 60 python3 -c 'import os, select, sys
one = select.epoll()
os.set_inheritable(one.fileno(), True)
os.execv(sys.argv[1], sys.argv[1:] + [str(one.fileno())])' "$1" -- "$room/readiness" epoll \
        > "$room/layer" 2> "$room/said" || fails "status $?: an inherited epoll"
}

# Runs unixbox. It ends with this status, and says this.
answers() {
    status=0
    expected=$1
    reason=$2
    shift 2
    timeout 60 "$@" > "$room/layer" 2> "$room/said" || status=$?
    [ $status = "$expected" ] && grep -q -- "$reason" "$room/said" || fails "status $status: $*"
}

# A status is the program's, or unixbox's own with a reason.
answers_all() {
    answers 7 " 0 files left" "$1" sh -c "exit 7"
    answers 143 " 0 files left" "$1" sh -c 'kill -TERM $$'
    answers 127 "No such file" "$1" "$room/nothing"
    answers 126 "Permission denied" "$1" "$room"
    answers 125 "--budget 0: .* from 1 to 65536" "$1" --budget 0 true
    answers 125 "--gc some: .* slice, pass or none" "$1" --gc some true
    answers 125 "no program" "$1"
    answers 125 "the script is lost: No space" "$1" --script /dev/full true
    answers 125 "the picture is lost: No space" "$1" --graph /dev/full true
    "$1" --quiet true 2> "$room/said" && [ ! -s "$room/said" ] || fails "--quiet says something"
    python3 tests/unixbox/ends.py "$1" > "$room/layer" 2> "$room/said" || fails "ends.py"
}

# Runs the programs under a build of unixbox.
plays() {
    for name in descriptors arguments senders addresses room options shutdown datagrams moves \
        children paths credentials; do
        same "$1" "$user" "$room/$name"
    done
    for name in waits processes children paths credentials; do
        same "$1" "" "$room/$name"
    done
    for word in "" epoll fcntl ioctl; do
        same "$1" "$user" "$room/readiness" $word
    done
    (ulimit -n 256 && same "$1" "$user" "$room/children" full)
    same "$1" "" python3 tests/unixbox/descriptors.py
    if timeout 60 "$1" --gc=none -- "$room/descriptors" cycle > "$room/layer" 2> "$room/said"; then
        fails "a cycle is freed with --gc=none"
    fi
    grep -q "not so: poll" "$room/said" || fails "the check of a cycle ends otherwise"
    answers_all "$1"
    echo "unixbox: the programs passed$2"
}

for name in notification descriptors arguments senders addresses room options shutdown datagrams \
    moves waits processes children paths credentials readiness spared cost; do
    $cc $checks -pedantic "tests/unixbox/$name.c" -o "$room/$name" -lpthread
done
$cc -nostdlib -static tests/unixbox/pause.c -o "$room/pause"
if ! $user "$room/notification" 2> "$room/why"; then
    echo "unixbox: no seccomp notification ($(cat "$room/why")), so nothing was run under it"
    exit 0
fi
build="$cc $checks -Iinclude unixbox/*.c $library -lpthread"
$build -o "$room/unixbox"
plays "$room/unixbox" ""
recounts "$room/unixbox"
spares "$room/unixbox"
inherits "$room/unixbox"
echo 'int main(void) { return 0; }' > "$room/empty.c"
if $cc $sanitizers "$room/empty.c" -o "$room/empty" 2> "$room/why" && "$room/empty"; then
    $build $sanitizers -o "$room/unixbox_checked"
    plays "$room/unixbox_checked" ", with unixbox under the sanitizers"
else
    echo "unixbox: no address sanitizer, so unixbox was not run under one"
fi
