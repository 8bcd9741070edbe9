#!/usr/bin/env bash
# Announces a printer by a running avahi-daemon, finds it as clients do, and prints to what was found.
#   tools/clients/try_avahi.sh [PRINTD]      the program to try, ./printd where none is given
# It runs as root in namespaces of its own, which have no network but the loopback and no other processes:
# nothing of it reaches the daemons of this machine. It needs Debian's avahi-daemon, avahi-utils, cups-client,
# cups-ipp-utils and dbus.
set -eu -o pipefail
top=$(cd "$(dirname "$0")/../.." && pwd)
printd=$(realpath "${1:-$top/printd}")
if [ -z "${IN_NAMESPACE:-}" ]; then
    exec env IN_NAMESPACE=yes unshare --net --mount --pid --fork --kill-child --mount-proc "$0" "$printd"
fi

wait_for() {
    local tries
    for tries in $(seq 100); do
        if "$@" > /dev/null 2>&1; then
            return 0
        fi
        sleep 0.1
    done
    echo "try_avahi: in vain after $tries tries: $*" >&2
    exit 1
}

room=$(mktemp -d)
trap 'rm -rf "$room"' EXIT
chmod 755 "$room"
mkdir "$room/services"
"$printd" settings --avahi "$top/examples/printd.toml" > "$room/services/printd.service"

# A machine that has nothing but its loopback, and whose daemons read what is prepared here.
ip link set lo up multicast on
mount -t tmpfs none /run
mkdir -p /run/dbus /run/avahi-daemon
mount --bind "$room/services" /etc/avahi/services
dbus-daemon --system --nofork --nopidfile > "$room/dbus.log" 2>&1 &
wait_for test -S /run/dbus/system_bus_socket
avahi-daemon --no-rlimits > "$room/avahi.log" 2>&1 &
wait_for grep -q 'successfully established' "$room/avahi.log"

"$printd" serve --settings "$top/examples/printd.toml" --ipp "[::]:631" --lpd "[::]:515" --devices 127.0.0.1:8632 > "$room/ports" &
wait_for grep -q devices "$room/ports"
"$printd" attach --name window --to "file:$room/printed" &

echo "-- avahi-browse"
avahi-browse --resolve --terminate --parsable _ipp._tcp | grep '^='
avahi-browse --resolve --terminate --parsable _printer._tcp | grep '^='
echo "-- ippfind"
ippfind -T 5 | tee "$room/found"
echo "-- lpstat -e"
lpstat -e
uri=$(head -n 1 "$room/found")
echo "-- ipptool"
echo hello > "$room/hello.txt"
ipptool -t -f "$room/hello.txt" "$uri" print-job.test
echo "-- lp"
host=${uri#ipp://}
lp -h "${host%%/*}" -d "${uri##*/}" "$room/hello.txt"
wait_for test -s "$room/printed/2-window.txt"
cmp "$room/hello.txt" "$room/printed/1-window.txt"
cmp "$room/hello.txt" "$room/printed/2-window.txt"
echo "printed what was sent, twice"
