#!/usr/bin/env bash
# Has printers of others print by printd attach: CUPS's ippeveprinter, a queue of cupsd, and this server itself.
#   tools/clients/try_cups.sh [PRINTD]      the program to try, ./printd where none is given
# A PDF goes by lp to printd serve, by printd attach to such a printer, and has to come out of it byte for byte.
# It runs as root in namespaces of its own, which have no network but the loopback and no other processes. It
# needs Debian's cups, cups-client, cups-ipp-utils, avahi-daemon (without which ippeveprinter doesn't start) and
# dbus.
set -eu -o pipefail
top=$(cd "$(dirname "$0")/../.." && pwd)
printd=$(realpath "${1:-$top/printd}")
if [ -z "${IN_NAMESPACE:-}" ]; then
    exec env IN_NAMESPACE=yes unshare --net --mount --pid --fork --kill-child --mount-proc "$0" "$printd"
fi

wait_for() {
    local tries
    for tries in $(seq 150); do
        if "$@" > /dev/null 2>&1; then
            return 0
        fi
        sleep 0.2
    done
    echo "try_cups: in vain after $tries tries: $*" >&2
    tail -n 5 "$room"/*.log >&2
    exit 1
}

room=$(mktemp -d)
trap 'rm -rf "$room"' EXIT
chmod 755 "$room"
ip link set lo up multicast on
mount -t tmpfs none /run

# CUPS's printer, which gives each document to a command.
start_ippeveprinter() {
    mkdir -p /run/dbus /run/avahi-daemon "$room/kept" "$room/spool"
    dbus-daemon --system --nofork --nopidfile > "$room/dbus.log" 2>&1 &
    wait_for test -S /run/dbus/system_bus_socket
    avahi-daemon --no-rlimits > "$room/avahi.log" 2>&1 &
    wait_for grep -q 'startup complete' "$room/avahi.log"
    printf '#!/bin/sh\ncp "$1" %s/kept/whole && mv %s/kept/whole %s/kept/document\n' "$room" "$room" "$room" > "$room/keep"
    chmod 755 "$room/keep"
    ippeveprinter -c "$room/keep" -d "$room/spool" -f application/pdf,text/plain -n localhost -p 8501 eve > "$room/eve.log" 2>&1 &
    wait_for bash -c "exec 3<> /dev/tcp/localhost/8501"
}

# A raw queue of cupsd, whose device is a printer that speaks AppSocket.
start_cupsd() {
    python3 "$top/tools/clients/printer.py" 9101 "$room/raw" > "$room/raw.log" &
    mkdir -p "$room/cups/spool" "$room/cups/cache" "$room/cups/state"
    chown -R root:lp "$room/cups"
    chmod -R 775 "$room/cups"
    cat > "$room/cups/cupsd.conf" << END
Listen 127.0.0.1:8502
DefaultAuthType None
<Location />
  Order allow,deny
  Allow all
</Location>
<Policy default>
  <Limit All>
    Order deny,allow
  </Limit>
</Policy>
END
    cat > "$room/cups/cups-files.conf" << END
ServerRoot $room/cups
RequestRoot $room/cups/spool
CacheDir $room/cups/cache
StateDir $room/cups/state
ErrorLog $room/cups/error_log
AccessLog $room/cups/access_log
PageLog $room/cups/page_log
END
    cupsd -f -c "$room/cups/cupsd.conf" -s "$room/cups/cups-files.conf" > "$room/cupsd.log" 2>&1 &
    wait_for bash -c "exec 3<> /dev/tcp/127.0.0.1/8502"
    lpadmin -h 127.0.0.1:8502 -p raw -v socket://127.0.0.1:9101 -E 2> "$room/lpadmin.log"
}

# This server, whose device is a folder.
start_printd() {
    "$printd" serve --ipp 8503 --lpd 8504 --devices 8505 > "$room/behind" &
    wait_for grep -q devices "$room/behind"
    "$printd" attach --name window --server 127.0.0.1:8505 --to "file:$room/behind.d" &
}

# Has a document printed on a printer, which keeps it there.
try() {
    local title=$1 to=$2 kept=$3
    rm -f "$room/ports" "$room/log"
    "$printd" serve --ipp 8631 --lpd 8515 --devices 8632 > "$room/ports" &
    local server=$!
    wait_for grep -q devices "$room/ports"
    "$printd" attach --name window --to "$to" --log 2> "$room/log" &
    local adapter=$!
    # of the media that the settings have, the one that ippeveprinter has loaded
    lp -h localhost:8631 -d lab -o document-format=application/pdf -o media=na_letter_8.5x11in "$room/document.pdf" > "$room/lp"
    wait_for grep -qE ' (done|fail) 1' "$room/log"
    wait_for test -e "$kept"
    echo "-- $title"
    cut -d' ' -f2- "$room/log"
    cmp "$room/document.pdf" "$kept"
    echo "byte for byte"
    kill "$adapter" "$server"
    wait "$adapter" "$server" 2> /dev/null || true
}

(printf '%%PDF-1.4\n'; head -c 200000 /dev/urandom) > "$room/document.pdf"
start_ippeveprinter
start_cupsd
start_printd
try "ippeveprinter" ipp://localhost:8501/ipp/print "$room/kept/document"
try "a queue of cupsd" ipp://127.0.0.1:8502/printers/raw "$room/raw/1"
try "printd serve, by IPP" ipp://localhost:8503/printers/lab "$room/behind.d/1-window.pdf"
try "printd serve, by LPD" lpd://localhost:8504/lab "$room/behind.d/2-window.pdf"
echo "all printed what was sent"
