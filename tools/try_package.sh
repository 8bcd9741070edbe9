#!/usr/bin/env bash
# Tries a package in a Debian of its own: boots it, installs the package, prints, keeps jobs over restarts and
# upgrades, removes and purges it.
#   tools/try_package.sh PACKAGE [FOLDER]      FOLDER keeps the Debian for the next time; /var/tmp/printd-debian
# It runs as root; the Debian has namespaces of its own, with no network but the loopback. It needs Debian's
# debootstrap and cups-client, and the first time a mirror of Debian.
set -eu -o pipefail
[ $# -ge 1 ] || { sed -n 2,6p "$0" >&2; exit 2; }
package=$(realpath "$1")
debian=$(realpath -m "${2:-/var/tmp/printd-debian}")

# Boots systemd in the Debian, as the first process of its namespaces.
boot() {
    mount --bind "$debian" "$debian"
    mount -t proc proc "$debian/proc"
    mount -t sysfs sysfs "$debian/sys"
    mount -t cgroup2 cgroup2 "$debian/sys/fs/cgroup"
    mount -t tmpfs tmpfs "$debian/run"
    mount -t tmpfs tmpfs "$debian/dev"
    mkdir "$debian/dev/shm" "$debian/dev/pts"
    local device
    for device in null zero full random urandom tty; do
        touch "$debian/dev/$device"
        mount --bind "/dev/$device" "$debian/dev/$device"
    done
    mount -t devpts devpts "$debian/dev/pts" -o newinstance,ptmxmode=0666
    ln -s pts/ptmx "$debian/dev/ptmx"
    ip link set lo up
    exec env -i container=other PATH=/usr/sbin:/usr/bin:/sbin:/bin chroot "$debian" /lib/systemd/systemd
}
if [ -n "${BOOT:-}" ]; then
    boot
fi

if [ ! -x "$debian/lib/systemd/systemd" ]; then
    echo "-- a Debian in $debian"
    debootstrap --variant=minbase --include=systemd,dbus bookworm "$debian" > /dev/null
fi
cp "$package" "$debian/opt/printd.deb"
rm -rf "$debian/var/log/journal"
BOOT=yes unshare --net --mount --pid --cgroup --ipc --uts --fork --kill-child "$0" "$@" > /dev/null 2>&1 &
outside=$!
disown "$outside"
sent=$(mktemp -d)
trap 'kill -KILL "$outside" 2> /dev/null; rm -rf "$sent"' EXIT

fail() {
    echo "try_package: $1" >&2
    exit 1
}

# Waits until a command says what is wanted.
until_says() {
    local tries wanted=$1
    shift
    for tries in $(seq 100); do
        if [ "$("$@" 2> /dev/null)" = "$wanted" ]; then
            return 0
        fi
        sleep 0.2
    done
    fail "after $tries tries this doesn't say '$wanted': $*"
}

first_process() {
    pgrep -P "$outside" | head -n 1
}

inside() {
    nsenter -t "$(first_process)" -m -n -p -i -u -C -r -w env -i PATH=/usr/sbin:/usr/bin:/sbin:/bin LC_ALL=C "$@"
}

# Runs a client of the machine outside over the network inside.
client() {
    nsenter -t "$(first_process)" -n timeout 10 "$@"
}

# Runs apt-get, whose words are shown where it fails.
install_or_remove() {
    if ! inside apt-get -y -qq -o Dpkg::Use-Pty=0 "$@" > "$sent/apt.log" 2>&1; then
        cat "$sent/apt.log" >&2
        exit 1
    fi
}

# What the journal has of a unit.
journal() {
    inside journalctl --no-pager -o cat -u "$@"
}

main_process() {
    inside systemctl show --value -p MainPID "$1"
}

# Shows the exposure of a unit by systemd's count, which may be 2.5 at most.
exposure() {
    inside systemd-analyze security --no-pager --threshold=25 "$1" > "$sent/exposure" ||
        fail "$1 is more exposed than 2.5"
    tail -n 1 "$sent/exposure"
}

# What LPD says of the printer and its jobs.
queue() {
    inside bash -c 'exec 3<> /dev/tcp/127.0.0.1/515; printf "\003lab\n" >&3; cat <&3'
}

# Sends the text as a job of alice to an address.
send() {
    echo "$2" > "$sent/$2"
    client lp -h "$1" -U alice -d lab "$sent/$2"
}

until_printed() {
    until_says "$2" inside cat "/var/lib/printd-attach/printed/$1-window.txt"
}

try_install() {
    install_or_remove install /opt/printd.deb
    until_says active inside systemctl is-active printd
    inside systemctl is-enabled printd
    inside dpkg --verify printd
    inside printd --version
    exposure printd
}

try_adapter() {
    if inside systemctl start printd-attach@window 2> /dev/null; then
        fail "an adapter starts without a file"
    fi
    journal printd-attach@window -n 1 --grep /etc/printd/attach/window
    inside cp /etc/printd/attach/window.example /etc/printd/attach/window
    inside systemctl enable --quiet --now printd-attach@window
    until_says active inside systemctl is-active printd-attach@window
    exposure printd-attach@window
    send 127.0.0.1:631 first
    until_printed 1 first
    send '[::1]:631' second
    until_printed 2 second
    journal printd
}

# What everybody may read of the page and the metrics.
page_has() {
    inside setpriv --reuid=65534 --regid=65534 --clear-groups grep -c "$1" "/run/printd-page/$2"
}

try_page() {
    until_says disabled inside systemctl is-enabled printd-page
    inside systemctl enable --quiet --now printd-page
    until_says active inside systemctl is-active printd-page
    exposure printd-page
    until_says 1 page_has '<h1>lab</h1>' queue.html
    until_says 1 page_has '^printd_jobs_finished_total{printer="lab",state="completed"} 2$' printd.prom
    inside grep '^printd_device_state.*1$' /run/printd-page/printd.prom
}

try_restart() {
    client cupsdisable -U root -h 127.0.0.1:631 lab
    send 127.0.0.1:631 third
    until_says $'lab stopped\n3 pending alice 6 third' queue
    inside systemctl restart printd
    until_says $'lab stopped\n3 pending alice 6 third' queue
    until_says 1 page_has '^printd_jobs{printer="lab",state="paused"} 1$' printd.prom
    queue
}

try_faulty_settings() {
    local server tries
    server=$(main_process printd)
    inside sed -i 's/^uri_base/base/' /etc/printd.toml
    if inside systemctl reload printd 2> /dev/null; then
        fail "it reloads settings that have a fault"
    fi
    journal printd -n 1 --grep refused
    [ "$(main_process printd)" = "$server" ] || fail "a reload of settings with a fault ended the server"
    install_or_remove install --reinstall /opt/printd.deb
    grep 'the old server goes on' "$sent/apt.log"
    [ "$(main_process printd)" = "$server" ] || fail "an upgrade over settings with a fault ended the server"
    for tries in 1 2 3 4 5 6 7 8; do
        if inside systemctl restart printd 2> /dev/null; then
            fail "it starts with settings that have a fault"
        fi
    done
    echo "refused $tries times; corrected:"
    inside sed -i 's/^base/uri_base/' /etc/printd.toml
    inside systemctl restart printd
    until_says $'lab stopped\n3 pending alice 6 third' queue
    queue
}

try_upgrade() {
    local server adapter page
    server=$(main_process printd)
    adapter=$(main_process printd-attach@window)
    page=$(main_process printd-page)
    install_or_remove install --reinstall /opt/printd.deb
    until_says $'lab stopped\n3 pending alice 6 third' queue
    queue
    [ "$(main_process printd)" != "$server" ] || fail "an upgrade leaves the old server"
    [ "$(main_process printd-attach@window)" != "$adapter" ] || fail "an upgrade leaves the old adapter"
    [ "$(main_process printd-page)" != "$page" ] || fail "an upgrade leaves the old page"
}

try_other_settings() {
    inside sh -c 'echo "# edited" >> /etc/printd.toml'
    inside systemctl reload printd
    until_says $'lab stopped\n4 pending alice 6 third' queue
    journal printd -n 1 --grep 'job 3 of "alice" is now 4'
    queue
    client cupsenable -U root -h 127.0.0.1:631 lab
    until_printed 4 third
}

try_disabled() {
    inside systemctl disable --quiet --now printd
    install_or_remove install --reinstall /opt/printd.deb
    until_says "# edited" inside tail -n 1 /etc/printd.toml
    until_says disabled inside systemctl is-enabled printd
    inside systemctl enable --quiet --now printd
}

try_removal() {
    local left
    install_or_remove remove printd
    until_says inactive inside systemctl is-active printd
    until_says inactive inside systemctl is-active printd-attach@window
    until_says inactive inside systemctl is-active printd-page
    inside test -e /etc/printd.toml
    inside test -e /var/lib/printd-attach/printed/4-window.txt
    install_or_remove purge printd
    left=$(inside find /etc /lib /usr /var/lib -xdev -name '*printd*')
    [ -z "$left" ] || fail "purge leaves $left"
}

until_says running inside systemctl is-system-running
echo "-- apt install"
try_install
echo "-- an adapter without and with its file; lp, to the addresses of IPv4 and IPv6"
try_adapter
echo "-- the page of the queue and its metrics"
try_page
echo "-- a restart, with a job that waits at a paused printer"
try_restart
echo "-- settings with a fault: reload, upgrade, restart"
try_faulty_settings
echo "-- an upgrade"
try_upgrade
echo "-- settings that were edited"
try_other_settings
echo "-- an upgrade with a unit that was disabled"
try_disabled
echo "-- apt remove, apt purge"
try_removal
echo "all as expected"
