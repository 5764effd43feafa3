#!/bin/bash
# Installs what the scripts need beyond the toolchain: qemu-img and qemu-io, of Debian's package qemu-utils, strace, a C compiler, and the clients of a block server: nbdinfo and nbdcopy,
# libnbd for the system's Python, and socat.

has_all() {
    command -v qemu-img >/dev/null && command -v qemu-io >/dev/null && command -v strace >/dev/null && command -v cc >/dev/null &&
        command -v nbdinfo >/dev/null && command -v nbdcopy >/dev/null && command -v socat >/dev/null && /usr/bin/python3 -c "import nbd" 2>/dev/null
}

install_all() {
    $sudo apt-get update -q >&2 &&
        DEBIAN_FRONTEND=noninteractive $sudo apt-get install -y -q --no-install-recommends qemu-utils strace gcc libc6-dev libnbd-bin python3-libnbd socat >&2
}

has_all && exit 0
sudo=
if [ "$(id -u)" != 0 ]; then
    sudo="sudo -n"
fi
for pause in 0 5 20; do
    sleep "$pause"
    install_all && has_all && exit 0
done
echo "a program that the scripts need is missing, and apt-get couldn't install the packages qemu-utils, strace, gcc, libc6-dev, libnbd-bin, python3-libnbd and socat: install them and try again" >&2
exit 1
