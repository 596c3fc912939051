#!/bin/bash
# Puts bootvars into the initramfs, so that a rescue shell there can mend boot entries, if a file of /etc/dracut.conf.d
# has the line add_dracutmodules+=" bootkeep ".

# 255: only if it is asked for by its name.
check() {
    require_binaries @prefix@/bin/bootvars || return 1
    return 255
}

depends() {
    return 0
}

installkernel() {
    hostonly='' instmods efivarfs
}

install() {
    inst_binary @prefix@/bin/bootvars /usr/bin/bootvars
}
