# Completion of bootfleet, which says itself what its words are, if Debian's python3-argcomplete is there.
if command -v register-python-argcomplete >/dev/null; then
    eval "$(register-python-argcomplete bootfleet)"
fi
