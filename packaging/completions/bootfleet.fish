# Completion of bootfleet, which says itself what its words are, if Debian's python3-argcomplete is there.
if type -q register-python-argcomplete
    register-python-argcomplete --shell fish bootfleet | source
end
