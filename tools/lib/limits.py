"""The limits of the profile, as the tables of docs/profile.md and docs/formats.md have them."""

# The longest side of a stream, of an image, of a mode and of a destination, and how far from 0 a place may lie.
MOST_SIDE = 1024
MOST_PLACE = 16_384
# What there may be of each kind at once: streams, their bytes and the images that wait in a queue, devices, contexts, elements of a
# context and those of them that are inserted, and sources and masks together.
MOST_STREAMS = 64
MOST_BYTES = 128 * MOST_SIDE**2
MOST_DEPTH = 8
MOST_DEVICES = 8
MOST_CONTEXTS = 16
MOST_ELEMENTS = 64
MOST_INSERTED = 32
MOST_SOURCES = 256
# Ports, the modes of each, pipelines, and the clients, which are counted from 0.
MOST_PORTS = 4
MOST_MODES = 4
MOST_PIPES = 8
MOST_CLIENT = 7
# The entries of the queue of a log, which are as many where no number is given.
MOST_ENTRIES = 64
# The greatest number, the lines of a script, and the bytes of a script and of a film that is checked.
MOST_NUMBER = 2**32 - 1
MOST_LINES = 16_384
MOST_SCRIPT = 1_048_576
MOST_FILM = 67_108_864
