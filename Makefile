# What a user runs. `make test` is the whole gate: it ends in rt's own 'N passed, 0 failed'.
.PHONY: test compare exchange shown bench peer long install uninstall kit cargo

PREFIX = /usr/local
SEED = 1
CASES = 61500
FILES = 2000
SHOWN = 1000

test: kit cargo
	@tools/test

# The proved checker against the independent one, for longer runs: make compare SEED=7 CASES=200000
compare: kit cargo
	@tools/compare $(SEED) $(CASES)

# Neighbouring groups change places (request m), for longer runs: make exchange SEED=7 FILES=10000
exchange: kit cargo
	@tools/exchange $(SEED) $(FILES)

# What --show prints, for longer runs: make shown SEED=7 SHOWN=10000
shown: kit cargo
	@tools/shown $(SEED) $(SHOWN)

# Executed instructions a byte beside the C peer's, and the bounds they are held to: ends with 1 if one is broken. Not part of the tests.
bench: kit
	@tools/build sefcheck
	@bench/bench.sh

# The benchmark's C peer against the independent checker. Not part of the tests.
peer: cargo
	@tools/peer $(SEED) $(CASES)

# A file at the byte limit, and one past it.
long: kit
	@tools/long

# The command, the program, its tables and the manual page: make install PREFIX=~/.local
install:
	@tools/install "$(DESTDIR)$(PREFIX)"

uninstall:
	@tools/install --remove "$(DESTDIR)$(PREFIX)"

kit:
	@command -v rt > /dev/null || { echo "Golpinesh needs the Rattle kit: its command rt is not on the PATH" >&2; exit 2; }

cargo:
	@command -v cargo > /dev/null || { echo "the independent checker needs cargo: install Debian's package cargo" >&2; exit 2; }
