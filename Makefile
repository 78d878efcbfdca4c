# Builds, tests and installs xif. `rt` is the command of the Rattle kit, which proves the program and builds it.
PREFIX = /usr/local
DESTDIR =

program = crates/xif/out/xif
bin = $(DESTDIR)$(PREFIX)/bin
man = $(DESTDIR)$(PREFIX)/share/man/man1
completions = $(DESTDIR)$(PREFIX)/share/bash-completion/completions

.PHONY: all test install uninstall

# Proves what the program uses, builds it and runs it once.
all:
	cd crates/xif && rt run -- raw ../../examples/first/first.bin 10

# Proves everything and passes all tests.
test:
	rt ci && tests/run

# Installs what was built, and builds nothing.
install:
	@test -x $(program) || { echo "$(program) is not built: run 'make' first" >&2; exit 1; }
	install -d "$(bin)" "$(man)" "$(completions)"
	install -m 755 $(program) "$(bin)/xif"
	install -m 644 man/xif.1 "$(man)/xif.1"
	install -m 644 completions/xif.bash "$(completions)/xif"

uninstall:
	rm -f "$(bin)/xif" "$(man)/xif.1" "$(completions)/xif"
