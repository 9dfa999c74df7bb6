# make run            serves the two tenants of examples/host.json from a checked build, made in a minute or two without
#                     proofs; CONFIG=mine.json takes another configuration
# make build          proves and builds the server and the replay program
# make replay         answers examples/first.script by the proved replay program
# make test           the gate: every proof, every test, the rows and the fast checks
# make wrong-bodies   tries the wrong bodies that the gate leaves out, in a scratch clone
# make install        the proved server, a unit for systemd, and a configuration if there is none; proves nothing
# make uninstall      takes the server and the unit away, and leaves the configuration
# make package        a Debian package of the proved server, below out/package; proves nothing
.PHONY: run build replay test wrong-bodies install uninstall package

CONFIG = examples/host.json
# Where it is installed, below DESTDIR, and which programs are proved.
PREFIX = /usr/local
SYSCONFDIR = /etc
HOST = crates/etcd_host/out/etcd_host
REPLAY = crates/etcd_replay/out/etcd_replay
VERSION = $(shell cat VERSION)
installed_host = $(DESTDIR)$(PREFIX)/bin/etcd_host
installed_unit = $(DESTDIR)$(PREFIX)/lib/systemd/system/etcd_host.service
installed_config = $(DESTDIR)$(SYSCONFDIR)/bikazery/host.json
# Stops where a program is wanted that is not there yet.
wanted = [ -x "$(1)" ] || { echo "no program $(1): make build proves and builds it" >&2; exit 1; }

run:
	@exec tools/serve-checked "$(CONFIG)"

build:
	@tools/prove etcd_host etcd_replay

replay:
	@$(call wanted,$(REPLAY))
	@"$(REPLAY)" < examples/first.script

test:
	@tools/gate

wrong-bodies:
	@tools/wrong-bodies

install:
	@$(call wanted,$(HOST))
	install -D -m 755 "$(HOST)" "$(installed_host)"
	install -D -m 644 /dev/null "$(installed_unit)"
	sed -e 's|@PREFIX@|$(PREFIX)|' -e 's|@SYSCONFDIR@|$(SYSCONFDIR)|' -e 's|@VERSION@|$(VERSION)|' packaging/etcd_host.service.in > "$(installed_unit)"
	[ -e "$(installed_config)" ] || install -D -m 644 examples/host.json "$(installed_config)"

uninstall:
	rm -f "$(installed_host)" "$(installed_unit)"

package:
	@$(call wanted,$(HOST))
	@tools/make-package "$(HOST)"
