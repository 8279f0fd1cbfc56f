# try: builds nothing that stays and proves nothing; runs the worked scripts on the program, in a minute.
# build: stamps the program with the sum of its sources, proves the crates that it uses, as many side by side as there are
# processors, and builds it.
# test: the gate.
# check: runs the worked scripts and the scripts of tests/ on PROGRAM, which needs neither the kit nor a compiler.
# install: copies PROGRAM to PREFIX/bin/dtools, with svscan-run, svscan-stop, dtools-service and a wrapper or script for each command of
# daemontools in PREFIX/lib/dtools/bin, and with NAMES=1 those in PREFIX/bin too; the manual, the folder SERVICES with a unit of
# systemd over it, which is not enabled, and the completion of bash; all of it below DESTDIR. The scripts run tools of the
# system by the paths that they have here, or all in the folder TOOLS. uninstall: takes that away again.
# package, tarball: both in the folder `packages`, from PROGRAM. release: makes release/ anew.
SHELL = bash
.SHELLFLAGS = -o pipefail -c
PREFIX ?= /usr/local
DESTDIR ?=
NAMES ?=
JOBS ?=
PROGRAM ?= crates/dtools/out/dtools
COMMANDS = svscan supervise svc svstat svok svwait svrestart tai64n tai64nlocal readproctitle
# Scripts with a text of their own: multilog and envdir over the program, the others over tools of the system.
SCRIPTS = multilog envdir setuidgid envuidgid softlimit setlock pgrphack fghack
# Scripts that no other suite has a name of.
OWN_SCRIPTS = svscan-run svscan-stop dtools-service
TOOLS ?=
BIN = $(DESTDIR)$(PREFIX)/bin
WRAPPERS = $(DESTDIR)$(PREFIX)/lib/dtools/bin
COMPLETIONS = $(DESTDIR)$(PREFIX)/share/bash-completion/completions
MANUAL = $(DESTDIR)$(PREFIX)/share/man
UNITS ?= $(PREFIX)/lib/systemd/system
SERVICES ?= /etc/dtools/service
PAGES = $(notdir $(wildcard man/*.[1-8])) dtools-formats.5
# The folders of the wrappers.
PLACES = $(WRAPPERS) $(if $(filter 1,$(NAMES)),$(BIN))
# The tools of the system that scripts run, each as an edit of its path.
USED = env flock getent nice prlimit readlink setpriv setsid sleep
PATHS = $(foreach tool,$(USED),s|/usr/bin/$(tool) |$(or $(if $(TOOLS),$(TOOLS)/$(tool)),$(shell PATH=/usr/bin:/bin:/usr/sbin:/sbin:$$PATH command -v $(tool)),/usr/bin/$(tool)) |g;)
# A script as it is installed: the paths of the program, of the tools and of the folder of services are absolute.
SCRIPT = sed '$(PATHS) s|"$${DTOOLS:-dtools}"|$(PREFIX)/bin/dtools|g; s|$${DTOOLS:-dtools}|$(PREFIX)/bin/dtools|g; s|/etc/dtools/service|$(SERVICES)|g' scripts/$(1)
# Whose completion is that of dtools.
COMPLETED = svc svstat svok svwait svrestart setuidgid envuidgid softlimit setlock pgrphack fghack

.PHONY: try build test check install uninstall package tarball release

try:
	cd crates/dtools && rt try --cases ../../tests/cases

build:
	packaging/stamp
	packaging/prove $(JOBS)

test:
	.ci/run

check:
	tests/all.sh $(PROGRAM)

package tarball:
	packaging/build $(PROGRAM) packages

release:
	packaging/release $(PROGRAM)

install:
	@[ -x $(PROGRAM) ] || { echo "There is no $(PROGRAM) yet: make build makes it." >&2; exit 1; }
	@[ "$(NAMES)" != 1 ] || ! dpkg -s daemontools >/dev/null 2>&1 || \
	  echo "Warning: daemontools is installed, and $(PREFIX)/bin/svscan may be found before its own." >&2
	@[ -n "$(DESTDIR)" ] || $(PROGRAM) version >/dev/null 2>&1 || \
	  { echo "$(PROGRAM) does not run here: it needs Linux on x86_64, and glibc 2.34 or later." >&2; exit 1; }
	install -d $(BIN) $(PLACES) $(COMPLETIONS) $(DESTDIR)$(UNITS) $(DESTDIR)$(SERVICES) $(addprefix $(MANUAL)/man,1 5 7 8)
	install -m 755 $(PROGRAM) $(BIN)/dtools
	for place in $(PLACES); do for command in $(COMMANDS); do \
	  case $$command in svwait) word=wait ;; svrestart) word=restart ;; *) word=$$command ;; esac; \
	  printf '#!/bin/sh\nexec $(PREFIX)/bin/dtools %s "$$@"\n' $$word >$$place/$$command && chmod 755 $$place/$$command; \
	done; done
	for place in $(PLACES); do for script in $(SCRIPTS); do \
	  $(call SCRIPT,$$script) >$$place/$$script && chmod 755 $$place/$$script; \
	done; done
	for script in $(OWN_SCRIPTS); do $(call SCRIPT,$$script) >$(WRAPPERS)/$$script && chmod 755 $(WRAPPERS)/$$script; done
	sed -i 's|^dtools=.*|&\nexport PATH="$(PREFIX)/lib/dtools/bin:$$PATH"|' $(WRAPPERS)/svscan-run
	sed 's|/usr/local/lib|$(PREFIX)/lib|g; s|/usr/local/bin/dtools|$(PREFIX)/bin/dtools|; s|/etc/dtools/service|$(SERVICES)|' \
	  contrib/dtools.service >$(DESTDIR)$(UNITS)/dtools.service
	chmod 644 $(DESTDIR)$(UNITS)/dtools.service
	for page in $(PAGES); do \
	  from=$$(ls man/$$page 2>/dev/null); awk -v page="$$from" -f man/formats.awk docs/FORMATS.md | \
	    sed 's|/usr/lib/dtools|$(PREFIX)/lib/dtools|; s|/etc/dtools/service|$(SERVICES)|' | \
	    gzip -9n >$(MANUAL)/man$${page##*.}/$$page.gz; \
	done
	chmod 644 $(MANUAL)/man*/*
	sed 's|/etc/dtools/service|$(SERVICES)|' scripts/dtools.bash >$(COMPLETIONS)/dtools
	chmod 644 $(COMPLETIONS)/dtools
	for command in $(COMPLETED); do ln -sf dtools $(COMPLETIONS)/$$command; done

# Of PREFIX/bin it takes away only wrappers of this program.
uninstall:
	for command in $(COMMANDS); do \
	  rm -f $(WRAPPERS)/$$command; \
	  ! grep -qs '^exec $(PREFIX)/bin/dtools ' $(BIN)/$$command || rm $(BIN)/$$command; \
	done
	for script in $(SCRIPTS); do \
	  rm -f $(WRAPPERS)/$$script; \
	  ! $(call SCRIPT,$$script) | cmp -s - $(BIN)/$$script || rm $(BIN)/$$script; \
	done
	rm -f $(BIN)/dtools $(addprefix $(WRAPPERS)/,$(OWN_SCRIPTS)) $(DESTDIR)$(UNITS)/dtools.service
	for page in $(PAGES); do rm -f $(MANUAL)/man$${page##*.}/$$page.gz; done
	for command in dtools $(COMPLETED); do rm -f $(COMPLETIONS)/$$command; done
	for folder in $(WRAPPERS) $(DESTDIR)$(UNITS) $(DESTDIR)$(SERVICES) $(COMPLETIONS) $(addprefix $(MANUAL)/man,1 5 7 8); do \
	  ! [ -d $$folder ] || rmdir -p --ignore-fail-on-non-empty $$folder; \
	done
