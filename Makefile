# all, or make alone: proves mqroute and mqroute-acl with what they stand on, side by side, builds them, and puts them and the
# tools into bin/.
# run: shows answers at once, with the programs of bin/ or without a proof. SCRIPT=mine.jsonl ACL=mine.acl: of one's own;
# LOG=mosquitto.log CURRENT=current.acl PROPOSED=proposed.acl: of a day's log under two lists.
# check: all that needs no proof, with the programs of bin/, side by side.
# test: the gate: rules of the sources, every proof from nothing, the must-fail edits, the tests, then all of check, and each
# growth of memory refused in turn.
# package: a Debian package and an archive of the same files, in dist/, of the programs of bin/.
# bench: measures the programs of bin/ (bench/README.md).
# install: puts the programs of bin/ and the tools beside real brokers below PREFIX, with man pages and completion, and
# compiles the tools' modules for PYTHON, where there is one (PYTHON= compiles none); uninstall takes all of it out again.
# The parts of check, side by side: what takes longest comes first. Each is a file of tests/, but for check-tests, the tests of
# that folder, and check-tools, those of the tools.
CHECKS = tools costs.py edits.sh acl.py readme.py package.sh linted.sh statements.py tests program.py rows.sh acl_rows.py memory.sh \
    unbuffered.py build.py links.py layers.py sources.py

.PHONY: all run check test package bench install uninstall mended programs $(CHECKS:%=check-%)

PREFIX ?= /usr/local
INSTALLED = $(DESTDIR)$(PREFIX)
PYTHON ?= python3

# The tools beside real brokers, each installed as mqroute-NAME, tools.py with all of them as subcommands, and beside them
# mqr, which has the programs too; they import what stands in tools/mqroute_tools.
TOOLS = log_to_script who_loses why preview plan replay compare_log check search tools
TOOL_NAMES = $(subst _,-,$(TOOLS:%=mqroute-%))
TOOL_MODULES = $(patsubst tools/%,%,$(wildcard tools/mqroute_tools/*.py tools/mqroute_tools/*/*.py))
# The brokers beside mosquitto on which scripts differ, and what searches found on each.
BROKERS = ejabberd rabbitmq found/mosquitto found/ejabberd found/rabbitmq
COMPLETIONS = $(INSTALLED)/share/bash-completion/completions

all:
	dev/build.py

run: mended
	@dev/first_answers.py --acl "$(ACL)" --log "$(LOG)" --current "$(CURRENT)" --proposed "$(PROPOSED)" \
	    $(if $(SCRIPT),"$(SCRIPT)")

check: programs
	$(MAKE) --no-print-directory --output-sync=target --jobs=$$(nproc) $(CHECKS:%=check-%)

check-tests:
	python3 -m unittest discover -s tests

check-tools:
	python3 -m unittest discover -s tools/tests

$(filter-out check-tests check-tools,$(CHECKS:%=check-%)): check-%:
	tests/$*

test: mended
	tests/layers.py
	tests/sources.py
	rt ci
	dev/build.py --of-gate
	tests/refused.sh
	$(MAKE) --no-print-directory check

package: programs
	dev/package.sh

bench: programs
	bench/run.sh
	bench/acl.py bin/mqroute-acl
	bench/live.py bin/mqroute
	bench/replay.py bin/mqroute

# The toolchain stops at a link: an older `make run` left one in a crate's out/, an older `make` some in bin/.
mended:
	@find crates -mindepth 3 -maxdepth 3 -path '*/out/*' -type l -delete
	@[ ! -d bin ] || find bin -maxdepth 1 -type l -delete

# What is built, in bin/.
programs:
	@for built in bin/mqroute bin/mqroute-acl; do [ -x $$built ] || { echo "there is no $$built: run 'make' first"; exit 1; }; done

install: programs
	install -D -m 755 bin/mqroute $(INSTALLED)/bin/mqroute
	install -m 755 bin/mqroute-acl $(INSTALLED)/bin/mqroute-acl
	install -d $(INSTALLED)/share/man/man1
	install -m 644 docs/mqr.1 docs/mqroute.1 docs/mqroute-acl.1 $(TOOL_NAMES:%=docs/%.1) $(INSTALLED)/share/man/man1
	install -D -m 644 docs/mqroute.7 $(INSTALLED)/share/man/man7/mqroute.7
	install -D -m 644 docs/mqroute.bash-completion $(COMPLETIONS)/mqroute
	install -m 644 docs/mqr.bash-completion $(COMPLETIONS)/mqr
	install -m 644 docs/mqroute-acl.bash-completion $(COMPLETIONS)/mqroute-acl
	install -d $(BROKERS:%=$(INSTALLED)/share/mqroute/differences/%) $(INSTALLED)/share/mqroute/schemas
	for module in $(TOOL_MODULES); do \
	    install -D -m 644 tools/$$module $(INSTALLED)/lib/mqroute/$$module || exit 1; \
	done
	{ PYTHONPATH=tools python3 -B -m mqroute_tools.common.version 2> /dev/null || echo unknown; } > $(INSTALLED)/lib/mqroute/mqroute_tools/VERSION
	PYTHONPATH=tools python3 -B -m mqroute_tools.common.built $(INSTALLED)/bin/mqroute $(INSTALLED)/bin/mqroute-acl \
	    > $(INSTALLED)/lib/mqroute/mqroute_tools/PROGRAMS 2> /dev/null || true
	chmod 644 $(INSTALLED)/lib/mqroute/mqroute_tools/VERSION $(INSTALLED)/lib/mqroute/mqroute_tools/PROGRAMS
	install -m 644 tools/mqroute.py tools/mqroute_strategies.py $(INSTALLED)/lib/mqroute
	install -m 755 tools/mqr.py $(TOOLS:%=tools/%.py) $(INSTALLED)/lib/mqroute
	ln -sf ../lib/mqroute/mqr.py $(INSTALLED)/bin/mqr
	install -m 644 brokers/differences/*.* $(INSTALLED)/share/mqroute/differences
	for broker in $(BROKERS); do \
	    install -m 644 brokers/differences/$$broker/* $(INSTALLED)/share/mqroute/differences/$$broker || exit 1; \
	done
	for case in $(wildcard conformance/*/*); do \
	    install -D -m 644 $$case $(INSTALLED)/share/mqroute/$$case || exit 1; \
	done
	install -m 644 schemas/*.json $(INSTALLED)/share/mqroute/schemas
	for tool in $(TOOLS); do \
	    name=mqroute-$$(echo $$tool | tr _ -); \
	    ln -sf ../lib/mqroute/$$tool.py $(INSTALLED)/bin/$$name; \
	    install -m 644 docs/mqroute-tools.bash-completion $(COMPLETIONS)/$$name; \
	done
	if command -v "$(PYTHON)" > /dev/null; then \
	    umask 022 && $(PYTHON) -m compileall -q -s "$(DESTDIR)" $(INSTALLED)/lib/mqroute/mqroute_tools $(INSTALLED)/lib/mqroute/mqroute.py; \
	fi

uninstall:
	for name in mqr mqroute mqroute-acl $(TOOL_NAMES); do \
	    rm -f $(INSTALLED)/bin/$$name $(INSTALLED)/share/man/man1/$$name.1 $(COMPLETIONS)/$$name; \
	done
	rm -f $(INSTALLED)/share/man/man7/mqroute.7
	rm -rf $(INSTALLED)/lib/mqroute $(INSTALLED)/share/mqroute
