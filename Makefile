# station_check: proved, built, tested and installed. Needs the toolchain's `rt`, make and Python 3.10 or later; the gate
# needs bash and git too.

RT ?= rt
PREFIX ?= /usr/local
PYTHON ?= python3
PROGRAM := build/station_check
PROGRAM_CRATE := station_program
PAGE := build/station_check.html
LIBRARY := build/libstation_check.so.1
EXAMPLE := examples/station_s1.gsi
SHEET := examples/station_s1.csv
TABLE := examples/station_s1_directions.csv

# All that the program and the page are made of. Tests and wrong bodies are no part of it.
SOURCES := $(shell find crates \( -name out -o -path 'crates/test*' -o -name must-fail \) -prune \
  -o -type f \( -name '*.rt' -o -name '*.antt' \) -print)

# The manual page and the completions, below packaging/.
SHARED := $(sort $(shell cd packaging && find share -type f))

# The documents and the examples, as they lie in the repository, so that their links hold; those to
# sources, which are not installed, become plain text.
DOCUMENTS := README.md CHANGELOG.md capi/example.c $(sort $(wildcard docs/*.md docs/*.png docs/*.csv)) \
  $(sort $(wildcard examples/*.md examples/*.gsi examples/*.csv examples/*.txt examples/*.svg examples/*.py examples/*.html))
DOCUMENT_FOLDER := share/doc/station_check
UNLINKED = sed -E 's/\[([^][]*)\]\((\.\.\/)*((bench|conformance|crates|page|tests)\/[^)]*|HANDLES|crates\.txt)\)/\1/g'

# The scripts of examples/ that an office uses, on the path under names of their own; one fills in a page.
TOOLS := adjust check_folder prepare residuals
TOOL_FILES := $(sort $(notdir $(wildcard examples/*.py examples/*.html)))
TOOL_FOLDER := share/station_check

# What is installed of the library, where it was made: it, the name by which a linker finds it, its
# header, what pkg-config says of both, and the module for Python.
LIBRARY_LINK := lib/libstation_check.so
LIBRARY_FILES := lib/$(notdir $(LIBRARY)) $(LIBRARY_LINK) include/station_check.h \
  lib/pkgconfig/station_check.pc $(TOOL_FOLDER)/station_check.py

# Where `make dist` puts what it makes.
DIST ?= build/dist

# The crates of the repository, lowest first, as crates.txt lists them, without the tests; and those
# that each of them stands on, directly and however far.
EVERY := $(filter-out test%,$(shell sed -n 's/^\([a-z_]*\)[ :].*/\1/p' crates.txt))
$(foreach crate,$(EVERY),$(eval below_$(crate) := $(filter $(EVERY), \
  $(shell sed -n 's/^$(crate)\( staticlib\)*:\(.*\)/\2/p' crates.txt))))
$(foreach crate,$(EVERY),$(eval under_$(crate) := \
  $(sort $(below_$(crate)) $(foreach low,$(below_$(crate)),$(under_$(low))))))

# The crates whose wrong bodies are tried: those that are named, as CRATES="gsi_word ..", or all.
NAMED := $(and $(findstring command line,$(origin CRATES)),$(CRATES))

# The crates that the program is made of, lowest first, and those that the page stands on; which of them
# are asked for, and all of them.
override CRATES := $(filter $(under_$(PROGRAM_CRATE)) $(PROGRAM_CRATE),$(EVERY))
PAGE_CRATES := $(filter $(under_station_page),$(EVERY))
ASKED := $(if $(filter page,$(IS_WITHIN)),$(PAGE_CRATES),$(CRATES))
EITHER := $(filter $(CRATES) $(PAGE_CRATES),$(EVERY))

# The program's in the order in which they are begun: those first with which the longest chains begin.
ORDER := $(shell $(PYTHON) tools/order.py)

# A file for each crate that is proved as its sources are now: what the proof said, with the time at
# which it began. And where the libraries and the program are made.
PROVED := build/proved
MADE := build/made

# Says something, and at which second.
START := $(shell date +%s)
say = printf "%4d s  %s\n" $$(($$(date +%s) - $(START))) "$1" >&2
comma := ,

# Crates are proved side by side, as many as there are processors, and as memory holds: each takes
# up to 4 GiB. JOBS=1 proves one after the other.
KIBIBYTES := $(shell sed -n 's/^MemAvailable: *\([0-9]*\).*/\1/p' /proc/meminfo)
JOBS ?= $(shell most=$$(( $(or $(KIBIBYTES),0) / 4194304 )); here=$$(nproc); \
  [ $$most -ge $$here ] && echo $$here || echo $$(( most > 1 ? most : 1 )))
ifndef IS_WITHIN
MAKEFLAGS += --jobs=$(JOBS)
endif

# What each recipe that proves begins with.
NEED_TOOLCHAIN = command -v $(RT) > /dev/null || { \
  echo "make: the Rattle toolchain is missing: no command '$(RT)' is found; put it on PATH, or name it as RT=/path/to/rt" >&2; \
  exit 1; }

.PHONY: run try page library test sweep wrong-bodies check bench install uninstall dist clean

# Builds the proved program and runs it on an example.
run: $(PROGRAM)
	@echo '$$ station_check check $(EXAMPLE) $(SHEET)'
	@$(PROGRAM) check $(EXAMPLE) $(SHEET)
	@echo '$$ station_check compare $(EXAMPLE) S1 $(TABLE)'
	@$(PROGRAM) compare $(EXAMPLE) S1 $(TABLE)
	@echo '$$ station_check list $(EXAMPLE)'
	@$(PROGRAM) list $(EXAMPLE)
	@echo '$$ station_check means $(EXAMPLE) S1'
	@$(PROGRAM) means $(EXAMPLE) S1
	@echo '$$ station_check directions $(EXAMPLE) S1'
	@$(PROGRAM) directions $(EXAMPLE) S1
	@echo '$$ station_check words $(EXAMPLE)'
	@$(PROGRAM) words $(EXAMPLE)

# Shows the program's answers on an example within minutes, with no proof.
try:
	@$(NEED_TOOLCHAIN)
	@RT='$(RT)' $(PYTHON) tools/try_program.py

# Makes the page that checks in a browser, one file, of the proved calls. The crates that it stands on
# are proved only where it is older than its sources: so the gate, which makes it of what it has proved
# itself, leaves nothing to prove again. The calls themselves are proved where they are compiled.
page: $(PAGE)

$(PAGE): $(SOURCES) $(wildcard page/*.py page/*.js page/*.css page/refusals/*.json page/texts/*.json) page/heap.c \
  page/station_check.html $(wildcard examples/job.gsi examples/station_p7_directions.csv)
	@$(NEED_TOOLCHAIN)
	@$(MAKE) --no-print-directory --silent IS_WITHIN=page $(PAGE_CRATES:%=$(PROVED)/%)
	@$(call say,proving the calls of the page$(comma) which takes minutes)
	@RT='$(RT)' $(PYTHON) page/build.py --jobs $$($(PYTHON) tools/order.py station_page $(JOBS)) $@

# Makes the library for C and Python, of the same build of the proved calls as the page. Needs a C compiler.
library: $(LIBRARY)

$(LIBRARY): $(PAGE) capi/link.sh capi/names.ld capi/stated.c capi/station_check.h
	@$(NEED_TOOLCHAIN)
	@RT='$(RT)' CC='$(CC)' sh capi/link.sh build/page/lib.a $@

# The gate: every proof from nothing, the wrong bodies, the tests, the stored run; then the tests of the command line.
test:
	@$(NEED_TOOLCHAIN)
	@RT='$(RT)' $(PYTHON) tests/gate.py

# The long sweeps of the tests of the command line, of which the gate runs samples: minutes; where the library was made, ten
# million cases of it in one process too. STATION_CHECK names another program.
sweep:
	@SWEEP=1 $(PYTHON) tests/command_line.py

# Tries the wrong bodies that the gate tries and all others, of every crate or of CRATES="gsi_word ..":
# each must be refused. What they are tried over is proved before, where it has changed.
wrong-bodies:
	@$(NEED_TOOLCHAIN)
	@$(MAKE) --no-print-directory --silent IS_WITHIN=wrong-bodies $(addprefix $(PROVED)/,$(filter \
	  $(EITHER),$(foreach crate,$(or $(NAMED),$(EVERY)),$(crate) $(under_$(crate)))))
	@RT='$(RT)' $(PYTHON) tools/wrong_bodies.py $(NAMED) --jobs $(JOBS)

# Proves every crate over what earlier checks kept.
check:
	@$(NEED_TOOLCHAIN)
	@$(RT) all check

# Measures the program beside plain ones of the same job: by the clock, with marks that it fails on, and in instructions
# where valgrind is found. BENCH has options: '--only clock tuned=PATH' is the short form. Nothing else should run.
bench: $(PROGRAM)
	@$(PYTHON) bench/bench.py $(BENCH)

# Copies the proved program to $(PREFIX)/bin, its manual pages and completions to $(PREFIX)/share, as they lie in
# packaging/share, and documents and examples to $(PREFIX)/share/doc. The tools are links to scripts of their
# own, so that they work where documents are left out. After a build it needs no toolchain. Where the library
# was made, it goes to $(PREFIX)/lib with a file for pkg-config, its header to $(PREFIX)/include, and its Python
# module beside the scripts.
install: $(PROGRAM)
	install -d '$(DESTDIR)$(PREFIX)/bin'
	install -m 755 $(PROGRAM) '$(DESTDIR)$(PREFIX)/bin/station_check'
	@put() { install -d "$$(dirname "$$3")" && install -m "$$1" "$$2" "$$3"; }; \
	for file in $(SHARED); do put 644 "packaging/$$file" "$(DESTDIR)$(PREFIX)/$$file" || exit 1; done; \
	for file in $(TOOL_FILES); do \
	  case $$(head -n 1 "examples/$$file") in '#!'*) mode=755 ;; *) mode=644 ;; esac; \
	  put $$mode "examples/$$file" "$(DESTDIR)$(PREFIX)/$(TOOL_FOLDER)/$$file" || exit 1; \
	done; \
	for tool in $(TOOLS); do \
	  ln -sf "../$(TOOL_FOLDER)/$$tool.py" "$(DESTDIR)$(PREFIX)/bin/station_check_$${tool#check_}" || exit 1; \
	done; \
	for file in $(DOCUMENTS); do \
	  copy="$(DESTDIR)$(PREFIX)/$(DOCUMENT_FOLDER)/$$file"; \
	  put 644 "$$file" "$$copy" || exit 1; \
	  case $$file in *.md) $(UNLINKED) "$$file" > "$$copy" || exit 1 ;; esac; \
	done; \
	if [ -f '$(LIBRARY)' ]; then \
	  put 644 '$(LIBRARY)' "$(DESTDIR)$(PREFIX)/lib/$(notdir $(LIBRARY))" && \
	  ln -sf '$(notdir $(LIBRARY))' "$(DESTDIR)$(PREFIX)/$(LIBRARY_LINK)" && \
	  put 644 capi/station_check.h "$(DESTDIR)$(PREFIX)/include/station_check.h" && \
	  put 644 capi/station_check.pc "$(DESTDIR)$(PREFIX)/lib/pkgconfig/station_check.pc" && \
	  put 644 capi/station_check.py "$(DESTDIR)$(PREFIX)/$(TOOL_FOLDER)/station_check.py"; \
	fi

# Removes what `make install` put there, and its own folders where nothing else is left in them.
uninstall:
	rm -f '$(DESTDIR)$(PREFIX)/bin/station_check' $(SHARED:%='$(DESTDIR)$(PREFIX)/%')
	rm -f $(foreach tool,$(TOOLS:check_%=%),'$(DESTDIR)$(PREFIX)/bin/station_check_$(tool)')
	rm -f $(LIBRARY_FILES:%='$(DESTDIR)$(PREFIX)/%')
	rm -rf $(TOOL_FILES:%='$(DESTDIR)$(PREFIX)/$(TOOL_FOLDER)/%') '$(DESTDIR)$(PREFIX)/$(TOOL_FOLDER)/__pycache__'
	rm -f $(DOCUMENTS:%='$(DESTDIR)$(PREFIX)/$(DOCUMENT_FOLDER)/%')
	@for folder in $(DOCUMENT_FOLDER)/capi $(DOCUMENT_FOLDER)/docs $(DOCUMENT_FOLDER)/examples $(DOCUMENT_FOLDER) $(TOOL_FOLDER); do \
	  rmdir "$(DESTDIR)$(PREFIX)/$$folder" 2> /dev/null || true; \
	done

# An archive of what is installed, a Debian package where dpkg-deb is found, the page where it was made, and their
# checksums, in $(DIST). Where the library was made, both have it.
dist: $(PROGRAM)
	@RT='$(RT)' CRATES='$(CRATES)' sh packaging/dist.sh '$(PROGRAM)' '$(DIST)' '$(PAGE)' '$(LIBRARY)'

clean:
	rm -rf crates/*/out build

# Proves a crate over those that it stands on. A failed proof is a failed build. What the proof said
# is the crate's file in build/proved, which has the time at which the proof began, so that a source
# that changes meanwhile is proved again.
$(EITHER:%=$(PROVED)/%): $(PROVED)/%: crates.txt | $(PROVED)
	@$(NEED_TOOLCHAIN)
	@rm -f $@ $(foreach crate,$(EITHER),$(if $(filter $*,$(under_$(crate))),$(PROVED)/$(crate)))
	@touch $(MADE)/$*.begun
	@RT='$(RT)' $(PYTHON) tools/prove.py $* --jobs $$($(PYTHON) tools/order.py $* $(JOBS)) \
	  < /dev/null > $(MADE)/$*.log 2>&1 || { \
	  $(call say,$* is NOT PROVED: $(MADE)/$*.log ends with); tail -n 20 $(MADE)/$*.log >&2; exit 1; }
	@flock $(PROVED) sh -c 'touch -r $(MADE)/$*.begun $(MADE)/$*.log && mv $(MADE)/$*.log $@ && \
	$(call say,$* is proved$(comma) $$(cd $(PROVED) && ls $(ASKED) 2> /dev/null | wc -l) of $(words $(ASKED)))'

$(PROVED):
	@mkdir -p $@ $(MADE)
	@$(call say,proving $(words $(ASKED)) crates$(comma) $(JOBS) side by side; the first time takes minutes)

$(foreach crate,$(EITHER),$(eval $(PROVED)/$(crate): \
  $(filter crates/$(crate)/%,$(SOURCES)) $(below_$(crate):%=$(PROVED)/%)))

# Puts the program where it is run and installed from.
$(PROGRAM): $(ORDER:%=$(PROVED)/%) $(PROVED)/$(PROGRAM_CRATE)
	@install -D -m 755 $(MADE)/$(PROGRAM_CRATE) $@
