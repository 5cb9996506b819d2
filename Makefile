# make: proves the program and builds it as bin/safemerge. It needs the Rattle toolchain's command rt.
# make look: runs one example without proving anything, in about a minute.
PREFIX ?= /usr/local
SOURCES := $(shell find crates -path '*/out' -prune -o -type f -print) crates.txt HANDLES

# The crates that the program stands on, the lowest first, as in crates.txt, and the program last.
CRATES := $(shell tac crates.txt | awk -F '[: ]+' 'BEGIN { needed["safemerge"] } \
  $$1 != "" && $$1 in needed { print $$1; for (i = 2; i <= NF; i++) needed[$$i] }' | tac)

# The program that the tests of contrib/ ask.
SAFEMERGE ?= bin/safemerge

MAN := $(DESTDIR)$(PREFIX)/share/man

.PHONY: all look demo test contrib-test install install-man uninstall clean

all: bin/safemerge

# Both the run of the proved program and the merge gate leave its binary in out/.
bin/safemerge: crates/safemerge/out/safemerge
	@mkdir -p bin
	@cp crates/safemerge/out/safemerge bin/safemerge

# Without words the program answers Usage, status 4.
crates/safemerge/out/safemerge: $(SOURCES)
	@mkdir -p bin
	@echo "Proving the $(words $(CRATES)) crates of the program, or those that changed."
	@echo "From nothing this takes most of an hour, 8 GB of disk and 3 GB of memory."
	@{ (cd crates/safemerge && rt run 2>&1 >/dev/null); echo "ended with $$?"; } | tee bin/build.log | \
	  while read -r line; do case $$line in "rt: chose --jobs "*) \
	    crate=$${line##* }; number=$$(echo $(CRATES) | tr ' ' '\n' | grep -n -x "$$crate" | cut -d : -f 1); \
	    echo "crate $$number of $(words $(CRATES)): $$crate";; esac; done
	@tail -n 1 bin/build.log | grep -q '^ended with 4$$' || { cat bin/build.log; exit 1; }
	@touch crates/safemerge/out/safemerge

# rt runs the program in a new folder, so the task is handed to it under its name. The proof would be a file there.
look:
	@mkdir -p bin
	@echo "Running an example without proving anything. This takes about a minute."
	@echo "$$ cd examples/edits_that_interfere && cat limits.task && safemerge check limits.task found.proof"
	@cat examples/edits_that_interfere/limits.task
	@(cd crates/safemerge && rt try --data limits.task=../../examples/edits_that_interfere/limits.task \
	  -- check limits.task found.proof) >bin/printed 2>bin/build.log; cat bin/printed
	@cmp bin/printed examples/edits_that_interfere/output || { cat bin/build.log; exit 1; }
	@echo "Nothing was proved: the program ran as it is written. make proves it."

# Runs each example and compares what it prints with the file beside it.
demo: all
	@for d in examples/*/; do \
	  echo "$$ cd $$d && $$(cat "$$d/command")"; \
	  (cd "$$d" && PATH="$(CURDIR)/bin:$$PATH" sh ./command) >bin/printed; \
	  cat bin/printed; \
	  cmp bin/printed "$$d/output" || exit 1; \
	done

# The merge gate.
test:
	.ci/run

# The tests of contrib/, for which git and python3 are needed. Those that ask the program are skipped, and counted,
# where it isn't there.
contrib-test:
	@cd contrib && SAFEMERGE="$(if $(findstring /,$(SAFEMERGE)),$(abspath $(SAFEMERGE)),$(SAFEMERGE))" python3 -m tests

install: all install-man
	install -d "$(DESTDIR)$(PREFIX)/bin"
	install -m 755 bin/safemerge "$(DESTDIR)$(PREFIX)/bin/safemerge"

# The manual pages alone, for which nothing is proved.
install-man:
	install -d "$(MAN)/man1" "$(MAN)/man5"
	install -m 644 docs/safemerge.1 "$(MAN)/man1/safemerge.1"
	install -m 644 docs/safemerge-task.5 "$(MAN)/man5/safemerge-task.5"

uninstall:
	rm -f "$(DESTDIR)$(PREFIX)/bin/safemerge" "$(MAN)/man1/safemerge.1" "$(MAN)/man5/safemerge-task.5"

clean:
	rm -rf bin crates/*/out examples/*/found.proof contrib/frontend/__pycache__ contrib/frontend/*/__pycache__ contrib/tests/__pycache__
