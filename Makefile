# make look: the first job run without proof and its outputs shown, or another job by JOB=FOLDER. make demo: proved, built, and
# the first job run; the program stands at ./rxbatch then. make test: the gate, then the worked cases on the built program.
# make install PREFIX=.. and make uninstall: the built program with its manual page, completions, docs and the night's scripts
# and units. make deb: the same as a package in out/deb.
.PHONY: test all-edits cases demo look install uninstall deb kit cc
PROGRAM = crates/rxbatch/out/rxbatch
CALLS = crates/rx_tests/out/rx_tests_tests
FIRST = examples/first_job
PREFIX = /usr/local
DESTDIR =
INTO = $(DESTDIR)$(PREFIX)
NIGHT = $(addprefix examples/night/,night.sh pair.sh done.sh failed.sh table.py night.sbatch plans.py switch.sbatch)
# (the letter after the number is the kit's edition: its logic is the same)
KIT = rattle-kit-13
LOGIC = dac8208d650f15bf

# Without the kit nothing can be built.
kit:
	@command -v rt > /dev/null || { echo "make: the command rt of the kit $(KIT) isn't on the path: see \"Install\" in README.md" >&2; exit 1; }
	@rt version | grep -q '^$(KIT)[a-z]* logic $(LOGIC)$$' || echo "make: this is proved with $(KIT) logic $(LOGIC), and rt is $$(rt version)" >&2

# Without a C compiler the tests can't refuse memory.
cc:
	@command -v cc > /dev/null || { echo "make: the command cc isn't on the path: tests that refuse memory need a C compiler" >&2; exit 1; }

# Of another job the record that is explained is RECORD, and the stamp STAMP.
look: kit
	@python3 tools/look.py $(JOB) $(if $(RECORD),--record $(RECORD)) $(if $(STAMP),--stamp $(STAMP))

test: kit cc
	rm -f out/gate-minutes
	python3 .ci/gate.py
	$(MAKE) --silent cases
	cat out/gate-minutes

# The gate again, with the must-fail edits of those crates too that are as they were when these were last tried.
all-edits: kit cc
	python3 .ci/gate.py --all
	$(MAKE) --silent cases

cases: kit cc
	python3 tools/check_docs.py
	python3 tools/find_doubles.py --allowed 37
	python3 tools/count_dialect.py --allowed 0
	test -x $(PROGRAM) || (cd crates/rxbatch && rt run -- sample)
	python3 packaging/make_pages.py $(PROGRAM) --check
	python3 tests/run_packaging.py $(PROGRAM) --shells
	python3 tests/run_pages.py $(PROGRAM)
	python3 tests/run_dispute.py $(PROGRAM)
	python3 tests/run_words.py $(PROGRAM)
	python3 tests/run_people.py $(PROGRAM)
	python3 tests/run_paths.py $(PROGRAM)
	python3 tests/run_safe.py $(PROGRAM)
	python3 tests/run_log.py $(PROGRAM)
	python3 tests/run_streams.py $(PROGRAM)
	python3 tests/run_night.py $(PROGRAM)
	python3 tests/run_cases.py $(PROGRAM) --plan
	python3 tests/run_cases.py $(PROGRAM) --big
	python3 tests/run_told.py $(PROGRAM)
	python3 tests/run_explain.py $(PROGRAM)
	python3 tests/run_for_provider.py $(PROGRAM)
	python3 tests/run_verify.py $(PROGRAM)
	python3 tests/run_replies.py $(PROGRAM)
	python3 tests/run_settle.py $(PROGRAM)
	python3 tests/run_compare.py $(PROGRAM)
	python3 tests/run_report.py $(PROGRAM)
	python3 tests/run_upkeep.py $(PROGRAM)
	python3 tests/run_family.py $(PROGRAM)
	python3 tests/run_excerpt.py $(PROGRAM)
	python3 tests/run_route.py $(PROGRAM) --join
	python3 tests/run_switch.py $(PROGRAM) --calls
	python3 tests/run_join.py $(PROGRAM)
	test -x $(CALLS) || (cd crates/rx_tests && rt test > /dev/null)
	python3 tests/run_failing.py $(PROGRAM)
	python3 tests/refused_memory.py $(PROGRAM)
	python3 tests/refused_desk.py $(CALLS)

demo: kit
	@python3 tools/build.py
	ln -sf $(PROGRAM) rxbatch
	mkdir -p out
	./rxbatch run --sheet $(FIRST)/sheet.toml --books $(FIRST)/books.txt --batch $(FIRST)/batch.bin --stamp 202603170600 \
	  --workers 4 --response out/response.bin --books-out out/books-out.txt --settlement out/settlement.txt
	cat out/settlement.txt
	for file in response.bin books-out.txt settlement.txt; do cmp out/$$file $(FIRST)/expected/$$file || exit 1; done

install:
	@test -x $(PROGRAM) || { echo "make: $(PROGRAM) isn't there: run make demo first" >&2; exit 1; }
	install -D -m 755 $(PROGRAM) $(INTO)/bin/rxbatch
	install -D -m 644 packaging/rxbatch.1 $(INTO)/share/man/man1/rxbatch.1
	install -D -m 644 packaging/rxbatch.bash $(INTO)/share/bash-completion/completions/rxbatch
	install -D -m 644 packaging/_rxbatch $(INTO)/share/zsh/site-functions/_rxbatch
	install -D -m 644 -t $(INTO)/share/doc/rxbatch README.md CHANGELOG.md SECURITY.md docs/*.md
	install -D -m 755 -t $(INTO)/lib/rxbatch $(NIGHT)
	mkdir -p $(INTO)/lib/systemd/system
	for unit in service timer; do sed 's|/usr/local/|$(PREFIX)/|g' examples/night/rxbatch-night.$$unit > $(INTO)/lib/systemd/system/rxbatch-night.$$unit; done

uninstall:
	rm -f $(INTO)/bin/rxbatch $(INTO)/share/man/man1/rxbatch.1 $(INTO)/share/bash-completion/completions/rxbatch
	rm -f $(INTO)/share/zsh/site-functions/_rxbatch $(INTO)/lib/systemd/system/rxbatch-night.service $(INTO)/lib/systemd/system/rxbatch-night.timer
	rm -rf $(INTO)/share/doc/rxbatch $(INTO)/lib/rxbatch

deb:
	sh packaging/make_deb.sh $(PROGRAM) out/deb
