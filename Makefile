# make first      draws an example, or with PLOT=plan.plt that plot, in about a minute; proves nothing
# make            proves and builds the command
# make demo       builds it and runs it on the plots of examples/
# make test       every test of the built command
# make mutants    a test on each mutant, with nothing proved
# make prove      every proof and the tests of the crates (rt ci), and the mutants that are marked for the gate
# make check      all of these, some side by side: what fails early comes first
# make audit      hands every mutant to the prover, for a release or after a change of a contract
# make fuzz       compares the built command with tests/reference on new random plots, with options of six kinds for
#                 SECONDS=120 each, and attacks it MUTILATED=20000 times: with mutilated plots, wrong command lines, folders
#                 and devices that fail, and refused memory
# make install    copies the command, its manual page, its completions, and the type of plots and their thumbnailer for
#                 desktops under PREFIX (/usr/local), below DESTDIR if it is set
# make install-cups     copies the filter of plots for CUPS, which finds it if PREFIX is /usr
# make uninstall  removes all of these
# make dist       makes build/plotraster-VERSION-x86_64-linux.tar.gz, build/plotraster_VERSION_amd64.deb and
#                 build/plotraster-cups_VERSION_all.deb, which lintian checks
# make clean      removes all that was built; the next build proves everything again
SHELL = /bin/bash
.SHELLFLAGS = -o pipefail -c
PREFIX ?= /usr/local
PROGRAM = crates/plotraster_program/out/plotraster_program
# Where the files of make install and of make install-cups are put: Debian's zsh reads another folder below /usr.
SHARE = $(PREFIX)/share
ZSH = $(SHARE)/zsh/site-functions
MIME = $(SHARE)/mime
INSTALLED = $(PREFIX)/bin/plotraster $(SHARE)/man/man1/plotraster.1 $(SHARE)/bash-completion/completions/plotraster \
    $(ZSH)/_plotraster $(SHARE)/fish/vendor_completions.d/plotraster.fish $(MIME)/packages/plotraster.xml \
    $(SHARE)/thumbnailers/plotraster.thumbnailer
CUPS = $(PREFIX)/lib/cups/filter/hpgltopdf $(SHARE)/cups/mime/plotraster.types $(SHARE)/cups/mime/plotraster.convs
COPY = install -D -m 644
# The folder of types knows a file that is new or gone, unless that is put elsewhere first.
KNOW = @test -n "$(DESTDIR)" || ! test -d $(MIME) || ! command -v update-mime-database > /dev/null || update-mime-database $(MIME)
SECONDS = 120
FUZZ = tests/fuzz $(PROGRAM) --seconds $(SECONDS) --processes 4
MUTILATED = 20000
CARDS = rose tide figures characters
CARD = --width 4000 --height 3000
# Debian's Python, which has Debian's pytest.
PYTEST = PYTHONDONTWRITEBYTECODE=1 /usr/bin/python3 -m pytest -q -p no:cacheprovider --no-skips
# The tests that need no built command.
SOURCE_TESTS = tests/test_style.py tests/test_quotations.py tests/test_reference_dxf.py tests/test_reference_fitting.py tests/test_reference_labels.py tests/test_reference_options.py tests/test_reference_turning.py tests/test_reference_vectors.py tests/test_tools.py $(wildcard tests/test_full_*.py)

build:
	@test -x $(PROGRAM) || tools/prove plotraster_program
	cd crates/plotraster_program && rt run -- --help > /dev/null
	@mkdir -p build
	@cp $(PROGRAM) build/plotraster

first:
	@tools/setup
	@tools/first $(if $(PLOT),'$(PLOT)')

demo: build
	@echo 'plotraster marks --width 64 --height 64 --dots 127 examples/line.plt'
	@build/plotraster marks --width 64 --height 64 --dots 127 examples/line.plt
	@for name in $(CARDS); do \
	    echo "plotraster draw $(CARD) examples/$$name.plt -o build/$$name.png"; \
	    build/plotraster draw $(CARD) examples/$$name.plt -o build/$$name.png || exit 1; \
	done
	@echo 'The pictures are:' $(CARDS:%=build/%.png)

setup:
	@tools/setup

style: setup
	$(PYTEST) $(SOURCE_TESTS)

mutants: setup
	nice -n 19 tools/mutants

prove: proofs
	@$(MAKE) --no-print-directory refusals

# One job a crate, as many crates side by side as there are processors: each job reads all modules of the crates below, so
# several at one crate cost more processor time.
proofs: setup
	@mkdir -p build
	RT_JOBS=$$(nproc) rt ci 2>&1 | tee build/verdict

refusals: built
	tools/audit --gate

test: setup built
	$(PYTEST) -n auto tests

# What fails early comes first. A crate is proved after those below it, so processors are idle at times: the mutants, at the
# lowest priority, take these. Then the tests of the command run beside the mutants that are handed to the prover. The
# verdict of rt ci is said again as the last line.
check:
	@$(MAKE) --no-print-directory style
	@$(MAKE) --no-print-directory -j 2 proofs mutants
	@$(MAKE) --no-print-directory -j 2 refusals test
	@tail -n 1 build/verdict

audit: setup build
	tools/audit

fuzz: built
	$(FUZZ)
	$(FUZZ) --fit
	$(FUZZ) --pens
	$(FUZZ) --apart
	$(FUZZ) --draw
	$(FUZZ) --vector
	tests/campaign $(PROGRAM) --cases $(MUTILATED) --seed $$(date +%s) --jobs 4

built:
	@test -x $(PROGRAM) || { echo 'nothing is built yet: type make, which proves and builds the command' >&2; exit 1; }

install: built
	install -D -m 755 $(PROGRAM) $(DESTDIR)$(PREFIX)/bin/plotraster
	$(COPY) man/plotraster.1 $(DESTDIR)$(SHARE)/man/man1/plotraster.1
	$(COPY) completions/plotraster.bash $(DESTDIR)$(SHARE)/bash-completion/completions/plotraster
	$(COPY) completions/plotraster.zsh $(DESTDIR)$(ZSH)/_plotraster
	$(COPY) completions/plotraster.fish $(DESTDIR)$(SHARE)/fish/vendor_completions.d/plotraster.fish
	$(COPY) packaging/desktop/plotraster.xml $(DESTDIR)$(MIME)/packages/plotraster.xml
	$(COPY) packaging/desktop/plotraster.thumbnailer $(DESTDIR)$(SHARE)/thumbnailers/plotraster.thumbnailer
	$(KNOW)

install-cups:
	install -D -m 755 packaging/cups/hpgltopdf $(DESTDIR)$(PREFIX)/lib/cups/filter/hpgltopdf
	$(COPY) packaging/cups/plotraster.types $(DESTDIR)$(SHARE)/cups/mime/plotraster.types
	$(COPY) packaging/cups/plotraster.convs $(DESTDIR)$(SHARE)/cups/mime/plotraster.convs

uninstall:
	rm -f $(addprefix $(DESTDIR),$(INSTALLED) $(CUPS))
	$(KNOW)

dist: built
	tools/dist $(PROGRAM) build

clean:
	rm -rf build crates/*/out

.PHONY: build first demo setup style mutants prove proofs refusals test check audit fuzz built install install-cups uninstall dist clean
