# The commands of this repository; README.md says more of each. Testing needs `rt`, the command of the Rattle kit, and nothing else;
# building also needs Python 3, in which `rt` itself is written.

PREFIX ?= /usr/local
PROGRAM := build/pclmin

# `make test-edits pcl_page pcl_env` tries the edits of these crates.
ifeq (test-edits,$(firstword $(MAKECMDGOALS)))
CRATES := $(wordlist 2,$(words $(MAKECMDGOALS)),$(MAKECMDGOALS))
.PHONY: $(CRATES)
$(CRATES):
	@:
endif

.PHONY: kit demo build test test-edits test-memory test-process test-delivery test-batch test-slurm test-cups oracle oracle-printers examples bench bench-certificates bench-clients install install-cups deb test-cupsd clean lib install-lib test-library web serve test-web

# Says what the kit is where its command isn't there.
kit:
	@tools/kit.sh

# Previews the sample job into build/demo.pbm, and shrinks it into build/demo.pcl, by two of the kit's quick runs side by side: a minute
# or two after a fresh clone, and nothing is proved. It says every ten seconds how long it has worked.
demo: kit
	@mkdir -p build
	@echo "compiling pclmin for two quick runs, of which nothing is proved: a minute or two on four quiet cores"
	@while sleep 10; do echo "at work for $$((seconds += 10)) seconds"; done & watch=$$!; trap "kill $$watch" EXIT; cd crates/pclmin && \
		{ rt try -- shrink < ../../examples/picture.pcl > ../../build/demo.pcl & shrink=$$!; \
		rt try -- pbm --page 1 < ../../examples/picture.pcl > ../../build/demo.pbm && wait $$shrink; }
	@echo "build/demo.pbm is page 1 of examples/picture.pcl, and build/demo.pcl the same page in $$(wc -c < build/demo.pcl) bytes in place of"
	@echo "$$(wc -c < examples/picture.pcl), by a program that isn't proved yet: see make build"
	@if command -v pnmtopng > /dev/null; then pnmtopng -quiet build/demo.pbm > build/demo.png && echo "build/demo.png is the same"; fi

# Proves the libraries that the program stands on side by side (LANES=2 keeps to two processors), and then the program, builds it as
# build/pclmin, and previews the sample job into build/sample.pbm. What is proved is kept in ~/.cache/pclmin (tools/crates.py says
# where). Needs Python 3.
build: kit
	tools/build.py pclmin
	$(PROGRAM) pbm --page 1 < examples/picture.pcl > build/sample.pbm
	@echo "build/sample.pbm is page 1 of examples/picture.pcl"

# After `make build`: proves the crates of tests, and what has changed since, and runs all tests and programs. Where nothing is built: the
# kit's whole gate, `rt ci`, which proves every crate from nothing, tries the wrong edits of crates/, and runs the same. Needs Python 3.
test: kit
	tools/test.py

# Tries the wrong edits of the crates that are named, or of all, and notes in tests/edits/tried what was refused: run for each crate that
# changed, and for all before a release. Builds what their crates stand on first. Needs Python 3.
test-edits: kit
	tests/edits/try.py $(CRATES)

# Makes the first allocation of the program crates/memory_cases fail, then the second, and so on, until a run in which memory ran out
# nowhere; then the same of runs and batches of pclmin (tests/process/memory.py). It takes three minutes once memory_cases is proved.
# Needs Python 3, a C compiler, and the program that `make build` left.
test-memory:
	tools/build.py memory_cases
	tests/process/memory.py $(PROGRAM) build/memory_cases crates/memory_cases/stdout

# Compares what the process says and its status where files, standard streams and memory fail, what a terminal is told
# (tests/process/cases.txt), and help and usage faults whole (those of crates/command_cases), makes each call of the system in some
# runs fail in turn (tests/process/calls.py), and runs two at once (tests/process/together.py). Needs Python 3, a C compiler, and the
# program that `make build` left.
test-process:
	tests/process/run.py $(PROGRAM)
	tests/process/calls.py $(PROGRAM)
	tests/process/together.py $(PROGRAM)

# All that gets the filter to people: test-cups, test-batch and test-cupsd, and then the manual pages by their linter, the completions
# in each shell, what file managers show of jobs, what the console blocks of the documents print and where their links lead, what
# `explain` and `--help` say beside the documents, a second checker beside `check`, the Debian package, installed and purged, and README's
# commands, one after the other, in clones with a few small crates. Needs root, Python 3, mandoc, zsh, fish, the packages that tests/delivery/batch.py, tests/delivery/thumbnails.sh and
# tests/printers/server.py name, and the program that `make build` left.
test-delivery: test-cups test-batch test-cupsd
	mandoc -T lint -W warning share/man/pclmin.1 share/man/pclmin-cups.8
	tests/delivery/completions.sh
	tests/delivery/thumbnails.sh $(PROGRAM)
	tests/delivery/blocks.py $(PROGRAM) README.md CONTRIBUTING.md CHANGELOG.md docs/*.md */README.md
	tests/delivery/said.py $(PROGRAM)
	tests/delivery/sceptic.py $(PROGRAM)
	tests/delivery/deb.sh try
	tests/delivery/commands.py

# Makes 1,000 jobs, some of them refused, empty or not there, and runs batches over them: one that is killed and run again, and those
# of GNU parallel in docs/BATCH.md, on this machine and over ssh on loopback. Needs the packages that tests/delivery/batch.py names, and
# the program that `make build` left.
test-batch:
	tests/delivery/batch.py $(PROGRAM)

# Starts slurm with two nodes on loopback, and runs the block of docs/BATCH.md that uses it over some 60 jobs: as it stands, with a task
# that is killed, with one that is requeued, and with a bound on the time of each job. It takes a minute or two. Needs root, the
# packages that tests/delivery/slurm.py names, and the program that `make build` left.
test-slurm:
	tests/delivery/slurm.py $(PROGRAM)

# Runs the CUPS backend with a device behind it that only keeps what comes. Needs the program that `make build` left.
test-cups:
	tests/printers/try.sh $(PROGRAM)

# Prints through a CUPS server of its own on loopback, with and without the backend, by real drivers, and compares what the
# printer gets. It takes a minute or two. Needs root, the packages that tests/printers/server.py names, and the program that
# `make build` left.
test-cupsd:
	tests/printers/server.py $(PROGRAM)

# A run of the programs of oracle/, which share no line with this one, beside it, and of 20,000 random jobs through shrink and back: a
# quarter of an hour on four cores. Needs rustc, Python 3, and the
# program that `make build` left.
oracle:
	oracle/run.sh

# Has another interpreter of PCL 5 print small jobs and random ones, each before `shrink` and after it: RENDER is how it is called
# (oracle/README.md). It takes some minutes. Needs Python 3, and the program that `make build` left.
oracle-printers:
	oracle/printers.py $(PROGRAM) '$(RENDER)' --workers 2
	oracle/manual_jobs.py $(PROGRAM) '$(RENDER)' 2000 1 --least --workers 2

# Makes the jobs of examples/ and the picture of the README anew. Needs Python 3, and pbmtolj of netpbm.
examples:
	mkdir -p build
	printf '\033E\033&l0E\033*p0x0Y\033*t300R\033*r0A\033*b1W\200\033*rC\014\033E' > examples/dot.pcl
	python3 examples/draw.py build/picture.pbm docs/picture.png
	pbmtolj -quiet -resolution 300 build/picture.pbm > examples/picture.pcl

# Compares the program's time and memory with a plain Rust program's. Needs rustc and Python 3.
bench:
	bench/run.sh

# Compares the time of writing a job with a certificate of each format and without. Needs Python 3.
bench-certificates:
	bench/certificates.sh

# Has some 280 jobs of real clients written again by `min` and `shrink`, and checks each. Needs Python 3, the packages that the
# head of the script lists, and the program that `make build` left.
bench-clients:
	bench/clients.py $(PROGRAM)

# Copies the program that `make build` left to $(PREFIX)/bin, its manual page and its completions to $(PREFIX)/share, and what file
# managers make small pictures of jobs by. Where a file's name doesn't say that it is a job, `update-mime-database $(PREFIX)/share/mime`
# makes its bytes say so.
install:
	@test -x $(PROGRAM) || { echo "there is no $(PROGRAM): run make build first" >&2; exit 1; }
	install -D -m 755 $(PROGRAM) $(DESTDIR)$(PREFIX)/bin/pclmin
	install -D -m 644 share/man/pclmin.1 $(DESTDIR)$(PREFIX)/share/man/man1/pclmin.1
	install -D -m 644 share/completions/pclmin.bash $(DESTDIR)$(PREFIX)/share/bash-completion/completions/pclmin
	install -D -m 644 share/completions/_pclmin $(DESTDIR)$(PREFIX)/share/zsh/site-functions/_pclmin
	install -D -m 644 share/completions/pclmin.fish $(DESTDIR)$(PREFIX)/share/fish/vendor_completions.d/pclmin.fish
	install -D -m 755 share/pclmin-thumbnailer $(DESTDIR)$(PREFIX)/bin/pclmin-thumbnailer
	install -D -m 644 share/pclmin.thumbnailer $(DESTDIR)$(PREFIX)/share/thumbnailers/pclmin.thumbnailer
	install -D -m 644 share/pclmin.xml $(DESTDIR)$(PREFIX)/share/mime/packages/pclmin.xml

# Proves the library, and makes build/libpclmin.a, build/libpclmin.so and build/pclmin.h of it (docs/LIBRARY.md). Needs Python 3, a C
# compiler and binutils.
lib:
	lib/build.sh shared

# Copies the archive, the shared library, the header, what pkg-config reads, and the calls for Python to $(PREFIX).
install-lib:
	@test -f build/libpclmin.so || { echo "there is no build/libpclmin.so: run make lib first" >&2; exit 1; }
	install -D -m 644 build/libpclmin.a $(DESTDIR)$(PREFIX)/lib/libpclmin.a
	install -D -m 644 build/libpclmin.so $(DESTDIR)$(PREFIX)/lib/libpclmin.so
	install -D -m 644 lib/pclmin.py $(DESTDIR)$(PREFIX)/share/pclmin/pclmin.py
	install -D -m 644 build/pclmin.h $(DESTDIR)$(PREFIX)/include/pclmin.h
	install -d $(DESTDIR)$(PREFIX)/lib/pkgconfig
	sed 's|@PREFIX@|$(PREFIX)|' build/pclmin.pc.in > $(DESTDIR)$(PREFIX)/lib/pkgconfig/pclmin.pc
	chmod 644 $(DESTDIR)$(PREFIX)/lib/pkgconfig/pclmin.pc

# Calls the library from C, Rust and Python, and compares what they get with what the program writes (tests/library/run.py). It takes
# some minutes. Needs a C compiler, Python 3, the program that `make build` left, and takes valgrind and rustc where they are.
test-library:
	lib/build.sh shared
	tests/library/run.py $(PROGRAM)

# Makes build/libpclmin.so, by which the page of web/ is served.
web:
	lib/build.sh shared

# Serves the page that shows jobs, to this machine alone. Needs Python 3, and the library that `make web` left.
serve:
	web/server.py

# Opens jobs in that page and compares what it shows with what the program writes. Needs Python 3, the program that `make build`
# left, the library that `make web` left, and Chromium: where that isn't there, the server alone is tested.
test-web:
	tests/viewer/test.py $(PROGRAM)

# Puts the CUPS backend where CUPS looks for it (docs/CUPS.md), and its manual page to $(PREFIX)/share. CUPSMODE=700 is for devices
# whose own backend only root may run.
CUPSDIR ?= /usr/lib/cups
CUPSMODE ?= 755

install-cups:
	install -d $(DESTDIR)$(CUPSDIR)/backend
	sed 's|/usr/local/bin/pclmin|$(PREFIX)/bin/pclmin|' cups/backend/pclmin > $(DESTDIR)$(CUPSDIR)/backend/pclmin
	chmod $(CUPSMODE) $(DESTDIR)$(CUPSDIR)/backend/pclmin
	install -d $(DESTDIR)$(PREFIX)/share/man/man8
	sed 's|/usr/local/bin/pclmin|$(PREFIX)/bin/pclmin|; s|/usr/lib/cups/backend|$(CUPSDIR)/backend|' share/man/pclmin-cups.8 \
		> $(DESTDIR)$(PREFIX)/share/man/man8/pclmin-cups.8
	chmod 644 $(DESTDIR)$(PREFIX)/share/man/man8/pclmin-cups.8

# Makes a Debian package of the same under build/. Needs dpkg-deb; `tests/delivery/deb.sh try` also installs, runs and purges it, as root.
deb:
	tests/delivery/deb.sh

# Removes what was built, and the proofs that were kept of this clone: the next build proves everything again.
clean: kit
	tools/build.py --clean
	rm -rf build crates/*/out
