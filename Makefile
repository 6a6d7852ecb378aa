# make try               builds the program without any proof, at out/try/bim_server, and replays the stored run: three minutes
# make build             proves the crates that the program stands on, and leaves it at crates/bim_server/out/bim_server; crates
#                        that don't stand on each other are proved at the same time, and an interrupted build goes on
# make replay            replays the stored run of cases/topics/stored_run over the built program, and prints what it writes
# make serve             serves on 127.0.0.1:8080 over the built program, until it is stopped
#
# make check             the test command, in this order: the lints (make lint); the gate of the toolchain (rt ci); then, over
#                        the program that it built, the end-to-end cases, tables of faces and pairs, clients over sockets, what it
#                        asks of the system, inputs up to the limits, calls of the C library that fail in turn, floods, the speed
#                        of reading, and what inputs cost by their shape; then what stands beside the server (BESIDE)
# make lint              what is listed of the repository, and the linters of the Python beside it: below a minute, no toolchain
# make tests             what make check runs over the built program, without the lints and the toolchain
# make hostile           failing calls and floods whole, over the program as it was built last: some minutes
# make cases [GROUP=..]  the end-to-end cases alone, over the program as it was built last: all, or those of the groups
#                        (upload/u07), or with one of the words in their path; cases/README.md names the groups
# make crate NAME=..     proves one crate, over what earlier checks kept of those below it, and runs its tests
# make check-NAME        what is beside the server alone: convert, deploy, api, client or viewer
#
# make convert           builds the converter, convert/target/release/ifc2grid, in a minute, and mesh2grid beside it
# make view              starts a server with a building, a front and the page on the loopback, and prints the address
# make deb VERSION=..    builds the Debian package of the program and of what is beside it, in out/deb
#
# make .. PROGRAM=path   replay, serve, tests, hostile, cases and check-convert over another program than the built one

SERVER := crates/bim_server/out/bim_server
STORE_WRITER := crates/store_writer_tests/out/store_writer_tests
PROGRAM ?= $(SERVER)
# What stands beside the server, in the order of the gate, which runs each by its target check-NAME.
BESIDE := convert client api deploy viewer
DIRECTORY_OF_api := api_check

# The rows of tests/serve that the gate runs: all but those that take long.
SERVE_ROWS := words pipelined interleaved clashes curl slow cut refused_at_once end_by_links end_by_signal \
	umlauts dates sources idle turns workers pages crowds given

.PHONY: try build replay serve check lint tests hostile cases crate program
.PHONY: $(BESIDE:%=check-%) convert view deb

try:
	@python3 -m tools.try_program

build:
	@python3 -m tools.build_program

# The program that is asked for: the built one is built where it lacks, another has to be there.
program:
	@test -x "$(PROGRAM)" || { test "$(PROGRAM)" = "$(SERVER)" && $(MAKE) --no-print-directory build; } \
		|| { echo "make: $(PROGRAM) is no program"; exit 2; }

# Where PROGRAM is another program, nothing is proved or built for these two.
ifeq ($(PROGRAM),$(SERVER))
replay serve: build
else
replay serve: program
endif

replay:
	@$(PROGRAM) $$(cat cases/topics/stored_run/args) <cases/topics/stored_run/stdin

serve:
	@$(PROGRAM) serve

# What fails in seconds comes before what takes hours: the lints take below a minute. rt ci is one command, which decides its own
# order: it proves each crate and its tests, has the prover refuse each must-fail edit, and runs the tests and the program; it
# leaves the program that it proved and built. The rest takes minutes over that program. Each ends the gate with its status
# where it fails.
check: lint
	rt ci
	@$(MAKE) --no-print-directory tests PROGRAM=$(SERVER)
	python3 -m tests.stores $(STORE_WRITER)
	@for name in $(BESIDE); do $(MAKE) --no-print-directory check-$$name PROGRAM=$(SERVER) || exit; done

lint:
	python3 -m lint

tests: program
	python3 -m tests.cases $(PROGRAM)
	python3 -m tests.examples $(PROGRAM)
	python3 -m tests.tables $(PROGRAM)
	python3 -m tests.serve $(PROGRAM) $(SERVE_ROWS)
	python3 -m tests.system $(PROGRAM)
	python3 -m tests.within $(PROGRAM)
	python3 -m tests.failing $(PROGRAM) --some 60
	python3 -m tests.hostile $(PROGRAM)
	python3 -m tests.reading $(PROGRAM)
	python3 -m tests.shapes $(PROGRAM)

hostile: program
	python3 -m tests.failing $(PROGRAM)
	python3 -m tests.hostile $(PROGRAM) --full

cases: program
	@python3 -m tests.cases $(PROGRAM) $(GROUP)

crate:
	@test -d "crates/$(NAME)/src" || { echo "make crate NAME=.. wants one of: $$(ls crates | xargs)"; exit 2; }
	cd crates/$(NAME) && rt check && rt test

# What is beside the server has a check script of its own, in the directory of its name.
$(BESIDE:%=check-%): check-%: program
	@test -x $(or $(DIRECTORY_OF_$*),$*)/check.sh || { echo "make: there is no check of $*"; exit 2; }
	$(or $(DIRECTORY_OF_$*),$*)/check.sh $(PROGRAM)

convert:
	@command -v cargo >/dev/null || { echo "make: there is no cargo: apt-get install cargo"; exit 2; }
	cd convert && cargo build --release --offline
	@if echo '#include <assimp/Importer.hpp>' | g++ -E -x c++ - >/dev/null 2>&1; then \
		$(MAKE) --no-print-directory -C convert/mesh && cp convert/mesh/mesh2grid convert/target/release/; \
	else echo "make: without mesh2grid, the tool for meshes: apt-get install g++ libassimp-dev"; fi

view: program
	@viewer/view.sh $(PROGRAM)

VERSION ?= 0.9.0

deb: program
	deploy/build_deb.sh $(PROGRAM) $(VERSION) out/deb
