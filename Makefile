# All tests that need no proof, side by side: those of the sources by builds without a proof, if the Rattle kit is here, and those of the
# program that operate/program finds (see tests/all --help). PARTS="sessions pages" runs these alone.
test:
	tests/all $(PARTS)

# The gate: every proof from nothing, the must-fail edits, the tests, and the programs with what they print. A crate has no
# links, so the examples and the frames lie twice; that they are the same is looked at first. Checks run side by side, one for each
# processor if there are 4.5 GB for each. By itself rt ci goes by how much it thinks a crate may need. Of a large one that was nearly twice
# what any crate takes, so it, on which most others stand, waited until hardly anything else ran.
CHECKS = $(shell awk -v most=$$(nproc) '/^MemAvailable/ { n = int($$2 / 4500000); print n < 1 ? 1 : n < most ? n : most }' /proc/meminfo)
gate:
	@command -v rt > /dev/null || { echo "make gate needs the Rattle kit, with rt on the path; make test runs what needs no proof" >&2; exit 2; }
	diff -r -x '*.py' -x __pycache__ -x cluster examples crates/schedules/data/examples
	cmp examples/first.schedule crates/store_server/stdin
	cmp examples/first.expected crates/store_server/stdout
	cmp docs/rules/frames.vectors crates/schedules/data/frames/frames.vectors
	RT_JOBS=$(CHECKS) rt ci

# Proves what changed, lowest crates first, over what earlier checks kept.
check:
	rt all check

# Proves the program over the crates below it, and leaves it as crates/store_server/out/store_server, with a file beside it that says of
# which crates/ it is. A program is only built to be run, so it is given an empty schedule.
build:
	@command -v rt > /dev/null || { echo "build: there is no rt on the path; without the kit, scripts take the release in dist/" >&2; exit 2; }
	tree=$$(operate/note-program --tree); (cd crates/store_server && rt run -- run < /dev/null) && \
	    if [ -n "$$tree" ]; then operate/note-program --proved yes --since "$$tree"; fi

# Runs the first example by a build without a proof, as the last line says: proved=no.
run:
	cd crates/store_server && rt try -- run < ../../examples/first.schedule

# The test crates with allocations failing: run N of a crate lets allocation N of each test fail, which passes or says that memory ran
# out (see tests/faults --help). The gate makes none fail. A run builds anew and takes about half a minute; for more of them, make faults
# FAULTS=1-60.
FAULTS = 1 2 3 5 8 13
faults:
	tests/faults $(FAULTS)

# Growths of memory refused in turn, in runs of worked schedules and at a program that serves (see tests/growths --help).
growths:
	tests/growths
	tests/growths_served

# The must-fail edits that the gate doesn't try: what they turn is guarded by other clauses too, or their crate would have to be proved
# once more for them (see tests/edits/README.md).
edits:
	tests/edits/try

# Here and below a script takes the program that operate/program finds, and says which one: the one that STORE_PROGRAM names, the
# built one, if it is of the crates/ that are here, or that of the release in dist/.
# Sessions of two jobs over its sockets.
sessions:
	tests/sessions

# Orders on its control socket.
control:
	tests/control

# Malicious clients at it (see tests/attack --help).
attack:
	tests/attack

# Eight sessions at three nodes for an hour (see tests/soak --help).
soak:
	tests/soak

# The same under store-daemon and with a disk that is full now and then; an hour by MINUTES=60. Only root
# may have such a disk.
MINUTES = 5
soak-service:
	tests/soak --daemon --disk 12 --minutes $(MINUTES)

# The Python client.
client-test:
	python3 clients/python/tests/test_client.py

# The client in Rust, if there is cargo.
rust-client-test:
	tests/rust_client

# The client in Go, if there is go.
go-client-test:
	tests/go_client

# Dialogues at the server and with the clients, byte by byte.
conformance:
	tests/conformance/run

# All of the clients' tests, with numpy, mypy, gcc, clang and whatever else they can use; what is missing is
# said. It takes some minutes.
client-check:
	clients/check

# The daemon that runs a server as a service, and storectl.
daemon-test:
	operate/tests/all

# Serves from a folder of this checkout until it is interrupted. RELEASE=yes takes the release in dist/ though a program was built, and
# FOLDER=PATH is another folder than out/serve.
serve:
	@operate/serve $(if $(RELEASE),--release) $(if $(FOLDER),--folder '$(FOLDER)')

# A release of the built program, which has to be proved and of the last commit's crates/: dist/store-VERSION-x86_64-linux.tar.gz.
dist:
	operate/dist

# A Debian package of the same files; or if there is no such program, of the release that is kept in dist/.
deb:
	operate/dist --deb

# That a release and its package are the same each time, and serve from an empty folder.
dist-check:
	operate/dist-check

# How much jobs can be felt by others: trials of ten minutes in all, which aren't part of the gate (see tests/hostile/run --help).
hostile:
	tests/hostile/run

# Shows the guarantee on a schedule: without its second job's lines the program answers the first job alike. SERVED=yes shows it at a
# program that serves: a session of one job is answered alike alone and beside busy sessions of another.
show-guarantee:
	@STORE_PROGRAM=$$(operate/program) && export STORE_PROGRAM && bench/guarantee $(if $(SERVED),--served)

# Processes of two jobs that pass arrays along.
pipeline:
	examples/pipeline.py

# Dask over three hosts on this machine, each with a store; one is lost in the middle. And its tests, with each fault. Both say what
# they leave out if Debian's packages aren't there.
cluster-demo:
	examples/cluster/demo.py

cluster-test:
	examples/cluster/test.py

# The program and a plain model of it, on schedules drawn by lot and forged journals (see bench/model --help).
model:
	bench/model

# Measures the program, one that serves, and a journaled node (see bench/growth --help, bench/serve --help, bench/journal --help).
bench:
	STORE_PROGRAM=$$(operate/program) && export STORE_PROGRAM && bench/growth && bench/serve && bench/journal

# Draws the pictures of the parts, of the crates, of storectl top and of storectl metrics, and the example's from the journal that the plain model keeps of it.
picture:
	bench/parts -o docs/pictures/parts.svg
	bench/crates_picture -o docs/pictures/crates.svg
	bench/top_picture docs/pictures/top.json -o docs/pictures/top.svg
	bench/metrics_picture docs/pictures/metrics.txt -o docs/pictures/metrics.svg
	tests/model journal < docs/pictures/spilling.schedule > docs/pictures/spilling.log
	bench/picture docs/pictures/spilling.log -o docs/pictures/spilling.svg
	rm docs/pictures/spilling.log

# Draws the picture of the proof from the sources, and fails if a clause or a definition that it names isn't there.
proof-picture:
	tests/proof_picture -o docs/pictures/proof.svg

.PHONY: test gate check build run edits sessions attack soak soak-service client-test rust-client-test go-client-test conformance \
	client-check daemon-test serve dist deb dist-check hostile show-guarantee pipeline cluster-demo cluster-test model faults growths \
	bench picture proof-picture
