# The targets (docs/CONTRIBUTING.md). `make help` lists them.
PREFIX ?= /usr/local
# Runs a tool that makes files. They take the format's numbers from tools/format.
MAKER = PYTHONPATH=tools/format python3 -B
# It also runs lines of docs/GUIDE.md, which a tool in tools/usage reads.
TRY_ETCD = env PYTHONPATH=tools/format:tools/usage python3 -B tools/etcd/try_etcd.py
PROGRAM = crates/luntsegi/out/luntsegi
CALLS = crates/test_calls/out/test_calls

.PHONY: build calls help toolchain quick wrong-definitions fmt demo set-up peers cases examples programs manual installed failures memory work bbolt bbolt-long etcd huge fuzz fuzz-wrong mutants test times bench install dist deb clean

# Proves the libraries and the program, and builds it.
build:
	cd crates/luntsegi && rt run -- --help > /dev/null

$(PROGRAM):
	@$(MAKE) --no-print-directory build

# Proves and builds the program that makes calls of the libraries for tests.
calls:
	cd crates/test_calls && rt run -- faults ../../README.md > /dev/null

$(CALLS):
	@$(MAKE) --no-print-directory calls

# Lists the targets, each with what it does.
help:
	@awk '/^# / { about = about " " substr($$0, 3); next } \
		/^[a-z-]+:/ && about { sub(/:$$/, "", $$1); sub(/\. .*/, ".", about); printf "%-19s%s\n", $$1, about } \
		{ about = "" }' $(firstword $(MAKEFILE_LIST))

# These run the toolchain's command, as `make test` does. Without it they end with one line that says so.
build calls quick fmt demo programs mutants: toolchain

toolchain:
	@$(if $(shell command -v rt 2>&1),:,$(error the Rattle toolchain is missing: put its command rt on the path))

# Tries the program without its proofs, in three minutes after any edit. It says what that doesn't show.
quick:
	PYTHONPATH=tests:tools/fuzz:tools/format python3 -B tools/quick/quick.py out/try

# Marks each text that is printed, and tries whether a test case notices it. It isn't part of the gate.
wrong-definitions: toolchain
	python3 -B tools/quick/wrong_definitions.py out/marked

# Formats every crate. The gate refuses a file that isn't formatted.
fmt:
	for crate in crates/*/; do (cd $$crate && rt fmt) || exit 1; done

# Shows what the program does with half of a real database. It is compiled here without its proofs.
demo:
	@tools/try/demo.sh

# Runs the test cases: command lines by the program, and calls by test_calls.
cases: $(PROGRAM) $(CALLS)
	tools/try/cases.sh $(PROGRAM) $(CALLS)

# Compares what is printed of real databases and of their copies with what bbolt finds, and what documents show.
examples: $(PROGRAM) peers
	tools/try/examples.sh $(PROGRAM)

PROGRAMS = $(wildcard $(patsubst %,crates/bolt_%/README.md,bulk check cli commands etcd format job load recover report stats text tree))
# Runs the programs that the READMEs of crates show, without their proofs.
programs:
	python3 -B tools/usage/run_programs.py $(PROGRAMS)

# Makes the manual page, and compares the completions with help. What documents and sources refer to must exist.
manual: $(PROGRAM) out/luntsegi.1
	tools/try/manual.sh $(PROGRAM)

# Makes files and streams fail, and each read, write and sync in turn, under every command.
failures: $(PROGRAM) out/refuse.so out/listed_long.db out/damaged.db out/many_lost.db
	tools/try/failures.sh $(PROGRAM)

# Refuses each request for memory in turn, under every command.
memory: $(PROGRAM) $(CALLS) out/refuse.so out/nested.db out/deep.db out/damaged.db out/found.db
	tools/try/memory.sh $(PROGRAM) $(CALLS)

# Counts requests for memory and instructions, which show work that isn't needed or grows too fast.
work: $(PROGRAM) $(CALLS) out/refuse.so
	tools/try/work.sh $(PROGRAM) $(CALLS)

# Installs everything below out/installed, and tries the launcher.
installed: $(PROGRAM) out/luntsegi.1
	rm -rf out/installed
	$(MAKE) --no-print-directory -s install PREFIX=out/installed
	tools/try/installed.sh $(PROGRAM) out/installed

SECONDS ?= 60
SEED ?= $(shell date +%s)
# Compares what the program prints of random files. SEED=N repeats the files of another run.
fuzz: $(PROGRAM)
	$(MAKER) tools/fuzz/fuzz.py $(PROGRAM) --seed $(SEED) --seconds $(SECONDS)

# Fetches the newest bbolt and etcd of Debian's newer suites into out/peers, if they aren't there. Nothing is installed.
peers:
	tools/peers/fetch.sh

NEWEST_BBOLT = tools/peers/with.sh newest bbolt
OTHER_BBOLT = tools/peers/with.sh other bbolt
# Compares the program with the library of the newest bbolt, also on files after random transactions by bbolt, and then
# with the installed one (Debian's packages golang-go and golang-github-coreos-bbolt-dev), if that is another.
bbolt: $(PROGRAM) peers
	$(NEWEST_BBOLT) tools/bbolt/try.sh $(PROGRAM) 30
	$(OTHER_BBOLT) tools/bbolt/try.sh $(PROGRAM) 30

# The same with 3,000 random files and the newest bbolt, and the files that its own tests leave behind. SEED=N repeats the
# random files of another run.
bbolt-long: $(PROGRAM) peers
	$(NEWEST_BBOLT) tools/bbolt/try.sh $(PROGRAM) 30 3000 $(SEED)
	$(NEWEST_BBOLT) python3 -B tools/bbolt/own_tests.py $(PROGRAM) out/bbolt out/own_tests

NEWEST_ETCD = tools/peers/with.sh newest etcd
OTHER_ETCD = tools/peers/with.sh other etcd
# Compares the program with a server of the newest etcd on the files that etcd writes, and then with the installed one
# (Debian's packages etcd-server and etcd-client), if that is another. SEED=N repeats the writes of another run.
etcd: $(PROGRAM) peers
	$(NEWEST_ETCD) $(TRY_ETCD) $(PROGRAM) --seed $(SEED) --keys 3000 --seconds 600
	$(OTHER_ETCD) $(TRY_ETCD) $(PROGRAM) --seed $(SEED) --keys 3000 --seconds 600

# Tries sparse files of more than 4 GB, if there is memory for them.
huge: $(PROGRAM)
	mkdir -p out
	PYTHONPATH=tests:tools/format python3 -B tools/try/huge.py $(PROGRAM) out

# Alters the program's output in many ways. The comparisons must find each alteration.
fuzz-wrong: $(PROGRAM)
	$(MAKER) tools/fuzz/try_wrong.py $(PROGRAM)

# Tries that the prover refuses the mutants of the crates. CRATES="bolt_tree bolt_cli" tries those of some crates.
mutants:
	JOBS=$(JOBS) python3 -B tools/mutants/try_mutants.py $(CRATES)

# How many crates the gate proves side by side: two, if the machine has two processors and room for both, with 6.5 GB
# each. With more, each takes a third more processor time, as if rt splits one crate over several processors, and little
# time is won.
JOBS ?= $(shell awk -v processors=$$(nproc) '/MemTotal/ { print ($$2 < 13000000 || processors < 2 ? 1 : 2) }' /proc/meminfo)

# Installs what the gate needs beyond the toolchain, where it can, and says what it leaves out.
set-up:
	tools/set_up.sh

# The merge gate: every proof from nothing, the built programs, the mutants, what these targets try, the same random
# files each time, and rounds beside bbolt and etcd, the newest and then the installed ones. The prover keeps freed
# memory for 10 s: fewer page faults. It ends with its processor minutes, and fails if a large proof takes twice its
# share of tools/try/times.txt.
test: toolchain set-up peers
	MIMALLOC_PURGE_DELAY=10000 python3 -B tools/try/gate.py $(TIMES) tools/try/times.txt "rt ci: RT_JOBS=$(JOBS) rt ci $(ANEW)" \
		"mutants: JOBS=$(JOBS) python3 -B tools/mutants/try_mutants.py --over-gate" \
		$(foreach target,cases examples programs manual installed failures memory work,"$(target): make $(target)") \
		"fuzz: $(MAKER) tools/fuzz/fuzz.py $(PROGRAM) --seed 1 --files 36" \
		"bbolt: $(NEWEST_BBOLT) tools/bbolt/try.sh $(PROGRAM) 3" "other bbolt: $(OTHER_BBOLT) tools/bbolt/try.sh $(PROGRAM) 1 60" \
		"etcd: $(NEWEST_ETCD) $(TRY_ETCD) $(PROGRAM) --seed 1 --keys 300 --seconds 240" \
		"other etcd: $(OTHER_ETCD) $(TRY_ETCD) $(PROGRAM) --seed 1 --keys 100 --seconds 240"

# Runs the gate with one check at a time and every proof anew, and writes what share of the whole each part takes to
# tools/try/times.txt. Nothing else should run meanwhile.
times:
	$(MAKE) test JOBS=1 ANEW=--anew TIMES=--write

# Stores of etcd that lost half of their branches, and all.
LOST_STORES = out/store_half.db out/store_all.db out/short_half.db out/short_all.db

# Times the installed program on large files and, if it can be built, bbolt's library.
bench: $(PROGRAM) out/luntsegi.1 peers out/measured out/large.db out/leaves.db out/wide.db out/long.db out/sparse.db out/very_deep.db out/lost_leaves.db \
		out/lost_branch.db out/half_freed.db out/freed.db $(LOST_STORES)
	$(MAKE) --no-print-directory -s install PREFIX=out/installed
	$(NEWEST_BBOLT) tools/bench/bench.sh out/installed/bin/luntsegi

out/measured: tools/bench/measured.c
	mkdir -p $(@D)
	$(CC) -O2 -Wall -o $@ $<

out/refuse.so: tools/refuse/refuse.c
	mkdir -p $(@D)
	$(CC) -O2 -Wall -shared -fPIC -o $@ $<

# Files that a tool makes, each with these words after its name.
MADE = large leaves wide listed_long long sparse deep nested very_deep half_freed freed store short
out/listed_long.db: WORDS = 5000
out/nested.db: WORDS = 60
out/very_deep.db: WORDS = 50000 4096
out/half_freed.db: WORDS = 500000
out/freed.db: WORDS = 1000000
out/store.db: WORDS = 600
out/short.db: WORDS = 60
out/leaves.db: WORDS = 3200000 1024
out/large.db out/leaves.db: tools/bench/make_large.py
out/wide.db out/listed_long.db: tools/bench/make_wide.py
out/long.db: tools/bench/make_long.py
out/sparse.db: tools/bench/make_sparse.py
out/deep.db out/nested.db out/very_deep.db: tools/bench/make_deep.py
out/half_freed.db out/freed.db: tools/bench/make_freed.py
out/store.db out/short.db: tools/bench/make_store.py
$(MADE:%=out/%.db):
	mkdir -p $(@D)
	$(MAKER) $< $@ $(WORDS)

# The large file without a thousand leaves; and without a branch, too.
out/lost_branch.db: BRANCHES = 1
out/lost_leaves.db out/lost_branch.db: tools/bench/zero_leaves.py out/large.db
	$(MAKER) $< out/large.db $@ 1000 $(BRANCHES)

# Their branches; 1000 are more than there are.
out/store_half.db: BRANCHES = 122
out/short_half.db: BRANCHES = 22
out/store_all.db out/short_all.db: BRANCHES = 1000
out/store_half.db out/store_all.db: out/store.db
out/short_half.db out/short_all.db: out/short.db
$(LOST_STORES): tools/bench/zero_leaves.py
	$(MAKER) $< $(filter %.db,$^) $@ 0 $(BRANCHES)

# A real database in which a leaf of etcd's keys is overwritten with zeros; and the branch above the leaves, which are found then.
out/damaged.db: PAGE = 9
out/found.db: PAGE = 15
out/damaged.db out/found.db: examples/etcd.db
	mkdir -p $(@D)
	cp $< $@
	dd if=/dev/zero of=$@ bs=4096 seek=$(PAGE) count=1 conv=notrunc status=none

# 8 MB, of which 1,500 leaves are overwritten with zeros: their losses take more than 64 KiB of output.
out/many_lost.db: tools/bench/make_large.py tools/bench/zero_leaves.py
	mkdir -p $(@D)
	$(MAKER) tools/bench/make_large.py $@.sound 30000
	$(MAKER) tools/bench/zero_leaves.py $@.sound $@ 1500

# The folder where zsh looks for completions.
ZSH_COMPLETIONS ?= $(PREFIX)/share/zsh/site-functions
# And that of fish.
FISH_COMPLETIONS ?= $(PREFIX)/share/fish/vendor_completions.d

# The manual page, made of help and docs/COMMANDS.md.
out/luntsegi.1: docs/COMMANDS.md docs/CHANGELOG.md tools/usage/manual.py tools/package/release.sh $(PROGRAM)
	mkdir -p $(@D)
	python3 -B tools/usage/manual.py $(PROGRAM) $< "$$(tools/package/release.sh date)" > $@

# Installs the program with its launcher, the manual page, the completions, the documents and the examples below PREFIX.
install: $(PROGRAM) out/luntsegi.1
	install -D -m 755 $(PROGRAM) $(DESTDIR)$(PREFIX)/libexec/luntsegi
	install -D -m 755 tools/package/launcher.sh $(DESTDIR)$(PREFIX)/bin/luntsegi
	install -D -m 644 out/luntsegi.1 $(DESTDIR)$(PREFIX)/share/man/man1/luntsegi.1
	install -D -m 644 completions/luntsegi.bash $(DESTDIR)$(PREFIX)/share/bash-completion/completions/luntsegi
	install -D -m 644 completions/_luntsegi $(DESTDIR)$(ZSH_COMPLETIONS)/_luntsegi
	install -D -m 644 completions/luntsegi.fish $(DESTDIR)$(FISH_COMPLETIONS)/luntsegi.fish
	tools/package/install_documents.sh $(DESTDIR)$(PREFIX)/share/doc/luntsegi

# Makes an archive of what `make install` installs, and writes its sum to out/SHA256SUMS.
dist: $(PROGRAM)
	tools/package/make_package.sh archive $(PROGRAM)

# Makes a Debian package of the same, and writes its sum to out/SHA256SUMS.
deb: $(PROGRAM)
	tools/package/make_package.sh deb $(PROGRAM)

# Removes all that was built.
clean:
	rm -rf crates/*/out out
