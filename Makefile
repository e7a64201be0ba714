# Nothing but calls of rt, cargo, cc, clang and the programs that they build. What is built here goes to build/ and to crates/*/out/.
.POSIX:
.PHONY: all test proofs second-test compared check second bench host library built command host-test host-built command-test sanitized-test demo install uninstall fuzz fuzz-build fuzz-run fuzz-text clean

SECOND = build/second/release/second
ARCHIVE = crates/tejborun/out/libtejborun.a

CC = cc
CFLAGS = -std=c11 -Wall -Wextra -Werror -O2 -Ibuild -Ihost/libmd -DSHA256_ONLY
SANITIZE = -g -fsanitize=address,undefined -fno-sanitize-recover=all
HOST = host/main.c host/identity.c host/options.c host/files.c host/output.c host/numbers.c host/words.c host/message.c host/text.c host/fields.c host/shapes.c host/state_shape.c host/kinds.c host/parts.c host/board.c \
	host/result.c host/counts.c host/totals.c host/capture.c host/records.c host/sheet.c host/salvage.c host/salvage_show.c host/run.c host/set.c host/why.c host/blame.c host/progress.c host/changes.c host/raw.c host/dumps.c host/verdict.c host/units.c host/check.c host/check_show.c host/compare.c host/compare_show.c host/compare_rack.c \
	host/compare_json.c host/json.c host/report.c host/report_draw.c host/sum.c host/libmd/sha2.c host/roles.c host/dump.c host/dump_sheet.c host/dump_words.c \
	host/dump_chain.c host/dump_result.c host/dump_totals.c host/assemble.c host/assemble_sheet.c host/assemble_memory.c host/assemble_board.c \
	host/assemble_capture.c host/assemble_result.c host/assemble_totals.c

PREFIX = /usr/local
DESTDIR =

FUZZ_ENTRIES = build steps meaning salvage start set run why build_and_run check totals compare
FUZZ_SECONDS = 1200
FUZZ_CC = clang
FUZZ_CFLAGS = -std=c11 -Wall -Wextra -Werror -O1 -g -fsanitize=fuzzer,address,undefined -fno-sanitize-recover=all
FUZZ_OPTIONS = -len_control=0 -max_len=4096 -timeout=60 -verbosity=0 -print_final_stats=1
JUDGE = build/judge/release/libjudge.a

all: host

# The tests. The last line is rt ci's own, printed again only where everything passed.
test:
	mkdir -p build
	$(MAKE) -j 2 proofs second-test
	$(MAKE) -j 2 compared host-built
	build/host-test
	$(MAKE) command-test
	$(MAKE) sanitized-test
	@tail -n 1 build/ci.log

# Every crate, every edit and every program: rt ci over the whole. An edit that no longer fits the text fails here, too.
proofs:
	mkdir -p build
	echo none > build/ci.status
	{ rt ci 2>&1; echo $$? > build/ci.status; } | tee build/ci.log; test "$$(cat build/ci.status)" = 0
	@grep '^rt: ok' build/ci.log | grep -v -q ', [0-9][0-9]* bad' || { echo 'a must-fail edit does not fit, or rt ci did not say ok' >&2; exit 1; }

# The second program's own points.
second-test: second
	cargo test --quiet --release --offline --manifest-path second/Cargo.toml --target-dir build/second

# The proved programs compared with the second program; both have been built (rt ci leaves each program in its crate's out/).
compared:
	$(SECOND) compare-gif crates/gif_replay/out/gif_replay 1,2,3 20000
	$(SECOND) compare-vif crates/vif_replay/out/vif_replay 1,2,3 100000
	$(SECOND) compare-capture crates/replay/out/replay 1,2,3 2000
	$(SECOND) compare-sheet crates/sheet_replay/out/sheet_replay 1,2,3 2000
	$(SECOND) compare-salvage crates/salvage_replay/out/salvage_replay 1,2,3 2000
	$(SECOND) compare-check crates/check_replay/out/check_replay 1,2,3 2000
	$(SECOND) compare-totals crates/totals_replay/out/totals_replay 1,2,3 2000

# The proofs alone.
check:
	rt all check

second:
	cargo build --quiet --release --offline --manifest-path second/Cargo.toml --target-dir build/second

# Times beside the second program, in one run; the chains beside memcpy, too. make bench CHAINS=all measures more chains: every UNPACK format by itself, modes, a mask.
CHAINS =
bench: second
	for p in gif_bench chain_bench sheet_bench salvage_replay; do (cd crates/$$p && rt run < /dev/null > /dev/null) || exit 1; done
	$(SECOND) bench-gif crates/gif_bench/out/gif_bench
	$(SECOND) bench-chain crates/chain_bench/out/chain_bench $(CHAINS)
	$(SECOND) bench-sheet crates/sheet_bench/out/sheet_bench
	$(SECOND) bench-salvage crates/salvage_replay/out/salvage_replay

# The command for the bench, over the proved library.
host: library
	$(MAKE) command

library:
	mkdir -p build
	echo none > build/library.status
	{ (cd crates/tejborun && rt lib) 2>&1; echo $$? > build/library.status; } | tee build/tejborun.say; test "$$(cat build/library.status)" = 0

# What the prover said of the library, and the library's sum, for the command to say.
built:
	mkdir -p build
	{ echo "#define BUILT_PROOF \"$$(sed -n '/^logic=/p' build/tejborun.say 2> /dev/null | tail -n 1)\""; \
	  echo "#define BUILT_LIBRARY_SUM \"$$(sha256sum $(ARCHIVE) | cut -d ' ' -f 1)\""; } > build/built.h

command: built
	$(CC) $(CFLAGS) -o build/tejborun $(HOST) $(ARCHIVE)

# The tests of the command and of the C interface; the programs of the proved crates and the second program have been built.
host-test: host-built
	build/host-test
	$(MAKE) command-test sanitized-test

host-built: host
	$(CC) $(CFLAGS) $(SANITIZE) -o build/tejborun-sanitized $(HOST) $(ARCHIVE)
	$(CC) $(CFLAGS) $(SANITIZE) -o build/host-test host/test.c host/message.c host/sum.c host/libmd/sha2.c $(ARCHIVE)
	$(CC) $(CFLAGS) -o build/test-forms host/test_forms.c host/json.c

command-test:
	sh host/test.sh build/tejborun $(SECOND) crates/replay/out

sanitized-test:
	sh host/test.sh build/tejborun-sanitized $(SECOND) crates/replay/out 40

# The command, its manual and completion, and the library with its headers; tejborun_message is put into it.
install:
	test -x build/tejborun || $(MAKE) host
	cp $(ARCHIVE) build/libtejborun.a
	$(CC) $(CFLAGS) -c -o build/message.o host/message.c
	ar r build/libtejborun.a build/message.o
	version=$$(sed -n 's/^#define TEJBORUN_VERSION "\(.*\)"/\1/p' host/tejborun.h); \
	for f in tejborun.1 tejborun.pc.in; do \
		sed -e "s|@PREFIX@|$(PREFIX)|" -e "s|@VERSION@|$$version|" host/share/$$f > build/$${f%.in} || exit 1; \
	done
	for d in bin lib/pkgconfig include/tejborun share/man/man1 share/bash-completion/completions; do mkdir -p "$(DESTDIR)$(PREFIX)/$$d" || exit 1; done
	install -m 755 build/tejborun "$(DESTDIR)$(PREFIX)/bin/tejborun"
	install -m 644 build/libtejborun.a "$(DESTDIR)$(PREFIX)/lib/libtejborun.a"
	install -m 644 build/tejborun.pc "$(DESTDIR)$(PREFIX)/lib/pkgconfig/tejborun.pc"
	install -m 644 host/tejborun.h host/state_shape.h "$(DESTDIR)$(PREFIX)/include/tejborun"
	install -m 644 build/tejborun.1 "$(DESTDIR)$(PREFIX)/share/man/man1/tejborun.1"
	install -m 644 host/share/tejborun.bash "$(DESTDIR)$(PREFIX)/share/bash-completion/completions/tejborun"

uninstall:
	rm -f "$(DESTDIR)$(PREFIX)/bin/tejborun" "$(DESTDIR)$(PREFIX)/lib/libtejborun.a" "$(DESTDIR)$(PREFIX)/lib/pkgconfig/tejborun.pc" \
		"$(DESTDIR)$(PREFIX)/share/man/man1/tejborun.1" "$(DESTDIR)$(PREFIX)/share/bash-completion/completions/tejborun"
	rm -rf "$(DESTDIR)$(PREFIX)/include/tejborun"

# The bench's main jobs, as a person does them.
demo: host
	sh examples/demo.sh build/tejborun build/demo

# The C interface against the second program, by a fuzzer: each entry point for FUZZ_SECONDS, until the first finding (docs/FUZZING.md).
fuzz: library
	$(MAKE) fuzz-build
	$(MAKE) fuzz-run

fuzz-build:
	mkdir -p build/fuzz
	cargo build --quiet --release --offline --manifest-path fuzz/judge/Cargo.toml --target-dir build/judge
	for e in $(FUZZ_ENTRIES); do \
		$(FUZZ_CC) $(FUZZ_CFLAGS) -DENTRY=entry_$$e -o build/fuzz/$$e fuzz/fuzz.c $(ARCHIVE) $(JUDGE) -lpthread -ldl -lm || exit 1; \
	done

fuzz-run:
	for e in $(FUZZ_ENTRIES); do \
		mkdir -p build/fuzz/corpus/$$e; \
		build/fuzz/$$e $(FUZZ_OPTIONS) -max_total_time=$(FUZZ_SECONDS) -artifact_prefix=build/fuzz/$$e- build/fuzz/corpus/$$e fuzz/corpus/$$e || exit 1; \
	done

# The command's readers of text and files, by a fuzzer; the seeds are the examples and what the command makes of them.
fuzz-text: command
	mkdir -p build/fuzz/corpus/text
	$(FUZZ_CC) $(FUZZ_CFLAGS) -Ibuild -Ihost/libmd -DSHA256_ONLY -o build/fuzz/text fuzz/text.c $(HOST:host/main.c=) $(ARCHIVE)
	sh fuzz/text-seeds.sh build/tejborun examples build/fuzz/corpus/text
	build/fuzz/text -close_fd_mask=3 -max_len=8192 -timeout=60 -verbosity=0 -print_final_stats=1 -max_total_time=$(FUZZ_SECONDS) \
		-artifact_prefix=build/fuzz/text- build/fuzz/corpus/text

clean:
	rm -rf build crates/*/out
