.PHONY: test run staticlib program compare held bench samples header

# The gate.
test:
	.ci/run

# The program marksheet, proved and built as target/bin/marksheet, on a sample and its layout; then its slip in words. SAMPLE=q takes another sample.
SAMPLE = p
run:
	@echo "Proving and building marksheet: some minutes the first time."
	@mkdir -p target
	@rm -f target/run.ok
	@{ $(MAKE) --no-print-directory program && touch target/run.ok; } 2>&1 | tee target/run.log | grep '^rt: ' || :
	@[ -e target/run.ok ] || { tail -n 20 target/run.log; exit 1; }
	@echo
	@samples/slip $(SAMPLE)

# The static library for other programs, proved and built: target/staticlib/libexaminer.a
staticlib:
	cd crates/examiner_c && rt lib
	mkdir -p target/staticlib
	cp crates/examiner_c/out/libexaminer_c.a target/staticlib/libexaminer.a

# The program marksheet, proved and built: target/bin/marksheet. `rt run` also runs it, here on the file that it has for that.
program:
	cd crates/marksheet && rt run <stdin >/dev/null
	mkdir -p target/bin
	cp crates/marksheet/out/marksheet target/bin/marksheet

# The library held to the independent implementation, and the program run as its users do. CASES=10 tries ten times as many cases.
compare: staticlib program
	$(MAKE) held

# The same of the library and the program that lie below target/ already, as the gate puts them there.
held: header
	cargo test --workspace

# The library's speed against the independent implementation's.
bench: staticlib
	cargo run --release -p examiner-tests --bin bench

# The bundled samples, written anew.
samples:
	cargo run -p reference --bin samples -- samples

# The header by itself, as C and as C++.
header:
	$(CC) -std=c99 -pedantic -Wall -Wextra -Werror -fsyntax-only -x c include/examiner.h
	$(CC) -std=c++11 -pedantic -Wall -Wextra -Werror -fsyntax-only -x c++ include/examiner.h
