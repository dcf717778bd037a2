# make demo   one real task from beginning to end
# make test   the gate: every proof, every edit that must fail, every program, and the C model
# make bench  what an operation costs, in instructions, beside the C model

.PHONY: demo test bench model clean

CC ?= cc
CFLAGS = -std=c11 -O2 -Wall -Wextra -Werror

demo:
	@mkdir -p target
	@bash tools/programs monthend pmprun tapetext
	@target/bin/monthend
	@echo
	@echo "The tape examples/monthend.tape, as text and as pmprun answers it:"
	@target/bin/tapetext text < examples/monthend.tape > target/demo.text
	@target/bin/pmprun < examples/monthend.tape > target/demo.run
	@paste -d '\n' target/demo.text target/demo.run

test:
	@bash tools/test

bench:
	@bash tools/bench

model: target/model/calculator target/model/generate target/model/tape target/model/tapegen \
	target/model/bench

target/model/calculator: model/calculator.c model/bank.c model/bank.h
	@mkdir -p target/model
	@$(CC) $(CFLAGS) -o $@ model/calculator.c model/bank.c

target/model/generate: model/generate.c model/decimal.h model/draws.h
	@mkdir -p target/model
	@$(CC) $(CFLAGS) -o $@ model/generate.c

target/model/tape: model/tape.c model/records.c model/machine.c model/bank.c model/records.h \
	model/machine.h model/bank.h
	@mkdir -p target/model
	@$(CC) $(CFLAGS) -o $@ model/tape.c model/records.c model/machine.c model/bank.c

target/model/tapegen: model/tapegen.c model/decimal.h model/draws.h
	@mkdir -p target/model
	@$(CC) $(CFLAGS) -o $@ model/tapegen.c

target/model/bench: model/bench.c model/records.c model/machine.c model/bank.c model/decimal.h \
	model/records.h model/machine.h model/bank.h
	@mkdir -p target/model
	@$(CC) $(CFLAGS) -o $@ model/bench.c model/records.c model/machine.c model/bank.c

clean:
	rm -rf target
