# What a user runs:
#   make demo     runs an example, built without a proof: the first thing to try
#   make ledger   proves all that the program stands on, crate by crate, and leaves it as ./ledger
#   make test     passes the gate: each proof, edit that must fail, test and program
.PHONY: demo test

demo:
	@mkdir -p out
	@echo 'demo: built by rt try, which proves nothing; make ledger proves the same program' >&2
	@(cd crates/ledger_main && rt try -- trace) < examples/two_adds.job 2> out/demo.log || { cat out/demo.log >&2; exit 1; }

test:
	@rt ci

# The crates below the program, the lowest first, as they stand in crates.txt.
below = $(shell tac crates.txt | awk -F '[: ]+' '$$1 == "ledger_main" || $$1 in below { for (i = 2; i <= NF; i++) below[$$i] } $$1 in below { print $$1 }' | tac)

not_proved = { tail -n 40 out/ledger.log; echo 'not proved: all that rt says is in out/ledger.log'; exit 1; } >&2

# Where a proof fails, no older program is left.
ledger: HANDLES crates.txt $(shell find crates -type f \( -name '*.rt' -o -name '*.antt' \) -not -path '*/out/*')
	@rm -f $@; mkdir -p out; : > out/ledger.log
	@for crate in $(below); do \
		(cd crates/$$crate && rt lib) >> out/ledger.log 2>&1 || $(not_proved); \
		echo "proved $$crate"; \
	done
	@(cd crates/ledger_main && rt run -- trace) < examples/two_adds.job > out/ledger.report 2>> out/ledger.log || $(not_proved)
	@echo 'proved ledger_main'
	@cmp out/ledger.report examples/two_adds.report
	@cp crates/ledger_main/out/ledger_main $@
