# The two commands of the README, and nothing else.
.PHONY: run test

# Proves and builds the main program, and shows what it does.
run:
	@cd crates/fetch_plan && rt run

# The gate.
test:
	@.ci/run
