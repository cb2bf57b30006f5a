# `make demo` proves, builds and runs the first example, and checks all example scripts. `make` lists the targets.

.PHONY: help demo test check clean

help:
	@echo "make demo    prove, build and run the first example, compare its trace, and check all example scripts"
	@echo "make test    the merge gate: every proof, must-fail edit, test and program"
	@echo "make check   prove every crate over what earlier runs kept"
	@echo "make clean   forget what earlier runs kept"

demo:
	@echo "== proving and building sipscript and the crates below it (some minutes the first time)"
	cd crates/sipscript && rt run -- sim ../../examples/one_options_is_answered.cfg ../../examples/one_options_is_answered.scn > ../../demo.out
	@echo "== the script"
	@cat examples/one_options_is_answered.cfg
	@echo "== what the proxy does"
	@cat demo.out
	@cmp demo.out examples/one_options_is_answered.out && echo "== as expected"
	@echo "== which of the example scripts are accepted"
	@for script in examples/*.cfg; do \
	    echo "$$script" && (cd crates/sipscript && rt run -- check ../../$$script) > demo.out; \
	    cat demo.out; grep -qx accepted demo.out || exit 1; \
	done
	@rm -f demo.out

test:
	rt ci

check:
	rt all check

clean:
	rm -rf crates/*/out
