# Builds and checks rauc with the Rattle toolchain's command `rt`. Nothing is downloaded, and no
# command needs root.

program := build/rauc
sources := crates.txt $(shell find crates -name '*.rt' -o -name '*.antt' | grep -v /out/)

.PHONY: all demo bench check clean

all: $(program)

# A proved program. `rt run` proves it and all below it, and only then builds and runs it (here with
# no words, which is bad usage). What is proved it keeps in crates/*/out, which git ignores.
build/%: $(sources)
	@mkdir -p build
	@echo "proving and building $*; all of rauc takes about half an hour the first time, on four cores (build/$*.log tells how far it is)"
	@rm -f crates/$*/out/$* crates/$*/out/$*.stamp
	@cd crates/$* && rt run > ../../build/$*.log 2>&1; test -x out/$* || { tail -n 20 ../../build/$*.log; exit 1; }
	@cp crates/$*/out/$* $@

demo: $(program)
	@bash demo/write_slot.sh $(program)
	@bash demo/install.sh $(program)

bench: $(program) build/hash_file build/message_speed
	@bash bench/write_slot.sh $(program)
	@bash bench/install.sh $(program)
	@bash bench/configuration.sh $(program)
	@bash bench/manifest.sh $(program)
	@bash bench/status.sh $(program)
	@bash bench/messages.sh build/message_speed

check:
	.ci/run

clean:
	rm -rf build crates/*/out
