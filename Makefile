# make run: the main job on the example. make test: the gate. make speed: ours against plain Rust, which is no part of
# the gate.
.PHONY: run test speed

run: target/bin/bedmake target/bin/cutlog target/bin/cutchart
	cd examples && ../target/bin/bedmake < plate.rows && ../target/bin/cutlog < plate.cues > plate.log && cat plate.log
	target/bin/cutchart < examples/plate.log > examples/plate.svg

# A program is proved before it is built; rt run also runs it, on no input.
target/bin/%: crates.txt $(shell find crates -path '*/out' -prune -o \( -name '*.rt' -o -name '*.antt' \) -print)
	cd crates/$* && rt run < /dev/null > /dev/null
	mkdir -p target/bin && cp crates/$*/out/$* $@

test:
	tools/gate

speed:
	cd crates/schedule_speed && rt lib
	mkdir -p target/staticlib && cp crates/schedule_speed/out/libschedule_speed.a target/staticlib/
	cargo run --release --quiet --manifest-path speed/Cargo.toml
