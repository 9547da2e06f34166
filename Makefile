# make test:    all there is, as the gate runs it. Its last line is 'N passed, 0 failed'.
# make lib:     the static libraries for C, target/staticlib/libcrocktendril.a and libwear.a beside it.
# make example: builds and runs examples/c/two_tasks.c and wear.c, and compares what they print.
# make guide:   builds and runs the program in docs/GUIDE.md, and compares what it prints.
# make guide-sheets: runs and traces the step sheets in docs/GUIDE.md, and compares replies and traces with what stands there.
# make fuzz:    random calls at the C functions against the second program (CALLS, SEED), or one ROUND of a seed again.
# make bench:   the ratio to the Rust yardstick, the stack and the instructions of each step and of the wear task, the time of a sheet.
# make program: proves and builds the programs that run and that trace step sheets.
# make run:     proves and builds the program that runs step sheets, and runs SHEET (text or binary) on it.
# make trace:   the same with the program that traces them: the effects of SHEET's run, a line each.
# make sheet:   runs SHEET on the second program.
# make timeline: the run of SHEET in lanes, as text or (SVG=file.svg) as a picture.
# make second:  builds the second program, in oracle/.
# make sheets-test: compares run and trace with the second program on the examples, on bad sheets and on random ones (SEED).
SHEET ?= examples/sheets/s.txt
CALLS ?= 2000000
SEED ?= 1
# when this make began, so that the gate can say how long it took
BEGAN := $(shell date +%s)
LIBRARY := target/staticlib/libcrocktendril.a
WEAR := target/staticlib/libwear.a
# The crates that the library of a crate is made of, and their files. Folders count as files: one that lost a file is newer.
crates = $(1) $(shell sed -n 's/^$(1)\( staticlib\)*: //p' crates.txt)
sources = $(shell find crates.txt $(wildcard $(foreach part,src specs proofs,$(patsubst %,crates/%/$(part),$(call crates,$(1))))))
STRICT := -pedantic -Wall -Wextra -Werror -O2 -Iinclude
LINKED := oracle/linked/target/release
PROGRAM := target/bin/run
TRACER := target/bin/trace
SECOND := oracle/target/release
# the crates that ask nothing of a caller
BOUNDARIES := value call line apart stage sheet intake run tally telling effects trace crocktendril crocktendril_c wear wear_c
# the blocks of the guide that are marked so, one behind the other
blocks = awk '/^```$(1)$$/ { on = 1; next } /^```$$/ { on = 0 } on' docs/GUIDE.md

.PHONY: test lib program proved-run proved-trace example guide guide-sheets fuzz bench run trace sheet timeline second linked linked-test sheets-test

test:
	@echo "== layout of the second program (rt ci looks at that of the crates)"
	cd oracle && cargo fmt --check
	@echo "== nothing is asked of a caller at the boundaries"
	! grep -rnw requires $(foreach name,$(BOUNDARIES),$(wildcard crates/$(name)/src crates/$(name)/specs))
	@echo "== the headers in C89 and in C++"
	gcc -std=c89 -x c -fsyntax-only $(STRICT) examples/c/header.cpp examples/c/wear_header.cpp
	g++ -std=c++98 -fsyntax-only $(STRICT) examples/c/header.cpp examples/c/wear_header.cpp
	@echo "== the must-fail edits: their texts"
	python3 tools/edit_logs.py texts
	@echo "== the second program: its tests"
	cd oracle && cargo test --release --offline --quiet
	@echo "== proofs, must-fail edits, the libraries and what is linked with them (the first run on a machine takes long)"
	@BEGAN=$(BEGAN) tools/gate

# A static library is a crate of its own, NAME_c, over the library NAME; its archive has the library's name.
archive = cd crates/$(1)_c && rt lib && mkdir -p ../../target/staticlib && cp out/lib$(1)_c.a ../../target/staticlib/lib$(1).a

lib:
	$(call archive,crocktendril)
	$(call archive,wear)
	@echo "the libraries are $(LIBRARY) and $(WEAR)"

# where one is asked for, and is missing or older than what it is made of
$(LIBRARY): $(call sources,crocktendril_c)
	$(call archive,crocktendril)

$(WEAR): $(call sources,wear_c)
	$(call archive,wear)

program: proved-run proved-trace

proved-run proved-trace: proved-%:
	@echo "== the program $*, for step sheets: proofs and build (minutes from nothing, seconds if nothing has changed)"
	@mkdir -p target/bin
	cd crates/$* && rt run < stdin > /dev/null && cp out/$* ../../target/bin/$*

# The libraries link in either order.
example: $(LIBRARY) $(WEAR)
	@mkdir -p target/c
	gcc -std=c89 $(STRICT) examples/c/two_tasks.c $(LIBRARY) -o target/c/two_tasks
	target/c/two_tasks | tee target/c/two_tasks.out
	diff target/c/two_tasks.out examples/c/two_tasks.expected
	gcc -std=c89 $(STRICT) examples/c/wear.c $(LIBRARY) $(WEAR) -o target/c/wear
	target/c/wear | tee target/c/wear.out
	diff target/c/wear.out examples/c/wear.expected
	gcc -std=c89 $(STRICT) examples/c/wear.c $(WEAR) $(LIBRARY) -o target/c/wear
	target/c/wear > target/c/wear.out
	diff target/c/wear.out examples/c/wear.expected
	@echo "the examples printed what they should"

# The C blocks of the guide are one program, and what it prints stands under them.
guide: $(LIBRARY) $(WEAR)
	@mkdir -p target/c
	$(call blocks,c) > target/c/guide.c
	gcc -std=c89 $(STRICT) target/c/guide.c $(LIBRARY) $(WEAR) -o target/c/guide
	target/c/guide > target/c/guide.out
	$(call blocks,text) | diff - target/c/guide.out
	python3 docs/img/phases.py | diff - docs/img/phases.svg
	@echo "the guide's program printed what stands in the guide"

# What stands in the guide is what the proved programs print: ```replies, ```trace or both of the sheet before them, ```trace NAME of an example.
guide-sheets: program second
	rm -rf target/sheets/guide
	mkdir -p target/sheets/guide
	cp examples/sheets/*.txt target/sheets/guide
	awk -v to=target/sheets/guide/ '/^```sheet$$/ { ++sheet; file = to sheet ".txt"; next } \
		/^```(replies|trace)$$/ { file = to sheet "." substr($$1, 4); printf "" > file; next } \
		/^```trace / { file = to $$2 ".trace"; printf "" > file; next } /^```$$/ { file = "" } file { print > file }' docs/GUIDE.md
	set -e; for sheet in target/sheets/guide/[0-9]*.txt; do \
		test -e "$${sheet%.txt}.replies" -o -e "$${sheet%.txt}.trace" || { echo "$$sheet: neither replies nor a trace"; exit 1; }; \
	done
	set -e; for printed in target/sheets/guide/*.replies target/sheets/guide/*.trace; do \
		case "$$printed" in *.replies) program=$(PROGRAM);; *) program=$(TRACER);; esac; \
		$(SECOND)/sheet assemble "$${printed%.*}.txt" | $$program | diff -u "$$printed" -; \
	done
	@echo "the guide's sheets printed what stands in the guide, and so did their traces"

second:
	cd oracle && cargo build --release --offline --quiet

linked:
	cd oracle/linked && cargo build --release --offline --quiet

# What the gate runs once all is proved: the comparison on sheets, and what is linked with the libraries. They need
# nothing of their surroundings but memcpy and memset, and libwear.a has one function that others see.
linked-test: lib linked sheets-test guide-sheets
	test "$$(nm -u $(LIBRARY) | awk '$$1 == "U" { print $$2 }' | sort | xargs)" = "memcpy memset"
	test -z "$$(nm -u $(WEAR) | awk '$$1 == "U" && $$2 != "memcpy" && $$2 != "memset" { print $$2 }')"
	test "$$(nm -g --defined-only $(WEAR) | awk 'NF == 3 { print $$3 }' | xargs)" = "crocktendril_wear"
	$(MAKE) --no-print-directory example guide
	cd oracle/linked && cargo fmt --check
	$(LINKED)/fuzz seed=$(SEED)

# A sheet that a program answers otherwise than the second one is kept in target/sheets/failed.sheet.
sheets-test: program second
	@mkdir -p target/sheets
	$(SECOND)/compare $(PROGRAM) $(TRACER) examples/sheets seed=$(SEED) keep=target/sheets/failed.sheet

fuzz: lib linked
	$(LINKED)/fuzz calls=$(CALLS) seed=$(SEED) $(if $(ROUND),round=$(ROUND))

bench: lib linked second
	@mkdir -p target/c target/sheets
	gcc -std=c99 $(STRICT) oracle/linked/measure.c $(WEAR) $(LIBRARY) -Wl,-z,now -o target/c/measure
	$(LINKED)/bench
	$(SECOND)/sheet_time $(PROGRAM) $(TRACER) target/sheets
	{ $(LINKED)/bench cases; $(LINKED)/bench sheet; } | target/c/measure stack
	$(LINKED)/bench wear | target/c/measure wear-stack
	python3 oracle/linked/instructions.py $(LINKED)/bench target/c/measure

run: BIN = $(PROGRAM)
trace: BIN = $(TRACER)
run trace: %: proved-% second
	@mkdir -p target/sheets
	$(SECOND)/sheet assemble "$(SHEET)" > target/sheets/assembled
	mv target/sheets/assembled target/sheets/$@.sheet
	$(BIN) < target/sheets/$@.sheet

sheet: second
	$(SECOND)/sheet run "$(SHEET)"

# The run of SHEET in lanes: as text, or with SVG=file.svg as a picture.
timeline: second
	$(SECOND)/sheet show --timeline "$(SHEET)" $(if $(SVG),--svg "$(SVG)")
