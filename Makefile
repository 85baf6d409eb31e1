.PHONY: test year head head-rust day volume mend bench

# The year or the date to print, the years of a volume, the file of a scratched one
# and that of the mended. It is anybody's text: make
# takes it as it was given, and a recipe gets it by the environment, so that
# neither make nor the shell runs it.
YEAR ?= 293997
PLACE ?= 0
DAY ?= 1
FIRST ?= 293996
LAST ?= 293998
SCRATCHED ?= scratched
MENDED ?= mended
override YEAR := $(value YEAR)
override PLACE := $(value PLACE)
override DAY := $(value DAY)
override FIRST := $(value FIRST)
override LAST := $(value LAST)
override SCRATCHED := $(value SCRATCHED)
override MENDED := $(value MENDED)
export YEAR PLACE DAY FIRST LAST SCRATCHED MENDED

library = target/staticlib/libxinghe.a
sources := $(shell find crates -name out -prune -o \( -name '*.rt' -o -name '*.antt' \) -print) crates.txt

need_rt = command -v rt >/dev/null || \
	{ echo 'rt is not there: the Rattle kit has to be on the PATH, see README.md' >&2; exit 1; }
# Runs $(1); what it writes goes to target/$(2) and is shown where it fails.
quietly = mkdir -p target && { $(1) >target/$(2) 2>&1 || \
	{ tail -n 20 target/$(2) >&2; echo '$(1) failed; its lines are in target/$(2)' >&2; exit 1; }; }

# The gate: everything proved, every wrong program refused, every program run. The toolchain takes over what it passed before, on this
# machine and with the same files.
test:
	@$(need_rt)
	.ci/run

# A year as the year printer writes it.
year:
	@$(need_rt)
	@$(call quietly,tools/build year_printer,year.log)
	@printf '%s\n' "$$YEAR" | target/bin/year_printer

# The head of a year by the library, from C and from Rust.
head: $(library)
	@cc -Iinclude examples/head.c $(library) -o target/head
	@target/head "$$YEAR"

head-rust: $(library)
	@cd rust && cargo run --quiet --release --offline --package xinghe --example head -- "$$YEAR"

# The day of a date and its name by the library.
day: $(library)
	@cc -Iinclude examples/day.c $(library) -o target/day
	@target/day "$$YEAR" "$$PLACE" "$$DAY"

# The volume of the years from FIRST to LAST as the volume writer writes it: bytes
# and no text, for a file or a pipe. From another folder `make -sC`, since make -C
# alone writes lines of its own among them.
volume:
	@$(need_rt)
	@$(call quietly,tools/build volume_writer,volume.log)
	@printf '%s %s\n' "$$FIRST" "$$LAST" | target/bin/volume_writer

# The volume in the file SCRATCHED, mended and written to the file MENDED; the indices
# of its damaged blocks and their number are printed. What the mending program writes
# is taken apart by the length of the volume, which is that of the scratched one.
# Refused, MENDED isn't written.
mend:
	@$(need_rt)
	@$(call quietly,tools/build mend,mend.log)
	@target/bin/mend <"$$SCRATCHED" >target/mend.out || exit 1; \
	case "$$(head -n 1 target/mend.out)" in refused*) cat target/mend.out; exit 1;; esac; \
	bytes=$$(($$(wc -c <"$$SCRATCHED"))); \
	tail -c "$$bytes" target/mend.out >"$$MENDED" && head -c "-$$bytes" target/mend.out

$(library): $(sources)
	@$(need_rt)
	@$(call quietly,tools/build xinghe,staticlib.log)

# The proved library against plain Rust, as ratios.
bench:
	@$(need_rt)
	tools/build xinghe
	cd rust && cargo run --release --offline --package bench
