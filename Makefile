# make               proves the programs, builds them into bin/ (da65, as65, trace65, name65, move65, html65, open65), and lists an example.
#                    It proves three crates at a time if there are two processors and 12 GB of memory, or as many as -j says. It prints its
#                    progress: on a terminal in one line, otherwise each minute (or each EVERY seconds).
# make try           runs a program without proving anything, in three minutes: `make try IMAGE=my.bin START=0x8000` lists an image.
#                    INFO is an information file, OUT the file for what is printed, and PROGRAM another of the programs; IMAGE is its
#                    input. Without START and INFO, open65 says where an image lies, and PART chooses one of several parts. Without any
#                    of them, it lists an example. A word that is wrong is refused before anything is compiled.
# make test          the merge gate: every proof from nothing, the edits that must fail, the tests and the stored runs; then pytest
#                    on the programs that this built. Its last line is the result of `rt ci`.
#                    CA65=skip leaves out what needs cc65, CC=skip what needs a C compiler, and BROWSER=skip what needs a browser.
# make check         the same
# make wrong         tries the wrong bodies of tests/wrong that were not tried on these sources, over what `make` has kept
# make contracts     writes docs/contracts anew, after an intended change of public contracts
# make manual        writes docs/da65.info.5 anew, after a change of docs/INFORMATION_FILE.md
# make definitions   writes docs/DEFINITIONS.md anew, after a change of the comments at the head of definitions
# make proofs        writes the tables of docs/PROOFS.md anew, after a change of the comments of clauses
# make speed         counts instructions beside those of cc65's programs; needs cc65, valgrind and GNU time
# make install       installs the programs, the man pages, the completions for bash and zsh, the names of machines, and repair.mk under
#                    PREFIX, by default /usr/local. PROGRAM_PREFIX is put before the names of the programs, as in
#                    `make install PROGRAM_PREFIX=proved-`, and DESTDIR before PREFIX.
# make uninstall     removes them, with the same PREFIX, PROGRAM_PREFIX and DESTDIR
# make dist          makes a tarball in dist/ of what `make` has proved and built, with its sums, to try it without the prover
# make deb           makes a Debian package of it too, da65-proved; its da65 is called proved-da65, since cc65 has one
# make clean         removes what was built
# make help          prints this
#
# RTFLAGS goes to the prover, as in `make RTFLAGS="--jobs 1"`.
RTFLAGS ?=
PREFIX ?= /usr/local
PROGRAM_PREFIX ?=
DESTDIR ?=
SHELL := bash
# Debian's pytest, which has its xdist.
pytest = $(or $(shell command -v pytest-3),pytest)
.SHELLFLAGS := -eu -o pipefail -c
.PHONY: all kit try test check wrong contracts manual definitions proofs speed install uninstall dist deb clean help

# Crates that do not depend on each other are proved side by side, each with up to four jobs of its own; `make -j1` proves one at a time.
ifeq ($(shell [ "$$(nproc)" -gt 1 ] && awk '/^MemTotal/ { exit $$2 < 12000000 }' /proc/meminfo && echo wide),wide)
MAKEFLAGS += -j3
endif

all: kit bin/da65 bin/as65 bin/trace65 bin/name65 bin/move65 bin/html65 bin/open65
	bin/da65 examples/three.bin

# The kits of the prover that have proved this version, or that of the last change of a contract.
kits := rattle-kit-13f

kit:
	@kit=$$(rt version); kit=$${kit%% *}; case ' $(kits) ' in *" $$kit "*) ;; *) echo "proved with $(kits), not yet with $$kit" ;; esac

bin/da65: bin/made/da65_cli
	@cp crates/da65_cli/out/da65_cli $@

bin/as65 bin/trace65 bin/name65 bin/move65 bin/html65 bin/open65: bin/%: bin/made/%
	@cp crates/$*/out/$* $@

# Prints the progress of the crates that are being proved, from bin/made/CRATE.log. The first of them prints it for all, until it is
# proved: on a terminal one line, renewed every 2 seconds, elsewhere a line every minute, or every EVERY seconds.
define PROGRESS
crate=$$1
every=$${EVERY:-60}
[ ! -t 1 ] || every=$${EVERY:-2}
for ((second = 1; ; second++)); do
    sleep 1
    rooms=(bin/made/*.room)
    [ -e "bin/made/$$crate.room" ] || exit 0
    [ "$${rooms[0]}" = "bin/made/$$crate.room" ] && ((second % every == 0)) || continue
    line=
    for room in "$${rooms[@]}"; do
        far=$$(sed -nE 's/^so far: ([0-9]+ of [0-9]+) functions checked.*/\1/p' "$${room%.room}.log" 2>/dev/null | tail -n 1)
        line+=$${far:+$${line:+, }$$(basename "$$room" .room) $$far}
    done
    [ -n "$$line" ] || continue
    if [ -t 1 ]; then printf '\r\033[K%s functions' "$$line"; else echo "$$line functions"; fi
done
endef
export PROGRESS

# A crate is proved once the crates below it are, by the lines of crates.txt; a program is also run, for its version. Then a line says how
# long that took, and bin/made/CRATE has the kit, and what the prover said. rt locks the crates that it reads, so a crate is proved in a
# folder of its own, with links to its sources and to the libraries below. bin/da65 comes first: the crates that it does not stand on give
# way, and the other programs wait for it.
crates := $(shell sed -nE 's/^([a-z0-9_]+):.*/\1/p' crates.txt)
programs := da65_cli as65 trace65 name65 move65 html65 open65
direct = $(filter $(crates),$(shell sed -nE 's/^$(1)://p' crates.txt))
below = $(sort $(foreach name,$(call direct,$(1)),$(name) $(call below,$(name))))
first := da65_cli $(call below,da65_cli)
clear_line = if [ -t 1 ]; then printf '\r\033[K'; fi
define crate
bin/made/$(1): $(patsubst %,bin/made/%,$(call direct,$(1))) \
    $(shell find crates/$(1) -name out -prune -o -path '*/src/*' -print -o -name '*.antt' -print) \
    $(if $(filter $(filter-out $(first),$(programs)),$(1)),| bin/made/da65_cli)
	@begin=$$$$SECONDS; room=bin/made/$(1).room; rm -rf $$$$room; mkdir -p $$$$room; \
	    cp -al --parents crates.txt HANDLES crates/*/{src,specs,proofs} $(patsubst %,crates/%/out/rlib,$(call below,$(1))) $$$$room; \
	    [ ! -d crates/$(1)/out ] || mv crates/$(1)/out $$$$room/crates/$(1); \
	    bash -c "$$$$PROGRESS" progress $(1) & \
	    trap "[ ! -d $$$$room/crates/$(1)/out ] || mv $$$$room/crates/$(1)/out crates/$(1); rm -r $$$$room" EXIT; \
	    (cd $$$$room/crates/$(1) && rt version && $(if $(filter $(1),$(first)),,nice) \
	        rt $(if $(filter $(1),$(programs)),run $$(RTFLAGS) -- --version,lib $$(RTFLAGS))) >$$@.log 2>&1 || \
        { $$(clear_line); tail -n 20 $$@.log; exit 1; }; \
	    $$(clear_line); printf '%-10s proved in %d seconds\n' $(1) $$$$((SECONDS - begin)); mv $$@.log $$@
endef
$(foreach name,$(crates),$(eval $(call crate,$(name))))

# The program sees copies of the input, of the information file and of the files that this one names: from the current folder, or beside it.
# All words are looked at before the program is compiled. If no word says where an image lies, open65 is compiled and asked first.
define TRY
fails() { echo "try: $$1" >&2; exit 1; }
words=() data=()
give() { data+=(--data "$$1=$$(realpath -- "$$2")"); }
[[ " $(tried) " == *" $$PROGRAM "* ]] || fails "PROGRAM is one of $(tried): $$PROGRAM"
[ -z "$$OUT" ] || [ ! -e "$$OUT" ] || fails "there is a file $$OUT"
[ "$$OUT" = "$${OUT%/*}" ] || [ -d "$${OUT%/*}" ] || fails "there is no folder $${OUT%/*}"
[ -n "$$START" ] || [ -z "$$is_given" ] || fails 'START is empty: write START=0xFC00, or put quotes around $$FC00'
if [ -n "$$START" ]; then
    start=$$(sed -E 's/^\$$+/0x/' <<<"$$START")
    [[ $$start =~ ^(0[xX]0*[0-9a-fA-F]{1,4}|0|[1-9][0-9]{0,4})$$ ]] && ((start < 65536)) ||
        fails "START is an address such as 0xFC00, '\$$FC00' or 64512: $$START"
    words+=(-S "$$start")
fi
[ -z "$$IMAGE" ] || [ -f "$$IMAGE" ] || fails "there is no file $$IMAGE"
opened=
if [ -n "$$IMAGE" ] && [ -z "$$START$$INFO" ] && [[ $$PROGRAM = @(da65|trace65) ]]; then
    opened=$$(mktemp -d)
    trap 'rm -r "$$opened"' EXIT
    (image=$$(realpath -- "$$IMAGE"); cd crates/open65; rt try -- -d "$$opened" --machine none "$$image" </dev/null >"$$opened/lines")
    sed 's/^/try: /' "$$opened/lines" >&2
    chosen=$$(awk -F '  +' '$$3 ~ /\.info$$/ && (ENVIRON["PART"] == "" || $$1 == ENVIRON["PART"]) { print $$3; exit }' "$$opened/lines")
    [ -n "$$chosen" ] || fails "there is no part $$PART in $$IMAGE"
    [ "$$(grep -c '\.info\b' "$$opened/lines")" = 1 ] || [ -n "$$PART" ] || echo "try: $$chosen is listed: PART chooses another" >&2
    IMAGE= INFO=$$opened/$$chosen
fi
if [ -n "$$INFO" ]; then
    [ -f "$$INFO" ] || fails "there is no file $$INFO"
    words+=(-i "$${INFO##*/}")
    while IFS='"' read -r _ name _; do
        [[ $$name != /* ]] || [ ! -f "$$name" ] || continue
        file=$$name
        [ -f "$$file" ] || file=$$(dirname "$$INFO")/$$name
        [ -f "$$file" ] || fails "there is no file $$name, which $$INFO names"
        give "$$name" "$$file"
    done < <(sed -E 's/^(([^"#/]|\/[^/]|"[^"]*")*)(#|\/\/).*/\1/' "$$INFO" | grep -oiE '\b(FILE|INPUTNAME)\s*"[^"]*"')
    give "$${INFO##*/}" "$$INFO"
fi
[ -n "$$IMAGE$$INFO" ] || IMAGE=examples/three.bin
if [ -n "$$IMAGE" ]; then
    words+=("$${IMAGE##*/}")
    give "$${IMAGE##*/}" "$$IMAGE"
fi
if [ -n "$$OUT" ]; then
    out=$$(realpath -m -- "$$OUT")
    exec >"$$out"
    trap '[ -s "$$out" ] || rm -f "$$out"; [ -z "$$opened" ] || rm -r "$$opened"' EXIT
fi
[ "$$PROGRAM" != da65 ] || PROGRAM=da65_cli
cd "crates/$$PROGRAM"
rt try "$${data[@]}" -- "$${words[@]}" </dev/null
endef
tried := $(subst da65_cli,da65,$(programs))
PROGRAM ?= da65
export TRY IMAGE INFO OUT PROGRAM PART

# START is taken as it was given: make would read `$F` as a variable.
try:
	@START='$(subst ','\'',$(value START))' is_given=$(filter command,$(origin START)) bash -eu -c "$$TRY" try

test:
	@mkdir -p bin
	@python3 tests/lint | tee bin/lint.log
	@$(pytest) -q -n auto tests/test_make.py
	@echo 'Everything from nothing: docs/GATE.md says how long that takes. bin/gate.log keeps what the prover says.'
	@rt ci 2>&1 | tee bin/gate.log
	@tests/proof_cost
	@cp crates/da65_cli/out/da65_cli bin/da65
	@cp crates/as65/out/as65 bin/as65
	@cp crates/trace65/out/trace65 bin/trace65
	@cp crates/name65/out/name65 bin/name65
	@cp crates/move65/out/move65 bin/move65
	@cp crates/html65/out/html65 bin/html65
	@cp crates/open65/out/open65 bin/open65
	@$(pytest) -q -n auto --ignore tests/test_make.py tests
	@grep 'left out: ' bin/lint.log || true
	@tail -n 1 bin/gate.log

check: test

wrong:
	@tests/wrong_bodies

contracts:
	python3 tests/lint --write contracts

manual:
	python3 tests/lint --write manual

definitions:
	python3 tests/lint --write page

proofs:
	python3 tests/lint --write proofs

speed: $(patsubst %,bin/%,da65 as65 trace65 name65 html65)
	@$(pytest) -q -n auto tests/test_speed.py

share := $(DESTDIR)$(PREFIX)/share

install: bin/da65 bin/as65 bin/trace65 bin/name65 bin/move65 bin/html65 bin/open65
	@for program in da65 as65 trace65 name65 move65 html65 open65; do \
	    name='$(PROGRAM_PREFIX)'$$program; \
	    install -D -m 755 bin/$$program "$(DESTDIR)$(PREFIX)/bin/$$name"; \
	    install -D -m 644 docs/$$program.1 "$(share)/man/man1/$$name.1"; \
	    for file in "bash $(share)/bash-completion/completions/" "zsh $(share)/zsh/site-functions/_"; do \
	        bin/$$program -h | completions/from-help "$${file%% *}" "$$name" | \
	            install -D -m 644 /dev/stdin "$${file#* }$$name"; \
	    done; \
	done
	@install -D -m 644 docs/da65.info.5 '$(share)/man/man5/$(PROGRAM_PREFIX)da65.info.5'
	@install -D -m 644 -t '$(share)/$(PROGRAM_PREFIX)da65/names' names/*.inc names/*.info
	@install -D -m 644 -t '$(share)/$(PROGRAM_PREFIX)da65/names/chips' names/chips/*.inc
	@sed 's|^PROGRAMS ?=.*|PROGRAMS ?= $(PREFIX)/bin/$(PROGRAM_PREFIX)|' share/repair.mk | \
	    install -D -m 644 /dev/stdin '$(share)/$(PROGRAM_PREFIX)da65/repair.mk'

uninstall:
	@for name in '$(PROGRAM_PREFIX)da65' '$(PROGRAM_PREFIX)as65' '$(PROGRAM_PREFIX)trace65' '$(PROGRAM_PREFIX)name65' \
	    '$(PROGRAM_PREFIX)move65' '$(PROGRAM_PREFIX)html65' '$(PROGRAM_PREFIX)open65'; do \
	    rm -f "$(DESTDIR)$(PREFIX)/bin/$$name" "$(share)/man/man1/$$name.1" \
	        "$(share)/bash-completion/completions/$$name" "$(share)/zsh/site-functions/_$$name"; \
	done
	@rm -f '$(share)/man/man5/$(PROGRAM_PREFIX)da65.info.5' '$(share)/$(PROGRAM_PREFIX)da65/repair.mk' \
	    $(patsubst names/%,'$(share)/$(PROGRAM_PREFIX)da65/names/%',$(wildcard names/*.in* names/*/*.inc))
	@rmdir '$(share)/$(PROGRAM_PREFIX)da65/'{names/chips,names,} 2>/dev/null || true

# Who installs before anything is proved learns what begins.
ifneq ($(filter install,$(MAKECMDGOALS)),)
ifneq ($(filter-out $(wildcard bin/made/*),$(programs:%=bin/made/%)),)
$(info Not proved yet: that begins now, and takes about an hour. Ctrl-C stops it, and `make` goes on from what is proved then.)
endif
endif

# CHANGELOG.md begins with the version.
VERSION = $(shell sed -n 's/^## //p' CHANGELOG.md | head -n 1)
binaries := $(patsubst %,bin/%,$(patsubst da65_cli,da65,$(programs)))

dist:
	@release/tarball '$(VERSION)' $(binaries)

deb: dist
	@release/package '$(VERSION)'

help:
	@sed -n '/^#/!q; s/^#\( \|$$\)//p' Makefile

clean:
	rm -rf bin crates/*/out
