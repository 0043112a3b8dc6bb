# docs/CONTRIBUTING.md says more of each target. Each works from any folder, as `make -s -C FOLDER TARGET`.
HERE := $(dir $(lastword $(MAKEFILE_LIST)))
PREFIX ?= /usr/local

.PHONY: help run quick build install deb test edits try refused-memory bench demo

help:
	@echo 'make run              builds the program unproved, once, and shows a first playlist and a first request that is held'
	@echo 'make quick            builds that program alone, and prints its path'
	@echo 'make build            proves and builds the program'
	@echo 'make install          does that and copies it to PREFIX/bin, and its manual page to PREFIX/share/man (PREFIX=$(PREFIX))'
	@echo 'make deb              proves and builds the program, and makes a Debian package of it in packaging/out (PROGRAM=PATH packages another)'
	@echo 'make test             proves and tests everything from nothing'
	@echo 'make edits            tries all deliberate bugs that the prover must refuse (CRATES="NAME .." those of some crates)'
	@echo 'make try              runs each row of input and output on the program before it is proved, with checks'
	@echo 'make refused-memory   refuses each allocation of the program in turn'
	@echo 'make bench            measures speed and memory'
	@echo 'make demo             shows a picture with sound in a browser, before anything is proved: ffmpeg, push, serve and a page (PORT=8080; LLHLS=PATH takes another program)'

# (what builds the quick program says if there is no kit)
run:
	@$(HERE)tests/run.sh

quick:
	@$(HERE)tests/lib/quick.sh

build: kit
	@$(HERE)tests/build.sh

install: kit
	@program=$$($(HERE)tests/program.sh) && mkdir -p "$(DESTDIR)$(PREFIX)/bin" && install -m 755 "$$program" "$(DESTDIR)$(PREFIX)/bin/llhls"
	@install -D -m 644 "$(HERE)docs/llhls.1" "$(DESTDIR)$(PREFIX)/share/man/man1/llhls.1"

# (a program that is there needs no kit)
deb: $(if $(PROGRAM)$(LLHLS),,kit)
	@$(HERE)packaging/deb.sh

test: kit
	@$(HERE)tests/all.sh

edits: kit
	@$(HERE)tests/edits.sh $(CRATES)

try:
	@$(HERE)tests/program/try_rows.sh

refused-memory: kit
	@$(HERE)tests/program/refused_memory.sh

bench: kit
	@$(HERE)bench/replay.sh
	@$(HERE)bench/apply.sh
	@$(HERE)bench/check.sh
	@$(HERE)bench/growth.sh
	@$(HERE)bench/releases.sh
	@$(HERE)bench/waiting.sh
	@$(HERE)bench/connections.sh
	@$(HERE)bench/serve.sh
	@$(HERE)bench/secrets.sh
	@$(HERE)bench/media.sh
	@$(HERE)bench/rotate.sh
	@$(HERE)bench/spool.sh
	@$(HERE)bench/push.sh
	@$(HERE)bench/players.py
	@$(HERE)bench/soak.sh

demo:
	@exec $(HERE)examples/demo.sh

.PHONY: kit
kit:
	@command -v rt >/dev/null || { echo 'rt, the command of the Rattle kit, is not on the path: README.md, "The kit"' >&2; exit 1; }
