# What people type first; `make help` lists it. No rule has logic of its own: each calls a script that works by itself.
.PHONY: help run play why test prove lib python install packages page setup clean
.DEFAULT_GOAL := help
SCRIPT ?= examples/first_datagram.txt
CAPTURE ?= examples/play/faults.pcap
PREFIX ?= $(HOME)/.local
FOLDER ?= out
# The scripts read it: they then build without a proof.
export TRIAL := $(TRIAL)
# $(call need,COMMAND,WHERE IT COMES FROM) ends the rule with one line and status 2 if a command isn't there.
need = command -v $(1) > /dev/null || { echo "make $@: there is no $(1): $(2)" >&2; exit 2; }
rt = $(call need,rt,install the Rattle toolchain and put its folder bin on the path (README.md))
python = $(call need,python3,apt-get install python3)
cc = $(call need,$(or $(CC),cc),apt-get install gcc)

help:
	@echo "make run [SCRIPT=FILE]       play a script by bsdudp and show each line with its reply; compiled in a minute or two, unproved"
	@echo "make play SCRIPT=FILE        play a script by bsdplay, which says what happens to each packet"
	@echo "make why [CAPTURE=FILE]      read a capture by bsdplay why, which says why its packets were dropped"
	@echo "make test [K=WORD]           run the tests that need no proof: 3 minutes; with K those with WORD in their name"
	@echo "make prove                   run the gate: prove everything and run every test: about 80 minutes on four processors"
	@echo "make lib [FOLDER=out]        prove the C library and build it in FOLDER; with TRIAL=1 in a minute or two, without a proof"
	@echo "make python [FOLDER=out]     the same with the Python package, in FOLDER/python"
	@echo "make install [PREFIX=..]     prove the C library and install it below PREFIX; with TRIAL=1 without a proof"
	@echo "make packages [FOLDER=out]   make the Debian packages of what make prove has built"
	@echo "make page                    make the web page page/out/bsdudp.html; with TRIAL=1 page/out/unproved/bsdudp.html"
	@echo "make setup                   install Debian's packages for the whole gate (or print the command, if not root)"
	@echo "make clean                   remove all that was built"

run:
	@$(python)
	@tools/play "$(SCRIPT)"

play:
	@$(python)
	@tools/play --people "$(SCRIPT)"

why:
	@$(python)
	@tools/play --why "$(CAPTURE)"

test:
	@$(python)
	@.ci/quick $(if $(K),-k "$(K)")

prove:
	@$(python)
	@$(rt)
	@.ci/run

lib:
	@$(python)
	@$(rt)
	@$(cc)
	@capi/build "$(FOLDER)"

python:
	@$(python)
	@$(rt)
	@$(cc)
	@python/build "$(FOLDER)/python"

install:
	@$(python)
	@$(rt)
	@$(cc)
	@capi/install "$(PREFIX)"

packages:
	@$(python)
	@$(call need,dh,apt-get install debhelper dh-python)
	@dist/deb "$(FOLDER)"

page:
	@$(python)
	@$(rt)
	@$(call need,wasm-opt,apt-get install binaryen)
	@page/build

setup:
	@.ci/setup

clean:
	rm -rf out crates/*/out page/out portable/out
