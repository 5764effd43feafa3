# qimg    proves and builds the program, and leaves it as build/qimg
# tools   the same of qimg-tools, left as build/qimg-tools
# nbd     the same of qimg-nbd, left as build/qimg-nbd
# demo    makes an image in a new folder, writes a cluster and reads it back, by the program as it stands in the source, before any proof
# test    every proof, wrong bodies, every test, and the scripts under tests/; with ANEW=1 nothing is taken from what earlier runs proved
# bodies  every wrong body, or with names of crates behind it (make bodies qcow2_alloc) each of theirs
# bench   qimg beside QEMU's tools on the same work

ifeq ($(firstword $(MAKECMDGOALS)),bodies)

crates := $(wordlist 2, $(words $(MAKECMDGOALS)), $(MAKECMDGOALS))

.PHONY: bodies $(crates)

bodies:
	@tests/wrong_bodies.py $(or $(crates), --all)

$(crates): bodies ; @:

else

.PHONY: qimg tools nbd demo test bench

qimg:
	@mkdir -p build
	@folder=$$(mktemp -d) && trap 'rm -r "$$folder"' EXIT && \
	cd crates/qimg && rt run -- create "$$folder/disk.qcow2" 65536 512 16 none >&2
	@cp crates/qimg/out/qimg build/qimg

tools:
	@mkdir -p build
	@cd crates/qimg_tools && rt run -- --version >&2
	@cp crates/qimg_tools/out/qimg_tools build/qimg-tools

nbd:
	@mkdir -p build
	@cd crates/qimg_nbd && { rt run >&2 || test $$? -eq 2; }
	@cp crates/qimg_nbd/out/qimg_nbd build/qimg-nbd

demo:
	@folder=$$(mktemp -d) && trap 'rm -r "$$folder"' EXIT && cd crates/qimg && \
	try() { rt try -- "$$@" 2> "$$folder/told" || { cat "$$folder/told" >&2; false; }; } && \
	try create "$$folder/disk.qcow2" 65536 512 16 none && \
	printf 'fill 0 512 11\nflush\nread 0 4\n' | try run "$$folder/disk.qcow2"

test:
	@tests/all.py $(if $(ANEW), --anew)

bench: qimg nbd
	@tests/install.sh
	@bench/compare.py

endif
