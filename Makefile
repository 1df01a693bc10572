# make build: the program, as out/cellhost. make run: the program on a real request. make try: the same without a proof, soon.
# make test: every proof and test. make times: where the gate's time goes.
GUID := 00112233-4455-6677-8899-aabbccddeeff
REQUEST := crates/cell_host/stdin

.PHONY: help build run try test times kit

help:
	@echo 'make build  proves and builds the program, as out/cellhost; it says how far it is'
	@echo 'make run    builds it, and answers a real request'
	@echo 'make try    answers the same request within minutes, by a program of which nothing is proved'
	@echo 'make test   runs the gate: every proof, must-fail edit, test and program'
	@echo 'make times  runs the gate from nothing, and tells where its time goes'

kit:
	@command -v rt > /dev/null || { echo "cellhost: the Rattle kit's command rt is not on the PATH" >&2; exit 1; }

build: kit
	@scripts/build

run: build
	@echo 'request: a client asks for 1,000 numbers of extended GUIDs'; od -An -v -tx1 $(REQUEST)
	@echo 'response: the host grants the numbers 1 to 1,000 of the GUID'; out/cellhost answer $(GUID) < $(REQUEST) | od -An -v -tx1

try: kit
	@echo 'building the program without a proof, in a minute or two; make run proves it first'
	@echo 'request: a client asks for 1,000 numbers of extended GUIDs'; od -An -v -tx1 $(REQUEST)
	@cd crates/cell_host && rt try -- answer $(GUID) < stdin > ../../try.out 2> ../../try.log || { cat ../../try.log >&2; exit 1; }
	@echo 'response, of a program that is not proved: the host grants the numbers 1 to 1,000 of the GUID'; od -An -v -tx1 try.out; rm -f try.out try.log

test: kit
	@.ci/run

times: kit
	@scripts/gate-times
