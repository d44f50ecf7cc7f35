# make try      a first picture before anything is proved: framedbg runs unproved, and writes try.png
# make demo     proves and builds framedbg, finds the wrong colour of examples/house.json, and writes its image to demo.pam and demo.png
# make view     shows the sample capture in the browser, step by step
# make page     makes out/framedbg.html, the viewer with the program inside, as one file for a browser; with CAPTURE=.. another with that capture inside
# make release  makes out/framedbg-VERSION/, to hand out: the page, what make install puts somewhere as a tar file, a .deb and a wheel, a zip for Windows, and checksums
# make wheel    makes out/framedbg-VERSION-..whl, which pip and pipx install without the network
# make deb      makes out/framedbg_VERSION_amd64.deb, which apt installs and takes away
# make d3d11    makes out/play_d3d11.exe, which draws captures by Direct3D 11 on Windows and compares them with what is right
# make test     checks documents, and examples beside the gate: every proof from nothing, the edits that must fail, the tests, the programs; and then
#               what only the built program shows: its endings, its threads, its limits, each of its allocations refused, viewer, page, tools, its
#               installation. checks/test_parts.txt has the parts; at the end stand their minutes, and what was passed over since something isn't there;
#               with QUICK=1 what to run before a push, without wrong versions, the edits of edits/ and the second browser
# make bench    measures the program beside a plain loop in C, and prints ratios; no part of the gate
# make help     prints these lines
# make install  puts the program, its page, completions, viewer and documents below PREFIX; make uninstall takes them away

PROGRAM := crates/framedbg/out/framedbg
SAMPLE := examples/house.json
PREFIX ?= /usr/local
HOME_OF := $(DESTDIR)$(PREFIX)

.PHONY: all bench d3d11 deb demo help install page program release test take-frames test-blame test-driver test-fdb test-frames test-page test-viewer try uninstall view wheel wrong-blame wrong-driver wrong-fdb wrong-frames wrong-pages wrong-viewers

all: demo

help:
	@sed -n '/^#/!q;s/^# //p' Makefile

program:
	@build/build_program

# the same where it is missing alone
$(PROGRAM):
	@build/build_program

demo: program
	$(PROGRAM) run $(SAMPLE) < examples/house_find.session
	$(PROGRAM) image $(SAMPLE) > demo.pam
	tools/pam_to_png < demo.pam > demo.png
	@echo "demo.pam is the image, and demo.png its colours"
	@echo "now: make view"

try:
	@echo "framedbg is compiled with checks and run; nothing of it is proved in this way, make demo does that"
	cd crates/framedbg && rt try --data house.json=../../$(SAMPLE) -- image house.json > ../../try.pam
	tools/pam_to_png < try.pam > try.png
	@echo "try.png is the picture of $(SAMPLE)"

# ---- The viewer and the tools beside it
view: program
	tools/view $(SAMPLE)

page: program
	build/build_page $(if $(CAPTURE),--capture '$(CAPTURE)')

release: page d3d11
	build/release

wheel deb: $(PROGRAM)
	build/package $@

test-page: $(PROGRAM)
	tests/test_page.py

test-blame: $(PROGRAM)
	tests/test_blame.py
	tests/test_night.py

wrong-blame: $(PROGRAM)
	tests/wrong/blame_mutations.py

# the player for Direct3D 11, a program for Windows: out/play_d3d11.exe
d3d11:
	build/build_d3d11

test-driver: $(PROGRAM)
	tests/test_driver.py
	tests/test_d3d11.py

wrong-driver: $(PROGRAM)
	tests/wrong/driver_mutations.py
	tests/wrong/d3d11_mutations.py

test-fdb: $(PROGRAM)
	tests/test_endings.py
	tests/test_client.py
	tests/test_fdb.py

wrong-fdb: $(PROGRAM)
	tests/wrong/fdb_mutations.py

test-frames: $(PROGRAM)
	tests/test_captures.py
	tests/test_real_frames.py
	tests/test_converters.py
	tests/test_foreign_frames.py
	tests/test_frame_calls.py
	tests/test_qrenderdoc.py
	tests/test_old_frames.py
	checks/check_old_frames
	checks/check_documents --built

wrong-frames: $(PROGRAM)
	tests/wrong/real_frames_mutations.py

# takes frames of running programs anew, and compares them with what RenderDoc tells of them; docs/REAL_FRAMES.md says what has to be there
take-frames: $(PROGRAM)
	checks/check_frames

test-viewer: $(PROGRAM)
	tests/test_explain.py
	tests/test_tool_pages.py
	tests/test_mesh_to_capture.py
	tests/test_viewer.py

wrong-viewers: $(PROGRAM)
	tests/wrong/viewer_mutations.py

wrong-pages: $(PROGRAM)
	tests/wrong/page_mutations.py
# ----

bench: program
	benches/measure.py

test:
	checks/run_tests $(if $(QUICK),--quick)

install: program
	build/install '$(HOME_OF)'

uninstall:
	build/install --remove '$(HOME_OF)'
