# make run: proves what the program needs, builds it, and runs the first example through it.
# make test: the merge gate, which proves every crate and runs every test and program.
# make install PREFIX=/usr/local: the built programs, man pages, and completion. make clean: removes what was built.
PREFIX ?= /usr/local
PROGRAMS = vduse
BUILT = $(foreach name,$(PROGRAMS),crates/$(name)/out/$(name))

.PHONY: run test man install clean
run:
	@echo "Proving what vduse needs, and building it: some minutes the first time."
	@cd crates/vduse && rt run -- run < ../../examples/first.script

test:
	@rt ci

man:
	tools/man_page vduse 1 "the kernel side of VDUSE and a block daemon, as a script asks them" docs/RUNNING.md > docs/man/vduse.1
	tools/man_page vduse-script 5 "the lines that vduse run answers" docs/SCRIPT.md > docs/man/vduse-script.5

install: $(BUILT)
	install -d $(DESTDIR)$(PREFIX)/bin $(DESTDIR)$(PREFIX)/share/man/man1 $(DESTDIR)$(PREFIX)/share/man/man5
	install -d $(DESTDIR)$(PREFIX)/share/bash-completion/completions
	install -m 755 $(BUILT) $(DESTDIR)$(PREFIX)/bin
	install -m 644 docs/man/*.1 $(DESTDIR)$(PREFIX)/share/man/man1
	install -m 644 docs/man/*.5 $(DESTDIR)$(PREFIX)/share/man/man5
	install -m 644 contrib/completion/vduse $(DESTDIR)$(PREFIX)/share/bash-completion/completions

$(BUILT):
	@echo "$@ isn't built: make run first" >&2; exit 1

clean:
	rm -rf crates/*/out
