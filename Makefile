# Installs the archive, the shared library made from it, the header, pkg-config files, the manual pages, the Python module
# and the program. `rt lib` in crates/misqafur writes the archive, `rt run` in crates/misqafur_cli the program.
# A relative PREFIX or LIBDIR begins at this folder. PYTHONDIR is where the Python module goes (tools/install says where that is).

PREFIX = /usr/local
LIBDIR = $(PREFIX)/lib
PYTHONDIR =
ARCHIVE = crates/misqafur/out/libmisqafur.a
PROGRAM = crates/misqafur_cli/out/misqafur_cli
export PREFIX LIBDIR PYTHONDIR DESTDIR ARCHIVE PROGRAM

.PHONY: shared install uninstall check-install

# The shared library alone, in target/shared, where the Python module finds it from within the repository.
shared: $(ARCHIVE)
	tools/shared '$(ARCHIVE)' target/shared

install: shared $(PROGRAM)
	tools/install

uninstall:
	tools/install --remove

# Installs into folders of its own, builds the example host with what pkg-config says, and runs all that was installed.
check-install:
	examples/check
