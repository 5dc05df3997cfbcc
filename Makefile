# make: the command target/bev over the static library, which the Rattle kit proves and builds where it is older than the crates.
# make programs: the proved programs crates/listing/out/listing and crates/check_file/out/check_file, likewise.
# make sanitized: the same with the sanitizers. make install PREFIX=DIR: bev, the library, its header and its pkg-config file.
PREFIX ?= /usr/local
CC = gcc
CFLAGS ?= -O2 -g
WARN = -std=c11 -Wall -Wextra -Wpedantic -Wshadow -Wconversion -Werror

LIB = target/staticlib/libbevaridhom.a
SOURCES = $(addprefix host/, bev.c files.c refuse.c records.c show.c tables.c rebuild.c goals.c clash.c wishes.c overview.c rooms.c steps.c cnf.c dimacs.c)
HEADERS = host/bev.h host/refusals.h include/bevaridhom.h
PROGRAMS = crates/listing/out/listing crates/check_file/out/check_file
CRATES := $(shell find crates/*/src -name '*.rt')
VERSION = $(shell awk '/BEV_VERSION_(MAJOR|MINOR) / { v = v dot $$3; dot = "." } END { print v }' include/bevaridhom.h)

all: target/bev

$(LIB): $(CRATES)
	tools/archive

# rt run builds a program and runs it, here on nothing
$(PROGRAMS): $(CRATES)
	rm -f $@
	cd $(@D)/.. && { rt run < /dev/null > /dev/null || test -x out/$(@F); }

programs: $(PROGRAMS)

target/bev: $(SOURCES) $(HEADERS) $(LIB)
	$(CC) $(WARN) $(CFLAGS) $(SOURCES) $(LIB) -o $@

target/bev-sanitized: $(SOURCES) $(HEADERS) $(LIB)
	$(CC) $(WARN) -O1 -g -fsanitize=address,undefined -fno-sanitize-recover=all $(SOURCES) $(LIB) -o $@

sanitized: target/bev-sanitized

target/bevaridhom.pc: host/bevaridhom.pc.in include/bevaridhom.h Makefile FORCE
	sed -e 's|@PREFIX@|$(PREFIX)|' -e 's|@VERSION@|$(VERSION)|' $< > $@

install: target/bev target/bevaridhom.pc
	install -d $(DESTDIR)$(PREFIX)/bin $(DESTDIR)$(PREFIX)/include $(DESTDIR)$(PREFIX)/lib/pkgconfig
	install target/bev $(DESTDIR)$(PREFIX)/bin/bev
	install -m 644 include/bevaridhom.h $(DESTDIR)$(PREFIX)/include/bevaridhom.h
	install -m 644 $(LIB) $(DESTDIR)$(PREFIX)/lib/libbevaridhom.a
	install -m 644 target/bevaridhom.pc $(DESTDIR)$(PREFIX)/lib/pkgconfig/bevaridhom.pc

FORCE:

.PHONY: all programs sanitized install FORCE
