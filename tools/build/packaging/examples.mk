# Builds the programs of this folder over the library of the package that the folder is in, or else over the library of the system:
#   make            builds remote_io, gateway and play
#   make check      plays each trace through the library, and compares what is printed
#   make clean
# Nothing but a C compiler and make is used. EIP=".." names a library elsewhere.
HERE := $(dir $(abspath $(lastword $(MAKEFILE_LIST))))
CFLAGS ?= -O2 -Wall -Wextra
ifneq ($(wildcard $(HERE)../lib/libeip.a),)
EIP ?= -I$(HERE)../include $(HERE)../lib/libeip.a
else
EIP ?= -leip
endif
PROGRAMS := $(basename $(wildcard *.c))
TRACES := $(wildcard *.trace)

all: $(PROGRAMS)

%: %.c
	$(CC) -std=c99 $(CFLAGS) $< $(EIP) $(LDFLAGS) -o $@

check: play
	@for trace in $(basename $(TRACES)); do ./play < $$trace.trace | cmp - $$trace.out || exit 1; done
	@echo "$(words $(TRACES)) traces end as they have to"

clean:
	rm -f $(PROGRAMS)

.PHONY: all check clean
