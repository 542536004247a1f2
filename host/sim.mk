# The panel simulator, the playback of what it records, and the clients that are tried on both.
#
# The static library holds x86-64 objects. On another machine the programs are built as x86-64
# programs, linked statically so that they need no x86-64 libraries there, and run by an emulator.
SIM_LIBRARY ?= $(library)
SIM_INCLUDE ?= host/include
ifeq ($(shell uname -m),x86_64)
SIM_CC ?= gcc
SIM_LINK ?=
SIM_RUN ?=
else
SIM_CC ?= x86_64-linux-gnu-gcc
SIM_LINK ?= -static
SIM_RUN ?= qemu-x86_64
endif
SIM_CFLAGS ?= -std=c11 -D_GNU_SOURCE -O2 -Wall -Wextra -Wpedantic -Wconversion -Wshadow -Werror

SIM_PROGRAM := target/sim/panel-sim
SIM_SOURCES := $(wildcard host/sim/*.c)
SIM_HEADERS := $(wildcard host/sim/*.h) $(SIM_INCLUDE)/vennebruis.h
SIM_COMMAND := $(strip $(SIM_RUN) $(SIM_PROGRAM))
SIM_BUILD = $(SIM_CC) $(SIM_CFLAGS) $(SIM_LINK) -Ihost/sim -I$(SIM_INCLUDE)

# It shows bytes and numbers as the simulator does.
PLAYBACK_PROGRAM := target/sim/panel-playback
PLAYBACK_SOURCES := host/playback/playback.c host/sim/show.c
PLAYBACK_COMMAND := $(strip $(SIM_RUN) $(PLAYBACK_PROGRAM))

.PHONY: sim clients

# Builds both programs and says how they are started here.
sim: $(SIM_PROGRAM) $(PLAYBACK_PROGRAM)
	@echo 'panel simulator: $(SIM_COMMAND) --help'
	@echo 'playback of a capture: $(PLAYBACK_COMMAND) --help'

$(SIM_PROGRAM): $(SIM_SOURCES) $(SIM_HEADERS) $(SIM_LIBRARY)
	@mkdir -p $(@D)
	$(SIM_BUILD) -o $@ $(SIM_SOURCES) $(SIM_LIBRARY)

$(PLAYBACK_PROGRAM): $(PLAYBACK_SOURCES) $(SIM_HEADERS) $(SIM_LIBRARY)
	@mkdir -p $(@D)
	$(SIM_BUILD) -o $@ $(PLAYBACK_SOURCES) $(SIM_LIBRARY)

# Runs real clients on the simulator, over pseudo-terminals, and plays back what it has recorded of
# them; the last line is `N passed, M failed`.
clients: $(SIM_PROGRAM) $(PLAYBACK_PROGRAM)
	@host/clients/run.sh $(SIM_COMMAND)
