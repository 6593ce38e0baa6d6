# tools/crates.mk: proves and builds a crate by rt, and first the crates that it uses, side by side if neither uses the other:
#     make -f tools/crates.mk NAME=ptpm_cli    the program, crates/ptpm_cli/out/ptpm_cli
#     make -f tools/crates.mk NAME=ptpm_c      the static library, crates/ptpm_c/out/libptpm_c.a
# Where one fails, what has begun ends, and nothing more begins. rt itself sees what has changed.
TOOLS := $(dir $(lastword $(MAKEFILE_LIST)))
# As crates.txt has them: of those that can begin, the first is begun first.
CRATES := $(shell $(TOOLS)sources crates $(NAME))
below = $(filter $(CRATES),$(shell sed -n 's/^$(1)\( [^:]*\)\{0,1\}://p' $(TOOLS)../crates.txt))

# At most a crate for each processor, and for each 4 GB of free memory.
SLOTS := $(shell { nproc; awk '/^MemAvailable:/ { print int($$2 / 4194304) + 1 }' /proc/meminfo; } | sort -n | head -1)
MAKEFLAGS += --jobs=$(SLOTS)
export SLOTS

$(shell mkdir -p $(TOOLS)../out/log && : > $(TOOLS)../out/log/$(NAME).ended)

all: $(CRATES)

$(foreach crate,$(CRATES),$(eval $(crate): $(call below,$(crate))))

$(CRATES): %:
	@$(TOOLS)prove $@ $(NAME)

.PHONY: all $(CRATES)
