# Programs with threads and a C library: one file in C or C++ each, what LIBS adds, the kit of this folder and picolibc.
# guest/Makefile reads this where PTHREADS is set. It has found `kit`, the folder guest as make writes it, and `folder`, as a shell
# reads it.
#
#   LIBS=other.c       more sources, objects or libraries of the program
#   ARGS='4 "a b"'     the words that main gets after the program's name, as for a shell
#   PAGES=1024         memory, in pages; dethart has to be given as many by --pages
#   START=0, 1         when new threads begin: 0 at once, 1 when the one that created them waits, 2 one or the other
#   ROUND_NS=1000      nanoseconds of the guest's clock in a round
#   SMALL=1            lines for file and function names alone, and none for picolibc: as the examples are built

PICOLIBC = /usr/lib/picolibc/riscv64-unknown-elf
LIBSTDCXX = /usr/riscv64-linux-gnu/include/c++/12
PAGES = 256
ARGS =
LIBS =
START = 2
ROUND_NS = 1000000

ifeq ($(wildcard $(PICOLIBC)/include/stdio.h),)
$(error there is no C library in $(PICOLIBC): apt-get install gcc-riscv64-unknown-elf picolibc-riscv64-unknown-elf)
endif

# The kit is built once, in the folder of the program.
built = dethart.built$(if $(SMALL),/small)

arch = -march=rv64ima -mabi=lp64
multilib := $(shell $(CROSS)gcc $(arch) -print-multi-directory)

# No path of this machine in a program: its lines are those of its folder, of guest/ and of picolibc/. (The second option is for
# the assembler.)
rename = -ffile-prefix-map=$(1) -fdebug-prefix-map=$(1)
paths = $(call rename,'$(CURDIR)'=.) $(call rename,'$(folder)/'=guest/) $(call rename,'$(PICOLIBC)'=picolibc) \
        $(call rename,'$(shell $(CROSS)gcc -print-file-name=include)'=gcc)

target = $(if $(SMALL),-g1,-g) $(arch) -mcmodel=medlow -mno-relax -msmall-data-limit=0 -fno-pic -ftls-model=local-exec \
         -fno-stack-protector -fno-asynchronous-unwind-tables -ffunction-sections -fdata-sections $(paths)
headers = $(atomics) -isystem '$(folder)/pthreads/include' -isystem '$(PICOLIBC)/include' -I'$(folder)'

# Calls of stdio that whole_output.c and others put under a lock.
whole = vfprintf fputs puts fputc putc putchar fwrite fflush vfscanf fgets fgetc getc getchar ungetc fread
layout = -nostdlib -static -no-pie -T '$(folder)/pthreads/layout.ld' -Wl,--gc-sections,--no-relax,--build-id=none,--nmagic \
         -Wl,--defsym=__pages=$(PAGES),--defsym=__kit_start=$(START),--defsym=__kit_round_ns=$(ROUND_NS) $(whole:%=-Wl,--wrap=%)
libraries = -L$(built) -L'$(PICOLIBC)/lib/$(multilib)' -Wl,--start-group -lkit -lm -lc -lgcc -Wl,--end-group

# What stands in place of a part of picolibc has to be there before the linker looks for it; all else is there where it is used.
in_place = process libc_locks time streams assertions memset
parts = threads cancel once mutexes conditions rwlocks barriers spinlocks semaphores keys attributes whole_output whole_flush \
        whole_input system signals unavailable messages small_atomics
sources = $(addprefix $(kit)/pthreads/source/,kit.h order.h ticket.h whole.h) $(kit)/pthreads/pthreads.mk \
          $(addprefix $(kit)/pthreads/include/,err.h error.h pthread.h sched.h semaphore.h stdio.h threads.h time.h unistd.h) \
          $(kit)/pthreads/include/sys/mman.h $(kit)/dethart.h $(kit)/atomics/stdatomic.h

# The words of a line, each with a 0 behind it, as data for the assembler.
arguments = { printf '.globl __kit_arguments\n.type __kit_arguments, @object\n.data\n__kit_arguments:\n'; \
              printf '%s\0' $(notdir $*) $(ARGS) | od -An -v -to1 | sed 's/ /\\/g; s/.*/.ascii "&"/'; echo '.byte 0'; }

# A program is built anew each time: what it depends on is also what is given on the line.
.PHONY: anew
anew:

own = $(built)/start.o $(in_place:%=$(built)/%.o) $(built)/$(notdir $@).arguments.o
define link_program
	@$(arguments) | $(CROSS)gcc $(arch) -c -x assembler - -o $(built)/$(notdir $@).arguments.o
	$(1) $(layout) $(own) $(2) $< $(LIBS) $(3) $(libraries) -o $@
	@rm $(built)/$(notdir $@).arguments.o
endef
compile_c = $(CROSS)gcc $(target) -O1 $(headers) $(CFLAGS)

ready = $(built)/start.o $(in_place:%=$(built)/%.o) $(built)/libkit.a $(built)/libgcc.a $(if $(SMALL),$(built)/libc.a) anew

%.elf: %.c $(ready)
	$(call link_program,$(compile_c))

%_mended.elf: %.c $(ready)
	$(call link_program,$(compile_c),-DMENDED)

# C++ without exceptions: the headers of libstdc++ for Linux on this processor, and runtime.cpp in place of its library.
cpp_headers = $(if $(wildcard $(LIBSTDCXX)/atomic),,$(error there is no C++ in $(LIBSTDCXX): apt-get install libstdc++-12-dev-riscv64-cross)) \
              -nostdinc++ -isystem '$(folder)/pthreads/cpp/include' -isystem '$(LIBSTDCXX)' -isystem '$(LIBSTDCXX)/riscv64-linux-gnu'
cpp = $(CROSS)g++ $(target) -fno-exceptions -fno-rtti -D_GNU_SOURCE $(cpp_headers) $(headers)
compile_cpp = $(cpp) -O1 $(CFLAGS)

%.elf: %.cpp $(ready) $(built)/runtime.o
	$(call link_program,$(compile_cpp),$(built)/runtime.o)

%_mended.elf: %.cpp $(ready) $(built)/runtime.o
	$(call link_program,$(compile_cpp),$(built)/runtime.o -DMENDED)

# What is built is put in its place when it is whole, since two makes may be at it in one folder. What isn't for others to keep is
# for git to pass over.
define build
	@mkdir -p $(built)
	@echo '*' >$(built)/.gitignore
	@made=$@.$$$$; $(1) && mv $$made $@
endef

$(built)/start.o: $(kit)/pthreads/source/start.S
	$(call build,$(CROSS)gcc $(target) -c '$(folder)/pthreads/source/start.S' -o $$made)

$(built)/libkit.a: $(parts:%=$(built)/%.o)
	$(call build,$(CROSS)ar crD $$made $^)

# All names are weak: a function of the program's own comes before one of the kit.
names_weak = $(CROSS)nm --defined-only --extern-only $$made | awk '{ print $$3 }' >$$made.weak && \
             $(CROSS)objcopy --weaken-symbols=$$made.weak $$made && rm $$made.weak

$(built)/%.o: $(kit)/pthreads/source/%.c $(sources)
	$(call build,$(CROSS)gcc $(target) -O2 -std=gnu11 -D_GNU_SOURCE -Wall -Wextra $(headers) \
	    -c '$(folder)/pthreads/source/$*.c' -o $$made && $(names_weak))

.PRECIOUS: $(built)/%.o

$(built)/runtime.o: $(kit)/pthreads/cpp/runtime.cpp $(addprefix $(kit)/pthreads/cpp/include/,features.h syscall.h bits/c++locale.h bits/ctype_base.h) $(sources)
	$(call build,$(cpp) -O2 -c '$(folder)/pthreads/cpp/runtime.cpp' -o $$made)

# picolibc without its lines.
$(built)/libc.a:
	$(call build,$(CROSS)objcopy --strip-debug '$(PICOLIBC)/lib/$(multilib)/libc.a' $$made)

# gcc's own functions, without the paths of those who built them.
$(built)/libgcc.a:
	$(call build,$(CROSS)objcopy --strip-debug "$$($(CROSS)gcc $(arch) -print-libgcc-file-name)" $$made)
