# Builds the kernel of Racket's Chez Scheme in the folder `c` of its source. FLAGS are those of the C compiler that are
# wanted beside the usual ones. HEADERS says how the headers are made.
NAMES = statics segment alloc symbol intern gcwrapper gc-011 gc-par gc-ocd gc-oce number schsig io new-io print fasl \
    vfasl stats foreign prim prim5 flushcache schlib thread expeditor scheme compress-io random ffi i3le
OBJECTS = $(NAMES:=.o)
COLLECTOR = gc-011.o gc-par.o gc-ocd.o gc-oce.o gcwrapper.o
CFLAGS = -O1 -w -DX86_64 -D_REENTRANT -pthread -I../headers

kernel: $(OBJECTS)

$(OBJECTS): %.o: %.c ../headers/equates.h config.h
	$(CC) $(CFLAGS) $(FLAGS) -c $<

$(COLLECTOR): gc.c

../headers/equates.h: ../s/mkgc.ss
	mkdir -p ../headers
	cd ../s && $(HEADERS) > ../headers/log

config.h:
	printf '#define SCHEME_SCRIPT "scheme-script"\n#define DEFAULT_HEAP_PATH "/usr/lib/racket"\n#define DISABLE_CURSES\n' > $@
