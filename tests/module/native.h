/* What web/c is compiled with for this machine: names that are not those of the C library, addresses of 64 bits, and a
 * memory that is made up. */
#define ADDRESS unsigned long
#define ROOM 4096
#define import_module(name) unused
#define import_name(name) unused
#define export_name(name) unused
#define open tried_open
#define read tried_read
#define write tried_write
#define close tried_close
#define fsync tried_fsync
#define mkdir tried_mkdir
#define link tried_link
#define isatty tried_isatty
#define statx tried_statx
#define clock_gettime tried_clock_gettime
#define __sysv_signal tried_signal
#define __xpg_strerror_r tried_strerror
#define __multi3 tried_multi3
#define __ashlti3 tried_ashlti3
#define __lshrti3 tried_lshrti3
#define __builtin_wasm_memory_grow(memory, pages) grow_memory(pages)
unsigned long grow_memory(unsigned long pages);
