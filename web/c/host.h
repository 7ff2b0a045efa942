/* What the module asks of its host, and nothing else. Each call answers a number from 0 on, or an error's number as Linux
 * has it, negated. Descriptors, flags, modes and the kinds of files are Linux's numbers, too. A path or text is so many
 * bytes at an address, without a 0. docs/WEB.md says what each call does. */
typedef unsigned long size_t;

/* The module has a memory of 32 bits once it is lowered. */
#ifndef ADDRESS
#define ADDRESS unsigned
#endif
#define AT(pointer) ((ADDRESS)(size_t)(pointer))
#define HOST(name) __attribute__((import_module("host"), import_name(#name))) extern
#define EXPORT(name) __attribute__((export_name(#name)))

/* What is told of a file: when it was changed last, too. */
struct seen { size_t mode, links, inode, size, device, seconds, nanoseconds; };

HOST(open) int host_open(ADDRESS path, ADDRESS length, int flags, unsigned mode);
HOST(read) int host_read(int file, ADDRESS to, ADDRESS room);
HOST(write) int host_write(int file, ADDRESS from, ADDRESS length);
HOST(close) int host_close(int file);
HOST(store) int host_store(int file);
HOST(stat) int host_stat(int file, ADDRESS path, ADDRESS length, int follows, ADDRESS to);
HOST(folder) int host_folder(ADDRESS path, ADDRESS length, unsigned mode);
HOST(link) int host_link(ADDRESS from, ADDRESS from_length, ADDRESS to, ADDRESS to_length);
HOST(terminal) int host_terminal(int file);
HOST(clock) long host_clock(int which);
HOST(word) int host_word(ADDRESS number, ADDRESS to, ADDRESS room);
HOST(words) int host_words(int error, ADDRESS to, ADDRESS room);
