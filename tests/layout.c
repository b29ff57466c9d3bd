/*
 * The headers' structs lie in memory as the Rust side's do (host/src/layout.rs), field by field and none left out; the libraries' own lie
 * so too, or the comparisons and the replay would differ. Compiling this file is the test; it has nothing to run. The numbers come from
 * `make layout`, in build/layout.inc.
 */
#include "mullirim.h"
#include "mullirim_files.h"

#define NUMBER(name, number) _Static_assert((name) == (number), #name " is not " #number)
#define BYTES(type, size) _Static_assert(sizeof(struct type) == (size), #type " has not " #size " bytes")
#define AT(type, member, offset, size) \
    _Static_assert(offsetof(struct type, member) == (offset), #type "." #member " is not at " #offset); \
    _Static_assert(sizeof((struct type *)0)->member == (size), #type "." #member " has not " #size " bytes")
/* As many zeros as there are fields: with -Wextra -Werror a struct that has more or fewer is not let through. */
#define ALL(type, ...) const struct type all_of_##type = {__VA_ARGS__}

#include "layout.inc"
