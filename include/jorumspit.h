/* jorumspit.h: limits, windows, entries, places and frames of validated indirect draws, for a host in C or Rust.
 *
 * What each function returns and writes is stated by its contract in crates/exports_c/src and crates/frame_exports_c/src,
 * and proved, on every input that keeps the rules of the next paragraph. What this page says of memory, pointers and
 * threads is not proved. jorumspit_frame and jorumspit_sheet hold two tables on the caller's stack.
 *
 * Rules for the caller
 *   No pointer is null, also where a length is 0. A pointer is aligned for its type, and its length is that of the
 *   memory behind it, in elements. An output overlaps no other argument. jorumspit_sheet takes memory by malloc and
 *   gives all of it back before it returns; no other function takes any. None keeps a pointer after it returns, and
 *   none has state of its own, so that calls from several threads need no lock.
 *
 * Answers
 *   Each function returns a status: 0 where the call was accepted, 1 to 15 for a refusal (16 to 18 are kept for later), or a
 *   number from 64 on.
 *   Unless its comment says otherwise, a function that returns another status than 0 has written nothing.
 *   Numbers may be any: a number that means nothing is refused, never trusted.
 *
 * Linking
 *   examples/c/run builds target/staticlib/libexports.a and target/staticlib/libframe_exports.a: each is what `rt lib`
 *   makes in crates/exports_c or crates/frame_exports_c, under its own name. Then
 *   cc -Iinclude examples/c/main.c target/staticlib/libexports.a target/staticlib/libframe_exports.a KIT/c/liblibc_c.a
 *   where KIT is the folder of the Rattle kit, in which the file that `rt doc` names stands.
 *
 * From Rust, declare the same functions in an `unsafe extern "C"` block: a pointer with a length is
 * `*const T, usize` or `*mut T, usize`, and each struct below is a `#[repr(C)]` struct of the same fields.
 */
#ifndef JORUMSPIT_H
#define JORUMSPIT_H

#include <stddef.h>
#include <stdint.h>

#ifdef __cplusplus
extern "C" {
#endif

enum {
    JORUMSPIT_ACCEPTED = 0,
    /* refusals */
    JORUMSPIT_UNLAWFUL_SETTINGS = 1,      /* alignment and largest binding do not fit one another */
    JORUMSPIT_NO_SUCH_SLOT = 2,           /* more than 16 slots or steps */
    JORUMSPIT_MALFORMED_BINDING = 3,      /* a range that ends before it starts, an end or a stride of 2^32 or more, an unknown step mode or index size */
    JORUMSPIT_MISSING_PIPELINE = 4,       /* a draw without a pipeline */
    JORUMSPIT_MISSING_VERTEX_BUFFER = 5,  /* a step reads a slot that is empty */
    JORUMSPIT_MISSING_INDEX_BUFFER = 6,   /* an indexed draw without an index range */
    JORUMSPIT_UNKNOWN_KIND = 7,           /* a kind that is neither 0 nor 1 */
    JORUMSPIT_VERTEX_BEYOND_LIMIT = 8,
    JORUMSPIT_INDEX_BEYOND_LIMIT = 9,
    JORUMSPIT_INSTANCE_BEYOND_LIMIT = 10,
    JORUMSPIT_NO_SUCH_SOURCE = 11,
    JORUMSPIT_UNALIGNED_OFFSET = 12,      /* an offset that is no multiple of four */
    JORUMSPIT_OVERRUN = 13,               /* arguments that reach past the end of their source */
    JORUMSPIT_TABLE_FULL = 14,            /* more than 1,024 draws or 256 batches */
    JORUMSPIT_NO_BUFFER = 15,             /* a buffer is needed, and none can be had */
    /* answers that are no refusals */
    JORUMSPIT_OUTSIDE_WINDOW = 64,        /* an entry reads outside its window */
    JORUMSPIT_WIDE_OFFSET = 65,           /* an offset of 2^32 or more has no entry */
    JORUMSPIT_UNLAWFUL_SIZES = 66,        /* sizes of buffers and blocks that do not fit one another */
    JORUMSPIT_SHORT_OUTPUT = 67,          /* an output is too short */
    JORUMSPIT_NO_MEMORY = 68              /* too little memory for the work */
};

/* ---- libexports.a: windows, entries, limits ---- */

typedef struct {
    uint64_t binding_size;   /* bytes: the length of every window over the source */
    uint64_t dynamic_offset; /* byte of the source at which the window begins */
    uint64_t offset;         /* byte of the window at which the arguments begin */
} jorumspit_window_t;

/* The window over a source of `size` bytes that serves the arguments at byte `offset`.
 * `alignment` is 32, 64, 128 or 256, and `largest_binding` from 2 * alignment + 20 up to 2^32 - 1, both in bytes;
 * status 1 otherwise. The arguments have to lie inside the source, offset + 16 (or + 20) at most `size`: this is not
 * judged here, and the window of others does not hold them.
 *   jorumspit_window(32, 84, 200, 180, &w) == 0, and w is { 72, 128, 52 } */
uint32_t jorumspit_window(uint64_t alignment, uint64_t largest_binding, uint64_t size, uint64_t offset,
                          jorumspit_window_t *window);

typedef struct {
    uint32_t src_offset;            /* bits 0 to 29: word of the window; bit 31: the draw is indexed */
    uint32_t dst_offset;            /* bits 0 to 29: word of the destination; bits 30 and 31: bit 32 of the two limits */
    uint32_t vertex_or_index_limit; /* low 32 bits */
    uint32_t instance_limit;        /* low 32 bits */
} jorumspit_entry_t;

/* The entry of a draw of `kind` 0 (vertices in order) or 1 (by an index buffer), status 7 otherwise, with offsets in
 * bytes, status 65 where one is 2^32 or more. Limits are cut to 8,589,934,590, the largest sum of two words.
 *   jorumspit_entry(1, 52, 16, 4294967296, UINT64_MAX, &e) == 0, and e is { 2147483661, 3221225476, 0, 4294967294 } */
uint32_t jorumspit_entry(uint64_t kind, uint64_t src_offset, uint64_t dst_offset, uint64_t limit,
                         uint64_t instance_limit, jorumspit_entry_t *entry);

typedef struct {
    uint32_t count;    /* how many words the draw has: 4, or 5 where it is indexed */
    uint32_t words[5]; /* count, instances, first, base vertex of an indexed draw, first instance; a fifth of four is 0 */
} jorumspit_verdict_t;

/* What the check of an entry leaves of the arguments in its window, of `window_len` words: the words as they are
 * where they keep to the entry's limits, else zeros. A `first_instance_allowed` of 0 lets no first instance but 0
 * pass. Status 64 where the entry reads outside the window. The four words of the entry may be any. */
uint32_t jorumspit_verdict(const jorumspit_entry_t *entry, const uint32_t *window, size_t window_len,
                           uint32_t first_instance_allowed, jorumspit_verdict_t *verdict);

typedef struct {
    uint64_t present; /* 0: the slot is empty, and the other fields are not looked at */
    uint64_t start;   /* first byte */
    uint64_t end;     /* one past the last byte; at least start, and below 2^32 */
} jorumspit_slot_t;

typedef struct {
    uint64_t present;     /* 0: the slot is not read, and the other fields are not looked at */
    uint64_t stride;      /* bytes from one item to the next, below 2^32 */
    uint64_t last_stride; /* bytes that are read of the last item */
    uint64_t mode;        /* 0: one item for each vertex; 1: for each instance */
} jorumspit_step_t;

typedef struct {
    uint64_t present; /* 0: no index range is bound, and the other fields are not looked at */
    uint64_t start;
    uint64_t end;
    uint64_t bytes; /* of one index: 2 or 4 */
} jorumspit_index_t;

typedef struct {
    uint64_t vertex_limit;        /* items; 2^64 - 1 where no slot limits them */
    uint64_t vertex_limit_slot;   /* the first slot that has no more */
    uint64_t instance_limit;
    uint64_t instance_limit_slot;
} jorumspit_limits_t;

/* The limits of a pipeline's steps over the slots; step i reads slot i. A `pipeline` of 0 says that there is none:
 * the steps are not looked at, and all four numbers are 0, as they are where a step reads an empty slot.
 * Status 2 for more than 16 slots or steps, 3 for a malformed one; slots are judged before steps.
 *   one slot { 1, 0, 100 } and one step { 1, 12, 8, 0 } give { 8, 0, UINT64_MAX, 0 } */
uint32_t jorumspit_limits(const jorumspit_slot_t *slots, size_t slots_len, uint64_t pipeline,
                          const jorumspit_step_t *steps, size_t steps_len, jorumspit_limits_t *limits);

/* How many indices a range has; 0 for an absent one. Status 3 where it is malformed.
 *   { 1, 0, 101, 2 } has 50 */
uint32_t jorumspit_index_limit(const jorumspit_index_t *index, uint64_t *limit);

typedef struct {
    uint64_t kind; /* 0: vertices in order; 1: by the index range */
    uint32_t count;
    uint32_t instances;
    uint32_t first;
    uint32_t first_instance;
} jorumspit_draw_t;

typedef struct {
    uint64_t draws; /* status 0: 1 where both counts are above 0, so that there is anything to draw */
    uint64_t last;  /* status 8 to 10: one past the last vertex, index or instance that the draw names */
    uint64_t limit; /* status 8 to 10: the largest number that would have been accepted */
    uint64_t slot;  /* status 8 and 10: the slot that set the limit */
} jorumspit_report_t;

/* Judges a direct draw over what is bound. Status 2 or 3 for the bindings (slots, then steps, then the index range),
 * then 4, 5, 6, 7, then 8 or 9, then 10. The report is written whatever the status is; a field that the status does
 * not name is 0. */
uint32_t jorumspit_draw(const jorumspit_slot_t *slots, size_t slots_len, uint64_t pipeline,
                        const jorumspit_step_t *steps, size_t steps_len, const jorumspit_index_t *index,
                        const jorumspit_draw_t *draw, jorumspit_report_t *report);

/* ---- libframe_exports.a: places, frames, sheets ---- */

typedef struct {
    uint64_t status; /* 0, or the number of the refusal; index and offset are then 0 */
    uint64_t index;  /* number of the buffer */
    uint64_t offset; /* byte in it */
} jorumspit_place_t;

/* Places `sizes_len` sizes, in bytes, one after another in buffers of `buffer_size` bytes: each in the buffer of the
 * one before where it fits there, else at the start of the next. There are `buffers` buffers; a size that wants one
 * more has status 15, and the sizes after it go on from where it was. A size above buffer_size stands alone, past
 * the end of its buffer. Status 67 where places_len is below sizes_len, which is the length needed; places after
 * those are left as they are.
 *   sizes 16, 20, 16 in buffers of 48 bytes have the places 0,0 and 0,16 and 1,0 */
uint32_t jorumspit_places(const uint64_t *sizes, size_t sizes_len, uint64_t buffer_size, size_t buffers,
                          jorumspit_place_t *places, size_t places_len);

typedef struct {
    uint64_t alignment;       /* as for jorumspit_window */
    uint64_t largest_binding; /* as for jorumspit_window */
    uint64_t buffer_size;     /* bytes of a destination or metadata buffer: a multiple of 16 from 32 to 1,048,560 */
    uint64_t block_size;      /* the most bytes of a staging block: a multiple of 16 from buffer_size to 67,108,864 */
} jorumspit_frame_settings_t;

typedef struct {
    uint64_t kind;           /* 0 or 1 */
    uint64_t source;         /* number of the source, from 0 */
    uint64_t offset;         /* byte in it: a multiple of four; the arguments are 16 bytes, or 20 of kind 1 */
    uint64_t limit;          /* vertices that are bound, or indices for kind 1 */
    uint64_t instance_limit; /* instances that are bound */
} jorumspit_request_t;

typedef struct {
    uint64_t kind;
    uint64_t index;  /* destination buffer */
    uint64_t offset; /* byte in it */
    uint64_t batch;  /* number of the draw's batch */
    uint64_t rank;   /* how many entries of that batch come before its own */
    uint32_t src_offset; /* its entry, as in jorumspit_entry_t */
    uint32_t dst_offset;
    uint32_t vertex_or_index_limit;
    uint32_t instance_limit;
} jorumspit_draw_record_t;

typedef struct {
    uint64_t source;
    uint64_t window;      /* byte of the source at which the window begins */
    uint64_t destination; /* destination buffer */
    uint64_t count;       /* entries, of 16 bytes each */
    uint64_t staging_block;
    uint64_t staging_offset; /* byte in it */
    uint64_t metadata_buffer;
    uint64_t metadata_offset; /* byte in it */
} jorumspit_batch_record_t;

typedef struct {
    uint64_t draws;            /* accepted draws: so many draw records are written */
    uint64_t batches;          /* so many batch records are written */
    uint64_t staging_blocks;   /* staging blocks that the plan takes */
    uint64_t metadata_buffers; /* metadata buffers that the plan takes */
} jorumspit_frame_counts_t;

/* Records `requests_len` requests in their order, over `sources_len` sources of which `sources` has the sizes in
 * bytes, and plans the frame. A frame has at most 1,024 draws, 256 batches and 256 buffers of each kind.
 *   answers: one for each request: its place in the destination buffers, or status 7, 11, 12, 13, 14 or 15
 *   draws: one for each accepted request, in order
 *   batches: one for each batch, in the order in which requests first asked for them
 * Status 1 for unlawful settings, then 66 for unlawful sizes, then 67 where answers_len or draws_len is below
 * requests_len, or batches_len below requests_len and below 256: nothing is written. Any other status is the plan's:
 * 15 where it wants more than 256 metadata buffers, and then all outputs are written, the places of batches and the
 * two numbers of the plan being 0. Elements after those that are written are left as they are. */
uint32_t jorumspit_frame(const jorumspit_frame_settings_t *settings, const uint64_t *sources, size_t sources_len,
                         const jorumspit_request_t *requests, size_t requests_len, jorumspit_place_t *answers,
                         size_t answers_len, jorumspit_draw_record_t *draws, size_t draws_len,
                         jorumspit_batch_record_t *batches, size_t batches_len, jorumspit_frame_counts_t *counts);

/* Prints what a sheet answers: `text` is the sheet, `output` gets the print. *needed becomes the length of the print
 * in bytes, at status 0 and at status 67, where `output_len` is less and nothing is written to the output; so a call
 * with an output_len of 0 asks for the length. Status 68 for want of memory: *needed is left as it was.
 * A text that is no sheet is printed as `bad=` with the number of its first bad line, at status 0. */
uint32_t jorumspit_sheet(const uint8_t *text, size_t text_len, uint8_t *output, size_t output_len, size_t *needed);

#ifdef __cplusplus
}
#endif

#endif
