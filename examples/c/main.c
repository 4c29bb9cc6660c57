/* Calls each exported function once. With the word `sheet` it answers the sheet on standard input instead. */
#include <inttypes.h>
#include <stdio.h>
#include <stdlib.h>
#include <string.h>

#include "jorumspit.h"

static const char worked_example[] =
    "align=32\n"
    "binding=84\n"
    "source=200\n"
    "draw=0,0,0,3,1\n"
    "draw=1,0,180,4294967296,18446744073709551615\n"
    "draw=0,0,198,3,1\n";

/* Prints what a sheet answers; the first call asks how long that is. */
static int print_sheet(const uint8_t *text, size_t len) {
    uint8_t none;
    size_t needed = 0;
    uint32_t status = jorumspit_sheet(text, len, &none, 0, &needed);
    if (status != JORUMSPIT_ACCEPTED && status != JORUMSPIT_SHORT_OUTPUT)
        return 1;
    uint8_t *output = malloc(needed + 1);
    if (output == NULL)
        return 1;
    status = jorumspit_sheet(text, len, output, needed, &needed);
    if (status == JORUMSPIT_ACCEPTED)
        fwrite(output, 1, needed, stdout);
    free(output);
    return status != JORUMSPIT_ACCEPTED;
}

static int sheet_from_stdin(void) {
    static uint8_t text[65537]; /* one byte more than a sheet may have */
    size_t len = fread(text, 1, sizeof text, stdin);
    return print_sheet(text, len);
}

static void print_window_and_entry(void) {
    jorumspit_window_t window;
    if (jorumspit_window(32, 84, 200, 180, &window) == JORUMSPIT_ACCEPTED)
        printf("window=%" PRIu64 ",%" PRIu64 ",%" PRIu64 "\n", window.binding_size, window.dynamic_offset,
               window.offset);
    printf("window of unlawful settings: status %" PRIu32 "\n", jorumspit_window(31, 84, 200, 180, &window));

    jorumspit_entry_t entry;
    if (jorumspit_entry(1, window.offset, 16, 4294967296, UINT64_MAX, &entry) == JORUMSPIT_ACCEPTED)
        printf("entry=%" PRIu32 ",%" PRIu32 ",%" PRIu32 ",%" PRIu32 "\n", entry.src_offset, entry.dst_offset,
               entry.vertex_or_index_limit, entry.instance_limit);
    printf("entry of kind 2: status %" PRIu32 "\n", jorumspit_entry(2, 0, 0, 0, 0, &entry));

    const uint32_t words[18] = {[13] = 6, 2, 0, 7, 0};
    jorumspit_verdict_t verdict;
    if (jorumspit_verdict(&entry, words, 18, 0, &verdict) == JORUMSPIT_ACCEPTED)
        printf("verdict=%" PRIu32 ",%" PRIu32 ",%" PRIu32 ",%" PRIu32 ",%" PRIu32 "\n", verdict.words[0],
               verdict.words[1], verdict.words[2], verdict.words[3], verdict.words[4]);
    printf("verdict over 17 words: status %" PRIu32 "\n", jorumspit_verdict(&entry, words, 17, 0, &verdict));
}

static void print_limits(void) {
    const jorumspit_slot_t slots[2] = {{1, 0, 100}, {1, 0, 64}};
    const jorumspit_step_t steps[2] = {{1, 12, 8, 0}, {1, 16, 16, 1}};
    const jorumspit_index_t index = {1, 0, 101, 2};
    jorumspit_limits_t limits;
    if (jorumspit_limits(slots, 2, 1, steps, 2, &limits) == JORUMSPIT_ACCEPTED)
        printf("limits=%" PRIu64 ",%" PRIu64 ",%" PRIu64 ",%" PRIu64 "\n", limits.vertex_limit,
               limits.vertex_limit_slot, limits.instance_limit, limits.instance_limit_slot);
    uint64_t indices;
    if (jorumspit_index_limit(&index, &indices) == JORUMSPIT_ACCEPTED)
        printf("indices=%" PRIu64 "\n", indices);
    const jorumspit_draw_t draw = {0, 3, 5, 0, 0};
    jorumspit_report_t report;
    uint32_t status = jorumspit_draw(slots, 2, 1, steps, 2, &index, &draw, &report);
    printf("draw of five instances: status %" PRIu32 ", last %" PRIu64 ", limit %" PRIu64 ", slot %" PRIu64 "\n",
           status, report.last, report.limit, report.slot);
}

static void print_places(void) {
    const uint64_t sizes[4] = {16, 20, 16, 48};
    jorumspit_place_t places[4];
    if (jorumspit_places(sizes, 4, 48, 2, places, 4) == JORUMSPIT_ACCEPTED)
        for (int i = 0; i < 4; i++)
            printf("size %" PRIu64 ": status %" PRIu64 ", place %" PRIu64 ",%" PRIu64 "\n", sizes[i],
                   places[i].status, places[i].index, places[i].offset);
    printf("places in three: status %" PRIu32 "\n", jorumspit_places(sizes, 4, 48, 2, places, 3));
}

static void print_frame(void) {
    const jorumspit_frame_settings_t settings = {32, 84, 48, 48};
    const uint64_t sources[1] = {200};
    const jorumspit_request_t requests[4] = {{0, 0, 0, 3, 1}, {1, 0, 180, 6, 2}, {0, 0, 198, 3, 1}, {0, 0, 16, 3, 1}};
    jorumspit_place_t answers[4];
    jorumspit_draw_record_t draws[4];
    jorumspit_batch_record_t batches[4];
    jorumspit_frame_counts_t counts;
    if (jorumspit_frame(&settings, sources, 1, requests, 4, answers, 4, draws, 4, batches, 4, &counts) != 0)
        return;
    for (int i = 0; i < 4; i++)
        printf("answer %d: status %" PRIu64 ", place %" PRIu64 ",%" PRIu64 "\n", i, answers[i].status,
               answers[i].index, answers[i].offset);
    for (uint64_t i = 0; i < counts.draws; i++)
        printf("draw %" PRIu64 ": batch %" PRIu64 ", rank %" PRIu64 ", entry %" PRIu32 ",%" PRIu32 ",%" PRIu32
               ",%" PRIu32 "\n",
               i, draws[i].batch, draws[i].rank, draws[i].src_offset, draws[i].dst_offset,
               draws[i].vertex_or_index_limit, draws[i].instance_limit);
    for (uint64_t i = 0; i < counts.batches; i++)
        printf("batch %" PRIu64 ": %" PRIu64 ",%" PRIu64 ",%" PRIu64 ",%" PRIu64 ", staging %" PRIu64 ",%" PRIu64
               ", metadata %" PRIu64 ",%" PRIu64 "\n",
               i, batches[i].source, batches[i].window, batches[i].destination, batches[i].count,
               batches[i].staging_block, batches[i].staging_offset, batches[i].metadata_buffer,
               batches[i].metadata_offset);
    printf("blocks %" PRIu64 ", metadata buffers %" PRIu64 "\n", counts.staging_blocks, counts.metadata_buffers);
}

int main(int argc, char **argv) {
    if (argc > 1 && strcmp(argv[1], "sheet") == 0)
        return sheet_from_stdin();
    print_window_and_entry();
    print_limits();
    print_places();
    print_frame();
    return print_sheet((const uint8_t *)worked_example, sizeof worked_example - 1);
}
