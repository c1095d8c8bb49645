/* Predicts three blocks of a picture and keeps each in a trace, as a decoder does; replays the trace into another
   picture, as the support desk does, and compares the two; then notes where a damaged trace is refused. Of both replays
   it says how many components of vectors lead too far out of the picture.
   With what is installed by 'evc install', and in the repository:

     gcc -std=c99 trace.c $(pkg-config --cflags --libs evc_inter) -o trace
     gcc -std=c99 -I include examples/trace.c target/staticlib/libevc_inter.a -o trace */
#include <inttypes.h>
#include <stdio.h>
#include <stdlib.h>
#include <string.h>
#include "evc_inter.h"

enum { PIC_W = 16, PIC_H = 16, UNITS = 4 * 4, POC = 4, POC0 = 0, POC1 = 8, LIST_POC0 = 0 };

typedef struct { uint16_t *y, *u, *v; size_t y_len, c_len; } Picture;
#define PLANES(p) (p).y, (p).y_len, (p).u, (p).c_len, (p).v, (p).c_len

static Picture ref0, ref1, decoded;
static int16_t col_mv[EVC_MOTION_LEN * UNITS];
static uint8_t trace[EVC_TRACE_HEADER_LEN + 3 * EVC_TRACE_RECORD_LEN];
static size_t trace_len;

/* Ends with a note if a call has refused. */
static void done(const char *what, uint32_t code) {
    if (code == EVC_OK) return;
    printf("reel 7, %s: refused (%" PRIu32 "): %s\n", what, code, evc_message(code));
    exit(EXIT_FAILURE);
}

/* A padded picture, its planes one behind the other. Every row of its luma is step * x. */
static Picture picture(uint32_t pic_w, uint32_t pic_h, size_t step) {
    const EvcPlaneLayout luma = evc_plane_layout(false, pic_w, pic_h), chroma = evc_plane_layout(true, pic_w, pic_h);
    Picture p = {calloc(luma.len + 2 * chroma.len, sizeof(uint16_t)), NULL, NULL, luma.len, chroma.len};
    if (p.y == NULL) exit(EXIT_FAILURE);
    p.u = p.y + p.y_len;
    p.v = p.u + p.c_len;
    for (size_t y = 0; y < luma.height; y++)
        for (size_t x = 0; x < luma.width; x++) p.y[evc_plane_at(&luma, x, y)] = (uint16_t)(step * x);
    done("luma", evc_pad(false, pic_w, pic_h, p.y, p.y_len));
    done("chroma", evc_pad(true, pic_w, pic_h, p.u, p.c_len));
    done("chroma", evc_pad(true, pic_w, pic_h, p.v, p.c_len));
    return p;
}

/* Predicts a block into the picture, and keeps its record. */
static void predict(EvcBlock block, EvcList list0, EvcList list1, EvcTraceRecord record) {
    static uint16_t pred0[EVC_CU_LEN], pred1[EVC_CU_LEN];
    done("record", evc_trace_write_record(PIC_W, PIC_H, record, trace + trace_len, sizeof trace - trace_len));
    trace_len += EVC_TRACE_RECORD_LEN;
    done("block", evc_mc2(block, list0, PLANES(ref0), list1, PLANES(ref1), pred0, EVC_CU_LEN, pred1, EVC_CU_LEN).code);
    evc_cu_put(block, pred0, decoded.y, decoded.u, decoded.v);
}

static EvcReplay replay(Picture target) {
    return evc_trace_replay(trace, trace_len, PLANES(ref0), PLANES(ref1), true, col_mv, EVC_MOTION_LEN * UNITS,
                            PLANES(target));
}

static void print_moved(EvcReplay r) {
    printf("across %" PRIu64 " low, %" PRIu64 " high, down %" PRIu64 " low, %" PRIu64 " high\n",
           r.across_low, r.across_high, r.down_low, r.down_high);
}

int main(void) {
    const EvcBlock left = {PIC_W, PIC_H, 0, 0, 8, 8}, right = {PIC_W, PIC_H, 8, 0, 8, 8};
    const EvcBlock lower = {PIC_W, PIC_H, 0, 8, 16, 8};
    const EvcList list0 = {true, {2, 300}, POC0}, list1 = {true, {-300, 300}, POC1}, unused = {false, {0, 0}, 0};
    ref0 = picture(PIC_W, PIC_H, 8), ref1 = picture(PIC_W, PIC_H, 16), decoded = picture(PIC_W, PIC_H, 0);
    col_mv[EVC_MOTION_LEN * evc_unit_at(PIC_W, PIC_H, lower.x, lower.y)] = 16; /* four samples to the right */

    done("header", evc_trace_write_header(PIC_W, PIC_H, POC, LIST_POC0, trace, sizeof trace));
    trace_len = EVC_TRACE_HEADER_LEN;
    predict(left, list0, unused, evc_trace_record(left, list0, unused));
    predict(right, list0, list1, evc_trace_record(right, list0, list1));
    const EvcDirect mv = evc_get_mv_dir(lower, POC, POC0, POC1, LIST_POC0, true, col_mv, EVC_MOTION_LEN * UNITS);
    done("direct vectors", mv.code);
    const EvcList direct0 = {true, mv.mv0, POC0}, direct1 = {true, mv.mv1, POC1};
    predict(lower, direct0, direct1, evc_trace_direct(lower, POC0, POC1));

    const EvcTraceHeader header = evc_trace_header_of(trace, trace_len);
    done("trace", header.code);
    const Picture replayed = picture(header.pic_w, header.pic_h, 0);
    EvcReplay r = replay(replayed);
    done("replay", r.code);
    const bool same = memcmp(decoded.y, replayed.y, (decoded.y_len + 2 * decoded.c_len) * sizeof(uint16_t)) == 0;
    const EvcPlaneLayout luma = evc_plane_layout(false, header.pic_w, header.pic_h);
    printf("%" PRIu64 " records, replayed: %s picture\n", r.index, same ? "the same" : "another");
    printf("the last row:");
    for (size_t x = 0; x < luma.width; x++) printf(" %d", replayed.y[evc_plane_at(&luma, x, luma.height - 1)]);
    printf("\nreel 7, clipped: ");
    print_moved(r);

    trace[EVC_TRACE_HEADER_LEN + EVC_TRACE_RECORD_LEN + 4] = 12; /* the width in record 1 */
    r = replay(replayed);
    printf("reel 7, record %" PRIu64 ": refused (%" PRIu32 "): %s\n", r.index, r.code, evc_message(r.code));
    printf("reel 7, clipped before it: ");
    print_moved(r);
    free(ref0.y), free(ref1.y), free(decoded.y), free(replayed.y);
    return same ? EXIT_SUCCESS : EXIT_FAILURE;
}
