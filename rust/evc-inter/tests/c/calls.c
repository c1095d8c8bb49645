/* The archive from C: the header's layout, each call with a line of document 01 or 02 and a refusal, and the header's
   constants and helpers against the calls. */
#include <stdio.h>
#include <string.h>
#include "evc_inter.h"

#define AT(type, field, at) _Static_assert(offsetof(type, field) == at, #type " " #field)
#define SIZE(type, size, align) _Static_assert(sizeof(type) == size && _Alignof(type) == align, #type)

/* The numbers of rust/evc-inter/src/types.rs. */
SIZE(EvcMv, 4, 2); AT(EvcMv, y, 2);
SIZE(EvcBlock, 24, 4); AT(EvcBlock, pic_h, 4); AT(EvcBlock, x, 8); AT(EvcBlock, y, 12);
AT(EvcBlock, w, 16); AT(EvcBlock, h, 20);
SIZE(EvcList, 12, 4); AT(EvcList, used, 0); AT(EvcList, mv, 2); AT(EvcList, poc, 8);
SIZE(EvcAvail, 8, 4); AT(EvcAvail, avail, 4);
SIZE(EvcMoved, 2, 1); AT(EvcMoved, x, 0); AT(EvcMoved, y, 1);
SIZE(EvcClipped, 12, 4); AT(EvcClipped, mv, 4); AT(EvcClipped, moved, 8);
SIZE(EvcPredicted, 8, 4); AT(EvcPredicted, code, 0); AT(EvcPredicted, moved0, 4); AT(EvcPredicted, moved1, 6);
SIZE(EvcDirect, 12, 4); AT(EvcDirect, mv0, 4); AT(EvcDirect, mv1, 8);
SIZE(EvcCandidates, 20, 2); AT(EvcCandidates, up, 4); AT(EvcCandidates, up_right, 8);
AT(EvcCandidates, collocated, 12); AT(EvcCandidates, refi, 16);
SIZE(EvcTraceRecord, 22, 2); AT(EvcTraceRecord, x, 0); AT(EvcTraceRecord, y, 2); AT(EvcTraceRecord, w, 4);
AT(EvcTraceRecord, h, 6); AT(EvcTraceRecord, kind, 8); AT(EvcTraceRecord, mv0, 10); AT(EvcTraceRecord, mv1, 14);
AT(EvcTraceRecord, poc0, 18); AT(EvcTraceRecord, poc1, 20);
SIZE(EvcReplay, 48, 8); AT(EvcReplay, code, 0); AT(EvcReplay, index, 8); AT(EvcReplay, across_low, 16);
AT(EvcReplay, across_high, 24); AT(EvcReplay, down_low, 32); AT(EvcReplay, down_high, 40);
SIZE(EvcCamera, 24, 8); AT(EvcCamera, code, 0); AT(EvcCamera, kind, 4); AT(EvcCamera, x, 8); AT(EvcCamera, y, 16);

static int failed;
#define HOLDS(what) ((what) ? (void)0 : (void)(failed = 1, printf("line %d: %s\n", __LINE__, #what)))

/* A picture of 8 by 8: strides 176 and 96, rows 168 and 84. */
enum { LUMA = 176 * 168, CHROMA = 96 * 84, CU = EVC_CU_LEN };
static uint16_t y0[LUMA], u0[CHROMA], v0[CHROMA], y1[LUMA], u1[CHROMA], v1[CHROMA], pred0[CU], pred1[CU], kept[CU];
static uint16_t y[LUMA], u[CHROMA], v[CHROMA];
#define PLANES0 y0, LUMA, u0, CHROMA, v0, CHROMA
#define PLANES1 y1, LUMA, u1, CHROMA, v1, CHROMA
#define EMPTY NULL, 0, NULL, 0, NULL, 0

static void grey(uint16_t *plane, size_t len, uint16_t sample) {
    for (size_t k = 0; k < len; k++) plane[k] = sample;
}

static uint64_t bits(double n) {
    uint64_t b;
    memcpy(&b, &n, sizeof b);
    return b;
}

/* Numbers by their bits: -0.0 is not 0.0. */
static bool reads(EvcCamera c, uint32_t code, uint32_t kind, double x, double y) {
    return c.code == code && c.kind == kind && bits(c.x) == bits(x) && bits(c.y) == bits(y);
}

static void messages(void) {
    const uint32_t codes[] = {EVC_OK, EVC_BAD_PICTURE, EVC_BAD_BLOCK, EVC_BAD_LIST, EVC_SHORT_BUFFER, EVC_BAD_POC,
                              EVC_BAD_SAMPLE, EVC_BAD_NEIGHBOUR, EVC_BAD_MARK, EVC_INCOMPLETE, EVC_BAD_RECORD,
                              EVC_BAD_SLICE};
    const uint32_t numbers[] = {0, 1, 2, 3, 4, 5, 6, 7, 10, 11, 12, 13}, others[] = {8, 9, 14, UINT32_MAX};
    const char *other = evc_message(8);
    HOLDS(!memcmp(codes, numbers, sizeof codes));
    HOLDS(!strcmp(evc_message(EVC_OK), "done"));
    for (size_t i = 0; i < sizeof others / sizeof *others; i++) HOLDS(!strcmp(evc_message(others[i]), other));
    for (size_t i = 0; i < sizeof codes / sizeof *codes; i++) {
        HOLDS(strcmp(evc_message(codes[i]), other) != 0);
        for (size_t k = 0; k < i; k++) HOLDS(strcmp(evc_message(codes[i]), evc_message(codes[k])) != 0);
    }
}

/* A plane is as long as evc_pad asks for, and the samples that evc_pad looks at are those of evc_plane_at. */
static void planes(void) {
    const uint32_t sides[][2] = {{4, 4}, {4, 12}, {20, 8}, {36, 36}, {72, 4}, {416, 240}};
    const uint32_t refused[][2] = {{0, 4}, {4, 0}, {6, 4}, {4, 8132}, {UINT32_MAX, 4}, {4, UINT32_MAX - 3}};
    static uint16_t plane[576 * 400];
    for (int chroma = 0; chroma < 2; chroma++) {
        for (size_t i = 0; i < sizeof sides / sizeof *sides; i++) {
            const uint32_t w = sides[i][0], h = sides[i][1];
            const EvcPlaneLayout p = evc_plane_layout(chroma, w, h);
            HOLDS(p.len <= sizeof plane / sizeof *plane && p.len == p.stride * p.rows);
            HOLDS(p.width == w / (chroma ? 2 : 1) && p.height == h / (chroma ? 2 : 1));
            grey(plane, p.len, EVC_MAX_SAMPLE + 1);
            for (size_t row = 0; row < p.height; row++)
                for (size_t x = 0; x < p.width; x++) plane[evc_plane_at(&p, x, row)] = EVC_MAX_SAMPLE;
            HOLDS(evc_pad(chroma, w, h, plane, p.len - 1) == EVC_SHORT_BUFFER);
            HOLDS(evc_pad(chroma, w, h, plane, p.len) == EVC_OK && plane[p.len - 1] == EVC_MAX_SAMPLE);
            for (size_t row = 0; row < p.height; row += p.height - 1)
                for (size_t x = 0; x < p.width; x += p.width - 1) {
                    plane[evc_plane_at(&p, x, row)] = EVC_MAX_SAMPLE + 1;
                    HOLDS(evc_pad(chroma, w, h, plane, p.len) == EVC_BAD_SAMPLE);
                    plane[evc_plane_at(&p, x, row)] = EVC_MAX_SAMPLE;
                }
            HOLDS(evc_plane_at(&p, p.width, 0) == 0 && evc_plane_at(&p, 0, p.height) == 0);
            HOLDS(evc_plane_at(&p, SIZE_MAX, 0) == 0 && evc_plane_at(&p, 0, SIZE_MAX) == 0);
        }
        for (size_t i = 0; i < sizeof refused / sizeof *refused; i++) {
            const EvcPlaneLayout p = evc_plane_layout(chroma, refused[i][0], refused[i][1]), zeros = {0};
            HOLDS(evc_pad(chroma, refused[i][0], refused[i][1], plane, LUMA) == EVC_BAD_PICTURE);
            HOLDS(!memcmp(&p, &zeros, sizeof p) && evc_plane_at(&p, 0, 0) == 0);
        }
        const EvcPlaneLayout p = evc_plane_layout(chroma, EVC_MAX_SIDE, EVC_MAX_SIDE);
        HOLDS(p.stride == (chroma ? 4160 : 8288) && p.rows == (chroma ? 4144 : 8288));
    }
}

/* Maps are as long as the calls ask for, and a block's first unit is at evc_unit_at. */
static void units(void) {
    enum { W = 20, H = 12, UNITS = 15 };
    static int16_t map[EVC_MOTION_LEN * UNITS];
    static uint32_t words[UNITS];
    HOLDS(evc_unit_count(W, H) == UNITS && evc_map_scu_len(W, H) == UNITS && evc_map_mv_len(W, H) == 4 * UNITS);
    HOLDS(evc_camera_motion(W, H, map, evc_map_mv_len(W, H), words, evc_map_scu_len(W, H)).code == EVC_OK);
    HOLDS(evc_camera_motion(W, H, map, evc_map_mv_len(W, H) - 1, words, UNITS).code == EVC_SHORT_BUFFER);
    HOLDS(evc_camera_motion(W, H, map, 4 * UNITS, words, evc_map_scu_len(W, H) - 1).code == EVC_SHORT_BUFFER);
    HOLDS(evc_unit_count(EVC_MAX_SIDE, EVC_MAX_SIDE) == 2032 * 2032);
    HOLDS(evc_unit_count(W, 10) == 0 && evc_map_scu_len(UINT32_MAX - 3, H) == 0 && evc_map_mv_len(0, H) == 0);
    for (uint32_t row = 0; row < H; row += 4)
        for (uint32_t x = 0; x < W; x += 4) {
            const EvcBlock block = {W, H, x, row, 4, 4};
            int16_t *mv = map + EVC_MOTION_LEN * evc_unit_at(W, H, x + 3, row + 3);
            mv[0] = 8, mv[1] = -16;
            EvcDirect direct = evc_get_mv_dir(block, 4, 0, 8, 0, true, map, evc_map_mv_len(W, H));
            HOLDS(direct.mv0.x == 4 && direct.mv0.y == -8);
            mv[0] = mv[1] = 0;
        }
    HOLDS(evc_unit_at(W, H, W - 1, H - 1) == UNITS - 1);
    HOLDS(evc_unit_at(W, H, W, 4) == 0 && evc_unit_at(W, H, 4, H) == 0 && evc_unit_at(W, H, 4, UINT32_MAX) == 0);
    HOLDS(evc_unit_at(18, H, 4, 4) == 0 && evc_unit_at(W, 10, 4, 4) == 0 && evc_unit_at(W, UINT32_MAX, 4, 4) == 0);
}

/* A block of 8 by 4 between its eight neighbours: each flag comes from its own unit, and two need no coded one. */
static void flags(void) {
    const EvcBlock block = {16, 12, 4, 4, 8, 4};
    const struct { uint32_t x, y; uint16_t flag, with; } of[] = {
        {4, 0, EVC_AVAIL_UP, 0},     {0, 4, EVC_AVAIL_LE, 0},     {12, 4, EVC_AVAIL_RI, 0},
        {0, 0, EVC_AVAIL_UP_LE, 0},  {12, 0, EVC_AVAIL_UP_RI, 0}, {0, 8, EVC_AVAIL_LO_LE, EVC_AVAIL_LE},
        {8, 0, EVC_AVAIL_RI_UP, 0},  {12, 8, EVC_AVAIL_LO_RI, EVC_AVAIL_RI},
    };
    uint32_t words[12];
    for (size_t i = 0; i < sizeof of / sizeof *of; i++) {
        for (size_t k = 0; k < 12; k++) words[k] = EVC_SCU_CODED | EVC_SCU_INTRA;
        words[evc_unit_at(16, 12, of[i].x, of[i].y)] = EVC_SCU_CODED;
        HOLDS(evc_get_avail_inter(block, words, 12).avail == (of[i].with ? 0 : of[i].flag));
        if (of[i].with) {
            words[evc_unit_at(16, 12, of[i].x, 4)] = EVC_SCU_CODED;
            HOLDS(evc_get_avail_inter(block, words, 12).avail == (of[i].flag | of[i].with));
        }
    }
    memset(words, 0, sizeof words);
    HOLDS(evc_get_avail_inter(block, words, 12).avail == (EVC_AVAIL_UP | EVC_AVAIL_RI_UP));

    /* In a slice, whose words may have other bits set, too: without one neighbour, then without all others. */
    for (uint32_t num = 0; num <= EVC_MAX_SLICE_NUM; num += EVC_MAX_SLICE_NUM)
        for (size_t i = 0; i < sizeof of / sizeof *of; i++) {
            const size_t at = evc_unit_at(16, 12, of[i].x, of[i].y);
            uint16_t all = 0, needs = of[i].flag;
            for (size_t k = 0; k < sizeof of / sizeof *of; k++) {
                all |= of[k].flag;
                if (of[k].with == of[i].flag) needs |= of[k].flag;
            }
            for (size_t k = 0; k < 12; k++) words[k] = ~(uint32_t)(EVC_SCU_INTRA | EVC_SCU_SLICE) | num;
            HOLDS(evc_get_avail_inter_slice(block, num, words, 12).avail == all);
            words[at] ^= 64;
            HOLDS(evc_get_avail_inter_slice(block, num, words, 12).avail == (all & ~needs));
            HOLDS(evc_scu_slice_num(words[at]) == (num ^ 64));
            HOLDS(evc_get_avail_inter_slice(block, num ^ 64, words, 12).avail == (of[i].with ? 0 : of[i].flag));
            HOLDS(evc_get_avail_inter(block, words, 12).avail == all);
        }
    const struct { uint32_t pic_h, w; size_t len; uint32_t num, code; } refused[] = {
        {10, 12, 11, 128, EVC_BAD_PICTURE}, {12, 12, 11, 128, EVC_BAD_BLOCK}, {12, 8, 11, 128, EVC_SHORT_BUFFER},
        {12, 8, 12, 128, EVC_BAD_SLICE}, {12, 8, 12, UINT32_MAX, EVC_BAD_SLICE}, {12, 8, 0, 0, EVC_SHORT_BUFFER},
    };
    for (size_t i = 0; i < sizeof refused / sizeof *refused; i++) {
        const EvcBlock b = {16, refused[i].pic_h, 4, 4, refused[i].w, 4};
        const EvcAvail r = evc_get_avail_inter_slice(b, refused[i].num, refused[i].len ? words : NULL, refused[i].len);
        HOLDS(r.code == refused[i].code && r.avail == 0);
    }
}

/* A window of 9 by 9 samples, in chroma 7 by 7, from its first column and row, seen from the picture's first sample: a
   sample above the largest is found at its corners, and not beside them. */
static void window(void) {
    const struct { bool chroma; int16_t gmv; int x, y; } of[] = {
        {false, 0, -2, -2}, {false, 7, -1, -1}, {false, INT16_MIN, -80, -80}, {false, INT16_MAX, 8, 8},
        {true, 0, -1, -1},  {true, 15, 0, 0},   {true, INT16_MIN, -48, -40},  {true, INT16_MAX, 4, 4},
    };
    static uint16_t plane[LUMA];
    for (size_t i = 0; i < sizeof of / sizeof *of; i++) {
        const EvcPlaneLayout p = evc_plane_layout(of[i].chroma, 8, 8);
        const int side = of[i].chroma ? 7 : 9, places[] = {-1, 0, side - 1, side};
        for (int row = 0; row < 4; row++)
            for (int x = 0; x < 4; x++) {
                const int at_x = (int)p.xorigin + of[i].x + places[x], at_y = (int)p.yorigin + of[i].y + places[row];
                if (at_x < 0 || at_y < 0) continue; /* the plane begins with the window */
                const size_t at = (size_t)at_y * p.stride + (size_t)at_x;
                const EvcMv gmv = {of[i].gmv, of[i].gmv};
                const uint32_t code = x % 3 != 0 && row % 3 != 0 ? EVC_BAD_SAMPLE : EVC_OK;
                plane[at] = EVC_MAX_SAMPLE + 1;
                for (int16_t path = 0; path < 2; path++) {
                    const EvcMv ori_mv = {path, path};
                    HOLDS(evc_mc_plane(of[i].chroma, 8, 8, ori_mv, gmv, 4, 4, plane, p.len, pred0, CU) == code);
                }
                plane[at] = 0;
            }
    }
}

/* A copied block has the samples of its place, in all three planes. */
static void predicted(void) {
    const uint32_t of[][4] = {{0, 0, 4, 4}, {4, 0, 4, 8}, {0, 4, 8, 4}, {0, 0, 8, 8}};
    const EvcList list0 = {true, {0, 0}, 0}, unused = {false, {0, 0}, 0};
    uint16_t *const planes[3] = {y0, u0, v0};
    for (unsigned c = 0; c < 3; c++) {
        const EvcPlaneLayout p = evc_plane_layout(c > 0, 8, 8);
        for (size_t row = 0; row < p.height; row++)
            for (size_t x = 0; x < p.width; x++)
                planes[c][evc_plane_at(&p, x, row)] = (uint16_t)(100 * (c + 1) + 8 * row + x);
    }
    for (size_t i = 0; i < sizeof of / sizeof *of; i++) {
        const EvcBlock b = {8, 8, of[i][0], of[i][1], of[i][2], of[i][3]};
        HOLDS(evc_mc2(b, list0, PLANES0, unused, EMPTY, pred0, CU, pred1, CU).code == EVC_OK);
        for (unsigned c = 0; c < 3; c++) {
            const EvcPlaneLayout p = evc_plane_layout(c > 0, 8, 8);
            const uint32_t half = c > 0 ? 2 : 1;
            for (size_t row = 0; row < b.h / half; row++)
                for (size_t x = 0; x < b.w / half; x++)
                    HOLDS(pred0[evc_cu_at(c, b.w, x, row)]
                          == planes[c][evc_plane_at(&p, b.x / half + x, b.y / half + row)]);
        }
    }
    HOLDS(evc_cu_at(0, 64, 63, 63) == EVC_CU_U - 1 && evc_cu_at(1, 64, 31, 31) == EVC_CU_V - 1);
    HOLDS(evc_cu_at(2, 64, 31, 31) == EVC_CU_LEN - 1 && evc_cu_at(1, 4, 0, 0) == EVC_CU_U);
    HOLDS(evc_cu_at(3, 64, 1, 1) == 0 && evc_cu_at(0, 12, 1, 1) == 0 && evc_cu_at(0, UINT32_MAX, 1, 1) == 0);
    HOLDS(evc_cu_at(2, 8, 4, 0) == 0 && evc_cu_at(0, 8, 8, 0) == 0 && evc_cu_at(0, 64, 0, 64) == 0);
    HOLDS(evc_cu_at(2, 64, 0, 32) == 0 && evc_cu_at(0, 64, 1, SIZE_MAX) == 0);
}

/* The target planes, and others to compare them with. */
static uint16_t put_y[LUMA], put_u[CHROMA], put_v[CHROMA];

static void clear(void) {
    grey(y, LUMA, 9), grey(u, CHROMA, 9), grey(v, CHROMA, 9);
    grey(put_y, LUMA, 9), grey(put_u, CHROMA, 9), grey(put_v, CHROMA, 9);
}

static bool equal(void) {
    return !memcmp(y, put_y, sizeof y) && !memcmp(u, put_u, sizeof u) && !memcmp(v, put_v, sizeof v);
}

/* A block is one where evc_mv_clip takes it, and no other is put into a picture. */
static void blocks(void) {
    const uint32_t sides[] = {0, 4, 8, 10, EVC_MAX_SIDE, EVC_MAX_SIDE + 4, UINT32_MAX - 3};
    const uint32_t places[] = {0, 2, 4, 8, UINT32_MAX - 3}, of[] = {0, 2, 4, 8, 12, 16, 32, 64, 128, UINT32_MAX - 3};
    const EvcMv none = {0, 0};
    size_t taken = 0;
    clear();
    grey(pred0, CU, 5);
#define EACH(n, list) for (size_t n = 0; n < sizeof(list) / sizeof *(list); n++)
    EACH(pic_w, sides) EACH(pic_h, sides) EACH(x, places) EACH(row, places) EACH(w, of) EACH(h, of) {
        const EvcBlock b = {sides[pic_w], sides[pic_h], places[x], places[row], of[w], of[h]};
        const bool is_block = evc_mv_clip(b, none).code == EVC_OK;
        HOLDS(evc_is_block(b) == is_block);
        if (is_block) taken++;
        /* Small ones, which would be seen in these planes. */
        else if (b.pic_w <= 10 && b.pic_h <= 10 && b.w <= 64 && b.h <= 64) evc_cu_put(b, pred0, y, u, v);
    }
    HOLDS(taken > 100 && equal());
}

/* Samples that differ from their neighbours and from those of other planes. */
static void mixed(uint16_t *plane, size_t len, size_t by) {
    for (size_t k = 0; k < len; k++) plane[k] = (uint16_t)(k * by % (EVC_MAX_SAMPLE + 1));
}

/* Whether a replay has counted these vectors, of one record, and no others. */
static bool counts(EvcReplay r, EvcMoved moved0, EvcMoved moved1) {
    const EvcMoved both[] = {moved0, moved1};
    for (size_t k = 0; k < 2; k++) {
        r.across_low -= both[k].x == EVC_MOVED_LOW, r.across_high -= both[k].x == EVC_MOVED_HIGH;
        r.down_low -= both[k].y == EVC_MOVED_LOW, r.down_high -= both[k].y == EVC_MOVED_HIGH;
    }
    return r.across_low == 0 && r.across_high == 0 && r.down_low == 0 && r.down_high == 0;
}

/* What evc_mc2 and evc_get_mv_dir are given becomes a record. Replay gives their number, and where they are done the
   picture that evc_cu_put makes and the counts of what evc_mc2 reports. */
static void records(void) {
    const EvcBlock of[] = {
        {8, 8, 0, 0, 4, 4}, {8, 8, 4, 4, 4, 4}, {8, 8, 4, 0, 4, 8}, {8, 8, 0, 4, 8, 4}, {8, 8, 0, 0, 8, 8},
        {8, 8, 2, 0, 4, 4}, {8, 8, 8, 0, 4, 4}, {8, 8, 65535, 0, 4, 4},
        /* each of these is good if the upper bits are lost */
        {8, 8, 65536 + 4, 0, 4, 4}, {8, 8, 0, 65536 + 4, 4, 4}, {8, 8, 0, 0, 65536 + 4, 4}, {8, 8, 0, 0, 4, 65536 + 4},
        {8, 8, UINT32_MAX - 3, UINT32_MAX - 3, 4, 4},
    };
    const uint32_t pocs[] = {0, 8, EVC_MAX_POC, EVC_MAX_POC + 1, 65535, 65536 + 8, UINT32_MAX - 7};
    const int16_t col[16] = {8, -16, 0, 0, 4, 3000, 0, 0, -9, 1, 0, 0, -3000, 5, 0, 0};
    uint8_t trace[EVC_TRACE_HEADER_LEN + EVC_TRACE_RECORD_LEN], *const record = trace + EVC_TRACE_HEADER_LEN;
    size_t done = 0, moved = 0, bad_block = 0, bad_poc = 0;
    mixed(y0, LUMA, 37), mixed(u0, CHROMA, 53), mixed(v0, CHROMA, 71);
    mixed(y1, LUMA, 89), mixed(u1, CHROMA, 107), mixed(v1, CHROMA, 131);
    HOLDS(evc_trace_write_header(8, 8, 4, 0, trace, sizeof trace) == EVC_OK);
    EACH(i, of) EACH(k0, pocs) EACH(k1, pocs) for (unsigned used = 0; used < 5; used++) {
        const bool direct = used == 4;
        EvcList list0 = {used & 1 || direct, {-500, -2}, pocs[k0]}, list1 = {used & 2 || direct, {-3, 600}, pocs[k1]};
        EvcTraceRecord kept = evc_trace_record(of[i], list0, list1);
        EvcPredicted p = {EVC_OK, {EVC_NOT_MOVED, EVC_NOT_MOVED}, {EVC_NOT_MOVED, EVC_NOT_MOVED}};
        if (direct) {
            const EvcDirect mv = evc_get_mv_dir(of[i], 4, pocs[k0], pocs[k1], 0, true, col, 16);
            kept = evc_trace_direct(of[i], pocs[k0], pocs[k1]);
            p.code = mv.code;
            list0.mv = mv.mv0, list1.mv = mv.mv1;
        }
        if (p.code == EVC_OK) p = evc_mc2(of[i], list0, PLANES0, list1, PLANES1, pred0, CU, pred1, CU);
        const uint32_t code = p.code;
        const uint32_t written = evc_trace_write_record(8, 8, kept, record, EVC_TRACE_RECORD_LEN);
        if (used == 0) {
            HOLDS(kept.kind == 255 && written == EVC_BAD_RECORD && (code == EVC_BAD_LIST || code == EVC_BAD_BLOCK));
            continue;
        }
        clear();
        if (code == EVC_OK) evc_cu_put(of[i], pred0, put_y, put_u, put_v);
        const EvcReplay r = evc_trace_replay(trace, sizeof trace, PLANES0, PLANES1, true, col, 16,
                                             y, LUMA, u, CHROMA, v, CHROMA);
        HOLDS(written == EVC_OK && r.code == code && equal());
        HOLDS(counts(r, p.moved0, p.moved1));
        HOLDS(kept.kind == (direct ? EVC_TRACE_DIRECT : used - 1));
        done += code == EVC_OK, moved += direct && evc_is_moved(p.moved0) && evc_is_moved(p.moved1);
        bad_block += code == EVC_BAD_BLOCK, bad_poc += code == EVC_BAD_POC;
    }
    HOLDS(done > 0 && moved > 0 && bad_block > 0 && bad_poc > 0);

    /* A count of the header that is too large is refused with a direct record only. */
    const EvcList list0 = {true, {5, -2}, 0}, unused = {false, {0, 0}, 0};
    const EvcTraceRecord with[] = {evc_trace_record(of[0], list0, unused), evc_trace_direct(of[0], 0, 8)};
    HOLDS(evc_trace_write_header(8, 8, EVC_MAX_POC + 1, 0, trace, sizeof trace) == EVC_OK);
    EACH(i, with) {
        HOLDS(evc_trace_write_record(8, 8, with[i], record, EVC_TRACE_RECORD_LEN) == EVC_OK);
        const EvcReplay r = evc_trace_replay(trace, sizeof trace, PLANES0, PLANES1, true, col, 16,
                                             y, LUMA, u, CHROMA, v, CHROMA);
        HOLDS(r.code == (i == 0 ? EVC_OK : EVC_BAD_POC));
    }
}

static bool reports(EvcMoved moved, uint8_t x, uint8_t y) {
    return moved.x == x && moved.y == y && evc_is_moved(moved) == (x != EVC_NOT_MOVED || y != EVC_NOT_MOVED);
}

/* At a limit nothing is moved, a quarter sample past it the component is, to the limit's side. */
static void moved_vectors(void) {
    const struct { uint32_t place; int16_t given, clipped; uint8_t side; } of[] = {
        {16, -320, -320, EVC_NOT_MOVED}, {16, -321, -320, EVC_MOVED_LOW},  {16, INT16_MIN, -320, EVC_MOVED_LOW},
        {48, 256, 256, EVC_NOT_MOVED},   {48, 257, 256, EVC_MOVED_HIGH},   {48, INT16_MAX, 256, EVC_MOVED_HIGH},
    };
    EACH(i, of) {
        const EvcBlock across = {64, 64, of[i].place, 0, 16, 16}, down = {64, 64, 0, of[i].place, 16, 16};
        EvcClipped r = evc_mv_clip(across, (EvcMv){of[i].given, 7});
        HOLDS(r.code == EVC_OK && r.mv.x == of[i].clipped && r.mv.y == 7 && reports(r.moved, of[i].side, 0));
        r = evc_mv_clip(down, (EvcMv){7, of[i].given});
        HOLDS(r.code == EVC_OK && r.mv.y == of[i].clipped && r.mv.x == 7 && reports(r.moved, 0, of[i].side));
    }
    const EvcClipped refused = evc_mv_clip((EvcBlock){64, 64, 2, 0, 16, 16}, (EvcMv){-2000, 2000});
    HOLDS(refused.code == EVC_BAD_BLOCK && refused.mv.x == 0 && refused.mv.y == 0 && reports(refused.moved, 0, 0));

    /* Each list in use has its own, where both give a prediction, where list 0 alone stands, and where one is used. */
    const EvcBlock b = {8, 8, 4, 4, 4, 4};
    const EvcList unused0 = {false, {-500, -500}, 0}, unused1 = {false, {500, 500}, 0};
    const EvcList far0 = {true, {-500, 2}, 0}, far1 = {true, {500, -600}, 8}, at_far0 = {true, {-272, 2}, 0};
    const EvcList late = {true, {500, -600}, EVC_MAX_POC + 1};
    EvcPredicted p = evc_mc2(b, far0, PLANES0, far1, PLANES1, pred0, CU, pred1, CU);
    HOLDS(p.code == EVC_OK && reports(p.moved0, EVC_MOVED_LOW, 0) && reports(p.moved1, EVC_MOVED_HIGH, EVC_MOVED_LOW));
    p = evc_mc2(b, at_far0, PLANES0, far0, PLANES1, pred0, CU, pred1, CU);
    HOLDS(p.code == EVC_OK && reports(p.moved0, 0, 0) && reports(p.moved1, EVC_MOVED_LOW, 0));
    p = evc_mc2(b, far0, PLANES0, unused1, EMPTY, pred0, CU, pred1, CU);
    HOLDS(p.code == EVC_OK && reports(p.moved0, EVC_MOVED_LOW, 0) && reports(p.moved1, 0, 0));
    p = evc_mc2(b, unused0, EMPTY, far1, PLANES1, pred0, CU, pred1, CU);
    HOLDS(p.code == EVC_OK && reports(p.moved0, 0, 0) && reports(p.moved1, EVC_MOVED_HIGH, EVC_MOVED_LOW));
    p = evc_mc2(b, far0, PLANES0, late, PLANES1, pred0, CU, pred1, CU);
    HOLDS(p.code == EVC_BAD_POC && reports(p.moved0, 0, 0) && reports(p.moved1, 0, 0));

    /* A replay counts what is finished: all of it, as much as lies before a refused record, or nothing. */
    enum { HEADER = EVC_TRACE_HEADER_LEN, RECORD = EVC_TRACE_RECORD_LEN };
    const EvcTraceRecord of_trace[] = {
        evc_trace_record(b, far0, far1), evc_trace_record(b, far0, far0), evc_trace_record(b, unused0, far1),
        evc_trace_record(b, late, far1),
    };
    const uint64_t after[][4] = {{0, 0, 0, 0}, {1, 1, 1, 0}, {3, 1, 1, 0}, {3, 2, 2, 0}};
    uint8_t trace[HEADER + 4 * RECORD];
    HOLDS(evc_trace_write_header(8, 8, 4, 0, trace, HEADER) == EVC_OK);
    EACH(i, of_trace)
        HOLDS(evc_trace_write_record(8, 8, of_trace[i], trace + HEADER + i * RECORD, RECORD) == EVC_OK);
    for (size_t n = 0; n <= 4; n++)
        for (size_t more = 0; more < 2; more++) {
            if (n == 4 && more == 1) continue;
            const EvcReplay r = evc_trace_replay(trace, HEADER + n * RECORD + more, PLANES0, PLANES1, false, NULL, 0,
                                                 y, LUMA, u, CHROMA, v, CHROMA);
            const size_t finished = n < 3 ? n : 3;
            const uint64_t *want = after[finished];
            HOLDS(r.code == (n == 4 ? EVC_BAD_POC : more == 1 ? EVC_INCOMPLETE : EVC_OK) && r.index == finished);
            HOLDS(r.across_low == want[0] && r.across_high == want[1]);
            HOLDS(r.down_low == want[2] && r.down_high == want[3]);
        }

    const char *texts[] = {"not moved", "moved to the low side", "moved to the high side"};
    EACH(i, texts) HOLDS(!strcmp(evc_moved_text((uint8_t)i), texts[i]));
    HOLDS(!strcmp(evc_moved_text(3), evc_moved_text(UINT8_MAX)) && strcmp(evc_moved_text(3), texts[0]) != 0);
}

/* A header with any byte changed, whole or cut off, reads as replay takes it, and is written again as it was. */
static void headers(void) {
    enum { HEADER = EVC_TRACE_HEADER_LEN };
    uint8_t good[HEADER], changed[HEADER], again[HEADER];
    size_t taken = 0;
    HOLDS(evc_trace_write_header(8, 8, 0x1234, 0x5678, good, HEADER) == EVC_OK);
    for (size_t at = 0; at < HEADER; at++)
        for (unsigned value = 0; value < 256; value++)
            for (size_t len = 0; len <= HEADER; len++)
                for (uint8_t version = 0; version < 2; version++) {
                    memcpy(changed, good, HEADER);
                    changed[3] = version;
                    changed[at] = (uint8_t)value;
                    const EvcTraceHeader h = evc_trace_header_of(changed, len);
                    const EvcReplay r = evc_trace_replay(changed, len, PLANES0, PLANES1, false, NULL, 0,
                                                         y, LUMA, u, CHROMA, v, CHROMA);
                    if (h.code != EVC_OK) {
                        HOLDS(r.code == h.code && h.pic_w == 0 && h.pic_h == 0 && h.poc == 0 && h.list_poc0 == 0);
                        continue;
                    }
                    const bool fits = evc_plane_layout(false, h.pic_w, h.pic_h).len <= LUMA
                        && evc_plane_layout(true, h.pic_w, h.pic_h).len <= CHROMA;
                    HOLDS(r.code == (fits ? EVC_OK : EVC_SHORT_BUFFER));
                    HOLDS(evc_trace_write_header(h.pic_w, h.pic_h, h.poc, h.list_poc0, again, HEADER) == EVC_OK);
                    HOLDS(!memcmp(changed, again, HEADER));
                    taken++;
                }
    HOLDS(taken > 4 * 256);
    HOLDS(evc_trace_header_of(NULL, 0).code == EVC_INCOMPLETE);
}

/* Each kind takes the fields that are its own: vector and count of list 0, of list 1, both, and both counts alone. */
static void kinds(void) {
    enum { SHAPES = 4 };
    const EvcTraceRecord shapes[SHAPES] = {
        {4, 4, 4, 4, 0, {1, 0}, {0, 0}, 2, 0}, {4, 4, 4, 4, 0, {0, 0}, {0, 3}, 0, 4},
        {4, 4, 4, 4, 0, {1, 0}, {0, 3}, 2, 4}, {4, 4, 4, 4, 0, {0, 0}, {0, 0}, 2, 4},
    };
    const struct { uint8_t kind; bool takes[SHAPES]; } of[] = {
        {EVC_TRACE_LIST0, {true, false, false, false}}, {EVC_TRACE_LIST1, {false, true, false, false}},
        {EVC_TRACE_BOTH, {true, true, true, true}},     {EVC_TRACE_DIRECT, {false, false, false, true}},
        {EVC_TRACE_DIRECT + 1, {false, false, false, false}},
    };
    uint8_t out[EVC_TRACE_RECORD_LEN];
    for (size_t i = 0; i < sizeof of / sizeof *of; i++)
        for (size_t k = 0; k < SHAPES; k++) {
            EvcTraceRecord record = shapes[k];
            record.kind = of[i].kind;
            const uint32_t code = evc_trace_write_record(8, 8, record, out, sizeof out);
            HOLDS(code == (of[i].takes[k] ? EVC_OK : EVC_BAD_RECORD));
        }
}

int main(void) {
    EvcBlock b = {8, 8, 4, 4, 4, 4}, bad = {8, 8, 4, 4, 12, 4};
    EvcMv none = {0, 0};
    const EvcPlaneLayout luma = evc_plane_layout(false, 8, 8), chroma = evc_plane_layout(true, 8, 8);

    messages(), planes(), units(), flags(), window(), predicted(), blocks(), kinds(), records(), moved_vectors();
    headers();

    uint32_t words[4] = {0};
    HOLDS(evc_get_avail_inter(b, words, 4).avail == (EVC_AVAIL_UP | EVC_AVAIL_RI_UP));
    for (int k = 0; k < 4; k++) words[k] = EVC_SCU_CODED;
    HOLDS(evc_get_avail_inter(b, words, 4).avail == (EVC_AVAIL_UP | EVC_AVAIL_LE | EVC_AVAIL_UP_LE | EVC_AVAIL_RI_UP));
    EvcAvail avail = evc_get_avail_inter(b, words, 3);
    HOLDS(avail.code == EVC_SHORT_BUFFER && avail.avail == 0);

    int16_t map[16] = {1, 2, 3, 4, 5, 6, 7, 8, 9, 10, 11, 12, 13, 14, 15, 16};
    EvcCandidates cand = {.collocated = {-7, -8}, .refi = {1, 1, 1, 1}}, before = cand;
    HOLDS(evc_get_motion(b, 2, 0, map, 16, false, NULL, 0, &cand) == EVC_BAD_LIST);
    HOLDS(evc_get_motion(b, 1, EVC_AVAIL_UP_RI, map, 16, false, NULL, 0, &cand) == EVC_BAD_NEIGHBOUR);
    HOLDS(!memcmp(&cand, &before, sizeof cand));
    HOLDS(evc_get_motion(b, 1, EVC_AVAIL_UP | EVC_AVAIL_LE, map, 16, false, NULL, 0, &cand) == EVC_OK);
    HOLDS(cand.left.x == 11 && cand.left.y == 12 && cand.up.x == 7 && cand.up.y == 8);
    HOLDS(cand.up_right.x == 1 && cand.collocated.x == -7 && cand.refi[3] == 0);

    int16_t col[16] = {[12] = 7, [13] = -7};
    EvcDirect direct = evc_get_mv_dir(b, 4, 0, 8, 0, true, col, 16);
    HOLDS(direct.code == EVC_OK && direct.mv0.x == 3 && direct.mv0.y == -3 && direct.mv1.x == -3 && direct.mv1.y == 3);
    HOLDS(evc_get_mv_dir(b, 4, 0, EVC_MAX_POC, 0, true, col, 16).code == EVC_OK);
    HOLDS(evc_get_mv_dir(b, 4, 0, EVC_MAX_POC + 1, 0, true, col, 16).code == EVC_BAD_POC);

    HOLDS(evc_mv_clip(bad, none).code == EVC_BAD_BLOCK);

    grey(y0, LUMA, 3), grey(u0, CHROMA, 3), grey(v0, CHROMA, 3);
    grey(y1, LUMA, 4), grey(u1, CHROMA, 4), grey(v1, CHROMA, 4);
    HOLDS(luma.len == LUMA && chroma.len == CHROMA);
    y0[evc_plane_at(&luma, 0, 0)] = 200;
    HOLDS(evc_pad(false, 8, 8, y0, LUMA) == EVC_OK && y0[0] == 200);
    HOLDS(evc_pad(false, 8, 8, y0, LUMA - 1) == EVC_SHORT_BUFFER);
    HOLDS(evc_pad(true, 10, 8, u0, CHROMA) == EVC_BAD_PICTURE);
    u0[evc_plane_at(&chroma, 3, 3)] = 1024;
    HOLDS(evc_pad(true, 8, 8, u0, CHROMA) == EVC_BAD_SAMPLE && u0[0] == 3);
    u0[evc_plane_at(&chroma, 3, 3)] = 3;

    grey(pred0, CU, 9);
    HOLDS(evc_mc_plane(false, 8, 8, none, none, 4, 4, y0, LUMA, pred0, 16) == EVC_OK);
    HOLDS(pred0[0] == 200 && pred0[15] == 3 && pred0[16] == 9);
    HOLDS(evc_mc_plane(false, 8, 8, none, none, 4, 4, y0, LUMA, pred0, 15) == EVC_SHORT_BUFFER);

    EvcList list0 = {true, {5, 2}, 0}, list1 = {true, {5, 2}, 8}, unused = {false, {0, 0}, 0};
    HOLDS(evc_mc2(b, list0, PLANES0, list1, PLANES1, pred0, CU, pred1, CU).code == EVC_OK);
    HOLDS(pred0[0] == 4 && pred1[EVC_CU_V] == 4 && pred0[16] == 9); /* the average of 3 and 4 */
    memcpy(kept, pred0, sizeof kept);
    HOLDS(evc_mc2(b, unused, EMPTY, unused, EMPTY, pred0, CU, pred1, CU).code == EVC_BAD_LIST);
    EvcPredicted p = evc_mc2(b, list0, y0, LUMA, u0, CHROMA, v0, CHROMA - 1, unused, EMPTY, pred0, CU, pred1, CU);
    HOLDS(p.code == EVC_SHORT_BUFFER);
    HOLDS(evc_mc2(b, list0, PLANES0, unused, EMPTY, pred0, CU - 1, pred1, CU).code == EVC_SHORT_BUFFER);
    HOLDS(evc_mc2(b, list0, PLANES0, unused, EMPTY, pred0, CU, pred1, CU - 1).code == EVC_SHORT_BUFFER);
    HOLDS(!memcmp(kept, pred0, sizeof kept));
    HOLDS(evc_mc2(b, unused, EMPTY, list1, PLANES1, pred0, CU, pred1, CU).code == EVC_OK);
    HOLDS(pred0[EVC_CU_U] == 4);

    /* Two equal lists: the second gives nothing, but is in use. */
    EvcList equal1 = list0;
    grey(pred1, CU, 9);
    HOLDS(evc_mc2(b, list0, PLANES0, equal1, PLANES1, pred0, CU, pred1, CU).code == EVC_OK);
    HOLDS(pred0[0] == 3 && pred1[0] == 9);
    p = evc_mc2(b, list0, PLANES0, equal1, y1, LUMA, u1, CHROMA, v1, CHROMA - 1, pred0, CU, pred1, CU);
    HOLDS(p.code == EVC_SHORT_BUFFER);
    v1[evc_plane_at(&chroma, 2, 2)] = 1024;
    HOLDS(evc_mc2(b, list0, PLANES0, equal1, PLANES1, pred0, CU, pred1, CU).code == EVC_BAD_SAMPLE);
    v1[evc_plane_at(&chroma, 2, 2)] = 4;

    /* A trace of two records: list 0 as above, and direct in the upper left. */
    enum { HEADER = EVC_TRACE_HEADER_LEN, RECORD = EVC_TRACE_RECORD_LEN, TRACE = HEADER + 2 * RECORD };
    uint8_t trace[TRACE + 1], *first = trace + HEADER, *second = first + RECORD;
    uint8_t want[HEADER + RECORD] = {'I', 'P', 'T', 1, 0, 8, 0, 8, 0, 4, 0, 2, 1,
                                     4, 0, 4, 0, 4, 0, 4, 0, EVC_TRACE_LIST0, 251, 255, 2};
    EvcTraceRecord from0 = {4, 4, 4, 4, EVC_TRACE_LIST0, {-5, 2}, {0, 0}, 0, 0}, above = from0;
    EvcTraceRecord direct8 = {0, 0, 4, 4, EVC_TRACE_DIRECT, {0, 0}, {0, 0}, 0, 8};
    above.kind = EVC_TRACE_DIRECT + 1;
    memset(trace, 9, sizeof trace);
    HOLDS(evc_trace_write_header(10, 8, 4, 258, trace, HEADER - 1) == EVC_BAD_PICTURE);
    HOLDS(evc_trace_write_header(8, 8, 4, 258, trace, HEADER - 1) == EVC_SHORT_BUFFER && trace[0] == 9);
    HOLDS(evc_trace_write_header(8, 8, 4, 258, trace, HEADER) == EVC_OK);
    HOLDS(evc_trace_write_record(8, 10, above, first, RECORD - 1) == EVC_BAD_PICTURE);
    HOLDS(evc_trace_write_record(8, 8, above, first, RECORD - 1) == EVC_SHORT_BUFFER);
    HOLDS(evc_trace_write_record(8, 8, above, first, RECORD) == EVC_BAD_RECORD && *first == 9);
    HOLDS(evc_trace_write_record(8, 8, from0, first, RECORD) == EVC_OK);
    HOLDS(!memcmp(trace, want, sizeof want) && *second == 9);
    HOLDS(evc_trace_write_header(8, 8, 4, 0, trace, HEADER) == EVC_OK);
    HOLDS(evc_trace_write_record(8, 8, direct8, second, RECORD) == EVC_OK && trace[TRACE] == 9);

    clear();
#define REPLAY(trace_len, y0_len, v_len) \
    evc_trace_replay(trace, trace_len, y0, y0_len, u0, CHROMA, v0, CHROMA, PLANES1, true, col, 16, \
                     y, LUMA, u, CHROMA, v, v_len)
    EvcReplay r = REPLAY(HEADER - 1, LUMA - 1, CHROMA);
    HOLDS(r.code == EVC_INCOMPLETE && r.index == 0);
    r = REPLAY(TRACE, LUMA - 1, CHROMA);
    HOLDS(r.code == EVC_SHORT_BUFFER && r.index == 0);
    r = REPLAY(TRACE, LUMA, CHROMA - 1);
    HOLDS(r.code == EVC_SHORT_BUFFER && r.index == 0);
    trace[3] = 2, r = REPLAY(TRACE, LUMA, CHROMA), trace[3] = 1;
    HOLDS(r.code == EVC_BAD_MARK && r.index == 0 && y[evc_plane_at(&luma, 4, 4)] == 9);
    r = REPLAY(TRACE - 1, LUMA, CHROMA);
    HOLDS(r.code == EVC_INCOMPLETE && r.index == 1); /* the first record's block is there, the second's is not */
    HOLDS(y[evc_plane_at(&luma, 4, 4)] == 3 && y[evc_plane_at(&luma, 0, 0)] == 9);
    HOLDS(u[evc_plane_at(&chroma, 2, 2)] == 3 && v[evc_plane_at(&chroma, 3, 3)] == 3);
    r = REPLAY(TRACE, LUMA, CHROMA);
    HOLDS(r.code == EVC_OK && r.index == 2);
    /* The average of 3 and 4. */
    HOLDS(y[evc_plane_at(&luma, 3, 3)] == 4 && u[evc_plane_at(&chroma, 0, 0)] == 4);
    /* The border, and outside the blocks. */
    HOLDS(y[79 * 176 + 80] == 9 && y[80 * 176 + 79] == 9 && y[88 * 176 + 87] == 9 && y[evc_plane_at(&luma, 4, 0)] == 9);
    r = REPLAY(TRACE + 1, LUMA, CHROMA);
    HOLDS(r.code == EVC_INCOMPLETE && r.index == 2); /* a trace has no excess */

    /* Camera movement of two units; list 1 is not in it. */
    int16_t panned[8] = {6, 0, 1, 2, 7, 0, 3, 4}, apart[8] = {4, -9, 1, 2, -4, 9, 3, 4};
    int16_t tilted[8] = {1, -1, 1, 2, -1, -2, 3, 4};
    uint32_t intra[2] = {EVC_SCU_CODED | EVC_SCU_INTRA, EVC_SCU_CODED | EVC_SCU_INTRA};
    uint32_t one[2] = {0x00000000u, 0xffff7fffu}; /* the first is not coded */
    HOLDS(reads(evc_camera_motion(8, 4, panned, 8, words, 2), EVC_OK, EVC_CAMERA_MOVING, 1.625, 0.0));
    HOLDS(reads(evc_camera_motion(8, 4, apart, 8, words, 2), EVC_OK, EVC_CAMERA_STILL, 0.0, 0.0));
    HOLDS(reads(evc_camera_motion(4, 8, tilted, 8, words, 2), EVC_OK, EVC_CAMERA_MOVING, 0.0, -0.375));
    HOLDS(reads(evc_camera_motion(8, 4, panned, 8, intra, 2), EVC_OK, EVC_CAMERA_NONE, 0.0, 0.0));
    HOLDS(reads(evc_camera_motion(8, 4, panned, 8, one, 2), EVC_OK, EVC_CAMERA_MOVING, 1.75, 0.0));
    HOLDS(reads(evc_camera_motion(8, 6, panned, 7, words, 1), EVC_BAD_PICTURE, EVC_CAMERA_NONE, 0.0, 0.0));
    HOLDS(reads(evc_camera_motion(8, 4, panned, 7, words, 2), EVC_SHORT_BUFFER, EVC_CAMERA_NONE, 0.0, 0.0));
    HOLDS(reads(evc_camera_motion(8, 4, panned, 8, words, 1), EVC_SHORT_BUFFER, EVC_CAMERA_NONE, 0.0, 0.0));
    /* Longer buffers, and none. */
    HOLDS(reads(evc_camera_motion(4, 4, panned, 8, words, 2), EVC_OK, EVC_CAMERA_MOVING, 1.5, 0.0));
    HOLDS(reads(evc_camera_motion(4, 4, NULL, 0, NULL, 0), EVC_SHORT_BUFFER, EVC_CAMERA_NONE, 0.0, 0.0));

    puts(failed ? "the archive does not hold" : "the archive holds from C");
    return failed;
}
