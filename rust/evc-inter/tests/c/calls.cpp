// The archive from C++11: every call and every helper once, with a result that tells it from the others.
#include "evc_inter.h"
#include <cstdio>
#include <cstring>
#include <vector>

static int failed;
#define HOLDS(what) ((what) ? void() : (failed = 1, void(std::printf("line %d: %s\n", __LINE__, #what))))

// A plane of one grey with its border, of a picture of 8 by 8.
static std::vector<uint16_t> plane(bool chroma, uint16_t grey) {
    return std::vector<uint16_t>(evc_plane_layout(chroma, 8, 8).len, grey);
}

int main() {
    static_assert(sizeof(EvcBlock) == 24 && sizeof(EvcList) == 12 && sizeof(EvcTraceRecord) == 22, "as in C");
    static_assert(sizeof(EvcClipped) == 12 && sizeof(EvcPredicted) == 8 && sizeof(EvcReplay) == 48, "as in C");
    const EvcBlock block = {8, 8, 4, 4, 4, 4};
    const EvcMv none = {0, 0};
    const std::vector<uint32_t> words(evc_map_scu_len(8, 8), EVC_SCU_CODED);
    std::vector<int16_t> map(evc_map_mv_len(8, 8));
    for (size_t k = 0; k < evc_unit_count(8, 8); k++) map[EVC_MOTION_LEN * k] = 4;
    map[EVC_MOTION_LEN * evc_unit_at(8, 8, 0, 4) + 1] = 7;
    map[EVC_MOTION_LEN * evc_unit_at(8, 8, 4, 4)] = 12;

    const EvcPlaneLayout luma = evc_plane_layout(false, 8, 8);
    std::vector<uint16_t> y0 = plane(false, 3), y1 = plane(false, 4), y = plane(false, 9);
    const std::vector<uint16_t> u0 = plane(true, 3), u1 = plane(true, 4);
    std::vector<uint16_t> u = plane(true, 9), v = plane(true, 9), pred0(EVC_CU_LEN), pred1(EVC_CU_LEN);
    y0[evc_plane_at(&luma, 0, 0)] = 200;
    HOLDS(evc_pad(false, 8, 8, y0.data(), y0.size()) == EVC_OK && y0[0] == 200);

    const EvcAvail avail = evc_get_avail_inter(block, words.data(), words.size());
    HOLDS(avail.code == EVC_OK);
    HOLDS(avail.avail == (EVC_AVAIL_UP | EVC_AVAIL_LE | EVC_AVAIL_UP_LE | EVC_AVAIL_RI_UP));

    std::vector<uint32_t> sliced = words; // the lower row is slice 1
    for (uint32_t x = 0; x < 8; x += 4) sliced[evc_unit_at(8, 8, x, 4)] |= 1;
    const EvcAvail in_slice = evc_get_avail_inter_slice(block, 1, sliced.data(), sliced.size());
    HOLDS(in_slice.code == EVC_OK && in_slice.avail == EVC_AVAIL_LE && evc_scu_slice_num(sliced[3]) == 1);
    HOLDS(evc_get_avail_inter_slice(block, EVC_MAX_SLICE_NUM + 1, sliced.data(), 4).code == EVC_BAD_SLICE);

    EvcCandidates cand;
    std::memset(&cand, 1, sizeof cand);
    HOLDS(evc_get_motion(block, 0, avail.avail, map.data(), map.size(), true, map.data(), map.size(), &cand) == EVC_OK);
    HOLDS(cand.left.y == 7 && cand.up_right.x == 1 && cand.collocated.x == 12 && cand.refi[0] == 0);

    const EvcDirect direct = evc_get_mv_dir(block, 4, 0, 8, 0, true, map.data(), map.size());
    HOLDS(direct.code == EVC_OK && direct.mv0.x == 6 && direct.mv1.x == -6);

    const EvcMv far_left = {-321, 0};
    const EvcClipped clipped = evc_mv_clip(block, far_left);
    HOLDS(clipped.code == EVC_OK && clipped.mv.x == -272);
    HOLDS(clipped.moved.x == EVC_MOVED_LOW && clipped.moved.y == EVC_NOT_MOVED && evc_is_moved(clipped.moved));
    HOLDS(std::strcmp(evc_moved_text(clipped.moved.x), "moved to the low side") == 0);

    HOLDS(evc_mc_plane(false, 8, 8, none, none, 4, 4, y0.data(), y0.size(), pred0.data(), 16) == EVC_OK);
    HOLDS(pred0[0] == 200 && pred0[1] == 3);

    const EvcList list0 = {true, {0, 0}, 0}, list1 = {true, {0, 300}, 8}, unused = {false, {0, 0}, 0};
    const EvcPredicted predicted =
        evc_mc2(block, list0, y0.data(), y0.size(), u0.data(), u0.size(), u0.data(), u0.size(), list1, y1.data(),
                y1.size(), u1.data(), u1.size(), u1.data(), u1.size(), pred0.data(), pred0.size(), pred1.data(),
                pred1.size());
    HOLDS(predicted.code == EVC_OK && !evc_is_moved(predicted.moved0) && predicted.moved1.y == EVC_MOVED_HIGH);
    HOLDS(pred0[evc_cu_at(0, 4, 3, 3)] == 4 && pred1[evc_cu_at(2, 4, 0, 0)] == 4); // the average of 3 and 4
    evc_cu_put(block, pred1.data(), y.data(), u.data(), v.data());
    HOLDS(evc_is_block(block) && y[evc_plane_at(&luma, 7, 7)] == 4 && y[evc_plane_at(&luma, 3, 3)] == 9);
    y[evc_plane_at(&luma, 4, 4)] = 9;
    const EvcPredicted refused =
        evc_mc2(block, unused, nullptr, 0, nullptr, 0, nullptr, 0, unused, nullptr, 0, nullptr, 0, nullptr, 0,
                pred0.data(), pred0.size(), pred1.data(), pred1.size());
    HOLDS(refused.code == EVC_BAD_LIST && std::strstr(evc_message(refused.code), "refers to no picture") != nullptr);

    std::vector<uint8_t> trace(EVC_TRACE_HEADER_LEN + EVC_TRACE_RECORD_LEN);
    const EvcTraceRecord record = evc_trace_record(block, unused, list1), in_direct = evc_trace_direct(block, 0, 65536);
    HOLDS(record.kind == EVC_TRACE_LIST1 && record.poc1 == 8);
    HOLDS(in_direct.kind == EVC_TRACE_DIRECT && in_direct.poc1 == 65535);
    HOLDS(evc_trace_write_header(8, 8, 4, 0, trace.data(), trace.size()) == EVC_OK);
    HOLDS(evc_trace_write_record(8, 8, record, trace.data() + EVC_TRACE_HEADER_LEN, EVC_TRACE_RECORD_LEN) == EVC_OK);
    const EvcTraceHeader header = evc_trace_header_of(trace.data(), trace.size());
    HOLDS(header.code == EVC_OK && header.pic_w == 8 && header.poc == 4);
    const EvcReplay replay =
        evc_trace_replay(trace.data(), trace.size(), y0.data(), y0.size(), u0.data(), u0.size(), u0.data(), u0.size(),
                         y1.data(), y1.size(), u1.data(), u1.size(), u1.data(), u1.size(), false, nullptr, 0,
                         y.data(), y.size(), u.data(), u.size(), v.data(), v.size());
    HOLDS(replay.code == EVC_OK && replay.index == 1 && y[evc_plane_at(&luma, 4, 4)] == 4);
    HOLDS(replay.across_low == 0 && replay.across_high == 0 && replay.down_low == 0 && replay.down_high == 1);

    const EvcCamera camera = evc_camera_motion(8, 8, map.data(), map.size(), words.data(), words.size());
    HOLDS(camera.code == EVC_OK && camera.kind == EVC_CAMERA_MOVING && camera.x == 1.5 && camera.y == 0.4375);

    std::puts(failed ? "the archive does not hold" : "the archive holds from C++");
    return failed;
}
