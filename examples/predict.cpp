// Predicts a block from half a sample to its right, and notes which vector leads too far out of the picture and why
// another block is refused.
// With what is installed by 'evc install', and in the repository:
//
//   g++ -std=c++11 predict.cpp $(pkg-config --cflags --libs evc_inter) -o predict
//   g++ -std=c++11 -I include examples/predict.cpp target/staticlib/libevc_inter.a -o predict
#include "evc_inter.h"
#include <iostream>
#include <stdexcept>
#include <vector>

const uint32_t pic_w = 64, pic_h = 32;

// A padded plane whose every row is 8 * x.
static std::vector<uint16_t> ramp(bool chroma) {
    const EvcPlaneLayout layout = evc_plane_layout(chroma, pic_w, pic_h);
    std::vector<uint16_t> plane(layout.len);
    for (size_t y = 0; y < layout.height; y++)
        for (size_t x = 0; x < layout.width; x++)
            plane[evc_plane_at(&layout, x, y)] = static_cast<uint16_t>(8 * x);

    const uint32_t code = evc_pad(chroma, pic_w, pic_h, plane.data(), plane.size());
    if (code != EVC_OK) throw std::invalid_argument(evc_message(code));
    return plane;
}

int main() try {
    const std::vector<uint16_t> y = ramp(false), u = ramp(true), v = ramp(true);
    const EvcList unused = {false, {0, 0}, 0};
    std::vector<uint16_t> pred0(EVC_CU_LEN), pred1(EVC_CU_LEN);
    const struct { EvcBlock block; EvcMv mv; } all[] = {
        {{pic_w, pic_h, 16, 8, 8, 4}, {2, 0}}, // two quarter samples to the right
        {{pic_w, pic_h, 24, 8, 8, 4}, {-2000, 0}},
        {{pic_w, pic_h, 60, 8, 8, 4}, {2, 0}},
    };

    for (const auto &of : all) {
        const EvcBlock block = of.block;
        const EvcList list0 = {true, of.mv, 0};
        const EvcPredicted p = evc_mc2(block, list0, y.data(), y.size(), u.data(), u.size(), v.data(), v.size(),
                                       unused, nullptr, 0, nullptr, 0, nullptr, 0,
                                       pred0.data(), pred0.size(), pred1.data(), pred1.size());
        if (p.code != EVC_OK) {
            std::cout << "reel 7, block at " << block.x << ", " << block.y << ": refused (" << p.code
                      << "): " << evc_message(p.code) << '\n';
            continue;
        }
        std::cout << "a row of the block:";
        for (size_t x = 0; x < block.w; x++) std::cout << ' ' << pred0[evc_cu_at(0, block.w, x, 0)];
        std::cout << '\n';
        if (evc_is_moved(p.moved0))
            std::cout << "reel 7, block at " << block.x << ", " << block.y << ": vector across "
                      << evc_moved_text(p.moved0.x) << ", down " << evc_moved_text(p.moved0.y) << '\n';
    }
} catch (const std::exception &error) {
    std::cerr << error.what() << '\n';
    return 1;
}
