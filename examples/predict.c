/* Predicts a block from half a sample to its right, and notes which vector leads too far out of the picture and why
   another block is refused.
   With what is installed by 'evc install', and in the repository:

     gcc -std=c99 predict.c $(pkg-config --cflags --libs evc_inter) -o predict
     gcc -std=c99 -I include examples/predict.c target/staticlib/libevc_inter.a -o predict */
#include <inttypes.h>
#include <stdio.h>
#include <stdlib.h>
#include "evc_inter.h"

enum { PIC_W = 64, PIC_H = 32 };

typedef struct { uint16_t *samples; size_t len; } Plane;

/* A padded plane whose every row is 8 * x. */
static Plane ramp(bool chroma) {
    const EvcPlaneLayout layout = evc_plane_layout(chroma, PIC_W, PIC_H);
    const Plane plane = {calloc(layout.len, sizeof(uint16_t)), layout.len};
    if (plane.samples == NULL) {
        perror("a plane");
        exit(EXIT_FAILURE);
    }
    for (size_t y = 0; y < layout.height; y++)
        for (size_t x = 0; x < layout.width; x++) plane.samples[evc_plane_at(&layout, x, y)] = (uint16_t)(8 * x);

    const uint32_t code = evc_pad(chroma, PIC_W, PIC_H, plane.samples, plane.len);
    if (code != EVC_OK) {
        fprintf(stderr, "a plane: refused (%" PRIu32 "): %s\n", code, evc_message(code));
        exit(EXIT_FAILURE);
    }
    return plane;
}

int main(void) {
    const Plane y = ramp(false), u = ramp(true), v = ramp(true);
    const EvcList unused = {false, {0, 0}, 0};
    static uint16_t pred0[EVC_CU_LEN], pred1[EVC_CU_LEN];
    const struct { EvcBlock block; EvcMv mv; } of[] = {
        {{PIC_W, PIC_H, 16, 8, 8, 4}, {2, 0}}, /* two quarter samples to the right */
        {{PIC_W, PIC_H, 24, 8, 8, 4}, {-2000, 0}},
        {{PIC_W, PIC_H, 60, 8, 8, 4}, {2, 0}},
    };

    for (size_t i = 0; i < sizeof of / sizeof *of; i++) {
        const EvcBlock block = of[i].block;
        const EvcList list0 = {true, of[i].mv, 0};
        const EvcPredicted p = evc_mc2(block, list0, y.samples, y.len, u.samples, u.len, v.samples, v.len,
                                       unused, NULL, 0, NULL, 0, NULL, 0, pred0, EVC_CU_LEN, pred1, EVC_CU_LEN);
        if (p.code != EVC_OK) {
            printf("reel 7, block at %" PRIu32 ", %" PRIu32 ": refused (%" PRIu32 "): %s\n",
                   block.x, block.y, p.code, evc_message(p.code));
            continue;
        }
        printf("a row of the block:");
        for (size_t x = 0; x < block.w; x++) printf(" %d", pred0[evc_cu_at(0, block.w, x, 0)]);
        printf("\n");
        if (evc_is_moved(p.moved0))
            printf("reel 7, block at %" PRIu32 ", %" PRIu32 ": vector across %s, down %s\n",
                   block.x, block.y, evc_moved_text(p.moved0.x), evc_moved_text(p.moved0.y));
    }
    free(y.samples);
    free(u.samples);
    free(v.samples);
    return EXIT_SUCCESS;
}
