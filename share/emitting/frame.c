/* Two turned quads, a see-through pane over them, and a decal with holes, pixel by pixel as its shader gave it, as a renderer would log its frame:
 *
 *     cc -I share share/emitting/frame.c -lm -o frame && ./frame frame.json
 */
#include "framedbg_capture.h"

static const double QUARTER = 1.5707963267948966;
static const framedbg_viewport VIEWPORT = {0, 0, 320, 240, 0, 0};

static void quad(framedbg_capture *capture, double turn, double depth, int r, int g, int b, int a) {
    static const uint32_t indices[6] = {0, 1, 2, 0, 2, 3};
    framedbg_vertex corners[4];
    int i;
    for (i = 0; i < 4; i++) {
        double angle = turn + i * QUARTER, w = 2.0;
        double clip[4] = {cos(angle) * 1.2, sin(angle) * 1.2, (depth * 2 - 1) * w, w};
        framedbg_place(&corners[i], clip, &VIEWPORT);
        corners[i].r = (uint8_t)(r * (i + 4) / 7);
        corners[i].g = (uint8_t)g;
        corners[i].b = (uint8_t)b;
        corners[i].a = (uint8_t)a;
    }
    framedbg_draw(capture, 1, corners, 4, indices, 6);
}

static void decal(framedbg_capture *capture) {
    static const framedbg_vertex corners[3] = {{90, 50, 0.2, 0, 0, 0, 0}, {90, 90, 0.2, 0, 0, 0, 0}, {130, 50, 0.2, 0, 0, 0, 0}};
    uint8_t rgba[8 * 5 * 4], holes[8 * 5];
    framedbg_picture picture;
    int i;
    for (i = 0; i < 8 * 5; i++) {
        int x = i % 8, y = i / 8;
        rgba[4 * i] = (uint8_t)(30 * x);
        rgba[4 * i + 1] = (uint8_t)(40 * y);
        rgba[4 * i + 2] = (uint8_t)(255 - 30 * x);
        rgba[4 * i + 3] = 255;
        holes[i] = (x + y) % 4 == 0;
    }
    picture.left = 100;
    picture.top = 60;
    picture.width = 8;
    picture.height = 5;
    picture.rgba = rgba;
    picture.holes = holes;
    framedbg_draw_picture(capture, &picture, corners, 3, NULL, 0);
}

int main(int count, char **words) {
    framedbg_capture *capture = framedbg_begin_with_pictures(count > 1 ? words[1] : "frame.json", 320, 240);
    int fault;
    framedbg_marker(capture, "the \"frame\" begins");
    framedbg_clear(capture, 20, 24, 40, 255);
    framedbg_depth_clear(capture, 1.0);
    framedbg_raster(capture, FRAMEDBG_CULL_BACK, 1, 0);
    framedbg_depth(capture, 1, 1, "LESS");
    framedbg_source(capture, 1);
    quad(capture, 0.3, 0.5, 255, 80, 40, 255);
    framedbg_source(capture, 2);
    quad(capture, 0.9, 0.4, 60, 200, 90, 255);
    framedbg_blend(capture, 1, "SRC_ALPHA INV_SRC_ALPHA ADD", "ONE ZERO ADD", 15);
    framedbg_scissor(capture, 60, 40, 260, 130);
    framedbg_raster(capture, FRAMEDBG_CULL_BACK, 1, 1);
    framedbg_source(capture, 3);
    quad(capture, 0.6, 0.3, 90, 120, 255, 128);
    framedbg_source(capture, 4);
    decal(capture);
    fault = framedbg_end(capture);
    if (fault) fprintf(stderr, "frame: %s\n", framedbg_fault_name(fault));
    return fault;
}
