/* Events in the words of Direct3D 11. Their order is that of the lists of capture.c. */
#include "card_parts.h"

#include <stdlib.h>
#include <string.h>

#include "common.h"

typedef struct {
    float x, y, z, w;
    unsigned char colour[4];
} Corner;

static const D3D11_BLEND FACTORS[] = {
    D3D11_BLEND_ZERO, D3D11_BLEND_ONE, D3D11_BLEND_SRC_COLOR, D3D11_BLEND_INV_SRC_COLOR, D3D11_BLEND_SRC_ALPHA, D3D11_BLEND_INV_SRC_ALPHA,
    D3D11_BLEND_DEST_ALPHA, D3D11_BLEND_INV_DEST_ALPHA, D3D11_BLEND_DEST_COLOR, D3D11_BLEND_INV_DEST_COLOR, D3D11_BLEND_BLEND_FACTOR,
    D3D11_BLEND_INV_BLEND_FACTOR};
static const D3D11_BLEND_OP OPERATIONS[] = {D3D11_BLEND_OP_ADD, D3D11_BLEND_OP_SUBTRACT, D3D11_BLEND_OP_REV_SUBTRACT, D3D11_BLEND_OP_MIN,
                                            D3D11_BLEND_OP_MAX};
static const D3D11_CULL_MODE CULLS[] = {D3D11_CULL_NONE, D3D11_CULL_FRONT, D3D11_CULL_BACK};
static const D3D11_COMPARISON_FUNC FUNCTIONS[] = {D3D11_COMPARISON_NEVER, D3D11_COMPARISON_LESS, D3D11_COMPARISON_EQUAL,
                                                  D3D11_COMPARISON_LESS_EQUAL, D3D11_COMPARISON_GREATER, D3D11_COMPARISON_NOT_EQUAL,
                                                  D3D11_COMPARISON_GREATER_EQUAL, D3D11_COMPARISON_ALWAYS};
/* The states at the start. */
static const Event RASTER_STATE = {.kind = RASTER, .cull = 2}, SCISSOR_STATE = {.kind = SCISSOR},
                   FACTOR_STATE = {.kind = FACTOR, .colour = {255, 255, 255, 255}},
                   BLEND_STATE = {.kind = BLEND, .rgb = {1, 0, 0}, .alpha = {1, 0, 0}, .mask = 15},
                   DEPTH_STATE = {.kind = DEPTH, .write = 1, .function = 1},
                   FRESH_COLOURS = {.kind = CLEAR}, FRESH_DEPTHS = {.kind = DEPTH_CLEAR, .depth = 65535};

static void set_raster(Card *card, const Event *event)
{
    D3D11_RASTERIZER_DESC wanted = {.FillMode = D3D11_FILL_SOLID, .CullMode = CULLS[event->cull], .FrontCounterClockwise = event->front_ccw,
                                    .ScissorEnable = event->scissor, .DepthClipEnable = FALSE};
    ID3D11RasterizerState *state;
    check_call(ID3D11Device_CreateRasterizerState(card->device, &wanted, &state), "CreateRasterizerState");
    ID3D11DeviceContext_RSSetState(card->context, state);
    ID3D11RasterizerState_Release(state);
}

static LONG within(int64_t edge, int side)
{
    return (LONG)(edge < 0 ? 0 : edge > side ? side : edge);
}

static void set_scissor(Card *card, const Event *event)
{
    const int64_t *edges = event->rect;
    D3D11_RECT rect = {within(edges[0], card->width), within(edges[1], card->height), within(edges[2], card->width), within(edges[3], card->height)};
    if (rect.left >= rect.right || rect.top >= rect.bottom)
        rect = (D3D11_RECT){0, 0, 0, 0};
    ID3D11DeviceContext_RSSetScissorRects(card->context, 1, &rect);
}

/* The factor goes with the state. */
static void bind_blend(Card *card)
{
    float factor[4];
    for (int i = 0; i < 4; i++)
        factor[i] = card->factor[i] / 255.0f;
    ID3D11DeviceContext_OMSetBlendState(card->context, card->blend_state, factor, 0xffffffff);
}

static void set_blend(Card *card, const Event *event)
{
    D3D11_BLEND_DESC wanted = {.IndependentBlendEnable = FALSE};
    wanted.RenderTarget[0] = (D3D11_RENDER_TARGET_BLEND_DESC){
        event->enable, FACTORS[event->rgb.source], FACTORS[event->rgb.destination], OPERATIONS[event->rgb.operation],
        FACTORS[event->alpha.source], FACTORS[event->alpha.destination], OPERATIONS[event->alpha.operation], (UINT8)event->mask};
    if (card->blend_state)
        ID3D11BlendState_Release(card->blend_state);
    check_call(ID3D11Device_CreateBlendState(card->device, &wanted, &card->blend_state), "CreateBlendState");
    bind_blend(card);
}

static void set_factor(Card *card, const Event *event)
{
    memcpy(card->factor, event->colour, sizeof card->factor);
    bind_blend(card);
}

static void set_depth(Card *card, const Event *event)
{
    const D3D11_DEPTH_STENCILOP_DESC keep = {D3D11_STENCIL_OP_KEEP, D3D11_STENCIL_OP_KEEP, D3D11_STENCIL_OP_KEEP, D3D11_COMPARISON_ALWAYS};
    D3D11_DEPTH_STENCIL_DESC wanted = {.DepthEnable = event->enable, .DepthFunc = FUNCTIONS[event->function], .FrontFace = keep, .BackFace = keep,
                                       .DepthWriteMask = event->write ? D3D11_DEPTH_WRITE_MASK_ALL : D3D11_DEPTH_WRITE_MASK_ZERO};
    ID3D11DepthStencilState *state;
    check_call(ID3D11Device_CreateDepthStencilState(card->device, &wanted, &state), "CreateDepthStencilState");
    ID3D11DeviceContext_OMSetDepthStencilState(card->context, state, 0);
    ID3D11DepthStencilState_Release(state);
}

static void clear_colours(Card *card, const Event *event)
{
    float colour[4];
    for (int i = 0; i < 4; i++)
        colour[i] = event->colour[i] / 255.0f;
    ID3D11DeviceContext_ClearRenderTargetView(card->context, card->target_view, colour);
}

/* ---- Draws */

static Corner placed(const Card *card, const Vertex *vertex)
{
    double x = (snapped(vertex->x) + card->way.shift_x) / 256.0, y = (snapped(vertex->y) + card->way.shift_y) / 256.0;
    Corner corner = {.z = (float)(vertex->z / 65535.0), .w = 1};
    corner.x = (float)(card->reach ? x / card->reach : 2 * x / card->width - 1);
    corner.y = (float)(card->reach ? -y / card->reach : 1 - 2 * y / card->height);
    memcpy(corner.colour, vertex->colour, sizeof corner.colour);
    return corner;
}

static ID3D11Buffer *new_vertices(Card *card, const Event *event)
{
    Corner *corners = taken(event->vertices_count * sizeof *corners);
    for (int i = 0; i < event->vertices_count; i++)
        corners[i] = placed(card, &event->vertices[i]);
    ID3D11Buffer *buffer = new_buffer(card, corners, event->vertices_count * sizeof *corners, D3D11_BIND_VERTEX_BUFFER);
    free(corners);
    return buffer;
}

static void draw(Card *card, const Event *event)
{
    int count = corners_of(event);
    UINT stride = sizeof(Corner), offset = 0;
    if (!count)
        return;
    ID3D11Buffer *vertices = new_vertices(card, event);
    ID3D11DeviceContext_IASetVertexBuffers(card->context, 0, 1, &vertices, &stride, &offset);
    ID3D11DeviceContext_PSSetShader(card->context, event->is_flat ? card->flat_shader : card->linear_shader, NULL, 0);
    if (event->indices) {
        ID3D11Buffer *indices = new_buffer(card, event->indices, count * sizeof *event->indices, D3D11_BIND_INDEX_BUFFER);
        ID3D11DeviceContext_IASetIndexBuffer(card->context, indices, DXGI_FORMAT_R32_UINT, 0);
        ID3D11DeviceContext_DrawIndexed(card->context, count, 0, 0);
        ID3D11Buffer_Release(indices);
    } else {
        ID3D11DeviceContext_Draw(card->context, count, 0);
    }
    ID3D11Buffer_Release(vertices);
}

void play_event(Card *card, const Event *event)
{
    switch (event->kind) {
    case CLEAR: clear_colours(card, event); break;
    case RASTER: set_raster(card, event); break;
    case SCISSOR: set_scissor(card, event); break;
    case BLEND: set_blend(card, event); break;
    case FACTOR: set_factor(card, event); break;
    case DRAW: draw(card, event); break;
    case DEPTH: set_depth(card, event); break;
    case DEPTH_CLEAR:
        ID3D11DeviceContext_ClearDepthStencilView(card->context, card->depth_view, D3D11_CLEAR_DEPTH, event->depth / 65535.0f, 0);
        break;
    default: break;
    }
}

static void set_viewport(Card *card)
{
    float reach = (float)card->reach;
    D3D11_VIEWPORT viewport = {0, 0, (float)card->width, (float)card->height, 0, 1};
    if (card->reach)
        viewport = (D3D11_VIEWPORT){-reach, -reach, 2 * reach, 2 * reach, 0, 1};
    ID3D11DeviceContext_RSSetViewports(card->context, 1, &viewport);
}

void start_card(Card *card)
{
    static const Event *const first[] = {&RASTER_STATE, &SCISSOR_STATE, &BLEND_STATE, &FACTOR_STATE, &DEPTH_STATE, &FRESH_COLOURS, &FRESH_DEPTHS};
    ID3D11DeviceContext_OMSetRenderTargets(card->context, 1, &card->target_view, card->depth_view);
    ID3D11DeviceContext_IASetInputLayout(card->context, card->layout);
    ID3D11DeviceContext_IASetPrimitiveTopology(card->context, D3D11_PRIMITIVE_TOPOLOGY_TRIANGLELIST);
    ID3D11DeviceContext_VSSetShader(card->context, card->vertex_shader, NULL, 0);
    set_viewport(card);
    for (size_t i = 0; i < sizeof first / sizeof *first; i++)
        play_event(card, first[i]);
}
