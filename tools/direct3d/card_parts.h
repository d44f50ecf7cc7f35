/* A card's own parts, for the files that draw with it. */
#ifndef CARD_PARTS_H
#define CARD_PARTS_H

#define COBJMACROS
#include <windows.h>
#include <d3d11.h>
#include <dxgi.h>

#include "card.h"

struct Card {
    Way way;
    int version, width, height;
    int reach;                  /* half of the viewport's width, a power of two; 0: the viewport is the target's own */
    ID3D11Device *device;
    ID3D11DeviceContext *context;
    ID3D11Texture2D *target, *staging, *depths, *depth_staging;
    ID3D11RenderTargetView *target_view;
    ID3D11DepthStencilView *depth_view;
    ID3D11VertexShader *vertex_shader;
    ID3D11PixelShader *flat_shader, *linear_shader;
    ID3D11InputLayout *layout;
    ID3D11BlendState *blend_state;
    unsigned char factor[4];
};

/* Ends the program where a call of Direct3D failed. */
void check_call(HRESULT result, const char *call);

/* The buffer of some bytes; the caller releases it. */
ID3D11Buffer *new_buffer(Card *card, const void *data, size_t size, UINT bind);

#endif
