#define INITGUID
#include "card_parts.h"

#include <stdio.h>
#include <stdlib.h>
#include <string.h>

#include "common.h"
#include "shaders.h"

enum { MOST_REACH = 8192 };     /* Direct3D allows 32768, some drivers take less */

void check_call(HRESULT result, const char *call)
{
    if (FAILED(result))
        die("%s failed with %08lx", call, (unsigned long)result);
}

/* ---- Adapters */

static IDXGIAdapter *adapter_of(UINT number)
{
    IDXGIFactory *factory;
    IDXGIAdapter *adapter;
    check_call(CreateDXGIFactory(&IID_IDXGIFactory, (void **)&factory), "CreateDXGIFactory");
    return IDXGIFactory_EnumAdapters(factory, number, &adapter) == S_OK ? adapter : NULL;
}

void list_adapters(void)
{
    IDXGIAdapter *adapter;
    for (UINT number = 0; (adapter = adapter_of(number)); number++) {
        DXGI_ADAPTER_DESC told;
        IDXGIAdapter_GetDesc(adapter, &told);
        printf("%u %ls (vendor %04x, device %04x, %u MB)\n", number, told.Description, told.VendorId, told.DeviceId,
               (unsigned)(told.DedicatedVideoMemory >> 20));
    }
}

static D3D_DRIVER_TYPE type_of(const char *driver, IDXGIAdapter **adapter)
{
    if (!strcmp(driver, "hardware"))
        return D3D_DRIVER_TYPE_HARDWARE;
    if (!strcmp(driver, "warp"))
        return D3D_DRIVER_TYPE_WARP;
    if (!strcmp(driver, "reference"))
        return D3D_DRIVER_TYPE_REFERENCE;
    if (!*driver || driver[strspn(driver, "0123456789")])
        die("--driver is hardware, warp, reference or a number of --list, and not %s", driver);
    *adapter = adapter_of((UINT)atoi(driver));
    if (!*adapter)
        die("there is no adapter %s; --list names them", driver);
    return D3D_DRIVER_TYPE_UNKNOWN;
}

static void tell_adapter(Card *card, D3D_FEATURE_LEVEL level)
{
    IDXGIDevice *device;
    IDXGIAdapter *used;
    DXGI_ADAPTER_DESC told;
    LARGE_INTEGER version = {.QuadPart = 0};
    check_call(ID3D11Device_QueryInterface(card->device, &IID_IDXGIDevice, (void **)&device), "QueryInterface");
    check_call(IDXGIDevice_GetAdapter(device, &used), "GetAdapter");
    IDXGIAdapter_GetDesc(used, &told);
    IDXGIAdapter_CheckInterfaceSupport(used, &IID_IDXGIDevice, &version);
    printf("adapter %ls (vendor %04x, device %04x, driver %u.%u.%u.%u), %s, feature level %d.%d\n", told.Description, told.VendorId, told.DeviceId,
           HIWORD(version.HighPart), LOWORD(version.HighPart), HIWORD(version.LowPart), LOWORD(version.LowPart), card->way.driver,
           level >> 12, level >> 8 & 15);
}

/* ---- The target and the shaders */

static ID3D11Texture2D *new_texture(Card *card, DXGI_FORMAT format, D3D11_USAGE usage, UINT bind, UINT access)
{
    D3D11_TEXTURE2D_DESC wanted = {card->width, card->height, 1, 1, format, {1, 0}, usage, bind, access, 0};
    ID3D11Texture2D *texture;
    check_call(ID3D11Device_CreateTexture2D(card->device, &wanted, NULL, &texture), "CreateTexture2D");
    return texture;
}

static void make_target(Card *card)
{
    const DXGI_FORMAT colours = DXGI_FORMAT_R8G8B8A8_UNORM, depths = DXGI_FORMAT_D16_UNORM;
    card->target = new_texture(card, colours, D3D11_USAGE_DEFAULT, D3D11_BIND_RENDER_TARGET, 0);
    card->staging = new_texture(card, colours, D3D11_USAGE_STAGING, 0, D3D11_CPU_ACCESS_READ);
    card->depths = new_texture(card, depths, D3D11_USAGE_DEFAULT, D3D11_BIND_DEPTH_STENCIL, 0);
    card->depth_staging = new_texture(card, depths, D3D11_USAGE_STAGING, 0, D3D11_CPU_ACCESS_READ);
    check_call(ID3D11Device_CreateRenderTargetView(card->device, (ID3D11Resource *)card->target, NULL, &card->target_view),
               "CreateRenderTargetView");
    check_call(ID3D11Device_CreateDepthStencilView(card->device, (ID3D11Resource *)card->depths, NULL, &card->depth_view),
               "CreateDepthStencilView");
}

static ID3D11PixelShader *new_pixel_shader(Card *card, const void *code, size_t size)
{
    ID3D11PixelShader *shader;
    check_call(ID3D11Device_CreatePixelShader(card->device, code, size, NULL, &shader), "CreatePixelShader");
    return shader;
}

static void make_shaders(Card *card)
{
    static const D3D11_INPUT_ELEMENT_DESC elements[] = {
        {"POSITION", 0, DXGI_FORMAT_R32G32B32A32_FLOAT, 0, 0, D3D11_INPUT_PER_VERTEX_DATA, 0},
        {"COLOR", 0, DXGI_FORMAT_R8G8B8A8_UNORM, 0, 16, D3D11_INPUT_PER_VERTEX_DATA, 0}};
    check_call(ID3D11Device_CreateVertexShader(card->device, shader_vertex, sizeof shader_vertex, NULL, &card->vertex_shader),
               "CreateVertexShader");
    card->flat_shader = new_pixel_shader(card, shader_flat, sizeof shader_flat);
    card->linear_shader = card->way.is_plain ? new_pixel_shader(card, shader_linear, sizeof shader_linear)
                                             : new_pixel_shader(card, shader_rounded, sizeof shader_rounded);
    check_call(ID3D11Device_CreateInputLayout(card->device, elements, 2, shader_vertex, sizeof shader_vertex, &card->layout),
               "CreateInputLayout");
}

/* ---- The viewport */

/* The least power of two, in pixels, that holds the target and all corners to both sides: nothing is clipped, and positions are exact in floats. */
static int reach_of(const Capture *capture)
{
    int64_t most = (int64_t)larger(capture->width, capture->height) << 16;
    int reach = 1;
    for (const Event *event = capture->events; event < capture->events + capture->count; event++)
        for (const Vertex *vertex = event->vertices; vertex < event->vertices + event->vertices_count; vertex++)
            most = larger(most, larger(llabs(vertex->x), llabs(vertex->y)));
    while ((int64_t)reach << 16 < most)
        reach *= 2;
    return reach <= MOST_REACH ? reach : 0;
}

/* Whether the whole target is drawn through the viewport: a square over all of it, in white. */
static int holds_viewport(Card *card)
{
    const int64_t right = (int64_t)card->width << 16, bottom = (int64_t)card->height << 16;
    const int64_t places[6][2] = {{0, 0}, {right, 0}, {0, bottom}, {right, 0}, {right, bottom}, {0, bottom}};
    Vertex vertices[6];
    Event square = {.kind = DRAW, .is_flat = 1, .vertices_count = 6, .vertices = vertices};
    Picture picture = new_picture((size_t)card->width * card->height, 0);
    for (int i = 0; i < 6; i++)
        vertices[i] = (Vertex){places[i][0], places[i][1], 0, {255, 255, 255, 255}};
    start_card(card);
    play_event(card, &square);
    read_picture(card, &picture);
    int is_white = 1;
    for (size_t i = 0; i < 4 * picture.pixels; i++)
        is_white &= picture.colours[i] == 255;
    free(picture.colours);
    return is_white;
}

Card *open_card(const Way *way, const Capture *capture)
{
    static const D3D_FEATURE_LEVEL levels[] = {D3D_FEATURE_LEVEL_11_0, D3D_FEATURE_LEVEL_10_1, D3D_FEATURE_LEVEL_10_0};
    IDXGIAdapter *adapter = NULL;
    D3D_FEATURE_LEVEL level;
    Card *card = taken(sizeof *card);
    *card = (Card){.way = *way, .version = capture->version, .width = capture->width, .height = capture->height};
    D3D_DRIVER_TYPE type = type_of(way->driver, &adapter);
    check_call(D3D11CreateDevice(adapter, type, NULL, 0, levels, 3, D3D11_SDK_VERSION, &card->device, &level, &card->context),
               "D3D11CreateDevice");
    tell_adapter(card, level);
    make_target(card);
    make_shaders(card);
    card->reach = way->is_target ? 0 : reach_of(capture);
    card->way.shift_x = card->way.shift_y = 0;
    if (card->reach && !holds_viewport(card)) {
        printf("a viewport of %d pixels isn't drawn through here: the target's own is taken, and triangles that reach beyond it may be cut\n",
               2 * card->reach);
        card->reach = 0;
    }
    card->way = *way;
    return card;
}

/* ---- Pixels */

static void read_texture(Card *card, ID3D11Texture2D *from, ID3D11Texture2D *staging, void *to, size_t stride)
{
    D3D11_MAPPED_SUBRESOURCE map;
    ID3D11DeviceContext_CopyResource(card->context, (ID3D11Resource *)staging, (ID3D11Resource *)from);
    check_call(ID3D11DeviceContext_Map(card->context, (ID3D11Resource *)staging, 0, D3D11_MAP_READ, 0, &map), "Map");
    for (int y = 0; y < card->height; y++)
        memcpy((char *)to + stride * y, (char *)map.pData + (size_t)map.RowPitch * y, stride);
    ID3D11DeviceContext_Unmap(card->context, (ID3D11Resource *)staging, 0);
}

void read_picture(Card *card, Picture *picture)
{
    read_texture(card, card->target, card->staging, picture->colours, 4 * (size_t)card->width);
    if (picture->depths)
        read_texture(card, card->depths, card->depth_staging, picture->depths, 2 * (size_t)card->width);
}

void write_picture(Card *card, const Picture *picture)
{
    ID3D11DeviceContext_UpdateSubresource(card->context, (ID3D11Resource *)card->target, 0, NULL, picture->colours, 4 * card->width, 0);
    if (!picture->depths)
        return;
    D3D11_TEXTURE2D_DESC wanted = {card->width, card->height, 1, 1, DXGI_FORMAT_D16_UNORM, {1, 0}, D3D11_USAGE_DEFAULT, D3D11_BIND_DEPTH_STENCIL,
                                   0, 0};
    D3D11_SUBRESOURCE_DATA data = {picture->depths, 2 * (UINT)card->width, 0};
    ID3D11Texture2D *from;
    check_call(ID3D11Device_CreateTexture2D(card->device, &wanted, &data, &from), "CreateTexture2D");
    ID3D11DeviceContext_CopyResource(card->context, (ID3D11Resource *)card->depths, (ID3D11Resource *)from);
    ID3D11Texture2D_Release(from);
}

ID3D11Buffer *new_buffer(Card *card, const void *data, size_t size, UINT bind)
{
    D3D11_BUFFER_DESC wanted = {(UINT)size, D3D11_USAGE_IMMUTABLE, bind, 0, 0, 0};
    D3D11_SUBRESOURCE_DATA bytes = {data, 0, 0};
    ID3D11Buffer *buffer;
    check_call(ID3D11Device_CreateBuffer(card->device, &wanted, &bytes, &buffer), "CreateBuffer");
    return buffer;
}
