/* direct3d11_scene FRAMES: a small program of Direct3D 11, for check_frames: shaders of HLSL, a texture, depth of 24 bits, glass, a scissored panel. */
#define COBJMACROS
#include <windows.h>
#include <initguid.h>
#include <d3d11.h>
#include <d3dcompiler.h>
#include <stdio.h>
#include <stdlib.h>

enum { WIDTH = 320, HEIGHT = 240, SIDE = 16, QUADS = 5, CORNERS = 6 };
typedef struct {
    float place[4], at[2], colour[4];
} Vertex;

static const char SOURCE[] =
    "Texture2D picture : register(t0); SamplerState way : register(s0);\n"
    "void vs(float4 p : POSITION, float2 t : TEXCOORD, float4 c : COLOR, out float4 place : SV_Position, out float2 at : TEXCOORD, out float4 colour : COLOR)\n"
    "{ place = p; at = t; colour = c; }\n"
    "float4 ps(float4 place : SV_Position, float2 at : TEXCOORD, float4 colour : COLOR) : SV_Target { return picture.Sample(way, at) * colour; }\n";
/* left, top, right and bottom in clip space, depths at the left and at the right, w at the right, and a colour */
static const float PLACES[QUADS][7] = {
    {-.8f, .8f, .4f, -.6f, .3f, .7f, 1.5f}, {-.4f, .5f, .9f, -.9f, .6f, .2f, 1}, {-.9f, .2f, .9f, -.2f, .5f, .5f, 2},
    {-.6f, .9f, .6f, -.8f, .1f, .1f, 1}, {-1, 1, 1, -1, 0, 0, 1},
};
static const float COLOURS[QUADS][4] = {{1, .6f, .4f, 1}, {.5f, 1, .5f, 1}, {.5f, .6f, 1, 1}, {1, .2f, .6f, .5f}, {.1f, .1f, .1f, .7f}};
static ID3D11Device *device;
static ID3D11DeviceContext *context;
static IDXGISwapChain *chain;
static ID3D11RenderTargetView *target;
static ID3D11DepthStencilView *depths;
static ID3D11DepthStencilState *tested, *read_only;
static ID3D11BlendState *glass;
static ID3D11RasterizerState *plain, *scissored;

static void *made(HRESULT result, void *what)
{
    if (FAILED(result)) {
        fprintf(stderr, "direct3d11_scene: a call failed with %08lx\n", (unsigned long)result);
        exit(3);
    }
    return what;
}

static void open_window(void)
{
    WNDCLASSA class = {.lpfnWndProc = DefWindowProcA, .hInstance = GetModuleHandleA(NULL), .lpszClassName = "scene"};
    RegisterClassA(&class);
    HWND shown = CreateWindowA("scene", "scene", WS_POPUP | WS_VISIBLE, 0, 0, WIDTH, HEIGHT, NULL, NULL, class.hInstance, NULL);
    DXGI_SWAP_CHAIN_DESC wanted = {
        .BufferDesc = {.Width = WIDTH, .Height = HEIGHT, .Format = DXGI_FORMAT_R8G8B8A8_UNORM}, .SampleDesc = {1, 0}, .BufferCount = 1,
        .BufferUsage = DXGI_USAGE_RENDER_TARGET_OUTPUT, .OutputWindow = shown, .Windowed = TRUE,
    };
    made(D3D11CreateDeviceAndSwapChain(NULL, D3D_DRIVER_TYPE_HARDWARE, NULL, 0, NULL, 0, D3D11_SDK_VERSION, &wanted, &chain, &device, NULL, &context), NULL);
    ID3D11Texture2D *back, *deep;
    D3D11_TEXTURE2D_DESC depth = {WIDTH, HEIGHT, 1, 1, DXGI_FORMAT_D24_UNORM_S8_UINT, {1, 0}, D3D11_USAGE_DEFAULT, D3D11_BIND_DEPTH_STENCIL, 0, 0};
    made(IDXGISwapChain_GetBuffer(chain, 0, &IID_ID3D11Texture2D, (void **)&back), NULL);
    made(ID3D11Device_CreateRenderTargetView(device, (ID3D11Resource *)back, NULL, &target), NULL);
    made(ID3D11Device_CreateTexture2D(device, &depth, NULL, &deep), NULL);
    made(ID3D11Device_CreateDepthStencilView(device, (ID3D11Resource *)deep, NULL, &depths), NULL);
}

static ID3DBlob *compiled(const char *name, const char *profile)
{
    ID3DBlob *code = NULL;
    made(D3DCompile(SOURCE, sizeof SOURCE - 1, NULL, NULL, NULL, name, profile, 0, 0, &code, NULL), NULL);
    return code;
}

static void set_shaders(void)
{
    ID3DBlob *vertex = compiled("vs", "vs_4_0"), *pixel = compiled("ps", "ps_4_0");
    ID3D11VertexShader *corners;
    ID3D11PixelShader *colours;
    ID3D11InputLayout *layout;
    D3D11_INPUT_ELEMENT_DESC parts[] = {
        {"POSITION", 0, DXGI_FORMAT_R32G32B32A32_FLOAT, 0, 0, 0, 0}, {"TEXCOORD", 0, DXGI_FORMAT_R32G32_FLOAT, 0, 16, 0, 0},
        {"COLOR", 0, DXGI_FORMAT_R32G32B32A32_FLOAT, 0, 24, 0, 0},
    };
    made(ID3D11Device_CreateVertexShader(device, ID3D10Blob_GetBufferPointer(vertex), ID3D10Blob_GetBufferSize(vertex), NULL, &corners), NULL);
    made(ID3D11Device_CreatePixelShader(device, ID3D10Blob_GetBufferPointer(pixel), ID3D10Blob_GetBufferSize(pixel), NULL, &colours), NULL);
    made(ID3D11Device_CreateInputLayout(device, parts, 3, ID3D10Blob_GetBufferPointer(vertex), ID3D10Blob_GetBufferSize(vertex), &layout), NULL);
    ID3D11DeviceContext_VSSetShader(context, corners, NULL, 0);
    ID3D11DeviceContext_PSSetShader(context, colours, NULL, 0);
    ID3D11DeviceContext_IASetInputLayout(context, layout);
}

static void set_corners(void)
{
    static Vertex corners[QUADS * CORNERS];
    for (int i = 0; i < QUADS * CORNERS; i++) {
        const float *place = PLACES[i / CORNERS], *colour = COLOURS[i / CORNERS];
        int corner = (int[]){0, 1, 2, 1, 3, 2}[i % CORNERS], right = corner & 1, lower = corner >> 1;
        float w = right ? place[6] : 1;
        corners[i] = (Vertex){{place[2 * right] * w, place[1 + 2 * lower] * w, place[4 + right] * w, w}, {(float)right, (float)lower}, {0}};
        for (int channel = 0; channel < 4; channel++)
            corners[i].colour[channel] = channel < 3 && corner == 3 ? colour[channel] / 2 : colour[channel];
    }
    D3D11_BUFFER_DESC wanted = {sizeof corners, D3D11_USAGE_DEFAULT, D3D11_BIND_VERTEX_BUFFER, 0, 0, 0};
    D3D11_SUBRESOURCE_DATA data = {corners, 0, 0};
    ID3D11Buffer *buffer;
    UINT stride = sizeof *corners, offset = 0;
    made(ID3D11Device_CreateBuffer(device, &wanted, &data, &buffer), NULL);
    ID3D11DeviceContext_IASetVertexBuffers(context, 0, 1, &buffer, &stride, &offset);
    ID3D11DeviceContext_IASetPrimitiveTopology(context, D3D11_PRIMITIVE_TOPOLOGY_TRIANGLELIST);
}

static void set_texture(void)
{
    static unsigned char texels[SIDE][SIDE][4];
    for (int y = 0; y < SIDE; y++)
        for (int x = 0; x < SIDE; x++)
            memset(texels[y][x], (x / 2 + y / 2) % 2 ? 230 : 120, 3), texels[y][x][3] = 255;
    D3D11_TEXTURE2D_DESC wanted = {SIDE, SIDE, 1, 1, DXGI_FORMAT_R8G8B8A8_UNORM, {1, 0}, D3D11_USAGE_IMMUTABLE, D3D11_BIND_SHADER_RESOURCE, 0, 0};
    D3D11_SUBRESOURCE_DATA data = {texels, sizeof *texels, 0};
    D3D11_SAMPLER_DESC way = {
        .Filter = D3D11_FILTER_MIN_MAG_MIP_LINEAR, .AddressU = 1, .AddressV = 1, .AddressW = 1, .MaxLOD = 99, .MaxAnisotropy = 1, .ComparisonFunc = 1,
    };
    ID3D11Texture2D *texture;
    ID3D11ShaderResourceView *view;
    ID3D11SamplerState *sampler;
    made(ID3D11Device_CreateTexture2D(device, &wanted, &data, &texture), NULL);
    made(ID3D11Device_CreateShaderResourceView(device, (ID3D11Resource *)texture, NULL, &view), NULL);
    made(ID3D11Device_CreateSamplerState(device, &way, &sampler), NULL);
    ID3D11DeviceContext_PSSetShaderResources(context, 0, 1, &view);
    ID3D11DeviceContext_PSSetSamplers(context, 0, 1, &sampler);
}

static void make_states(void)
{
    D3D11_RASTERIZER_DESC raster = {.FillMode = D3D11_FILL_SOLID, .CullMode = D3D11_CULL_NONE, .DepthClipEnable = TRUE};
    D3D11_BLEND_DESC blend = {0};
    D3D11_DEPTH_STENCIL_DESC depth = {
        .DepthEnable = TRUE, .DepthWriteMask = D3D11_DEPTH_WRITE_MASK_ALL, .DepthFunc = D3D11_COMPARISON_LESS_EQUAL,
        .FrontFace = {1, 1, 1, 8}, .BackFace = {1, 1, 1, 8},
    };
    blend.RenderTarget[0] = (D3D11_RENDER_TARGET_BLEND_DESC){
        TRUE, D3D11_BLEND_SRC_ALPHA, D3D11_BLEND_INV_SRC_ALPHA, D3D11_BLEND_OP_ADD, D3D11_BLEND_ONE, D3D11_BLEND_ZERO, D3D11_BLEND_OP_ADD, 15,
    };
    made(ID3D11Device_CreateRasterizerState(device, &raster, &plain), NULL);
    raster.ScissorEnable = TRUE;
    made(ID3D11Device_CreateRasterizerState(device, &raster, &scissored), NULL);
    made(ID3D11Device_CreateBlendState(device, &blend, &glass), NULL);
    made(ID3D11Device_CreateDepthStencilState(device, &depth, &tested), NULL);
    depth.DepthWriteMask = D3D11_DEPTH_WRITE_MASK_ZERO;
    made(ID3D11Device_CreateDepthStencilState(device, &depth, &read_only), NULL);
}

static void draw(void)
{
    const float sky[4] = {.2f, .3f, .45f, 1};
    D3D11_VIEWPORT viewport = {0, 0, WIDTH, HEIGHT, 0, 1};
    D3D11_RECT panel = {20, 15, 120, 60};
    ID3D11DeviceContext_OMSetRenderTargets(context, 1, &target, depths);
    ID3D11DeviceContext_RSSetViewports(context, 1, &viewport);
    ID3D11DeviceContext_RSSetScissorRects(context, 1, &panel);
    ID3D11DeviceContext_RSSetState(context, plain);
    ID3D11DeviceContext_OMSetBlendState(context, NULL, NULL, ~0u);
    ID3D11DeviceContext_OMSetDepthStencilState(context, tested, 0);
    ID3D11DeviceContext_ClearRenderTargetView(context, target, sky);
    ID3D11DeviceContext_ClearDepthStencilView(context, depths, D3D11_CLEAR_DEPTH | D3D11_CLEAR_STENCIL, 1, 0);
    for (UINT quad = 0; quad < QUADS; quad++) {
        if (quad == 3) {
            ID3D11DeviceContext_OMSetBlendState(context, glass, NULL, ~0u);
            ID3D11DeviceContext_OMSetDepthStencilState(context, read_only, 0);
        }
        if (quad == 4)
            ID3D11DeviceContext_RSSetState(context, scissored);
        ID3D11DeviceContext_Draw(context, CORNERS, CORNERS * quad);
    }
    made(IDXGISwapChain_Present(chain, 1, 0), NULL);
}

int main(int count, char **words)
{
    open_window();
    set_shaders();
    set_corners();
    set_texture();
    make_states();
    for (int frame = count > 1 ? atoi(words[1]) : 100; frame; frame--) {
        MSG message;
        while (PeekMessageA(&message, NULL, 0, 0, PM_REMOVE))
            DispatchMessageA(&message);
        draw();
        Sleep(30);
    }
    return 0;
}
