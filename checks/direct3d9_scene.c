/* direct3d9_scene FRAMES: a small program of Direct3D 9's fixed pipeline, for check_frames: triangles with depth, and a blended one. */
#define COBJMACROS
#include <windows.h>
#include <d3d9.h>
#include <stdio.h>
#include <stdlib.h>

enum { WIDTH = 320, HEIGHT = 240 };
typedef struct {
    float x, y, z, w;
    DWORD colour;
} Vertex;

static const Vertex TRIANGLES[9] = {
    {20, 20, .5f, 1, 0xffff4040}, {300, 60, .5f, 1, 0xff40ff40}, {60, 220, .5f, 1, 0xff4040ff},
    {10, 200, .9f, 1, 0xffffff00}, {160, 10, .2f, 1, 0xffffff00}, {310, 230, .4f, 1, 0xff00ffff},
    {0, 120, .1f, 1, 0x80ff00ff}, {320, 100, .1f, 1, 0x80ff00ff}, {320, 140, .1f, 1, 0x80ff00ff},
};

static HWND window(void)
{
    WNDCLASSA class = {.lpfnWndProc = DefWindowProcA, .hInstance = GetModuleHandleA(NULL), .lpszClassName = "scene"};
    RegisterClassA(&class);
    return CreateWindowA("scene", "scene", WS_POPUP | WS_VISIBLE, 0, 0, WIDTH, HEIGHT, NULL, NULL, class.hInstance, NULL);
}

static void draw(IDirect3DDevice9 *device)
{
    IDirect3DDevice9_Clear(device, 0, NULL, D3DCLEAR_TARGET | D3DCLEAR_ZBUFFER, 0xff203040, 1, 0);
    IDirect3DDevice9_BeginScene(device);
    IDirect3DDevice9_SetRenderState(device, D3DRS_CULLMODE, D3DCULL_NONE);
    IDirect3DDevice9_SetRenderState(device, D3DRS_LIGHTING, FALSE);
    IDirect3DDevice9_SetRenderState(device, D3DRS_ALPHABLENDENABLE, FALSE);
    IDirect3DDevice9_SetFVF(device, D3DFVF_XYZRHW | D3DFVF_DIFFUSE);
    IDirect3DDevice9_DrawPrimitiveUP(device, D3DPT_TRIANGLELIST, 2, TRIANGLES, sizeof *TRIANGLES);
    IDirect3DDevice9_SetRenderState(device, D3DRS_ALPHABLENDENABLE, TRUE);
    IDirect3DDevice9_SetRenderState(device, D3DRS_SRCBLEND, D3DBLEND_SRCALPHA);
    IDirect3DDevice9_SetRenderState(device, D3DRS_DESTBLEND, D3DBLEND_INVSRCALPHA);
    IDirect3DDevice9_DrawPrimitiveUP(device, D3DPT_TRIANGLELIST, 1, TRIANGLES + 6, sizeof *TRIANGLES);
    IDirect3DDevice9_EndScene(device);
    IDirect3DDevice9_Present(device, NULL, NULL, NULL, NULL);
}

int main(int count, char **words)
{
    HWND shown = window();
    IDirect3D9 *direct3d = Direct3DCreate9(D3D_SDK_VERSION);
    IDirect3DDevice9 *device = NULL;
    D3DPRESENT_PARAMETERS wanted = {
        .BackBufferWidth = WIDTH, .BackBufferHeight = HEIGHT, .BackBufferFormat = D3DFMT_A8R8G8B8, .BackBufferCount = 1, .SwapEffect = D3DSWAPEFFECT_DISCARD,
        .hDeviceWindow = shown, .Windowed = TRUE, .EnableAutoDepthStencil = TRUE, .AutoDepthStencilFormat = D3DFMT_D24S8,
    };
    if (FAILED(IDirect3D9_CreateDevice(direct3d, 0, D3DDEVTYPE_HAL, shown, D3DCREATE_HARDWARE_VERTEXPROCESSING, &wanted, &device))) {
        fputs("direct3d9_scene: there is no device\n", stderr);
        return 3;
    }
    for (int frame = count > 1 ? atoi(words[1]) : 100; frame; frame--) {
        MSG message;
        while (PeekMessageA(&message, NULL, 0, 0, PM_REMOVE))
            DispatchMessageA(&message);
        draw(device);
        Sleep(30);
    }
    return 0;
}
