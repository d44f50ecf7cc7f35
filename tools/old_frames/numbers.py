"""OpenGL's numbers, as far as they are wanted, in the words of RenderDoc's that real_frames.states takes."""
MODELVIEW, PROJECTION = 0x1700, 0x1701
MODE_NAMES = dict(
    enumerate(
        (
            "GL_POINTS",
            "GL_LINES",
            "GL_LINE_LOOP",
            "GL_LINE_STRIP",
            "GL_TRIANGLES",
            "GL_TRIANGLE_STRIP",
            "GL_TRIANGLE_FAN",
            "GL_QUADS",
            "GL_QUAD_STRIP",
            "GL_POLYGON",
        )
    )
)
MODES = {
    0: "PointList",
    1: "LineList",
    2: "LineLoop",
    3: "LineStrip",
    4: "TriangleList",
    5: "TriangleStrip",
    6: "TriangleFan",
}
POINTS, QUADS = 0, 7
COMPARES = {
    0x200 + i: name
    for i, name in enumerate(
        ("Never", "Less", "Equal", "LessEqual", "Greater", "NotEqual", "GreaterEqual", "AlwaysTrue")
    )
}
FACTORS = {
    0: "Zero",
    1: "One",
    0x300: "SrcCol",
    0x301: "InvSrcCol",
    0x302: "SrcAlpha",
    0x303: "InvSrcAlpha",
    0x304: "DstAlpha",
    0x305: "InvDstAlpha",
    0x306: "DstCol",
    0x307: "InvDstCol",
    0x308: "SrcAlphaSat",
    0x8001: "FactorRGB",
    0x8002: "InvFactorRGB",
    0x8003: "FactorAlpha",
    0x8004: "InvFactorAlpha",
}
EQUATIONS = {0x8006: "Add", 0x800A: "Subtract", 0x800B: "ReversedSubtract", 0x8007: "Minimum", 0x8008: "Maximum"}
FRONT, BACK, CW, CCW, FILL = 0x404, 0x405, 0x900, 0x901, 0x1B02
CULLS = {FRONT: "front", BACK: "back"}

# What glEnable takes.
POINT_SMOOTH, LINE_SMOOTH, LINE_STIPPLE, POLYGON_SMOOTH, POLYGON_STIPPLE, CULL_FACE = (
    0xB10,
    0xB20,
    0xB24,
    0xB41,
    0xB42,
    0xB44,
)
LIGHTING, COLOR_MATERIAL, FOG, DEPTH_TEST, STENCIL_TEST, NORMALIZE, ALPHA_TEST, DITHER, BLEND = (
    0xB50,
    0xB57,
    0xB60,
    0xB71,
    0xB90,
    0xBA1,
    0xBC0,
    0xBD0,
    0xBE2,
)
COLOR_LOGIC_OP, SCISSOR_TEST, OFFSET_POINT, OFFSET_LINE, OFFSET_FILL, VERTEX_PROGRAM = (
    0xBF2,
    0xC11,
    0x2A01,
    0x2A02,
    0x8037,
    0x8620,
)
CLIP_PLANES = range(0x3000, 0x3008)
TEXTURES = {0xDE0, 0xDE1, 0x806F, 0x8513, 0x84F5}
LIGHTS = set(range(0x4000, 0x4008))

# Arrays and buffers.
ARRAY_BUFFER, ELEMENT_BUFFER = 0x8892, 0x8893
VERTEX_ARRAY = 0x8074
TYPES = {0x1400: "b", 0x1401: "B", 0x1402: "h", 0x1403: "H", 0x1404: "i", 0x1405: "I", 0x1406: "f", 0x140A: "d"}
COLOUR_BIT, DEPTH_BIT = 0x4000, 0x100
VERTEX_SHADER = 0x8B31
FRAMEBUFFER, DRAW_FRAMEBUFFER = 0x8D40, 0x8CA9
SWITCHES = {
    "GL_CULL_FACE": CULL_FACE,
    "GL_DEPTH_TEST": DEPTH_TEST,
    "GL_STENCIL_TEST": STENCIL_TEST,
    "GL_ALPHA_TEST": ALPHA_TEST,
    "GL_BLEND": BLEND,
    "GL_SCISSOR_TEST": SCISSOR_TEST,
    "GL_POLYGON_OFFSET_FILL": OFFSET_FILL,
}
