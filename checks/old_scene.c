/* old_scene [FRAMES]: draws a small window by OpenGL 1.5 without shaders: what checks/check_old_frames takes, turns into a capture and compares.
 *
 * Each draw has one colour, so that a pixel's colour tells which draws covered it; the kinds of primitives, of arrays, of matrices and of states that old
 * programs have stand beside each other. */
#include <stdio.h>
#include <stdlib.h>
#include <string.h>
#define GL_GLEXT_PROTOTYPES
#include <GL/gl.h>
#include <GL/glext.h>
#include <GL/glx.h>
#include <X11/Xlib.h>

enum { WIDTH = 200, HEIGHT = 150, FRAMES = 3 };

static GLuint list, buffers[2], texture;

static const GLfloat fan[] = {0.2f, 0.2f, 0.5f, 0.1f, 0.63f, 0.33f, 0.41f, 0.57f, 0.13f, 0.49f, -0.03f, 0.21f};

static void begin_end(void)
{
    static const GLfloat corner[] = {-0.31f, -0.9f, 0.1f};
    glColor3f(0.9f, 0.3f, 0.2f);
    glBegin(GL_TRIANGLES);
    glVertex2f(-0.95f, -0.9f); glVertex2f(-0.6f, -0.85f); glVertex2f(-0.8f, -0.5f);
    glVertex4f(-1.2f, -0.8f, 0, 2); glVertex4d(-0.6, -1.9, 0, 2); glVertex3fv(corner);
    glEnd();
    glColor3ub(40, 200, 90);
    glBegin(GL_QUADS);
    glVertex2f(-0.2f, -0.9f); glVertex2f(0.2f, -0.95f); glVertex2f(0.25f, -0.6f); glVertex2f(-0.15f, -0.55f);
    glVertex2i(1, -1); glVertex2f(0.9f, -0.6f); glVertex2f(0.6f, -0.7f); glVertex2f(0.65f, -0.95f);
    glVertex2f(0, 0);
    glEnd();
    glColor3f(0.2f, 0.4f, 0.9f);
    glBegin(GL_QUAD_STRIP);
    for (int i = 0; i < 5; i++) {
        glVertex2f(-0.95f + 0.17f * i, -0.45f + 0.03f * i * i);
        glVertex2f(-0.9f + 0.19f * i, -0.2f - 0.02f * i);
    }
    glEnd();
    glColor3f(0.8f, 0.8f, 0.1f);
    glBegin(GL_POLYGON);
    for (int i = 0; i < 6; i++) glVertex2f(fan[2 * i] + 0.33f, fan[2 * i + 1] - 0.7f);
    glEnd();
    glBegin(GL_TRIANGLE_STRIP);
    for (int i = 0; i < 7; i++) glVertex3s(i % 2, 0, 0);
    glEnd();
}

static void arrays(void)
{
    static const GLubyte numbers[] = {0, 1, 2, 0, 2, 3};
    static GLdouble wide[4][5] = {{9, -0.9, 0.1, 0, 9}, {9, -0.6, 0.05, 0, 9}, {9, -0.5, 0.3, 0, 9}, {9, -0.85, 0.4, 0, 9}};
    static const GLfloat interleaved[] = {0.7f, 0.1f, 0.9f, -0.1f, 0, 0, 0.7f, 0.1f, 0.9f, 0.95f, 0.05f, 0, 0.7f, 0.1f, 0.9f, 0.4f, 0.35f, 0};
    glEnableClientState(GL_VERTEX_ARRAY);
    glColor3f(0.1f, 0.8f, 0.8f);
    glVertexPointer(2, GL_FLOAT, 0, fan);
    glDrawArrays(GL_TRIANGLE_FAN, 0, 6);
    glColor3f(0.9f, 0.6f, 0.1f);
    glVertexPointer(3, GL_DOUBLE, sizeof wide[0], &wide[0][1]);
    glDrawElements(GL_TRIANGLES, 6, GL_UNSIGNED_BYTE, numbers);
    glInterleavedArrays(GL_C3F_V3F, 0, interleaved);
    glDrawArrays(GL_TRIANGLES, 0, 3);
    glDisableClientState(GL_COLOR_ARRAY);
    glColor3f(0.5f, 0.2f, 0.6f);
    glBindBuffer(GL_ARRAY_BUFFER, buffers[0]);
    glBindBuffer(GL_ELEMENT_ARRAY_BUFFER, buffers[1]);
    glVertexPointer(2, GL_SHORT, 8, (const void *)4);
    glDrawRangeElements(GL_TRIANGLE_STRIP, 0, 4, 4, GL_UNSIGNED_SHORT, (const void *)2);
    glColor3f(1, 0.4f, 0.7f);
    glBegin(GL_TRIANGLES);
    glArrayElement(1); glArrayElement(4); glArrayElement(3);
    glEnd();
    glBindBuffer(GL_ARRAY_BUFFER, 0);
    glBindBuffer(GL_ELEMENT_ARRAY_BUFFER, 0);
    glDisableClientState(GL_VERTEX_ARRAY);
}

/* Solids through a perspective, with depths, culling, an offset, and one that reaches behind the eye. */
static void wall(GLfloat near, GLfloat far)
{
    glBegin(GL_QUADS);
    glVertex3f(-1, -0.7f, near); glVertex3f(1, -0.8f, far); glVertex3f(1, 0.7f, far); glVertex3f(-1, 0.8f, near);
    glEnd();
}

static void deep(void)
{
    glPushAttrib(GL_ENABLE_BIT | GL_POLYGON_BIT | GL_DEPTH_BUFFER_BIT | GL_VIEWPORT_BIT);
    glEnable(GL_DEPTH_TEST);
    glViewport(110, 80, 81, 63);
    glMatrixMode(GL_PROJECTION);
    glPushMatrix();
    glLoadIdentity();
    glFrustum(-0.5, 0.5, -0.4, 0.4, 1, 20);
    glMatrixMode(GL_MODELVIEW);
    glPushMatrix();
    glTranslatef(0.1f, 0, -3);
    glRotatef(25, 0.3f, 1, 0.2f);
    glColor3f(0.6f, 0.6f, 0.6f);
    wall(-1, 1);
    glColor3f(0.2f, 0.9f, 0.3f);
    glPushMatrix();
    glScalef(0.9f, 0.6f, 1.5f);
    glDepthFunc(GL_LEQUAL);
    wall(1, -1);
    glPopMatrix();
    glEnable(GL_POLYGON_OFFSET_FILL);
    glPolygonOffset(-2, -40);
    glColor3f(0.9f, 0.2f, 0.5f);
    glDepthMask(GL_FALSE);
    glScaled(0.5, 0.5, 1);
    wall(-1, 1);
    glDisable(GL_POLYGON_OFFSET_FILL);
    glPopMatrix();
    glEnable(GL_CULL_FACE);
    glColor3f(0.1f, 0.3f, 0.3f);
    glBegin(GL_TRIANGLES);
    glVertex3f(-2, -0.9f, -5); glVertex3f(0.2f, -0.6f, 3); glVertex3f(-0.5f, 2, -6);
    glVertex3f(2, 0.9f, -5); glVertex3f(-0.2f, 0.6f, 0.5f); glVertex3f(2.5f, -1, -3);
    glEnd();
    glCullFace(GL_FRONT);
    glFrontFace(GL_CW);
    glColor3f(0.9f, 0.9f, 0.7f);
    glBegin(GL_TRIANGLES);
    glVertex3f(1, 0.4f, -4); glVertex3f(1.6f, 0.4f, -4); glVertex3f(1.5f, 1.1f, -4);
    glVertex3f(1, -0.4f, -4); glVertex3f(1.6f, -1.1f, -4); glVertex3f(1.5f, -0.4f, -4);
    glEnd();
    glMatrixMode(GL_PROJECTION);
    glPopMatrix();
    glMatrixMode(GL_MODELVIEW);
    glPopAttrib();
}

static void blended(void)
{
    glEnable(GL_BLEND);
    glBlendFunc(GL_SRC_ALPHA, GL_ONE_MINUS_SRC_ALPHA);
    glColor4f(1, 1, 1, 1);
    glRectf(-0.5f, 0.5f, -0.1f, 0.9f);
    glDisable(GL_BLEND);
    glEnable(GL_ALPHA_TEST);
    glAlphaFunc(GL_GREATER, 0.5f);
    glEnable(GL_TEXTURE_2D);
    glBindTexture(GL_TEXTURE_2D, texture);
    glBegin(GL_QUADS);
    glTexCoord2f(0, 0); glVertex2f(-0.95f, 0.5f);
    glTexCoord2f(1, 0); glVertex2f(-0.55f, 0.5f);
    glTexCoord2f(1, 1); glVertex2f(-0.55f, 0.9f);
    glTexCoord2f(0, 1); glVertex2f(-0.95f, 0.9f);
    glEnd();
    glDisable(GL_TEXTURE_2D);
    glDisable(GL_ALPHA_TEST);
    glClear(GL_STENCIL_BUFFER_BIT);
    glEnable(GL_STENCIL_TEST);
    glStencilFunc(GL_ALWAYS, 1, 255);
    glStencilOp(GL_KEEP, GL_KEEP, GL_REPLACE);
    glColorMask(0, 0, 0, 0);
    glBegin(GL_TRIANGLES);
    glVertex2f(0.3f, -0.3f); glVertex2f(0.7f, -0.2f); glVertex2f(0.45f, 0.4f);
    glEnd();
    glColorMask(1, 1, 1, 1);
    glStencilFunc(GL_EQUAL, 1, 255);
    glColor3f(0.3f, 0.9f, 0.6f);
    glRectf(0.2f, -0.35f, 0.8f, 0.2f);
    glDisable(GL_STENCIL_TEST);
    glEnable(GL_SCISSOR_TEST);
    glScissor(5, 70, 30, 9);
    glClearColor(0.3f, 0.1f, 0.4f, 1);
    glClear(GL_COLOR_BUFFER_BIT);
    glColorMask(1, 0, 1, 1);
    glColor3f(1, 1, 1);
    glRecti(-1, -1, 1, 1);
    glColorMask(1, 1, 1, 1);
    glDisable(GL_SCISSOR_TEST);
    glColor3f(0.9f, 0.95f, 1);
    glBegin(GL_LINES);
    glVertex2f(-0.93f, -0.97f); glVertex2f(0.87f, -0.31f);
    glEnd();
    glBegin(GL_POINTS);
    for (int i = 0; i < 9; i++) glVertex2f(-0.97f + 0.101f * i, 0.97f);
    glEnd();
}

/* What is blended: its colours and alpha are to be found again, so each has its own. */
static void glass(GLenum source, GLenum rest, int number)
{
    static const GLubyte colours[][4] = {{200, 100, 50, 102}, {60, 90, 30, 153}, {40, 200, 120, 204}};
    glBlendFunc(source, rest);
    glColor4ubv(colours[number]);
    glBegin(GL_QUADS);
    glVertex2f(-0.9f + 0.6f * number, -0.7f); glVertex2f(-0.5f + 0.6f * number, -0.8f); glVertex2f(-0.4f + 0.6f * number, 0.7f); glVertex2f(-0.8f + 0.6f * number, 0.8f);
    glEnd();
}

static void glasses(void)
{
    glEnable(GL_BLEND);
    glass(GL_SRC_ALPHA, GL_ONE_MINUS_SRC_ALPHA, 0);
    glass(GL_ONE, GL_ONE_MINUS_SRC_ALPHA, 1);
    glass(GL_SRC_ALPHA, GL_ONE, 2);
    glDisable(GL_BLEND);
}

static void frame(void)
{
    glViewport(0, 0, WIDTH, HEIGHT);
    glClearColor(0.15f, 0.17f, 0.25f, 1);
    glClearDepth(0.98);
    glClear(GL_COLOR_BUFFER_BIT | GL_DEPTH_BUFFER_BIT);
    begin_end();
    arrays();
    glColor3f(0.4f, 0.2f, 0.1f);
    glPushMatrix();
    glTranslated(-0.02, 0.6, 0);
    glCallList(list);
    glPopMatrix();
    deep();
    blended();
    glasses();
}

static void prepare(void)
{
    static const GLshort places[][4] = {{0, 0, 0, 0}, {0, 0, 1, 0}, {0, 0, 0, -1}, {0, 0, 2, -1}, {0, 0, 2, 1}};
    static const GLushort numbers[] = {9, 0, 1, 2, 3};
    GLubyte texels[8][8][4];
    for (int i = 0; i < 64; i++) memcpy(texels[i / 8][i % 8], (GLubyte[]){200, 120, 40, i % 8 + i / 8 < 8 ? 255 : 60}, 4);
    glGenTextures(1, &texture);
    glBindTexture(GL_TEXTURE_2D, texture);
    glTexParameteri(GL_TEXTURE_2D, GL_TEXTURE_MIN_FILTER, GL_NEAREST);
    glTexParameteri(GL_TEXTURE_2D, GL_TEXTURE_MAG_FILTER, GL_NEAREST);
    glTexImage2D(GL_TEXTURE_2D, 0, GL_RGBA, 8, 8, 0, GL_RGBA, GL_UNSIGNED_BYTE, texels);
    glGenBuffers(2, buffers);
    glBindBuffer(GL_ARRAY_BUFFER, buffers[0]);
    glBufferData(GL_ARRAY_BUFFER, sizeof places, NULL, GL_STATIC_DRAW);
    glBufferSubData(GL_ARRAY_BUFFER, 0, sizeof places, places);
    glBindBuffer(GL_ARRAY_BUFFER, 0);
    glBindBuffer(GL_ELEMENT_ARRAY_BUFFER, buffers[1]);
    glBufferData(GL_ELEMENT_ARRAY_BUFFER, sizeof numbers, numbers, GL_STATIC_DRAW);
    glBindBuffer(GL_ELEMENT_ARRAY_BUFFER, 0);
    list = glGenLists(1);
    glNewList(list, GL_COMPILE);
    glScalef(0.4f, 0.3f, 1);
    glBegin(GL_TRIANGLE_STRIP);
    for (int i = 0; i < 5; i++) glVertex2f(0.2f * i, i % 2 ? 0.9f : -0.1f * i);
    glEnd();
    glEndList();
}

int main(int count, char **words)
{
    int visual[] = {GLX_RGBA, GLX_DOUBLEBUFFER, GLX_RED_SIZE, 8, GLX_GREEN_SIZE, 8, GLX_BLUE_SIZE, 8, GLX_DEPTH_SIZE, 24, GLX_STENCIL_SIZE, 8, None};
    Display *display = XOpenDisplay(NULL);
    XVisualInfo *chosen = display ? glXChooseVisual(display, DefaultScreen(display), visual) : NULL;
    if (!chosen) {
        fprintf(stderr, "old_scene: %s\n", display ? "GLX has no such window" : "there is no screen (DISPLAY)");
        return 1;
    }
    XSetWindowAttributes looks = {.colormap = XCreateColormap(display, RootWindow(display, chosen->screen), chosen->visual, AllocNone)};
    Window window = XCreateWindow(display, RootWindow(display, chosen->screen), 0, 0, WIDTH, HEIGHT, 0, chosen->depth, InputOutput, chosen->visual, CWColormap, &looks);
    XMapWindow(display, window);
    GLXContext context = glXCreateContext(display, chosen, NULL, True);
    glXMakeCurrent(display, window, context);
    prepare();
    for (int left = count > 1 ? atoi(words[1]) : FRAMES; left > 0; left--) {
        frame();
        glXSwapBuffers(display, window);
    }
    return 0;
}
