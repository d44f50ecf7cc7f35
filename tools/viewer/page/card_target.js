// The target of a card: eight bits of each colour and sixteen of depth, that can be read and set by WebGL2.

const WHOLE = `#version 300 es
void main() { gl_Position = vec4(gl_VertexID == 1 ? 3.0 : -1.0, gl_VertexID == 2 ? 3.0 : -1.0, 0.0, 1.0); }`;
// Depths can't be read: they are drawn as two bytes
const TWO_BYTES = `#version 300 es
precision highp float; precision highp int;
uniform highp sampler2D depths; layout(location = 0) out vec4 bytes;
void main() {
  int depth = int(texelFetch(depths, ivec2(gl_FragCoord.xy), 0).r * 65535.0 + 0.5);
  bytes = vec4(float(depth / 256), float(depth % 256), 0.0, 0.0) / 255.0;
}`;

/** @type {(gl: WebGL2RenderingContext, ...texts: string[]) => WebGLProgram} */
export function programOf(gl, ...texts) {
  const made = /** @type {WebGLProgram} */ (gl.createProgram());
  texts.forEach((text, at) => {
    const shader = /** @type {WebGLShader} */ (gl.createShader(at ? gl.FRAGMENT_SHADER : gl.VERTEX_SHADER));
    gl.shaderSource(shader, text);
    gl.compileShader(shader);
    gl.attachShader(made, shader);
  });
  gl.linkProgram(made);
  if (!gl.getProgramParameter(made, gl.LINK_STATUS)) throw new Error(`the card's driver refuses a shader: ${gl.getProgramInfoLog(made)}`);
  return made;
}

export class Target {
  width = 0; height = 0;
  /** @type {(WebGLTexture | null)[]} */ textures = [];

  /** @param {WebGL2RenderingContext} gl */
  constructor(gl) {
    this.gl = gl;
    this.frame = gl.createFramebuffer();
    this.other = gl.createFramebuffer();
    this.program = programOf(gl, WHOLE, TWO_BYTES);
  }

  // Another size, with pixels of any colour
  /** @type {(width: number, height: number) => void} */
  resize(width, height) {
    const { gl } = this, most = gl.getParameter(gl.MAX_TEXTURE_SIZE);
    if (Math.max(width, height) > most) throw new Error(`the card's textures have at most ${most} pixels a side, and the target is ${width} by ${height}`);
    for (const texture of this.textures) gl.deleteTexture(texture);
    Object.assign(this, { width, height });
    this.textures = [gl.RGBA8, gl.DEPTH_COMPONENT16, gl.RGBA8].map(kind => this.texture(kind));
    const [colours, depths, bytes] = this.textures;
    this.attach(this.other, [[gl.COLOR_ATTACHMENT0, bytes]]);
    this.attach(this.frame, [[gl.COLOR_ATTACHMENT0, colours], [gl.DEPTH_ATTACHMENT, depths]]);
  }

  /** @type {(kind: number) => WebGLTexture | null} */
  texture(kind) {
    const { gl } = this, made = gl.createTexture();
    gl.bindTexture(gl.TEXTURE_2D, made);
    gl.texStorage2D(gl.TEXTURE_2D, 1, kind, this.width, this.height);
    for (const filter of [gl.TEXTURE_MIN_FILTER, gl.TEXTURE_MAG_FILTER]) gl.texParameteri(gl.TEXTURE_2D, filter, gl.NEAREST);
    return made;
  }

  /** @type {(frame: WebGLFramebuffer | null, textures: [where: number, texture: WebGLTexture | null][]) => void} */
  attach(frame, textures) {
    const { gl } = this;
    gl.bindFramebuffer(gl.FRAMEBUFFER, frame);
    for (const [where, texture] of textures) gl.framebufferTexture2D(gl.FRAMEBUFFER, where, gl.TEXTURE_2D, texture, 0);
    if (gl.checkFramebufferStatus(gl.FRAMEBUFFER) !== gl.FRAMEBUFFER_COMPLETE) throw new Error("the card has no target of RGBA8 and 16 bits of depth");
  }

  // Red, green, blue and alpha of each pixel, row by row from the top
  colours() {
    const { gl, width, height } = this, data = new Uint8Array(4 * width * height);
    gl.readPixels(0, 0, width, height, gl.RGBA, gl.UNSIGNED_BYTE, data);
    return data;
  }

  // The depth of each pixel. The caller sets its viewport and its states anew
  depths() {
    const { gl, width, height } = this, found = new Uint16Array(width * height);
    for (const what of [gl.BLEND, gl.CULL_FACE, gl.SCISSOR_TEST, gl.DEPTH_TEST]) gl.disable(what);
    gl.colorMask(true, true, true, true);
    gl.bindFramebuffer(gl.FRAMEBUFFER, this.other);
    gl.viewport(0, 0, width, height);
    gl.bindTexture(gl.TEXTURE_2D, this.textures[1]);
    gl.useProgram(this.program);
    gl.drawArrays(gl.TRIANGLES, 0, 3);
    const bytes = this.colours();
    gl.bindFramebuffer(gl.FRAMEBUFFER, this.frame);
    for (let n = 0; n < found.length; n++) found[n] = bytes[4 * n] << 8 | bytes[4 * n + 1];
    return found;
  }

  // Sets all colours, and depths where there are some, whatever the state
  /** @type {(colours: Uint8Array, depths?: Uint16Array | null) => void} */
  put(colours, depths = null) {
    const { gl, width, height } = this;
    gl.bindTexture(gl.TEXTURE_2D, this.textures[0]);
    gl.texSubImage2D(gl.TEXTURE_2D, 0, 0, 0, width, height, gl.RGBA, gl.UNSIGNED_BYTE, colours);
    if (!depths) return;
    gl.bindTexture(gl.TEXTURE_2D, this.textures[1]);
    gl.texSubImage2D(gl.TEXTURE_2D, 0, 0, 0, width, height, gl.DEPTH_COMPONENT, gl.UNSIGNED_SHORT, depths);
  }
}
