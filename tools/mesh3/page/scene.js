// Drawing by WebGL2: triangles by indices over one buffer of points, so that a turn sends nothing.

const COMMON = `#version 300 es
precision highp float;
uniform mat3 turn; uniform vec4 look; uniform vec4 frame; uniform vec4 plane; uniform float near;
vec4 seen(vec3 q) {
  float w = 1.0 - q.z / 4.0;
  return vec4((q.xy + look.xy * w) * look.z * frame.xy + frame.zw * w, 0.325 - 0.76923 * q.z - near * w, w);
}
`;

const FACES = [`in vec3 place; in vec4 normal; out vec3 at; out vec3 up; centroid out float beyond;
void main() {
  at = turn * place; up = turn * normal.xyz; beyond = dot(plane.xyz, place) - plane.w; gl_Position = seen(at);
}`, `in vec3 at; in vec3 up; centroid in float beyond;
uniform vec3 colour, back; uniform float dim; uniform bool oneSided, plain;
out vec4 shown;
void main() {
  CUT
  if (plain) { shown = vec4(1.0); return; }
  vec3 flat_ = normalize(cross(dFdx(at), dFdy(at)));
  vec3 eye = normalize(vec3(0.0, 0.0, 4.0) - at);
  if (dot(flat_, eye) < 0.0) flat_ = -flat_;
  bool inside = oneSided && !gl_FrontFacing;
  vec3 n = flat_;
  float even = smoothstep(0.70, 0.90, length(up));
  if (oneSided && even > 0.0) {
    vec3 smooth_ = normalize(inside ? -up : up);
    n = normalize(mix(flat_, smooth_, even * smoothstep(0.4, 0.75, dot(flat_, smooth_))));
  }
  vec3 from = normalize(vec3(-0.45, 0.65, 0.62));
  float key = max(0.0, dot(n, from)), fill = max(0.0, dot(n, normalize(vec3(0.7, -0.2, 0.5))));
  float light = dim + (1.0 - dim) * (0.82 * key + 0.36 * fill) + 0.08 * n.y;
  float shine = pow(max(0.0, dot(n, normalize(from + eye))), 40.0);
  vec3 base = inside ? colour * vec3(0.50, 0.46, 0.52) + vec3(0.05, 0.03, 0.06) : colour;
  vec3 lit = base * light * 1.12 + (inside ? 0.0 : 0.16) * shine;
  shown = vec4(mix(lit, back, clamp(0.16 - at.z * 0.20, 0.0, 0.38)), 1.0);
}`];

// For motion: each triangle flat and without a shine.
const COARSE = [`in vec3 place; out vec3 at; centroid out float beyond;
void main() { at = turn * place; beyond = dot(plane.xyz, place) - plane.w; gl_Position = seen(at); }
`, `in vec3 at; centroid in float beyond; uniform vec3 colour, back; uniform float dim; out vec4 shown;
void main() {
  CUT
  vec3 n = normalize(cross(dFdx(at), dFdy(at)));
  n *= sign(4.0 * n.z - dot(n, at));
  float light = dim + (1.0 - dim) * (0.82 * max(0.0, dot(n, vec3(-0.4479, 0.6470, 0.6171)))
    + 0.36 * max(0.0, dot(n, vec3(0.7926, -0.2265, 0.5661)))) + 0.08 * n.y;
  shown = vec4(mix(colour * light * 1.12, back, clamp(0.16 - at.z * 0.20, 0.0, 0.38)), 1.0);
}`];

// The programs of a pair of texts without and with a cut.
function bothWays([vertices, fragments]) {
  return ['', 'if (beyond > 0.0) discard;'].map(cut => [vertices, fragments.replace('CUT', cut)]);
}

const LINES = [`in vec3 place; out float beyond, deep;
void main() {
  vec3 q = turn * place; deep = q.z; beyond = dot(plane.xyz, place) - plane.w; gl_Position = seen(q);
}`, `in float beyond, deep; uniform vec4 colour; uniform vec3 back; out vec4 shown;
void main() {
  if (beyond > 0.0) discard;
  shown = vec4(mix(colour.rgb, back, clamp(0.16 - deep * 0.20, 0.0, 0.38)), colour.a);
}`];

const DOTS = [`in vec3 place; in float joined; uniform float stop, size; out vec4 tint;
uniform vec4 colour; uniform vec3 alone; uniform bool others;
void main() {
  bool isAlone = joined > stop;
  bool isHidden = joined < 0.0 || !(isAlone || others) || dot(plane.xyz, place) > plane.w + 1e-5;
  tint = isAlone ? vec4(alone, 1.0) : colour;
  gl_Position = isHidden ? vec4(2.0, 2.0, 2.0, 1.0) : seen(turn * place);
  gl_PointSize = size * (isAlone ? 1.35 : 1.0);
}`, `in vec4 tint; uniform bool round; out vec4 shown;
void main() {
  if (round && length(gl_PointCoord - 0.5) > 0.5) discard;
  shown = tint;
}`];

// Whether triangles are drawn by processors, which smooth edges at twice the cost of a drawing.
function isSoftware() {
  const gl = document.createElement('canvas').getContext('webgl2');
  const about = gl && gl.getExtension('WEBGL_debug_renderer_info');
  if (!gl) return false;
  const name = gl.getParameter(about ? about.UNMASKED_RENDERER_WEBGL : gl.RENDERER);
  gl.getExtension('WEBGL_lose_context')?.loseContext();
  return /swiftshader|llvmpipe|software|basic render/i.test(name);
}

class Scene {
  constructor(canvas, world) {
    this.canvas = canvas;
    this.world = world;
    this.isSoftware = isSoftware();
    this.isSlow = world.triangles.count > 250000 && this.isSoftware;
    const words = {antialias: !this.isSoftware, stencil: true, alpha: false, powerPreference: 'high-performance'};
    const gl = this.gl = canvas.getContext('webgl2', words);
    if (!gl) throw new Error('this browser has no WebGL2');
    [this.faces, this.facesCut] = bothWays(FACES).map(texts => this.program(texts));
    [this.coarseFaces, this.coarseFacesCut] = bothWays(COARSE).map(texts => this.program(texts));
    this.lines = this.program(LINES);
    this.dots = this.program(DOTS);
    this.buffers = {};
    const names = ['places', 'normals', 'joined', 'marks', 'cap', 'stands'];
    for (const name of names) this.buffers[name] = gl.createBuffer();
    this.send('places', world.places, gl.STATIC_DRAW);
    this.shapes = {
      solid: this.shape(this.faces, {place: ['places', 3, gl.FLOAT], normal: ['normals', 4, gl.BYTE, true]}),
      loose: this.shape(this.faces, {place: ['places', 3, gl.FLOAT], normal: ['normals', 4, gl.BYTE, true]}),
      coarseSolid: this.shape(this.coarseFaces, {place: ['stands', 3, gl.FLOAT]}),
      coarseLoose: this.shape(this.coarseFaces, {place: ['stands', 3, gl.FLOAT]}),
      cap: this.shape(this.faces, {place: ['cap', 3, gl.FLOAT]}),
      ends: this.shape(this.lines, {place: ['places', 3, gl.FLOAT]}),
      outlines: this.shape(this.lines, {place: ['places', 3, gl.FLOAT]}),
      marks: this.shape(this.lines, {place: ['marks', 3, gl.FLOAT]}),
      dots: this.shape(this.dots, {place: ['places', 3, gl.FLOAT], joined: ['joined', 1, gl.FLOAT]}),
    };
    gl.enable(gl.DEPTH_TEST);
    gl.depthFunc(gl.LEQUAL);
    this.marks = [];
  }

  program([vertices, fragments]) {
    const gl = this.gl, p = gl.createProgram();
    for (const [kind, text] of [[gl.VERTEX_SHADER, vertices], [gl.FRAGMENT_SHADER, fragments]]) {
      const shader = gl.createShader(kind);
      gl.shaderSource(shader, COMMON + text);
      gl.compileShader(shader);
      if (!gl.getShaderParameter(shader, gl.COMPILE_STATUS)) throw new Error(gl.getShaderInfoLog(shader));
      gl.attachShader(p, shader);
    }
    gl.bindAttribLocation(p, 0, 'place'); // so that a shape serves several programs
    gl.bindAttribLocation(p, 1, 'normal');
    gl.linkProgram(p);
    if (!gl.getProgramParameter(p, gl.LINK_STATUS)) throw new Error(gl.getProgramInfoLog(p));
    const at = {};
    for (let i = 0; i < gl.getProgramParameter(p, gl.ACTIVE_UNIFORMS); i++) {
      const {name} = gl.getActiveUniform(p, i);
      at[name] = gl.getUniformLocation(p, name);
    }
    return {p, at};
  }

  shape(program, feeds) {
    const gl = this.gl, array = gl.createVertexArray(), indices = gl.createBuffer();
    gl.bindVertexArray(array);
    for (const [name, [buffer, wide, kind, isShare]] of Object.entries(feeds)) {
      const at = gl.getAttribLocation(program.p, name);
      if (at < 0) continue;
      gl.bindBuffer(gl.ARRAY_BUFFER, this.buffers[buffer]);
      gl.enableVertexAttribArray(at);
      gl.vertexAttribPointer(at, wide, kind, !!isShare, 0, 0);
    }
    gl.bindBuffer(gl.ELEMENT_ARRAY_BUFFER, indices);
    gl.bindVertexArray(null);
    return {array, indices, count: 0, kind: gl.UNSIGNED_INT};
  }

  send(name, values, use) {
    const gl = this.gl;
    gl.bindBuffer(gl.ARRAY_BUFFER, this.buffers[name]);
    gl.bufferData(gl.ARRAY_BUFFER, values, use || gl.DYNAMIC_DRAW);
  }

  index(name, values) {
    const gl = this.gl, shape = this.shapes[name];
    gl.bindVertexArray(shape.array);
    gl.bufferData(gl.ELEMENT_ARRAY_BUFFER, values, gl.DYNAMIC_DRAW);
    gl.bindVertexArray(null);
    shape.count = values.length;
    shape.kind = values.BYTES_PER_ELEMENT === 2 ? gl.UNSIGNED_SHORT : gl.UNSIGNED_INT;
  }

  // Takes over what is seen at a stop; it is sent when it is drawn, as in motion a coarse copy may do.
  take(seen, stop, withOutlines, withLoose) {
    Object.assign(this, {seen, stop, withOutlines, withLoose, coarse: 0, isSent: false});
  }

  sendWhole() {
    const {seen, withLoose, world} = this, none = new Uint32Array(0);
    this.send('normals', seen.findNormals());
    if (this.joined !== world.joined) this.send('joined', this.joined = world.joined);
    this.index('solid', seen.solidCorners);
    this.index('loose', withLoose ? seen.looseCorners : none);
    this.index('ends', withLoose ? seen.ends.subarray(0, 2 * seen.lines) : none);
    this.index('outlines', this.withOutlines ? seen.outlines(withLoose) : none);
    this.isSent = true;
  }

  // Takes over a coarse copy of what is seen, of about so many triangles, once for a stop and a number.
  takeCoarse(copy, most) {
    if (this.coarse === most) return;
    const [solid, loose] = copy.of(this.seen, most);
    if (this.stands !== copy.places) this.send('stands', this.stands = copy.places);
    this.index('coarseSolid', solid);
    this.index('coarseLoose', this.withLoose ? loose : new Uint16Array(0));
    this.coarse = most;
  }

  // Lines over all else: each a colour and places of ends, three numbers an end.
  mark(groups) {
    this.marks = [];
    let size = 0;
    for (const group of groups) size += group.ends.length;
    const all = new Float32Array(size);
    let to = 0;
    for (const {ends, colour, over} of groups) {
      all.set(ends, to);
      this.marks.push({first: to / 3, count: ends.length / 3, colour, over});
      to += ends.length;
    }
    this.send('marks', all);
  }

  use(program, view) {
    const gl = this.gl, {p, at} = program;
    gl.useProgram(p);
    gl.uniformMatrix3fv(at.turn, false, view.turn);
    gl.uniform4f(at.look, view.x, view.y, view.zoom, 0);
    gl.uniform4f(at.frame, ...view.frame);
    gl.uniform4f(at.plane, ...(view.cut ? view.cut : [0, 0, 0, 1]));
    gl.uniform1f(at.near, 0);
    if (at.back) gl.uniform3f(at.back, ...view.colours.back);
    return at;
  }

  elements(name, mode) {
    const {array, count, kind} = this.shapes[name];
    if (!count) return;
    this.gl.bindVertexArray(array);
    this.gl.drawElements(mode, count, kind, 0);
  }

  // Draws all; `view` has turn, x, y, zoom, frame, cut, colours, the size of dots in pixels, whether they are those
  // alone that nothing joins, and whether a coarse copy is drawn, for motion.
  draw(view) {
    const gl = this.gl, {colours} = view;
    gl.viewport(0, 0, this.canvas.width, this.canvas.height);
    gl.clearColor(...colours.back, 1);
    gl.clear(gl.COLOR_BUFFER_BIT | gl.DEPTH_BUFFER_BIT | gl.STENCIL_BUFFER_BIT);
    if (view.coarse) {
      this.drawFaces(view, view.cut ? this.coarseFacesCut : this.coarseFaces, 'coarseSolid', 'coarseLoose');
      return;
    }
    if (!this.isSent) this.sendWhole();
    const at = this.drawFaces(view, view.cut ? this.facesCut : this.faces, 'solid', 'loose');
    if (view.cut && told.turned) this.drawCap(view, at);
    this.drawLines(view);
    if (view.dots) this.drawDots(view);
    gl.bindVertexArray(null);
  }

  // Triangles at tetrahedra, which hide what looks away, where none or the cut's face closes them, and loose ones.
  drawFaces(view, program, solid, loose) {
    const gl = this.gl, {colours} = view, at = this.use(program, view);
    if (at.plain) gl.uniform1i(at.plain, 0);
    if (at.oneSided) gl.uniform1i(at.oneSided, told.turned ? 1 : 0);
    gl.uniform3f(at.colour, ...colours.solid);
    gl.uniform1f(at.dim, 0.38);
    if (told.turned && !(view.coarse && view.cut)) gl.enable(gl.CULL_FACE);
    this.elements(solid, gl.TRIANGLES);
    gl.disable(gl.CULL_FACE);
    if (at.oneSided) gl.uniform1i(at.oneSided, 0);
    gl.uniform3f(at.colour, ...colours.loose);
    gl.uniform1f(at.dim, 0.55);
    this.elements(loose, gl.TRIANGLES);
    return at;
  }

  // What the cut lays bare: where as many faces are entered as left behind the plane, all is outside.
  drawCap(view, at) {
    const gl = this.gl;
    gl.enable(gl.STENCIL_TEST);
    gl.disable(gl.DEPTH_TEST);
    gl.colorMask(false, false, false, false);
    gl.stencilFunc(gl.ALWAYS, 0, 255);
    gl.stencilOpSeparate(gl.FRONT, gl.KEEP, gl.KEEP, gl.DECR_WRAP);
    gl.stencilOpSeparate(gl.BACK, gl.KEEP, gl.KEEP, gl.INCR_WRAP);
    gl.uniform1i(at.plain, 1);
    this.elements('solid', gl.TRIANGLES);
    gl.colorMask(true, true, true, true);
    gl.enable(gl.DEPTH_TEST);
    gl.stencilFunc(gl.NOTEQUAL, 0, 255);
    gl.stencilOp(gl.KEEP, gl.KEEP, gl.KEEP);
    gl.uniform1i(at.plain, 0);
    gl.uniform3f(at.colour, ...view.colours.cap);
    gl.uniform4f(at.plane, 0, 0, 0, 1);
    const [x, y, z, far] = view.cut, axis = x ? 0 : y ? 1 : 2, place = far * (x + y + z), corners = [];
    const {low, high} = this.world;
    const [one, other] = [0, 1, 2].filter(a => a !== axis);
    for (const [a, b] of [[low, low], [high, low], [low, high], [high, high]]) {
      const corner = [place, place, place];
      corner[one] = a[one] * 1.02;
      corner[other] = b[other] * 1.02;
      corners.push(...corner);
    }
    this.send('cap', new Float32Array(corners));
    gl.bindVertexArray(this.shapes.cap.array);
    gl.drawArrays(gl.TRIANGLE_STRIP, 0, 4);
    gl.disable(gl.STENCIL_TEST);
  }

  drawLines(view) {
    const gl = this.gl, at = this.use(this.lines, view);
    gl.uniform1f(at.near, 0.0012);
    gl.uniform4f(at.colour, ...view.colours.loose, 1);
    this.elements('ends', gl.LINES);
    gl.enable(gl.BLEND);
    gl.blendFunc(gl.SRC_ALPHA, gl.ONE_MINUS_SRC_ALPHA);
    gl.uniform4f(at.colour, ...view.colours.outline);
    this.elements('outlines', gl.LINES);
    gl.bindVertexArray(this.shapes.marks.array);
    gl.uniform4f(at.plane, 0, 0, 0, 1);
    for (const {first, count, colour, over} of this.marks) {
      if (over) gl.disable(gl.DEPTH_TEST); else gl.enable(gl.DEPTH_TEST);
      gl.uniform4f(at.colour, ...colour);
      gl.drawArrays(gl.LINES, first, count);
    }
    gl.enable(gl.DEPTH_TEST);
    gl.disable(gl.BLEND);
  }

  drawDots(view) {
    const gl = this.gl, at = this.use(this.dots, view);
    gl.uniform1f(at.near, 0.0018);
    gl.uniform1f(at.stop, this.stop);
    gl.uniform1f(at.size, view.dots);
    gl.uniform1i(at.round, view.dots > 2.5 ? 1 : 0);
    gl.uniform4f(at.colour, ...view.colours.text, 1);
    gl.uniform3f(at.alone, ...view.colours.text);
    gl.uniform1i(at.others, view.alone ? 0 : 1);
    gl.bindVertexArray(this.shapes.dots.array);
    gl.drawArrays(gl.POINTS, 0, this.world.n);
  }
}
