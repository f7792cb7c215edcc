// ---- fonts

const families = list => (list.match(/"(?:\\[^]|[^"\\])*"|'(?:\\[^]|[^'\\])*'|[^,]+/g) || []).map(it => it.trim()).filter(it => it);
const unquoted = name => name.replace(/^(["'])([^]*)\1$/, "$2").replace(/\\([^])/g, "$1");
/** Characters without an advance, whatever a font says. */
const WIDTHLESS = /[\u00ad\u200b-\u200d\u2060\ufeff]/;

class Fonts {
  constructor(page) {
    this.pen = page.createElement("canvas").getContext("2d");
    if (!this.pen) throw new Fault("fonts can't be measured: the browser gives no canvas");
    this.pen.textRendering = "geometricPrecision";
    this.known = new Map();
  }

  width(text, size, list, face = "") {
    this.pen.font = `${face} ${size}px ${list}`;
    return this.pen.measureText(text).width;
  }

  /** How wide a text is in a style, with what the style puts between letters and words. */
  wide(text, style) {
    const px = name => parseFloat(style[name]) || 0;
    const spaces = (text.match(/[ \u00a0]/g) || []).length;
    return this.width(text, parseFloat(style.fontSize), style.fontFamily, faceOf(style)) + [...text].length * px("letterSpacing")
      + spaces * px("wordSpacing");
  }

  /** Whether the browser has the family. */
  has(family) {
    if (!this.known.has(family)) {
      const sample = "mmmWWW illl1 gjQ@&";
      const alone = /^(?:serif|sans-serif|monospace|cursive|fantasy|system-ui|ui-[-a-z]+|math|emoji|-webkit-body)$/i.test(family);
      const differs = it => this.width(sample, 200, it) !== this.width(sample, 200, `${family}, ${it}`);
      this.known.set(family, alone || ["monospace", "serif"].some(differs));
    }
    return this.known.get(family);
  }

  /** How much two letters stand nearer or farther than by their advances, in em. */
  kern(one, other, list, face) {
    const width = text => this.width(text, 1024, list, face);
    return (width(one + other) - width(one) - width(other)) / 1024;
  }

  /** Ascent and descent in px, rounded as browsers do. */
  heights(px, list, face) {
    this.pen.font = `${face} 2048px ${list}`;
    const box = this.pen.measureText("x");
    return [box.fontBoundingBoxAscent, box.fontBoundingBoxDescent].map(it => Math.round(it * px / 2048));
  }

  /** A font for some characters, in units of its em; of one size in px, with the whole px of ascent and descent that browsers round to. */
  measured({name, list, face, letters, words, px, lift}, characters, kerned) {
    const codes = [...characters].sort((a, b) => a.codePointAt(0) - b.codePointAt(0));
    const whole = widths => widths.every(it => Math.abs(it - Math.round(it)) < 0.005);
    let upem = [1000, 1024, 2048, 4096].find(it => whole(codes.map(code => this.width(code, it, list, face))));
    const scale = upem && !px ? 1 : 8;
    const size = Math.min(upem || 2048, 2048);
    upem = size * scale;
    const advance = code => {
      if (WIDTHLESS.test(code)) return 0;
      const own = this.width(code === NO_BREAK ? " " : code, size, list, face) * scale;
      const exact = own + (own ? letters * upem : 0) + (/[ \u00a0]/.test(code) ? words * upem : 0);
      // words and spaces are rounded down to 1/64 px: half of that is added to a space, and spread over a word of some five letters
      const less = own && px ? upem / px / (code === " " ? 128 : 640) : 0;
      return Math.max(0, Math.round(exact + less));
    };
    const near = ([code, {letter, font, by}]) => [code, Math.max(0, advance(letter) + (font === name ? Math.round(by * upem) : 0))];
    const advances = [...codes.map(it => [it.codePointAt(0), advance(it)]), ...[...kerned].map(near)].sort((a, b) => a[0] - b[0]);
    this.pen.font = `${face} ${size}px ${list}`;
    const box = this.pen.measureText("x");
    // of the space above a line's text and below it browsers take whole px above: the rest is moved from the ascent to the descent
    const [ascent, descent] = [box.fontBoundingBoxAscent, box.fontBoundingBoxDescent].map((it, at) => Math.max(0,
      px ? Math.ceil((Math.round(it * px / size) + (at ? lift : -lift)) * upem / px) : Math.round(it * scale)));
    const most = Math.max(...advances.map(it => it[1]));
    if (!this.pen.font.includes(`${size}px`) || !Number.isFinite(ascent + descent + most) || ascent + descent === 0 || most === 0
        || Math.max(ascent, descent, most) > 65535) throw new Fault(`the font ${name} can't be measured`);
    return {name, upem, ascent, descent, default: most, advances};
  }
}

/** Style and weight of a font as `font` has them. */
const faceOf = style => `${style.fontStyle === "normal" ? "" : "italic "}${style.fontWeight === "400" ? "" : style.fontWeight}`.trim();

/** The fonts in use, the browser's own default first, and for each element the name of its font. */
class FontSet {
  constructor(page, initial, options, findings) {
    Object.assign(this, {page, options, findings, fonts: new Fonts(page), found: new Map(), sizes: new Set(), kerned: new Map(),
      codes: new Map(), inUse: new Set()});
    const own = families(initial).find(it => this.fonts.has(it));
    this.initial = initial;
    this.first = this.add({list: initial, family: own ? unquoted(own) : "default", face: "", letters: 0, words: 0, px: 0, lift: 0});
  }

  add(font) {
    const key = [font.family.toLowerCase(), font.face, font.letters, font.words, font.px, font.lift].join("\n");
    if (!this.found.has(key)) {
      const spaced = font.letters || font.words ? `spaced ${font.letters} ${font.words}` : "";
      const words = [font.family, font.face, spaced, font.px ? `${font.px}px` : "", font.lift ? `+${font.lift}` : ""];
      this.found.set(key, {...font, name: words.filter(it => it).join(" ")});
    }
    return this.found.get(key).name;
  }

  /** The name of a style's font; the samples are what the style has at several worlds, and `normal` the number for line-height: normal. */
  of(style, samples, node, normal) {
    const family = families(style.fontFamily).find(it => this.fonts.has(it));
    const bold = +style.fontWeight >= 600 || style.fontStyle !== "normal" || +style.fontWeight < 400;
    if (bold && !this.options.faces) {
      this.findings.add("otherwise", "bold or slanted text is measured in the regular font", called(node), {node});
    }
    const [letters, words] = ["letter-spacing", "word-spacing"].map(name => this.spacing(name, samples, node));
    const [least, most] = [Math.min, Math.max].map(it => it(...samples.map(one => one["font-size"])));
    // a size for each font of a page with a few alone: a job has 64
    const px = this.options.faces && most - least < 0.001 && most > 0 && this.sizes.size <= 12 ? +most.toFixed(3) : 0;
    if (!family && !letters && !words && !bold && !px) return this.first;
    const face = this.options.faces ? faceOf(style) : "";
    return this.add({list: style.fontFamily, family: family ? unquoted(family) : "default", face, letters, words, px,
      lift: px ? this.lift(style, samples, px, face, normal) : 0});
  }

  /** The part of a px that a line of whole px has above its text here and not in browsers. */
  lift(style, samples, px, face, normal) {
    const lines = samples.map(it => it["line-height"]);
    if (lines.some(it => it !== lines[0])) return 0;
    const line = lines[0] === "normal" ? normal() * px : typeof lines[0] === "number" ? lines[0] : parseFloat(lines[0]) * px;
    const [ascent, descent] = this.fonts.heights(px, style.fontFamily, face);
    const above = (line - ascent - descent) / 2;
    return Number.isFinite(above) ? +(above - Math.floor(above + 1e-4)).toFixed(3) : 0;
  }

  /** What stands between letters or words, in em: the samples are of the style at several worlds. */
  spacing(name, samples, node) {
    const [low, high] = [Math.min, Math.max].map(it => it(...samples.map(one => (one[name] || 0) / one["font-size"])));
    if (!low && !high) return 0;
    if (!this.options.spacing || high - low > 0.001 || !Number.isFinite(high)) {
      this.findings.add("refused", `${name}: not zero`, called(node), {node});
      return 0;
    }
    this.findings.add("said", `${name} by a font of its own with wider advances`, `${called(node)} (${+high.toFixed(4)}em)`);
    return +high.toFixed(4);
  }

  /** A character in place of a letter that stands nearer to the next one than by its advance, or farther; the letter where none is left. */
  near(letter, font, by) {
    const key = [font, letter, by.toFixed(4)].join("\n");
    if (!this.codes.has(key)) {
      let code = 0xe000 + this.kerned.size;
      while (this.inUse.has(code)) code += 1;
      if (code > 0xf8ff) return letter;
      this.inUse.add(code);
      this.kerned.set(code, {letter, font, by});
      this.codes.set(key, String.fromCodePoint(code));
    }
    return this.codes.get(key);
  }

  /** The fonts as the job has them, with the characters of the page's texts. */
  all(tree) {
    // in the profile an element may have another font than in the browser, so each font has all characters
    const every = new Set([" ", "0", ...tree.nodes.flatMap(it => [...(it.chars || "").replace(/[\t\n\r]/g, " ")])]);
    const kerned = [...this.kerned.entries()];
    for (const [code] of kerned) every.delete(String.fromCodePoint(code));
    const all = [...this.found.values()].map(it => this.fonts.measured(it, every, kerned));
    if (all.length > 64) throw new Fault(`the page uses ${all.length} fonts, and a job may have 64`);
    return all;
  }

  /** The font that the profile takes for a list of families. */
  taken(list) {
    const names = new Map([...this.found.values()].map(it => [it.name.toLowerCase(), it.name]));
    return names.get((families(list).map(it => unquoted(it).toLowerCase()).find(it => names.has(it)) || "")) || this.first;
  }
}

/** What `line-height: normal` comes to, as a number: the middle of what the browser makes of it at the sizes of the range. */
class Normal {
  constructor(blank, findings) {
    Object.assign(this, {blank, findings, known: new Map()});
    this.box = blank.page.createElement("div");
    this.box.textContent = "x";
    blank.page.body.append(this.box);
  }

  height(style, px) {
    this.box.style.cssText = `all:initial;display:block;font-family:${style.fontFamily};font-style:${style.fontStyle};`
      + `font-weight:${style.fontWeight};font-size:${px}px`;
    return this.box.getBoundingClientRect().height;
  }

  /** The number for a style whose font has these sizes in px. */
  of(style, sizes) {
    const key = [style.fontFamily, faceOf(style), ...sizes].join("\n");
    if (!this.known.has(key)) {
      const ratios = sizes.filter(it => it > 0).map(it => [it, this.height(style, it) / it]);
      const [low, high] = [Math.min, Math.max].map(it => it(...ratios.map(one => one[1])));
      const middle = +((low + high) / 2).toFixed(6);
      const most = Math.max(...ratios.map(([size, ratio]) => Math.abs(ratio - middle) * size));
      this.known.set(key, ratios.length ? {number: middle, most} : {number: 1.2, most: 0});
    }
    return this.known.get(key);
  }
}
