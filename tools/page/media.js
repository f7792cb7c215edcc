// ---- media lists (Media Queries 3): widths that are asked for, and the steps of the range at which they turn

const NUMERAL = "(?:\\d*\\.)?\\d+";
const WIDTH = new RegExp(`^\\(\\s*(min|max)-width\\s*:\\s*(?:(\\+?${NUMERAL})(px|em)|([-+]?(?:0*\\.)?0+))\\s*\\)$`, "i");
const RELATIONS = {"<": "max", "<=": "max", ">": "min", ">=": "min"};
/** How many px, or em of the default font size, a unit is. */
const PIXELS = {px: 1, in: 96, cm: 96 / 2.54, mm: 96 / 25.4, pt: 4 / 3, pc: 16};

/** A width as the profile reads it: at most or at least a bound, in units of 1/64 px or in millionths of an em; null where it is none. */
function widthOf(text) {
  const [, which, number, unit] = WIDTH.exec(text) || [];
  if (!which) return null;
  const [whole, part = ""] = (number || "0").replace("+", "").split(".");
  const millionths = +whole * 1e6 + +`${part}000000`.slice(0, 6);
  if (millionths > 2 ** 40) return null;
  const em = Boolean(unit) && unit.toLowerCase() === "em";
  return {text, most: which.toLowerCase() === "max", em, bound: em ? millionths : Math.floor(millionths * 64 / 1e6)};
}

/** The least width at which `min` is met, or `max` no longer, at a default font size. */
function firstAbove({most, em, bound}, size) {
  const units = em ? Math.floor(bound * 64 * size / 1e6) : bound;
  return most ? Math.floor(units / 64) + 1 : Math.ceil(units / 64);
}

/** A comparison with the width in the profile's words; null where it has none. */
function compared(sign, length) {
  const [, number, unit] = new RegExp(`^\\+?(${NUMERAL})(px|in|cm|mm|pt|pc|r?em)?$`, "i").exec(length.trim()) || [];
  if (number === undefined || !unit && +number) return null;
  const which = RELATIONS[sign];
  if (/em$/i.test(unit || "")) {
    if (sign === ">" || sign === "<" && !(+number > 0 && /^\d*(?:\.\d{1,3})?$/.test(number))) return null;
    // of widths in whole px none lies between the two
    return `(${which}-width: ${sign === "<" ? +(number - 1e-6).toFixed(6) : number}em)`;
  }
  const px = +(number * PIXELS[(unit || "px").toLowerCase()]).toFixed(4);
  return `(${which}-width: ${sign === ">" ? Math.floor(px) + 1 : sign === "<" ? Math.ceil(px) - 1 : px}px)`;
}

/** The widths that say in the profile's words what is in brackets; null where there are none. */
function widthsSaid(text) {
  if (widthOf(text)) return [text];
  const inner = bare(text).slice(1, -1).trim();
  if (inner[0] === "(") {
    const found = entryOf(inner);
    const each = found && !found.not ? found.features.map(widthsSaid) : [null];
    return each.includes(null) ? null : each.flat();
  }
  const old = /^(min|max)-width\s*:([^:]*)$/i.exec(inner);
  const same = /^width\s*[:=]([^<>=:]*)$/i.exec(inner);
  const range = /^([^<>=:]*?)\s*(?:([<>]=?)\s*)?\bwidth\b\s*(?:([<>]=?)\s*)?([^<>=:]*)$/i.exec(inner);
  const turned = sign => sign.replace(/[<>]/, it => it === "<" ? ">" : "<");
  let found = [];
  if (old) found = [compared(old[1].toLowerCase() === "min" ? ">=" : "<=", old[2])];
  else if (same) found = [compared(">=", same[1]), compared("<=", same[1])];
  else if (range && Boolean(range[1]) === Boolean(range[2]) && Boolean(range[3]) === Boolean(range[4])) {
    if (range[2]) found.push(compared(turned(range[2]), range[1]));
    if (range[3]) found.push(compared(range[3], range[4]));
  }
  return found.length && !found.includes(null) && found.every(widthOf) ? found : null;
}

const listed = text => {
  const found = [];
  for (let at = 0; at <= text.length;) {
    const end = seek(text, at, ",");
    found.push(text.slice(at, end).trim());
    at = end + 1;
  }
  return found;
};

/** The words of an entry and what it has in brackets; null where something else stands there. */
function pieces(text) {
  const found = [];
  for (let at = 0; at < text.length;) {
    const space = sticky(/\s+/y, text, at);
    if (space) { at = space; continue; }
    const end = text[at] === "(" ? endOf(text, at) : sticky(/-?[a-z_][-\w]*/iy, text, at);
    if (!end || text[at] !== "(" && text[end] === "(") return null;
    found.push(text.slice(at, end));
    at = end;
  }
  return found;
}

const SCREENS = /^(?:all|screen)?$/;
const OPERATORS = /^(?:only|not|and|or)$/;

/** An entry of a media list: whether it has `not`, its medium and what it asks for; `plain` where Media Queries 3 has it so. Null where it is
 * another. */
function entryOf(text) {
  const found = pieces(bare(text));
  if (!found || !found.length) return null;
  const word = at => found[at] && found[at][0] !== "(" ? found[at].toLowerCase() : "";
  const not = word(0) === "not", plain = !(not && found.length === 2 && !word(1));
  let at = not || word(0) === "only" ? 1 : 0;
  const medium = plain ? word(at) : "all";
  if (OPERATORS.test(medium) || at && !medium) return null;
  if (medium && plain) at += 1;
  const features = [];
  for (let first = !medium || !plain; at < found.length; first = false) {
    if (!first && word(at++) !== "and" || !found[at] || found[at][0] !== "(") return null;
    features.push(found[at++]);
  }
  return {not, medium, features, plain};
}

/** A condition whose answer turns at most once from the narrowest to the widest viewport, and from the least to the greatest text. */
const TURNS_ONCE = /^\(\s*(?:(?:min|max)-[-\w]+\s*:|orientation\s*:|[-\w]*width\s*[<>]=?|[^<>]*[<>]=?\s*[-\w]*width\s*\)$)/i;
const ABOUT_WIDTH = /width|aspect-ratio|orientation|inline-size/i;
const MOST_WIDTHS = 16, MOST_PARTS = 12;

/** The conditions of sheets, each with the browser's answers at the worlds where it was asked. */
class Media {
  constructor(options) {
    this.answers = new Map();
    this.options = options;
    this.short = false;
  }
  /** Finds the conditions of a sheet's text. */
  find(text) {
    for (const {head, block} of statements(text)) {
      if (!/^@media\b/i.test(head)) continue;
      for (const atom of head.match(/\([^()]*\)/g) || []) if (!this.answers.has(atom)) this.answers.set(atom, new Set());
      if (block !== null) this.find(block);
    }
  }
  ask() { for (const [atom, found] of this.answers) found.add(matchMedia(atom).matches); }
  /** The answer of a condition at every world, or null where it isn't one. */
  answer(atom) {
    const found = this.answers.get(atom);
    return found && found.size === 1 && (!ABOUT_WIDTH.test(atom) || TURNS_ONCE.test(atom)) ? [...found][0] : null;
  }
  /** Whether a width is met at each world of the range, where it turns at none and is to be left out. */
  fixed(width) {
    const [{widths: [low, high], sizes}, of] = [this.options, widthOf(width)];
    const above = sizes.map(size => firstAbove(of, size));
    const met = above.every(it => it <= low) ? !of.most : above.every(it => it > high) ? of.most : null;
    return this.short ? met : null;
  }
  /** What an entry comes to: true or false at every world, or what stands for it in the profile's words, several entries too. */
  entry(text) {
    const it = entryOf(text);
    if (it === null) return this.other(text);
    if (!SCREENS.test(it.medium)) return it.not;
    const kept = [];
    let open = false;
    for (const feature of it.features) {
      const widths = widthsSaid(feature);
      const found = widths ? widths.map(one => this.fixed(one) ?? one) : [this.answer(feature)];
      if (found.includes(false)) return it.not;
      open = open || found.includes(null);
      kept.push(...found.filter(one => typeof one === "string"));
    }
    if (open) return text;
    if (!kept.length) return !it.not;
    const same = it.plain && kept.length === it.features.length && kept.every((one, at) => one === it.features[at]);
    return same ? text : [...it.not ? ["not all"] : [], ...kept].join(" and ");
  }
  /** The same of one that Media Queries 3 has not: of conditions with `or` between them, or as the browser answers it. */
  other(text) {
    const found = pieces(bare(text));
    if (found && found.length > 2 && found.every((it, at) => at % 2 ? /^or$/i.test(it) : it[0] === "(")) {
      return found.filter((_, at) => at % 2 === 0).map(it => this.entry(it));
    }
    const atoms = text.match(/\([^()]*\)/g) || [];
    return matchMedia(text).media === "not all" ? false : atoms.every(it => this.answer(it) !== null) ? matchMedia(text).matches : text;
  }
  /** A list of media in the profile's words: as it is, `all`, `not all`, or what of it goes with the width. */
  said(list) {
    if (!list.includes("(")) return list;
    const given = listed(list), found = given.map(it => this.entry(it)).flat();
    if (found.includes(true)) return "all";
    if (found.length === given.length && found.every((it, at) => it === given[at])) return list;
    return found.filter(it => it !== false).join(", ") || "not all";
  }
}

/** The list that is met where two lists are, in the profile's words; null where these have none. */
function bothMet(one, other) {
  const wide = list => !list.trim() || /^all$/i.test(list.trim());
  if (wide(one) || wide(other)) return wide(one) ? other : one;
  const found = [];
  for (const a of listed(one).map(entryOf)) {
    for (const b of listed(other).map(entryOf)) {
      if (!a || !b) return null;
      // `not all` is met nowhere
      const [off, ...more] = [a, b].filter(it => it.not ? SCREENS.test(it.medium) && !it.features.length : !SCREENS.test(it.medium));
      if (off || more.length) continue;
      if (a.not && a.features.length || b.not && b.features.length) return null;
      const features = [...a.not ? [] : a.features, ...b.not ? [] : b.features];
      found.push(features.join(" and ") || "all");
    }
  }
  return found.includes("all") ? "all" : found.join(", ") || "not all";
}

/** Whether a list of media means the screen, whatever its width. */
const forScreen = list => !list.trim() || listed(list).map(entryOf).some(it => it && !it.features.length && SCREENS.test(it.medium) !== it.not);
/** Whether some width may meet it. */
const mayBeMet = list => forScreen(list) || listed(list).map(entryOf).some(it => it && it.features.length && SCREENS.test(it.medium));

/** The widths that the rules of sheets ask for, each once. */
function widthsOf(texts, media) {
  const found = new Map();
  const walk = text => {
    for (const {head, block} of statements(text)) {
      if (!/^@media\b/i.test(head) || block === null || !statements(block).some(it => it.block !== null)) continue;
      for (const it of listed(media.said(bare(head.slice(6)))).map(entryOf)) {
        for (const width of it && SCREENS.test(it.medium) ? it.features.map(widthOf) : []) {
          const key = width && [width.most, width.em, width.bound].join(" ");
          if (width && !found.has(key)) found.set(key, width);
        }
      }
      walk(block);
    }
  };
  texts.forEach(walk);
  return [...found.values()];
}

/** How many parts widths make of a range, by which of them are met together. */
function partsOf(widths, [low, high], [least, most]) {
  const found = new Set();
  for (let size = least; size <= most; size++) {
    const above = widths.map(it => firstAbove(it, size));
    for (const at of new Set([low, ...above.filter(it => it > low && it <= high)])) {
      found.add(widths.map((it, place) => (at >= above[place]) !== it.most).join());
    }
  }
  return found.size;
}

/** Ranges of widths, from the narrowest on, in each of which widths make no more than so many parts. */
function rangesOf(widths, [low, high], sizes) {
  const above = new Set(sizes.flatMap(size => widths.map(it => firstAbove(it, size))));
  const begins = [...above].filter(it => it > low && it <= high).sort((a, b) => a - b);
  const found = [low];
  for (const [at, begin] of begins.entries()) {
    const end = (begins[at + 1] || high + 1) - 1;
    if (partsOf(widths, [found[found.length - 1], end], sizes) > MOST_PARTS) found.push(begin);
  }
  return found.map((it, at) => `${it}:${(found[at + 1] || high + 1) - 1}`);
}

/** The steps from the narrowest viewport to the widest: between two steps lies a width at which what sheets ask for turns. */
class Steps {
  constructor(widths, {widths: [low, high], sizes: [least, most]}) {
    Object.assign(this, {low, high, least, most});
    const sizes = Array.from({length: most - least + 1}, (_, at) => least + at);
    const known = new Map();
    for (const it of [...widths].sort((a, b) => a.most - b.most)) {
      const above = sizes.map(size => firstAbove(it, size));
      if (above.some(one => one > low && one <= high) && !known.has(String(above))) known.set(String(above), {width: it, above});
    }
    this.turns = [...known.values()].sort((a, b) => a.above[0] - b.above[0] || a.above[sizes.length - 1] - b.above[sizes.length - 1]);
    // where two turns change places within the range there are no steps
    const inOrder = this.turns.every(({above}, at) => !at || above.every((it, size) => it >= this.turns[at - 1].above[size]));
    if (!inOrder) this.turns = [];
  }
  get count() { return this.turns.length + 1; }
  /** The number of the step that has a world. */
  at([width, size]) { return this.turns.filter(({above}) => width >= above[size - this.least]).length; }
  /** What is met from a step on. */
  from(step) {
    const {text, most} = this.turns[step - 1].width;
    return most ? `not all and ${text}` : text;
  }
  /** Worlds at both ends of each step, where it has any: the first at the least font size, the last at the greatest. */
  worlds([, , ...height]) {
    const found = [];
    for (let step = 0; this.count > 1 && step < this.count; step++) {
      for (const [size, last] of [[this.least, false], [this.most, true]]) {
        const [from, to] = [step - 1, step].map(at => this.turns[at] && this.turns[at].above[size - this.least]);
        const [begin, end] = [Math.max(this.low, from ?? this.low), Math.min(this.high, (to ?? this.high + 1) - 1)];
        if (begin <= end) found.push([last ? end : begin, size, ...height]);
      }
    }
    return found;
  }
}

/** The ways to step through the range: by one width alone, by those in px, by those in em, and by all, where there is an order. */
function laddersOf(widths, options) {
  const sets = [...widths.map(it => [it]), widths.filter(it => !it.em), widths.filter(it => it.em), widths];
  return sets.map(it => new Steps(it, options)).filter(it => it.count > 1);
}

/** A value for each step. */
class BySteps {
  constructor(steps, values) { Object.assign(this, {steps, values}); }
  map(change) { return new BySteps(this.steps, this.values.map(change)); }
  /** The steps at which it turns, the first among them. */
  get turns() { return this.values.map((_, step) => step).filter(step => this.values[step] !== this.values[step - 1]); }
  toString() { return this.turns.map(it => this.values[it]).join(", then "); }
}

/** What is found for some of the worlds, by number: one value for all of these, or one for each step of a ladder; null where there is none. */
function bySteps(ladders, worlds, shown, find) {
  const whole = find(shown);
  if (whole !== null) return whole;
  for (const steps of ladders) {
    const found = Array.from({length: steps.count}, () => []);
    for (const at of shown) found[steps.at(worlds[at])].push(at);
    const values = found.map(some => some.length ? find(some) : undefined);
    // a step of which no world is asked for has what the one before it has
    const first = values.find(it => it !== undefined);
    const each = values.map((_, at) => values.slice(0, at + 1).findLast(it => it !== undefined) ?? first);
    if (!values.includes(null)) return new BySteps(steps, each);
  }
  return null;
}
