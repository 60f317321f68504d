// What the page reads of a text in GML by itself: where its pairs stand, and the labels, which the engine does not tell.

const LATIN = ('nbsp iexcl cent pound curren yen brvbar sect uml copy ordf laquo not shy reg macr deg plusmn sup2 sup3 acute micro ' +
  'para middot cedil sup1 ordm raquo frac14 frac12 frac34 iquest Agrave Aacute Acirc Atilde Auml Aring AElig Ccedil Egrave Eacute ' +
  'Ecirc Euml Igrave Iacute Icirc Iuml ETH Ntilde Ograve Oacute Ocirc Otilde Ouml times Oslash Ugrave Uacute Ucirc Uuml Yacute ' +
  'THORN szlig agrave aacute acirc atilde auml aring aelig ccedil egrave eacute ecirc euml igrave iacute icirc iuml eth ntilde ' +
  'ograve oacute ocirc otilde ouml divide oslash ugrave uacute ucirc uuml yacute thorn yuml').split(' ');
const ENTITIES = new Map([['quot', '"'], ['amp', '&'], ['lt', '<'], ['gt', '>'], ['apos', "'"],
  ...LATIN.map((name, at) => [name, String.fromCharCode(160 + at)])]);

/** The text of a string in GML, without its quotes. */
export function decoded(word) {
  return word.replace(/^"|"$/g, '').replace(/&(?:#(\d+)|#[xX]([\da-fA-F]+)|(\w+));/g, (whole, decimal, hex, name) => {
    const point = decimal ? Number(decimal) : parseInt(hex, 16);
    return name ? ENTITIES.get(name) ?? whole : point <= 0x10ffff ? String.fromCodePoint(point) : whole;
  });
}

/** The pairs of a text in GML: a key, its value, which is a list of pairs or a word, and where key and value begin and end. */
export function pairsOf(text) {
  const all = [], above = [];
  let pairs = all, key = null;
  for (const { 0: word, index } of text.matchAll(/#[^\n]*|"[^"]*"|[[\]]|[^\s[\]"#]+/g)) {
    if (word[0] === '#') continue;
    if (word === ']') {
      pairs = above.pop() ?? all;
      if (pairs.length) pairs.at(-1).end = index + 1;
      key = null;
    } else if (key === null) key = { key: word, at: index };
    else {
      const pair = { ...key, value: word === '[' ? [] : word, from: index, end: index + word.length };
      pairs.push(pair);
      key = null;
      if (word !== '[') continue;
      above.push(pairs);
      pairs = pair.value;
    }
  }
  return all;
}

export const listOf = (pairs, key) => pairs.find(pair => pair.key === key && Array.isArray(pair.value))?.value ?? [];
export const listsOf = (pairs, key) => pairs.filter(pair => pair.key === key && Array.isArray(pair.value)).map(pair => pair.value);
export const wordOf = (pairs, key) => pairs.find(pair => pair.key === key)?.value;
export const numberOf = (pairs, key, other = 0) => Number(wordOf(pairs, key) ?? other);

export function idOf(pairs, key) {
  const near = numberOf(pairs, key);
  return Number.isSafeInteger(near) ? near : BigInt(wordOf(pairs, key));
}

const labelOf = pairs => (typeof wordOf(pairs, 'label') === 'string' ? decoded(wordOf(pairs, 'label')) : null);

/** The labels in a diagram that is opened: those of boxes by their ids, and those of connectors by their numbers. */
export function labelsOf(text) {
  const graph = listOf(pairsOf(text), 'graph');
  return { boxes: new Map(listsOf(graph, 'node').map(node => [idOf(node, 'id'), labelOf(node)])),
    connectors: new Map(listsOf(graph, 'edge').map((edge, at) => [at + 1, labelOf(edge)])) };
}
