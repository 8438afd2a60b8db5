// The shop's goods: item, name, unit and least stock, of goods.csv. A name is text wherever it is shown, never markup.

const MOST_ITEM = 65535, MOST = 999_999_999, LONGEST = 80;
// what a name can't have: control characters, and those that turn the direction of text
const BAD = /[\u0000-\u001f\u007f-\u009f\u2028\u2029\u202a-\u202e\u2066-\u2069]/;
export const HEAD = "item,name,unit,least";

/** The rows of a CSV text after RFC 4180: fields in quotes may have commas, quotes (doubled) and line ends. */
export function rowsOf(text) {
  const rows = [[]];
  let field = "", inQuotes = false, wasQuoted = false;
  const end = () => { rows.at(-1).push(field); field = ""; wasQuoted = false; };
  const clean = text.replace(/^\ufeff/, "");
  for (let at = 0; at < clean.length; at++) {
    const c = clean[at];
    if (inQuotes && c === '"' && clean[at + 1] === '"') { field += '"'; at++; }
    else if (inQuotes && c === '"') inQuotes = false;
    else if (inQuotes) field += c;
    else if (c === '"' && field === "" && !wasQuoted) { inQuotes = wasQuoted = true; }
    else if (c === ",") end();
    else if (c === "\n") { end(); rows.push([]); }
    else if (c !== "\r" || clean[at + 1] !== "\n") field += c;
  }
  if (inQuotes) throw new Error("a quoted field has no end");
  if (field !== "" || rows.at(-1).length > 0) end();
  return rows.filter((row) => row.length > 0 && !(row.length === 1 && row[0] === ""));
}

function numberOf(text, least, most) {
  return /^(?:0|[1-9][0-9]{0,8})$/.test(text) && Number(text) >= least && Number(text) <= most ? Number(text) : null;
}

/** The goods of goods.csv: a map from item to {item, name, unit, least}. Throws an Error that names the row if one is
 *  unfit; shop/src/ledger_shop/goods.py checks the same before the file is installed. */
export function goodsOf(text) {
  const [head, ...rows] = rowsOf(text), goods = new Map();
  if (!head || head.join(",") !== HEAD) throw new Error(`the first line isn't ${HEAD}`);
  rows.forEach((row, index) => {
    const [number, name, unit, least] = row;
    const item = numberOf(number, 1, MOST_ITEM), wanted = row.length === 4 ? numberOf(least, 0, MOST) : null;
    const isText = (one) => one.length <= LONGEST && !BAD.test(one);
    if (item === null || wanted === null || !name.trim() || !isText(name) || !isText(unit) || goods.has(item))
      throw new Error(`row ${index + 2} of the goods is unfit`);
    goods.set(item, { item, name, unit, least: wanted });
  });
  return goods;
}

/** The goods of the file beside this one; none if there is no list, or an unfit one: then items are typed as numbers. */
export async function fetched() {
  try {
    const answer = await fetch(new URL("goods.csv", import.meta.url));
    return answer.ok ? goodsOf(await answer.text()) : new Map();
  } catch (fault) {
    console.warn(`goods.csv: ${fault.message}`);
    return new Map();
  }
}

/** What an item is called: its name with its number, or its number alone. */
export function nameIn(goods) {
  return (item) => {
    const one = goods.get(Number(item));
    return one ? `${one.name} (${item})` : `item ${item}`;
  };
}

const plain = (text) => text.normalize("NFKD").replace(/\p{M}/gu, "").toLowerCase();

/** A list of goods that is searched as somebody types. */
export class Search {
  constructor(goods) {
    this.list = [...goods.values()].sort((a, b) => a.item - b.item).map((one) => ({ one, text: plain(one.name) }));
  }

  /** At most `most` goods: first whose number is typed, then whose name begins with it, then whose name has its words. */
  find(typed, most = 20) {
    const words = plain(typed).trim().split(/\s+/).filter(Boolean);
    if (!words.length) return this.list.slice(0, most).map(({ one }) => one);
    const rank = ({ one, text }) => {
      const number = String(one.item);
      if (words.length === 1 && number === words[0]) return 0;
      if (text.startsWith(words.join(" "))) return 1;
      if (words.every((word) => ` ${text}`.includes(` ${word}`) || number === word)) return 2;
      if (words.every((word) => text.includes(word))) return 3;
      return words.length === 1 && number.startsWith(words[0]) ? 4 : 5;
    };
    const ranked = this.list.map((entry) => ({ one: entry.one, rank: rank(entry) })).filter((entry) => entry.rank < 5);
    return ranked.sort((a, b) => a.rank - b.rank || a.one.item - b.one.item).slice(0, most).map(({ one }) => one);
  }

  /** The item that a field's text names: its number, `name (number)`, or a name that one item has. Null otherwise. */
  item(typed) {
    const text = typed.trim(), number = /^([1-9][0-9]{0,4})$/.exec(text) ?? / \(([1-9][0-9]{0,4})\)$/.exec(text);
    if (number && Number(number[1]) <= MOST_ITEM) return Number(number[1]);
    const same = this.list.filter(({ one }) => plain(one.name) === plain(text));
    return same.length === 1 ? same[0].one.item : null;
  }
}
