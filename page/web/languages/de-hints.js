// The words of hints in German: what stands in the cells, why, and where to look first. `cell` and `cells` have a row and
// a column each.
import { nameOf } from "../hints/names.js";

const KINDS = { row: "Zeile", column: "Spalte", block: "Block", diagonal: "Diagonale" };
export const line = (kind, k) => `${KINDS[kind]} ${k}`;
const house = ([kind, k]) => line(kind, k);
export const at = ([row, column]) => `Zeile ${row}, Spalte ${column}`;
export const listed = (words) => (words.length === 1 ? `${words[0]}` : `${words.slice(0, -1).join(", ")} ` +
  `und ${words.at(-1)}`);
export const count = (number, one, many) => `${number} ${number === 1 ? one : many}`;
export const clue = (numbers) => `(${[numbers].flat().join(" ") || 0})`;
export const several = (number) => (number > 1e6 ? "mehr als einer Million" : number.toLocaleString("de-DE"));

const STANDS = { solo: ["ist", "sind"], pattern: ["ist", "sind"], lightup: ["hat", "haben"],
  tents: ["hat", "haben"] };
const VALUES = { pattern: ["weiß", "schwarz"], lightup: ["keine Lampe", "eine Lampe"],
  tents: ["kein Zelt", "ein Zelt"] };
const WITH = { pattern: ["mit Weiß", "mit Schwarz"], lightup: ["ohne Lampe", "mit einer Lampe"],
  tents: ["ohne Zelt", "mit einem Zelt"] };
const SIDES = { row: "Spalten", column: "Zeilen" };

// Cells of a house of Solo: by their columns in a row, by their rows in a column, and else by both.
function places([kind], cells) {
  if (SIDES[kind]) return `${SIDES[kind]} ` +
    `${listed(cells.map(([row, column]) => (kind === "row" ? column : row)))}`;
  return listed(cells.map(([row, column]) => `Zeile ${row} Spalte ${column}`));
}

// The names of steps that players know.
const NAMES = { last: "Letzte Zahl", hiddenSingle: "Versteckter Einer", nakedSingle: "Nackter Einer",
  pointing: "Zeiger (Pointing)", claiming: "Anspruch (Claiming)", nakedPair: "Nacktes Paar", nakedTriple: "Nackter Dreier", nakedQuad: "Nackter Vierer",
  nakedSet: "Nackte Menge", hiddenPair: "Verstecktes Paar", hiddenTriple: "Versteckter Dreier", hiddenQuad: "Versteckter Vierer",
  hiddenSet: "Versteckte Menge", xwing: "X-Wing", swordfish: "Schwertfisch", xywing: "XY-Wing",
  skyscraper: "Wolkenkratzer (Skyscraper)", kite: "Drachen (Two-String Kite)", turbot: "Turbot-Fisch", xchain: "X-Kette",
  xychain: "XY-Kette", aic: "Wechselnde Kette (AIC)", complete: "Vollständig", overlap: "Überlappung", edge: "Rand",
  glue: "Kleber (Glue)", reach: "Außer Reichweite" };
const named = (reason) => (NAMES[nameOf(reason)] ? `${NAMES[nameOf(reason)]}: ` : "");

// A link of a chain, in the short form that players know: a candidate that holds, since the one before doesn't, or one that
// doesn't, since the one before holds. Z5S9 is row 5, column 9.
const short = ({ cell: [row, column] }) => `Z${row}S${column}`;
function link(one, k, chain) {
  if (k % 2 === 0) return `${short(one)} nicht ${one.number}`;
  const isSame = short(chain[k - 1]) === short(one);
  return `${short(one)} ${one.number}${isSame ? "" : ` (einziger Platz in ${house(one.by)})`}`;
}

// Why a step holds.
const REASONS = {
  last: ({ house: of }) => `Es ist das letzte Feld in ${house(of)}.`,
  single: () => "Keine andere Zahl bleibt dafür.",
  place: ({ house: of, number }) => `In ${house(of)} passt die ${number} in kein anderes Feld.`,
  crossing: ({ house: of, other, number }) =>
    `In ${house(of)} passt die ${number} nur in ${house(other)}, also steht sie sonst nirgends in ` +
      `${house(other)}.`,
  naked: ({ house: of, cells, numbers }) =>
    `In ${house(of)} kommen für ${places(of, cells)} nur ${listed(numbers)} in Frage, also stehen ` +
      `${listed(numbers)} sonst nirgends in ${house(of)}.`,
  hidden: ({ house: of, cells, numbers }) =>
    `In ${house(of)} passen ${listed(numbers)} nur in ${places(of, cells)}, also steht dort nichts anderes.`,
  diagonal: (of) => REASONS.crossing(of),
  seen: ({ house: of, number, cells, targets }) =>
    `In ${house(of)} passt die ${number} nur in ${places(of, cells)}, also steht sie nicht in ` +
      `${places(["cell"], targets)}: von dort sieht man alle diese Felder.`,
  xwing: ({ number, lines, others }) =>
    `In ${listed(lines.map(house))} passt die ${number} nur in ${listed(others.map(house))}, also ` +
      `steht sie dort sonst nirgends.`,
  swordfish: ({ number, lines, others }) =>
    `In ${listed(lines.map(house))} passt die ${number} nur in ${listed(others.map(house))}, ` +
      `also steht sie dort sonst nirgends.`,
  xywing: ({ pivot, wings, number }) =>
    `Was auch in ${at(pivot)} steht, eines von ${at(wings[0])} und ${at(wings[1])} ist ${number}, ` +
      `also kein Feld, das beide sieht.`,
  chain: ({ chain, struck }) =>
    `Ist ${chain.map(link).join(", dann ")}. So oder so ist ${listed(struck.map((one) => `${short(one)} nicht ${one.number}`))}.`,
  laid: ({ house: of, clue: numbers, ways }) =>
    `${house(of)} ${clue(numbers)}: die Abschnitte passen auf ${ways === 1 ? "nur eine Weise."
    : `${several(ways)} Weisen, und diese Felder sind in allen gleich.`}`,
  hasBulbs: ({ number, cell }) => `Die ${number} in ${at(cell)} hat ihre Lampen.`,
  needsBulbs: ({ number, cell, count: left }) =>
    `Die ${number} in ${at(cell)} braucht eine Lampe in ` +
    `${left === 1 ? "dem einen Feld, das bleibt" : "jedem Feld, das bleibt"}.`,
  lit: () => "Eine Lampe beleuchtet diese Felder.",
  oneLight: ({ cell }) => `Das Feld in ${at(cell)} muss beleuchtet werden, und nur ein Feld bleibt dafür.`,
  tooFew: ({ cell, broken }) => `Mit einer Lampe in ${at(cell)} ${BREAKS[broken.kind](broken)}.`,
  oneTent: ({ cell }) => `Dem Baum in ${at(cell)} bleibt ein Feld für sein Zelt.`,
  hasTents: ({ house: of, clue: number }) => `${house(of)} ${clue(number)} hat alle Zelte.`,
  needsTents: ({ house: of, clue: number, count: left }) =>
    `${house(of)} ${clue(number)} braucht ein Zelt in ` +
      `${left === 1 ? "dem einen Feld, das bleibt" : "jedem Feld, das bleibt"}.`,
  touch: () => "Zelte berühren sich nicht.",
  placed: ({ house: of, clue: number, ways }) =>
    `${house(of)} ${clue(number)}: die Zelte passen auf ${ways === 1 ? "nur eine Weise."
    : `${ways} Weisen, und das ist in allen so.`}`,
  trial: ({ cases }, game) => `Ausprobiert: ` +
    `${cases.map(({ value, broken }) => `${game === "solo" ? `mit ${value}` : WITH[game][value]} ` +
    `${BREAKS[broken.kind](broken)}`).join("; ")}.`,
};

export const why = (reason, game) => `${named(reason)}${REASONS[reason.kind](reason, game)}`;

// What breaks, if a cell has another value.
const BREAKS = {
  none: ({ cell }) => `bleibt für ${at(cell)} keine Zahl`,
  noPlace: ({ house: of, number }) => `hat ${house(of)} keinen Platz für die ${number}`,
  runs: ({ house: of }) => `passen die Abschnitte nicht in ${house(of)}`,
  bulbs: ({ number, cell, isTooMuch }) =>
    `hat die ${number} in ${at(cell)} zu ${isTooMuch ? "viele Lampen" : "wenige Felder"}`,
  dark: ({ cell }) => `kann nichts das Feld in ${at(cell)} beleuchten`,
  seen: ({ house: of }) => `sehen sich zwei Lampen in ${house(of)}`,
  tree: ({ cell }) => `bleibt dem Baum in ${at(cell)} kein Feld für sein Zelt`,
  tents: ({ house: of, clue: number, isTooMuch }) =>
    `hat ${house(of)} ${clue(number)} zu ${isTooMuch ? "viele Zelte" : "wenige Felder"}`,
  touching: ({ cell }) => `berühren sich zwei Zelte bei ${at(cell)}`,
};

// Where to look, before the cell is told.
export const LOOKS = {
  single: ({ house: of }) => `${house(of)}: für eines der Felder bleibt nur eine Zahl.`,
  place: ({ house: of }) => `${house(of)}: für eine Zahl bleibt nur ein Feld.`,
  last: ({ house: of }) => `${house(of)}: nur ein Feld bleibt.`,
  diagonal: (look) => LOOKS.crossing(look),
  seen: ({ house: of }) => `${house(of)}: eine Zahl passt in wenige Felder, und andere sehen sie alle.`,
  crossing: ({ house: of, other }) => `${house(of)}, wo ${house(other)} kreuzt: eine Zahl passt nur dort.`,
  naked: ({ house: of, cells }) => `${house(of)}: ${cells.length} Felder teilen sich ${cells.length} Zahlen.`,
  hidden: ({ house: of, cells }) => `${house(of)}: ${cells.length} Zahlen teilen sich ${cells.length} Felder.`,
  xwing: ({ number }) => `Ein X-Wing mit der ${number}: zwei Linien haben sie an denselben zwei Stellen.`,
  swordfish: ({ number }) =>
    `Ein Schwertfisch mit der ${number}: drei Linien haben sie an denselben drei Stellen.`,
  xywing: ({ pivot }) => `Ein XY-Wing: drei Felder mit je zwei Zahlen, das mittlere in ${at(pivot)}.`,
  chain: ({ chain: [{ cell, number }] }) => `Eine Kette: was, wenn ${at(cell)} nicht ${number} ist?`,
  laid: ({ house: of }) => `${house(of)}: einige Felder sind in jeder Lage der Abschnitte gleich.`,
  tooFew: () => "Die markierten Felder: eine Lampe daneben ließe zu wenige von ihnen übrig.",
  oneLight: () => "Die markierten Felder: eines von ihnen muss beleuchtet werden.",
  placed: ({ house: of }) => `${house(of)}, und jede Weise, die Zelte zu setzen.`,
  needsTents: ({ house: of }) => `${house(of)}: wie viele Felder bleiben?`,
  hasTents: ({ house: of }) => `${house(of)}: wie viele Zelte stehen schon?`,
  oneTent: ({ cell }) => `Der Baum in ${at(cell)}.`,
  needsBulbs: ({ number, cell }) => `Die ${number} in ${at(cell)}: wie viele Felder bleiben?`,
  hasBulbs: ({ number, cell }) => `Die ${number} in ${at(cell)}: wie viele Lampen hat sie schon?`,
  trial: () => "Kein einzelner Schritt führt weiter. Das markierte Feld ausprobieren: einer seiner Werte " +
    "bricht bald eine Regel.",
};

export const NEEDS = { diagonal: ["Schritt entlang einer Diagonale", "Schritte entlang einer Diagonale"],
  seen: ["Feld, das alle Plätze sieht", "Felder, die alle Plätze sehen"],
  crossing: ["Block gegen eine Linie", "Blöcke gegen Linien"],
naked: ["Menge von Zahlen", "Mengen von Zahlen"],
  hidden: ["Menge von Feldern", "Mengen von Feldern"], xwing: ["X-Wing", "X-Wings"],
  swordfish: ["Schwertfisch", "Schwertfische"],
  xywing: ["XY-Wing", "XY-Wings"], chain: ["Kette", "Ketten"],
  tooFew: ["Blick eine Lampe voraus", "Blicke eine Lampe voraus"],
  placed: ["Linie in allen Weisen", "Linien in allen Weisen"],
  trial: ["ausprobiertes Feld", "ausprobierte Felder"],
  guess: ["Feld, das nur eine längere Suche findet", "Felder, die nur eine längere Suche findet"] };

// What stands in some cells, in sentences.
function stands(cells, values, game) {
  const [one, many] = STANDS[game], name = (value) => (game === "solo" ? value : VALUES[game][value]);
  const kinds = [...new Set(values)].sort((a, b) => b - a).map((value) => cells.filter((_, k) => values[k] === value));
  const told = kinds.map((some) => [some.length === 1 ? at(some[0]) : `${some.length} Felder`, some.length === 1 ? one : many,
    name(values[cells.indexOf(some[0])])]);
  return told;
}

// What stands in the cells of a hint, and why. The name of its step is its head.
export function hint({ kind: of, cells, values, reasons, more }, game) {
  if (of === "wrong") return `${at(cells[0])} ist ` +
    `falsch.${more ? ` ${count(more, "weiteres ist", "weitere sind")} falsch.` : ""}`;
  const guess = of === "guess" ? ["Kein Schritt, den die Seite kennt, zeigt es: man findet es durch " +
    "Probieren."] : [];
  const [head = ""] = reasons.slice(-1).map(named), told = stands(cells, values, game).map((parts) => `${parts.join(" ")}.`);
  return head + [...told, ...reasons.slice(-1).map((reason) => REASONS[reason.kind](reason, game)), ...guess].join(" ");
}

// A cell that is tried out, what follows from it, and what breaks in the end.
export const suppose = (cell, value, game) => `Angenommen, ${stands([cell], [value], game)[0].join(" ")}.`;
export const follows = (cells, values, reason, game) =>
  `Dann ${listed(stands(cells, values, game).map(([what, verb, value]) => `${verb} ${what} ${value}`))}. ` +
    `${REASONS[reason.kind](reason, game)}`;
export const breaks = (broken, cell, value, game) => `Aber dann ${BREAKS[broken.kind](broken)}. Also stimmt nicht: ` +
  `${stands([cell], [value], game)[0].join(" ")}.`;
