// The words of the page in German. The program's own names stand in GRADES, BROKEN and `refusals`.
import { at, breaks, clue, count, follows, hint, line, listed, LOOKS, NEEDS, several, suppose, why } from "./de-hints.js";

const GAMES = {
  solo: { name: "Solo", choice: "Solo (Sudoku)", rule: "In jeder Zeile, jeder Spalte und jedem Block steht jede Zahl einmal.",
    crossed: "In jeder Zeile, jeder Spalte, jedem Block und auf beiden Diagonalen steht jede Zahl einmal." },
  pattern: { name: "Pattern", choice: "Pattern (Nonogramm)",
    rule: "Die Zahlen sind die Längen der schwarzen Abschnitte einer Zeile oder Spalte, der Reihe nach." },
  lightup: { name: "Light Up", choice: "Light Up (Akari)",
    rule: "Jedes weiße Feld wird beleuchtet. Keine Lampe beleuchtet eine andere. Eine Zahl zählt die Lampen " +
      "neben ihr." },
  tents: { name: "Tents", choice: "Tents",
    rule: "Neben jedem Baum steht ein eigenes Zelt. Keine zwei Zelte berühren sich. Die Zahlen zählen die " +
      "Zelte." },
};
const GRADES = {
  singles: "Leicht: jeder Schritt findet ein Feld, dem eine Zahl bleibt, oder eine Zahl, der ein Feld bleibt.",
  houses: "Mittel: jeder Schritt betrachtet eine Zeile, eine Spalte oder einen Block.",
  crossings: "Mittel: einige Schritte betrachten einen Block und eine Linie.",
  lines: "Leicht: jeder Schritt betrachtet eine Zeile oder Spalte.",
  local: "Leicht: jeder Schritt betrachtet einen Hinweis oder eine Linie.",
};
const BROKEN = { number: "eine Zahl hat nicht ihre Lampen", seen: "eine Lampe beleuchtet eine andere",
  dark: "ein Feld ist dunkel",
  touch: "zwei Zelte berühren sich", match: "Zelte und Bäume lassen sich nicht paaren" };

function brokenRule(puzzle, fault) {
  const [kind, where = ""] = fault.split(" "), [x, y] = where.split(",").map((number) => Number(number) + 1);
  const told = () => `${line(kind, x)} ${puzzle.block ? "hat eine Zahl zweimal" : "ist nicht, wie ihr Hinweis sagt"}`;
  return `Noch nicht: ${BROKEN[kind] || told()}${y ? `, in ${at([y, x])}` : ""}.`;
}

function size(game, text) {
  const [a, b = a] = text.match(/\d+/g), sides = game === "solo" ? `${a * b} × ${a * b}` : `${Number(a)} ` +
    `× ${Number(b)}`;
  return sides + (text.endsWith("x") ? " X" : "");
}
const kind = (game, text, level = "") =>
  `${GAMES[game].name} ${size(game, text)}${level && ` (${LEVELS[level].toLowerCase()})`}`;
const LEVELS = { easy: "Leicht", medium: "Mittel", hard: "Schwer", any: "Beliebig" };

function keys(puzzle, isTouched) {
  const name = { pattern: "Schwarz", lightup: "Lampe", tents: "Zelt" }[puzzle.game];
  if (puzzle.block && isTouched) return "Ein Feld und eine Zahl wählen. Eine Zahl halten: sie kommt in " +
    "jedes Feld, das man antippt. Ein Feld halten und ziehen wählt mehrere.";
  if (puzzle.block) {
    return "Ein Feld und eine Zahl wählen, ziehen wählt mehrere, eine gehaltene Zahl kommt in jedes Feld, " +
      "das man anklickt. Tasten: Pfeile, Ziffern, " +
      "Umschalt und Ziffer für eine Notiz, N Notizen, K Notizen in den Ecken, 0 oder Entf, H Tipp, C Prüfen.";
  }
  const isCrossed = puzzle.rows.length > 0;
  if (isTouched) return `Tippen für ${name}, Punkt, leer. Ein Feld kurz halten, dann ziehen.` +
    `${isCrossed ? " Eine Zahl eines Hinweises antippen streicht sie." : ""}`;
  return `Klicken für ${name}, Punkt, leer; rechts klicken für einen Punkt; ziehen zeichnet` +
    `${isCrossed ? "; eine Zahl eines Hinweises anklicken streicht sie" : ""}. ` +
    "Tasten: Pfeile, mit Umschalt zeichnen, Leertaste, X für einen Punkt, Entf, H Tipp, C Prüfen.";
}

const PROVED = "Vom Programm bewiesen: ";
const dayText = (day) =>
  new Intl.DateTimeFormat("de", { day: "numeric", month: "long", year: "numeric", timeZone: "UTC" }).format(Date.parse(day));

export default {
  games: GAMES, levels: LEVELS, line, size, kind, keys, brokenRule, hint, suppose, follows, breaks, why,
  columns: "Spalten", none: "keine", clue: "Hinweis", notes: "Notizen", corners: "in den Ecken",
  signs: { ".": "leer", "•": "Punkt", "#": "schwarz", O: "Lampe", "^": "Zelt", T: "Baum" },
  states: { given: "vorgegeben", met: "erfüllt", lit: "beleuchtet", broken: "gegen die Regeln",
    wrong: "falsch", wrongNote: "falsche Notizen", marked: "markiert", hint: "Tipp", differs: "verschieden",
    struck: "gestrichen", tried: "ausprobiert",
    then: "folgt", witness: "schließt die anderen aus" },
  picture: (name) => `Richtig. Das Rätsel ist gelöst: ${name}.`,
  rule: ({ game, crossed }) => (crossed ? GAMES[game].crossed : GAMES[game].rule),
  look: (look) => (LOOKS[look.kind] || (() => "Die markierten Felder."))(look),
  step: (k, all, told) => `Schritt ${k} von ${all}. ${told}`,
  stepsMore: (all) => `${all} Schritte führen zu einem Feld. Noch einmal Tipp zeigt den ersten.`,
  sheet: (k, all, { x, y }) => `Blatt ${k} von ${all}: Spalten ${x[0] + 1} bis ${x[1]}, Zeilen ${y[0] + 1} bis ${y[1]}`,
  struck: (numbers) => `nicht ${numbers}`,
  shown: (sign) => `hier ${sign}`,
  left: (number, left) => `${number}, noch ${left}`,
  held: (number) => `Jedes Feld, das nun gewählt wird, bekommt ${number}. Noch einmal ${number} beendet das.`,
  solution: (k) => `Lösung ${k}`,
  differ: (cells) => `Zwei stehen unten. Sie unterscheiden sich in den ${cells} markierten Feldern.`,
  wrong: (cells) => `${count(cells, "Feld ist", "Felder sind")} falsch.`.replace(/^1 /, "Ein "),
  wrongNotes: (cells) => `In den Notizen von ${count(cells, "Feld", "Feldern")} fehlt seine Zahl.`
    .replace(/von 1 /, "von einem "),
  help: {
    solo: ["Fülle jedes leere Feld mit einer Zahl, so dass jede Zeile, jede Spalte und jeder Block jede Zahl einmal hat.",
      "Wo einem Feld nur eine Zahl bleibt, oder einer Zahl nur ein Feld einer Zeile, einer Spalte oder eines Blocks, steht " +
      "sie dort."],
    pattern: ["Die Zahlen an einer Zeile oder Spalte sind die Längen ihrer schwarzen Abschnitte, der Reihe nach. Zwischen " +
      "zweien ist mindestens ein Feld weiß.",
      "Ein langer Abschnitt bedeckt die Mitte seiner Linie, wo er auch beginnt. Das ist ein guter Anfang."],
    lightup: ["Setze Lampen in weiße Felder. Eine Lampe beleuchtet ihre Zeile und Spalte bis zum nächsten schwarzen Feld. Jedes " +
      "weiße Feld wird beleuchtet.", "Keine Lampe beleuchtet eine andere. Eine Zahl sagt, wie viele Lampen neben ihrem Feld stehen."],
    tents: ["Setze neben jeden Baum ein Zelt, nicht über Eck, so dass jeder Baum ein eigenes hat.",
      "Keine zwei Zelte berühren sich, auch nicht über Eck. Die Zahlen sagen, wie viele Zelte eine Zeile oder Spalte hat."],
  },
  helpOf: (name) => `So geht ${name}`, examples: ["Ein Rätsel", "Seine Lösung"],
  shortcuts: {
    solo: [["Pfeile", "gehen"], ["1 bis 9", "eine Zahl"], ["Umschalt und Ziffer", "eine Notiz"],
      ["N, K", "Notizen, Notizen in den Ecken"],
      ["Umschalt und Pfeil", "mehrere Felder wählen"], ["0 oder Entf", "leeren"], ["Strg-Z, Strg-Umschalt-Z", "zurück, wieder"],
      ["H, C", "Tipp, Prüfen"], ["+, −", "größer, kleiner"], ["Esc", "die Worte schließen"], ["?", "dieses Blatt"]],
    others: [["Pfeile", "gehen"], ["Leertaste", "gefüllt, Punkt, leer"], ["X", "ein Punkt"], ["Umschalt und Pfeil", "zeichnen"],
      ["0 oder Entf", "leeren"], ["Strg-Z, Strg-Umschalt-Z", "zurück, wieder"], ["H, C", "Tipp, Prüfen"],
      ["+, −", "größer, kleiner"], ["Esc", "die Worte schließen"], ["?", "dieses Blatt"]],
  },
  day: (day) => `Das Rätsel vom ${dayText(day)}.`,
  dayName: (day, isDone) => `${dayText(day)}${isDone ? ", gelöst" : ""}`,
  streak: (now, most) => `${count(now, "Tag", "Tage")} in Folge; am meisten waren es ${most}.`,
  outcome: ({ time, hints, isShown }) =>
    (isShown ? "Die Lösung wurde gezeigt." : `Zeit ${time}, ${count(hints, "Tipp", "Tipps")}.`),
  result: ({ kind, day, time, hints, isShown }) =>
    `${kind}${day ? `, ${day}` : ""}: ${isShown ? "gezeigt" : `gelöst in ${time}, ${count(hints, "Tipp", "Tipps")}`}`,
  noHint: (said) => `${said} Darum gibt es keinen Tipp.`,
  refused: (said) => `Diese ID wird abgelehnt: ${said}.`,
  unknown: (name) => `Ein Spiel „${name}“ gibt es hier nicht. Die Spiele sind solo, pattern, lightup und tents.`,
  otherGame: (game) => `Das ist eine ID von ${GAMES[game].name}.`,
  begun: (name, filled, open, isSolved) => `${name}: ${isSolved ? "gelöst" : `${filled} von ${open}`}`,
  solvedHeads: ["Rätsel", "Gelöst", "Ohne Tipp", "Beste", "Mittel"],
  refusals: { "seed id": "sie ist die Nummer eines anderen Programms, kein Rätsel",
    "no colon": (example) => `sie ist nicht wie ${example}`,
    "bad byte": "an der markierten Stelle steht etwas, das dort nicht stehen kann",
    "number range": "die markierte Zahl ist zu klein oder zu groß", line: "der markierte Hinweis ist zu lang für seine Linie",
    grid: "ihr Gitter passt nicht zum Rätsel", words: "das Programm kennt diese Worte nicht",
    "field id": "sie hat ein Steuerzeichen", "too few": "sie endet zu früh",
    "too many": "sie ist zu lang für ihre Größe",
    "too long": "sie hat über 65.536 Bytes", "bad size": "ihre Größe ist nicht lesbar",
    "size range": "diese Größe hat das Spiel nicht",
    variant: "diese Abart gibt es hier nicht" },
  grade(game, { grade, needs }, level) {
    if (GRADES[grade]) return GRADES[grade];
    if (!needs) return "Schwer: man muss mehr als einen Hinweis oder eine Linie zugleich betrachten.";
    const told = Object.keys(NEEDS).filter((of) => needs[of]).map((of) => count(needs[of], ...NEEDS[of]));
    return `${LEVELS[level]}${needs.trial || needs.guess ? "" : ", ohne Raten"}: ` +
      `${told.length ? listed(told) : "nur einzelne Schritte"}.`;
  },
  wanted: {
    solo: { easy: "Jeder Schritt findet die eine Zahl eines Feldes oder das eine Feld einer Zahl.",
      medium: "Mengen von Zahlen, und Blöcke gegen Linien.",
      hard: "X-Wings, XY-Wings, Ketten, oder ein ausprobiertes Feld." },
    pattern: { easy: "Jeder Schritt betrachtet eine Zeile oder Spalte.",
      medium: "Bis zu drei Felder werden ausprobiert.", hard: "Mehr Felder werden ausprobiert." },
    lightup: { easy: "Jeder Schritt betrachtet eine Zahl oder ein Feld.",
      medium: "Einige Schritte blicken eine Lampe voraus.", hard: "Einige Felder werden ausprobiert." },
    tents: { easy: "Jeder Schritt betrachtet einen Baum oder eine Linie.",
      medium: "Einige Schritte betrachten alle Weisen, die Zelte einer Linie zu setzen.",
      hard: "Einige Felder werden ausprobiert." },
  },
  pictures: { house: "ein Haus", boat: "ein Segelboot", mushroom: "ein Pilz", heart: "ein Herz",
    cup: "eine Tasse", cat: "eine Katze", key: "ein Schlüssel", umbrella: "ein Schirm", duck: "eine Ente",
    tree: "ein Baum", snail: "eine Schnecke", car: "ein Auto" },
  because: {
    wrong: `${PROVED}die einzige Lösung hat dort etwas anderes.`,
    noMistake: `${PROVED}was dasteht, steht so in der einzigen Lösung.`,
    guess: `${PROVED}die einzige Lösung hat das dort.`,
    step: `${PROVED}die einzige Lösung hat das dort. Von der Seite selbst: der Grund.`,
    trial: `${PROVED}die einzige Lösung hat das dort. Von der Seite selbst: der Grund.`,
  },
  said: {
    clock: "Das dauert länger, als die Seite erlaubt.",
    busy: "Die Seite ist beschäftigt. Versuche es in ein paar Sekunden noch einmal.",
    program: "Das Programm endete ohne Antwort. Versuche es noch einmal.",
    away: "Der Server der Seite hat nicht geantwortet.",
    module: "Das Modul des Programms lässt sich nicht laden. Lade die Seite neu; was du eingetragen hast, " +
      "bleibt.",
    wasm: "Dieser Browser hat kein WebAssembly, das die Seite zum Erzeugen und Prüfen braucht. Was du " +
      "einträgst, bleibt.",
    refused: "Das Programm hat das abgelehnt.", one: "Die einzige Lösung steht unten.",
    none: "Dieses Rätsel hat keine Lösung.",
    several: "Dieses Rätsel hat mehrere Lösungen.", "gave up": "Zu schwer für die Grenze der Seite.",
    level: "Kein Rätsel dieser Schwierigkeit kam rechtzeitig. Versuche eine andere Größe oder Schwierigkeit.",
    link: "Dieser Link nennt kein Spiel von hier. Die Spiele sind solo, pattern, lightup und tents.",
    unopened: "Dieser Link ließ sich jetzt nicht öffnen. Öffne seine ID noch einmal.",
    sizeRange: "Rätsel dieser Größe werden nicht erzeugt.",
    seed: "Eine Nummer ist eine ganze Zahl von 0 bis 18.446.744.073.709.551.615.",
    fillFirst: "Darum ist kein einzelnes Feld richtig oder falsch. Fülle erst alle Felder.",
    correct: "Richtig. Das Rätsel ist gelöst.", noMistake: "Bis jetzt kein Fehler.",
    filledWrong: "Jedes Feld ist gefüllt, aber etwas stimmt nicht. Prüfen zeigt wo.",
    nextStep: "Noch einmal Tipp zeigt den nächsten Schritt.",
    byNotes: "Das beruht auf deinen Notizen.",
    solveAsk: "Lösen zeigt die ganze Lösung, und das Rätsel zählt dann nicht als gelöst. Noch einmal Lösen zeigt sie.",
    unkept: "Dieser Browser merkt sich nichts mehr. Drucke oder teile das Rätsel, um es zu behalten.",
    still: "Noch kein Rätsel dieser Schwierigkeit. Es wird weiter gesucht, während du spielst.", stopped: "Beendet.",
    made: "Dein neues Rätsel ist da.", noPuzzle: "Aus dieser Nummer wurde kein Rätsel. Versuche eine andere.",
    variant: "Dieser Link ist von einer Abart, die es hier nicht gibt. Es gibt Sudokus, auch mit beiden Diagonalen.",
    drawing: "Dieser Link ist von einer Zeichnung, die nicht sagt, welches Spiel sie ist. Schreibe ihre Zahlen als 81 Zeichen, " +
      "Zeile für Zeile, mit einem Punkt für leer.",
    same: "Dieses Rätsel liegt schon auf dem Tisch.",
    hintMore: "Noch einmal Tipp zeigt das Feld.",
    startedOver: "Alles ist wieder leer. Zurück bringt es wieder.",
    marked: "Gemerkt. Zur Marke führt hierher zurück.",
    keptBefore: "Das Rätsel davor bleibt: Zurück im Browser führt hin.", resultCopied: "Das Ergebnis ist kopiert.",
    copied: "Der Link ist kopiert.",
    notCopied: "Die Adresse oben ist der Link.",
  },
  page: {
    game: "Spiel", today: "Von heute", clock: "Zeit", puzzle: "Rätsel", numbers: "Zahlen", steps: "Schritte",
    answers: "Antworten", more: "Mehr",
    undo: "Zurück", redo: "Wieder", notes: "Notizen", corners: "Ecken", colours: "Farbe", colour: "Farbe", erase: "Leeren",
    hint: "Tipp", check: "Prüfen", solve: "Lösen",
    grade: "Grad", allNotes: "Alle Notizen", mark: "Merken", back: "Zur Marke", startOver: "Von vorn",
    share: "Teilen", paper: "Drucken",
    pause: "Pause", goOn: "Weiter", zoom: "Größe", smaller: "kleiner", larger: "größer", brag: "Ergebnis teilen",
    calendar: "Kalender",
    earlier: "ein Monat davor", later: "ein Monat danach", help: "Regeln, Tasten", keyboard: "Tasten",
    stop: "Anhalten", close: "Schließen", rest: "Zum Ende", solutions: "Lösungen", make: "Neues Rätsel", size: "Größe",
    difficulty: "Schwierigkeit", seed: "Nummer",
    any: "beliebig", picture: "Ein Bild", generate: "Neues Rätsel",
    open: "Ein Rätsel öffnen", begun: "Weiter mit", choose: "wählen",
    id: "Eine ID, ein Link (auch von f-puzzles oder puzz.link), oder ein Sudoku aus 81 Zeichen", enter: "Öffnen",
    settings: "Einstellungen", solved: "Was du gelöst hast",
    proved: "Vom Programm bewiesen: dass eine Lösung die einzige ist, dass ein Gitter stimmt, jeder Fehler, " +
      "und warum eine ID abgelehnt wird. " +
      "Von der Seite selbst: die Gründe der Tipps.",
  },
  settings: { broken: "Gebrochene Regeln zeigen", near: "Zeile und Spalte hervorheben",
    tidy: "Notizen gehen von selbst", dots: "Punkte in fertigen Linien",
    clock: "Die Zeit zeigen", filled: "Eingetragenes drucken", look: "Farben", language: "Sprache" },
  looks: { system: "Wie das Gerät", light: "Hell", dark: "Dunkel" },
};
