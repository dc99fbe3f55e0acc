// Draws the table of a hand after an event: its seats, cards, bets, board and pots.

const SVG = "http://www.w3.org/2000/svg";
const SUITS = {
  s: "M50 6C53 22 93 40 93 63C93 75 83 83 72 83C64 83 58 79 54 73C55 82 58 90 64 95L36 95"
    + "C42 90 45 82 46 73C42 79 36 83 28 83C17 83 7 75 7 63C7 40 47 22 50 6Z",
  h: "M50 92C20 65 7 50 7 33C7 18 18 9 30 9C39 9 46 14 50 23C54 14 61 9 70 9C82 9 93 18 93 33"
    + "C93 50 80 65 50 92Z",
  d: "M50 4L88 50L50 96L12 50Z",
  c: "M36 95C42 90 45 82 46 70A22 22 0 1 1 31 38A21 21 0 1 1 69 38A22 22 0 1 1 54 70"
    + "C55 82 58 90 64 95Z",
};
const narrow = matchMedia("(max-width: 40rem)");

function draw(tag, attributes, ...children) {
  const node = document.createElementNS(SVG, tag);
  for (const [name, value] of Object.entries(attributes || {})) {
    if (value !== null) node.setAttribute(name, value);
  }
  node.append(...children);
  return node;
}

// Where things are on a wide screen: the seats round an ellipse. p1 is below, and the next ones
// follow as the clock goes.
function roundIt(count) {
  const found = { wide: 920, middle: [460, 330], seats: [], bets: [], isWide: true };
  for (let seat = 0; seat < count; seat += 1) {
    const angle = Math.PI / 2 + 2 * Math.PI * seat / count;
    found.seats.push([460 + 370 * Math.cos(angle), 330 + 235 * Math.sin(angle)]);
    found.bets.push([460 + 215 * Math.cos(angle), 330 + 118 * Math.sin(angle)]);
  }
  found.felt = { x: 130, y: 130, width: 660, height: 400, rx: 330, ry: 200 };
  return found;
}

// Where they are on a narrow screen: in two columns, with one seat below them if their number is
// odd, and the board between two rows.
function inColumns(count) {
  const found = { wide: 544, seats: [], bets: [], isWide: false };
  const isOdd = count % 2 === 1, side = count === 2 ? 0 : Math.floor(count / 2);
  const row = 130, below = side > 1 ? row * side : 220;
  if (isOdd || count === 2) {
    found.seats.push([272, below]);
    found.bets.push(side > 1 ? [272, below - 88] : [400, below - 96]);
  }
  for (let place = 0; place < side; place += 1) {
    found.seats.push([92, row * (side - 1 - place)]);
    found.bets.push([236, row * (side - 1 - place) - 8]);
  }
  for (let place = 0; place < side; place += 1) {
    found.seats.push([452, row * place]);
    found.bets.push([308, row * place + 20]);
  }
  if (count === 2) {
    found.seats.push([272, 0]);
    found.bets.push([400, 62]);
  }
  found.middle = [272, side > 1 ? row * Math.floor((side - 1) / 2) + 109 : side ? 128 : 137];
  const last = Math.max(...found.seats.map(([, y]) => y));
  found.felt = { x: 60, y: -40, width: 424, height: last + 40, rx: 150, ry: 150 };
  return found;
}

// A card as a picture, and as words.
function cardAt(card, x, y, isDown) {
  const group = draw("g", { transform: `translate(${x} ${y})` });
  if (card === "??") {
    group.append(draw("rect", { class: "back", width: 30, height: 42, rx: 4 }),
      draw("path", { class: "weave", d: "M6 8L24 34M24 8L6 34M15 5L15 37M5 21L25 21" }));
    return group;
  }
  group.setAttribute("class", card[1]);
  group.append(draw("rect", { class: isDown ? "card down" : "card", width: 30, height: 42, rx: 4 }),
    draw("text", { class: `rank ${card[1]}`, x: 4, y: 16 }, card[0] === "T" ? "10" : card[0]),
    draw("path", { d: SUITS[card[1]], transform: "translate(3 21) scale(.17)" }));
  return group;
}

const said = (card) => (card === "??" ? "an unknown card"
  : `${card[0] === "T" ? "10" : card[0]} of ${SUIT_NAMES[card[1]]}`);

// The cards of a seat, those of stud that lie open somewhat higher.
function handAtSeat(now, seat, x, y) {
  const unknown = now.cards[seat].every((each) => each.card === "??");
  const cards = now.out[seat] && unknown ? [] : now.cards[seat];
  const isStud = STUD.includes(hand.g);
  const gap = Math.min(31, 134 / Math.max(1, cards.length - 1));
  const left = x - (gap * (cards.length - 1) + 30) / 2;
  return cards.map((each, count) => cardAt(each.card, left + gap * count,
    y - (isStud && each.isUp ? 86 : 76), isStud && !each.isUp));
}

function textAt(kind, x, y, text) {
  return draw("text", { class: kind, x, y, "text-anchor": "middle" }, text);
}

// A seat: its cards, its name, its chips, and what it did last.
function seatAt(now, seat, x, y, { turn, wrong, ending }) {
  const marks = [turn === seat ? "turn" : "", wrong === seat ? "wrong" : ""];
  const group = draw("g", { class: marks.join(" ") });
  const inner = draw("g", { class: now.out[seat] ? "out" : "" }, ...handAtSeat(now, seat, x, y));
  group.append(draw("rect",
    { class: "plate", x: x - 84, y: y - 32, width: 168, height: 74, rx: 8 }));
  const name = hand.p ? shortOf(hand.p[seat]) : "";
  const clip = draw("svg", { x: x - 80, y: y - 30, width: 160, height: 26, overflow: "hidden" });
  clip.append(textAt("name", 80, 19,
    `p${seat + 1}${name && name !== `p${seat + 1}` ? ` ${name}` : ""}`));
  const isIn = !now.out[seat] && now.stacks[seat] === 0 && !ending;
  const stack = number(ending ? ending.f[seat] : now.stacks[seat]) + (isIn ? ", all in" : "");
  inner.append(clip, textAt(null, x, y + 12, stack));
  const equity = !ending && !now.out[seat] ? equityOf(now) : null;
  const wins = equity ? equity.w[seat + 1] : null;
  if (wins) {
    const meter = { x: x - 76, y: y + 35, height: 4 };
    group.append(draw("rect", { class: "meter", width: 152, ...meter }),
      draw("rect", { class: "share", width: 152 * wins[0] / equity.t, ...meter }));
  }
  const did = doneBy(now, seat, ending, turn);
  const label = [did, wins ? percent(wins[0], equity.t) : ""].filter(Boolean).join(" · ");
  inner.append(textAt(did.startsWith("wins") ? "won" : "small", x, y + 31, label));
  group.append(inner);
  return group;
}

// What a seat did last on the street, or got at the end.
function doneBy(now, seat, ending, turn) {
  if (!ending) return turn === seat ? "to act" : now.did[seat] || (now.out[seat] ? "folded" : "");
  const won = ending.t.reduce((sum, pot) => sum + (pot[1][seat + 1] || 0), 0);
  const back = ending.r[seat + 1];
  const said = [won ? `wins ${number(won)}` : "", back ? `gets back ${number(back)}` : ""];
  return said.filter(Boolean).join(", ");
}

// The bet of a seat on this street.
function betAt(now, seat, [left, top]) {
  const chips = number(now.put[seat] - now.earlier[seat]);
  const wide = 30 + 10 * chips.length;
  const x = left - wide / 2;
  return [draw("rect", { class: "bet", x, y: top - 18, width: wide, height: 24, rx: 12 }),
    draw("circle", { class: "chip", cx: x + 12, cy: top - 6, r: 8 }),
    draw("text", { class: "on", x: x + 25, y: top }, chips)];
}

// The seats, the button of the last one, and the bets.
function seatsOf(now, ending, turn, wrong, shape) {
  const found = [], bets = [];
  hand.s.forEach((_, seat) => {
    const [x, y] = shape.seats[seat];
    found.push(seatAt(now, seat, x, y, { turn, wrong, ending }));
    if (!ending && now.put[seat] > now.earlier[seat]) {
      bets.push(...betAt(now, seat, shape.bets[seat]));
    }
    if (hand.b && seat === hand.s.length - 1) {
      found.push(draw("circle", { class: "flag", cx: x - 78, cy: y - 36, r: 12 }),
        textAt("flag-text", x - 78, y - 31, "D"));
    }
  });
  return [...found, ...bets];
}

// What is said in the middle of the table.
function middleOf(now, ending, next, isWrong, shape) {
  const [x, y] = shape.middle;
  const pots = ending ? potsOf(ending, shape.isWide) : potNow(now, shape.isWide);
  const found = pots.map((text, count) =>
    textAt("on big", x, y - 62 - 22 * (pots.length - 1 - count), text));
  now.board.forEach((card, count) =>
    found.push(cardAt(card, x - 17 * now.board.length + 34 * count, y - 52, false)));
  if (!shape.isWide) return found;
  const due = next.seat < 0 ? [next.due]
    : [`${called(next.seat)} may`, next.moves.join(" \u00b7 ")];
  (isWrong || !next.due ? [] : due).forEach((text, count) =>
    found.push(textAt("on", x, y + 20 + 22 * count, text)));
  if (isWrong || (hand.v && !hand.v.event && step === steps.length - 1)) {
    const lines = isWrong ? [`event ${hand.v.event} is refused: ${hand.v.reason}`, hand.v.text]
      : ["the hand is refused", hand.v.reason];
    found.push(draw("rect",
      { class: "banner", x: x - 190, y: y + 5, width: 380, height: 54, rx: 6 }));
    lines.forEach((text, count) => found.push(textAt("wrong-words", x, y + 27 + 22 * count,
      text.length > 42 ? `${text.slice(0, 40)}\u2026` : text)));
  }
  return found;
}

// The picture of the table after an event; at the end with the outcome of the hand.
function table(now, ending) {
  const shape = (narrow.matches ? inColumns : roundIt)(hand.s.length);
  const next = turnOf(now, ending);
  const isWrong = hand.v && hand.v.event && now.event === hand.v.event - 1 && !ending;
  const wrong = isWrong ? (hand.v.seat || next.seat + 1) - 1 : -1;
  const heights = shape.seats.map(([, y]) => y);
  const top = Math.min(Math.min(...heights) - 92, shape.felt.y - 5);
  const bottom = Math.max(Math.max(...heights) + 48, shape.felt.y + shape.felt.height + 5);
  const when = ending ? "at its end" : `after event ${now.event}`;
  return draw("svg", { viewBox: `0 ${top} ${shape.wide} ${bottom - top}`, role: "img",
    "aria-labelledby": "alt-title alt-text" },
  draw("title", { id: "alt-title" }, `Hand ${hand.n}, ${when}`),
  draw("desc", { id: "alt-text" }, described(now, ending)),
  draw("rect", { class: "felt", ...shape.felt }),
  ...seatsOf(now, ending, next.seat, wrong, shape),
  ...middleOf(now, ending, next, isWrong, shape));
}

// The chips of the streets before this one, and with those of this one.
function potNow(now, isWide) {
  const earlier = now.put.reduce((sum, put, seat) => sum + Math.min(put, now.earlier[seat]), 0);
  const total = now.put.reduce((sum, put) => sum + put, 0);
  if (earlier === total) return [`pot ${number(total)}`];
  if (!earlier) return [`bets ${number(total)}`];
  return isWide ? [`pot ${number(earlier)}`, `with bets ${number(total)}`]
    : [`pot ${number(earlier)} + ${number(total - earlier)}`];
}

function potsOf(ending, isWide) {
  const rake = ending.t.reduce((sum, pot) => sum + pot[2], 0);
  const taken = rake ? `, rake ${number(rake)}` : "";
  if (ending.t.length < (isWide ? 4 : 2)) {
    const place = (count) => (ending.t.length > 1 ? `${count + 1}: ` : "");
    return ending.t.map((pot, count) => `pot ${place(count)}${number(pot[0])}`
      + (pot[2] ? `, rake ${number(pot[2])}` : ""));
  }
  const chips = ending.t.reduce((sum, pot) => sum + pot[0], 0);
  return [`${ending.t.length} pots: ${number(chips)}${taken}`];
}

// The same in words, for those who do not see it.
function described(now, ending) {
  const board = now.board.length ? `The board is ${now.board.map(said).join(", ")}. ` : "";
  const rows = now.stacks.map((stack, seat) => {
    const name = hand.p ? nameOf(hand.p[seat]) : "";
    const cards = now.cards[seat].map((each) => said(each.card)).join(", ") || "no cards";
    const state = now.out[seat] ? "has folded" : `holds ${cards}`;
    const left = ending ? ending.f[seat] : stack;
    return `p${seat + 1} ${name} ${state}, has ${left} left and has put in ${now.put[seat]}.`;
  });
  return board + rows.join(" ");
}

// Makes a text as narrow as the plate that it is on.
function fit(text) {
  if (text.getComputedTextLength() <= 158) return;
  text.setAttribute("textLength", 158);
  text.setAttribute("lengthAdjust", "spacingAndGlyphs");
}
