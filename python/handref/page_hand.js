"use strict";
// What the page holds, and what a hand is after each of its events: chips, cards, words.
// Nothing is fetched. All that a file says comes in as text, never as markup.

const SUIT_NAMES = { s: "spades", h: "hearts", d: "diamonds", c: "clubs" };
const SUIT_SIGNS = { s: "\u2660\ufe0e", h: "\u2665\ufe0e", d: "\u2666\ufe0e", c: "\u2663\ufe0e" };
const STUD = ["F7S", "F7S/8", "FR"];
const STREETS = { 3: "flop", 4: "turn", 5: "river" };
const BLOCK = 256;

const at = (id) => document.getElementById(id);
const number = (text) => Number(text).toLocaleString("en-US").replaceAll(",", "\u202f");
const seatOf = (word) => Number(word.slice(1)) - 1;
const cardsOf = (word) => word.match(/../g) || [];

// An element with attributes and children; text is text.
function make(tag, attributes, ...children) {
  const node = document.createElement(tag);
  for (const [name, value] of Object.entries(attributes || {})) {
    if (value !== null) node.setAttribute(name, value);
  }
  node.append(...children);
  return node;
}

// What a part of the page holds, which is packed where there are many hands.
async function held(element) {
  if (element.type === "application/json") return JSON.parse(element.textContent);
  const bytes = Uint8Array.from(atob(element.textContent), (sign) => sign.charCodeAt(0));
  const stream = new Blob([bytes]).stream().pipeThrough(new DecompressionStream("deflate"));
  return JSON.parse(await new Response(stream).text());
}

let index = null;
let hand = null;
let steps = [];
let step = 0;
let place = 0;
const blocks = new Map();

const nameOf = (entry) => [index.names[entry]].flat()[0];
const shortOf = (entry) => [index.names[entry]].flat().at(-1);

async function handAt(row) {
  const block = Math.floor(row / BLOCK);
  if (!blocks.has(block)) {
    if (blocks.size > 8) blocks.clear();
    blocks.set(block, await held(document.querySelectorAll("script.hands")[block]));
  }
  return blocks.get(block)[row % BLOCK];
}

// The name of a seat as it is shown, and the seat where it has none.
const called = (seat) => (hand.p ? shortOf(hand.p[seat]) : `p${seat + 1}`);


// What is on the table after each event: chips, cards, and what each seat did on the street.
function played(hand) {
  const all = (make) => hand.s.map((_, seat) => make(seat));
  const now = {
    event: 0, text: "posts", stacks: all((seat) => hand.s[seat] - hand.i[seat]), put: [...hand.i],
    earlier: hand.a ? [...hand.a] : all(() => 0), cards: all(() => []), board: [],
    out: all(() => false), did: all(() => ""), dealt: all(() => 0), gone: all(() => 0),
    actor: -1, moved: false, words: posted(hand),
  };
  const found = [kept(now)];
  for (const packed of hand.e ? hand.e.split(";") : []) {
    const [text, added] = packed.split("+");
    const words = text.split(" ");
    const isMove = ["f", "cc", "cbr", "pb"].includes(words[1]);
    if (!isMove && now.moved) {  // the bets of the street go to the pot
      now.earlier = [...now.put];
      now.did = all(() => "");
      now.moved = false;
    }
    now.event += 1;
    now.text = text;
    now.actor = words[0] === "d" ? -1 : seatOf(words[0]);
    if (words[0] === "d") deal(hand, now, words);
    else act(now, words, Number(added || 0));
    now.moved = now.moved || isMove;
    found.push(kept(now));
  }
  return found;
}

const kept = (now) => ({
  ...now, stacks: [...now.stacks], put: [...now.put], earlier: [...now.earlier],
  cards: now.cards.map((row) => row.map((card) => ({ ...card }))), board: [...now.board],
  out: [...now.out], did: [...now.did], gone: [...now.gone],
});

// An event in words: pairs of a seat, or null, and of what is said of it. event_words.py says the
// same for the list to read.
function posted(hand) {
  const antes = hand.s.map((_, seat) => Math.min(hand.a ? hand.a[seat] : 0, hand.i[seat]));
  const isEach = antes[0] > 0 && antes.every((ante) => ante === antes[0]);
  const said = isEach ? [[null, `ante of ${number(antes[0])} each`]] : [];
  hand.s.forEach((_, seat) => {
    const blind = hand.i[seat] - antes[seat];
    const ante = isEach ? 0 : antes[seat];
    const parts = [blind ? number(blind) : "", ante ? `an ante of ${number(ante)}` : ""];
    const words = parts.filter(Boolean).join(" and ");
    if (words) said.push([seat, ` posts ${words}`]);
  });
  return said.length ? joined(said, ", ") : [[null, "nobody posts"]];
}

// What is said of several seats, with a sign between.
const joined = (said, sign) => said.map(([seat, words], count) =>
  [seat, words + (count + 1 < said.length ? sign : "")]);

function ended(hand) {
  const said = Object.entries(hand.r).map(([seat, chips]) =>
    [Number(seat) - 1, ` gets back ${number(chips)}`]);
  hand.t.forEach(([, shares, rake], count) => {
    const pot = hand.t.length > 1 ? ` of pot ${count + 1}` : "";
    for (const [seat, share] of Object.entries(shares)) {
      said.push([Number(seat) - 1, ` wins ${number(share)}${pot}`]);
    }
    if (rake) said.push([null, `rake ${number(rake)}${pot}`]);
  });
  return said.length ? joined(said, ", ") : [[null, "the end"]];
}

const cardWords = (cards) => cards.map((card) => (card === "??" ? "?"
  : `${card[0] === "T" ? "10" : card[0]}${SUIT_SIGNS[card[1]]}`)).join(" ");

const cardCount = (count, kind) => (count === 1 ? `a${kind ? "n" : ""} ${kind}card`
  : `${count} ${kind}cards`);

// Cards of the board, or of a seat: in stud those of the third to the sixth street lie open.
function deal(hand, now, words) {
  if (words[1] === "db") {
    const cards = cardsOf(words[2]);
    now.board.push(...cards);
    const isStreet = cards.length === (now.board.length === 3 ? 3 : 1);
    const street = (isStreet && STREETS[now.board.length]) || "board";
    now.words = [[null, `${street}: ${cardWords(cards)}`]];
    return;
  }
  const owner = seatOf(words[2]), cards = cardsOf(words[3]);
  const isKnown = cards.some((card) => card !== "??");
  now.words = [[owner, ` is dealt ${isKnown ? cardWords(cards)
    : cardCount(cards.length, "unknown ")}`]];
  for (const card of cards) {
    now.dealt[owner] += 1;
    const isUp = STUD.includes(hand.g) && now.dealt[owner] > 2 && now.dealt[owner] < 7;
    now.cards[owner].push({ card, isUp });
  }
}

// What a seat does, with the chips that it adds.
function act(now, words, chips) {
  const seat = now.actor;
  const cards = cardsOf(words[2] || "");
  let more = "";
  if (words[1] === "f") {
    now.out[seat] = true;
    now.did[seat] = "folds";
  } else if (words[1] === "sd") {
    discard(now, seat, cards);
    more = cards.some((card) => card !== "??") ? `: ${cardWords(cards)}` : "";
  } else if (words[1] === "sm") {
    if (words[2]) show(now.cards[seat], cards);
    now.did[seat] = words[2] ? "shows" : "mucks";
    more = words[2] ? ` ${cardWords(cards)}` : "";
  } else {
    const price = Math.max(...now.put.map((put, each) => put - now.earlier[each]));
    now.stacks[seat] -= chips;
    now.put[seat] += chips;
    now.did[seat] = words[1] === "cc" ? (chips ? `calls ${number(chips)}` : "checks")
      : words[1] === "pb" ? `brings in ${number(chips)}`
      : price ? `raises to ${number(words[2])}` : `bets ${number(words[2])}`;
    more = chips && !now.stacks[seat] ? ", all in" : "";
  }
  now.words = [[seat, ` ${now.did[seat]}${more}`]];
}

function discard(now, seat, cards) {
  const row = now.cards[seat];
  for (const card of cards) {
    const known = row.findIndex((each) => each.card === card);
    const other = known < 0 ? row.findIndex((each) => each.card === "??") : known;
    row.splice(other < 0 ? row.length - 1 : other, 1);
  }
  now.gone[seat] += cards.length;
  now.did[seat] = cards.length ? `discards ${cardCount(cards.length, "")}` : "stands pat";
}

// A show of fewer cards than are held is one of the down cards.
function show(row, cards) {
  const rest = [...cards];
  const may = row.filter((each) => cards.length === row.length || !each.isUp);
  for (const each of may) {
    if (rest.includes(each.card)) rest.splice(rest.indexOf(each.card), 1);
  }
  for (const each of may) {
    if (each.card === "??" && rest.length) each.card = rest.shift();
  }
}

// Whose turn it is after an event, and what may be done, in the words of `options`.
function turnOf(now, ending) {
  if (ending) return { seat: -1, moves: [], due: "" };
  const told = hand.o && hand.o[now.event];
  if (told) {
    const [due, ...moves] = told.split(";");
    const words = due.split(" ");
    return { seat: /^p\d+$/.test(words[1] || "") ? seatOf(words[1]) : -1, moves, due };
  }
  const following = steps[step + 1];
  const isMove = following && !following.isEnd && /^p\d+ (f|cc|cbr|pb)/.test(following.now.text);
  return { seat: isMove ? following.now.actor : -1, moves: [], due: "" };
}

// The percentages of `equity` on the street of a board.
function equityOf(now) {
  const told = hand.q && hand.q[now.board.length - 1];
  return told && typeof told === "object" ? told : null;
}

const percent = (part, whole) => `${(100 * part / whole).toFixed(1)}\u2009%`;
