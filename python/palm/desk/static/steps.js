// The steps that take a value out, or empty a variable, as a picture in layers and as a text.

import { draw, make } from "./dom.js";
import { layout } from "./layers.js";
import * as runs from "./runs.js";

const LETTER = 6.7;
const MOST = 80;

// What is to be shown: `goal` has a variable and, where it is a value that is gone, its value.
export function stepsPicture(store, steps, goal, light) {
  const groups = gather(steps, goal);
  if (!groups.length) return [];
  const list = make("ol", {}, ...groups.map((group) => make("li", {}, sentence(store, group, groups))));
  const told = make("details", { class: "told" }, make("summary", {}, "The steps in words"), list);
  if (groups.length > MOST) return [make("p", {}, `${groups.length} groups of steps are too many for a picture.`), told];
  return [paint(store, groups, light), told];
}

// Steps of one constraint on one variable stand together, where that makes no circle; the goal stands alone.
function gather(steps, goal) {
  const depths = [];
  steps.forEach((step, at) => (depths[at] = Math.max(-1, ...step.from.map((number) => depths[number])) + 1));
  const isGoal = (step) => step.variable === goal.variable && step.value === goal.value;
  const keys = steps.map((step) => (isGoal(step) ? "goal" : `${step.variable} ${step.by}`));
  for (let circle = circular(steps, keys); circle.size; circle = circular(steps, keys)) {
    keys.forEach((key, at) => {
      if (circle.has(key)) keys[at] = `${key} ${depths[at]}`;
    });
  }
  const groups = new Map();
  steps.forEach((step, at) => {
    const { variable, by } = step;
    const group = groups.get(keys[at]) ?? { id: keys[at], variable, by, values: [], from: new Set() };
    groups.set(keys[at], group);
    group.values.push(step.value);
    for (const number of step.from) if (keys[number] !== keys[at]) group.from.add(keys[number]);
  });
  if (goal.value === undefined && groups.size) groups.set("goal", wiped([...groups.values()], goal));
  if (groups.has("goal")) groups.get("goal").goal = true;
  return [...groups.values()];
}

const wiped = (groups, goal) => ({
  id: "goal",
  variable: goal.variable,
  by: null,
  values: [],
  from: new Set(groups.filter((group) => group.variable === goal.variable).map((group) => group.id)),
});

// The keys of groups that rest on themselves. Groups by depth do not.
function circular(steps, keys) {
  const above = new Map(keys.map((key) => [key, new Set()]));
  steps.forEach((step, at) => step.from.forEach((number) => above.get(keys[at]).add(keys[number])));
  const waiting = new Map([...above].map(([key, others]) => [key, new Set([...others].filter((other) => other !== key))]));
  const unbound = () => [...waiting.keys()].filter((key) => !waiting.get(key).size);
  for (let free = unbound(); free.length; free = unbound()) {
    free.forEach((key) => waiting.delete(key));
    for (const others of waiting.values()) free.forEach((key) => others.delete(key));
  }
  return new Set([...waiting.keys()].filter((key) => !/ \d+$/.test(key)));
}

function values(store, group) {
  const variable = store.byName.get(group.variable);
  const sorted = [...new Set(group.values)].sort((one, other) => one - other);
  return variable?.words ? sorted.map((value) => variable.wordOf(value)).join(", ") : runs.text(runs.of(sorted));
}

function claim(store, group) {
  return group.by === null ? `${group.variable}: no value left` : `${group.variable} not ${values(store, group)}`;
}

const clip = (text, most) => (text.length > most ? `${text.slice(0, most - 1)}…` : text);

function sentence(store, group, groups) {
  const reasons = groups.filter((other) => group.from.has(other.id)).map((other) => claim(store, other));
  const cause = group.by === null ? "" : `, by ${group.by}`;
  return `${claim(store, group)}${cause}${reasons.length ? `, since ${reasons.join(" and ")}` : ""}`;
}

function paint(store, groups, light) {
  const nodes = groups.map((group) => {
    const lines = [clip(claim(store, group), 30), group.by === null ? "" : clip(group.by, 30)];
    const width = Math.max(...lines.map((line) => line.length)) * LETTER + 20;
    return { ...group, lines, from: [...group.from], width, height: group.by === null ? 28 : 42 };
  });
  const made = layout(nodes);
  const edges = made.edges.map((edge) => draw("path", { class: "edge", d: curve(edge.points) }));
  const down = [...nodes].sort((one, other) => made.places.get(one.id).y - made.places.get(other.id).y);
  const boxes = down.map((node) => box(node, made.places.get(node.id), light));
  const [width, height] = [made.width + 4, made.height + 4];
  const label = "The steps, from the top down; their words stand below";
  const frame = { class: "layers", viewBox: `-2 -2 ${width} ${height}`, width, height, role: "img", "aria-label": label };
  const picture = draw("svg", frame, ...edges, ...boxes);
  return make("div", { class: "scroll", tabindex: "0", role: "region", "aria-label": "Picture of the steps" }, picture);
}

function box(node, place, light) {
  const x = place.x - node.width / 2;
  const first = draw("text", { x: place.x, y: place.y + 18, class: "claim" }, node.lines[0]);
  const second = node.by === null ? null : draw("text", { x: place.x, y: place.y + 34, class: "cause" }, node.lines[1]);
  const frame = draw("rect", { x, y: place.y, width: node.width, height: node.height, rx: 7 });
  const group = draw("g", { class: node.goal ? "node goal" : "node" }, frame, first, second);
  if (node.by !== null) group.addEventListener("click", () => light([node.by]));
  return group;
}

function curve(points) {
  let path = `M${points[0][0]} ${points[0][1]}`;
  for (let at = 1; at < points.length; at++) {
    const [x, y] = points[at];
    const [from, top] = points[at - 1];
    const bend = (y - top) / 2;
    path += x === from ? `V${y}` : `C${from} ${top + bend} ${x} ${y - bend} ${x} ${y}`;
  }
  return path;
}
