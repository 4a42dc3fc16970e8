// Places the nodes of a graph without cycles in layers: each above those that rest on it, with few crossings.

// Nodes are { id, width, height, from: [ids] }; gives places { x, y } by id, the points of each edge, and the size of the whole.
export function layout(nodes, gap = { x: 18, y: 26 }) {
  const layers = spread(nodes);
  order(layers);
  const heights = stack(layers, gap.y);
  settle(layers, gap.x);
  return picture(nodes, layers, heights, gap);
}

// The layers from the top, with a narrow link in each layer that an edge passes through.
function spread(nodes) {
  const byId = new Map(nodes.map((node) => [node.id, node]));
  const heights = new Map();
  const users = new Map(nodes.map((node) => [node.id, []]));
  for (const node of nodes) for (const id of node.from) users.get(id).push(node.id);
  const height = (id) => {
    if (!heights.has(id)) heights.set(id, Math.max(-1, ...users.get(id).map(height)) + 1);
    return heights.get(id);
  };
  nodes.forEach((node) => height(node.id));
  const top = Math.max(0, ...heights.values());
  const layers = Array.from({ length: top + 1 }, () => []);
  const places = new Map();
  for (const node of nodes) {
    const place = { node, width: node.width, height: node.height, above: [], below: [] };
    places.set(node.id, place);
    layers[top - heights.get(node.id)].push(place);
  }
  for (const node of nodes) {
    for (const id of node.from) {
      let upper = places.get(id);
      for (let level = top - heights.get(id) + 1; level < top - heights.get(node.id); level++) {
        const link = { node: null, width: 4, height: 0, above: [], below: [], edge: [byId.get(id), node] };
        layers[level].push(link);
        join(upper, link);
        upper = link;
      }
      join(upper, places.get(node.id));
    }
  }
  return layers;
}

function join(upper, lower) {
  upper.below.push(lower);
  lower.above.push(upper);
}

// Sweeps down and up: each layer by the middles of its neighbours; the sweep with the fewest crossings stands.
function order(layers) {
  layers.forEach(number);
  let best = layers.map((layer) => [...layer]);
  let fewest = crossings(layers);
  for (let sweep = 0; sweep < 12 && fewest > 0; sweep++) {
    const down = sweep % 2 === 0;
    for (const layer of down ? layers : [...layers].reverse()) {
      const neighbours = (place) => (down ? place.above : place.below).map((other) => other.at);
      const middle = new Map(layer.map((place) => [place, mean(neighbours(place), place.at)]));
      layer.sort((one, other) => middle.get(one) - middle.get(other));
      number(layer);
    }
    const many = crossings(layers);
    if (many < fewest) {
      fewest = many;
      best = layers.map((layer) => [...layer]);
    }
  }
  best.forEach((layer, level) => {
    layers[level] = layer;
    number(layer);
  });
}

const number = (layer) => layer.forEach((place, at) => (place.at = at));
const mean = (numbers, otherwise) => (numbers.length ? numbers.reduce((sum, one) => sum + one, 0) / numbers.length : otherwise);

function crossings(layers) {
  let many = 0;
  for (const layer of layers) {
    const ends = layer.flatMap((place) => place.below.map((lower) => [place.at, lower.at]));
    if (ends.length > 400) return Infinity;
    for (let one = 0; one < ends.length; one++) {
      for (let other = one + 1; other < ends.length; other++) {
        if ((ends[one][0] - ends[other][0]) * (ends[one][1] - ends[other][1]) < 0) many++;
      }
    }
  }
  return many;
}

function stack(layers, gap) {
  let y = 0;
  return layers.map((layer) => {
    const top = y;
    y += Math.max(...layer.map((place) => place.height)) + gap;
    return top;
  });
}

// Draws each place towards the middle of its neighbours, as far as the others of its layer let it.
function settle(layers, gap) {
  for (const layer of layers) {
    let x = 0;
    for (const place of layer) {
      place.x = x + place.width / 2;
      x += place.width + gap;
    }
  }
  for (let sweep = 0; sweep < 80; sweep++) {
    for (const layer of sweep % 2 ? [...layers].reverse() : layers) {
      const wanted = layer.map((place) => mean([...place.above, ...place.below].map((other) => other.x), place.x));
      fit(layer, wanted, gap);
    }
  }
}

// The places nearest to the wanted ones, in the layer's order and apart: blocks that touch move as one.
function fit(layer, wanted, gap) {
  const blocks = [];
  layer.forEach((place, at) => {
    let block = { places: [place], offsets: [0], sum: wanted[at] };
    while (blocks.length && start(blocks.at(-1)) + lengthOf(blocks.at(-1), place, gap) > start(block)) {
      block = merge(blocks.pop(), block, gap);
    }
    blocks.push(block);
  });
  for (const block of blocks) block.places.forEach((place, at) => (place.x = start(block) + block.offsets[at]));
}

const start = (block) => block.sum / block.places.length;
const lengthOf = (block, next, gap) => block.offsets.at(-1) + (block.places.at(-1).width + next.width) / 2 + gap;

function merge(left, right, gap) {
  const shift = lengthOf(left, right.places[0], gap);
  return {
    places: [...left.places, ...right.places],
    offsets: [...left.offsets, ...right.offsets.map((offset) => offset + shift)],
    sum: left.sum + right.sum - shift * right.places.length,
  };
}

function picture(nodes, layers, tops, gap) {
  const all = layers.flat();
  const left = Math.min(...all.map((place) => place.x - place.width / 2));
  const right = Math.max(...all.map((place) => place.x + place.width / 2));
  const heights = layers.map((layer) => Math.max(...layer.map((place) => place.height)));
  layers.forEach((layer, level) => {
    layer.forEach((place) => Object.assign(place, { x: place.x - left, top: tops[level], tall: heights[level] }));
  });
  const real = all.filter((place) => place.node);
  const places = new Map(real.map((place) => [place.node.id, { x: place.x, y: place.top }]));
  const edges = real.flatMap((place) => place.below.map((lower) => ({ from: place.node.id, ...follow(place, lower) })));
  return { places, edges, width: right - left, height: tops[tops.length - 1] + heights[heights.length - 1] };
}

// The points of the edge from a place down to the next node.
function follow(place, lower) {
  const points = [[place.x, place.top + place.height]];
  let next = lower;
  while (!next.node) {
    points.push([next.x, next.top], [next.x, next.top + next.tall]);
    next = next.below[0];
  }
  points.push([next.x, next.top]);
  return { to: next.node.id, points };
}
