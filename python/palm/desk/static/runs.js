// Sets of places as runs: pairs of a first and a last place, ascending, and never two that touch.

export function count(runs) {
  let sum = 0;
  for (const [first, last] of runs) sum += last - first + 1;
  return sum;
}

export function has(runs, place) {
  return runs.some(([first, last]) => first <= place && place <= last);
}

// The places of the one that are not of the other.
export function minus(runs, others) {
  const left = [];
  let next = 0;
  for (const [first, last] of runs) {
    let from = first;
    while (next < others.length && others[next][1] < from) next++;
    for (let at = next; at < others.length && others[at][0] <= last; at++) {
      if (others[at][0] > from) left.push([from, others[at][0] - 1]);
      from = Math.max(from, others[at][1] + 1);
    }
    if (from <= last) left.push([from, last]);
  }
  return left;
}

export function same(runs, others) {
  return runs.length === others.length && runs.every(([first, last], at) => first === others[at][0] && last === others[at][1]);
}

// The runs of ascending numbers.
export function of(numbers) {
  const runs = [];
  for (const number of numbers) {
    const last = runs[runs.length - 1];
    if (last && last[1] === number - 1) last[1] = number;
    else runs.push([number, number]);
  }
  return runs;
}

export function text(runs) {
  const told = ([first, last]) => (first === last ? `${first}` : `${first}${last === first + 1 ? ", " : ".."}${last}`);
  return runs.map(told).join(", ");
}

// A path with a box for each run, from one height to another.
export function path(runs, top, bottom) {
  return runs.map(([first, last]) => `M${first} ${top}H${last + 1}V${bottom}H${first}Z`).join("");
}
