// What a person does, behind drawing.js, and the first drawing.

let waiting = false;

function redraw() {
  if (waiting) return;
  waiting = true;
  requestAnimationFrame(() => { waiting = false; draw(); });
}

// The cursor stands at the nearest moment of the data, or where no moment is near, at the pixel. Marks are taken for nearer than they are,
// so that among many values one finds the moment of a trigger.
function moveCursor(place) {
  let best = null;
  for (const points of data.panels.flatMap(panel => [...panel.lines, panel.late]).concat(allMarks())) {
    const next = before(points.at, timeAt(place));
    for (const one of [next - 1, next]) {
      if (one < 0 || one >= points.at.length) continue;
      const away = Math.abs(x(points.at[one]) - place) - (points.counts ? MARK : 0);
      if (best === null || away < best.away) best = {away, at: points.at[one], exact: points.times[one]};
    }
  }
  const isNear = best !== null && best.away <= NEAR;
  view.cursor = isNear ? best.at : timeAt(place);
  view.exact = isNear ? best.exact : Math.round(view.cursor);
  redraw();
}

function look(from, to) {
  const most = whole[1] - whole[0];
  const length = Math.min(Math.max(to - from, Math.min(10, most)), most);
  const middle = (from + to) / 2;
  view.from = Math.min(Math.max(middle - length / 2, whole[0]), whole[1] - length);
  view.to = view.from + length;
  redraw();
}

function zoom(factor, around = (view.from + view.to) / 2) {
  look(around - (around - view.from) * factor, around + (view.to - around) * factor);
}

function move(part) {
  const way = (view.to - view.from) * part;
  look(view.from + way, view.to + way);
}

function showAll() {
  look(whole[0], whole[1]);
}

const ACTIONS = {
  closer: () => zoom(0.5), wider: () => zoom(2), earlier: () => move(-0.25), later: () => move(0.25), whole: showAll,
};
const KEYS = {"+": "closer", "=": "closer", "-": "wider", "ArrowLeft": "earlier", "ArrowRight": "later", "0": "whole"};

function listen() {
  for (const name in ACTIONS) document.getElementById(name).addEventListener("click", ACTIONS[name]);
  document.addEventListener("keydown", event => {
    if (!(event.key in KEYS) || event.ctrlKey || event.metaKey) return;
    ACTIONS[KEYS[event.key]]();
    event.preventDefault();
  });
  canvas.addEventListener("wheel", event => {
    if (!event.ctrlKey && !event.metaKey) return;
    event.preventDefault();
    zoom(event.deltaY < 0 ? 0.8 : 1.25, timeAt(event.offsetX));
  }, {passive: false});
  canvas.addEventListener("pointerdown", event => {
    view.drag = {first: event.offsetX, last: event.offsetX, moves: event.shiftKey};
    canvas.setPointerCapture(event.pointerId);
  });
  canvas.addEventListener("pointermove", event => {
    if (view.drag && view.drag.moves) {
      const way = timeAt(view.drag.last) - timeAt(event.offsetX);
      look(view.from + way, view.to + way);
    }
    if (view.drag) view.drag.last = event.offsetX;
    moveCursor(event.offsetX);
  });
  canvas.addEventListener("pointerup", () => {
    const drag = view.drag;
    view.drag = null;
    if (drag && !drag.moves && Math.abs(drag.last - drag.first) > 4) {
      look(timeAt(Math.min(drag.first, drag.last)), timeAt(Math.max(drag.first, drag.last)));
    }
    redraw();
  });
  canvas.addEventListener("pointerleave", () => { if (!view.drag) { view.cursor = null; redraw(); } });
  canvas.addEventListener("dblclick", showAll);
  window.addEventListener("resize", redraw);
  matchMedia("(prefers-color-scheme: dark)").addEventListener("change", () => {
    for (const name in styles) delete styles[name];
    redraw();
  });
}

for (const panel of data.panels) {
  [...panel.lines, panel.late].forEach(prepare);
  for (const points of panel.lines) points.widest = widest(panel, points);
}
for (const marks of allMarks()) marks.at = marks.times.map(Number);
data.late.at ||= [];
document.getElementById("end").textContent = [data.end, ...data.notes].filter(told => told).join("  ·  ");
listen();
draw();
canvas.dataset.drawn = data.panels.length;
