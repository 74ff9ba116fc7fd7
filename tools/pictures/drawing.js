// What is drawn, behind axes.js.

function stroke(paint, width = 1, dash = []) {
  pen.strokeStyle = paint;
  pen.lineWidth = width;
  pen.setLineDash(dash);
  pen.stroke();
  pen.setLineDash([]);
}

function widthOf(text, bold = false) {
  pen.font = (bold ? "600 " : "") + "12px system-ui, sans-serif";
  return pen.measureText(text).width;
}

function label(text, left, top, paint, align = "left", bold = false) {
  const width = widthOf(text, bold);
  pen.fillStyle = paint;
  pen.textAlign = align;
  pen.textBaseline = "middle";
  pen.fillText(text, left, top);
  return width;
}

function vertical(time, top, bottom, paint, dash) {
  pen.beginPath();
  pen.moveTo(x(time), top);
  pen.lineTo(x(time), bottom);
  stroke(paint, 1, dash);
}

// The points of names that are seen, each name once in a pixel's column, as [x, value].
function visibleNames(points) {
  const found = new Map();
  for (let place = before(points.at, view.from); place < points.at.length && points.at[place] <= view.to; place++) {
    const left = x(points.at[place]);
    found.set(Math.floor(left) + " " + points.places[place], [left, points.places[place]]);
  }
  return [...found.values()];
}

// The points of a line that are seen, of each pixel's column the first, least, greatest and last, as [x, value].
function visible(points) {
  const first = Math.max(before(points.at, view.from) - 1, 0);
  const last = Math.min(before(points.at, view.to) + 1, points.at.length);
  const found = [];
  for (let place = first; place < last;) {
    const column = Math.floor(x(points.at[place]));
    let next = place, least = place, greatest = place;
    for (; next < last && Math.floor(x(points.at[next])) === column; next++) {
      if (points.places[next] < points.places[least]) least = next;
      if (points.places[next] > points.places[greatest]) greatest = next;
    }
    for (const one of new Set([place, Math.min(least, greatest), Math.max(least, greatest), next - 1])) {
      found.push([x(points.at[one]), points.places[one]]);
    }
    place = next;
  }
  return found;
}

function drawLine(points, y, paint, sort, dash) {
  const seen = sort === "text" ? visibleNames(points) : visible(points);
  if (sort !== "text") {
    pen.beginPath();
    seen.forEach(([left, value], place) => {
      if (place === 0) pen.moveTo(left, y(value)); else pen.lineTo(left, y(seen[place - 1][1]));
      pen.lineTo(left, y(value));
    });
    if (points.holds && seen.length) pen.lineTo(Math.max(x(whole[1]), seen[seen.length - 1][0]), y(seen[seen.length - 1][1]));
    stroke(paint, 1.5, dash);
  }
  if (sort === "text" || seen.length < (view.width - view.left) / 8) {
    pen.fillStyle = paint;
    pen.beginPath();
    for (const [left, value] of seen) {
      pen.moveTo(left, y(value));
      pen.arc(left, y(value), 2.5, 0, 7);
    }
    pen.fill();
  }
}

function drawLate(panel, y) {
  pen.beginPath();
  for (const [left, value] of visible(panel.late)) {
    for (const turn of [-1, 1]) {
      pen.moveTo(left - 4, y(value) - 4 * turn);
      pen.lineTo(left + 4, y(value) + 4 * turn);
    }
  }
  stroke(color("late"), 1.8);
}

function paintOf(panel, place) {
  return panel.lines.length > 1 ? PALETTE[place % PALETTE.length] : color(panel.inputs ? "input" : "output");
}

// The value that a line has at the cursor: the last one at or before it.
function valueAt(points) {
  const place = view.cursor === null ? -1 : until(points.at, view.cursor) - 1;
  return place < 0 ? null : points.values[place];
}

// Where the names of several lines stand, in rows behind the title and below it, with room for their values.
function namePlaces(panel) {
  if (panel.lines.length < 2) return [];
  let row = 0, left = view.left + widthOf(panel.title, true) + 10;
  return panel.lines.map((points, place) => {
    const width = widthOf(nameOf(points, place) + " = " + points.widest);
    if (left > view.left && left + width > view.width - RIGHT) {
      row++;
      left = view.left;
    }
    const found = {left, row};
    left += width + 12;
    return found;
  });
}

function drawHeader(panel, top) {
  const left = view.left + label(panel.title, view.left, top, color("text"), "left", true) + 10;
  panel.namePlaces.forEach((stands, place) => {
    const value = valueAt(panel.lines[place]);
    const told = nameOf(panel.lines[place], place) + (value === null ? "" : " = " + valueText(panel, value));
    label(told, stands.left, top + stands.row * ROW, paintOf(panel, place));
  });
  if (panel.lines.length === 1) {
    const value = valueAt(panel.lines[0]);
    label(value === null ? panel.kind : valueText(panel, value), left, top, value === null ? color("faint") : paintOf(panel, 0));
  }
}

function headerOf(panel) {
  return HEADER + ROW * Math.max(0, ...panel.namePlaces.map(stands => stands.row));
}

function wholeHeightOf(panel) {
  return headerOf(panel) + heightOf(panel) + GAP;
}

function drawPanel(panel, above) {
  drawHeader(panel, above + HEADER / 2);
  const height = heightOf(panel);
  const top = above + headerOf(panel);
  const [low, high] = extent(panel);
  const edge = panel.sort === "number" ? 6 : height / (2 * Math.max(high - low + 1, 1));
  const y = value => top + height - edge - (value - low) / Math.max(high - low, 1e-9) * (height - 2 * edge);
  for (const [value, told] of valueTicks(panel, low, high)) {
    pen.beginPath();
    pen.moveTo(view.left, y(value));
    pen.lineTo(view.width - RIGHT, y(value));
    stroke(color("grid"));
    label(told, view.left - 6, y(value), color("faint"), "right");
  }
  pen.beginPath();
  pen.rect(view.left, top, view.width - view.left - RIGHT, height);
  stroke(color("frame"));
  pen.save();
  pen.clip();
  panel.lines.forEach((points, place) => drawLine(points, y, paintOf(panel, place), panel.sort, place < PALETTE.length ? [] : [5, 3]));
  drawLate(panel, y);
  pen.restore();
  if (isCoarse(panel)) {
    const place = panel.lines.length === 1 ? top - HEADER / 2 : top + height - 10;
    label("thinned: values are missing here", view.width - RIGHT - 6, place, color("alarm"), "right");
  }
}

function drawMarks(marks, top, paint) {
  label(cut(marks.title, 100), view.left, top + 8, color("text"));
  pen.beginPath();
  pen.moveTo(view.left, top + 24);
  pen.lineTo(view.width - RIGHT, top + 24);
  stroke(color("grid"));
  pen.fillStyle = paint;
  let last = -Infinity;
  for (let place = before(marks.at, view.from); place < marks.at.length && marks.at[place] <= view.to; place++) {
    const left = x(marks.at[place]);
    if (left - last < 0.5) continue;
    last = left;
    pen.fillRect(left - 1.5, top + 17, 3, 14);
  }
}

// Lines through all panels where triggers are true, unless they are many.
function drawAlarms(bottom) {
  const seen = data.triggers.flatMap(marks => marks.at.slice(before(marks.at, view.from), until(marks.at, view.to)));
  pen.globalAlpha = 0.35;
  for (const time of seen.length > FEW ? [] : seen) vertical(time, 0, bottom, color("alarm"));
  pen.globalAlpha = 1;
}

function allMarks() {
  return data.late.times.length ? [...data.triggers, data.late] : data.triggers;
}

function drawTime(top) {
  const {ticks, title} = timeTicks(Math.max(Math.floor((view.width - view.left) / (data.dates ? 90 : 80)), 2));
  for (const [time, told] of ticks) {
    vertical(Number(time), 0, top, color("grid"));
    label(told, x(Number(time)), top + 12, color("faint"), "center");
  }
  label(title, view.width - RIGHT, top + 29, color("faint"), "right");
}

function layOut() {
  view.width = canvas.clientWidth;
  const widths = data.panels.flatMap(panel => valueTicks(panel, ...extent(panel)).map(([, told]) => widthOf(told)));
  view.left = Math.max(30, ...widths) + 12;
  for (const panel of data.panels) panel.namePlaces = namePlaces(panel);
  view.height = FOOT + allMarks().length * TRIGGER + data.panels.reduce((sum, panel) => sum + wholeHeightOf(panel), 0);
  const ratio = window.devicePixelRatio || 1;
  canvas.style.height = view.height + "px";
  if (canvas.width !== Math.round(view.width * ratio) || canvas.height !== Math.round(view.height * ratio)) {
    canvas.width = Math.round(view.width * ratio);
    canvas.height = Math.round(view.height * ratio);
  }
  pen.setTransform(ratio, 0, 0, ratio, 0, 0);
  pen.clearRect(0, 0, view.width, view.height);
}

function draw() {
  layOut();
  const bottom = view.height - FOOT;
  drawTime(bottom);
  drawAlarms(bottom);
  let top = 0;
  for (const panel of data.panels) {
    drawPanel(panel, top);
    top += wholeHeightOf(panel);
  }
  for (const marks of allMarks()) {
    drawMarks(marks, top, color(marks === data.late ? "late" : "alarm"));
    top += TRIGGER;
  }
  if (data.fault) {
    vertical(Number(data.fault.time), 0, bottom, color("alarm"), [4, 3]);
    label("fault " + data.fault.told, x(Number(data.fault.time)) - 6, 12, color("alarm"), "right", true);
  }
  drawCursor(bottom);
}

function drawCursor(bottom) {
  if (view.drag && !view.drag.moves) {
    pen.globalAlpha = 0.15;
    pen.fillStyle = color("input");
    pen.fillRect(view.drag.first, 0, view.drag.last - view.drag.first, bottom);
    pen.globalAlpha = 1;
  }
  if (view.cursor !== null) vertical(view.cursor, 0, bottom, color("faint"));
  document.getElementById("reading").textContent = reading();
}

// The time at the cursor, and the triggers that are true then.
function reading() {
  if (view.cursor === null) return "";
  const told = [exact(view.exact)];
  for (const marks of allMarks()) {
    const place = marks.at.indexOf(view.cursor);
    if (place >= 0) told.push(marks.title + (marks.counts[place] > 1 ? " (" + marks.counts[place] + " times near here)" : ""));
  }
  return told.join("   ");
}
