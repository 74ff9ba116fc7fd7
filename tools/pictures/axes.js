"use strict";
// Draws the picture of a run on a canvas. Times are whole nanoseconds behind data.start; where they or a value do not fit
// a number of JavaScript they are texts. Numbers serve for places on the canvas, and what is read is exact.

const data = JSON.parse(document.getElementById("data").textContent);
const canvas = document.getElementById("picture");
const pen = canvas.getContext("2d");
const SECOND = 1000000000n, MINUTE = 60n * SECOND, HOUR = 60n * MINUTE, DAY = 24n * HOUR;
const UNITS = [["d", DAY, 3n * DAY], ["h", HOUR, 3n * HOUR], ["min", MINUTE, 10n * MINUTE], ["s", SECOND, 0n]];
const CLOCK = [1n, 2n, 5n, 10n, 15n, 30n].map(n => n * SECOND).concat([1n, 2n, 5n, 10n, 15n, 30n].map(n => n * MINUTE),
  [1n, 2n, 3n, 6n, 12n].map(n => n * HOUR));
const PALETTE = ["#0072b2", "#d55e00", "#009e73", "#cc79a7", "#e69f00", "#56b4e9", "#7f7f7f", "#8c564b", "#b59a00",
  "#9467bd", "#17a2b8", "#c23b22"];
const HEADER = 22, ROW = 16, NUMBER = 92, TRUTH = 36, NAME = 18, GAP = 10, TRIGGER = 34, FOOT = 40, RIGHT = 14, MARGIN = 7;
const FEW = 60;  // so many triggers that are seen have a line through all panels
const SEVERAL = 6;  // an axis of more lines is twice as high
const COARSE = 4;  // pixels that a stretch of a thinned line may take before it is told
const MARK = 3;  // so many pixels nearer a mark is taken to be
const MANY_ZEROS = 7;
const NEAR = 12;  // pixels within which the cursor goes to a moment that the data has
const start = BigInt(data.start);
const whole = [Number(data.range[0]), Number(data.range[1])];
const view = {from: whole[0], to: whole[1], cursor: null, drag: null, left: 60, width: 0, height: 0};
const styles = {};

function color(name) {
  return styles[name] ||= getComputedStyle(document.documentElement).getPropertyValue("--" + name).trim();
}

// Texts

function seconds(time) {
  const size = time < 0n ? -time : time;
  return (time < 0n ? "-" : "") + size / SECOND + "." + String(size % SECOND).padStart(9, "0");
}

function date(time) {
  return new Date(Number(time / 1000000n)).toISOString();
}

function exact(time) {
  const told = seconds(BigInt(time) + start);
  return data.dates ? told + "  " + date(BigInt(time) + start).replace("T", " ").slice(0, 19) + " UTC" : told;
}

function valueText(panel, value) {
  if (panel.sort === "truth") return value ? "true" : "false";
  return panel.sort === "text" ? JSON.stringify(panel.names[value]) : String(value);
}

// Ticks

function roundStep(least) {
  let power = 1n;
  while (power * 10n <= least) power *= 10n;
  return [1n, 2n, 5n, 10n].map(digit => digit * power).find(step => step >= least);
}

function unitStep(least, unit) {
  if (unit === SECOND) return roundStep(least);
  const parts = [100n, 50n, 20n, 10n, 5n, 2n].map(count => unit / count);
  return parts.find(part => part >= least) || unit * roundStep((least + unit - 1n) / unit);
}

function multiples(low, high, step) {
  let place = low / step * step;
  while (place < low) place += step;
  const found = [];
  for (; place <= high; place += step) found.push(place);
  return found;
}

function decimal(number, unit, step) {
  let decimals = 0;
  while (step * 10n ** BigInt(decimals) % unit !== 0n) decimals++;
  const size = number < 0n ? -number : number;
  const rest = decimals ? "." + String(size % unit * 10n ** BigInt(decimals) / unit).padStart(decimals, "0") : "";
  return (number < 0n ? "-" : "") + size / unit + rest;
}

function clock(time, step) {
  const told = date(time);
  if (step >= DAY) return told.slice(5, 10);
  if (step >= MINUTE) return told.slice(11, 16);
  return told.slice(11, 19) + (step < SECOND ? decimal(time % SECOND, SECOND, step).slice(1) : "");
}

// Ticks of the time that is seen, and what stands below the axis.
function timeTicks(most) {
  const low = BigInt(Math.ceil(view.from)) + start, high = BigInt(Math.floor(view.to)) + start;
  const span = high > low ? high - low : 1n;
  const least = (span + BigInt(most) - 1n) / BigInt(most) || 1n;
  if (data.dates) {
    const step = least <= SECOND / 2n ? roundStep(least)
      : CLOCK.find(step => step >= least) || DAY * roundStep((least + DAY - 1n) / DAY);
    const days = [...new Set([date(low).slice(0, 10), date(high).slice(0, 10)])];
    return {ticks: multiples(low, high, step).map(time => [time - start, clock(time, step)]), title: days.join(" to ") + ", UTC"};
  }
  const [name, unit] = UNITS.find(([, , atLeast]) => span >= atLeast);
  const step = unitStep(least, unit);
  return {ticks: multiples(low, high, step).map(time => [time - start, decimal(time, unit, step)]), title: "time in " + name};
}

// A number, with an exponent in the place of many zeros: 1.5e19.
function short(number) {
  const [told, head, rest, zeros] = /^(-?\d)(\d*?)(0*)$/.exec(String(number));
  return zeros.length < MANY_ZEROS ? told : head + (rest && "." + rest) + "e" + (rest.length + zeros.length);
}

// Places

const room = () => view.width - view.left - RIGHT - 2 * MARGIN;
const x = time => view.left + MARGIN + (time - view.from) / (view.to - view.from) * room();
const timeAt = place => view.from + (place - view.left - MARGIN) / room() * (view.to - view.from);

// The number of times that are before a moment.
function before(times, moment) {
  let low = 0, high = times.length;
  while (low < high) {
    const middle = (low + high) >> 1;
    if (times[middle] < moment) low = middle + 1; else high = middle;
  }
  return low;
}

// The number of times that are at a moment or before it.
function until(times, moment) {
  let low = before(times, moment);
  while (low < times.length && times[low] === moment) low++;
  return low;
}

function prepare(points) {
  points.at = points.times.map(Number);
  points.places = points.values.map(Number);
}

// The longest text that the value of a line may have beside its name.
function widest(panel, points) {
  let found = "";
  for (const value of points.values) {
    const told = valueText(panel, value);
    if (told.length > found.length) found = told;
  }
  return found;
}

// What the lines of a panel are called; those behind the colours are dashed.
function nameOf(points, place) {
  return (place < PALETTE.length ? "" : "-- ") + cut(points.name, 32);
}

// Whether so little time is seen that what is left out of thinned lines would be seen.
function isCoarse(panel) {
  return panel.lines.some(points => Number(points.stretch) / (view.to - view.from) * room() > COARSE);
}

// The least and the greatest value of a panel that is seen, those that are held included.
function extent(panel) {
  if (panel.sort === "truth") return [0, 1];
  if (panel.sort === "text") return [0, Math.max(panel.names.length - 1, 0)];
  let low = Infinity, high = -Infinity;
  for (const points of [...panel.lines, panel.late]) {
    const first = Math.max(before(points.at, view.from) - (points === panel.late ? 0 : 1), 0);
    for (let place = first; place < points.at.length && points.at[place] <= view.to; place++) {
      low = Math.min(low, points.places[place]);
      high = Math.max(high, points.places[place]);
    }
  }
  return low > high ? [0, 1] : low === high ? [low - 1, high + 1] : [low, high];
}

function heightOf(panel) {
  if (panel.sort === "number") return panel.lines.length > SEVERAL ? 2 * NUMBER : NUMBER;
  return panel.sort === "truth" ? TRUTH : Math.max(panel.names.length * NAME, TRUTH);
}

function valueTicks(panel, low, high) {
  if (panel.sort === "truth") return [[0, "false"], [1, "true"]];
  if (panel.sort === "text") return panel.names.map((name, place) => [place, cut(name, 16)]);
  const bottom = BigInt(Math.ceil(low)), top = BigInt(Math.floor(high));
  const step = most => roundStep((top - bottom + most - 1n) / most || 1n);
  const few = multiples(bottom, top, step(4n));
  return (few.length < 2 ? multiples(bottom, top, step(8n)) : few).map(place => [Number(place), short(place)]);
}

function cut(text, most) {
  const signs = Array.from(text);
  return signs.length > most ? signs.slice(0, most - 1).join("") + "…" : text;
}
