/* The strip of all units in time: one bar each, red where the unit aborted, with a mark above where it committed with a
   fault, and a second bar below for its cascade. */

const overview = byId("overview");

function drawOverview() {
  const styles = getComputedStyle(document.documentElement);
  const colour = (name) => styles.getPropertyValue(name).trim();
  const scale = window.devicePixelRatio || 1;
  const [width, height] = [overview.clientWidth, overview.clientHeight];
  overview.width = Math.max(1, width * scale);
  overview.height = Math.max(1, height * scale);
  const pen = overview.getContext("2d");
  pen.scale(scale, scale);
  const step = barStep(width);
  const bar = Math.max(1, step - (step > 3 ? 2 : 0));
  const colours = { calm: colour("--good"), cascade: colour("--accent"), bad: colour("--bad") };
  for (const isBad of [false, true]) drawBars(pen, step, bar, colours, isBad);
  pen.fillStyle = colour("--doubt");
  data.units.forEach((unit, at) => { if (faultsOfUnit(at) > 0) pen.fillRect(at * step, 0, Math.max(2, bar), 3); });
  if (tree.active !== NOWHERE) {
    pen.fillStyle = colour("--ink");
    pen.fillRect(unitOf[tree.active] * step, 31, Math.max(3, bar), 3);
  }
}

/* Where bars are narrower than a dot, the aborted ones come last, so that none is hidden. */
function drawBars(pen, step, bar, colours, isBad) {
  pen.globalAlpha = isBad ? 1 : 0.6;
  data.units.forEach(([, moment, [own, ...cascade]], at) => {
    if (isAborted(own) === isBad) {
      pen.fillStyle = isBad ? colours.bad : colours.calm;
      pen.fillRect(at * step, moment === null ? 4 : 10, bar, moment === null ? 18 : 12);
    }
    if (cascade.length > 0 && cascade.some(isAborted) === isBad) {
      pen.fillStyle = isBad ? colours.bad : colours.cascade;
      pen.fillRect(at * step, 25, bar, 4);
    }
  });
  pen.globalAlpha = 1;
}

const barStep = (width) => Math.min(14, width / Math.max(1, data.units.length));

overview.addEventListener("click", (event) => {
  const at = Math.floor(event.offsetX / barStep(overview.clientWidth));
  if (at < data.units.length) choose(data.units[at][2][0], true);
});
overview.addEventListener("mousemove", (event) => {
  const at = Math.floor(event.offsetX / barStep(overview.clientWidth));
  overview.title = at < data.units.length ? lineOf(data.units[at][2][0]) : "";
});
