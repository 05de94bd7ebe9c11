// What is looked at in the browser on a page: each arrow starts and ends at the marks of its events within a pixel, each mark stands where its time has it
// on the scale, and no text of the answer overlaps another one or leaves the page. It gives what is wrong, and how much was looked at.
(() => {
  const wrong = [];
  const near = (a, b) => Math.abs(a - b) <= 1;
  const shown = (element) => element.getClientRects().length > 0;
  const diagrams = [...document.querySelectorAll("svg.diagram")].filter(shown);
  let arrows = 0;
  let marks = 0;

  function lookAtArrows(svg) {
    const at = svg.getScreenCTM();
    const x = (value) => at.a * value + at.e;
    const y = (value) => at.d * value + at.f;
    const of = (kind, event) => [...svg.querySelectorAll(kind)].find((element) => element.dataset.event === event);
    for (const arrow of svg.querySelectorAll("g[data-from]")) {
      arrows++;
      const line = arrow.querySelector("line");
      for (const [event, end] of [[arrow.dataset.from, "x1"], [arrow.dataset.to, "x2"]]) {
        const [mark, leader] = [of("circle.mark", event), of("path.leader", event)];
        if (!mark || !leader) {
          wrong.push(`an arrow of ${event} has no mark`);
          continue;
        }
        const box = mark.getBoundingClientRect();
        const [markX, markY] = [(box.left + box.right) / 2, (box.top + box.bottom) / 2];
        const [first, last] = [leader.getPointAtLength(0), leader.getPointAtLength(leader.getTotalLength())];
        if (!near(x(line[end].baseVal.value), markX)) wrong.push(`an arrow of ${event} is beside its mark`);
        if (!near(x(first.x), markX) || !near(y(first.y), markY) || !near(x(last.x), markX)) wrong.push(`a line down from ${event} is beside its mark`);
        if (y(last.y) + 1 < y(line.y1.baseVal.value)) wrong.push(`a line down from ${event} does not come to its arrow`);
      }
    }
  }

  function lookAtScale(svg) {
    const ticks = [...svg.querySelectorAll("text.scale")].map((text) => [Number(text.dataset.ps), Number(text.getAttribute("x"))]);
    const [low, high] = [ticks[0], ticks[ticks.length - 1]];
    if (ticks.length < 2) wrong.push("a scale has less than two numbers");
    for (const mark of ticks.length < 2 ? [] : svg.querySelectorAll("circle.mark")) {
      marks++;
      const wanted = low[1] + ((Number(mark.dataset.ps) - low[0]) * (high[1] - low[1])) / (high[0] - low[0]);
      if (!near(wanted, mark.cx.baseVal.value)) wrong.push(`${mark.dataset.event} is not to scale`);
    }
  }

  /** The boxes of all texts of the answer. */
  function boxesOfTexts() {
    const boxes = [];
    const walker = document.createTreeWalker(document.querySelector(".output") || document.body, NodeFilter.SHOW_TEXT);
    for (let node = walker.nextNode(); node; node = walker.nextNode()) {
      const head = node.parentElement.closest("thead");
      if (!node.data.trim() || node.parentElement.closest("title, desc, script, style, defs, .table-box, pre, select, .drawing")) continue;
      const fold = node.parentElement.closest("details:not([open])");
      if (fold && !node.parentElement.closest("summary")) continue;
      // At a small width the sentence is at the lower edge of the window, over what is scrolled there.
      const sentence = node.parentElement.closest("#sentence");
      if (sentence && getComputedStyle(sentence).position === "fixed") continue;
      // At a small width the head of the table is for screen readers alone.
      if (head && getComputedStyle(head).position === "absolute") continue;
      const range = document.createRange();
      range.selectNodeContents(node);
      const inside = node.parentElement.closest("svg text");
      for (const box of inside ? [inside.getBoundingClientRect()] : range.getClientRects()) {
        if (box.width > 0) boxes.push({ left: box.left + 1, right: box.right - 1, top: box.top + 2, bottom: box.bottom - 2, text: node.data.trim(), inside });
      }
    }
    return boxes.sort((a, b) => a.top - b.top);
  }

  for (const svg of diagrams) {
    lookAtArrows(svg);
    lookAtScale(svg);
  }
  const boxes = boxesOfTexts();
  for (const box of boxes) if (box.left < 0 || box.right > innerWidth) wrong.push(`"${box.text}" leaves the page`);
  for (let i = 0; i < boxes.length; i++) {
    for (let k = i + 1; k < boxes.length && boxes[k].top < boxes[i].bottom; k++) {
      if (boxes[i].inside && boxes[i].inside === boxes[k].inside) continue;
      if (boxes[i].left < boxes[k].right && boxes[k].left < boxes[i].right) wrong.push(`"${boxes[i].text}" and "${boxes[k].text}" overlap`);
    }
  }
  if (document.documentElement.scrollWidth > innerWidth) wrong.push("the page is wider than the window");
  return { wrong, diagrams: diagrams.length, arrows, marks, texts: boxes.length };
})();
