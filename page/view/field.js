// A small field for one word, at the place in the page that it is about.

/** Asks for a word beside an element. `onWord` gets what was typed; Escape and a click elsewhere give nothing. */
export function askFor(element, label, before, onWord) {
  const form = document.createElement("form");
  form.className = "field";
  const input = document.createElement("input");
  input.value = before;
  input.setAttribute("aria-label", label);
  form.append(`${label} `, input);
  const box = element.getBoundingClientRect();
  form.style.left = `${Math.max(Math.min(box.left, window.innerWidth - 240), 4)}px`;
  form.style.top = `${Math.min(box.bottom + 4, window.innerHeight - 60)}px`;
  document.body.append(form);
  input.focus();
  input.select();
  // Taking the field away takes its focus, which would close it once more.
  let isOpen = true;
  const close = () => {
    if (!isOpen) return;
    isOpen = false;
    form.remove();
  };
  form.addEventListener("submit", (event) => {
    event.preventDefault();
    close();
    if (input.value !== before) onWord(input.value);
  });
  input.addEventListener("keydown", (event) => {
    event.stopPropagation();
    if (event.key === "Escape") close();
  });
  input.addEventListener("blur", close);
}
