// Unpacks the scripts of the page, and runs them. This is the only script that is in the page as it is written. It takes the text of the page before the page
// changes itself, and says what the page needs if the browser can't run it.

// The first browsers that have all that the page uses. The documents say the same, which tools/dev/test-release compares.
const BROWSERS = "Chrome 111, Firefox 119 or Safari 16.4";

/** Says that this browser can't run the program. */
function sayUnfit(error) {
  const starting = document.getElementById("starting");
  if (starting) starting.remove();
  const sentence = document.getElementById("sentence");
  sentence.className = "fail";
  sentence.textContent = `✗ This browser cannot run itv. It needs ${BROWSERS}, or a later version.`;
  document.getElementById("of").textContent = String(error);
}

/** The text that an element holds in gzip and base64. */
async function unpackedText(id) {
  const binary = atob(document.getElementById(id).textContent.trim());
  const bytes = Uint8Array.from(binary, (char) => char.charCodeAt(0));
  return new Response(new Blob([bytes]).stream().pipeThrough(new DecompressionStream("gzip"))).text();
}

async function run() {
  window.itvStart = { page: `<!DOCTYPE html>\n${document.documentElement.outerHTML}\n`, sayUnfit };
  const script = document.createElement("script");
  script.textContent = await unpackedText("scripts");
  document.head.append(script);
  script.remove();
}

run().catch(sayUnfit);
