// The script in the address: behind the `#`, which a browser sends nowhere. Back and forward lead from script to script.

/** A longer script stays out of the address, which some browsers and most other programs cut off. */
const MOST_LINK_CHARACTERS = 100000;
/** From here on a link may be too long for chats and mail. */
const LONG_LINK_CHARACTERS = 4000;

function partBehindHash(script, engine) {
  return new URLSearchParams({ script, engine }).toString();
}

/** What an address asks for: { script, engine }, each null where it says nothing of it, and whether it is for a frame. */
function wishInAddress() {
  const asked = new URLSearchParams(location.hash.slice(1));
  return { script: asked.get("script"), engine: asked.get("engine"), isFrame: asked.has("embed") };
}

/** The part of an address with this script, from the # on, or null where it would be too long. */
function partWith(script, engine, isFrame = wishInAddress().isFrame) {
  if (script.length > MOST_LINK_CHARACTERS) return null;
  const part = `#${isFrame ? "embed&" : ""}${partBehindHash(script, engine)}`;
  return part.length > MOST_LINK_CHARACTERS ? null : part;
}

/** The address of this page with a script in it, or null where it would be too long. */
function addressWith(script, engine, isFrame) {
  const part = partWith(script, engine, isFrame);
  return part && location.href.split("#")[0] + part;
}

/** The words by which another page shows this one in a frame, with field and picture alone. */
function frameWords(script, engine) {
  const address = addressWith(script, engine, true);
  return address && `<iframe src="${address.replaceAll("&", "&amp;")}" title="Flows to play with" width="900" height="420" loading="lazy"></iframe>`;
}

/** A script and its picture in characters, as Markdown. */
function markdownWords(script, picture, address) {
  const longest = Math.max(2, ...(script.match(/`+/g) ?? []).map((ticks) => ticks.length));
  const fence = "`".repeat(longest + 1);
  const block = (text) => `${fence}\n${text.replace(/\n?$/, "\n")}${fence}\n`;
  return `${block(script)}\n${block(picture)}${address ? `\n[Play with it](${address})\n` : ""}`;
}

/**
 * Keeps the script in the address, and in the browser's own memory of this page, which takes a long one too. A browser may
 * refuse many changes in a short time: then the next change keeps it.
 */
function keepInAddress(kept, isNewStep) {
  const address = location.href.split("#")[0] + (partWith(kept.script, kept.engine) ?? "");
  try {
    if (isNewStep) history.pushState(kept, "", address);
    else history.replaceState(kept, "", address);
  } catch (refusal) {
    console.warn(`The address doesn't follow the script: ${refusal}`);
  }
}

/** What to say of the link that was copied, or of the part of it. */
function linkNote(link) {
  const notes = [`The link is copied: ${link.length.toLocaleString("en")} characters.`];
  if (link.startsWith("#")) {
    notes[0] = `The part of the link from # on is copied: ${link.length.toLocaleString("en")} characters.`;
    notes.push("This page is a file: send that part with it, and whoever gets both opens the file and puts the part behind its address.");
  }
  if (link.length > LONG_LINK_CHARACTERS) notes.push("Some programs cut so long a link off.");
  return notes.join(" ");
}

/** Copies a text; what to say of it. */
async function copyText(text, done) {
  try {
    await navigator.clipboard.writeText(text);
    return `${done}: ${text.length.toLocaleString("en")} characters.`;
  } catch {
    return "This browser doesn't let the page copy.";
  }
}

/** Copies the link: of a page that is a file, only what leads to the script in it. */
async function copyLink(script, engine) {
  const part = partWith(script, engine, false);
  if (!part) return "The script is too long for a link. Send it as a text.";
  const link = location.protocol === "file:" ? part : location.href.split("#")[0] + part;
  try {
    await navigator.clipboard.writeText(link);
    return linkNote(link);
  } catch {
    return "This browser doesn't let the page copy. The link is what the address bar shows.";
  }
}

/** Hands a text to the reader as a file. */
function saveFile(name, type, text) {
  const address = URL.createObjectURL(new Blob([text], { type }));
  const link = document.createElement("a");
  link.href = address;
  link.download = name;
  link.click();
  setTimeout(() => URL.revokeObjectURL(address), 10000);
}
