// A picture as a PNG. The page may show no image but those that are in it, so the picture goes into an address of its own.

/** How many times as large as it is drawn, and at most so many pixels in one direction, and in all. */
const PNG_SCALE = 2;
const MOST_PNG_PIXELS = 16000;
const MOST_PNG_AREA = 1 << 27;

/** How many times a picture of this size is enlarged. */
function pngScale(width, height) {
  return Math.min(PNG_SCALE, MOST_PNG_PIXELS / width, MOST_PNG_PIXELS / height, Math.sqrt(MOST_PNG_AREA / (width * height)));
}

/** The PNG of an SVG, as a blob. */
async function pngOf(svg) {
  const image = new Image();
  image.src = `data:image/svg+xml;charset=utf-8,${encodeURIComponent(svg)}`;
  await image.decode();
  const scale = pngScale(image.width, image.height);
  const canvas = document.createElement("canvas");
  Object.assign(canvas, { width: Math.ceil(image.width * scale), height: Math.ceil(image.height * scale) });
  const context = canvas.getContext("2d");
  context.fillStyle = "#fff";
  context.fillRect(0, 0, canvas.width, canvas.height);
  context.drawImage(image, 0, 0, canvas.width, canvas.height);
  return new Promise((settle) => canvas.toBlob(settle, "image/png"));
}

/** Saves a picture as a PNG; what to say of it. */
async function savePng(svg, name) {
  try {
    const blob = await pngOf(svg);
    saveFile(`${name}.png`, "image/png", blob);
    return `The picture is saved as a PNG of ${blob.size.toLocaleString("en")} bytes.`;
  } catch {
    return "This browser made no PNG of the picture. Save it as an SVG.";
  }
}
