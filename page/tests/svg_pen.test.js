// The pen that writes SVG.
import assert from "node:assert";
import { test } from "node:test";
import { SvgPen, escaped } from "../src/share/svg_pen.js";

function penOf() {
  return new SvgPen((font, text) => text.length * 6);
}

test("a text is a text, and nothing in it is markup", () => {
  const pen = penOf();
  pen.font = "bold 11px system-ui, 'DejaVu Sans', sans-serif";
  pen.textAlign = "right";
  pen.fillStyle = "#123456";
  pen.translate(10, -4);
  pen.fillText('<script>alert("x & y")</script>', 1.234, 20);
  pen.fillText("narrow", 0, 0, 12);
  const made = pen.document(200, 100, "a < b", "#fff");
  const font = `font-family="system-ui, 'DejaVu Sans', sans-serif" font-size="11" font-weight="bold"`;
  assert.ok(made.includes(`x="11.23" y="16" fill="#123456" ${font} text-anchor="end"`), made);
  assert.ok(made.includes("&lt;script&gt;alert(&quot;x &amp; y&quot;)&lt;/script&gt;"), made);
  assert.ok(!made.includes("<script"), made);
  assert.ok(made.includes('textLength="12" lengthAdjust="spacingAndGlyphs"'), made);
  assert.ok(made.includes('viewBox="0 0 200 100" role="img"><title>a &lt; b</title>'), made);
});

test("what XML can't write is the sign for that", () => {
  assert.strictEqual(escaped("a\u0000b\u001fc\ud800d\uffffe👩‍🚀\tf\u001b"), "a\ufffdb\ufffdc\ufffdd\ufffde👩‍🚀\tf\ufffd");
});

test("shapes have their colours, lines their dashes, and boxes without a size are left out", () => {
  const pen = penOf();
  pen.fillStyle = "#a00";
  pen.globalAlpha = 0.3;
  pen.fillRect(1, 2, 3, 4);
  pen.fillRect(1, 2, 0, 4);
  pen.globalAlpha = 1;
  pen.strokeStyle = "#0b0";
  pen.lineWidth = 1.5;
  pen.setLineDash([3, 2]);
  pen.beginPath();
  pen.moveTo(0, 0);
  pen.lineTo(5, 5.005);
  pen.stroke();
  pen.beginPath();
  pen.arc(10, 10, 4, 0, 2 * Math.PI);
  pen.fill();
  assert.deepStrictEqual(pen.parts, [
    '<rect x="1" y="2" width="3" height="4" fill="#a00" opacity="0.3"/>',
    '<path d="M0 0L5 5.01" fill="none" stroke="#0b0" stroke-width="1.5" stroke-dasharray="3 2"/>',
    '<path d="M6 10A4 4 0 0 1 14 10A4 4 0 0 1 6 10Z" fill="#a00"/>',
  ]);
});

test("what is clipped ends where the state is restored, also within another", () => {
  const pen = penOf();
  pen.save();
  pen.beginPath();
  pen.rect(0, 0, 10, 10);
  pen.clip();
  pen.save();
  pen.translate(3, 3);
  pen.beginPath();
  pen.rect(0, 0, 1, 1);
  pen.clip();
  pen.clip();
  pen.restore();
  pen.fillRect(0, 0, 1, 1);
  pen.restore();
  assert.strictEqual(pen.parts.join(""), '<g clip-path="url(#clip0)"><g clip-path="url(#clip1)"><g clip-path="url(#clip2)"></g></g>' +
    '<rect x="0" y="0" width="1" height="1" fill="#000"/></g>');
  assert.strictEqual(pen.definitions[1], '<clipPath id="clip1"><path d="M3 3h1v1h-1Z"/></clipPath>');
});
