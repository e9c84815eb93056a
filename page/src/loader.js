// Runs the page's script, which its file has packed: that is a third of its bytes. The content security policy has the hash of what is unpacked.

import { byId } from "./base/dom.js";
import { fromBase64 } from "./base/bytes.js";
import { inflated } from "./base/inflating.js";

async function runMain() {
  const script = document.createElement("script");
  script.textContent = new TextDecoder().decode(await inflated(fromBase64(byId("main").textContent), "deflate"));
  document.head.append(script);
}

runMain();
