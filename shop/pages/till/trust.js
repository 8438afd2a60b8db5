// The page that says how a device learns to trust the shop: where its authority is, and by what it is known.

/** The bytes of a certificate in PEM. */
export function bytesOf(text) {
  const found = /-----BEGIN CERTIFICATE-----([A-Za-z0-9+/=\s]+)-----END CERTIFICATE-----/.exec(text);
  if (!found) throw new Error("no certificate");
  return Uint8Array.from(atob(found[1].replace(/\s/g, "")), (one) => one.charCodeAt(0));
}

/** The fingerprint of a certificate in PEM, as openssl prints it. */
export async function printOf(text) {
  const digest = new Uint8Array(await crypto.subtle.digest("SHA-256", bytesOf(text)));
  return [...digest].map((byte) => byte.toString(16).padStart(2, "0").toUpperCase()).join(":");
}

async function main() {
  const plain = document.getElementById("plain"), place = `http://${location.hostname}/ca.crt`;
  plain.href = place;
  plain.textContent = place;
  document.getElementById("till").textContent = new URL("./", location.href).href;
  const answer = await fetch("/ca.crt");
  document.querySelector("#print code").textContent = await printOf(await answer.text());
}

if (globalThis.document) main().catch(() => {});
