// Signing in by a code: the shop gives an account for it once. No address ever has a password.

const LONGEST = 64, PATIENCE = 10_000;
const WORDS = {
  404: "This code was used, is older than ten minutes, or was never given. Ask for another one.",
  other: "The shop's web server takes no codes now. Sign in by number and password.",
  away: "The shop can't be reached. Try again. If the code was used up meanwhile, ask for another one.",
  shop: "This code is of another shop, and is used up now. Ask for another one.",
};

/** What the fragment of an address gives: {till, code}, each a text or null. A password there is nothing that this page takes. */
export function codeIn(fragment) {
  const given = new URLSearchParams(fragment.replace(/^#/, ""));
  return { till: given.get("till"), code: given.get("code") };
}

/** Whether this is an account of the shop: a number from 1 to 64 and a password. */
function isAccount({ till, password }) {
  return Number.isInteger(till) && till >= 1 && till <= 64 && typeof password === "string" && password !== "";
}

/** The account {till, password} that a code gives, which uses it up. Throws an Error that says why it gives none. */
export async function accountOf(code, shop, get = fetch) {
  const text = code.trim();
  if (text === "" || text.length > LONGEST) throw new Error(WORDS[404]);
  let answer, known = {};
  try {
    answer = await get("/sign_in", { method: "POST", body: text, signal: AbortSignal.timeout(PATIENCE), cache: "no-store" });
  } catch {
    throw new Error(WORDS.away);
  }
  try {
    known = (await answer.json()) ?? {};
  } catch {
    // a web server's own page
  }
  if (answer.ok && isAccount(known)) {
    if (known.shop !== shop) throw new Error(WORDS.shop);
    return { till: known.till, password: known.password };
  }
  throw new Error(answer.status === 404 && known.fault ? WORDS[404] : WORDS.other);
}
