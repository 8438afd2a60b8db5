// The books of tills in the browser (IndexedDB). What is kept is on the disk, as far as the browser can bring it there, before
// a promise is fulfilled: a wish before it is sent, an answer before it is shown.

import { newMark } from "./marks.js";
import { bookOf, EMPTY, isSame } from "./queue.js";

const NAME = "ledger-till", VERSION = 1;

/** The value of a request of IndexedDB. */
function done(request) {
  return new Promise((fulfil, fail) => {
    request.onsuccess = () => fulfil(request.result);
    request.onerror = () => fail(request.error);
  });
}

/** The end of a transaction: fulfilled when it is complete. */
function complete(transaction) {
  return new Promise((fulfil, fail) => {
    transaction.oncomplete = () => fulfil();
    transaction.onabort = transaction.onerror = () => fail(transaction.error ?? new Error("the browser's store failed"));
  });
}

/** Another page has changed the book. */
export class Changed extends Error {}

/** The books of all tills of this browser. A till's place is `SHOP/TILL`. */
export class Books {
  static async open() {
    const request = indexedDB.open(NAME, VERSION);
    request.onupgradeneeded = () => {
      request.result.createObjectStore("books");
      request.result.createObjectStore("answers", { keyPath: ["place", "number"] });
      request.result.createObjectStore("signs");
    };
    const books = new Books();
    books.store = await done(request);
    // the browser isn't to throw the books away when it wants room; Firefox asks a person, for whom the page doesn't wait
    navigator.storage?.persist?.().catch(() => false);
    return books;
  }

  /** The book of a place; an empty one if there is none. */
  async book(place) {
    return bookOf(await done(this.store.transaction("books").objectStore("books").get(place)));
  }

  /** The last answers of a place, oldest first. */
  async answers(place, most) {
    const store = this.store.transaction("answers").objectStore("answers"), found = [];
    const cursor = store.openCursor(IDBKeyRange.bound([place, 0], [place, Infinity]), "prev");
    await new Promise((fulfil, fail) => {
      cursor.onerror = () => fail(cursor.error);
      cursor.onsuccess = () => {
        if (!cursor.result || found.length >= most) return fulfil();
        found.push(cursor.result.value);
        cursor.result.continue();
      };
    });
    return found.reverse();
  }

  /** The mark of this browser, which is made once. */
  async mark() {
    const transaction = this.store.transaction("signs", "readwrite", { durability: "strict" }), finished = complete(transaction);
    const signs = transaction.objectStore("signs"), request = signs.get("mark");
    let mark;
    request.onsuccess = () => {
      mark = request.result ?? newMark();
      signs.put(mark, "mark");
    };
    await finished;
    return mark;
  }

  /** Puts a book in the place of the one before, with an answer if there is one. Throws Changed, and keeps nothing, if the
   *  book there isn't the one before. */
  async keep(place, before, book, answer = null) {
    const transaction = this.store.transaction(["books", "answers"], "readwrite", { durability: "strict" });
    const finished = complete(transaction), books = transaction.objectStore("books"), request = books.get(place);
    let isUnchanged = true;
    request.onsuccess = () => {
      isUnchanged = isSame(request.result ?? EMPTY, before);
      if (!isUnchanged) return transaction.abort();
      books.put(book, place);
      // after an old backup a number comes again
      if (answer) transaction.objectStore("answers").put({ place, ...answer });
    };
    try {
      await finished;
    } catch (fault) {
      throw isUnchanged ? fault : new Changed("another page has changed this till's book");
    }
  }

  /** Keeps, or with null forgets, with which account this browser signs in. */
  async keepSign(sign) {
    const transaction = this.store.transaction("signs", "readwrite"), finished = complete(transaction);
    const signs = transaction.objectStore("signs");
    if (sign) signs.put(sign, "last");
    else signs.delete("last");
    return finished;
  }

  async sign() {
    return done(this.store.transaction("signs").objectStore("signs").get("last"));
  }
}

/** Holds a place as long as the page lives. False if another page of this browser has it. A page that is loaded anew may
 *  come before the one before it is gone: so it tries for some seconds. */
export async function hold(place, times = 6, pause = 400) {
  for (let left = times; left > 0; left--) {
    if (await held(place)) return true;
    await new Promise((fulfil) => { setTimeout(fulfil, pause); });
  }
  return false;
}

function held(place) {
  return new Promise((fulfil, fail) => {
    const took = (lock) => {
      fulfil(lock !== null);
      return lock === null ? undefined : new Promise(() => {});
    };
    navigator.locks.request(`ledger-till ${place}`, { ifAvailable: true }, took).catch(fail);
  });
}
