// A field that finds goods as somebody types: the combobox of the ARIA Authoring Practices, with a list below it.

export class Chooser {
  constructor(field, list) {
    Object.assign(this, { field, list, search: null, at: -1 });
    field.addEventListener("input", () => this.show());
    field.addEventListener("click", () => this.show());
    field.addEventListener("keydown", (event) => this.key(event));
    field.addEventListener("blur", () => this.close());
    // not `click`: the field would lose the focus, and with it the list, before
    list.addEventListener("pointerdown", (event) => {
      const option = event.target.closest("[role=option]");
      event.preventDefault();
      if (option) this.take(option);
    });
  }

  show() {
    const found = this.search ? this.search.find(this.field.value) : [];
    this.list.replaceChildren(...found.map((one, index) => this.option(one, index)));
    this.at = -1;
    this.mark();
    this.open(found.length > 0);
  }

  option(one, index) {
    const option = document.createElement("li"), name = document.createElement("span"), more = document.createElement("span");
    option.id = `${this.list.id}-${index}`;
    option.setAttribute("role", "option");
    option.dataset.text = `${one.name} (${one.item})`;
    name.textContent = one.name;
    more.textContent = one.unit ? `${one.item}, ${one.unit}` : String(one.item);
    option.append(name, more);
    return option;
  }

  open(isOpen) {
    this.list.hidden = !isOpen;
    this.field.setAttribute("aria-expanded", String(isOpen));
  }

  close() {
    this.open(false);
    this.field.removeAttribute("aria-activedescendant");
  }

  mark() {
    const options = [...this.list.children];
    options.forEach((option, index) => option.setAttribute("aria-selected", String(index === this.at)));
    if (this.at < 0) return this.field.removeAttribute("aria-activedescendant");
    this.field.setAttribute("aria-activedescendant", options[this.at].id);
    options[this.at].scrollIntoView({ block: "nearest" });
  }

  take(option) {
    this.field.value = option.dataset.text;
    this.close();
    this.field.dispatchEvent(new Event("change", { bubbles: true }));
  }

  key(event) {
    const count = this.list.children.length, isOpen = !this.list.hidden;
    if (event.key === "ArrowDown" || event.key === "ArrowUp") {
      event.preventDefault();
      if (!isOpen) return this.show();
      this.at = (this.at + (event.key === "ArrowDown" ? 1 : count - (this.at < 0 ? 0 : 1)) + count) % count;
      this.mark();
    } else if (event.key === "Enter" && isOpen && this.at >= 0) {
      event.preventDefault();
      this.take(this.list.children[this.at]);
    } else if (event.key === "Escape" && isOpen) {
      event.preventDefault();
      this.close();
    }
  }

  /** The item that the field names, or null. */
  item() {
    const typed = this.field.value.trim();
    if (this.search) return this.search.item(typed);
    return /^[1-9][0-9]{0,4}$/.test(typed) && Number(typed) <= 65535 ? Number(typed) : null;
  }
}
