// Elements of the page, and tables that are sorted by a click.

"use strict";

// So many rows of a table are shown at first: a failure may change 60,000 routes.
const FIRST_ROWS = 200;

function byId(id) {
  return document.getElementById(id);
}

// An element with its properties and what is in it: elements, and texts, which are set as such.
function make(name, properties = {}, ...content) {
  const element = document.createElement(name);
  for (const [key, value] of Object.entries(properties)) {
    if (key in element) {
      element[key] = value;
    } else {
      element.setAttribute(key, value);
    }
  }
  element.append(...content.filter((part) => part !== null).map((part) => (part instanceof Node ? part : document.createTextNode(part))));
  return element;
}

function button(text, action, properties = {}) {
  const element = make("button", { type: "button", ...properties }, text);
  element.addEventListener("click", action);
  return element;
}

function counted(count, one, many = `${one}s`) {
  return `${count.toLocaleString("en")} ${count === 1 ? one : many}`;
}

// A table. Each column has a name, what it shows of a row, by what it is sorted, and whether it is of numbers; `order` is the column by which it is
// sorted and whether the greatest stands first, and stays so where the table is made again.
class Table {
  constructor(caption, columns, order) {
    Object.assign(this, { columns, order, rows: [], limit: FIRST_ROWS, isChosen: () => false });
    this.body = make("tbody");
    this.heads = columns.map(({ name, title = "" }, number) => make("th", { scope: "col" }, button(name, () => this.sortBy(number), { title })));
    this.more = make("p", { className: "more" });
    const table = make("table", {}, make("caption", {}, caption), make("thead", {}, make("tr", {}, ...this.heads)), this.body);
    this.element = make("div", { className: "table" }, table, this.more);
  }

  sortBy(number) {
    const isSame = this.order.column === number;
    this.order = { column: number, isDown: isSame ? !this.order.isDown : Boolean(this.columns[number].isNumber) };
    this.show(this.rows);
  }

  sorted() {
    const { key } = this.columns[this.order.column];
    const sign = this.order.isDown ? -1 : 1;
    const compared = (a, b) => (a < b ? -1 : a > b ? 1 : 0);
    return this.rows.map((row, place) => [row, key(row), place])
      .sort((a, b) => sign * compared(a[1], b[1]) || a[2] - b[2]).map(([row]) => row);
  }

  show(rows) {
    this.rows = rows;
    this.heads.forEach((head, number) => {
      const { column, isDown } = this.order;
      head.setAttribute("aria-sort", column !== number ? "none" : isDown ? "descending" : "ascending");
    });
    this.body.replaceChildren(...this.sorted().slice(0, this.limit).map((row) => this.rowElement(row)));
    this.more.hidden = rows.length <= this.limit;
    this.more.replaceChildren(`${FIRST_ROWS} of ${counted(rows.length, "row")}. `, button("Show all", () => {
      this.limit = Infinity;
      this.show(this.rows);
    }));
    return this.element;
  }

  rowElement(row) {
    const cells = this.columns.map((column, number) => {
      const shown = column.show(row);
      const className = [column.isNumber ? "figure" : "", column.look?.(row) ?? ""].join(" ").trim();
      return number ? make("td", { className }, shown) : make("th", { scope: "row", className }, shown);
    });
    const element = make("tr", {}, ...cells);
    if (this.isChosen(row)) {
      element.setAttribute("aria-selected", "true");
    }
    return element;
  }
}
