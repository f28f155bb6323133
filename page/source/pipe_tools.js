// The buttons that change the marble that is chosen, for those who have no keys.

class PipeTools {
  /** A row of buttons, each of which has the name of a change. It tells `onChange` which one is asked for. */
  constructor(row, onChange) {
    Object.assign(this, { row, says: row.querySelector(".says") });
    this.hint = this.says.textContent;
    this.buttons = [...row.querySelectorAll("button")];
    for (const button of this.buttons) button.addEventListener("click", () => onChange(CHANGES[button.className]));
    this.show(undefined);
  }

  /** Names what is chosen, and lets those buttons be used that change it. */
  show(chosen) {
    this.says.textContent = chosen ? this.nameOf(chosen) : this.hint;
    for (const button of this.buttons) button.disabled = !chosen || !CHANGES[button.className](chosen.source, chosen.place);
    const isEnd = chosen?.source.isEnd(chosen.place);
    this.row.querySelector(".remove").textContent = isEnd ? "Finish" : "Delete";
    this.row.querySelector(".more").title = isEnd ? "It fails, by the next number" : "One more";
  }

  nameOf({ line, part, place, source }) {
    const where = `line ${line}${part === 0 ? "" : `, stage ${part}`}`;
    if (source.isEnd(place)) return `The end of ${where}: ${source.fault === null ? "finished" : `failed ${source.fault}`}`;
    return `Marble ${place + 1} of ${where}: ${source.written[place] === "p" ? "pending" : source.written[place]}`;
  }
}
