// The sentence on a mark, beside the mark. A screen reader has it as the mark's label.

/** So far from a mark its sentence stands. */
const TIP_GAP = 4;

class Tip {
  /** An element in a frame, which is what it is placed in. */
  constructor(element, frame) {
    Object.assign(this, { element, frame, placeOf: undefined });
  }

  /** Shows a sentence beside a place of the window, which `placeOf` finds. */
  show(sentence, placeOf) {
    this.element.textContent = sentence;
    this.element.hidden = false;
    this.placeOf = placeOf;
    this.place();
  }

  /** Above the mark; below it where it would stand outside of the window there. */
  place() {
    const mark = this.placeOf();
    const frame = this.frame.getBoundingClientRect();
    const { offsetWidth, offsetHeight } = this.element;
    const above = mark.top - TIP_GAP - offsetHeight;
    const top = above >= 0 ? above : mark.bottom + TIP_GAP;
    const left = clamp((mark.left + mark.right - offsetWidth) / 2, frame.left, frame.right - offsetWidth);
    this.element.style.left = `${left - frame.left}px`;
    this.element.style.top = `${top - frame.top}px`;
  }

  hide() {
    this.element.hidden = true;
    this.placeOf = undefined;
  }

  /** After scrolling: it stays at its mark, as far as that is in the frame. */
  hideUnlessNear() {
    if (!this.placeOf) return;
    const mark = this.placeOf();
    const frame = this.frame.getBoundingClientRect();
    if (mark.right < frame.left || mark.left > frame.right || mark.bottom < frame.top || mark.top > frame.bottom) this.hide();
    else this.place();
  }
}
