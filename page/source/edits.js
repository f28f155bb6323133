// What was changed of the script, step by step, so that it can be undone. A browser's own undoing knows nothing of what the page
// writes into the field, and takes back letter by letter what is typed beside it.

/** What is typed without a longer pause is one step. */
const STEP_MILLISECONDS = 1000;
/** So many steps are kept, and so many characters in all of them. */
const MOST_STEPS = 2000;
const MOST_STEP_CHARACTERS = 1 << 25;

/** How two texts differ: what was removed at a place, and what stands there now. */
function differenceOf(before, after) {
  const most = Math.min(before.length, after.length);
  let front = 0;
  while (front < most && before[front] === after[front]) front += 1;
  let back = 0;
  while (back < most - front && before[before.length - 1 - back] === after[after.length - 1 - back]) back += 1;
  return { at: front, removed: before.slice(front, before.length - back), inserted: after.slice(front, after.length - back) };
}

/** Two changes, one after the other, as one; nothing where they don't touch. */
function joinedChange(one, next) {
  const end = one.at + one.inserted.length;
  const nextEnd = next.at + next.removed.length;
  if (next.at > end || nextEnd < one.at) return undefined;
  const before = next.removed.slice(0, Math.max(0, one.at - next.at));
  const after = nextEnd > end ? next.removed.slice(next.removed.length - (nextEnd - end)) : "";
  const kept = [one.inserted.slice(0, Math.max(0, next.at - one.at)), one.inserted.slice(Math.max(0, nextEnd - one.at))];
  return { at: Math.min(one.at, next.at), removed: before + one.removed + after, inserted: kept[0] + next.inserted + kept[1] };
}

class Edits {
  constructor(text) {
    this.clear(text);
  }

  clear(text) {
    Object.assign(this, { text, steps: [], next: 0 });
  }

  /** Notes what a text became. Changes with the same `group` are one step while they touch, typed ones while there is no pause. */
  note(text, group) {
    const change = differenceOf(this.text, text);
    this.text = text;
    if (change.removed === "" && change.inserted === "") return;
    this.steps.length = this.next;
    const last = this.steps.at(-1);
    const isJoint = last && group !== undefined && last.group === group && (group !== TYPED || performance.now() - last.time < STEP_MILLISECONDS);
    const joint = isJoint ? joinedChange(last, change) : undefined;
    if (joint) this.steps.pop();
    const step = { ...(joint ?? change), group, time: performance.now() };
    if (step.removed !== step.inserted) this.steps.push(step);
    this.forgetFirst();
    this.next = this.steps.length;
  }

  /** The text before the last step, and where the caret belongs; nothing where there is no step. */
  undo() {
    if (this.next === 0) return undefined;
    this.next -= 1;
    const { at, removed, inserted } = this.steps[this.next];
    return this.put(at, inserted.length, removed);
  }

  redo() {
    if (this.next === this.steps.length) return undefined;
    const { at, removed, inserted } = this.steps[this.next];
    this.next += 1;
    return this.put(at, removed.length, inserted);
  }

  put(at, count, words) {
    // The next thing that is typed is a step of its own.
    if (this.next > 0) this.steps[this.next - 1].group = undefined;
    this.text = this.text.slice(0, at) + words + this.text.slice(at + count);
    return { text: this.text, caret: at + words.length };
  }

  forgetFirst() {
    const sizeOf = ({ removed, inserted }) => removed.length + inserted.length;
    let characters = this.steps.reduce((sum, step) => sum + sizeOf(step), 0);
    while (this.steps.length > 1 && (this.steps.length > MOST_STEPS || characters > MOST_STEP_CHARACTERS)) {
      characters -= sizeOf(this.steps.shift());
    }
  }
}

/** The group of what is typed. */
const TYPED = "typed";
