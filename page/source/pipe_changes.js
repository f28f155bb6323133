// What keys and buttons do to the source of a pipe.

/** Digits that follow each other faster make one number. */
const DIGIT_MILLISECONDS = 1500;

/** What a key does to the marble that has the focus, or to the end. */
function pressPipeKey(event, shown) {
  const { view } = shown;
  if (event.key === "Escape") return view.leave();
  if (!view.chosen || event.ctrlKey || event.metaKey) return;
  const moves = event.altKey || event.shiftKey;
  const step = { ArrowLeft: -1, ArrowRight: 1 }[event.key];
  const use = step && !moves ? () => goToHandle(shown, step) : changeOfKey(event.key, moves, view);
  if (!use) return;
  event.preventDefault();
  if (step && !moves) use();
  else view.changeChosen(use);
}

function goToHandle({ handles, root }, step) {
  handles[handles.indexOf(root.activeElement) + step]?.focus({ preventScroll: true });
}

/** The change that a key asks for, as a function from a source and a place. */
function changeOfKey(key, moves, view) {
  const changes = {
    ArrowLeft: moves && CHANGES.earlier,
    ArrowRight: moves && CHANGES.later,
    ArrowUp: CHANGES.more,
    ArrowDown: CHANGES.less,
    Delete: CHANGES.remove,
    Backspace: CHANGES.remove,
    Insert: CHANGES.insert,
    Enter: CHANGES.insert,
    p: CHANGES.suspend,
  };
  if (/^\d$/.test(key)) return (source, place) => typeDigit(view, key, source, place);
  return Object.hasOwn(changes, key) ? changes[key] : undefined;
}

/** Each change: from a source and a place to the source anew, and the place that is chosen then; nothing where it can't be. */
const CHANGES = {
  earlier: (source, place) => {
    if (source.isEnd(place)) return place > 0 ? [source.cutTo(place - 1), place - 1] : undefined;
    return place > 0 ? [source.moved(place, place - 1), place - 1] : undefined;
  },
  later: (source, place) => (place + 1 < source.written.length ? [source.moved(place, place + 1), place + 1] : undefined),
  more: (source, place) => changedBy(source, place, 1),
  less: (source, place) => {
    if (source.isEnd(place) && (source.fault === null || BigInt(source.fault) === 0n)) return [source.changed(place, null), place];
    return changedBy(source, place, -1);
  },
  insert: (source, place) => {
    const at = source.isEnd(place) ? place : place + 1;
    return [source.inserted(at, source.wordFor(at)), at];
  },
  remove: (source, place) => (source.isEnd(place) ? [source.changed(place, null), place] : [source.without(place), place]),
  suspend: (source, place) => (source.isEnd(place) ? undefined : [source.changed(place, "p"), place]),
};

function changedBy(source, place, step) {
  const word = numberBeside(source.wordAt(place), step);
  return word === undefined ? undefined : [source.changed(place, word), place];
}

/** A digit follows the ones that were typed just before, or begins a number. */
function typeDigit(view, digit, source, place) {
  const now = performance.now();
  const isNext = view.typedAt !== undefined && now - view.typedAt < DIGIT_MILLISECONDS && view.typedPlace === place;
  const word = isNext ? String(BigInt(source.wordAt(place) ?? 0) * 10n + BigInt(digit)) : digit;
  if (BigInt(word) > MOST_NUMBER) return undefined;
  Object.assign(view, { typedAt: now, typedPlace: place });
  return [source.changed(place, word), place];
}
