// Sentences on a page, each in a place of its own, with the buttons that help. A screen reader reads each once: the text of a live region changes only
// where the sentence does.

/** Shows a sentence in an element, or nothing where it is empty. `buttons`: pairs of a label and a function. `isBad`: it ends the showing. */
export function notice(place, sentence, buttons = [], isBad = true) {
  const key = JSON.stringify([sentence, buttons.map(([label]) => label)]);
  if (place.dataset.key === key) return;
  place.dataset.key = key;
  place.hidden = !sentence;
  place.className = isBad ? 'notice bad' : 'notice';
  const text = document.createElement('p');
  text.textContent = sentence;
  place.replaceChildren(text, ...buttons.map(([label, does]) => {
    const button = document.createElement('button');
    button.type = 'button';
    button.textContent = label;
    button.addEventListener('click', does);
    return button;
  }));
}
