// The transcript: what was asked, said and refused, in the order in which it came. All of it is text, whatever it looks like.

const SHOWN = 2000;

export function element(name, text, attributes = {}) {
  const made = document.createElement(name);
  if (text !== undefined) made.textContent = text;
  for (const [key, value] of Object.entries(attributes)) made.setAttribute(key, value);
  return made;
}

// The lines of a text around a place, counted from 1 in it: before it, the character there, and behind it.
export function around(text, place) {
  const at = Math.min(Math.max(place - 1, 0), text.length);
  const from = text.lastIndexOf('\n', at - 1) + 1;
  const end = text.indexOf('\n', at);
  const to = end < 0 ? text.length : end;
  return [text.slice(from, at), text.slice(at, Math.max(at + 1, at)).replace('\n', ''), text.slice(at + 1, Math.max(to, at + 1))];
}

// The line of a text in which a place is, with a mark there.
export function marked(text, place) {
  const [before, there, behind] = around(text, place);
  const line = element('p', before, {class: 'refused'});
  line.append(element('mark', there || '‸'), behind);
  return line;
}

function elementsOf(entry) {
  const made = [element('p', entry.text || '\u00a0', {class: entry.kind})];
  if (entry.place) made.push(marked(entry.source, entry.place));
  return made;
}

// Adds entries below; the transcript goes along where its end was to be seen.
export function show(transcript, entries) {
  const isAtEnd = transcript.scrollHeight - transcript.scrollTop - transcript.clientHeight < 40;
  const added = document.createDocumentFragment();
  for (const entry of entries.slice(-SHOWN)) added.append(...elementsOf(entry));
  transcript.append(added);
  while (transcript.childElementCount > SHOWN) transcript.firstElementChild.remove();
  if (entries.length) transcript.dataset.last = entries.at(-1).n;
  if (isAtEnd) transcript.scrollTop = transcript.scrollHeight;
}
