// What the page asks the server, and what the server tells it.

export class Refused extends Error {}

export async function ask(what, given = {}) {
  const request = {method: 'POST', headers: {'Content-Type': 'application/json'}, body: JSON.stringify({what, ...given})};
  let answer;
  try {
    answer = await fetch('do', request);
  } catch {
    throw new Refused('the server does not answer: is `tools/page` still running?');
  }
  const told = await answer.json();
  if (!answer.ok) throw new Refused(told.error);
  return told;
}

// Calls `told` with each message, and `lost` with whether the server is gone for good while there is no line to it.
export function listen(told, lost) {
  const events = new EventSource('events?after=0');
  events.onmessage = (event) => told(JSON.parse(event.data));
  events.onerror = () => lost(events.readyState === EventSource.CLOSED);
}
