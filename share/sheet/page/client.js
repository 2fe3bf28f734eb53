// The server: requests with the token, and events. The token stands behind the # of the address, and goes nowhere else.

const token = location.hash.slice(1);
const headers = { Authorization: `Bearer ${token}` };
const REFUSED = { 401: "open the address that the terminal shows: it has the key of this sheet", 413: "this is larger than a request may be" };

export async function ask(path, asked) {
  const body = JSON.stringify(asked);
  const answer = await fetch(`/api/${path}`, { method: "POST", headers: { ...headers, "Content-Type": "application/json" }, body });
  if (!answer.ok) throw new Error(REFUSED[answer.status] ?? `${path}: ${answer.status} ${await answer.text()}`);
  return answer.json();
}

// Calls `heard` with each event until the signal ends it. An EventSource would send no token, so the stream is read here.
export async function listen(desk, signal, heard) {
  const answer = await fetch(`/api/events?desk=${desk}`, { headers, signal });
  if (!answer.ok) throw new Error(`events: ${answer.status}`);
  const reader = answer.body.pipeThrough(new TextDecoderStream()).getReader();
  for (let rest = ""; ; ) {
    const { value, done } = await reader.read();
    if (done) return;
    const events = (rest + value).split("\n\n");
    rest = events.pop();
    for (const event of events) if (event.startsWith("data: ")) heard(JSON.parse(event.slice(6)));
  }
}
