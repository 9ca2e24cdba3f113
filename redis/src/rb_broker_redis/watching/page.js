// Asks every two seconds for this page, and shows the parts that have changed, so that whoever reads or selects is not
// disturbed. Where nobody answers, what was shown stays, and is told to be old.

const EVERY = 2000, PATIENCE = 10000; // milliseconds

async function look() {
  try {
    const answer = await fetch("", { signal: AbortSignal.timeout(PATIENCE) });
    const page = new DOMParser().parseFromString(await answer.text(), "text/html");
    for (const part of page.querySelectorAll("main > section")) {
      const shown = document.getElementById(part.id);
      if (!shown.isEqualNode(part)) {
        if (shown.className !== part.className) {
          shown.className = part.className;
        }
        shown.replaceChildren(...part.childNodes); // the part itself stays, or what is new in it would not be read out
      }
    }
    document.title = page.title;
    document.body.className = "";
  } catch {
    if (document.body.className === "") {
      document.body.className = "old";
      document.title = `no answer: ${document.title}`;
      document.querySelector("#state p").prepend("no answer; this was seen last: ");
    }
  }
  setTimeout(look, EVERY);
}

setTimeout(look, EVERY);
