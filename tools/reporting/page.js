
// The plots of a report, and the lives of its jobs. What comes from the history is put into the page as text alone.

const told = JSON.parse(document.getElementById("lives").textContent);
const [field, answer, life] = ["word", "answer", "life"].map((it) => document.getElementById(it));

function element(kind, ...content) {
  const made = document.createElement(kind);
  made.append(...content);
  return made;
}

function link(origin) {
  return Object.assign(element("a", origin), { href: "#job=" + origin });
}

function show(origin) {
  const job = Object.hasOwn(told.jobs, origin) ? told.jobs[origin] : null;
  field.value = origin;
  life.hidden = job === null;
  if (job === null) {
    answer.textContent = "No job of origin " + origin + " is on this page.";
    return;
  }
  const [payload, first, attempts] = job;
  answer.textContent = "Job " + origin + ", payload " + payload + ", first expiry " + first + ", " + attempts.length
    + (attempts.length === 1 ? " element" : " elements");
  life.tBodies[0].replaceChildren(...attempts.map((cells) => element("tr", ...cells.map((it) => element("td", it)))));
}

// Shows the one job of this origin or payload, or links to all.
function find(word) {
  const origins = Object.keys(told.jobs).filter((origin) => origin === word || told.jobs[origin][0] === word);
  if (origins.length === 1) {
    show(origins[0]);
    return;
  }
  life.hidden = true;
  answer.replaceChildren(...origins.length === 0 ? ["No job of origin or payload " + word + " is on this page."]
    : ["Jobs of origin or payload " + word + ":", ...origins.flatMap((it) => [" ", link(it)])]);
}

// The job that the address names, so that a link can show it.
function showNamed() {
  const named = /^#job=([0-9]+)$/.exec(location.hash);
  if (named !== null) {
    show(named[1]);
    document.getElementById("job").scrollIntoView();
  }
}

for (const [name, readings] of Object.entries(told.readings)) {
  new Readings(document.getElementById("plot-" + name), readings);
}
document.getElementById("ask").addEventListener("submit", (event) => {
  event.preventDefault();
  find(field.value.trim());
});
addEventListener("hashchange", showNamed);
showNamed();
