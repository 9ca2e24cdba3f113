
// Tells what a plot shows at the pointer, or at the place to which the arrow keys led.

const SHARES = 1000;

function set(element, attributes) {
  Object.entries(attributes).forEach(([name, value]) => element.setAttribute(name, value));
}

class Readings {
  constructor(drawing, readings) {
    this.drawing = drawing;
    this.picture = drawing.firstElementChild;
    this.place = -1;
    this.box = drawing.appendChild(document.createElement("div"));
    this.box.className = "reading";
    this.cursor = this.picture.appendChild(document.createElementNS("http://www.w3.org/2000/svg", "line"));
    set(this.cursor, { class: "cursor", y1: 20, y2: this.picture.getAttribute("height") - 48 });
    set(drawing, { tabindex: 0, role: "slider", "aria-label": this.picture.getAttribute("aria-label"),
      "aria-valuemin": 1 });
    this.hide();
    this.renew(readings);
    for (const [kind, react] of Object.entries({ pointermove: this.point, pointerdown: this.point,
      pointerleave: this.hide, keydown: this.press, blur: this.hide })) {
      drawing.addEventListener(kind, (event) => react.call(this, event));
    }
  }

  point(event) {
    const { left, width } = this.picture.getBoundingClientRect();
    const share = (event.clientX - left) / width * SHARES;
    this.tell(this.readings.findLastIndex(([from]) => from <= share));
  }

  press(event) {
    const steps = { ArrowRight: 1, ArrowLeft: -1, Home: -this.readings.length, End: this.readings.length };
    if (Object.hasOwn(steps, event.key)) {
      event.preventDefault();
      this.tell(Math.min(Math.max(0, this.place + steps[event.key]), this.readings.length - 1));
    }
  }

  // Shows what is read at a place, if anything is.
  tell(place) {
    const [from, says] = this.readings[place] ?? [0, ""];
    if (says === "") {
      this.hide();
      return;
    }
    this.place = place;
    const until = place + 1 < this.readings.length ? this.readings[place + 1][0] : SHARES;
    const share = (from + until) / 2 / SHARES;
    set(this.cursor, { x1: 100 * share + "%", x2: 100 * share + "%", visibility: "visible" });
    this.box.textContent = says;
    this.box.className = share < 0.5 ? "reading right" : "reading";  // it covers nothing beside the cursor
    this.box.hidden = false;
    this.say(place);
  }

  // What is shown from now on, in a plot that is drawn again.
  renew(readings) {
    this.readings = readings;
    set(this.drawing, { "aria-valuemax": readings.length });
    if (this.box.hidden) {
      this.say(readings.length - 1);
    } else {
      this.tell(Math.min(this.place, readings.length - 1));
    }
  }

  // Tells a screen reader the value.
  say(place) {
    const says = this.readings[place]?.[1] ?? "";
    set(this.drawing, { "aria-valuenow": place + 1, "aria-valuetext": says.replaceAll("\n", ", ") });
  }

  hide() {
    this.box.hidden = true;
    set(this.cursor, { visibility: "hidden" });
  }
}
