"use strict";
// What is seen of the picture: all of it, or a part that the wheel, two fingers, buttons or keys
// choose, and that is dragged. It reads and writes the picture's viewBox alone.

const MOST_ZOOM = 40;
const NEAREST = 8; // to what is near each other
const STEP = 1.5; // of a button or a key
const WHEEL = 0.0015;
const DRAGGED = 4; // pixels, from which on a pointer that is down drags
const AROUND = 0.15; // of a part, which is shown on each of its sides
const NAMED = 80; // nodes, of which no more are named at once; picture.py has the same

const within = (least, value, most) => Math.max(least, Math.min(value, most));

class View {
  // `changed` is called after each change.
  constructor(picture, changed) {
    const { x, y, width, height } = picture.viewBox.baseVal;
    Object.assign(this, { picture, changed, whole: { x, y, width, height } });
    this.part = this.whole;
    this.pointers = new Map(); // where each pointer that is down is on the screen
    this.isDragged = false; // since a pointer went down
    picture.addEventListener("wheel", (event) => this.wheel(event), { passive: false });
    picture.addEventListener("pointerdown", (event) => this.down(event));
    picture.addEventListener("pointermove", (event) => this.move(event));
    for (const name of ["touchstart", "touchmove"]) { // else two fingers move the page
      picture.addEventListener(name, (event) => event.touches.length > 1 && event.preventDefault(),
        { passive: false });
    }
    for (const name of ["pointerup", "pointercancel"]) {
      picture.addEventListener(name, (event) => this.pointers.delete(event.pointerId));
    }
  }

  isWhole() {
    return this.part.width >= this.whole.width;
  }

  // The point of the picture that is at a place of the screen.
  at(place) {
    return new DOMPoint(place.x, place.y)
      .matrixTransform(this.picture.getScreenCTM().inverse());
  }

  show(x, y, wanted) {
    const whole = this.whole;
    const width = within(whole.width / MOST_ZOOM, wanted, whole.width);
    const height = width * whole.height / whole.width;
    this.part = { x: within(whole.x, x, whole.x + whole.width - width),
      y: within(whole.y, y, whole.y + whole.height - height), width, height };
    const { part } = this;
    this.picture.setAttribute("viewBox", `${part.x} ${part.y} ${part.width} ${part.height}`);
    this.picture.classList.toggle("zoomed", !this.isWhole());
    this.changed();
  }

  showWhole() {
    this.show(this.whole.x, this.whole.y, this.whole.width);
  }

  // Zooms so that a point of the picture stays where it is on the screen.
  zoom(factor, point) {
    const { part } = this;
    const width = within(this.whole.width / MOST_ZOOM, part.width / factor, this.whole.width);
    const share = width / part.width;
    this.show(point.x - share * (point.x - part.x), point.y - share * (point.y - part.y), width);
  }

  zoomMiddle(factor) {
    const { x, y, width, height } = this.part;
    this.zoom(factor, { x: x + width / 2, y: y + height / 2 });
  }

  // Shows the part in which some points are.
  showAll(points) {
    const xs = points.map((point) => point.x), ys = points.map((point) => point.y);
    const left = Math.min(...xs), top = Math.min(...ys);
    const across = Math.max(...xs) - left, down = Math.max(...ys) - top;
    const form = this.whole.width / this.whole.height;
    const width = within(this.whole.width / NEAREST,
      Math.max(across, down * form) * (1 + 2 * AROUND), this.whole.width);
    this.show(left + across / 2 - width / 2, top + down / 2 - width / form / 2, width);
  }

  shift(by) {
    this.show(this.part.x - by.x, this.part.y - by.y, this.part.width);
  }

  wheel(event) {
    if (this.isWhole() && event.deltaY > 0) return; // the page moves
    event.preventDefault();
    this.zoom(Math.exp(-event.deltaY * WHEEL), this.at(event));
  }

  down(event) {
    if (this.pointers.size === 0) this.isDragged = false;
    this.pointers.set(event.pointerId, { x: event.clientX, y: event.clientY });
  }

  move(event) {
    const before = this.pointers.get(event.pointerId);
    if (!before) return;
    const now = { x: event.clientX, y: event.clientY };
    const apart = Math.hypot(now.x - before.x, now.y - before.y);
    if (!this.isDragged && apart < DRAGGED) return;
    if (!this.isDragged) this.picture.setPointerCapture(event.pointerId);
    this.isDragged = true;
    const others = [...this.pointers].filter(([id]) => id !== event.pointerId);
    this.pointers.set(event.pointerId, now);
    if (others.length === 1) this.pinch(others[0][1], before, now);
    else if (others.length === 0) this.drag(before, now);
  }

  drag(before, now) {
    const from = this.at(before), to = this.at(now);
    this.shift({ x: to.x - from.x, y: to.y - from.y });
  }

  // One of two fingers moves.
  pinch(other, before, now) {
    const length = (place) => Math.hypot(place.x - other.x, place.y - other.y) || 1;
    this.zoom(length(now) / length(before), this.at({ x: (other.x + now.x) / 2,
      y: (other.y + now.y) / 2 }));
  }
}
