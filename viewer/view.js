// What part of the picture is on the screen: zoom along time, and how far it is moved.
"use strict";
Viewer.View = class {
  // The names of lanes and memories stand in a column of this width.
  static GUTTER = 124;
  static MOST = 6;

  constructor() {
    this.k = 1;
    this.x = 0;
    this.y = 0;
    this.width = this.height = 100;
    this.wholeWidth = this.wholeHeight = 100;
  }

  get left() {
    return Viewer.View.GUTTER;
  }
  get right() {
    return this.width;
  }
  toX(time) {
    return this.left + (time - this.x) * this.k;
  }
  toTime(x) {
    return this.x + (x - this.left) / this.k;
  }

  // The zoom at which all of time is on the screen.
  get least() {
    return Math.min(1, (this.width - this.left - 8) / this.wholeWidth);
  }

  keepInside() {
    this.k = Math.min(Viewer.View.MOST, Math.max(this.least, this.k));
    const across = (this.width - this.left - 8) / this.k;
    this.x = Math.max(0, Math.min(this.x, this.wholeWidth - across));
    this.y = Math.max(0, Math.min(this.y, this.wholeHeight - this.height));
  }

  zoom(by, at = (this.left + this.right) / 2) {
    const time = this.toTime(at);
    this.k = Math.min(Viewer.View.MOST, Math.max(this.least, this.k * by));
    this.x = time - (at - this.left) / this.k;
    this.keepInside();
  }

  move(dx, dy) {
    this.x += dx / this.k;
    this.y += dy;
    this.keepInside();
  }

  fit() {
    this.k = this.least;
    this.x = 0;
    this.keepInside();
  }

  // Brings a stretch of time, and a stretch of height, into view.
  show(begin, end, top, bottom) {
    const across = (this.width - this.left) / this.k;
    if (begin < this.x + 20 / this.k || end > this.x + across - 20 / this.k) this.x = (begin + end) / 2 - across / 2;
    if (top < this.y) this.y = top - 30;
    if (bottom > this.y + this.height) this.y = bottom - this.height + 30;
    this.keepInside();
  }
};
