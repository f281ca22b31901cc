// Draws on a canvas with the colours of the page, which are named in the style.

export class Pen {
  /**
   * The canvas is made empty, and as fine as the screen.
   * @param {HTMLCanvasElement} canvas
   */
  constructor(canvas) {
    const dots = window.devicePixelRatio || 1;
    this.width = canvas.clientWidth;
    canvas.width = Math.round(this.width * dots);
    canvas.height = Math.round(canvas.clientHeight * dots);
    this.context = /** @type {CanvasRenderingContext2D} */ (canvas.getContext("2d"));
    this.context.scale(dots, dots);
    this.style = getComputedStyle(document.documentElement);
    /** @type {Map<string, string>} */
    this.colours = new Map();
  }

  /** @param {string} name */
  colour(name) {
    const colour = this.colours.get(name) ?? this.style.getPropertyValue(name).trim();
    this.colours.set(name, colour);
    return colour;
  }

  /**
   * @param {string} name of the colour
   * @param {number} x
   * @param {number} y
   * @param {number} width
   * @param {number} height
   */
  fill(name, x, y, width, height) {
    this.context.fillStyle = this.colour(name);
    this.context.fillRect(x, y, width, height);
  }

  /**
   * @param {string} name
   * @param {number} x
   * @param {number} y
   * @param {number} width
   * @param {number} height
   * @param {number} line how wide it is
   */
  frame(name, x, y, width, height, line) {
    this.context.strokeStyle = this.colour(name);
    this.context.lineWidth = line;
    this.context.strokeRect(x, y, width, height);
  }

  /**
   * Slanting lines over a box.
   * @param {string} name
   * @param {number} x
   * @param {number} y
   * @param {number} width
   * @param {number} height
   */
  hatch(name, x, y, width, height) {
    const {context} = this;
    context.save();
    context.beginPath();
    context.rect(x, y, width, height);
    context.clip();
    context.strokeStyle = this.colour(name);
    context.globalAlpha = 0.28;
    context.lineWidth = 2;
    context.beginPath();
    for (let at = x - height; at < x + width; at += 8) {
      context.moveTo(at, y + height);
      context.lineTo(at + height, y);
    }
    context.stroke();
    context.restore();
  }

  /**
   * @param {string} name
   * @param {string} text
   * @param {number} x
   * @param {number} y
   * @param {number} size
   * @param {CanvasTextAlign} align
   */
  text(name, text, x, y, size, align = "center") {
    this.context.fillStyle = this.colour(name);
    this.context.font = `${size}px ${this.style.getPropertyValue("--mono")}`;
    this.context.textAlign = align;
    this.context.fillText(text, x, y);
  }
}
