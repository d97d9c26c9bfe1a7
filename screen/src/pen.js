// A line for a canvas that grows piece by piece. Corners that lie off the straight line by less than a tolerance in pixels are left away,
// so that a hundred thousand steps are drawn soon where they cannot be told apart.

const CHUNK = 100; // corners of a path: many short ones are drawn sooner than a long one

export class Pen {
    constructor(tolerance) {
        this.tolerance = tolerance;
        this.paths = [];
        this.points = 0;
        this.length = 0;
        this.corner(NaN, NaN);
    }

    // The line's last corner is here, and it may go on in any direction.
    corner(x, y) {
        this.x = this.endX = x;
        this.y = this.endY = y;
        this.far = this.leftX = this.leftY = this.rightX = this.rightY = 0;
    }

    line(x1, y1, x2, y2) {
        if (x1 !== this.endX || y1 !== this.endY) {
            this.finish();
            this.moveTo(x1, y1);
            this.corner(x1, y1);
        }
        if (!this.goesOn(x2 - this.x, y2 - this.y)) {
            this.finish();
            this.goesOn(x2 - this.x, y2 - this.y);
        }
        this.endX = x2;
        this.endY = y2;
    }

    // Whether the line from the last corner can go on straight to a place this far aside; then the directions that are left for it, from
    // `right` to `left`, are those that come near enough to this place too.
    goesOn(x, y) {
        const { tolerance, leftX, leftY, rightX, rightY } = this;
        const far = Math.sqrt(x * x + y * y);
        if (far < this.far - tolerance || this.far > 0 && (rightX * y < rightY * x || x * leftY < y * leftX)) return false;
        if (far <= tolerance) return true;
        const [asideX, asideY] = [y * tolerance / far, x * tolerance / far];
        if (this.far === 0 || (x - asideX) * leftY >= (y + asideY) * leftX) [this.leftX, this.leftY] = [x - asideX, y + asideY];
        if (this.far === 0 || rightX * (y - asideY) >= rightY * (x + asideX)) [this.rightX, this.rightY] = [x + asideX, y - asideY];
        if (far > this.far) this.far = far;
        return true;
    }

    finish() {
        if (this.x === this.endX && this.y === this.endY || Number.isNaN(this.endX)) return;
        this.path.lineTo(this.endX, this.endY);
        this.points++;
        this.length += Math.hypot(this.endX - this.x, this.endY - this.y);
        if (this.points % CHUNK === 0) this.moveTo(this.endX, this.endY);
        this.corner(this.endX, this.endY);
    }

    // What comes next is a line of its own, with dashes of its own.
    lift() {
        this.finish();
        this.corner(NaN, NaN);
    }

    moveTo(x, y) {
        if (this.points >= CHUNK * this.paths.length) this.paths.push(this.path = new Path2D());
        this.path.moveTo(x, y);
    }
}
