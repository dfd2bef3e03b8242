// The time of edits: that of the server, where the device's clock is known to differ from it.

const MINUTE = 60 * 1000;
const DAY = 24 * 60 * MINUTE;
// What a clock may be wrong by before that is said.
export const MOST_DIFFERENCE = 2 * MINUTE;

/** A clock that learns from each exchange. `kept` is what it learned before a reload, or null. */
export class Clock {
  #device;
  #isOfThisVisit = false;

  constructor(kept = null, device = () => Date.now()) {
    this.heard = kept;
    this.#device = device;
  }

  /** Learns what the server's clock says now. */
  hear(server) {
    if (!Number.isFinite(server)) return;
    this.heard = { server, device: this.#device() };
    this.#isOfThisVisit = true;
  }

  /**
   * How many milliseconds the device's clock is ahead of the server's; 0 where it is not known to
   * differ by minutes. What was learned before a reload holds as long as nobody can have put the
   * clock right since.
   */
  difference() {
    if (!this.heard) return 0;
    const ahead = this.heard.device - this.heard.server;
    if (Math.abs(ahead) <= MOST_DIFFERENCE) return 0;
    const passed = this.#device() - this.heard.device;
    const isStill = passed >= 0 && (this.#isOfThisVisit || passed < Math.abs(ahead) / 2);
    return isStill ? ahead : 0;
  }

  /** The time of an edit that is made now. */
  now() {
    return this.#device() - this.difference();
  }

  /** The latest time that is taken or sent: one of a day ahead would move all later edits. */
  limit() {
    return this.now() + DAY - MINUTE;
  }
}
