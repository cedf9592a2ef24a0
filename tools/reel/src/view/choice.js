// ---- What is chosen: a page and a station, for all that is shown; a span for the figures; a kind, a number and a
// frame for the list.

// Any number but 0, where a number is chosen.
const REFUSED = 'refused';

class Choice {
  constructor(shift) {
    this.shift = shift;
    // Null stands for all.
    this.page = this.station = this.kind = this.number = this.frame = this.first = this.last = null;
    this.set({});
  }

  // Chooses what is named here, and leaves the rest.
  set(changes) {
    Object.assign(this, changes);
    const { shift } = this;
    this.chosen = new Uint8Array(shift.messages + 1);
    this.refusals = [];
    for (let turn = 1; turn <= shift.messages; turn++) {
      if (this.page !== null && this.page !== shift.pageOf[turn]) continue;
      if (this.station !== null && this.station !== shift.stationOf[turn]) continue;
      this.chosen[turn] = 1;
      if (shift.numbers[turn] > 0) this.refusals.push(turn);
    }
    this.fillList();
  }

  // The messages that pass every filter.
  fillList() {
    const { shift, kind, frame } = this;
    const touches = frame === null ? null : shift.touching(frame);
    const list = new Uint32Array(shift.messages);
    let count = 0;
    for (let turn = 1; turn <= shift.messages; turn++) {
      if (!this.chosen[turn] || (kind !== null && shift.kindOf[turn] !== kind)) continue;
      if ((touches && !touches[turn]) || !this.hasNumber(shift.numbers[turn])) continue;
      list[count++] = turn;
    }
    this.list = list.subarray(0, count);
  }

  hasNumber(number) {
    if (this.number === REFUSED) return number > 0;
    return this.number === null || this.number === number;
  }

  isOnlyItsFrames() {
    return this.page !== null && element('only').checked;
  }

  isAny() {
    return this.page !== null || this.station !== null;
  }

  // Whether a message names the page and comes from the station.
  has(turn) {
    return this.chosen[turn] === 1;
  }

  // The span, or the whole shift.
  ends() {
    return this.first === null ? [1, this.shift.messages] : [this.first, this.last];
  }
}
