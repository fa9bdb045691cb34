// The states that a game has been in, for undo and redo. A state is the text that the module wrote of the whole game and the path of its cursor, `{pgn, path}`. It
// is restored by the module alone.
const MOST_STATES = 1000;
const MOST_TEXT = 32 << 20;

export class History {
  /** `first` is the number of the first state that is still there. */
  constructor(states = [], at = states.length - 1, first = 0) {
    this.states = states;
    this.at = at;
    this.first = first;
  }

  get here() {
    return this.states[this.at];
  }

  /** The number of the state that is there now. */
  get number() {
    return this.first + this.at;
  }

  get last() {
    return this.first + this.states.length - 1;
  }

  canUndo() {
    return this.at > 0;
  }

  canRedo() {
    return this.at < this.states.length - 1;
  }

  /** Gives up the states before that one. */
  forgetBefore(at) {
    this.states.splice(0, at);
    this.first += at;
    this.at -= at;
  }

  /** Notes how the game is: after a change a new state, which takes the place of those that were undone, else the place alone. Returns whether it is a new one. */
  note(state) {
    if (this.here?.pgn === state.pgn) {
      this.here.path = state.path;
      return false;
    }
    this.states.splice(this.at + 1);
    this.states.push(state);
    this.at++;
    let text = this.states.reduce((sum, it) => sum + it.pgn.length, 0);
    while (this.states.length > 2 && (this.states.length > MOST_STATES || text > MOST_TEXT)) {
      text -= this.states.shift().pgn.length;
      this.first++;
      this.at--;
    }
    return true;
  }
}
