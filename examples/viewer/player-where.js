// Where the camera of the shown picture is, as a mark on the store's map. The map is a <vtex-view>, made once its section is opened; until then the store
// is not read for it.

export class Where {
  /** `section` is a `details` element, and `place` the element in it that gets the map. */
  constructor(section, place) {
    Object.assign(this, { section, place, view: null, mark: null, file: null, camera: null });
    section.addEventListener('toggle', () => this.begin());
  }

  /** Takes the store's file, its shape, and the flight of a picture (path.js), or null where no picture is shown. */
  show(file, store, flight) {
    Object.assign(this, { file, store, flight });
    this.begin();
  }

  async begin() {
    if (!this.section.open || !this.file) return;
    if (this.view === null) {
      this.view = 'coming';
      await import('./vtex-view.js');
      this.view = document.createElement('vtex-view');
      this.view.setAttribute('label', 'The store from above, with a mark at the camera. Arrows move, plus and minus zoom, F fits.');
      this.mark = document.createElement('span');
      this.mark.className = 'camera';
      this.mark.textContent = '➤';
      this.view.append(this.mark);
      this.place.replaceChildren(this.view);
    }
    if (this.view === 'coming') return;
    if (this.opened !== this.file) {
      this.opened = this.file;
      this.view.open(this.file).catch(() => {});           // the element shows the sentence
    }
    const { flight, store } = this, around = (x, size) => ((x % size) + size) % size;
    this.mark.hidden = flight === null;
    if (flight === null) return;
    this.mark.dataset.u = around(flight.u, store.width);
    this.mark.dataset.v = around(flight.v, store.height);
    this.mark.style.setProperty('--heading', `${Math.atan2(flight.s, flight.c)}rad`);
  }
}
