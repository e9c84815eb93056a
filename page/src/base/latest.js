// Runs one job at a time, and then once more if it was requested meanwhile. So the latest is shown, and requests don't queue up.

export class Latest {
  constructor(job, onFault) {
    this.job = job;
    this.onFault = onFault;
    this.isWanted = false;
    this.isRunning = false;
    this.isStopped = false;
    /** @type {Promise<void>} */
    this.settled = Promise.resolve();
  }

  // After this no job begins.
  stop() {
    this.isStopped = true;
  }

  // The returned promise ends when nothing more is wanted.
  ask() {
    this.isWanted = true;
    if (!this.isRunning) this.settled = this.run();
    return this.settled;
  }

  async run() {
    this.isRunning = true;
    while (this.isWanted && !this.isStopped) {
      this.isWanted = false;
      try {
        await this.job();
      } catch (fault) {
        this.onFault(fault);
      }
    }
    this.isRunning = false;
  }
}
