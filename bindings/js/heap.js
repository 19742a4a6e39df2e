// The memory of the module: the three functions that the library asks of its host, as bindings/c/heap.c has them for C.
// Blocks have sizes of powers of two, from 16 bytes on. A free one is taken again, or else the next bytes after the last block.

const LEAST_POWER = 4;
const MOST_POWER = 31;
const PAGE = 65536;

/** The least power of two whose block has room for so many bytes. */
function powerFor(size) {
  if (size > 2 ** MOST_POWER) return MOST_POWER + 1;
  return Math.max(LEAST_POWER, 32 - Math.clz32(Math.max(size - 1, 0)));
}

export class Heap {
  #memory;
  #end;
  #most;
  #free = Array.from({ length: MOST_POWER + 1 }, () => []);
  #powers = new Map();
  /** How many bytes the blocks have that are in use. */
  held = 0;

  /** memory: the module's. base: where the first block may begin. most: how many bytes the memory may have. */
  constructor(memory, base, most) {
    this.#memory = memory;
    this.#end = Math.ceil(base / 16) * 16;
    this.#most = most;
  }

  /** The address of a block of so many bytes or more, or 0 if there is no memory. */
  take(size) {
    const power = powerFor(size);
    if (power > MOST_POWER) return 0;
    const at = this.#free[power].pop() ?? this.#takeNew(2 ** power);
    if (at !== 0) {
      this.#powers.set(at, power);
      this.held += 2 ** power;
    }
    return at;
  }

  give(at) {
    const power = this.#powers.get(at);
    this.#powers.delete(at);
    this.#free[power].push(at);
    this.held -= 2 ** power;
  }

  /** A block of another size with the first `kept` bytes of this one, which is then free; 0 if there is no memory, and then it stays. */
  resize(at, kept, size) {
    if (powerFor(size) === this.#powers.get(at)) return at;
    const other = this.take(size);
    if (other !== 0) {
      new Uint8Array(this.#memory.buffer).copyWithin(other, at, at + Math.min(kept, size));
      this.give(at);
    }
    return other;
  }

  /** The module's imports. Where a block lies is written to `out`: whether there is one, and its address. */
  imports() {
    const answer = (out, at) => {
      const view = new DataView(this.#memory.buffer, Number(out), 16);
      view.setBigUint64(0, at === 0 ? 0n : 1n, true);
      view.setBigUint64(8, BigInt(at), true);
    };
    return {
      rattle_alloc: (out, size) => answer(out, this.take(Number(size))),
      rattle_realloc: (out, at, kept, size) => answer(out, this.resize(Number(at), Number(kept), Number(size))),
      rattle_dealloc: (at) => this.give(Number(at)),
    };
  }

  #takeNew(bytes) {
    const at = this.#end;
    const lacking = at + bytes - this.#memory.buffer.byteLength;
    if (at + bytes > this.#most) return 0;
    if (lacking > 0 && !this.#grow(Math.ceil(lacking / PAGE))) return 0;
    this.#end = at + bytes;
    return at;
  }

  #grow(pages) {
    try {
      this.#memory.grow(pages);
      return true;
    } catch (error) {
      if (error instanceof RangeError) return false;
      throw error;
    }
  }
}
