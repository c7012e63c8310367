// The types of duggfrask.mjs. What each call answers stands in duggfrask.h, under the same name after dugg_.

/** A site, as in duggfrask.h: lists may be shorter than 32, and what is left out is 0. */
export interface Site { cells: number; slots: number; channels: number; loads: number[]; reach: number[]; blocked?: bigint[]; rule: number }
/** The number given back, and the values that belong to it. */
export interface Answer { number: number; value: [number, number, number] }
export interface Edited { site: Site; answer: Answer }
export interface PlanRead { cells: number; slots: number; channels: number; answer: Answer }
export interface Renumbered { site: Site; new_of_old: number[]; old_of_new: number[]; answer: Answer }
export interface Flow { cell: number; burst: number; period: number; repeats: number; value: number }

/** Every call throws a RangeError for a number that does not fit its width, and for more than the module's memory holds. */
export interface Duggfrask {
  fault(site: Site): Answer;
  clash(site: Site, a: number, b: number): Answer;
  set_load(site: Site, cell: number, load: number): Edited;
  set_reach(site: Site, from: number, to: number): Edited;
  clear_reach(site: Site, from: number, to: number): Edited;
  load_test(site: Site): Answer;
  chain(site: Site): Answer;
  class(site: Site): Answer;
  least(site: Site): Answer;
  heaviest(site: Site): Answer;
  /** Writes into the table. */
  plan(site: Site, table: Uint8Array): Answer;
  search(site: Site, limit: number | bigint, table: Uint8Array): Answer;
  find(site: Site, limit: number | bigint, table: Uint8Array): Answer;
  over_full(site: Site, cells: number): Answer;
  check(site: Site, table: Uint8Array): Answer;
  plan_words(site: Site, words: Uint32Array): Answer;
  check_words(site: Site, words: Uint32Array): Answer;
  to_words(site: Site, table: Uint8Array, words: Uint32Array): Answer;
  to_bytes(site: Site, words: Uint32Array, table: Uint8Array): Answer;
  /** Mends the table where it stands; four numbers for each change go into the list. */
  mend(site: Site, table: Uint8Array, changes: Uint16Array): Answer;
  /** Changes the site that is lent, and the table. */
  change_load(site: Site, cell: number, load: number, table: Uint8Array): Answer;
  renumber(site: Site): Renumbered;
  carry(site: Site, new_table: Uint8Array, old_table: Uint8Array): Answer;
  share(slots: number, burst: number, period: number): Answer;
  share_repeated(slots: number, burst: number, period: number, repeats: number): Answer;
  admit(site: Site, flows: Flow[]): Answer;
  admit_beside(site: Site, flows: Flow[]): Answer;
  read_site(bytes: Uint8Array): Edited;
  write_site(site: Site, out: Uint8Array): Answer;
  read_plan(bytes: Uint8Array, table: Uint8Array): PlanRead;
  write_plan(site: Site, table: Uint8Array, out: Uint8Array): Answer;
  read_sheet(bytes: Uint8Array, slots: number, channels: number, blocked: bigint[], rule: number): Edited;
  write_sheet(site: Site, out: Uint8Array): Answer;
  tidy(sheet: Uint8Array, out: Uint8Array): Answer;
  /** The answer of a call in words; the call's number is that of the header's enum dugg_call. */
  words(answer: Answer, call: number, out: Uint8Array): Answer;
  why(site: Site, out: Uint8Array): Answer;
  list(bytes: Uint8Array, out: Uint8Array): Answer;
  version(): Answer;
}

export function load(bytes?: BufferSource): Promise<Duggfrask>;
export const calls: Record<string, string[]>;
